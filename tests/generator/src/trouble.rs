//! Things that go wrong in a routine, each aimed at one fault.

use crate::call_tree::Tree;
use crate::random::Rng;
use crate::subsystem::Subsystem;
use assembler::*;

/// What goes wrong.
#[derive(Clone, Copy)]
pub enum Trouble {
    NoSuchWord,
    FlagMissing,
    WordNumber,
    NoCapability,
    SourceFails,
    PointerBits,
    BadInstruction,
    TaggedTransfer,
    NotAGate,
    BadList,
    BadReturn,
    ReturnPlace,
}

const ALL: [Trouble; 12] = [
    Trouble::NoSuchWord,
    Trouble::FlagMissing,
    Trouble::WordNumber,
    Trouble::NoCapability,
    Trouble::SourceFails,
    Trouble::PointerBits,
    Trouble::BadInstruction,
    Trouble::TaggedTransfer,
    Trouble::NotAGate,
    Trouble::BadList,
    Trouble::BadReturn,
    Trouble::ReturnPlace,
];

/// One of them.
pub fn choose(rng: &mut Rng) -> Trouble {
    rng.pick(&ALL)
}

/// Adds the trouble to a routine.
pub fn put(rng: &mut Rng, tree: &mut Tree, index: usize, trouble: Trouble) {
    let domains = tree.parts.len() as u32;
    let own = tree.routines[index].domain as u32;
    let other = (own + rng.between(1, domains - 1)) % domains;
    let part = tree.part(index);
    match trouble {
        Trouble::NoSuchWord => no_such_word(rng, part),
        Trouble::FlagMissing => flag_missing(rng, part, other),
        Trouble::WordNumber => word_number(rng, part),
        Trouble::NoCapability => no_capability(rng, part, index),
        Trouble::SourceFails | Trouble::BadList | Trouble::ReturnPlace => {
            bad_call(rng, tree, index, trouble);
        }
        Trouble::PointerBits => {
            let link = 1 << rng.between(16, 30) | rng.below(0x1_0000);
            part.put_through(rng.pick(&[load, store, jump, call, ret]), link);
        }
        Trouble::BadInstruction => bad_instruction(rng, part),
        Trouble::TaggedTransfer => tagged_transfer(rng, part),
        Trouble::NotAGate => {
            let last = tree.parts[other as usize].code.here();
            let link = pointer(2 * other, last.saturating_sub(rng.below(2)));
            tree.part(index).put_through(call, link);
        }
        Trouble::BadReturn => bad_return(rng, part, index),
    }
}

fn no_such_word(rng: &mut Rng, part: &mut Subsystem) {
    let absent = pointer(15, rng.below(4096));
    let past_end = part.data_pointer(rng.between(2048, 4095));
    let link = rng.pick(&[absent, past_end]);
    part.put_through(rng.pick(&[load, store, add, sub, jump, call]), link);
}

fn flag_missing(rng: &mut Rng, part: &mut Subsystem, other: u32) {
    let own_code = pointer(part.code_segment(), 0);
    let (code, link): (fn(u32, i32) -> Code, u32) = match rng.below(5) {
        0 => (load, pointer(2 * other + 1, rng.below(2))),
        1 => (store, pointer(2 * other + 1, rng.below(2))),
        2 => (store, own_code),
        3 => (jump, pointer(2 * other, 0)),
        _ => (call, pointer(2 * other + 1, 0)),
    };
    part.put_through(code, link);
}

fn word_number(rng: &mut Rng, part: &mut Subsystem) {
    if rng.chance(50) {
        part.put(epp(3, B, -(rng.between(1, 2048) as i32)));
        return;
    }
    let first = rng.between(2049, 4095);
    let link = part.data.word(part.data_pointer(first));
    part.put(epp(3, B, link as i32).indirect());
    let offset = rng.between(4096 - first, 2047) as i32;
    let code = rng.pick(&[load, store, jump, jz, jm, ret]);
    part.put(code(3, offset));
}

fn no_capability(rng: &mut Rng, part: &mut Subsystem, index: usize) {
    if index > 0 && rng.chance(50) {
        part.put(store(A, rng.below(3) as i32));
        return;
    }
    if index > 0 && rng.chance(50) {
        let code = rng.pick(&[load, store, jump, call, ret, jz, jm]);
        part.put(code(A, rng.between(40, 900) as i32).indirect());
        return;
    }
    let link = tagged(part.data_segment(), rng.below(2));
    part.put_through(rng.pick(&[load, store, add, sub]), link);
}

fn bad_instruction(rng: &mut Rng, part: &mut Subsystem) {
    let word = match rng.below(4) {
        0 => rng.between(13, 255) << 24,
        1 => 1 << rng.below(24),
        2 => rng.between(1, 12) << 24 | 1 << rng.between(19, 23),
        _ => lit(0).word() | 1 << rng.between(12, 23),
    };
    part.code.word(word);
}

fn tagged_transfer(rng: &mut Rng, part: &mut Subsystem) {
    let link = tagged(part.code_segment(), rng.below(4));
    match rng.below(4) {
        0 => {
            part.put(lit(0));
            part.put_through(jz, link);
        }
        1 => {
            part.put(lit(-1));
            part.put_through(jm, link);
        }
        2 => {
            part.put_through(call, link);
        }
        _ => {
            part.put_through(jump, link);
        }
    }
}

/// A call of the next routine with a list that is bad, or whose arguments
/// name words of another domain, or that cannot come back.
fn bad_call(rng: &mut Rng, tree: &mut Tree, index: usize, trouble: Trouble) {
    let next = index + 1;
    if next >= tree.routines.len() {
        return no_capability(rng, tree.part(index), index);
    }
    let parameters = tree.routines[next].parameters.clone();
    let stranger = 2 * tree.routines[next].domain as u32 + 1;
    let gate = tree.gate(next);
    let part = tree.part(index);
    let kept_a = part.data.word(0) as i32;
    part.put(spp(A, B, kept_a));
    let own = part.block(rng, 6);
    let place = match trouble {
        Trouble::SourceFails => pointer(stranger, 1),
        _ => part.data_pointer(own),
    };
    let mut list = ArgumentList::new(0);
    for parameter in &parameters {
        list = list.argument(place, parameter.length, parameter.flags);
    }
    let list = part.data.block(list.words());
    part.call_with_list(list, gate);
    match trouble {
        Trouble::BadList => spoil_list(rng, part, list, parameters.len() as u32),
        Trouble::ReturnPlace => {
            let past_code = pointer(part.code_segment(), rng.between(2000, 4095));
            let absent = pointer(15, rng.below(4096));
            let back = rng.pick(&[place, past_code, absent]);
            part.data.set(list + 1, back);
        }
        _ => {}
    }
    part.put(epp(A, B, kept_a).indirect());
}

/// Makes one word of a list bad.
fn spoil_list(rng: &mut Rng, part: &mut Subsystem, list: u32, n: u32) {
    let (place, word) = match rng.below(4) {
        0 if n > 0 => (list + 4, rng.pick(&[0, 0x4000_0000, 5, 0x4000_1001])),
        1 if n > 0 => (list + 2 + 2 * n, 0xC000_0001 | 1 << rng.between(13, 29)),
        2 => {
            let back = part.data.words()[list as usize + 1];
            (list + 1, back | 0x8000_0000)
        }
        _ => (list, rng.pick(&[9, 10, 255, 0x8000_0000, u32::MAX])),
    };
    part.data.set(place, word);
}

fn bad_return(rng: &mut Rng, part: &mut Subsystem, index: usize) {
    if index == 0 {
        let link = tagged(part.code_segment(), 0);
        part.put_through(ret, link);
    } else if rng.chance(50) {
        part.put(epp(S, B, 1));
        part.put_return();
    } else {
        part.put(epp(3, A, 1).indirect());
        part.put(ret(3, 1));
    }
}
