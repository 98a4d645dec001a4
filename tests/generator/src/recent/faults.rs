//! Images in which an instruction reads its indirect word through a tagged
//! pointer and then gives a fault.

use super::image::place;
use crate::random::Rng;
use crate::subsystem::{arithmetic, Subsystem};
use crate::templates::{chain_image, chain_parts};
use assembler::*;

/// The tag of a pointer word.
const TAG: u32 = 0x8000_0000;
/// The pointer register that the second domain lets point to the links.
const LINKS: u32 = 5;

/// The fault to come to; other images give 26, 28 and 32 too.
fn any_fault(rng: &mut Rng) -> u8 {
    match rng.below(25) {
        0..=3 => 21,
        4..=7 => 22,
        8..=11 => 24,
        12..=14 => 25,
        15..=17 => 26,
        18..=20 => 28,
        _ => 32,
    }
}

/// The second domain is given arguments that it may only read, may only write,
/// or whose source fails, and one whose words are links. It uses some, then
/// comes to the fault through an indirect word that it may read.
pub fn build(rng: &mut Rng) -> ImageBuilder {
    let fault = any_fault(rng);
    let [mut a, mut b, mut c] = chain_parts();
    let (read, written) = (a.block(rng, 3), a.block(rng, 3));
    let link = link(rng, fault);
    let links = a.data.block([link, link | TAG, link]);
    let list = ArgumentList::new(0)
        .argument(a.data_pointer(read), 3, R)
        .argument(a.data_pointer(written), 3, W)
        .argument(a.data_pointer(links), 3, R)
        .argument(pointer(rng.pick(&[3, 5]), 0), 2, R | W);
    let list = a.data.block(list.words());
    let start = a.here();
    a.repeat(rng.between(1, 3), |a| arithmetic(rng, a));
    a.call_with_list(list, pointer(2, 0));
    a.put(halt());
    if fault < 24 {
        a.data.set(list + 1, link);
    }
    b.put(epp(LINKS, A, place(2)).indirect());
    for _ in 0..rng.between(1, 3) {
        use_some(rng, &mut b);
    }
    come_to(rng, &mut b, fault);
    b.put_return();
    c.put(halt());
    chain_image(rng, &[a, b, c], start)
}

/// The word that the links are: for 21 and 22 the place that the call is to go
/// back to, which isn't there or which the first domain may not execute.
fn link(rng: &mut Rng, fault: u8) -> u32 {
    match fault {
        21 => pointer(rng.pick(&[0, 9, 15]), rng.between(200, 300)),
        22 => pointer(rng.pick(&[1, 2, 3, 4]), 0),
        26 => pointer(1, rng.below(3)) | 1 << rng.between(16, 30),
        _ => pointer(rng.pick(&[1, 3, 5]), rng.between(200, 300)),
    }
}

/// Uses an argument as it may be used.
fn use_some(rng: &mut Rng, b: &mut Subsystem) {
    match rng.below(6) {
        0 => b.put(store(A, place(1)).indirect()),
        1 => b.put(load(LINKS, rng.below(3) as i32)),
        _ => b.put(rng.pick(&[load, add])(A, place(0)).indirect()),
    }
}

/// An instruction whose indirect word may be read, and which then gives the
/// fault.
fn come_to(rng: &mut Rng, b: &mut Subsystem, fault: u8) {
    let k = rng.below(3) as i32;
    let code = match fault {
        24 => not_matched(rng, k),
        25 => rng.pick(&[load, store, add, sub])(A, place(3)),
        26 => rng.pick(&[load, store, add, jump, call, ret, jz, jm])(LINKS, k),
        28 => transfer(rng, b, k),
        _ => return_in_vain(rng, b, fault, k),
    };
    b.put(code.indirect());
}

/// A reference that no capability matches.
fn not_matched(rng: &mut Rng, k: i32) -> Code {
    let reading = rng.pick(&[load, add, sub]);
    match rng.below(5) {
        0 => store(A, place(0)),
        1 => spp(6, A, place(0)),
        2 => reading(A, place(1)),
        3 => store(LINKS, k),
        _ => reading(LINKS, k),
    }
}

/// A JUMP or a CALL, or a jump that is taken.
fn transfer(rng: &mut Rng, b: &mut Subsystem, k: i32) -> Code {
    match rng.below(4) {
        0 => jump(LINKS, k),
        1 => call(LINKS, k),
        2 => {
            b.put(lit(0));
            jz(LINKS, k)
        }
        _ => {
            b.put(lit(-1));
            jm(LINKS, k)
        }
    }
}

/// A RET: through a link, or through the list, which isn't the newest then;
/// there 32 comes from another s.
fn return_in_vain(rng: &mut Rng, b: &mut Subsystem, fault: u8, k: i32) -> Code {
    if rng.chance(50) {
        return ret(LINKS, k);
    }
    if fault == 32 {
        b.put(epp(S, B, k));
    }
    b.put(load(LINKS, k));
    ret(A, 1)
}
