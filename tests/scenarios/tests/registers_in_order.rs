//! The registers, reference after reference: what faults, returns, the words of
//! a list and two matches leave, with all sixteen written out.

use assembler::*;
use reference::recent::{fresh, Recent, Registers};
use reference::record::Capability;
use scenarios::registers::*;
use scenarios::relay::{list, on, relay, MAKER};
use scenarios::*;

/// The recency numbers that the registers of `full` begin with.
const FULL: [u8; 16] = [3, 0, 15, 1, 2, 4, 5, 6, 7, 8, 9, 10, 11, 12, 13, 14];

/// The older frame's capability.
fn older() -> Capability {
    capability(4, 40, 4, R, 0)
}

/// The live frame's three capabilities, at words 0, 10 and 20.
fn live() -> [Capability; 3] {
    [0, 10, 20].map(|word| capability(4, word, 4, R | W, 1))
}

/// Registers with these numbers: the first three hold what is given, the second
/// frame's or the first's, or are empty; all others hold the older frame's.
fn registers(first: [(Capability, u8); 3], numbers: [u8; 16]) -> Registers {
    std::array::from_fn(|k| {
        let (capability, frame) = *first.get(k).unwrap_or(&(older(), 1));
        Recent {
            capability,
            frame,
            recency: numbers[k],
        }
    })
}

/// What an empty register holds.
fn empty() -> (Capability, u8) {
    (Capability::default(), 0)
}

/// Two frames and full registers: the live frame's first and second capability
/// are in 0 and 2. The next instruction goes through register 3, indirectly by
/// this word of segment 4, which holds this link.
fn full(code: Code, word: u16, link: u32) -> Bench {
    let [one, two, _] = live();
    let mut bench = world(&[code.indirect()]);
    bench.push_frame(frame(0, &[older()]));
    bench.push_frame(frame(0, &live()));
    bench.machine.recent = registers([(one, 2), (older(), 1), (two, 2)], FULL);
    bench.set(4, word, link);
    bench.machine.pointers[3] = tagged_at(4, word);
    bench
}

#[test]
fn an_indirect_word_that_is_matched() {
    let [one, two, _] = live();
    let mut bench = full(epp(5, 3, 0), 0, pointer(0, 0));
    bench.steps(1);
    let numbers = [15, 0, 14, 1, 2, 3, 4, 5, 6, 7, 8, 9, 10, 11, 12, 13];
    let due = registers([(one, 2), (older(), 1), (two, 2)], numbers);
    assert_eq!(bench.machine.recent, due);
}

#[test]
fn an_indirect_word_that_is_entered() {
    let [one, two, three] = live();
    let mut bench = full(epp(5, 3, 0), 20, pointer(0, 0));
    bench.steps(1);
    let numbers = [2, 15, 14, 0, 1, 3, 4, 5, 6, 7, 8, 9, 10, 11, 12, 13];
    let due = registers([(one, 2), (three, 2), (two, 2)], numbers);
    assert_eq!(bench.machine.recent, due, "in the older frame's place");
}

/// The instruction must give the fault and leave all sixteen, where the indirect
/// word is matched and where it would be entered.
fn leaves_all(fault: u8, code: Code, link: u32) {
    let [one, two, _] = live();
    for word in [0, 20] {
        let mut bench = full(code, word, link);
        if fault < 24 {
            let back = untagged_at((link >> 12) as u8, (link & 0xFFF) as u16);
            bench.machine.frames[1].return_location = back;
        }
        bench.faults(fault);
        let due = registers([(one, 2), (older(), 1), (two, 2)], FULL);
        assert_eq!(bench.machine.recent, due, "fault {fault}");
    }
}

#[test]
fn no_such_word_to_return_to() {
    leaves_all(21, ret(3, 0), pointer(7, 0));
    leaves_all(21, ret(3, 0), pointer(0, 10));
}

#[test]
fn a_word_to_return_to_that_may_not_be_executed() {
    leaves_all(22, ret(3, 0), pointer(1, 0));
    leaves_all(22, ret(3, 0), pointer(2, 0));
}

#[test]
fn a_second_reference_that_nothing_matches() {
    leaves_all(24, load(3, 0), pointer(4, 30));
    leaves_all(24, store(3, 0), pointer(4, 40));
}

#[test]
fn an_indirect_word_that_is_no_pointer() {
    for code in [load, store, add, sub, jump, call, ret, jz, jm] {
        leaves_all(26, code(3, 0), 0x0001_0000);
        leaves_all(26, code(3, 0), 0x4000_0000);
    }
    leaves_all(26, epp(5, 3, 0), 0x0001_0000);
    leaves_all(26, spp(5, 3, 0), 0x0001_0000);
}

#[test]
fn a_transfer_through_a_tagged_pointer() {
    for code in [jump, call, jz] {
        leaves_all(28, code(3, 0), pointer(0, 0));
        leaves_all(28, code(3, 0), tagged(2, 0));
    }
}

#[test]
fn another_place_or_s_to_return_to() {
    leaves_all(32, ret(3, 0), pointer(0, 1));
    leaves_all(32, ret(3, 0), pointer(2, 0));
    for word in [0, 20] {
        let mut bench = full(ret(3, 0), word, pointer(0, 0));
        let before = bench.machine.recent;
        bench.machine.pointers[1] = untagged_at(0, 1);
        bench.faults(32);
        assert_eq!(bench.machine.recent, before);
    }
}

#[test]
fn a_return_whose_indirect_word_is_matched() {
    let mut bench = full(ret(3, 0), 0, pointer(0, 0));
    bench.steps(1);
    let numbers = [1, 2, 0, 3, 4, 5, 6, 7, 8, 9, 10, 11, 12, 13, 14, 15];
    let due = registers([empty(), (older(), 1), empty()], numbers);
    assert_eq!(bench.machine.recent, due, "it was the newest of both");
}

#[test]
fn a_return_whose_indirect_word_is_entered_and_cleared() {
    let mut bench = full(ret(3, 0), 20, pointer(0, 0));
    bench.steps(1);
    let numbers = [0, 2, 1, 3, 4, 5, 6, 7, 8, 9, 10, 11, 12, 13, 14, 15];
    let due = registers([empty(), empty(), empty()], numbers);
    assert_eq!(bench.machine.recent, due, "it was the newest of three");
}

/// A call with a list of one argument, whose words 0 and 1 the first capability
/// covers and all of whose words the second one does; these registers hold one
/// of both. Gives the registers after it.
fn called(holding: &[(usize, Capability)]) -> Registers {
    let mut bench = relay(&list(1), &[head(), whole()]);
    for &(k, capability) in holding {
        hold(&mut bench, k, capability, 1);
    }
    bench.steps(1);
    bench.machine.recent
}

fn head() -> Capability {
    on(0, 2, R, MAKER)
}

fn whole() -> Capability {
    on(0, 5, R, MAKER)
}

/// Registers with these numbers of which some hold a capability of a frame.
fn holding(rows: &[(usize, Capability, u8)], numbers: [u8; 16]) -> Registers {
    let mut registers = fresh();
    for (row, recency) in registers.iter_mut().zip(numbers) {
        row.recency = recency;
    }
    for &(k, capability, frame) in rows {
        (registers[k].capability, registers[k].frame) = (capability, frame);
    }
    registers
}

#[test]
fn words_of_a_list_that_are_entered() {
    let rows = [(0, head(), 1), (1, whole(), 1), (2, whole(), 2)];
    let numbers = [13, 14, 15, 0, 1, 2, 3, 4, 5, 6, 7, 8, 9, 10, 11, 12];
    assert_eq!(called(&[]), holding(&rows, numbers));
}

#[test]
fn words_of_a_list_that_are_matched() {
    let rows = [(0, whole(), 2), (4, whole(), 1), (9, head(), 1)];
    let numbers = [15, 0, 1, 2, 14, 3, 4, 5, 6, 7, 8, 9, 10, 11, 12, 13];
    let after = called(&[(4, whole()), (9, head())]);
    assert_eq!(
        after,
        holding(&rows, numbers),
        "the lower one for each word"
    );
}

#[test]
fn words_of_a_list_of_which_two_are_matched_and_one_is_entered() {
    let rows = [(0, whole(), 1), (1, whole(), 2), (9, head(), 1)];
    let numbers = [14, 15, 0, 1, 2, 3, 4, 5, 6, 13, 7, 8, 9, 10, 11, 12];
    assert_eq!(called(&[(9, head())]), holding(&rows, numbers));
}

/// Two capabilities of one source on words 0 to 3 and 2 to 5.
fn overlapping() -> [Capability; 2] {
    [0, 2].map(|word| capability(4, word, 4, R, 1))
}

#[test]
fn of_two_registers_that_match_the_lowest_decides() {
    let [first, second] = overlapping();
    for (lower, higher) in [(first, second), (second, first)] {
        let mut bench = reading(frame(0, &overlapping()));
        hold(&mut bench, 3, lower, 1);
        hold(&mut bench, 7, higher, 1);
        read(&mut bench, 4, 2);
        let numbers = [0, 1, 2, 15, 3, 4, 5, 6, 7, 8, 9, 10, 11, 12, 13, 14];
        let rows = [(3, lower, 1), (7, higher, 1)];
        assert_eq!(bench.machine.recent, holding(&rows, numbers));
    }
}

#[test]
fn two_registers_come_to_match_the_same_word() {
    let [first, second] = overlapping();
    for (words, rows) in [
        ([0, 5], [(0, first, 1), (1, second, 1)]),
        ([5, 0], [(0, second, 1), (1, first, 1)]),
    ] {
        let mut bench = reading(frame(0, &overlapping()));
        for word in words {
            read(&mut bench, 4, word);
        }
        let numbers = [14, 15, 0, 1, 2, 3, 4, 5, 6, 7, 8, 9, 10, 11, 12, 13];
        assert_eq!(bench.machine.recent, holding(&rows, numbers));
        read(&mut bench, 4, 3);
        let numbers = [15, 14, 0, 1, 2, 3, 4, 5, 6, 7, 8, 9, 10, 11, 12, 13];
        assert_eq!(bench.machine.recent, holding(&rows, numbers));
    }
}
