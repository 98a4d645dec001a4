//! Instruction words, effective pointers, and the instructions without
//! transfer.

use assembler::*;
use reference::words::{Instruction, Mode, Pointer, OPCODES};
use reference::Fault;
use scenarios::*;

/// The zero masks as the table has them, by opcode.
const MASKS: [u32; 13] = [
    0x00FF_FFFF,
    0x00FF_0000,
    0x00FF_0000,
    0x00FF_0000,
    0x00FF_0000,
    0x00F8_0000,
    0x00F8_0000,
    0x00FF_0000,
    0x00FF_0000,
    0x00FF_0000,
    0x00FF_0000,
    0x00FF_0000,
    0x00FF_F000,
];

#[test]
fn every_bit_under_a_mask_is_refused() {
    for (opcode, mask) in (0u32..).zip(MASKS) {
        let plain = opcode << 24;
        assert!(Instruction::from_word(plain).is_ok());
        for bit in 0..24 {
            let refused = Instruction::from_word(plain | 1 << bit).is_err();
            assert_eq!(refused, mask >> bit & 1 == 1, "opcode {opcode} bit {bit}");
        }
        assert_eq!(OPCODES[opcode as usize] as u32, opcode);
    }
    for opcode in 13..256u32 {
        let refused = Instruction::from_word(opcode << 24);
        assert_eq!(refused, Err(Fault::BadInstruction));
    }
}

/// Executes a word, which must give 27 and leave all as it was, or must not
/// give 27.
fn executes(word: u32, refused: bool) {
    let mut bench = world(&[]);
    bench.set(0, 0, word);
    match refused {
        true => bench.faults(27),
        false => assert_ne!(bench.step(), 27, "{word:#010X}"),
    }
}

#[test]
fn every_bit_under_a_mask_is_refused_at_execution() {
    for opcode in 0..256u32 {
        let mask = MASKS.get(opcode as usize);
        executes(opcode << 24, mask.is_none());
        for bit in 0..24 {
            let refused = mask.is_none_or(|mask| mask >> bit & 1 == 1);
            executes(opcode << 24 | 1 << bit, refused);
        }
    }
}

#[test]
fn offsets_are_signed() {
    for offset in -2048i32..=2047 {
        let word = load(3, offset).word();
        let taken = Instruction::from_word(word).unwrap();
        assert_eq!(i32::from(taken.offset), offset);
        assert_eq!(taken.base, 3);
        let mut bench = world(&[lit(offset)]);
        bench.steps(1);
        assert_eq!(bench.machine.a, offset as u32);
    }
}

#[test]
fn pointer_words_packed_and_taken_apart() {
    for segment in 0..16u8 {
        for word in [0u16, 1, 2047, 2048, 4095] {
            let by_hand = pointer(u32::from(segment), u32::from(word));
            let place = untagged_at(segment, word);
            assert_eq!(place.to_word(), by_hand);
            assert_eq!(Pointer::from_word(by_hand), Ok(place));
            let by_hand = tagged(u32::from(segment), u32::from(word));
            let place = tagged_at(segment, word);
            assert_eq!(place.to_word(), by_hand);
            assert_eq!(Pointer::from_word(by_hand), Ok(place));
        }
    }
}

#[test]
fn mode_words() {
    let good = Mode::from_word(mode(4096, R | W), 0);
    let expected = Mode {
        length: 4096,
        read: true,
        write: true,
    };
    assert_eq!(good, Ok(expected));
    let bad = |word: u32, first: u16| Mode::from_word(word, first) == Err(Fault::BadList);
    assert!(bad(mode(0, R), 0), "length 0");
    assert!(bad(mode(1, 0), 0), "no flag");
    assert!(bad(mode(4096, R), 1), "past the last word number");
    assert!(!bad(mode(4095, R), 1), "up to the last word number");
    assert!(!bad(mode(1, W), 4095));
    assert!(bad(mode(2, W), 4095));
    for length in [4097, 5000, 8191] {
        assert!(bad(mode(length, R), 0));
    }
    for bit in 13..30 {
        assert!(bad(mode(1, R) | 1 << bit, 0), "bit {bit}");
    }
}

#[test]
fn a_pointer_out_of_range_faults_though_it_is_not_used() {
    for code in [epp(4, 3, -1), jz(3, -1), jm(3, -1)] {
        let mut bench = world(&[code]);
        bench.machine.a = 1;
        bench.machine.pointers[3] = untagged_at(1, 0);
        bench.faults(23);
    }
}

#[test]
fn tags_of_the_two_pointers_are_joined() {
    let cases = [
        (untagged_at(1, 0), pointer(3, 7), untagged_at(3, 7)),
        (untagged_at(1, 0), tagged(3, 7), tagged_at(3, 7)),
        (tagged_at(1, 0), pointer(3, 7), tagged_at(3, 7)),
        (tagged_at(1, 0), tagged(3, 7), tagged_at(3, 7)),
    ];
    for (base, word, expected) in cases {
        let mut bench = world(&[epp(4, 3, 0).indirect()]);
        bench.set(1, 0, word);
        bench.machine.pointers[3] = base;
        bench.push_frame(frame(0, &[capability(1, 0, 1, R, 0)]));
        bench.steps(1);
        assert_eq!(bench.machine.pointers[4], expected);
    }
}

#[test]
fn only_one_level_of_indirection() {
    let mut bench = world(&[load(B, 0).indirect()]);
    bench.set(1, 0, pointer(1, 1));
    bench.set(1, 1, pointer(1, 2));
    bench.set(1, 2, 77u32);
    bench.steps(1);
    assert_eq!(bench.machine.a, pointer(1, 2));
}

#[test]
fn epp_does_not_check_what_it_points_to() {
    for place in [untagged_at(15, 4095), untagged_at(2, 0), tagged_at(9, 9)] {
        let mut bench = world(&[epp(7, 3, 0)]);
        bench.machine.pointers[3] = place;
        bench.steps(1);
        assert_eq!(bench.machine.pointers[7], place);
    }
}

#[test]
fn epp_loads_any_register_and_keeps_the_others() {
    for register in 0..8u32 {
        let mut bench = world(&[epp(register, 3, 1)]);
        bench.machine.pointers[3] = tagged_at(9, 41);
        let mut expected = bench.machine.clone();
        expected.pointers[register as usize] = tagged_at(9, 42);
        expected.location.word = 1;
        bench.steps(1);
        assert_eq!(bench.machine, expected);
    }
}

#[test]
fn spp_stores_the_pointer_word_with_its_tag() {
    let mut bench = world(&[spp(5, B, 4)]);
    bench.machine.pointers[5] = tagged_at(15, 4095);
    bench.steps(1);
    assert_eq!(bench.changed(), [(1, 4, 0x8000_FFFF)]);
    let mut bench = world(&[spp(5, 3, 0)]);
    bench.machine.pointers[3] = untagged_at(0, 5);
    bench.faults(22);
}

#[test]
fn faults_of_the_indirect_read() {
    let indirect = |base: Pointer, word: u32| {
        let mut bench = world(&[epp(4, 3, 0).indirect()]);
        bench.set(1, 0, word);
        bench.set(3, 0, word);
        bench.machine.pointers[3] = base;
        bench
    };
    indirect(untagged_at(1, 10), 0).faults(21);
    indirect(untagged_at(9, 0), 0).faults(21);
    indirect(untagged_at(3, 0), 0).faults(22);
    indirect(tagged_at(1, 0), 0).faults(24);
    indirect(untagged_at(1, 0), 0x0001_0000).faults(26);
    let mut bench = indirect(tagged_at(3, 0), 0);
    bench.push_frame(frame(0, &[capability(3, 0, 1, R, 0)]));
    bench.faults(25);
}

#[test]
fn load_store_add_and_sub_change_only_what_they_say() {
    let effects = [
        (load(B, 3), 40, vec![]),
        (store(B, 3), 100, vec![(1, 3, 100)]),
        (add(B, 3), 140, vec![]),
        (sub(B, 3), 60, vec![]),
    ];
    for (code, a, changed) in effects {
        let mut bench = world(&[code]);
        bench.set(1, 3, 40u32);
        bench.machine.a = 100;
        let mut expected = bench.machine.clone();
        expected.a = a;
        expected.location.word = 1;
        bench.steps(1);
        assert_eq!(bench.machine, expected);
        assert_eq!(bench.changed(), changed);
    }
}

#[test]
fn needed_flags_of_each_instruction() {
    let needs = [
        (load(3, 0), R),
        (store(3, 0), W),
        (add(3, 0), R),
        (sub(3, 0), R),
        (spp(5, 3, 0), W),
        (jump(3, 0), E),
    ];
    for (code, flag) in needs {
        for rights in 0..16 {
            let mut bench = world(&[code]);
            bench.machine.domains[0].rights[4] = rights;
            bench.machine.pointers[3] = untagged_at(4, 100);
            match rights & flag {
                0 => bench.faults(22),
                _ => bench.steps(1),
            }
        }
    }
}
