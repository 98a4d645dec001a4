//! The readings to check by hand.

use assembler::*;
use reference::checks::{live_check, pass_on, static_check, Flag};
use reference::report::entry;
use reference::words::{Instruction, Mode, Opcode, Pointer};
use reference::{Ending, Fault};
use scenarios::*;

#[test]
fn pointer_words() {
    assert_eq!(Pointer::from_word(0x8000_1005), Ok(tagged_at(1, 5)));
    assert_eq!(Pointer::from_word(0x0001_0000), Err(Fault::PointerBits));
    for bit in 16..31 {
        let word = 0x8000_1005 | 1 << bit;
        assert_eq!(Pointer::from_word(word), Err(Fault::PointerBits));
    }
    assert_eq!(Pointer::from_word(0xFFFF), Ok(untagged_at(15, 4095)));
}

#[test]
fn instruction_words() {
    let expected = Instruction {
        opcode: Opcode::Load,
        register: 0,
        base: 2,
        indirect: true,
        offset: 3,
    };
    assert_eq!(Instruction::from_word(0x0100_A003), Ok(expected));
    assert_eq!(load(B, 3).indirect().word(), 0x0100_A003);
    let mut bench = world(&[Code(0x0C00_0FFF)]);
    bench.steps(1);
    assert_eq!(bench.machine.a, 4_294_967_295);
}

#[test]
fn recurring_instruction_words() {
    assert_eq!(epp(A, B, 7).word(), 0x0500_2007);
    assert_eq!(call(B, 9).indirect().word(), 0x0800_A009);
    assert_eq!(load(A, 3).indirect().word(), 0x0100_8003);
    assert_eq!(store(A, 5).indirect().word(), 0x0200_8005);
    assert_eq!(epp(S, A, 2).indirect().word(), 0x0501_8002);
    assert_eq!(ret(A, 1).indirect().word(), 0x0900_8001);
}

#[test]
fn word_numbers_that_leave_their_range() {
    let mut bench = world(&[epp(4, 3, 1)]);
    bench.machine.pointers[3] = untagged_at(4, 4095);
    bench.faults(23);
    let mut bench = world(&[epp(4, 3, -1)]);
    bench.machine.pointers[3] = untagged_at(4, 0);
    bench.faults(23);
    let mut bench = world(&[epp(4, 3, 1)]);
    bench.machine.pointers[3] = untagged_at(4, 4094);
    bench.steps(1);
    assert_eq!(bench.machine.pointers[4], untagged_at(4, 4095));
}

#[test]
fn sums_and_differences_wrap() {
    let mut bench = world(&[add(B, 0), sub(B, 0)]);
    bench.set(1, 0, 1u32);
    bench.machine.a = 4_294_967_295;
    bench.steps(1);
    assert_eq!(bench.machine.a, 0);
    bench.steps(1);
    assert_eq!(bench.machine.a, 4_294_967_295);
}

#[test]
fn segment_of_ten_words() {
    for rights in 0..16 {
        let mut bench = world(&[]);
        bench.machine.domains[0].rights[1] = rights;
        let read = |word| static_check(&bench.machine, 0, 1, word, Flag::Read);
        let nine = if rights & R != 0 {
            Ok(())
        } else {
            Err(Fault::FlagMissing)
        };
        assert_eq!(read(9), nine);
        assert_eq!(read(10), Err(Fault::NoSuchWord));
    }
    let mut bench = world(&[load(B, 9), load(B, 10)]);
    bench.steps(1);
    bench.faults(21);
}

#[test]
fn read_capability_on_four_words() {
    let mut bench = world(&[]);
    bench.push_frame(frame(0, &[capability(3, 4, 4, R, 1)]));
    let check = |word, flag| live_check(&bench.machine, 3, word, flag);
    assert_eq!(check(4, Flag::Read), Ok(()));
    assert_eq!(check(7, Flag::Read), Ok(()));
    assert_eq!(check(3, Flag::Read), Err(Fault::NoCapability));
    assert_eq!(check(8, Flag::Read), Err(Fault::NoCapability));
    assert_eq!(check(5, Flag::Write), Err(Fault::NoCapability));
}

#[test]
fn two_matches_and_the_first_source_fails() {
    let mut bench = world(&[load(3, 0)]);
    bench.set(3, 5, 99u32);
    let first = capability(3, 4, 4, R, 0);
    let second = capability(3, 4, 4, R, 1);
    bench.push_frame(frame(0, &[first, second]));
    bench.machine.pointers[3] = tagged_at(3, 5);
    let mut swapped = bench.clone();
    bench.faults(25);
    swapped.machine.frames[0] = frame(0, &[second, first]);
    swapped.steps(1);
    assert_eq!(swapped.machine.a, 99);
}

#[test]
fn read_and_write_in_two_capabilities_are_not_joined() {
    let mut bench = world(&[]);
    let read = capability(3, 4, 4, R, 1);
    let write = capability(3, 4, 4, W, 1);
    bench.push_frame(frame(0, &[read, write]));
    let mode = |flags: u8| Mode {
        length: 4,
        read: flags & R != 0,
        write: flags & W != 0,
    };
    let pass = |flags| pass_on(&bench.machine, tagged_at(3, 4), mode(flags));
    assert_eq!(pass(R), Ok(1));
    assert_eq!(pass(W), Ok(1));
    assert_eq!(pass(R | W), Err(Fault::NoCapability));
}

/// A call of gate 0 with `n` arguments in segment 4.
fn call_with(n: u32) -> Bench {
    let mut bench = world(&[call(B, 0).indirect()]);
    bench.set(1, 0, pointer(2, 0));
    bench.machine.pointers[0] = untagged_at(4, 0);
    bench.set(4, 0, n);
    bench.set(4, 1, pointer(0, 1));
    for k in 0..n.min(9) as u16 {
        bench.set(4, 3 + 2 * k, pointer(4, 100 + u32::from(k)));
        bench.set(4, 4 + 2 * k, mode(1, R));
    }
    bench
}

#[test]
fn eight_arguments_pass_and_nine_do_not() {
    for n in 0..=8u8 {
        let mut bench = call_with(u32::from(n));
        bench.steps(1);
        assert_eq!(bench.machine.domain, 1);
        let made = bench.machine.frames[0];
        assert_eq!(made.capability_count, n + 1);
        for k in 0..u16::from(n) {
            let argument = capability(4, 100 + k, 1, R, 0);
            assert_eq!(made.capabilities[usize::from(k)], argument);
        }
        let list = capability(4, 0, 3 + 2 * u16::from(n), R, 0);
        assert_eq!(made.capabilities[usize::from(n)], list);
    }
    call_with(9).faults(30);
}

#[test]
fn seven_frames_allow_a_call_and_eight_do_not() {
    let mut bench = call_with(0);
    for _ in 0..7 {
        bench.push_frame(frame(1, &[capability(4, 0, 3, R, 1)]));
    }
    let mut full = bench.clone();
    bench.steps(1);
    assert_eq!(bench.machine.frame_count, 8);
    full.push_frame(frame(1, &[capability(4, 0, 3, R, 1)]));
    full.faults(31);
}

#[test]
fn a_frame_given_up_is_free_again() {
    let mut bench = call_with(0);
    for _ in 0..7 {
        bench.push_frame(frame(0, &[capability(4, 0, 3, R, 1)]));
    }
    bench.set(2, 0, ret(A, 1).indirect());
    bench.set(0, 1, call(B, 0).indirect());
    bench.steps(2);
    assert_eq!(bench.machine.frame_count, 7);
    bench.steps(1);
    assert_eq!(bench.machine.frame_count, 8);
}

const SMALLEST: [u8; 30] = [
    0x08, 0x00, 0x01, 0x00, 0x01, 0x01, 0x00, 0x00, 0x00, 0x00, 0x00, 0x00, //
    0x08, 0x00, 0x02, 0x00, 0x00, 0x00, 0x00, 0x00, 0x00, 0x00, 0x00, 0x00, //
    0x02, 0x00, 0x03, 0x00, 0x00, 0x04,
];

/// The image given byte by byte, whose only word is HALT.
fn smallest() -> Vec<u8> {
    [&SMALLEST[..], &[0, 0, 4, 0]].concat()
}

#[test]
fn the_image_given_in_bytes() {
    let expected = "end halted\ncount 1\ndomain 0\nat 0 0\na 0\n";
    assert_eq!(printed(&smallest()), expected);
    let mut image = ImageBuilder::new();
    let code = image.segment([halt()]);
    image.domain(code, &[(code, E)]);
    assert_eq!(image.bytes(), smallest());
}

#[test]
fn printed_fault_spent_and_refusal() {
    let mut image = smallest();
    image[29] = 3;
    let expected = "end fault 22\ncount 0\ndomain 0\nat 0 0\na 0\n";
    assert_eq!(printed(&image), expected);

    let mut image = smallest();
    image[29] = 5;
    image[20..24].copy_from_slice(&jump(B, 0).word().to_le_bytes());
    let expected = "end spent\ncount 1000\ndomain 0\nat 0 0\na 0\n";
    assert_eq!(printed(&image), expected);

    let mut image = smallest();
    image[0] = 9;
    assert_eq!(printed(&image), "refused 3\n");
}

#[test]
fn four_byte_result() {
    let mut result = [7; 6];
    assert_eq!(entry(&smallest(), 1000, &mut result), 0);
    assert_eq!(result, [0, 0, 1, 0, 7, 7]);

    let mut image = smallest();
    image[29] = 3;
    let mut result = [7; 4];
    assert_eq!(entry(&image, 1000, &mut result), 0);
    assert_eq!(result, [1, 22, 0, 0]);

    let mut image = smallest();
    image[29] = 5;
    image[20..24].copy_from_slice(&jump(B, 0).word().to_le_bytes());
    assert_eq!(entry(&image, 0xABCD, &mut result), 0);
    assert_eq!(result, [2, 0, 0xCD, 0xAB]);
}

#[test]
fn four_byte_result_refused() {
    for length in 0..4 {
        let mut result = vec![7; length];
        assert_eq!(entry(&[], 1000, &mut result), 8);
        assert_eq!(result, vec![7; length]);
    }
    let mut result = [7; 5];
    let longer = [smallest(), vec![0]].concat();
    for (image, refusal) in [(&[][..], 1), (&longer, 6)] {
        assert_eq!(entry(image, 1000, &mut result), refusal);
        assert_eq!(result, [7; 5]);
    }
}

#[test]
fn halt_as_the_last_allowed_instruction() {
    let mut bench = world(&[lit(1), halt()]);
    let run = bench.run(2);
    assert_eq!((run.ending, run.count), (Ending::Halted, 2));
    let mut bench = world(&[lit(1), halt()]);
    let run = bench.run(1);
    assert_eq!((run.ending, run.count), (Ending::Spent, 1));
}
