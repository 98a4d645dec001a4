//! Reading and writing back, on generated images and mid-run machines.

use generator::records::{self, Snapshot};
use generator::{image, Rng};
use reference::{read_image, run, write_image, Machine};

/// The bytes that writing gives.
fn written(machine: &Machine, memory: &[u32]) -> Vec<u8> {
    let mut output = vec![0xEE; 33_080];
    let length = write_image(machine, memory, &mut output).expect("sound");
    assert!(output[length..].iter().all(|&byte| byte == 0xEE));
    output.truncate(length);
    output
}

#[test]
fn an_accepted_image_is_written_back_byte_for_byte() {
    let mut accepted = 0;
    for index in 0..5000 {
        let bytes = image(31, index);
        let mut machine = Machine::default();
        let mut memory = vec![0x5555_5555; 8192];
        if read_image(&bytes, &mut machine, &mut memory).is_err() {
            assert_eq!(machine, Machine::default());
            assert!(memory.iter().all(|&word| word == 0x5555_5555));
            continue;
        }
        accepted += 1;
        assert!(reference::is_sound(&machine));
        assert_eq!(written(&machine, &memory), bytes);
    }
    assert!(accepted > 4000, "{accepted}");
}

/// The record as a fresh machine of the same image has it.
fn fresh(machine: &Machine) -> Machine {
    let mut fresh = Machine {
        segment_count: machine.segment_count,
        domain_count: machine.domain_count,
        segments: machine.segments,
        domains: machine.domains,
        location: machine.start,
        domain: machine.start_domain,
        start_domain: machine.start_domain,
        start: machine.start,
        recent: reference::recent::fresh(),
        ..Machine::default()
    };
    let start = usize::from(machine.start_domain);
    fresh.pointers[2].segment = machine.domains[start].stack_segment;
    fresh
}

#[test]
fn a_mid_run_machine_reads_back_fresh_with_its_words() {
    let mut rng = Rng::new(32, 0);
    for _ in 0..3000 {
        let Snapshot { machine, memory } = records::sound(&mut rng);
        let bytes = written(&machine, &memory);
        let mut back = Machine::default();
        let mut words = vec![0x5555_5555; 8192];
        assert_eq!(read_image(&bytes, &mut back, &mut words), Ok(()));
        assert_eq!(back, fresh(&machine));
        let total: usize = machine.segments.iter().map(|r| usize::from(r.length)).sum();
        assert_eq!(words[..total], memory[..total]);
        assert!(words[total..].iter().all(|&word| word == 0x5555_5555));
    }
}

#[test]
fn a_run_is_its_steps_one_after_the_other() {
    let mut rng = Rng::new(33, 0);
    for _ in 0..1000 {
        let mut whole = records::sound(&mut rng);
        let mut parts = whole.clone();
        let limit = rng.below(150) as u16;
        let expected = run(&mut whole.machine, &mut whole.memory, limit).unwrap();
        let mut count = 0;
        while count < limit {
            let step = reference::step(&mut parts.machine, &mut parts.memory);
            if step.number != 0 {
                assert_eq!(expected.ending.fault(), step.number);
                break;
            }
            count += 1;
            if step.halted {
                assert_eq!(expected.ending.number(), 0);
                break;
            }
        }
        assert_eq!(expected.count, count);
        assert_eq!(whole.machine, parts.machine);
        assert_eq!(whole.memory, parts.memory);
    }
}

#[test]
fn every_instruction_keeps_the_record_sound() {
    let mut rng = Rng::new(34, 0);
    for _ in 0..2000 {
        let mut state = records::sound(&mut rng);
        for _ in 0..40 {
            let before = state.clone();
            let step = reference::step(&mut state.machine, &mut state.memory);
            assert!(reference::is_sound(&state.machine));
            if step.number != 0 {
                assert_eq!(state.machine, before.machine);
                assert_eq!(state.memory, before.memory);
                break;
            }
        }
    }
}
