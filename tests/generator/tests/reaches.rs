//! A batch of images must reach every part of the processor, and the records
//! must be of the kinds they claim to be.

use assembler::E;
use generator::handed_on::{about_to_hand_on, next_list, Found, HandedOn, UNCOVERED};
use generator::lent::{self, Lent};
use generator::recent::{about_to_refer, spoil_a_register, Recents};
use generator::records::{self, Snapshot};
use generator::{image, made, made_damaged, DeadGate, DeadGates, Made};
use generator::{Reached, Rng, DEAD_GATES, LIMIT, REFUSALS};
use reference::recent::REGISTERS;
use reference::record::Domain;
use reference::words::OPCODES;
use reference::{host, is_sound, machine_from_bytes, record_bytes, run, step, Machine, Refusal};

#[test]
fn a_batch_reaches_every_part() {
    let mut reached = Reached::default();
    let mut memory = vec![0; reference::MEMORY_WORDS];
    for index in 0..20_000 {
        let image = made(2024, index);
        reached.dead_gates.add(&image);
        let _ = reached.observe(&image.bytes, &mut memory, LIMIT);
    }
    println!("{reached}");
    for (number, count) in (21..).zip(reached.faults) {
        assert!(count >= 50, "fault {number}: {count}");
    }
    let fetches = reached.fetches_without_execute;
    assert!(fetches >= 300, "fetches that gave 22: {fetches}");
    for (number, count) in REFUSALS.iter().zip(reached.refusals) {
        let least = if *number == 10 { 500 } else { 50 };
        assert!(count >= least, "refusal {number}: {count}");
    }
    for made in DEAD_GATES {
        let count = reached.dead_gates.of(made);
        assert!(count >= 50, "{made:?}: {count}");
    }
    for (opcode, count) in OPCODES.iter().zip(reached.completed) {
        assert!(count >= 1000, "{opcode:?}: {count}");
    }
    for (n, count) in reached.calls.iter().enumerate() {
        assert!(*count >= 50, "calls with {n} arguments: {count}");
    }
    assert!(reached.frames[8] >= 50, "eight frames");
    assert!(reached.passed_on >= 200, "passed on");
    assert!(reached.tagged_indirect >= 1000, "tagged indirect reads");
    reaches_handed_on_lists(&reached.handed_on);
    reaches_the_registers(&reached.recents);
    assert!(2 * reached.twenty > reached.images, "twenty instructions");
    for (bucket, count) in reached.crossings.iter().enumerate() {
        assert!(*count >= 300, "crossings, bucket {bucket}: {count}");
    }
    assert!(reached.faults_after_crossing >= 1000, "crossed and faulted");
    assert!(reached.left_in_frames >= 1000, "crossed, frames in use");
}

/// Calls with a tagged a must come to each of their ends.
fn reaches_handed_on_lists(handed_on: &HandedOn) {
    let refused = handed_on.cover_refused();
    assert!(refused >= 200, "24 when the cover was judged: {refused}");
    for why in UNCOVERED {
        let count = handed_on.of(why);
        assert!(count >= 50, "{why:?}: {count}");
    }
    for (what, count) in [
        ("25 at a word", handed_on.failing_word),
        ("source not the caller", handed_on.other_source),
        ("source the caller itself", handed_on.own_source),
        ("two sources", handed_on.two_sources),
        ("words read by the source", handed_on.read_by_source),
    ] {
        assert!(count >= 200, "{what}: {count}");
    }
    let last = handed_on.last_frame;
    assert!(last >= 50, "into the last frame: {last}");
}

/// What fewer than 1,000 of 100,000 images do, and how many of 20,000 must.
const SELDOM: [(&str, u64); 4] = [
    ("a call's list not entered", 20),
    ("25 after words of a list", 80),
    ("26 after words of a list", 30),
    ("30 after words of a list", 80),
];

/// Of 100,000 images at least 1,000 must do each other thing with the
/// registers; here are 20,000.
fn reaches_the_registers(recents: &Recents) {
    for (what, count) in recents.named() {
        let seldom = SELDOM.iter().find(|(name, _)| *name == what);
        let least = seldom.map_or(200, |&(_, least)| least);
        assert!(count >= least, "{what}: {count}");
    }
    assert_eq!(recents.impossible(), 0, "faults");
}

/// What an image says of its gates.
struct Layout {
    /// Of each segment: how many gates, and the domain they lead into.
    gates: Vec<(u16, usize)>,
    /// Of each domain: its rights on each segment.
    rights: Vec<Vec<u8>>,
}

impl Layout {
    /// Takes apart an image whose kinds 1 to 3 are good.
    fn new(image: &[u8]) -> Layout {
        let pair = |at: usize| u16::from_le_bytes([image[at], image[at + 1]]);
        let (segments, domains) = (image[4], image[5]);
        let (mut gates, mut rights, mut at) = (Vec::new(), Vec::new(), 12);
        for _ in 0..segments {
            gates.push((pair(at + 4), usize::from(image[at + 6])));
            at += 4 + usize::from(pair(at));
        }
        for _ in 0..domains {
            let end = at + 4 + usize::from(pair(at));
            rights.push(image[at + 5..end].to_vec());
            at = end;
        }
        Layout { gates, rights }
    }

    /// The segments whose gate domain lacks E, with so many gates.
    fn lacking(&self, counted: impl Fn(u16) -> bool) -> Vec<usize> {
        let lacks = |&segment: &usize| {
            let (count, domain) = self.gates[segment];
            counted(count) && self.rights[domain][segment] & E == 0
        };
        (0..self.gates.len()).filter(lacks).collect()
    }

    /// Whether a dead gate's domain has other rights, and another domain E.
    fn has_other_rights(&self) -> bool {
        self.lacking(|count| count > 0).iter().any(|&segment| {
            let own = self.rights[self.gates[segment].1][segment];
            own != 0 && self.rights.iter().any(|row| row[segment] & E != 0)
        })
    }
}

/// Checks that an image is what was made of it, and gives the segments with
/// dead gates, and how many segments there are.
fn is_as_made(made: DeadGate, image: &[u8]) -> (Vec<usize>, usize) {
    let read = reference::report::run_image(image, 0);
    let number = read.map_or_else(Refusal::number, |_| 0);
    assert_eq!(number, made.number(), "{made:?}");
    let layout = Layout::new(image);
    let dead = layout.lacking(|count| count > 0);
    match made {
        DeadGate::NoGates => {
            assert!(dead.is_empty() && !layout.lacking(|count| count == 0).is_empty());
        }
        DeadGate::LaterSegment => {
            assert!(layout.gates[0].0 > 0 && dead.len() == 1 && dead[0] > 0);
        }
        DeadGate::OtherRights => assert!(dead.len() == 1 && layout.has_other_rights()),
        DeadGate::Taken | DeadGate::OtherDomain | DeadGate::CountRaised => {
            assert_eq!(dead.len(), 1, "{made:?}");
        }
        DeadGate::SeveralSegments => assert!(dead.len() >= 2),
        _ => assert!(!dead.is_empty(), "{made:?}"),
    }
    (dead, layout.gates.len())
}

#[test]
fn dead_gates_are_as_they_were_made() {
    let mut dead_gates = DeadGates::default();
    let (mut tens, mut in_the_last, mut in_the_first) = (0, 0, 0);
    let (mut in_two, mut in_more) = (0, 0);
    for index in 0..20_000 {
        let image = made_damaged(2024, index);
        dead_gates.add(&image);
        let Made { bytes, dead_gate } = image;
        let Some(made) = dead_gate else { continue };
        let (dead, segments) = is_as_made(made, &bytes);
        let ten = made.number() == 10;
        tens += u32::from(ten);
        in_the_last += u32::from(dead == [segments - 1]);
        in_the_first += u32::from(dead == [0]);
        in_two += u32::from(ten && dead.len() == 2);
        in_more += u32::from(ten && dead.len() > 2);
    }
    println!("{dead_gates}");
    for made in DEAD_GATES {
        assert!(dead_gates.of(made) >= 100, "{made:?}");
    }
    assert!(tens >= 1000, "{tens} that give 10");
    assert!(
        in_the_last >= 200,
        "{in_the_last} in the last segment alone"
    );
    assert!(in_the_first >= 100, "{in_the_first} in the first alone");
    assert!(in_two >= 80, "{in_two} in two segments");
    assert!(in_more >= 50, "{in_more} in more than two");
}

#[test]
fn the_observed_run_is_the_run() {
    let mut reached = Reached::default();
    for index in 0..2000 {
        let bytes = image(7, index);
        let mut memory = vec![0; reference::MEMORY_WORDS];
        let observed = reached.observe(&bytes, &mut memory, LIMIT);
        let plain = reference::report::run_image(&bytes, LIMIT);
        assert_eq!(observed, plain, "image {index}");
    }
}

#[test]
fn images_depend_on_seed_and_index_only() {
    assert_eq!(image(5, 17), image(5, 17));
    assert_ne!(image(5, 17), image(6, 17));
    assert_ne!(image(5, 17), image(5, 18));
}

#[test]
fn sound_records_are_sound_and_mostly_have_frames() {
    let mut rng = Rng::new(11, 0);
    let mut with_frames = 0;
    for _ in 0..3000 {
        for Snapshot { machine, .. } in [records::mid_run(&mut rng), records::sound(&mut rng)] {
            assert!(is_sound(&machine));
            with_frames += u32::from(machine.frame_count > 0);
            let bytes = record_bytes(&machine);
            assert_eq!(machine_from_bytes(&bytes), Ok(machine));
        }
    }
    assert!(with_frames > 4000, "{with_frames}");
}

#[test]
fn records_that_cannot_execute_are_sound_and_give_22() {
    let mut rng = Rng::new(17, 0);
    let (mut with_frames, mut others_may) = (0, 0);
    for _ in 0..1000 {
        let Snapshot { machine, memory } = records::cannot_execute(&mut rng);
        let (mut left, mut words) = (machine.clone(), memory.clone());
        let ran = run(&mut left, &mut words, 9);
        assert_eq!(ran.map(|run| (run.ending.fault(), run.count)), Ok((22, 0)));
        assert_eq!((&left, &words), (&machine, &memory));
        with_frames += u32::from(machine.frame_count > 0);
        let segment = usize::from(machine.location.segment);
        let executes = |row: &Domain| row.rights[segment] & E != 0;
        others_may += u32::from(machine.domains.iter().any(executes));
    }
    assert!(with_frames >= 500, "{with_frames}");
    assert!((200..800).contains(&others_may), "{others_may}");
}

#[test]
fn lists_about_to_be_handed_on_are_found() {
    let mut rng = Rng::new(18, 0);
    let mut found = [0; 3];
    let mut by_frames = [[0; 2]; 8];
    for _ in 0..4000 {
        let Snapshot { machine, memory } = about_to_hand_on(&mut rng);
        assert!(is_sound(&machine));
        let (mut after, mut words) = (machine.clone(), memory.clone());
        let number = step(&mut after, &mut words).number;
        let tagged = machine.pointers[0].tag;
        match next_list(&machine, &memory) {
            Some(Found::Uncovered(why)) => {
                assert_eq!(number, 24, "{why:?}");
                found[0] += 1;
            }
            Some(Found::Covered { sources, .. }) if number == 0 => {
                let made = after.live_frame().expect("a frame").capabilities();
                assert_eq!(made.last().map(|list| list.source), Some(sources[0]));
                found[1] += 1;
                let own = sources[0] == machine.domain;
                by_frames[usize::from(machine.frame_count)][usize::from(own)] += 1;
            }
            Some(Found::Covered { .. }) => found[2] += 1,
            None => assert!(!tagged || after.frame_count <= machine.frame_count),
        }
    }
    assert!(found.iter().all(|&count| count >= 300), "{found:?}");
    let few = by_frames[6..]
        .as_flattened()
        .iter()
        .any(|&count| count < 30);
    assert!(!few, "by frames in use and source {by_frames:?}");
}

/// Makes each call with a record that is not sound: 9, and all stays.
fn refused_by_all(lent: &Lent) {
    let (mut record, mut words) = (lent.bytes.clone(), lent.words.clone());
    let (mut output, mut first, mut count) = ([3; 40], 5, 6);
    assert_eq!(host::run(&mut record, &mut words, 9), 0x0409_0000);
    assert_eq!(host::stretch(&mut record, &mut words, 9), 0x0409_0000);
    assert_eq!(host::step(&mut record, &mut words), 9);
    assert_eq!(host::restart(&mut record), 9);
    assert_eq!(host::write(&record, &words, &mut output), 0x10009);
    let segment = host::segment(&record, &words, 0, &mut first, &mut count);
    assert_eq!((segment, first, count, output), (9, 5, 6, [3; 40]));
    assert_eq!(host::check(&record, 0, 0, 0, 0), 0x10009);
    assert_eq!((record, words), (lent.bytes.clone(), lent.words.clone()));
}

#[test]
fn garbage_records_are_refused_and_left_alone() {
    let mut rng = Rng::new(12, 0);
    let mut unsound = 0;
    for _ in 0..3000 {
        let lent = lent::garbage(&mut rng);
        match machine_from_bytes(&lent.bytes) {
            Ok(machine) => assert_eq!(record_bytes(&machine), lent.bytes),
            Err(refusal) => {
                assert_eq!(refusal, Refusal::NotSound);
                refused_by_all(&lent);
                unsound += 1;
            }
        }
    }
    assert!(unsound > 1500, "{unsound}");
}

#[test]
fn records_with_a_dead_gate_are_sound_but_for_it() {
    let mut rng = Rng::new(15, 0);
    let mut with_frames = 0;
    let mut changed = [0; 3];
    for _ in 0..1000 {
        let lent = lent::dead_gate(&mut rng);
        assert_eq!(machine_from_bytes(&lent.bytes), Err(Refusal::NotSound));
        refused_by_all(&lent);
        with_frames += u32::from(lent.machine.frame_count > 0);
        let sound = record_bytes(&lent.machine);
        for (count, part) in changed.iter_mut().zip([32..64, 68..84, 92..220]) {
            *count += u32::from(sound[part.clone()] != lent.bytes[part]);
        }
    }
    assert!(with_frames >= 500, "{with_frames}");
    assert_eq!(changed.iter().sum::<u32>(), 1000, "one change each");
    assert!(changed.iter().all(|&count| count >= 100), "{changed:?}");
    let garbage = (0..1000).map(|_| lent::garbage(&mut rng));
    let dead = garbage.filter(|lent| lent::is_dead_gate_alone(&lent.bytes));
    let dead = dead.count();
    assert!((200..400).contains(&dead), "{dead}");
}

#[test]
fn sound_records_are_not_said_to_have_dead_gates() {
    let mut rng = Rng::new(16, 0);
    for _ in 0..300 {
        for lent in [lent::mid_run(&mut rng), lent::sound(&mut rng)] {
            assert!(!lent::is_dead_gate_alone(&lent.bytes));
        }
        assert!(!lent::is_dead_gate_alone(&lent::short(&mut rng).bytes));
    }
    assert!(!lent::is_dead_gate_alone(&[0xEE; reference::RECORD_BYTES]));
}

#[test]
fn a_flag_above_1_or_a_byte_in_an_unused_row_is_no_record() {
    let mut rng = Rng::new(13, 0);
    for _ in 0..30 {
        let Lent { machine, bytes, .. } = lent::sound(&mut rng);
        let spoiled = |place: usize, byte: u8| {
            let mut other = bytes.clone();
            other[place] = byte;
            assert_eq!(
                machine_from_bytes(&other),
                Err(Refusal::NotSound),
                "{place}"
            );
        };
        lent::flags()
            .into_iter()
            .for_each(|place| spoiled(place, 2));
        for place in lent::unused(&machine) {
            assert_eq!(bytes[place], 0, "{place}");
            spoiled(place, 1);
        }
    }
}

#[test]
fn short_records_are_short() {
    let mut rng = Rng::new(14, 0);
    for _ in 0..100 {
        let lent = lent::short(&mut rng);
        assert_eq!(machine_from_bytes(&lent.bytes), Err(Refusal::ShortOutput));
    }
}

/// How many registers of a machine are filled.
fn filled(machine: &Machine) -> usize {
    machine.recent.iter().filter(|row| row.frame != 0).count()
}

#[test]
fn records_have_registers_of_all_kinds() {
    let mut rng = Rng::new(19, 0);
    let (mut older, mut full, mut twice) = (0, 0, 0);
    for _ in 0..3000 {
        for Snapshot { machine, .. } in [records::mid_run(&mut rng), records::sound(&mut rng)] {
            let rows = machine.recent.iter().filter(|row| row.frame != 0);
            let mut held: Vec<_> = rows.map(|row| (row.frame, row.capability)).collect();
            older += u32::from(held.iter().any(|row| row.0 < machine.frame_count));
            full += u32::from(held.len() == REGISTERS);
            let count = held.len();
            held.sort_by_key(|(frame, row)| (*frame, row.segment, row.word, row.length));
            held.dedup();
            twice += u32::from(held.len() < count);
        }
    }
    assert!(older >= 500, "{older} with an older frame's");
    assert!(full >= 100, "{full} with all filled");
    assert!(twice >= 200, "{twice} with the same twice");
}

#[test]
fn changed_registers_are_sound_or_not() {
    let mut rng = Rng::new(20, 0);
    let (mut stayed, mut sound, mut unsound) = (0, 0, 0);
    for _ in 0..5000 {
        let mut lent = lent::sound(&mut rng);
        let before = lent.bytes.clone();
        spoil_a_register(&mut rng, &lent.machine, &mut lent.bytes);
        match machine_from_bytes(&lent.bytes) {
            _ if lent.bytes == before => stayed += 1,
            Ok(machine) => {
                assert_eq!(record_bytes(&machine), lent.bytes);
                sound += 1;
            }
            Err(refusal) => {
                assert_eq!(refusal, Refusal::NotSound);
                unsound += 1;
            }
        }
    }
    assert!(sound >= 500, "{sound} sound, {stayed} as they were");
    assert!(unsound >= 1500, "{unsound} not sound");
}

#[test]
fn records_about_to_refer_are_sound_and_reach_the_registers() {
    let mut rng = Rng::new(21, 0);
    let mut reached = Reached::default();
    let mut with_registers = 0;
    for _ in 0..5000 {
        let mut start = about_to_refer(&mut rng);
        assert!(is_sound(&start.machine));
        with_registers += u32::from(filled(&start.machine) > 0);
        let ran = reached.observe_run(&mut start.machine, &mut start.memory, 1, false);
        assert!(ran.is_ok());
    }
    let recents = &reached.recents;
    assert!(with_registers >= 3000, "{with_registers}");
    assert!(recents.rereads >= 300, "{recents}");
    assert!(recents.several >= 100, "{recents}");
    assert!(recents.older_replaced >= 50, "{recents}");
    assert!(recents.not_entered >= 200, "{recents}");
    assert!(recents.operand_failed() >= 200, "{recents}");
}
