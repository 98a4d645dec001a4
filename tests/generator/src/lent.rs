//! Bytes that a host may lend as a record: sound records, and garbage.

use crate::random::Rng;
use crate::recent::spoil_a_register;
use crate::records::{self, Snapshot};
use assembler::E;
use reference::bytes::{CAPABILITY_BYTES, FRAME_BYTES, FRAME_ROWS, RECENT_BYTES, RECENT_ROWS};
use reference::recent::{Recent, REGISTERS};
use reference::record::{Capability, Frame, Machine, CAPABILITIES, DOMAINS, FRAMES, SEGMENTS};
use reference::words::Pointer;
use reference::{machine_from_bytes, record_bytes, Refusal, RECORD_BYTES};
use std::ops::Range;

/// Where the gates, the rights and the pointers lie in a record.
const GATES: usize = 32;
const GATE_DOMAINS: usize = 68;
const RIGHTS: usize = 92;
const POINTERS: usize = 230;

/// Bytes with words, and the sound machine that they were made of.
#[derive(Clone, Debug)]
pub struct Lent {
    pub machine: Machine,
    pub bytes: Vec<u8>,
    pub words: Vec<u32>,
}

impl From<Snapshot> for Lent {
    fn from(Snapshot { machine, memory }: Snapshot) -> Lent {
        Lent {
            bytes: record_bytes(&machine),
            words: memory,
            machine,
        }
    }
}

/// A record as a run left it.
pub fn mid_run(rng: &mut Rng) -> Lent {
    records::mid_run(rng).into()
}

/// A sound record that need not be one that a run can reach.
pub fn sound(rng: &mut Rng) -> Lent {
    records::sound(rng).into()
}

/// A record that is sound but for a dead gate: a segment has gates whose domain
/// lacks E on it. About half are otherwise as a run left them.
pub fn dead_gate(rng: &mut Rng) -> Lent {
    let ways = [take_execute, raise_a_count, lead_elsewhere];
    loop {
        let make = rng.pick(&[mid_run as fn(&mut Rng) -> Lent, sound]);
        let mut lent = make(rng);
        rng.pick(&ways)(rng, &lent.machine, &mut lent.bytes);
        if is_dead_gate_alone(&lent.bytes) {
            return lent;
        }
    }
}

/// Takes E from the domain of a segment's gates, or gives it other rights.
fn take_execute(rng: &mut Rng, machine: &Machine, bytes: &mut [u8]) {
    let segment = rng.below(u32::from(machine.segment_count)) as usize;
    let domain = machine.segments[segment].gate_domain;
    let rights = &mut bytes[rights_at(domain, segment)];
    *rights = rng.pick(&[*rights, *rights, 0, 15]) & !E;
}

/// Gives a segment one gate, or as many as it has words.
fn raise_a_count(rng: &mut Rng, machine: &Machine, bytes: &mut [u8]) {
    let segment = rng.below(u32::from(machine.segment_count)) as usize;
    let count = rng.pick(&[1, machine.segments[segment].length]);
    bytes[GATES + 2 * segment..][..2].copy_from_slice(&count.to_le_bytes());
}

/// Leads the gates of a segment into any domain.
fn lead_elsewhere(rng: &mut Rng, machine: &Machine, bytes: &mut [u8]) {
    let segment = rng.below(u32::from(machine.segment_count)) as usize;
    bytes[GATE_DOMAINS + segment] = rng.below(u32::from(machine.domain_count)) as u8;
}

/// Where a record has a domain's rights on a segment.
fn rights_at(domain: u8, segment: usize) -> usize {
    RIGHTS + SEGMENTS * usize::from(domain) + segment
}

/// Whether bytes are no sound record for dead gates alone: they are one once
/// the domain of each segment's gates has E on it.
pub fn is_dead_gate_alone(bytes: &[u8]) -> bool {
    if machine_from_bytes(bytes) != Err(Refusal::NotSound) {
        return false;
    }
    let mut mended = bytes.to_vec();
    for segment in 0..SEGMENTS {
        let has_gates = bytes[GATES + 2 * segment..][..2] != [0, 0];
        let domain = bytes[GATE_DOMAINS + segment];
        if has_gates && usize::from(domain) < DOMAINS {
            mended[rights_at(domain, segment)] |= E;
        }
    }
    machine_from_bytes(&mended).is_ok()
}

/// 1,079 bytes of which most are no sound record; a quarter are one but for a
/// dead gate, and some have a changed register.
pub fn garbage(rng: &mut Rng) -> Lent {
    if rng.chance(25) {
        return dead_gate(rng);
    }
    let mut lent = sound(rng);
    let bytes = &mut lent.bytes;
    match rng.below(25) {
        0 | 1 => bytes.fill_with(|| rng.next() as u8),
        2 => bytes.fill(0xEE),
        3..=5 => spoil_a_flag(rng, bytes),
        6..=9 => spoil_an_unused_row(rng, &lent.machine, bytes),
        10 | 11 => *bytes = record_bytes(&garbage_machine(rng)),
        12..=16 => spoil_a_register(rng, &lent.machine, bytes),
        _ => replace_some(rng, bytes),
    }
    lent
}

/// Fewer than 1,079 bytes, mostly of a sound record.
pub fn short(rng: &mut Rng) -> Lent {
    let make = rng.pick(&[sound as fn(&mut Rng) -> Lent, garbage]);
    let mut lent = make(rng);
    let any = rng.below(RECORD_BYTES as u32) as usize;
    lent.bytes
        .truncate(rng.pick(&[0, 1, RECORD_BYTES - 1, any]));
    lent
}

/// Replaces one to four bytes.
fn replace_some(rng: &mut Rng, bytes: &mut [u8]) {
    for _ in 0..rng.between(1, 4) {
        let place = rng.below(bytes.len() as u32) as usize;
        bytes[place] = rng.pick(&[0, 1, 2, 9, 16, 17, 99, 200, 255]);
    }
}

/// Makes the byte of a flag 2 or more.
fn spoil_a_flag(rng: &mut Rng, bytes: &mut [u8]) {
    let place = rng.pick(&flags());
    bytes[place] = rng.pick(&[2, 2, 3, 128, 255]);
}

/// Where the flags lie: tags of the pointers; of each frame those of its
/// capabilities, s and return location; of each register its capability's.
pub fn flags() -> Vec<usize> {
    let pointers = (0..8).map(|row| POINTERS + 4 * row + 3);
    let frames = (0..FRAMES).flat_map(|row| {
        let frame = FRAME_ROWS + FRAME_BYTES * row;
        let capabilities = (0..CAPABILITIES).flat_map(move |k| {
            let last = frame + CAPABILITY_BYTES * (k + 1);
            [last - 1, last]
        });
        capabilities.chain([frame + 76, frame + 80])
    });
    let registers = (1..=REGISTERS).flat_map(|row| {
        let end = RECENT_ROWS + RECENT_BYTES * row;
        [end - 4, end - 3]
    });
    pointers.chain(frames).chain(registers).collect()
}

/// Makes a byte of a row that is not in use other than 0.
fn spoil_an_unused_row(rng: &mut Rng, machine: &Machine, bytes: &mut [u8]) {
    let places = unused(machine);
    if !places.is_empty() {
        bytes[rng.pick(&places)] = rng.pick(&[1, 1, 2, 9, 255]);
    }
}

/// Where the rows lie that a sound machine does not use: frames past the
/// frames, capabilities past a frame's, segments past the segments, domains
/// past the domains, and of an empty register all but its recency number.
pub fn unused(machine: &Machine) -> Vec<usize> {
    let depth = usize::from(machine.frame_count);
    let frame = |row: usize| FRAME_ROWS + FRAME_BYTES * row;
    let mut places: Vec<usize> = (frame(depth)..frame(FRAMES)).collect();
    for (row, used) in machine.frames[..depth].iter().enumerate() {
        let capability = |k: usize| frame(row) + 1 + CAPABILITY_BYTES * k;
        let count = usize::from(used.capability_count);
        places.extend(capability(count)..capability(CAPABILITIES));
    }
    for (row, register) in machine.recent.iter().enumerate() {
        let first = RECENT_ROWS + RECENT_BYTES * row;
        if register.frame == 0 {
            places.extend(first..=first + CAPABILITY_BYTES);
        }
    }
    let segments = usize::from(machine.segment_count)..SEGMENTS;
    let domains = usize::from(machine.domain_count)..DOMAINS;
    for (first, width, rows) in [
        (0, 2, &segments),
        (32, 2, &segments),
        (68, 1, &segments),
        (84, 1, &domains),
        (92, SEGMENTS, &domains),
    ] {
        places.extend(row_bytes(first, width, rows));
    }
    places
}

/// The bytes of some rows of a table.
fn row_bytes(first: usize, width: usize, rows: &Range<usize>) -> Range<usize> {
    first + width * rows.start..first + width * rows.end
}

/// A record of nothing but garbage, with flags that are 0 or 1.
fn garbage_machine(rng: &mut Rng) -> Machine {
    let mut machine = Machine {
        segment_count: rng.next() as u8,
        domain_count: rng.next() as u8,
        a: rng.word(),
        domain: rng.next() as u8,
        frame_count: rng.next() as u8,
        start_domain: rng.next() as u8,
        ..Machine::default()
    };
    for row in &mut machine.segments {
        row.length = rng.next() as u16;
        row.gate_count = rng.next() as u16;
        row.gate_domain = rng.next() as u8;
    }
    for row in &mut machine.domains {
        row.stack_segment = rng.next() as u8;
        row.rights = row.rights.map(|_| rng.next() as u8);
    }
    machine.pointers = machine.pointers.map(|_| garbage_pointer(rng));
    let place = garbage_pointer(rng);
    machine.location.segment = place.segment;
    machine.location.word = place.word;
    machine.frames = machine.frames.map(|_| garbage_frame(rng));
    machine.recent = machine.recent.map(|_| garbage_register(rng));
    machine
}

fn garbage_frame(rng: &mut Rng) -> Frame {
    Frame {
        capability_count: rng.next() as u8,
        return_location: garbage_pointer(rng),
        s: garbage_pointer(rng),
        domain: rng.next() as u8,
        capabilities: [(); CAPABILITIES].map(|()| garbage_capability(rng)),
    }
}

fn garbage_register(rng: &mut Rng) -> Recent {
    Recent {
        capability: garbage_capability(rng),
        frame: rng.next() as u8,
        recency: rng.below(20) as u8,
    }
}

fn garbage_pointer(rng: &mut Rng) -> Pointer {
    Pointer {
        tag: rng.chance(50),
        segment: rng.next() as u8,
        word: rng.next() as u16,
    }
}

fn garbage_capability(rng: &mut Rng) -> Capability {
    Capability {
        segment: rng.next() as u8,
        word: rng.next() as u16,
        length: rng.next() as u16,
        read: rng.chance(50),
        write: rng.chance(50),
        source: rng.next() as u8,
    }
}
