//! The image: refusals in their order, reading, writing, and segments.

use assembler::*;
use compare::runs::both_run_image;
use compare::{library, Pair, State};
use reference::report::printed;
use reference::{
    host, read_image, record_bytes, segment, segment_number, write_image, Machine, Refusal,
};
use scenarios::*;

/// Two segments of three and two words, two domains.
fn small() -> ImageBuilder {
    let mut image = ImageBuilder::new();
    image.segment([lit(5), store(B, 1), halt()]);
    image.segment([11u32, 12]);
    image.gates(0, 3, 1);
    image.domain(1, &[(0, R | E), (1, R | W)]);
    image.domain(0, &[(0, E), (1, R)]);
    image.start(0, pointer(0, 0));
    image
}

/// The number that reading gives, by the library too; refused, it must leave
/// all as it was.
fn refusal(image: &[u8]) -> u8 {
    let mut machine = world(&[]).machine;
    let before = machine.clone();
    let mut memory = vec![5; 8192];
    let number = match read_image(image, &mut machine, &mut memory) {
        Ok(()) => 0,
        Err(refusal) => {
            assert_eq!(machine, before);
            assert_eq!(memory, vec![5; 8192]);
            refusal.number()
        }
    };
    if library::linked().is_ok() {
        assert_eq!(both_run_image(image, 0), Ok(number));
    }
    number
}

/// The small image with one chunk replaced.
fn with_chunk(index: usize, bytes: &[u8]) -> Vec<u8> {
    let mut chunks = small().chunks();
    chunks[index] = bytes.to_vec();
    chunks.concat()
}

/// The small image with one byte of one chunk's body replaced.
fn with_byte(index: usize, place: usize, byte: u8) -> Vec<u8> {
    let mut chunks = small().chunks();
    chunks[index][4 + place] = byte;
    chunks.concat()
}

#[test]
fn every_prefix_is_cut_short() {
    let image = small().bytes();
    for length in 0..image.len() {
        assert_eq!(refusal(&image[..length]), 1, "{length} bytes");
    }
    assert_eq!(refusal(&image), 0);
}

#[test]
fn bytes_after_the_end() {
    let mut image = small().bytes();
    image.push(0);
    assert_eq!(refusal(&image), 6);
    image.extend(small().bytes());
    assert_eq!(refusal(&image), 6);
}

#[test]
fn kinds_are_due_in_their_order() {
    for index in 0..6 {
        let good = u16::from(small().chunks()[index][2]);
        for kind in [0, 1, 2, 3, 4, 5, 256 + good, 65_535] {
            let mut chunks = small().chunks();
            chunks[index][2..4].copy_from_slice(&kind.to_le_bytes());
            let expected = if kind == good { 0 } else { 2 };
            assert_eq!(refusal(&chunks.concat()), expected);
        }
    }
    let mut chunks = small().chunks();
    chunks.remove(2);
    assert_eq!(refusal(&chunks.concat()), 2, "a segment is missing");
    let mut chunks = small().chunks();
    chunks.insert(1, chunks[1].clone());
    assert_eq!(refusal(&chunks.concat()), 2, "a segment too many");
}

#[test]
fn lengths_of_each_kind() {
    for length in [0, 7, 9, 65_535] {
        assert_eq!(refusal(&with_chunk(0, &chunk(1, &vec![0; length]))), 3);
    }
    for length in [0, 1, 3, 4, 5, 6, 7, 9, 4 + 4 * 4097, 65_535] {
        assert_eq!(refusal(&with_chunk(1, &chunk(2, &vec![0; length]))), 3);
    }
    for length in [8, 4 + 4 * 4096] {
        assert_eq!(refusal(&with_chunk(1, &chunk(2, &vec![0; length]))), 0);
    }
    for length in [0, 1, 2, 4, 17] {
        assert_eq!(refusal(&with_chunk(3, &chunk(3, &vec![0; length]))), 3);
    }
    for length in [1, 2, 65_535] {
        assert_eq!(refusal(&with_chunk(5, &chunk(4, &vec![0; length]))), 3);
    }
}

#[test]
fn fields_of_kind_1() {
    let head = |bytes: [u8; 8]| refusal(&with_chunk(0, &chunk(1, &bytes)));
    assert_eq!(head([2, 2, 0, 0, 0, 0, 0, 0]), 0);
    assert_eq!(head([0, 2, 0, 0, 0, 0, 0, 0]), 4, "no segment");
    assert_eq!(head([17, 2, 0, 0, 0, 0, 0, 0]), 4);
    assert_eq!(head([16, 2, 0, 0, 0, 0, 0, 0]), 2, "fewer follow");
    assert_eq!(head([2, 0, 0, 0, 0, 0, 0, 0]), 4, "no domain");
    assert_eq!(head([2, 9, 0, 0, 0, 0, 0, 0]), 4);
    assert_eq!(head([2, 8, 0, 0, 0, 0, 0, 0]), 2, "fewer follow");
    assert_eq!(head([2, 2, 1, 0, 0, 0, 0, 0]), 0);
    assert_eq!(head([2, 2, 2, 0, 0, 0, 0, 0]), 4, "start domain");
    assert_eq!(head([2, 2, 0, 1, 0, 0, 0, 0]), 4, "zero byte");
    assert_eq!(head([2, 2, 0, 0, 0xFF, 0x1F, 0, 0]), 0, "start word");
    assert_eq!(head([2, 2, 0, 0, 0, 0x20, 0, 0]), 4, "start segment");
    assert_eq!(head([2, 2, 0, 0, 0, 0, 1, 0]), 4, "bits 16 to 30");
    assert_eq!(head([2, 2, 0, 0, 0, 0, 0, 0x40]), 4, "bits 16 to 30");
    assert_eq!(head([2, 2, 0, 0, 0, 0, 0, 0x80]), 4, "tag");
}

#[test]
fn fields_of_kind_2_and_3() {
    assert_eq!(refusal(&with_byte(1, 0, 3)), 0, "gates up to the last word");
    assert_eq!(refusal(&with_byte(1, 0, 4)), 4, "gate count");
    assert_eq!(refusal(&with_byte(1, 1, 1)), 4, "gate count");
    assert_eq!(refusal(&with_byte(1, 2, 2)), 4, "gate domain");
    assert_eq!(refusal(&with_byte(2, 2, 2)), 4, "gate domain, no gates");
    assert_eq!(refusal(&with_byte(1, 3, 1)), 4, "zero byte");
    assert_eq!(refusal(&with_byte(3, 0, 1)), 0);
    assert_eq!(refusal(&with_byte(3, 0, 2)), 4, "stack segment");
    assert_eq!(refusal(&with_byte(3, 2, 15)), 0);
    assert_eq!(refusal(&with_byte(3, 2, 16)), 4, "rights");
    assert_eq!(refusal(&with_byte(4, 1, 255)), 4, "rights");
}

/// An image of segments with these numbers of words, one domain.
fn sized(lengths: &[usize]) -> ImageBuilder {
    let mut image = ImageBuilder::new();
    for &length in lengths {
        image.segment(vec![0u32; length]);
    }
    image.domain(0, &[(0, E)]);
    image
}

#[test]
fn words_in_all() {
    assert_eq!(refusal(&sized(&[4096, 4096]).bytes()), 0);
    assert_eq!(refusal(&sized(&[4096, 4095, 1]).bytes()), 0);
    assert_eq!(refusal(&sized(&[4096, 4095, 2]).bytes()), 5);
    assert_eq!(refusal(&sized(&[4096, 4096, 1]).bytes()), 5);
    assert_eq!(refusal(&sized(&[1, 4096, 4096]).bytes()), 5);
}

/// A header with nothing after it.
fn header(length: u16, kind: u16) -> Vec<u8> {
    [length.to_le_bytes(), kind.to_le_bytes()].concat()
}

#[test]
fn earlier_refusals_of_a_chunk_come_first() {
    let good = small().chunks();
    let upto = |count: usize, last: Vec<u8>| {
        let mut bytes = good[..count].concat();
        bytes.extend(last);
        refusal(&bytes)
    };
    for (count, kind) in [(0, 1), (1, 2), (3, 3), (5, 4)] {
        assert_eq!(upto(count, header(65_535, 9)), 2, "2 before 3 and body 1");
        assert_eq!(upto(count, header(65_535, kind)), 3, "3 before body 1");
        assert_eq!(upto(count, header(65_535, 9)[..3].to_vec()), 1);
    }
    assert_eq!(upto(0, header(8, 9)), 2, "2 before body 1");
    let mut cut = header(8, 1);
    cut.extend([99, 99, 99, 99]);
    assert_eq!(upto(0, cut), 1, "body 1 before 4");
    let mut long = header(9, 1);
    long.extend([99; 9]);
    assert_eq!(upto(0, long), 3, "3 before 4");
    let mut unknown = header(8, 9);
    unknown.extend([99; 8]);
    assert_eq!(upto(0, unknown), 2, "2 before 4");
    let mut cut = header(12, 2);
    cut.extend([99; 5]);
    assert_eq!(upto(1, cut), 1, "body 1 before 4, kind 2");
    let mut cut = header(3, 3);
    cut.extend([99; 2]);
    assert_eq!(upto(3, cut), 1, "body 1 before 4, kind 3");
}

#[test]
fn five_comes_after_three_and_before_body_one_and_four() {
    let full = sized(&[4096, 4096, 1]).chunks()[..3].concat();
    let then = |last: &[u8]| refusal(&[&full[..], last].concat());
    assert_eq!(then(&header(8, 2)), 5, "5 before body 1");
    assert_eq!(then(&chunk(2, &[255; 8])), 5, "5 before 4");
    assert_eq!(then(&header(4, 2)), 3, "3 before 5");
    assert_eq!(then(&header(4 + 4 * 4097, 2)), 3, "3 before 5");
    assert_eq!(then(&header(8, 3)), 2, "2 before 5");
    assert_eq!(then(&header(8, 2)[..3]), 1, "header 1 before 5");
    let mut longer = sized(&[4096, 4096, 1]).bytes();
    longer.push(0);
    assert_eq!(refusal(&longer), 5, "5 before 6");
}

#[test]
fn earlier_chunks_are_judged_before_later_ones() {
    let mut chunks = small().chunks();
    chunks[0][4 + 3] = 1;
    chunks[1][2] = 9;
    assert_eq!(refusal(&chunks.concat()), 4, "kind 1's field first");
    let mut chunks = small().chunks();
    chunks[1][4 + 3] = 1;
    chunks[3] = chunk(3, &[]);
    assert_eq!(refusal(&chunks.concat()), 4, "kind 2's field first");
    let mut chunks = small().chunks();
    chunks[3] = chunk(3, &[]);
    chunks[4][4] = 9;
    assert_eq!(refusal(&chunks.concat()), 3, "the first domain first");
    let mut chunks = small().chunks();
    chunks[4][4] = 9;
    chunks.push(vec![0]);
    assert_eq!(refusal(&chunks.concat()), 4, "4 before 6");
    let mut chunks = small().chunks();
    chunks[5] = chunk(4, &[0]);
    chunks.push(vec![0]);
    assert_eq!(refusal(&chunks.concat()), 3, "3 before 6");
    let mut chunks = small().chunks();
    chunks[5] = chunk(5, &[]);
    chunks.push(vec![0]);
    assert_eq!(refusal(&chunks.concat()), 2, "2 before 6");
}

/// The small image with these rights of its gates' domain on their segment.
fn with_rights(rights: u8) -> ImageBuilder {
    let mut image = small();
    image.rights(1, 0, rights);
    image
}

/// The chunks of the small image with dead gates.
fn dead() -> Vec<Vec<u8>> {
    with_rights(R | W | G).chunks()
}

#[test]
fn gates_are_dead_without_execute() {
    for rights in 0..16 {
        let expected = if rights & E == 0 { 10 } else { 0 };
        let mut image = with_rights(rights);
        for count in 1..=3 {
            image.gates(0, count, 1);
            assert_eq!(refusal(&image.bytes()), expected, "rights {rights}");
        }
        image.gates(0, 0, 1);
        assert_eq!(refusal(&image.bytes()), 0, "no gates, rights {rights}");
    }
}

/// Sixteen segments with gates into eight domains; each domain has E on the
/// segments whose gates lead into it, and nothing else.
fn gates_everywhere() -> ImageBuilder {
    let mut image = ImageBuilder::new();
    for segment in 0..16 {
        image.segment(vec![0u32; 300]);
        image.gates(segment, 1 + 16 * u16::from(segment), segment / 2);
    }
    for domain in 0..8 {
        image.domain(0, &[(2 * domain, E), (2 * domain + 1, E)]);
    }
    image
}

#[test]
fn one_dead_gate_among_many_is_enough() {
    assert_eq!(refusal(&gates_everywhere().bytes()), 0);
    for segment in 0..16 {
        let mut image = gates_everywhere();
        image.rights(segment / 2, segment, R | W | G);
        assert_eq!(refusal(&image.bytes()), 10, "segment {segment}");
        let mut image = gates_everywhere();
        image.gates(segment, 256, (segment / 2 + 1) % 8);
        assert_eq!(refusal(&image.bytes()), 10, "256 gates, segment {segment}");
    }
}

#[test]
fn the_gate_domains_rights_count_and_no_other_domains() {
    for segment in 0..16 {
        let own = segment / 2;
        let mut image = gates_everywhere();
        image.rights(own, segment, 0).start(7 - own, 0);
        for other in (0..8).filter(|&other| other != own) {
            image.rights(other, segment, 15);
        }
        assert_eq!(refusal(&image.bytes()), 10, "segment {segment}");
        image.rights(own, segment, E);
        for other in (0..8).filter(|&other| other != own) {
            image.rights(other, segment, 0);
        }
        assert_eq!(refusal(&image.bytes()), 0, "segment {segment}");
    }
}

#[test]
fn a_wrong_kind_4_comes_before_a_dead_gate() {
    let upto = dead()[..5].concat();
    let then = |last: &[u8]| refusal(&[&upto[..], last].concat());
    for length in 0..4 {
        assert_eq!(then(&header(0, 4)[..length]), 1, "{length} bytes");
    }
    for kind in [0, 1, 2, 3, 5, 0x0104, 0x0400] {
        assert_eq!(then(&header(0, kind)), 2, "kind {kind}");
        assert_eq!(then(&header(1, kind)), 2, "kind {kind}");
    }
    for length in [1, 10, 256, 65_535] {
        assert_eq!(then(&header(length, 4)), 3, "{length} bytes of body");
    }
    assert_eq!(then(&chunk(4, &[0])), 3);
    assert_eq!(then(&chunk(4, &[])), 10);
}

#[test]
fn a_dead_gate_comes_before_bytes_after_the_end() {
    for after in [vec![0], small().bytes(), dead().concat(), vec![9; 70_000]] {
        assert_eq!(refusal(&[dead().concat(), after.clone()].concat()), 10);
        assert_eq!(refusal(&[small().bytes(), after].concat()), 6);
    }
}

#[test]
fn refusals_of_kinds_1_to_3_come_before_a_dead_gate() {
    let image = dead().concat();
    for length in 0..image.len() {
        assert_eq!(refusal(&image[..length]), 1, "{length} bytes");
    }
    let mut chunks = dead();
    chunks[4][2] = 4;
    assert_eq!(refusal(&chunks.concat()), 2, "2 before 10");
    let mut chunks = dead();
    chunks[4] = chunk(3, &[0; 4]);
    assert_eq!(refusal(&chunks.concat()), 3, "3 before 10");
    for (index, place, byte) in [(0, 3, 1), (1, 0, 4), (2, 2, 2), (4, 0, 2), (4, 2, 16)] {
        let mut chunks = dead();
        chunks[index][4 + place] = byte;
        assert_eq!(refusal(&chunks.concat()), 4, "4 before 10");
    }
    let mut image = sized(&[4096, 4096, 1]);
    image.gates(1, 1, 0);
    assert_eq!(refusal(&image.bytes()), 5, "5 before 10");
    let mut image = sized(&[4096, 4096]);
    image.gates(1, 1, 0);
    assert_eq!(refusal(&image.bytes()), 10);
}

/// Reads an image into a record as bytes, by the library too; gives the number.
fn read_over(image: &[u8], record: &mut [u8], words: &mut [u32]) -> u8 {
    let mut pair = Pair::new(&State::new(record, words));
    let number = host::read(image, record, words);
    if library::linked().is_ok() {
        assert_eq!(pair.read(image), Ok(number));
    }
    number
}

#[test]
fn an_image_is_read_over_a_record_with_a_dead_gate() {
    let mut machine = Bench::new(&small()).machine;
    machine.domains[1].rights[0] = R;
    let before = record_bytes(&machine);
    let (mut record, mut words) = (before.clone(), vec![5; 8192]);
    for (image, number) in [(dead().concat(), 10), (vec![], 1)] {
        assert_eq!(read_over(&image, &mut record, &mut words), number);
        assert_eq!((&record, &words), (&before, &vec![5; 8192]));
    }
    assert_eq!(read_over(&small().bytes(), &mut record, &mut words), 0);
    assert_eq!(record, record_bytes(&Bench::new(&small()).machine));
}

#[test]
fn short_records_and_memories_come_before_a_dead_gate() {
    let image = dead().concat();
    let (mut record, mut words) = (vec![3; 1079], vec![5; 8192]);
    assert_eq!(read_over(&image, &mut record[..1078], &mut words), 8);
    assert_eq!(read_over(&image, &mut record, &mut words[..8191]), 7);
    assert_eq!(read_over(&image, &mut record, &mut words), 10);
    assert_eq!((record, words), (vec![3; 1079], vec![5; 8192]));
}

#[test]
fn a_short_memory_comes_before_the_image() {
    for image in [small().bytes(), dead().concat(), vec![], vec![9; 40]] {
        let mut machine = Machine::default();
        let mut memory = vec![5; 8191];
        let read = read_image(&image, &mut machine, &mut memory);
        assert_eq!(read, Err(Refusal::ShortMemory));
        assert_eq!(machine, Machine::default());
        assert_eq!(memory, vec![5; 8191]);
    }
}

#[test]
fn reading_makes_a_fresh_machine_and_leaves_other_words() {
    let mut machine = Machine {
        domain: 200,
        frame_count: 255,
        ..Machine::default()
    };
    let mut memory = vec![0xAAAA_AAAA; 9000];
    let mut image = small();
    image.start(1, pointer(1, 4095));
    let read = read_image(&image.bytes(), &mut machine, &mut memory);
    assert_eq!(read, Ok(()), "the old record isn't judged");
    let words = [0x0C00_0005, 0x0200_2001, 0, 11, 12];
    assert_eq!(memory[..5], words);
    assert_eq!(memory[5..], vec![0xAAAA_AAAA; 8995]);
    let mut expected = Machine {
        segment_count: 2,
        domain_count: 2,
        domain: 1,
        start_domain: 1,
        ..Machine::default()
    };
    expected.segments[0].length = 3;
    expected.segments[0].gate_count = 3;
    expected.segments[0].gate_domain = 1;
    expected.segments[1].length = 2;
    expected.domains[0].stack_segment = 1;
    expected.domains[0].rights[..2].copy_from_slice(&[R | E, R | W]);
    expected.domains[1].rights[..2].copy_from_slice(&[E, R]);
    expected.pointers[2] = untagged_at(0, 0);
    expected.start.segment = 1;
    expected.start.word = 4095;
    expected.location = expected.start;
    for (row, recency) in expected.recent.iter_mut().zip(0..) {
        row.recency = recency;
    }
    assert_eq!(machine, expected);
}

#[test]
fn b_starts_at_the_start_domains_stack() {
    let bench = Bench::new(&small());
    assert_eq!(bench.machine.pointers[2], untagged_at(1, 0));
    assert_eq!(bench.machine.pointers[0], untagged_at(0, 0));
}

/// The image that writing gives.
fn written(bench: &Bench) -> Vec<u8> {
    let mut output = vec![0xEE; 40_000];
    let length = write_image(&bench.machine, &bench.memory, &mut output).unwrap();
    assert!(output[length..].iter().all(|&byte| byte == 0xEE));
    output.truncate(length);
    output
}

#[test]
fn writing_an_image_gives_the_bytes_read() {
    let bench = Bench::new(&small());
    assert_eq!(written(&bench), small().bytes());
}

#[test]
fn what_is_written_is_accepted_again() {
    let mut no_gates = with_rights(0);
    no_gates.gates(0, 0, 1);
    for image in [small(), no_gates, gates_everywhere()] {
        let written = written(&Bench::new(&image));
        assert_eq!(written, image.bytes());
        assert_eq!(refusal(&written), 0);
    }
}

#[test]
fn writing_in_the_middle_of_a_run_gives_a_fresh_machine() {
    let mut bench = Bench::new(&small());
    let fresh = bench.machine.clone();
    bench.steps(2);
    let mut expected = small();
    expected.set(1, 1, 5u32);
    assert_eq!(written(&bench), expected.bytes());
    assert_eq!(Bench::new(&expected).machine, fresh);
}

#[test]
fn output_too_short() {
    let bench = Bench::new(&small());
    let length = small().bytes().len();
    for short in [0, 1, length - 1] {
        let mut output = vec![9; short];
        let refused = write_image(&bench.machine, &bench.memory, &mut output);
        assert_eq!(refused, Err(Refusal::ShortOutput));
        assert_eq!(output, vec![9; short]);
    }
    let mut output = vec![9; length];
    let accepted = write_image(&bench.machine, &bench.memory, &mut output);
    assert_eq!(accepted, Ok(length));
    assert_eq!(output, small().bytes());
}

#[test]
fn writing_refuses_nine_then_seven_then_eight() {
    let mut bench = Bench::new(&small());
    let memory = vec![0; 8191];
    let mut output = [9; 3];
    let mut write = |machine: &Machine| write_image(machine, &memory, &mut output);
    assert_eq!(write(&bench.machine), Err(Refusal::ShortMemory));
    let mut dead = bench.machine.clone();
    dead.domains[1].rights[0] = R;
    assert_eq!(write(&dead), Err(Refusal::NotSound));
    bench.machine.domain = 8;
    assert_eq!(write(&bench.machine), Err(Refusal::NotSound));
    assert_eq!(output, [9; 3]);
}

#[test]
fn the_longest_image() {
    let mut lengths = [1; 16];
    lengths[0] = 4096;
    lengths[1] = 8192 - 4096 - 14;
    let mut image = sized(&lengths);
    for _ in 1..8 {
        image.domain(15, &[(15, 15)]);
    }
    let mut bytes = image.bytes();
    assert_eq!(bytes.len(), 33_080);
    assert_eq!(refusal(&bytes), 0);
    assert_eq!(written(&Bench::new(&image)), bytes);
    let halted = "end halted\ncount 1\ndomain 0\nat 0 0\na 0\n";
    assert_eq!(printed(&bytes), halted);
    bytes.push(0);
    assert_eq!(printed(&bytes), "refused 6\n");
}

#[test]
fn a_segments_part_of_the_memory() {
    let mut bench = Bench::new(&small());
    let part = |bench: &Bench, number| segment(&bench.machine, &bench.memory, number).to_vec();
    let number = |bench: &Bench, number| segment_number(&bench.machine, &bench.memory, number);
    assert_eq!(part(&bench, 0), bench.memory[..3]);
    assert_eq!(part(&bench, 1), [11, 12]);
    assert_eq!(number(&bench, 1), 0);
    for absent in [2, 15, 16, 255, 256, u32::MAX] {
        assert_eq!(part(&bench, absent), []);
        assert_eq!(number(&bench, absent), 21);
    }
    bench.memory.truncate(8191);
    assert_eq!(part(&bench, 0), []);
    assert_eq!(number(&bench, 0), 7);
    assert_eq!(number(&bench, 99), 7);
    bench.machine.start_domain = 8;
    assert_eq!(number(&bench, 99), 9);
    assert_eq!(part(&bench, 0), []);
}
