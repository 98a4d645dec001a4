//! `bench_images`: reads and writes the longest image with the proved library
//! and with the reference, in turns, and prints the best CPU time of each.
//!
//! Both keep the record as bytes. A write that is refused for its output only
//! decodes the record, so the difference is the writer by itself. No buffer is
//! cleared between calls.

use compare::images::samples;
use compare::{cpu_time, library};
use reference::{host, LONGEST_IMAGE, MEMORY_WORDS, RECORD_BYTES};
use std::hint::black_box;

/// Rounds, of which the best counts.
const ROUNDS: usize = 300;
/// Calls in a round.
const CALLS: u32 = 20;

/// What a call works on.
struct Buffers {
    image: Vec<u8>,
    record: Vec<u8>,
    words: Vec<u32>,
    output: Vec<u8>,
}

impl Buffers {
    fn new(image: &[u8]) -> Buffers {
        Buffers {
            image: image.to_vec(),
            record: vec![0; RECORD_BYTES],
            words: vec![0; MEMORY_WORDS],
            output: vec![0; LONGEST_IMAGE],
        }
    }
}

/// A kind of call, and both ways to make it.
struct Work {
    library: fn(&mut Buffers),
    reference: fn(&mut Buffers),
}

fn library_read(b: &mut Buffers) {
    black_box(library::read(&b.image, &mut b.record, &mut b.words));
}

fn library_write(b: &mut Buffers) {
    black_box(library::write(&b.record, &b.words, &mut b.output));
}

fn library_refused_write(b: &mut Buffers) {
    black_box(library::write(&b.record, &b.words, &mut []));
}

fn reference_read(b: &mut Buffers) {
    black_box(host::read(&b.image, &mut b.record, &mut b.words));
}

fn reference_write(b: &mut Buffers) {
    black_box(host::write(&b.record, &b.words, &mut b.output));
}

fn reference_refused_write(b: &mut Buffers) {
    black_box(host::write(&b.record, &b.words, &mut []));
}

const WORK: [Work; 3] = [
    Work {
        library: library_read,
        reference: reference_read,
    },
    Work {
        library: library_write,
        reference: reference_write,
    },
    Work {
        library: library_refused_write,
        reference: reference_refused_write,
    },
];

/// Microseconds of CPU time for each call of a round.
fn time(call: fn(&mut Buffers), buffers: &mut Buffers) -> f64 {
    let begun = cpu_time();
    for _ in 0..CALLS {
        call(black_box(buffers));
    }
    (cpu_time() - begun).as_secs_f64() * 1e6 / f64::from(CALLS)
}

fn row(name: &str, [library, reference]: [f64; 2]) {
    let ratio = reference / library;
    println!("{name:<24}{library:>9.2}{reference:>11.2}{ratio:>15.2}");
}

fn main() {
    if let Err(missing) = library::linked() {
        eprintln!("{missing}");
        std::process::exit(1);
    }
    let samples = samples();
    let image = &samples.last().expect("ten").bytes;
    let [mut a, mut b] = [(); 2].map(|()| Buffers::new(image));
    let mut best = [[f64::INFINITY; 2]; WORK.len()];
    for _ in 0..ROUNDS {
        for (times, work) in best.iter_mut().zip(&WORK) {
            times[0] = times[0].min(time(work.library, &mut a));
            times[1] = times[1].min(time(work.reference, &mut b));
        }
    }
    for buffers in [&a, &b] {
        assert!(buffers.output == *image, "written as read");
    }
    let [read, write, refused] = best;
    let alone = [write[0] - refused[0], write[1] - refused[1]];
    println!("µs of CPU time per image  library  reference  library's speed");
    row("read", read);
    row("write", write);
    row("  refused for its output", refused);
    row("  the writer alone", alone);
}
