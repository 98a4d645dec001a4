//! What the tests of whole images share: a bench that holds a machine with
//! its memory, the layout of three subsystems A, B and C, and a relay.
//!
//! Where the proved library is there, each call on a bench is made by it too,
//! and its answer, record and words must be the reference's.

pub mod registers;
pub mod relay;

use assembler::{Code, ImageBuilder, E, G, R, W};
use compare::library;
use compare::runs::{both_call, both_run_image, Call};
use reference::record::{Capability, Frame};
use reference::report::PRINTED_LIMIT;
use reference::words::Pointer;
use reference::{Ending, Fault, Machine, Run};

/// A machine with its memory, and the memory as it was loaded.
#[derive(Clone)]
pub struct Bench {
    pub machine: Machine,
    pub memory: Vec<u32>,
    loaded: Vec<u32>,
}

impl Bench {
    /// Loads an image that must be accepted.
    pub fn new(image: &ImageBuilder) -> Bench {
        let mut machine = Machine::default();
        let mut memory = vec![0xDEAD_BEEF; 8192];
        let read = reference::read_image(&image.bytes(), &mut machine, &mut memory);
        assert_eq!(read, Ok(()), "the image must be accepted");
        Bench {
            machine,
            loaded: memory.clone(),
            memory,
        }
    }

    /// Makes a call by the library too, on a copy.
    fn by_library_too(&self, call: Call) {
        if library::linked().is_ok() {
            let called = both_call(&self.machine, &self.memory, call);
            called.unwrap_or_else(|difference| panic!("{difference}"));
        }
    }

    /// Runs up to the limit.
    pub fn run(&mut self, limit: u16) -> Run {
        self.by_library_too(Call::Run(limit));
        reference::run(&mut self.machine, &mut self.memory, limit).expect("sound")
    }

    /// Makes a stretch up to the limit.
    pub fn stretch(&mut self, limit: u16) -> Run {
        self.by_library_too(Call::Stretch(limit));
        reference::stretch(&mut self.machine, &mut self.memory, limit).expect("sound")
    }

    /// One instruction; gives its number.
    pub fn step(&mut self) -> u8 {
        self.by_library_too(Call::Step);
        reference::step(&mut self.machine, &mut self.memory).number
    }

    /// Instructions that must all complete.
    pub fn steps(&mut self, count: usize) {
        for index in 0..count {
            assert_eq!(self.step(), 0, "instruction {index} must complete");
        }
    }

    /// One instruction that must give a fault and leave all as it was.
    pub fn faults(&mut self, number: u8) {
        let before = self.clone();
        assert_eq!(self.step(), number);
        assert_eq!(self.machine, before.machine, "a fault leaves the record");
        assert_eq!(self.memory, before.memory, "a fault leaves the memory");
    }

    /// Where a word lies in the memory.
    fn address(&self, segment: u8, word: u16) -> usize {
        let rows = &self.machine.segments;
        let before = &rows[..usize::from(segment)];
        assert!(word < rows[usize::from(segment)].length);
        let first: usize = before.iter().map(|row| usize::from(row.length)).sum();
        first + usize::from(word)
    }

    /// A word of a segment.
    pub fn word(&self, segment: u8, word: u16) -> u32 {
        self.memory[self.address(segment, word)]
    }

    /// Sets a word of a segment; it doesn't count as changed.
    pub fn set(&mut self, segment: u8, word: u16, value: impl Into<u32>) {
        let address = self.address(segment, word);
        self.memory[address] = value.into();
        self.loaded[address] = self.memory[address];
    }

    /// Every word that differs from the one loaded: segment, word, new value.
    /// No word past the last segment may differ.
    pub fn changed(&self) -> Vec<(u8, u16, u32)> {
        let mut changed = Vec::new();
        let mut address = 0;
        for segment in 0..self.machine.segment_count {
            for word in 0..self.machine.segments[usize::from(segment)].length {
                if self.memory[address] != self.loaded[address] {
                    changed.push((segment, word, self.memory[address]));
                }
                address += 1;
            }
        }
        assert_eq!(self.memory[address..], self.loaded[address..]);
        changed
    }

    /// Makes a frame the live one.
    pub fn push_frame(&mut self, frame: Frame) {
        let index = usize::from(self.machine.frame_count);
        self.machine.frames[index] = frame;
        self.machine.frame_count += 1;
    }
}

/// A frame of given capabilities that returns to word 0 of segment 0.
pub fn frame(domain: u8, capabilities: &[Capability]) -> Frame {
    let mut frame = Frame {
        capability_count: capabilities.len() as u8,
        domain,
        ..Frame::default()
    };
    frame.capabilities[..capabilities.len()].copy_from_slice(capabilities);
    frame
}

/// A capability from segment, first word, length, flags and source.
pub fn capability(segment: u8, word: u16, length: u16, flags: u8, source: u8) -> Capability {
    Capability {
        segment,
        word,
        length,
        read: flags & R != 0,
        write: flags & W != 0,
        source,
    }
}

/// A tagged pointer.
pub fn tagged_at(segment: u8, word: u16) -> Pointer {
    Pointer {
        tag: true,
        segment,
        word,
    }
}

/// An untagged pointer.
pub fn untagged_at(segment: u8, word: u16) -> Pointer {
    Pointer::untagged(segment, word)
}

/// What a run of a whole image must come to.
pub struct Expected<'a> {
    /// 0 for halted, else the fault.
    pub fault: u8,
    pub count: u16,
    pub domain: u8,
    pub at: (u8, u16),
    pub a: u32,
    pub frames: u8,
    pub changed: &'a [(u8, u16, u32)],
}

/// What a program prints that runs an image for 1,000 instructions. The image
/// is read and run by the library too.
pub fn printed(image: &[u8]) -> String {
    if library::linked().is_ok() {
        let ran = both_run_image(image, PRINTED_LIMIT);
        ran.unwrap_or_else(|difference| panic!("{difference}"));
    }
    reference::report::printed(image)
}

/// Runs an image for 1,000 instructions and compares all of the result, the
/// printed one too.
pub fn expect(image: &ImageBuilder, expected: Expected) -> Bench {
    let mut bench = Bench::new(image);
    let run = bench.run(1000);
    let ending = match expected.fault {
        0 => "halted".to_string(),
        fault => format!("fault {fault}"),
    };
    let (segment, word) = expected.at;
    let lines = format!(
        "end {ending}\ncount {}\ndomain {}\nat {segment} {word}\na {}\n",
        expected.count, expected.domain, expected.a
    );
    assert_eq!(printed(&image.bytes()), lines);
    assert_eq!(run.ending.fault(), expected.fault);
    assert_eq!(run.count, expected.count);
    assert_eq!(bench.machine.frame_count, expected.frames, "frames");
    assert_eq!(bench.changed(), expected.changed);
    bench
}

/// Domain A of the common layout.
pub const DOMAIN_A: u8 = 0;
/// Domain B of the common layout.
pub const DOMAIN_B: u8 = 1;
/// Domain C of the common layout.
pub const DOMAIN_C: u8 = 2;

/// Three subsystems: code of A, B, C in segments 0, 2, 4 and data with stack
/// in 1, 3, 5. The first word of B's and of C's code is a gate; A may call
/// B's, B may call C's. Execution starts in A at word 0.
pub fn subsystems(code: [&[Code]; 3], data: [&[u32]; 3]) -> ImageBuilder {
    let mut image = ImageBuilder::new();
    for (code, data) in code.into_iter().zip(data) {
        image.segment(code.iter().copied());
        image.segment(data.iter().copied());
    }
    image.domain(1, &[(0, R | E), (1, R | W), (2, G)]);
    image.domain(3, &[(2, R | E), (3, R | W), (4, G)]);
    image.domain(5, &[(4, R | E), (5, R | W)]);
    image.gates(2, 1, DOMAIN_B).gates(4, 1, DOMAIN_C);
    image
}

/// Words of the world's code segment.
pub const WORLD_CODE: u16 = 10;

/// A world for single instructions, two domains, segments:
/// 0 code of domain 0 (10 words), 1 its stack (10 words), 2 code of domain 1
/// with two gates (10 words), 3 its stack (10 words), 4 data of both domains
/// (4,096 words). Domain 0 executes and may call the gates.
pub fn world(code: &[Code]) -> Bench {
    let mut image = ImageBuilder::new();
    let mut words = vec![0u32; usize::from(WORLD_CODE)];
    for (word, code) in words.iter_mut().zip(code) {
        *word = code.word();
    }
    image.segment(words);
    image.segment(vec![0u32; 10]);
    image.segment(vec![0u32; 10]);
    image.segment(vec![0u32; 10]);
    image.segment(vec![0u32; 4096]);
    image.domain(1, &[(0, R | E), (1, R | W), (2, G), (4, R | W)]);
    image.domain(3, &[(2, R | E), (3, R | W), (4, R | W)]);
    image.gates(2, 2, 1);
    Bench::new(&image)
}

/// Whether a run ended with a fault of that number.
pub fn faulted(run: Run, number: u8) -> bool {
    matches!(run.ending, Ending::Faulted(fault) if Fault::number(fault) == number)
}
