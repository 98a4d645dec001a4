//! A domain with its code and its data while an image is being built.

use crate::random::Rng;
use assembler::*;

/// Code and data of one domain. Code lies in segment 2d, data with the stack
/// in segment 2d + 1 of domain d; b points to word 0 of the data.
pub struct Subsystem {
    pub domain: u32,
    pub code: Program,
    pub data: Program,
    one: u32,
    sign: u32,
}

impl Subsystem {
    /// A subsystem whose first `gates` words of code jump through its first
    /// words of data.
    pub fn new(domain: u32, gates: u32) -> Subsystem {
        let (mut code, mut data) = (Program::new(), Program::new());
        for gate in 0..gates {
            code.put(jump(B, gate as i32).indirect());
            data.word(0);
        }
        let one = data.word(1);
        let sign = data.word(0x8000_0000);
        Subsystem {
            domain,
            code,
            data,
            one,
            sign,
        }
    }

    /// Number of the code segment.
    pub fn code_segment(&self) -> u32 {
        2 * self.domain
    }

    /// Number of the data segment.
    pub fn data_segment(&self) -> u32 {
        2 * self.domain + 1
    }

    /// A pointer word to the next instruction.
    pub fn here(&self) -> u32 {
        pointer(self.code_segment(), self.code.here())
    }

    /// A pointer word to a place in the data.
    pub fn data_pointer(&self, word: u32) -> u32 {
        pointer(self.data_segment(), word)
    }

    /// Adds an instruction.
    pub fn put(&mut self, code: Code) {
        self.code.put(code);
    }

    /// Adds an instruction on a new word of data.
    pub fn put_on(&mut self, code: impl Fn(u32, i32) -> Code, word: u32) {
        let place = self.data.word(word);
        self.put(code(B, place as i32));
    }

    /// Adds an instruction that goes indirectly through a new word of data;
    /// gives that word's number.
    pub fn put_through(&mut self, code: impl Fn(u32, i32) -> Code, link: u32) -> u32 {
        let place = self.data.word(link);
        self.put(code(B, place as i32).indirect());
        place
    }

    /// Flips bit 31 of a word of data: a pointer word's tag.
    pub fn flip_tag(&mut self, place: u32) {
        self.put(load(B, place as i32));
        self.put(add(B, self.sign as i32));
        self.put(store(B, place as i32));
    }

    /// A block of data with random words.
    pub fn block(&mut self, rng: &mut Rng, length: u32) -> u32 {
        let words: Vec<u32> = (0..length).map(|_| rng.word()).collect();
        self.data.block(words)
    }

    /// A block of data whose words are pointers into the block.
    pub fn linked_block(&mut self, rng: &mut Rng, length: u32) -> u32 {
        let first = self.data.here();
        let words: Vec<u32> = (0..length)
            .map(|_| self.data_pointer(first + rng.below(length)))
            .collect();
        self.data.block(words)
    }

    /// Repeats what `body` adds, `times` times.
    pub fn repeat(&mut self, times: u32, body: impl FnOnce(&mut Subsystem)) {
        let counter = self.data.word(0);
        self.put_on(load, times);
        self.put(store(B, counter as i32));
        let top = self.here();
        body(self);
        self.put(load(B, counter as i32));
        self.put(sub(B, self.one as i32));
        self.put(store(B, counter as i32));
        let exit = self.put_through(jz, 0);
        self.put_through(jump, top);
        let here = self.here();
        self.data.set(exit, here);
    }

    /// Skips what `body` adds if `test` (JZ or JM) jumps.
    pub fn skip_if(&mut self, test: impl Fn(u32, i32) -> Code, body: impl FnOnce(&mut Subsystem)) {
        let exit = self.put_through(test, 0);
        body(self);
        let here = self.here();
        self.data.set(exit, here);
    }

    /// A call through the gate that a pointer word names, with a list already
    /// in the data, whose return location becomes the instruction after it.
    pub fn call_with_list(&mut self, list: u32, gate: u32) {
        self.put(epp(A, B, list as i32));
        self.put_through(call, gate);
        let here = self.here();
        self.data.set(list + 1, here);
    }

    /// Goes back to the caller whose list a points to.
    pub fn put_return(&mut self) {
        self.put(ret(A, 1).indirect());
    }
}

/// The image of subsystems: each domain has E and mostly R on its code, R and
/// W on its data.
pub fn image_of(rng: &mut Rng, subsystems: &[Subsystem]) -> ImageBuilder {
    let mut image = ImageBuilder::new();
    for part in subsystems {
        let code = image.segment(part.code.words().iter().copied());
        let data = image.segment(part.data.words().iter().copied());
        let on_code = if rng.chance(30) { E } else { R | E };
        image.domain(data, &[(code, on_code), (data, R | W)]);
    }
    image
}

/// A few instructions on A and a local word.
pub fn arithmetic(rng: &mut Rng, part: &mut Subsystem) {
    for _ in 0..rng.between(1, 4) {
        match rng.below(6) {
            0 => part.put(lit(rng.between(0, 4095) as i32 - 2048)),
            1 => part.put_on(load, rng.word()),
            2 => part.put_on(add, rng.word()),
            3 => part.put_on(sub, rng.word()),
            4 => part.put_on(store, 0),
            _ => {
                let place = part.data.here() as i32 - 1;
                part.put(add(B, place));
            }
        }
    }
}
