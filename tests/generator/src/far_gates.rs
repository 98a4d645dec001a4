//! Gates and return places far into their segments, in any segments and
//! domains.

use crate::random::Rng;
use assembler::*;

/// Most words of a segment.
const LONGEST: u32 = 4096;
/// Places in the data of a package: the link to the next one's gate, a kept,
/// its list and the link to its first instruction.
const TO_GATE: i32 = 0;
const KEPT: i32 = 1;
const LIST: i32 = 2;
const TO_FIRST: i32 = 5;

/// A package of the chain; its code begins at word `at`.
struct Package {
    domain: u8,
    code: u8,
    data: u8,
    at: u32,
    words: Vec<Code>,
    /// The instruction that it is returned to.
    back: u32,
}

/// One to three packages behind the first, each called by the one before.
pub fn build(rng: &mut Rng) -> ImageBuilder {
    let count = rng.between(2, 4);
    let segments = rng.pick(&[2 * count, 16, 16, 16]);
    let domains = rng.pick(&[count, 8, 8]);
    let packages = packages(rng, count, segments, domains);
    let mut image = ImageBuilder::new();
    for words in contents(rng, &packages, segments) {
        image.segment(words);
    }
    add_domains(rng, &mut image, &packages, domains);
    for pair in packages.windows(2) {
        open_gate(rng, &mut image, &pair[0], &pair[1]);
    }
    image.start(packages[0].domain, packages[0].first());
    image
}

/// The words of all segments; one that no package has is a word of 0.
fn contents(rng: &mut Rng, packages: &[Package], segments: u32) -> Vec<Vec<u32>> {
    let mut contents = vec![vec![0]; segments as usize];
    for (index, package) in packages.iter().enumerate() {
        contents[usize::from(package.code)] = code_words(rng, package);
        contents[usize::from(package.data)] = data_words(package, packages.get(index + 1));
    }
    contents
}

/// Adds the domains; those of no package have no rights.
fn add_domains(rng: &mut Rng, image: &mut ImageBuilder, packages: &[Package], domains: u32) {
    for domain in 0..domains as u8 {
        match packages.iter().find(|package| package.domain == domain) {
            None => image.domain(0, &[]),
            Some(&Package { code, data, .. }) => {
                image.domain(data, &[(data, R | W), (code, rng.pick(&[E, R | E]))])
            }
        };
    }
}

impl Package {
    /// A pointer word to its first instruction.
    fn first(&self) -> u32 {
        pointer(u32::from(self.code), self.at)
    }
}

/// The packages, in segments and domains of any numbers. At most one lies at
/// the end of a segment of 4,096 words.
fn packages(rng: &mut Rng, count: u32, segments: u32, domains: u32) -> Vec<Package> {
    let segments = shuffled(rng, segments);
    let domains = shuffled(rng, domains);
    let longest = rng.chance(25).then(|| rng.below(count));
    let mut packages = Vec::new();
    for index in 0..count {
        let (words, back) = instructions(rng, index == 0, index + 1 == count);
        let at = if longest == Some(index) {
            LONGEST - words.len() as u32
        } else {
            rng.pick(&[0, 252, 253, 254, 255, 256, 256, 257, 511, 512, 999, 1000])
        };
        packages.push(Package {
            domain: domains[index as usize],
            code: segments[2 * index as usize],
            data: segments[2 * index as usize + 1],
            at,
            words,
            back,
        });
    }
    packages
}

/// The numbers below `end`, in any order.
fn shuffled(rng: &mut Rng, end: u32) -> Vec<u8> {
    let mut numbers: Vec<u8> = (0..end as u8).collect();
    for place in (1..numbers.len()).rev() {
        numbers.swap(place, rng.below(place as u32 + 1) as usize);
    }
    numbers
}

/// The code of the first package, which may call without end, of one between,
/// or of the last; and which instruction is returned to.
fn instructions(rng: &mut Rng, first: bool, last: bool) -> (Vec<Code>, u32) {
    let go_back = ret(A, 1).indirect();
    let calls = [epp(A, B, LIST), call(B, TO_GATE).indirect()];
    if first {
        let end = rng.pick(&[halt(), jump(B, TO_FIRST).indirect()]);
        return ([&calls[..], &[end]].concat(), 2);
    }
    if last {
        let work = if rng.chance(50) { vec![lit(7)] } else { vec![] };
        return ([work, vec![go_back]].concat(), 0);
    }
    let take_back = epp(A, B, KEPT).indirect();
    let words = [&[spp(A, B, KEPT)], &calls[..], &[take_back, go_back]].concat();
    (words, 3)
}

/// The words of a package's code segment.
fn code_words(rng: &mut Rng, package: &Package) -> Vec<u32> {
    let mut words = vec![0; package.at as usize];
    words.extend(package.words.iter().map(|code| code.word()));
    let room = LONGEST - words.len() as u32;
    words.resize(words.len() + rng.below(9).min(room) as usize, 0);
    words
}

/// The words of a package's data segment, which calls the next one's gate.
fn data_words(package: &Package, next: Option<&Package>) -> Vec<u32> {
    let mut words = vec![next.map_or(0, Package::first), 0];
    words.extend(ArgumentList::new(package.first() + package.back).words());
    words.push(package.first());
    words
}

/// Makes the called package's first instruction a gate, mostly, and lets the
/// caller call it.
fn open_gate(rng: &mut Rng, image: &mut ImageBuilder, caller: &Package, called: &Package) {
    let gates = if rng.chance(5) {
        called.at
    } else {
        called.at + 1
    };
    image.gates(called.code, gates as u16, called.domain);
    image.rights(caller.domain, called.code, G);
}
