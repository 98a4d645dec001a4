//! A relay about to call with a tagged a.

use crate::{capability, frame, tagged_at, untagged_at, Bench};
use assembler::*;
use reference::record::Capability;

/// The domains of a relay's machine. The maker and the reader have R on the
/// list's segment; the relay and the called domain have no right there.
pub const MAKER: u8 = 0;
pub const RELAY: u8 = 1;
pub const CALLED: u8 = 2;
pub const READER: u8 = 3;
/// Where the list lies.
pub const LISTS: u8 = 4;
pub const AT: u16 = 100;

/// The relay about to call, with a tagged a at word `at` of the lists' segment
/// and these capabilities in the live frame. Words past 4,095 are left out.
pub fn relay_at(at: u16, words: &[u32], capabilities: &[Capability]) -> Bench {
    let mut image = ImageBuilder::new();
    image.segment([call(3, 0), halt()]);
    image.segment([0u32; 10]);
    image.segment([halt(); 10]);
    image.segment([0u32; 10]);
    image.segment([0u32; 4096]);
    image.domain(1, &[(LISTS, R | W)]);
    image.domain(1, &[(0, R | E), (1, R | W), (2, G)]);
    image.domain(3, &[(2, R | E), (3, R | W)]);
    image.domain(1, &[(LISTS, R)]);
    image.gates(2, 1, CALLED).start(RELAY, pointer(0, 0));
    let mut bench = Bench::new(&image);
    for (place, &word) in (at..4096).zip(words) {
        bench.set(LISTS, place, word);
    }
    bench.machine.pointers[0] = tagged_at(LISTS, at);
    bench.machine.pointers[3] = untagged_at(2, 0);
    bench.push_frame(frame(MAKER, capabilities));
    bench
}

/// The same with the list at its usual place.
pub fn relay(words: &[u32], capabilities: &[Capability]) -> Bench {
    relay_at(AT, words, capabilities)
}

/// A list of n arguments, each a word of the relay's stack, that returns to
/// the relay's HALT.
pub fn list(n: usize) -> Vec<u32> {
    let none = ArgumentList::new(pointer(0, 1));
    let all = (0..n).fold(none, |list, _| list.argument(pointer(1, 0), 1, R));
    all.words()
}

/// How many words a list of n arguments has.
pub fn words_of(n: usize) -> u16 {
    3 + 2 * n as u16
}

/// A capability on `length` words of the list from its word `first` on.
pub fn on(first: u16, length: u16, flags: u8, source: u8) -> Capability {
    capability(LISTS, AT + first, length, flags, source)
}

/// The capability for the list of the call that must complete.
pub fn list_capability(mut bench: Bench) -> Capability {
    bench.steps(1);
    *live_capabilities(&bench).last().expect("a capability")
}

/// The capabilities of the live frame, which must be there.
pub fn live_capabilities(bench: &Bench) -> &[Capability] {
    bench.machine.live_frame().expect("a frame").capabilities()
}

/// Gives a domain R on the list's segment.
pub fn let_read(bench: &mut Bench, domain: u8) {
    bench.machine.domains[usize::from(domain)].rights[usize::from(LISTS)] |= R;
}
