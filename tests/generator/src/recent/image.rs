//! Images whose programs use the registers in each way.

use super::faults;
use crate::random::Rng;
use crate::subsystem::{image_of, Subsystem};
use crate::templates::{chain_image, chain_parts};
use assembler::*;

/// A whole program, for one of the ways.
pub fn build(rng: &mut Rng) -> ImageBuilder {
    match rng.below(100) {
        0..=13 => rereading(rng),
        14..=26 => nested(rng),
        27..=39 => two_claims(rng),
        _ => faults::build(rng),
    }
}

/// Where the pointer word of argument k lies in a list.
pub(super) fn place(k: u32) -> i32 {
    (3 + 2 * k) as i32
}

/// An argument list of `n` blocks of a domain; some hold pointers to their own
/// words. Gives the lengths too.
fn own_list(rng: &mut Rng, part: &mut Subsystem, n: u32, flags: &[u8]) -> (u32, Vec<u32>) {
    let mut list = ArgumentList::new(0);
    let mut lengths = Vec::new();
    for _ in 0..n {
        let length = rng.between(1, 4);
        let first = match rng.chance(60) {
            true => part.linked_block(rng, length),
            false => part.block(rng, length),
        };
        list = list.argument(part.data_pointer(first), length, rng.pick(flags));
        lengths.push(length);
    }
    (part.data.block(list.words()), lengths)
}

/// Words of a block on which all arguments of a list lie, and of each argument:
/// they begin at its word 0 or 2 in turns.
const SHARED: u32 = 6;
const SHARE: u32 = 4;

/// An argument list of `n` claims of a domain on one block. Gives the lengths
/// too.
fn list_on_one_block(rng: &mut Rng, part: &mut Subsystem, n: u32) -> (u32, Vec<u32>) {
    let block = part.linked_block(rng, SHARED);
    let mut list = ArgumentList::new(0);
    for k in 0..n {
        let first = part.data_pointer(block + 2 * (k % 2));
        list = list.argument(first, SHARE, R);
    }
    (part.data.block(list.words()), vec![SHARE; n as usize])
}

/// Reads a word that only the first of two such claims has, and one that only
/// the second has.
fn read_both_ends(rng: &mut Rng, part: &mut Subsystem) {
    for k in rng.pick(&[[0, 1], [1, 0]]) {
        part.put(epp(4, A, place(k)).indirect());
        part.put(load(4, (k * (SHARE - 1)) as i32));
    }
}

/// Reads a word of argument k, through a register or through the list.
fn read_argument(rng: &mut Rng, part: &mut Subsystem, k: u32, length: u32) {
    let read = rng.pick(&[load, add, sub]);
    if rng.chance(40) {
        part.put(read(A, place(k)).indirect());
        return;
    }
    part.put(epp(4, A, place(k)).indirect());
    part.put(read(4, rng.below(length) as i32));
}

/// The report package: the second domain reads its arguments, some of which lie
/// on the same words, again and again, each time that it is called.
fn rereading(rng: &mut Rng) -> ImageBuilder {
    let [mut a, mut b, mut c] = chain_parts();
    let on_one_block = rng.chance(50);
    let n = rng.between(1 + u32::from(on_one_block), 8);
    let (list, lengths) = match on_one_block {
        true => list_on_one_block(rng, &mut a, n),
        false => own_list(rng, &mut a, n, &[R, R | W]),
    };
    let start = a.here();
    let times = rng.between(1, 3);
    a.repeat(times, |a| a.call_with_list(list, pointer(2, 0)));
    a.put(halt());
    if on_one_block {
        read_both_ends(rng, &mut b);
    }
    let rounds = rng.between(2, 6);
    b.repeat(rounds, |b| {
        for _ in 0..rng.between(1, 4) {
            let k = rng.below(n);
            read_argument(rng, b, k, lengths[k as usize]);
        }
    });
    b.put_return();
    c.put(halt());
    chain_image(rng, &[a, b, c], start)
}

/// A chain of calls in which each domain reads its arguments before it calls
/// the next and after that has gone back. In a ring the last calls the first.
fn nested(rng: &mut Rng) -> ImageBuilder {
    let domains = rng.between(5, 8);
    let ring = rng.chance(25);
    let mut parts: Vec<Subsystem> = (0..domains).map(|d| Subsystem::new(d, 1)).collect();
    let mut given = Vec::new();
    for index in 0..domains {
        let last = index + 1 == domains && !ring;
        given = link_of_chain(
            rng,
            &mut parts[index as usize],
            index,
            &given,
            last,
            domains,
        );
    }
    let mut image = image_of(rng, &parts);
    for domain in 0..domains as u8 {
        let next = (domain + 1) % domains as u8;
        image.gates(2 * domain, 1, domain);
        image.rights(domain, 2 * next, G);
    }
    let start = parts[0].data.words()[0];
    image.start(0, start);
    image
}

/// The code of one domain of the chain, which was given arguments of these
/// lengths. Gives the lengths of those that it gives the next one.
fn link_of_chain(
    rng: &mut Rng,
    part: &mut Subsystem,
    index: u32,
    given: &[u32],
    last: bool,
    domains: u32,
) -> Vec<u32> {
    let here = part.here();
    part.data.set(0, here);
    let kept_a = part.data.word(0) as i32;
    part.put(spp(A, B, kept_a));
    read_all(rng, part, given);
    let mut lengths = Vec::new();
    if !last {
        let n = rng.between(3, 8);
        let (list, made) = own_list(rng, part, n, &[R, R | W]);
        part.call_with_list(list, pointer(2 * ((index + 1) % domains), 0));
        part.put(epp(A, B, kept_a).indirect());
        lengths = made;
    }
    if index == 0 {
        part.put(halt());
        return lengths;
    }
    if rng.chance(60) {
        read_all(rng, part, given);
    }
    part.put_return();
    lengths
}

/// Reads each of some arguments; now and then leaves one out.
fn read_all(rng: &mut Rng, part: &mut Subsystem, lengths: &[u32]) {
    for (k, &length) in (0..).zip(lengths) {
        if rng.chance(85) {
            read_argument(rng, part, k, length);
        }
    }
}

/// Words of a block of the first domain that the second gives the third, as its
/// own or passed on.
#[derive(Clone, Copy)]
struct ClaimOn {
    first: u32,
    length: u32,
    flags: u8,
    passed_on: bool,
}

/// How many words the block has.
const CLAIMED: u32 = 6;

/// The second domain gives the third two or three claims on words of the first,
/// its own and passed-on ones, that share words; the third refers to them.
fn two_claims(rng: &mut Rng) -> ImageBuilder {
    let [mut a, mut b, mut c] = chain_parts();
    let block = a.linked_block(rng, CLAIMED);
    let block = a.data_pointer(block);
    let list = ArgumentList::new(0).argument(block, CLAIMED, R | W);
    let list = a.data.block(list.words());
    let start = a.here();
    a.call_with_list(list, pointer(2, 0));
    a.put(halt());
    let claims = claims(rng);
    give_claims(&mut b, block, &claims);
    for _ in 0..rng.between(2, 5) {
        refer_to_a_claim(rng, &mut c, &claims);
    }
    c.put_return();
    let mut image = chain_image(rng, &[a, b, c], start);
    image.rights(1, 1, rng.pick(&[0, R, R | W, R | W]));
    image
}

/// A claim on the first words, then one of the other kind on more words or with
/// other flags; now and then a third.
fn claims(rng: &mut Rng) -> Vec<ClaimOn> {
    let passed_on = rng.chance(50);
    let length = rng.between(1, 3);
    let first = ClaimOn {
        first: rng.below(2),
        length,
        flags: rng.pick(&[R, W, W, R | W]),
        passed_on,
    };
    let second = ClaimOn {
        first: rng.below(2),
        length: rng.between(3, 4),
        flags: rng.pick(&[R, R, R | W]),
        passed_on: !passed_on,
    };
    let mut claims = vec![first, second];
    if rng.chance(30) {
        let passed_on = rng.chance(50);
        let more = ClaimOn {
            length: CLAIMED - second.first,
            passed_on,
            ..second
        };
        claims.insert(rng.below(3) as usize, more);
    }
    claims
}

/// The second domain's code: it makes its list, in which passed-on pointers are
/// stored as the program runs, and calls the third.
fn give_claims(b: &mut Subsystem, block: u32, claims: &[ClaimOn]) {
    let mut list = ArgumentList::new(0);
    for claim in claims {
        list = list.argument(block + claim.first, claim.length, claim.flags);
    }
    let list = b.data.block(list.words());
    let kept_a = b.data.word(0) as i32;
    b.put(spp(A, B, kept_a));
    b.put(epp(6, A, place(0)).indirect());
    for (k, claim) in (0..).zip(claims) {
        if claim.passed_on {
            b.put(epp(5, 6, claim.first as i32));
            b.put(spp(5, B, list as i32 + place(k)));
        }
    }
    b.call_with_list(list, pointer(4, 0));
    b.put(epp(A, B, kept_a).indirect());
    b.put_return();
}

/// The third domain refers to a word of a claim as its flags allow, mostly of
/// one that comes after another.
fn refer_to_a_claim(rng: &mut Rng, c: &mut Subsystem, claims: &[ClaimOn]) {
    let count = claims.len() as u32;
    let k = rng.pick(&[0, count - 1, count - 1, count - 1]);
    let claim = claims[k as usize];
    let offset = rng.pick(&[claim.length - 1, claim.length - 1, 0]) as i32;
    c.put(epp(4, A, place(k)).indirect());
    match claim.flags {
        R => c.put(rng.pick(&[load, add, sub])(4, offset)),
        W => c.put(store(4, offset)),
        _ => c.put(rng.pick(&[load, add, load, store])(4, offset)),
    }
    if claim.flags & R != 0 && rng.chance(25) {
        c.put(epp(5, 4, offset).indirect());
    }
}
