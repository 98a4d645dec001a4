//! Loops of calls: few or hundreds of crossings in a run.

use crate::random::Rng;
use crate::subsystem::{arithmetic, Subsystem};
use crate::templates::{chain_image, chain_parts};
use assembler::*;

/// The first domain calls the second again and again; that one may call the
/// third before it goes back, and may fault at one of its calls.
pub fn build(rng: &mut Rng) -> ImageBuilder {
    if rng.chance(10) {
        return crossings_alone(rng);
    }
    let [mut a, mut b, mut c] = chain_parts();
    let start = a.here();
    call_again_and_again(rng, &mut a);
    a.put(halt());
    if rng.chance(30) {
        fault_at_a_call(rng, &mut b);
    }
    if rng.chance(50) {
        arithmetic(rng, &mut b);
    }
    if rng.chance(40) {
        call_between(&mut b);
    }
    b.put_return();
    c.put_return();
    chain_image(rng, &[a, b, c], start)
}

/// Calls of the second domain's gate: so many, or without end.
fn call_again_and_again(rng: &mut Rng, a: &mut Subsystem) {
    let list = a.data.block(ArgumentList::new(0).words());
    let gate = pointer(2, 0);
    if rng.chance(50) {
        let times = rng.pick(&[1, 4, 40, 300, 300]);
        a.repeat(rng.between(1, times), |a| a.call_with_list(list, gate));
    } else {
        let top = a.here();
        a.call_with_list(list, gate);
        a.put_through(jump, top);
    }
}

/// Counts the calls down, and at the last one jumps to a word that is not
/// there.
fn fault_at_a_call(rng: &mut Rng, b: &mut Subsystem) {
    let last = rng.pick(&[2, 10, 200]);
    let left = b.data.word(rng.between(1, last)) as i32;
    b.put(load(B, left));
    b.put_on(sub, 1);
    b.put(store(B, left));
    b.put_through(jz, pointer(15, 0));
}

/// Keeps a, calls the third domain's gate and takes a back.
fn call_between(b: &mut Subsystem) {
    let kept_a = b.data.word(0) as i32;
    let list = b.data.block(ArgumentList::new(0).words());
    b.put(spp(A, B, kept_a));
    b.call_with_list(list, pointer(4, 0));
    b.put(epp(A, B, kept_a).indirect());
}

/// The second domain's only instruction calls the third with the list that it
/// was called with, the third's goes back to that instruction: from the second
/// instruction on each is a crossing.
fn crossings_alone(rng: &mut Rng) -> ImageBuilder {
    let [mut a, mut b, mut c] = [0, 1, 2].map(|domain| Subsystem::new(domain, 0));
    b.put_through(call, pointer(4, 0));
    c.put_return();
    let list = a.data.block(ArgumentList::new(0).words());
    let start = a.here();
    a.call_with_list(list, pointer(2, 0));
    a.data.set(list + 1, pointer(2, 0));
    let mut image = chain_image(rng, &[a, b, c], start);
    image.rights(1, 1, rng.pick(&[R, R, R, 0]));
    image
}
