//! Images in which a relay calls with a list of another domain, or of its own
//! where it is called back.

use super::cover::{Cover, AROUND};
use super::plan::{Plan, LONGEST};
use crate::random::Rng;
use crate::subsystem::{arithmetic, image_of, Subsystem};
use assembler::*;

/// The tag of a pointer word.
const TAG: u32 = 0x8000_0000;
/// Where each domain keeps a.
const KEPT: i32 = 3;
/// A pointer word to words of the origin that may be passed on as arguments of
/// the list.
const SHARED: u32 = 0x1004;
/// How many these are.
const SHARED_WORDS: u32 = 4;

/// A whole program: the origin, perhaps through a giver, calls the relay, or is
/// called back as the relay, which hands the origin's list on, perhaps through
/// two more relays.
pub fn build(rng: &mut Rng) -> ImageBuilder {
    let plan = Plan::new(rng);
    let mut parts: Vec<Subsystem> = (0..=plan.called).map(|domain| part(rng, domain)).collect();
    let start = origin(rng, &plan, &mut parts[0]);
    if plan.giver {
        giver(&plan, &mut parts[1]);
    }
    let back = relay(rng, &plan, &mut parts[plan.relay as usize]);
    if !plan.has_one_relay() {
        let [second, third] = plan.further_relays();
        second_relay(rng, &plan, &mut parts[second as usize]);
        third_relay(rng, &plan, &mut parts[third as usize]);
    }
    let (list, good) = list(rng, &plan, &mut parts[plan.relay as usize], back);
    called(rng, &plan, &mut parts[plan.called as usize], &good);
    let mut image = image_of(rng, &parts);
    image.start(0, start);
    add_list(rng, &plan, &mut image, list);
    image.segment([epp(A, B, KEPT).indirect(), ret(A, 1).indirect()]);
    add_rights(rng, &plan, &mut image);
    image
}

/// A domain with a gate, which leads to its first instruction.
fn part(rng: &mut Rng, domain: u32) -> Subsystem {
    let mut part = Subsystem::new(domain, 1);
    enter_here(&mut part);
    assert_eq!(part.data.word(0) as i32, KEPT);
    if domain == 0 {
        let first = part.linked_block(rng, SHARED_WORDS);
        assert_eq!(part.data_pointer(first), SHARED);
    }
    part
}

/// Lets a domain's gate lead to its next instruction.
fn enter_here(part: &mut Subsystem) {
    let here = part.here();
    part.data.set(0, here);
}

/// A pointer word to a domain's gate.
fn gate(domain: u32) -> u32 {
    pointer(2 * domain, 0)
}

/// Adds the origin's code, which calls the giver or the relay, now and then
/// with a tagged a and no frame. Gives a pointer word to where it begins.
fn origin(rng: &mut Rng, plan: &Plan, part: &mut Subsystem) -> u32 {
    let (list, gate) = match plan.giver {
        true => (givers_list(plan), gate(1)),
        false => (relays_list(plan), gate(plan.relay)),
    };
    let list = part.data.block(list.words());
    let start = part.here();
    part.repeat(rng.between(2, 5), |part| arithmetic(rng, part));
    if plan.cover == Cover::Elsewhere && rng.chance(60) {
        let link = part.data.word(part.data_pointer(list) | TAG);
        part.put(epp(A, B, link as i32).indirect());
        part.put_through(call, gate);
    } else {
        let times = rng.pick(&[1, 1, 1, 2]);
        part.repeat(times, |part| part.call_with_list(list, gate));
    }
    part.put(halt());
    start
}

/// The list that a giver is called with: words that the pieces lie in, and the
/// words to pass on.
fn givers_list(plan: &Plan) -> ArgumentList {
    let first = plan.at - AROUND;
    let length = (plan.length() + 2 * AROUND).min(LONGEST - first);
    ArgumentList::new(0)
        .argument(pointer(plan.segment, first), length, R | W)
        .argument(SHARED, SHARED_WORDS, R | W)
}

/// The list that the relay is called with: the pieces of the list handed on,
/// and the words to pass on. What isn't a giver's own is passed on by it.
fn relays_list(plan: &Plan) -> ArgumentList {
    let mut list = ArgumentList::new(0);
    let passed_on = if plan.giver { TAG } else { 0 };
    for piece in &plan.pieces {
        let first = (plan.at as i32 + piece.first) as u32;
        let length = piece.length.min(LONGEST - first);
        let tag = if piece.givers { 0 } else { passed_on };
        list = list.argument(pointer(plan.segment, first) | tag, length, piece.flags);
    }
    list.argument(SHARED | passed_on, SHARED_WORDS, R | W)
}

/// Adds the giver's code, which calls the relay.
fn giver(plan: &Plan, part: &mut Subsystem) {
    let list = part.data.block(relays_list(plan).words());
    part.put(spp(A, B, KEPT));
    part.call_with_list(list, gate(plan.relay));
    part.put(epp(A, B, KEPT).indirect());
    part.put_return();
}

/// Adds the relay's code. Gives a pointer word to where a call with the list
/// goes back.
fn relay(rng: &mut Rng, plan: &Plan, part: &mut Subsystem) -> u32 {
    enter_here(part);
    arithmetic(rng, part);
    part.put(spp(A, B, KEPT));
    point_to_list(rng, plan, part);
    part.put_through(call, gate(plan.after_relay()));
    let back = part.here();
    part.put(epp(A, B, KEPT).indirect());
    part.put_return();
    match plan.has_one_relay() {
        true => back,
        false => pointer(plan.way_back(), 0),
    }
}

/// Adds the code of the second relay, which counts its calls and hands the list
/// on to the third one or, the last time, to the domain called last.
fn second_relay(rng: &mut Rng, plan: &Plan, part: &mut Subsystem) {
    let rounds = part.data.word(plan.rounds) as i32;
    part.put(spp(A, B, KEPT));
    part.put(load(A, rng.below(plan.length()) as i32));
    part.put(load(B, rounds));
    part.put_on(sub, 1);
    part.put(store(B, rounds));
    let [_, third] = plan.further_relays();
    part.skip_if(jz, |part| {
        part.put_through(call, gate(third));
    });
    part.put_through(call, gate(plan.called));
    part.put(halt());
}

/// Adds the code of the third relay, which hands the list back to the second.
fn third_relay(rng: &mut Rng, plan: &Plan, part: &mut Subsystem) {
    let [second, _] = plan.further_relays();
    part.put(spp(A, B, KEPT));
    part.put(add(A, rng.below(plan.length()) as i32));
    part.put_through(call, gate(second));
    part.put(halt());
}

/// Makes a point to the list: through an argument, or through a word of the
/// relay's own, which now and then has no tag.
fn point_to_list(rng: &mut Rng, plan: &Plan, relay: &mut Subsystem) {
    if plan.pieces.is_empty() || rng.chance(40) {
        let tag = if rng.chance(90) { TAG } else { 0 };
        let link = relay.data.word(plan.word(0) | tag);
        relay.put(epp(A, B, link as i32).indirect());
        return;
    }
    let k = rng.below(plan.pieces.len() as u32);
    relay.put(epp(4, A, (3 + 2 * k) as i32).indirect());
    relay.put(epp(A, 4, -plan.pieces[k as usize].first));
}

/// Reads words of the list through a; now and then the word after it is read,
/// or a word of it stored to.
fn use_list(rng: &mut Rng, plan: &Plan, part: &mut Subsystem) {
    for _ in 0..rng.between(1, 4) {
        let word = rng.below(plan.length()) as i32;
        part.put(match rng.below(40) {
            0 => load(A, plan.length() as i32),
            1 => store(A, word),
            _ => rng.pick(&[load, add, sub])(A, word),
        });
    }
}

/// The words of the list, some of which are spoiled, and those of its arguments
/// that can be used, with their flags.
fn list(
    rng: &mut Rng,
    plan: &Plan,
    relay: &mut Subsystem,
    back: u32,
) -> (Vec<u32>, Vec<(u32, u8)>) {
    let mut list = ArgumentList::new(back);
    let mut good = Vec::new();
    for k in 0..plan.n {
        let (place, length) = (rng.below(100), rng.between(1, SHARED_WORDS));
        let flags = rng.pick(&[R, R, W, R | W]);
        let shared = SHARED + SHARED_WORDS - length;
        let (word, length, flags, usable) = match place {
            0..=44 => {
                let block = relay.block(rng, length);
                let own = relay.data_pointer(block);
                (own, length, flags, plan.has_one_relay())
            }
            45..=74 => (shared | TAG, length, flags, true),
            75..=86 => (plan.word(rng.below(plan.length())) | TAG, 1, R, true),
            87..=96 => (shared, length, flags, false),
            _ => (relay.data_pointer(0) | TAG, 1, flags, false),
        };
        list = list.argument(word, length, flags);
        good.extend(usable.then_some((k, flags)));
    }
    let mut words = list.words();
    if rng.chance(if plan.cover.is_whole() { 12 } else { 40 }) {
        spoil(rng, plan, &mut words);
    }
    (words, good)
}

/// Makes a word of the list another: n, the return location or an argument's.
fn spoil(rng: &mut Rng, plan: &Plan, list: &mut [u32]) {
    let k = rng.below(plan.n.max(1)) as usize;
    match rng.below(6) {
        0 => list[0] = rng.pick(&[9, 9, 10, 11, 12, 15, 16, 0x8000_0000, u32::MAX]),
        1 => list[0] = rng.below(9),
        2 if plan.n > 0 => list[3 + 2 * k] |= 1 << rng.between(16, 30),
        3 if plan.n > 0 => list[4 + 2 * k] = rng.pick(&[0, 1, 0x4000_0000, 0x4000_3001]),
        4 => list[1] |= TAG,
        _ => list[1] |= 1 << rng.between(16, 30),
    }
}

/// Adds the code of the domain called last: it reads words of its list, uses an
/// argument that can be used, and halts or mostly goes back.
fn called(rng: &mut Rng, plan: &Plan, part: &mut Subsystem, good: &[(u32, u8)]) {
    use_list(rng, plan, part);
    if !good.is_empty() && rng.chance(75) {
        let (k, flags) = rng.pick(good);
        part.put(epp(4, A, (3 + 2 * k) as i32).indirect());
        let code = if flags & R != 0 { load } else { store };
        part.put(code(4, 0));
    }
    arithmetic(rng, part);
    if rng.chance(10) {
        part.put(halt());
    }
    part.put_return();
}

/// Adds the list's segment: words before it, the list, perhaps words after it;
/// now and then without word 2 of a list that has no argument.
fn add_list(rng: &mut Rng, plan: &Plan, image: &mut ImageBuilder, list: Vec<u32>) {
    let mut words = vec![0; plan.at as usize];
    words.extend(list);
    words.truncate(LONGEST as usize);
    if plan.at < LONGEST / 2 {
        match rng.below(4) {
            0 => words.extend([0; 4]),
            1 if plan.n == 0 => drop(words.pop()),
            _ => {}
        }
    }
    image.segment(words);
}

/// Opens the gates and gives each domain its rights on the list.
fn add_rights(rng: &mut Rng, plan: &Plan, image: &mut ImageBuilder) {
    let [list, way_back] = [plan.segment, plan.way_back()].map(|segment| segment as u8);
    for (caller, called) in plan.calls() {
        let code = 2 * called as u8;
        image
            .rights(caller as u8, code, G)
            .gates(code, 1, called as u8);
    }
    for relay in plan.relays() {
        image.rights(relay as u8, list, rng.pick(&[0, 0, 0, R]));
        image.rights(relay as u8, way_back, rng.pick(&[E, R | E]));
    }
    image.rights(0, list, rng.pick(&[R | W, R | W, R | W, R]));
    if plan.giver {
        image.rights(1, list, plan.cover.givers_rights(rng));
    }
    image.rights(plan.called as u8, list, rng.pick(&[0, 0, R]));
}
