//! Smaller programs, each for one situation.

use crate::random::Rng;
use crate::subsystem::{arithmetic, image_of, Subsystem};
use assembler::*;

/// A random capability length and flags.
fn random_mode(rng: &mut Rng) -> (u32, u8) {
    (rng.between(1, 4), rng.pick(&[R, W, R | W]))
}

/// One domain that counts in two nested loops.
pub fn counting_loop(rng: &mut Rng) -> ImageBuilder {
    let mut part = Subsystem::new(0, 0);
    let (outer, inner) = (rng.between(1, 8), rng.between(2, 12));
    part.repeat(outer, |part| {
        arithmetic(rng, part);
        part.repeat(inner, |part| arithmetic(rng, part));
    });
    let end = part.here();
    match rng.below(4) {
        0 => {
            part.put_through(jump, pointer(0, 0));
        }
        1 => {
            part.put_through(jm, end);
        }
        _ => {}
    }
    part.put(halt());
    image_of(rng, &[part])
}

/// Gates that call each other in a ring and never go back, until no frame is
/// free.
pub fn endless_calls(rng: &mut Rng) -> ImageBuilder {
    let domains = rng.between(2, 8);
    let mut parts: Vec<Subsystem> = (0..domains).map(|d| Subsystem::new(d, 1)).collect();
    let mut start = 0;
    for (index, part) in parts.iter_mut().enumerate() {
        let here = part.here();
        part.data.set(0, here);
        start = if index == 0 { here } else { start };
        arithmetic(rng, part);
        let mut list = ArgumentList::new(0);
        for _ in 0..rng.below(9) {
            let (length, flags) = random_mode(rng);
            let first = part.block(rng, length);
            list = list.argument(part.data_pointer(first), length, flags);
        }
        let list = part.data.block(list.words());
        part.call_with_list(list, pointer(2 * ((index as u32 + 1) % domains), 0));
        part.put(halt());
    }
    let mut image = image_of(rng, &parts);
    for domain in 0..domains as u8 {
        let next = (domain + 1) % domains as u8;
        image
            .rights(domain, 2 * next, G)
            .gates(2 * domain, 1, domain);
    }
    image.start(0, start);
    image
}

/// Makes a chain of three domains: gates for the second and third, and the
/// right to call the next one's gate.
pub fn chain_image(rng: &mut Rng, parts: &[Subsystem], start: u32) -> ImageBuilder {
    let mut image = image_of(rng, parts);
    image.gates(2, 1, 1).gates(4, 1, 2);
    image.rights(0, 2, G).rights(1, 4, G);
    image.start(0, start);
    image
}

/// Three subsystems; the second and third have one gate, at which their code
/// continues.
pub fn chain_parts() -> [Subsystem; 3] {
    let mut parts = [0, 1, 2].map(|domain| Subsystem::new(domain, u32::from(domain > 0)));
    for part in &mut parts[1..] {
        let here = part.here();
        part.data.set(0, here);
    }
    parts
}

/// The second domain hands the list that it got as an argument on to the
/// third, with a still tagged.
pub fn relay(rng: &mut Rng) -> ImageBuilder {
    let [mut a, mut b, mut c] = chain_parts();
    let back = relay_code(rng, &mut b);
    let own = a.block(rng, 4);
    let own = a.data_pointer(own);
    let given_by_b = b.block(rng, 4);
    let n = rng.below(5);
    let mut second = ArgumentList::new(back);
    for _ in 0..n {
        let (length, flags) = random_mode(rng);
        let place = rng.pick(&[own, own | 0x8000_0000, b.data_pointer(given_by_b)]);
        second = second.argument(place, length, flags);
    }
    let second = a.data.block(second.words());
    let stranger = pointer(rng.pick(&[3, 5]), 0);
    let handed = if rng.chance(15) {
        stranger
    } else {
        a.data_pointer(second)
    };
    let list = ArgumentList::new(0)
        .argument(handed, 3 + 2 * n, R)
        .argument(own, 4, R | W);
    let list = a.data.block(list.words());
    let start = a.here();
    a.repeat(rng.between(2, 6), |a| arithmetic(rng, a));
    a.call_with_list(list, pointer(2, 0));
    a.put(halt());

    arithmetic(rng, &mut c);
    for k in 0..n {
        c.put(epp(4, A, (3 + 2 * k) as i32).indirect());
        c.put(rng.pick(&[load, store])(4, 0));
    }
    c.put_return();
    let mut image = chain_image(rng, &[a, b, c], start);
    image.rights(1, 1, rng.pick(&[0, R, R, R | W]));
    image
}

/// The relay's own code. Gives a pointer word to where it continues.
fn relay_code(rng: &mut Rng, b: &mut Subsystem) -> u32 {
    let kept_a = b.data.word(0) as i32;
    arithmetic(rng, b);
    b.put(spp(A, B, kept_a));
    b.put(epp(A, A, 3).indirect());
    b.put_through(call, pointer(4, 0));
    let back = b.here();
    b.put(epp(A, B, kept_a).indirect());
    b.put_return();
    back
}

/// The second domain gives the third the same words twice: passed on from the
/// first, and as its own.
pub fn two_sources(rng: &mut Rng) -> ImageBuilder {
    let [mut a, mut b, mut c] = chain_parts();
    let own = if rng.chance(50) {
        a.block(rng, 4)
    } else {
        a.linked_block(rng, 4)
    };
    let own = a.data_pointer(own);
    let list = ArgumentList::new(0).argument(own, 4, R | W);
    let list = a.data.block(list.words());
    let start = a.here();
    a.repeat(rng.between(2, 6), |a| arithmetic(rng, a));
    a.call_with_list(list, pointer(2, 0));
    a.put(halt());

    let kept_a = b.data.word(0) as i32;
    b.put(spp(A, B, kept_a));
    b.put(epp(6, A, 3).indirect());
    let mut list = ArgumentList::new(0);
    let order = rng.pick(&[[own, 0], [0, own]]);
    for word in order {
        list = list.argument(word, rng.between(1, 4), rng.pick(&[R, R | W]));
    }
    let list = b.data.block(list.words());
    let passed_on = if order[0] == 0 { list + 3 } else { list + 5 };
    b.put(spp(6, B, passed_on as i32));
    b.call_with_list(list, pointer(4, 0));
    b.put(epp(A, B, kept_a).indirect());
    b.put_return();

    arithmetic(rng, &mut c);
    for _ in 0..rng.between(1, 4) {
        c.put(epp(4, A, rng.pick(&[3, 5])).indirect());
        c.put(any_reference(rng));
    }
    c.put_return();
    let mut image = chain_image(rng, &[a, b, c], start);
    image.rights(1, 1, rng.pick(&[0, 0, R, R | W]));
    image
}

/// An instruction that refers to a word near pointer register 4.
fn any_reference(rng: &mut Rng) -> Code {
    let offset = rng.below(3) as i32;
    match rng.below(10) {
        0..=5 => rng.pick(&[load, add, sub, store])(4, offset),
        6 => spp(5, 4, offset),
        7 => epp(5, 4, offset).indirect(),
        _ => rng.pick(&[jump, call, ret, jz, jm])(4, offset).indirect(),
    }
}

/// A list, an argument or the code at the end of a segment of 4,096 words.
pub fn edges(rng: &mut Rng) -> ImageBuilder {
    let mut a = Subsystem::new(0, 0);
    let mut b = Subsystem::new(1, 1);
    let here = b.here();
    b.data.set(0, here);
    arithmetic(rng, &mut b);
    b.put_return();
    let mut big = vec![0u32; 4096];
    a.repeat(rng.between(2, 6), |a| arithmetic(rng, a));
    match rng.below(3) {
        0 => code_at_the_end(rng, &mut a, &mut big),
        1 => list_at_the_end(rng, &mut a, &mut big),
        _ => argument_at_the_end(rng, &mut a),
    }
    a.put(halt());
    let mut image = image_of(rng, &[a, b]);
    let big = image.segment(big);
    image.rights(0, big, R | W | E).rights(0, 2, G);
    image.gates(2, 1, 1);
    image
}

/// A jump to the last words of the big segment, which lead to word 4,096.
fn code_at_the_end(rng: &mut Rng, a: &mut Subsystem, big: &mut [u32]) {
    let first = rng.between(4080, 4095);
    for word in &mut big[first as usize..] {
        *word = lit(rng.below(100) as i32).word();
    }
    a.put_through(jump, pointer(4, first));
}

/// A call whose list lies at the end of the big segment.
fn list_at_the_end(rng: &mut Rng, a: &mut Subsystem, big: &mut [u32]) {
    let at = rng.between(4085, 4095);
    let n = rng.pick(&[0, 0, 1, 2, 3, 9]);
    let mut list = ArgumentList::new(pointer(0, a.code.here() + 2));
    for _ in 0..n {
        list = list.argument(pointer(4, rng.below(4096)), 1, rng.pick(&[R, W]));
    }
    for (place, word) in big[at as usize..].iter_mut().zip(list.words()) {
        *place = word;
    }
    let link = a.data.word(pointer(4, at));
    a.put(epp(A, B, link as i32).indirect());
    a.put_through(call, pointer(2, 0));
}

/// A call with an argument that ends near word number 4,096.
fn argument_at_the_end(rng: &mut Rng, a: &mut Subsystem) {
    let first = rng.between(0, 4095);
    let length = (4096 - first) + rng.pick(&[0, 0, 1]);
    let list = ArgumentList::new(0).argument(pointer(4, first), length, rng.pick(&[R, W, R | W]));
    let list = a.data.block(list.words());
    a.call_with_list(list, pointer(2, 0));
}

/// Instructions with random operands in three domains.
pub fn random_code(rng: &mut Rng) -> ImageBuilder {
    let mut image = ImageBuilder::new();
    for domain in 0..3 {
        let words: Vec<u32> = (0..40).map(|_| random_instruction(rng)).collect();
        let code = image.segment(words);
        let words: Vec<u32> = (0..40).map(|_| random_link(rng)).collect();
        let data = image.segment(words);
        image.domain(data, &[(code, R | E), (data, R | W)]);
        image.gates(code, rng.below(8) as u16, domain);
    }
    for domain in 0..3 {
        for segment in (0..6).filter(|segment| segment / 2 != domain) {
            image.rights(domain, segment, rng.pick(&[0, R, G, G, R | G]));
        }
    }
    image
}

/// A good instruction word that mostly uses b.
fn random_instruction(rng: &mut Rng) -> u32 {
    let base = rng.pick(&[B, B, B, A, 4, 5]);
    let offset = rng.below(40) as i32;
    let code = match rng.below(14) {
        0 | 1 => load(base, offset),
        2 => store(base, offset),
        3 => add(base, offset),
        4 => sub(base, offset),
        5 | 6 => epp(rng.pick(&[A, S, 4, 5]), base, offset),
        7 => spp(rng.pick(&[A, S, 4, 5]), base, offset),
        8 => jump(base, offset),
        9 => call(base, offset),
        10 => ret(base, offset),
        11 => jz(base, offset),
        12 => jm(base, offset),
        _ => return lit(offset).word(),
    };
    if rng.chance(40) {
        code.indirect().word()
    } else {
        code.word()
    }
}

/// A word that is often a pointer to an existing word.
fn random_link(rng: &mut Rng) -> u32 {
    match rng.below(8) {
        0 => tagged(rng.below(6), rng.below(40)),
        1 => rng.below(4),
        2 => mode(rng.between(1, 4), rng.pick(&[R, W])),
        _ => pointer(rng.below(6), rng.below(40)),
    }
}
