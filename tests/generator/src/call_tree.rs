//! Programs of several domains whose routines call later routines through
//! gates, with arguments of their own and arguments passed on.

use crate::random::Rng;
use crate::subsystem::{arithmetic, image_of, Subsystem};
use crate::trouble::{self, Trouble};
use assembler::*;

/// What a routine is given as an argument.
#[derive(Clone, Copy)]
pub struct Parameter {
    pub flags: u8,
    pub length: u32,
}

/// A routine: the domain it runs in, its gate there and its parameters.
pub struct Routine {
    pub domain: usize,
    gate: u32,
    pub parameters: Vec<Parameter>,
}

/// A program under construction.
pub struct Tree {
    pub parts: Vec<Subsystem>,
    pub routines: Vec<Routine>,
    /// Words in a shared segment, if there is one.
    shared: Option<u32>,
    /// What goes wrong, and in which routine.
    trouble: Option<(usize, Trouble)>,
}

/// A whole program.
pub fn build(rng: &mut Rng) -> ImageBuilder {
    let mut tree = plan(rng);
    for index in 0..tree.routines.len() {
        routine(rng, &mut tree, index);
    }
    for part in &mut tree.parts {
        part.put(halt());
    }
    let mut image = image_of(rng, &tree.parts);
    let shared_rights = [0, R, R | W, R | W, R | W, R | W];
    let domains = tree.parts.len() as u8;
    if let Some(words) = tree.shared {
        let shared = image.segment(vec![1u32; words as usize]);
        for domain in 0..domains {
            image.rights(domain, shared, rng.pick(&shared_rights));
        }
    }
    for domain in 0..domains {
        for other in (0..domains).filter(|&other| other != domain) {
            let flags = if rng.chance(4) {
                rng.pick(&[0, R | G])
            } else {
                G
            };
            image.rights(domain, 2 * other, flags);
        }
    }
    for (domain, part) in (0u8..).zip(&tree.parts) {
        let gates = tree.gates_of(part.domain as usize);
        image.gates(2 * domain, gates as u16, domain);
    }
    image.start(tree.routines[0].domain as u8, tree.gate(0));
    image
}

/// Chooses domains, routines and what goes wrong.
fn plan(rng: &mut Rng) -> Tree {
    let deep = rng.chance(20);
    let (domains, count) = if deep {
        (rng.between(4, 8), rng.between(8, 10))
    } else {
        (rng.between(2, 6), rng.between(2, 7))
    };
    let mut tree = Tree {
        parts: Vec::new(),
        shared: (domains < 8 && rng.chance(50)).then(|| rng.between(4, 20)),
        trouble: rng
            .chance(32)
            .then(|| (rng.below(count) as usize, trouble::choose(rng))),
        routines: Vec::new(),
    };
    for index in 0..count as usize {
        let domain = next_domain(rng, &tree, domains, deep);
        tree.routines.push(Routine {
            domain,
            gate: tree.gates_of(domain),
            parameters: if index == 0 {
                Vec::new()
            } else {
                parameters(rng)
            },
        });
    }
    for domain in 0..domains {
        let gates = tree.gates_of(domain as usize);
        tree.parts.push(Subsystem::new(domain, gates));
    }
    tree
}

/// The domain of the next routine: mostly another than that of the one before.
fn next_domain(rng: &mut Rng, tree: &Tree, domains: u32, deep: bool) -> usize {
    match tree.routines.last() {
        Some(before) if deep || rng.chance(85) => {
            (before.domain + rng.between(1, domains - 1) as usize) % domains as usize
        }
        _ => rng.below(domains) as usize,
    }
}

/// Zero to eight parameters.
fn parameters(rng: &mut Rng) -> Vec<Parameter> {
    (0..rng.below(9))
        .map(|_| Parameter {
            flags: rng.pick(&[R, R, W, R | W, R | W]),
            length: rng.between(1, 6),
        })
        .collect()
}

impl Tree {
    /// Number of routines of a domain; each has a gate.
    fn gates_of(&self, domain: usize) -> u32 {
        self.routines.iter().filter(|r| r.domain == domain).count() as u32
    }

    /// The subsystem that a routine runs in.
    pub fn part(&mut self, index: usize) -> &mut Subsystem {
        &mut self.parts[self.routines[index].domain]
    }

    /// A pointer word to a routine's gate.
    pub fn gate(&self, index: usize) -> u32 {
        let routine = &self.routines[index];
        pointer(2 * routine.domain as u32, routine.gate)
    }
}

/// Adds one routine: it keeps a, works, calls, and goes back or halts.
fn routine(rng: &mut Rng, tree: &mut Tree, index: usize) {
    let gate = tree.routines[index].gate;
    let part = tree.part(index);
    let here = part.here();
    part.data.set(gate, here);
    let kept_a = part.data.word(0);
    if index > 0 {
        part.put(spp(A, B, kept_a as i32));
    }
    let kept_s = (rng.chance(40)).then(|| own_activation(rng, part, index));
    let trouble = tree.trouble.filter(|&(at, _)| at == index).map(|(_, t)| t);
    let works = rng.between(2, 7);
    let trouble_at = rng.below(works);
    for work in 0..works {
        if let Some(trouble) = trouble.filter(|_| work == trouble_at) {
            trouble::put(rng, tree, index, trouble);
        }
        action(rng, tree, index);
    }
    for next in index + 1..tree.routines.len() {
        let wanted = if next == index + 1 { 92 } else { 12 };
        if rng.chance(wanted) {
            put_call(rng, tree, index, next, kept_a);
        }
    }
    if let Some(kept_s) = kept_s {
        tree.part(index).put(epp(S, B, kept_s as i32).indirect());
    }
    finish(rng, tree, index);
}

/// Keeps s and points it to another place, tagged now and then. Gives the
/// word where s is kept.
fn own_activation(rng: &mut Rng, part: &mut Subsystem, index: usize) -> u32 {
    let kept_s = part.data.word(0);
    part.put(spp(S, B, kept_s as i32));
    let base = if index > 0 && rng.chance(40) { A } else { B };
    part.put(epp(S, base, rng.below(20) as i32));
    kept_s
}

/// The end of a routine.
fn finish(rng: &mut Rng, tree: &mut Tree, index: usize) {
    let part = tree.part(index);
    match index {
        0 if rng.chance(6) => {
            let first = part.data.words()[0];
            part.put_through(jump, first);
        }
        0 => part.put(halt()),
        _ => part.put_return(),
    }
}

/// One piece of work inside a routine.
fn action(rng: &mut Rng, tree: &mut Tree, index: usize) {
    let choice = rng.below(10);
    let parameters = tree.routines[index].parameters.clone();
    if choice < 5 && !parameters.is_empty() {
        let times = if rng.chance(30) { rng.between(2, 5) } else { 1 };
        for _ in 0..times {
            let k = rng.below(parameters.len() as u32);
            use_argument(rng, tree.part(index), k, parameters[k as usize]);
        }
        return;
    }
    if let (5, Some(words)) = (choice, tree.shared) {
        let link = pointer(2 * tree.parts.len() as u32, rng.below(words));
        let code = rng.pick(&[load, add, load, add, store]);
        tree.part(index).put_through(code, link);
        return;
    }
    let part = tree.part(index);
    match choice {
        6 => {
            let times = rng.between(2, 9);
            part.repeat(times, |part| arithmetic(rng, part));
        }
        7 => {
            let test = rng.pick(&[jz, jm]);
            part.skip_if(test, |part| arithmetic(rng, part));
        }
        8 if index > 0 => part.put(load(A, rng.below(3) as i32)),
        9 => pointers(rng, part),
        _ => arithmetic(rng, part),
    }
}

/// A pointer register stored and loaded again.
fn pointers(rng: &mut Rng, part: &mut Subsystem) {
    let register = rng.between(3, 7);
    let place = part.data.word(0) as i32;
    part.put(epp(register, B, rng.below(40) as i32));
    part.put(spp(register, B, place));
    part.put(epp(rng.between(3, 7), B, place).indirect());
}

/// References to an argument through the list, as its flags allow.
fn use_argument(rng: &mut Rng, part: &mut Subsystem, k: u32, parameter: Parameter) {
    let place = (3 + 2 * k) as i32;
    let offset = rng.below(parameter.length) as i32;
    let reads = parameter.flags & R != 0;
    let read = rng.pick(&[load, add, sub]);
    match rng.below(4) {
        0 if reads => part.put(read(A, place).indirect()),
        1 if parameter.flags & W != 0 => part.put(store(A, place).indirect()),
        2 if reads => {
            part.put(epp(4, A, place).indirect());
            part.put(read(4, offset));
        }
        3 if parameter.flags & W != 0 => {
            part.put(epp(4, A, place).indirect());
            part.put(store(4, offset));
            part.put(spp(5, 4, offset));
        }
        _ if reads => {
            part.put(epp(4, A, place).indirect());
            part.put(epp(5, 4, 0));
            part.put(load(5, 0));
        }
        _ => part.put(store(A, place).indirect()),
    }
}

/// A call of a later routine with arguments that fit its parameters.
fn put_call(rng: &mut Rng, tree: &mut Tree, index: usize, next: usize, kept_a: u32) {
    let wanted = tree.routines[next].parameters.clone();
    let own = tree.routines[index].parameters.clone();
    let gate = tree.gate(next);
    let strangers = tree.parts.len() as u32;
    let part = tree.part(index);
    let list = part.data.block(vec![0; 3 + 2 * wanted.len()]);
    part.data.set(list, wanted.len() as u32);
    for (k, parameter) in (0u32..).zip(&wanted) {
        let place = list + 3 + 2 * k;
        let word = argument(rng, part, &own, *parameter, place, strangers);
        part.data.set(place, word);
        part.data
            .set(place + 1, mode(parameter.length, parameter.flags));
    }
    part.call_with_list(list, gate);
    if index > 0 {
        part.put(epp(A, B, kept_a as i32).indirect());
    }
}

/// The pointer word of an argument. If it is passed on, the word is stored
/// when the program runs, and the tag is dropped now and then.
fn argument(
    rng: &mut Rng,
    part: &mut Subsystem,
    own: &[Parameter],
    wanted: Parameter,
    place: u32,
    strangers: u32,
) -> u32 {
    let fits = |p: &Parameter| p.flags & wanted.flags == wanted.flags && p.length >= wanted.length;
    let candidates: Vec<u32> = (0u32..)
        .zip(own)
        .filter(|(_, p)| fits(p))
        .map(|(k, _)| k)
        .collect();
    if !candidates.is_empty() && rng.chance(60) {
        let k = rng.pick(&candidates);
        part.put(epp(6, A, (3 + 2 * k) as i32).indirect());
        part.put(spp(6, B, place as i32));
        if rng.chance(2) {
            part.flip_tag(place);
        }
        return 0;
    }
    if rng.chance(1) {
        return pointer(2 * rng.below(strangers) + 1, rng.below(8));
    }
    let first = if rng.chance(25) && wanted.flags == R {
        part.linked_block(rng, wanted.length)
    } else {
        part.block(rng, wanted.length)
    };
    part.data_pointer(first)
}
