//! Three protected subsystems that call each other: end-to-end scenarios.

use assembler::*;
use scenarios::*;

/// A's program: call B with the list at b|3, then halt.
fn a_calls_b() -> Vec<Code> {
    vec![epp(A, B, 3), call(B, 0).indirect(), halt()]
}

/// A's data: link to B's gate, input, answer, then the list.
fn a_data(input: u32, list: ArgumentList) -> Vec<u32> {
    let mut words = vec![pointer(2, 0), input, 0];
    words.extend(list.words());
    words
}

/// A list that returns to A's HALT.
fn a_list() -> ArgumentList {
    ArgumentList::new(pointer(0, 2))
}

const HALT_ONLY: Code = Code(0);

#[test]
fn mutually_suspicious_a_and_b() {
    let list = a_list()
        .argument(pointer(1, 1), 1, R)
        .argument(pointer(1, 2), 1, W);
    let b = [
        load(A, 3).indirect(),
        add(B, 1),
        store(A, 5).indirect(),
        ret(A, 1).indirect(),
    ];
    let image = subsystems(
        [&a_calls_b(), &b, &[HALT_ONLY]],
        [&a_data(20, list), &[0, 22], &[0]],
    );
    let bench = expect(
        &image,
        Expected {
            fault: 0,
            count: 7,
            domain: DOMAIN_A,
            at: (0, 2),
            a: 42,
            frames: 0,
            changed: &[(1, 2, 42)],
        },
    );
    assert_eq!(bench.machine.pointers[0], tagged_at(1, 3));
    assert_eq!(bench.machine.pointers[2], untagged_at(1, 0));
}

#[test]
fn private_data_read_untagged() {
    let b = [load(B, 0).indirect(), halt()];
    let image = subsystems(
        [&a_calls_b(), &b, &[HALT_ONLY]],
        [&a_data(20, a_list()), &[pointer(1, 1)], &[0]],
    );
    let expected = Expected {
        fault: 22,
        count: 2,
        domain: DOMAIN_B,
        at: (2, 0),
        a: 0,
        frames: 1,
        changed: &[],
    };
    expect(&image, expected);
}

#[test]
fn private_word_beside_an_argument() {
    let list = a_list().argument(pointer(1, 1), 1, R);
    let b = [epp(3, A, 3).indirect(), load(3, 0), load(3, 1), halt()];
    let image = subsystems(
        [&a_calls_b(), &b, &[HALT_ONLY]],
        [&a_data(20, list), &[0], &[0]],
    );
    let expected = Expected {
        fault: 24,
        count: 4,
        domain: DOMAIN_B,
        at: (2, 2),
        a: 20,
        frames: 1,
        changed: &[],
    };
    expect(&image, expected);
}

/// An image in which A transfers through its link, word 0 of its data, and
/// must get a fault there.
fn gate_refused(code: Code, link: u32, fault: u8) {
    let a = [epp(A, B, 3), code.indirect(), halt()];
    let mut data = a_data(0, a_list());
    data[0] = link;
    let b = [HALT_ONLY, HALT_ONLY];
    let image = subsystems([&a, &b, &[HALT_ONLY]], [&data, &[0], &[0]]);
    let expected = Expected {
        fault,
        count: 1,
        domain: DOMAIN_A,
        at: (0, 1),
        a: 0,
        frames: 0,
        changed: &[],
    };
    expect(&image, expected);
}

#[test]
fn gates_jumped_to_missed_or_not_allowed() {
    gate_refused(jump(B, 0), pointer(2, 0), 22);
    gate_refused(call(B, 0), pointer(2, 1), 29);
    gate_refused(call(B, 0), pointer(4, 0), 22);
}

#[test]
fn trick_address_names_the_called_domains_own_word() {
    let list = a_list()
        .argument(pointer(1, 1), 1, R)
        .argument(pointer(3, 1), 1, W);
    let b = [
        load(A, 3).indirect(),
        store(A, 5).indirect(),
        ret(A, 1).indirect(),
    ];
    let image = subsystems(
        [&a_calls_b(), &b, &[HALT_ONLY]],
        [&a_data(20, list), &[0, 77], &[0]],
    );
    let expected = Expected {
        fault: 25,
        count: 3,
        domain: DOMAIN_B,
        at: (2, 1),
        a: 20,
        frames: 1,
        changed: &[],
    };
    let bench = expect(&image, expected);
    assert_eq!(bench.word(3, 1), 77);
    assert!(
        reference::could_write(&bench.machine, 3, 1),
        "B could itself"
    );
}

/// B follows three links from the argument on and loads the word there.
fn links(last: u32, expected: Expected) -> Bench {
    let mut data = a_data(0, a_list().argument(pointer(1, 8), 4, R));
    data.extend([pointer(1, 9), pointer(1, 10), last, 1234]);
    let b = [
        epp(3, A, 3).indirect(),
        epp(3, 3, 0).indirect(),
        epp(3, 3, 0).indirect(),
        epp(3, 3, 0).indirect(),
        load(3, 0),
        halt(),
    ];
    let image = subsystems([&a_calls_b(), &b, &[HALT_ONLY]], [&data, &[0, 5678], &[0]]);
    expect(&image, expected)
}

#[test]
fn links_inside_an_argument_keep_the_tag() {
    let good = Expected {
        fault: 0,
        count: 8,
        domain: DOMAIN_B,
        at: (2, 5),
        a: 1234,
        frames: 1,
        changed: &[],
    };
    links(pointer(1, 11), good);
    let bad = Expected {
        fault: 24,
        count: 6,
        domain: DOMAIN_B,
        at: (2, 4),
        a: 0,
        frames: 1,
        changed: &[],
    };
    let bench = links(pointer(3, 1), bad);
    assert_eq!(bench.machine.pointers[3], tagged_at(3, 1));
}

/// B's program that hands A's argument on to C: it saves a in b|1, stores the
/// argument's pointer in its own list at b|2, calls C through b|0, goes back.
fn b_passes_on() -> Vec<Code> {
    vec![
        spp(A, B, 1),
        epp(3, A, 3).indirect(),
        spp(3, B, 5),
        epp(A, B, 2),
        call(B, 0).indirect(),
        epp(A, B, 1).indirect(),
        ret(A, 1).indirect(),
    ]
}

/// B's data for that program; `mode_word` is what B asks for.
fn b_data(mode_word: u32) -> Vec<u32> {
    let list = ArgumentList::new(pointer(2, 5)).raw_argument(0, mode_word);
    let mut words = vec![pointer(4, 0), 0];
    words.extend(list.words());
    words
}

/// C loads its argument, keeps it in its own data and goes back.
fn c_keeps() -> Vec<Code> {
    vec![load(A, 3).indirect(), store(B, 0), ret(A, 1).indirect()]
}

/// A passes words 1 and 2 to B, to read; B asks for `mode_word` on them.
fn passed_on(mode_word: u32, expected: Expected) {
    let list = a_list().argument(pointer(1, 1), 2, R);
    let image = subsystems(
        [&a_calls_b(), &b_passes_on(), &c_keeps()],
        [&a_data(20, list), &b_data(mode_word), &[0]],
    );
    expect(&image, expected);
}

#[test]
fn argument_passed_on_to_a_third_domain() {
    let expected = Expected {
        fault: 0,
        count: 13,
        domain: DOMAIN_A,
        at: (0, 2),
        a: 20,
        frames: 0,
        changed: &[(3, 1, tagged(1, 3)), (3, 5, tagged(1, 1)), (5, 0, 20)],
    };
    passed_on(mode(2, R), expected);
}

#[test]
fn argument_passed_on_for_more_than_was_given() {
    for mode_word in [mode(1, W), mode(1, R | W), mode(3, R)] {
        let expected = Expected {
            fault: 24,
            count: 6,
            domain: DOMAIN_B,
            at: (2, 4),
            a: 0,
            frames: 1,
            changed: &[(3, 1, tagged(1, 3)), (3, 5, tagged(1, 1))],
        };
        passed_on(mode_word, expected);
    }
}

#[test]
fn argument_passed_as_its_own_with_the_tag_dropped() {
    let list = a_list().argument(pointer(1, 1), 1, R);
    let b = [
        epp(3, A, 3).indirect(),
        spp(3, B, 4),
        load(B, 4),
        add(B, 6),
        store(B, 4),
        epp(A, B, 1),
        call(B, 0).indirect(),
        halt(),
    ];
    let own = ArgumentList::new(pointer(2, 7)).argument(0, 1, R);
    let mut data = vec![pointer(4, 0)];
    data.extend(own.words());
    data.push(0x8000_0000);
    let image = subsystems(
        [&a_calls_b(), &b, &c_keeps()],
        [&a_data(20, list), &data, &[0]],
    );
    let expected = Expected {
        fault: 25,
        count: 9,
        domain: DOMAIN_C,
        at: (4, 0),
        a: pointer(1, 1),
        frames: 2,
        changed: &[(3, 4, pointer(1, 1))],
    };
    let bench = expect(&image, expected);
    let argument = bench.machine.frames[1].capabilities[0];
    assert_eq!(argument, capability(1, 1, 1, R, DOMAIN_B));
}

/// A's code has a gate at word 0, which adds 5 to its data word 1; its main
/// program begins at word 4.
fn callback_image() -> ImageBuilder {
    let a = [
        load(B, 1),
        add(B, 2),
        store(B, 1),
        ret(A, 1).indirect(),
        epp(A, B, 3),
        call(B, 0).indirect(),
        halt(),
    ];
    let mut a_data = vec![pointer(2, 0), 10, 5];
    a_data.extend(ArgumentList::new(pointer(0, 6)).words());
    let b = [
        spp(A, B, 1),
        epp(A, B, 2),
        call(B, 0).indirect(),
        epp(A, B, 1).indirect(),
        ret(A, 1).indirect(),
    ];
    let mut b_data = vec![pointer(0, 0), 0];
    b_data.extend(ArgumentList::new(pointer(2, 3)).words());
    let mut image = subsystems([&a, &b, &[HALT_ONLY]], [&a_data, &b_data, &[0]]);
    image.gates(0, 1, DOMAIN_A).rights(DOMAIN_B, 0, G);
    image.start(DOMAIN_A, pointer(0, 4));
    image
}

#[test]
fn callback_into_the_calling_domain() {
    let image = callback_image();
    let expected = Expected {
        fault: 0,
        count: 12,
        domain: DOMAIN_A,
        at: (0, 6),
        a: 15,
        frames: 0,
        changed: &[(1, 1, 15), (3, 1, tagged(1, 3))],
    };
    expect(&image, expected);

    let mut bench = Bench::new(&image);
    let crossings = [
        (2, DOMAIN_B, (2, 0), 3, 1),
        (3, DOMAIN_A, (0, 0), 1, 2),
        (4, DOMAIN_B, (2, 3), 3, 1),
        (2, DOMAIN_A, (0, 6), 1, 0),
    ];
    for (count, domain, (segment, word), stack, frames) in crossings {
        let run = bench.stretch(1000);
        assert_eq!(run.ending, reference::Ending::Crossed);
        assert_eq!(run.count, count);
        let machine = &bench.machine;
        assert_eq!(machine.domain, domain);
        assert_eq!(
            (machine.location.segment, machine.location.word),
            (segment, word)
        );
        assert_eq!(machine.pointers[2], untagged_at(stack, 0));
        assert_eq!(machine.frame_count, frames);
    }
}

/// B runs `b` with `data` and must end with a fault at its word `at`.
fn bad_return(b: &[Code], data: &[u32], fault: u8, at: u16) {
    let image = subsystems(
        [&a_calls_b(), b, &[HALT_ONLY]],
        [&a_data(0, a_list()), data, &[0]],
    );
    let expected = Expected {
        fault,
        count: 2 + at,
        domain: DOMAIN_B,
        at: (2, at),
        a: 0,
        frames: 1,
        changed: &[],
    };
    expect(&image, expected);
}

#[test]
fn return_gate_with_another_s_or_place_or_untagged() {
    bad_return(&[epp(S, B, 0), ret(A, 1).indirect()], &[0], 32, 1);
    bad_return(&[epp(3, A, 1).indirect(), ret(3, 1)], &[0], 32, 1);
    bad_return(&[ret(B, 0).indirect()], &[pointer(0, 2)], 22, 0);
}

#[test]
fn return_gate_with_no_frame() {
    let a = [ret(B, 0).indirect(), halt()];
    let image = subsystems(
        [&a, &[HALT_ONLY], &[HALT_ONLY]],
        [&[tagged(0, 1)], &[0], &[0]],
    );
    let expected = Expected {
        fault: 32,
        count: 0,
        domain: DOMAIN_A,
        at: (0, 0),
        a: 0,
        frames: 0,
        changed: &[],
    };
    expect(&image, expected);
}

#[test]
fn no_argument_the_list_can_be_read_but_not_written() {
    let b = [lit(7), load(A, 0), store(A, 0), halt()];
    let image = subsystems(
        [&a_calls_b(), &b, &[HALT_ONLY]],
        [&a_data(20, a_list()), &[0], &[0]],
    );
    let expected = Expected {
        fault: 24,
        count: 4,
        domain: DOMAIN_B,
        at: (2, 2),
        a: 0,
        frames: 1,
        changed: &[],
    };
    expect(&image, expected);
}

#[test]
fn same_words_as_a_read_and_as_a_write_argument() {
    let list = a_list()
        .argument(pointer(1, 1), 1, R)
        .argument(pointer(1, 1), 1, W);
    let b = [
        load(A, 3).indirect(),
        add(B, 7),
        store(A, 5).indirect(),
        epp(3, A, 3).indirect(),
        spp(3, B, 5),
        epp(A, B, 2),
        call(B, 0).indirect(),
        halt(),
    ];
    let mut data = b_data(mode(1, R | W));
    data.push(1);
    let image = subsystems(
        [&a_calls_b(), &b, &c_keeps()],
        [&a_data(20, list), &data, &[0]],
    );
    let expected = Expected {
        fault: 24,
        count: 8,
        domain: DOMAIN_B,
        at: (2, 6),
        a: 21,
        frames: 1,
        changed: &[(1, 1, 21), (3, 5, tagged(1, 1))],
    };
    expect(&image, expected);
}

#[test]
fn shared_segment_with_different_rights() {
    let b = [
        lit(-5),
        store(B, 4).indirect(),
        epp(A, B, 1),
        call(B, 0).indirect(),
        halt(),
    ];
    let c = [
        lit(0),
        load(B, 0).indirect(),
        store(B, 1),
        store(B, 0).indirect(),
        halt(),
    ];
    let mut b_data = vec![pointer(4, 0)];
    b_data.extend(ArgumentList::new(pointer(2, 4)).words());
    b_data.push(pointer(6, 1));
    let mut image = subsystems(
        [&a_calls_b(), &b, &c],
        [&a_data(0, a_list()), &b_data, &[pointer(6, 1), 0]],
    );
    let shared = image.segment([0u32, 0]);
    image.rights(DOMAIN_B, shared, R | W);
    image.rights(DOMAIN_C, shared, R);
    let expected = Expected {
        fault: 22,
        count: 9,
        domain: DOMAIN_C,
        at: (4, 3),
        a: 4_294_967_291,
        frames: 2,
        changed: &[(5, 1, 4_294_967_291), (6, 1, 4_294_967_291)],
    };
    expect(&image, expected);
}
