//! Lists handed on, in whole images.

use assembler::*;
use scenarios::relay::words_of;
use scenarios::*;

/// A's data: the link to B's gate, a list for B with one argument on the list
/// at word 6, and that list, for C, with n arguments on B's word 2.
fn a_data(n: usize, back: u32) -> Vec<u32> {
    let own = ArgumentList::new(pointer(0, 2));
    let own = own.argument(pointer(1, 6), words_of(n).into(), R);
    let none = ArgumentList::new(back);
    let handed_on = (0..n).fold(none, |list, _| list.argument(pointer(3, 2), 1, R));
    [vec![pointer(2, 0)], own.words(), handed_on.words()].concat()
}

/// A's code: call B with the list at b|1, then halt.
fn a_code() -> [Code; 3] {
    [epp(A, B, 1), call(B, 0).indirect(), halt()]
}

/// B's code: keep a at b|1, call C with the list that is the argument, take a
/// back at word 3 and return.
fn b_code() -> [Code; 5] {
    [
        spp(A, B, 1),
        epp(A, A, 3).indirect(),
        call(B, 0).indirect(),
        epp(A, B, 1).indirect(),
        ret(A, 1).indirect(),
    ]
}

/// C adds up every word of its list and the last argument, if there is one,
/// stores the sum at b|0 and returns.
fn c_code(n: usize) -> Vec<Code> {
    let mut code = vec![lit(0)];
    code.extend((0..words_of(n)).map(|word| add(A, word.into())));
    code.extend((0..n).last().map(|k| add(A, 3 + 2 * k as i32).indirect()));
    code.extend([store(B, 0), ret(A, 1).indirect()]);
    code
}

#[test]
fn a_relay_hands_its_own_list_on() {
    for (n, sum, count) in [(0, 8195, 14), (1, 1_073_762_388, 17), (8, 106_608, 31)] {
        let image = subsystems(
            [&a_code(), &b_code(), &c_code(n)],
            [&a_data(n, pointer(2, 3)), &[pointer(4, 0), 0, 77], &[0]],
        );
        let expected = Expected {
            fault: 0,
            count,
            domain: DOMAIN_A,
            at: (0, 2),
            a: sum,
            frames: 0,
            changed: &[(3, 1, tagged(1, 1)), (5, 0, sum)],
        };
        expect(&image, expected);
    }
}

/// B hands A's list on to C, and C to D. The list returns to word 0 of segment
/// 8, which B and C may execute: there each takes its own a back and returns.
fn handed_on_twice() -> ImageBuilder {
    let c = [spp(A, B, 1), call(B, 0).indirect()];
    let data = a_data(1, pointer(8, 0));
    let mut image = subsystems(
        [&a_code(), &b_code()[..3], &c],
        [&data, &[pointer(4, 0), 0, 77], &[pointer(6, 0), 0]],
    );
    image.segment([load(A, 0), add(A, 1), add(A, 4), ret(A, 1).indirect()]);
    image.segment([0u32]);
    image.segment([epp(A, B, 1).indirect(), ret(A, 1).indirect()]);
    image.domain(7, &[(6, R | E), (7, R | W)]);
    image.gates(6, 1, 3);
    image.rights(DOMAIN_B, 8, E).rights(DOMAIN_C, 8, E);
    image.rights(DOMAIN_C, 6, G);
    image
}

#[test]
fn a_list_handed_on_twice_keeps_its_source() {
    let mut bench = Bench::new(&handed_on_twice());
    for (frames, count) in [(1, 2), (2, 3), (3, 2)] {
        assert_eq!(bench.stretch(1000).count, count);
        assert_eq!(bench.machine.frame_count, frames);
    }
    let lists = [1, 2].map(|newest| bench.machine.frames[newest].capabilities[1]);
    assert_eq!(lists, [capability(1, 6, 5, R, DOMAIN_A); 2]);
    let sum = 1 + 32_768 + 1_073_741_825;
    let expected = Expected {
        fault: 0,
        count: 16,
        domain: DOMAIN_A,
        at: (0, 2),
        a: sum,
        frames: 0,
        changed: &[(3, 1, tagged(1, 1)), (5, 1, tagged(1, 6))],
    };
    expect(&handed_on_twice(), expected);
}

#[test]
fn a_relay_hands_on_the_list_that_it_was_called_with() {
    let argument = ArgumentList::new(pointer(2, 1)).argument(pointer(3, 1), 1, R);
    let image = subsystems(
        [
            &a_code(),
            &[call(B, 0).indirect(), halt()],
            &[load(A, 0), add(A, 3).indirect(), ret(A, 1).indirect()],
        ],
        [
            &[vec![pointer(2, 0)], argument.words()].concat(),
            &[pointer(4, 0), 77],
            &[0],
        ],
    );
    let mut bench = Bench::new(&image);
    assert_eq!([2, 1].map(|_| bench.stretch(1000).count), [2, 1]);
    let [list, lent] = [capability(1, 1, 5, R, DOMAIN_A), capability(3, 1, 1, R, 0)];
    assert_eq!(bench.machine.frames[0].capabilities(), [lent, list]);
    let own = capability(3, 1, 1, R, DOMAIN_B);
    assert_eq!(bench.machine.frames[1].capabilities(), [own, list]);
    let expected = Expected {
        fault: 0,
        count: 7,
        domain: DOMAIN_B,
        at: (2, 1),
        a: 78,
        frames: 1,
        changed: &[],
    };
    expect(&image, expected);
}

/// A lends B the list at word 7; B calls A back and passes it on; there A calls
/// C with it.
fn called_back() -> ImageBuilder {
    let a = [
        epp(A, A, 3).indirect(),
        call(B, 1).indirect(),
        halt(),
        epp(A, B, 2),
        call(B, 0).indirect(),
        halt(),
    ];
    let lending = ArgumentList::new(pointer(0, 5)).argument(pointer(1, 7), 3, R);
    let passing_on = ArgumentList::new(pointer(2, 2)).argument(tagged(1, 7), 3, R);
    let gates = vec![pointer(2, 0), pointer(4, 0)];
    let last = ArgumentList::new(pointer(0, 2)).words();
    let b_data = [vec![pointer(0, 0)], passing_on.words()].concat();
    let mut image = subsystems(
        [
            &a,
            &[epp(A, B, 1), call(B, 0).indirect(), halt()],
            &[load(A, 1), ret(A, 1).indirect()],
        ],
        [&[gates, lending.words(), last].concat(), &b_data, &[0]],
    );
    image.gates(0, 1, DOMAIN_A).start(DOMAIN_A, pointer(0, 3));
    image.rights(DOMAIN_B, 0, G).rights(DOMAIN_A, 4, G);
    image
}

#[test]
fn a_relay_that_is_called_back_hands_its_own_list_on() {
    let mut bench = Bench::new(&called_back());
    assert_eq!([(); 3].map(|()| bench.stretch(1000).count), [2, 2, 2]);
    let made = bench.machine.frames[2];
    assert_eq!(made.domain, DOMAIN_A);
    assert_eq!(made.capabilities(), [capability(1, 7, 3, R, DOMAIN_A)]);
    let expected = Expected {
        fault: 0,
        count: 9,
        domain: DOMAIN_A,
        at: (0, 2),
        a: 2,
        frames: 2,
        changed: &[],
    };
    expect(&called_back(), expected);
}
