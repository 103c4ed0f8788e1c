// A seed gives the same inputs each time and on every machine; sound books are sound.

use inputs::{book_input, books, report_input, run_input, step_input, Rng};
use paper::check_book;

/// FNV-1a over the text form of some inputs.
fn digest(make: impl Fn(&mut Rng) -> String) -> u64 {
    let text: String = (0..300).map(|input| make(&mut Rng::for_input(7, input))).collect();
    text.bytes()
        .fold(0xCBF2_9CE4_8422_2325, |hash, byte| (hash ^ u64::from(byte)).wrapping_mul(0x100_0000_01B3))
}

/// A change of the generator changes these numbers; another machine does not.
#[test]
fn the_same_inputs_everywhere() {
    let digests = [
        digest(|rng| format!("{:?}", book_input(rng))),
        digest(|rng| format!("{:?}", step_input(rng))),
        digest(|rng| format!("{:?}", run_input(rng))),
        digest(|rng| format!("{:?}", report_input(rng))),
    ];
    let expected = [
        17_912_754_775_815_471_484,
        15_241_050_486_132_671_233,
        4_790_945_935_540_772_495,
        6_141_848_504_873_524_302,
    ];
    assert_eq!(digests, expected);
}

#[test]
fn other_inputs_for_other_seeds() {
    let inputs = |seed| (0..50).map(|input| book_input(&mut Rng::for_input(seed, input))).collect::<Vec<_>>();
    assert_eq!(inputs(1), inputs(1));
    assert_ne!(inputs(1), inputs(2));
    assert_ne!(inputs(1)[0], inputs(1)[1]);
}

#[test]
fn sound_books_are_sound() {
    for input in 0..20_000 {
        let draft = books::sound(&mut Rng::for_input(3, input));
        assert_eq!(check_book(&draft.text()).err(), None, "input {input}");
    }
}

#[test]
fn full_books_are_sound_and_full() {
    let (mut nodes, mut locations, mut agents, mut functions, mut elements) = (0, 0, 0, 0, 0);
    for input in 0..120 {
        let draft = books::full(&mut Rng::for_input(4, input));
        let book = check_book(&draft.text()).expect("a sound book");
        nodes = nodes.max(book.nodes.len());
        locations = locations.max(book.locations);
        agents = agents.max(book.agents.len());
        functions = functions.max(book.functions.len());
        elements = elements.max(book.elements);
    }
    assert_eq!((nodes, locations, agents, functions, elements), (1_024, 65_536, 16, 32, 10_000));
}
