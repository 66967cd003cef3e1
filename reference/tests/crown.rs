//! The crown table, and every number of the table of refusals.

mod support;

use reference::{replay, rewrite, Answer, Policy};
use support::{bundle, call, crown, refused, weights, SMALLEST};

const ANA: u8 = 1;
const BEN: u8 = 2;

/// A fresh load of the crown's bundle.
fn fresh() -> Policy {
    Policy::load(&crown()).expect("the crown loads")
}

/// An answer written shortly.
fn answer(number: u8, set: u32, evaluations: u8) -> Answer {
    Answer {
        number,
        set,
        evaluations,
    }
}

#[test]
fn crown_table_a_to_e() {
    assert_eq!(fresh().ask_lazy(0, 0, ANA), answer(0, 0b110, 2));
    assert_eq!(fresh().ask_eager(0, 0, ANA), answer(0, 0b110, 3));
    assert_eq!(fresh().ask_lazy(1, 0, ANA), answer(0, 0b001, 1));
    assert_eq!(fresh().ask_lazy(2, 0, ANA), answer(0, 0, 0));
    assert_eq!(fresh().ask_lazy(3, 0, ANA), answer(17, 0, 0));
}

#[test]
fn crown_table_f_to_k() {
    assert_eq!(fresh().liberal(3, 0, ANA), Ok(true));
    assert_eq!(fresh().strict(3, 0, ANA), Ok(false));
    assert_eq!(fresh().ask_lazy(0, 0, BEN), answer(17, 0, 2));
    assert_eq!(fresh().strict(0, 0, BEN), Ok(true));
    let mut edited = fresh();
    assert_eq!(edited.remove_edge(1, 0, 1), 0);
    assert_eq!(edited.ask_lazy(0, 0, ANA), answer(17, 0, 1));
    for method in 0..4 {
        assert_eq!(fresh().ask_lazy(method, 0, 0), answer(16, 0, 0));
        assert_eq!(fresh().ask_eager(method, 0, 0), answer(16, 0, 0));
        assert_eq!(fresh().liberal(method, 0, 0), Err(16));
        assert_eq!(fresh().strict(method, 0, 0), Err(16));
    }
}

#[test]
fn the_memo_keeps_values_until_the_pair_or_an_edge_changes() {
    let mut policy = fresh();
    assert_eq!(policy.ask_lazy(0, 0, ANA).evaluations, 2);
    assert_eq!(policy.ask_lazy(0, 0, ANA).evaluations, 0);
    assert_eq!(policy.ask_eager(0, 0, ANA).evaluations, 1);
    assert_eq!(policy.ask_eager(9, 0, BEN).number, 14);
    assert_eq!(policy.add_edge(0, 0, 1), 11);
    assert_eq!(policy.ask_eager(0, 0, ANA).evaluations, 0);
    assert_eq!(policy.ask_eager(0, 0, BEN), answer(17, 0, 3));
    assert_eq!(policy.ask_eager(0, 0, ANA).evaluations, 3);
    assert_eq!(policy.add_edge(2, 0, 1), 0);
    assert_eq!(policy.ask_eager(0, 0, ANA).evaluations, 3);
}

#[test]
fn principals_that_share_a_formula_count_once() {
    let mut lines = vec![vec![1, 1, 1], vec![2, 0, 0, 0], vec![4, 0, 0, 0]];
    lines.push(weights(&[5], 1));
    lines.extend([vec![7, 0, 0], vec![7, 0, 0]]);
    lines.push(weights(&[10, 0], 1));
    let mut policy = Policy::load(&bundle(&lines)).expect("it loads");
    assert_eq!(policy.ask_eager(0, 0, 0), answer(0, 1, 1));
}

#[test]
fn blank_smallest_and_crown_are_written_again() {
    let blank = Policy::blank();
    assert_eq!(blank.write(), SMALLEST);
    assert_eq!(SMALLEST.len(), 30);
    assert_eq!(Policy::load(SMALLEST), Ok(blank));
    assert_eq!(fresh().write(), crown());
    assert_eq!(Policy::load(&fresh().write()), Ok(fresh()));
}

#[test]
fn an_accepted_bundle_with_one_byte_altered_is_refused() {
    let text = crown();
    for place in 0..text.len() {
        for byte in 0..=255 {
            let mut altered = text.clone();
            altered[place] = byte;
            assert_eq!(Policy::load(&altered).is_ok(), byte == text[place]);
        }
    }
}

#[test]
fn edits_are_refused_with_10_to_13() {
    let mut policy = fresh();
    for (label, from, to) in [(16, 0, 1), (0, 3, 1), (0, 0, 3), (255, 255, 255)] {
        assert_eq!(policy.add_edge(label, from, to), 10);
        assert_eq!(policy.remove_edge(label, from, to), 10);
    }
    assert_eq!(policy.add_edge(1, 0, 2), 11);
    assert_eq!(policy.remove_edge(15, 2, 2), 12);
    assert_eq!(policy, fresh());
    assert_eq!(policy.add_edge(15, 2, 2), 0);
    assert_eq!(policy.remove_edge(15, 2, 2), 0);
    assert_eq!(policy, fresh());
}

#[test]
fn a_full_book_refuses_with_13_after_10_and_11() {
    let mut policy = Policy::load(&bundle(&support::many_edges(512))).expect("512 load");
    assert_eq!(policy.add_edge(16, 1, 0), 10);
    assert_eq!(policy.add_edge(15, 0, 31), 11);
    assert_eq!(policy.add_edge(15, 1, 0), 13);
    assert_eq!(policy.remove_edge(0, 0, 0), 0);
    assert_eq!(policy.add_edge(15, 1, 0), 0);
}

#[test]
fn questions_are_refused_with_14_to_17_in_order() {
    let cases = [(4, 3, 0, 14), (0, 3, 0, 15), (0, 0, 0, 16), (0, 0, 3, 16)];
    for (method, object, requestor, number) in cases {
        let mut policy = fresh();
        policy.ask_lazy(0, 0, ANA);
        let before = policy.clone();
        let refused = answer(number, 0, 0);
        assert_eq!(policy.ask_eager(method, object, requestor), refused);
        assert_eq!(policy.ask_lazy(method, object, requestor), refused);
        assert_eq!(policy.liberal(method, object, requestor), Err(number));
        assert_eq!(policy.strict(method, object, requestor), Err(number));
        assert_eq!(policy, before);
    }
    assert_eq!(fresh().ask_eager(3, 0, ANA), answer(17, 0, 3));
}

#[test]
fn the_writer_refuses_a_short_buffer_with_18() {
    let text = crown();
    let mut short = vec![0xAA; text.len() - 1];
    let number = 18u64 << 32;
    assert_eq!(rewrite(&text, &mut short), number + text.len() as u64);
    assert_eq!(short, vec![0xAA; text.len() - 1]);
    let mut long = vec![0xAA; text.len() + 2];
    assert_eq!(rewrite(&text, &mut long), text.len() as u64);
    assert_eq!(long, [text, vec![0xAA; 2]].concat());
    assert_eq!(rewrite(SMALLEST, &mut []), number + 30);
    let mut out = [0xAA; 40];
    assert_eq!(rewrite(&SMALLEST[..29], &mut out), (1 << 32) + 2);
    assert_eq!(out, [0xAA; 40]);
}

#[test]
fn replay_answers_each_call_on_the_record_left() {
    let calls = [
        [3, 0, 0, 1],
        [2, 0, 0, 1],
        [4, 3, 0, 1],
        [5, 3, 0, 1],
        [7, 0, 0, 0],
        [1, 1, 0, 1],
        [3, 0, 0, 1],
        [1, 1, 0, 1],
    ];
    let expected = [
        [0, 0, 0, 6, 2],
        [0, 0, 0, 6, 1],
        [0, 0, 0, 1, 0],
        [0, 0, 0, 0, 0],
        [4, 0, 0, 0, 0],
        [0, 0, 0, 0, 0],
        [17, 0, 0, 0, 1],
        [12, 0, 0, 0, 0],
    ];
    for ignored in [0, 6, u32::MAX] {
        let calls = calls.map(|numbers| call(numbers, ignored));
        let mut answers = [0xAA; 44];
        assert_eq!(replay(&crown(), calls.as_flattened(), &mut answers), 8);
        assert_eq!(answers[..40], *expected.as_flattened());
        assert_eq!(answers[40..], [0xAA; 4]);
    }
}

#[test]
fn replay_stops_at_whole_calls_and_whole_answers() {
    let mut answers = [0xAA; 14];
    assert_eq!(replay(&crown(), &[9; 80], &mut answers), 2);
    assert_eq!(answers, [4, 0, 0, 0, 0, 4, 0, 0, 0, 0, 170, 170, 170, 170]);
    let calls = [call([0, 2, 0, 1], 0), call([3, 0, 0, 1], 0)];
    for length in 8..16 {
        let given = &calls.as_flattened()[..length];
        assert_eq!(replay(&crown(), given, &mut answers), 1);
    }
    assert_eq!(replay(&crown(), &calls[0][..7], &mut answers), 0);
    assert_eq!(replay(b"", &[9; 80], &mut answers), 8 << 32);
    assert_eq!(answers, [0, 0, 0, 0, 0, 4, 0, 0, 0, 0, 170, 170, 170, 170]);
}

#[test]
fn the_helper_tells_number_and_line() {
    assert_eq!(refused(b""), (8, 1));
    assert_eq!(refused(SMALLEST), (0, 0));
}
