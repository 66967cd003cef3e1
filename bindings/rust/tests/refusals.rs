//! What is refused, with number and line, and that it changes nothing.

mod support;

use case_access::{Edge, Engine, Question, Refused, Set, Ticket};
use support::{crown, question, ticket, with_line, ANA, ANA_CHECKS, BEN, BUNDLE, CROWN};

/// The refusal of a bundle.
fn refused(bundle: &[u8]) -> Refused {
    Engine::load(bundle).expect_err("the bundle is refused")
}

#[test]
fn bundles_are_refused_with_number_and_line() {
    let without_end = &BUNDLE[..BUNDLE.len() - 1];
    assert_eq!(refused(without_end), Refused::WrongCharacters { line: 24 });
    let cases = [
        (
            with_line(5, "0303010001f8"),
            Refused::WrongCharacters { line: 5 },
        ),
        (
            with_line(5, "0403010001F7"),
            Refused::WrongLength { line: 5 },
        ),
        (with_line(5, "0303010001F7"), Refused::WrongSum { line: 5 }),
        (with_line(5, "0302010001F9"), Refused::WrongKind { line: 5 }),
        (
            with_line(5, "0303100001E9"),
            Refused::OutOfRange { line: 5 },
        ),
        (with_line(5, "0303000001F9"), Refused::NotRising { line: 5 }),
        (
            with_line(24, "06FF001600001700CE"),
            Refused::WrongEnd { line: 24 },
        ),
    ];
    for (bundle, cause) in cases {
        assert_eq!(refused(&bundle), cause);
    }
    assert_eq!(refused(b""), Refused::WrongEnd { line: 1 });
}

#[test]
fn one_line_over_a_limit_and_a_circle() {
    let twenty_one = ["08050000000000000000F3"; 21].map(String::from);
    assert_eq!(
        refused(&bundle(&twenty_one)),
        Refused::OverLimit { line: 22 }
    );
    let circle = [
        "08050000000000000000F3",
        "08050000000000000000F3",
        "02060001F7",
        "02060100F7",
    ];
    assert_eq!(
        refused(&bundle(&circle.map(String::from))),
        Refused::Circle { line: 6 }
    );
}

/// A bundle of one object with these lines, head and end put around them.
fn bundle(lines: &[String]) -> Vec<u8> {
    let head = String::from("02010101FB");
    let before: Vec<&String> = std::iter::once(&head).chain(lines).collect();
    let sum: u32 = before
        .iter()
        .map(|line| {
            octets(line)
                .iter()
                .map(|&octet| u32::from(octet))
                .sum::<u32>()
        })
        .sum();
    let mut end = vec![6, 0xFF];
    end.extend((before.len() as u16).to_be_bytes());
    end.extend(sum.to_be_bytes());
    let check = end.iter().fold(0u8, |sum, &octet| sum.wrapping_sub(octet));
    end.push(check);
    let end: String = end.iter().map(|octet| format!("{octet:02X}")).collect();
    let lines = before.into_iter().chain(std::iter::once(&end));
    lines
        .map(|line| format!("{line}\n"))
        .collect::<String>()
        .into_bytes()
}

/// The octets of a line.
fn octets(line: &str) -> Vec<u8> {
    let pairs = (0..line.len() / 2).map(|i| &line[2 * i..2 * i + 2]);
    pairs
        .map(|pair| u8::from_str_radix(pair, 16).expect("a pair of digits"))
        .collect()
}

#[test]
fn edits_are_refused_and_change_nothing() {
    let mut engine = crown();
    let before = engine.write();
    let out_of_range = Edge {
        label: 16,
        ..ANA_CHECKS
    };
    let no_object = Edge {
        to: 3,
        ..ANA_CHECKS
    };
    let absent = Edge {
        label: 2,
        ..ANA_CHECKS
    };
    assert_eq!(engine.add(out_of_range), Err(Refused::EdgeOutOfRange));
    assert_eq!(engine.remove(no_object), Err(Refused::EdgeOutOfRange));
    assert_eq!(engine.add(ANA_CHECKS), Err(Refused::EdgePresent));
    assert_eq!(engine.remove(absent), Err(Refused::EdgeAbsent));
    assert_eq!(engine.write(), before);
}

#[test]
fn the_513th_edge_is_refused() {
    let head = "020101FFFD\n";
    let end = "06FF000100000200F8\n";
    let mut engine = Engine::load(format!("{head}{end}").as_bytes()).expect("255 objects");
    let edges = (0..3u8).flat_map(|label| (0..255u8).map(move |to| Edge { label, from: 0, to }));
    let added: Vec<_> = edges.map(|edge| engine.add(edge)).collect();
    assert!(added[..512].iter().all(|result| result.is_ok()));
    assert!(added[512..]
        .iter()
        .all(|&result| result == Err(Refused::EdgesFull)));
}

#[test]
fn questions_are_refused() {
    let no_object = Question {
        object: 3,
        ..question(0, ANA)
    };
    assert_eq!(crown().lazy(question(4, ANA)), Err(Refused::NoMethod));
    assert_eq!(crown().eager(no_object), Err(Refused::NoObject));
    assert_eq!(crown().liberal(question(255, ANA)), Err(Refused::NoMethod));
    assert_eq!(crown().strict(no_object), Err(Refused::NoObject));
    assert_eq!(crown().lazy(question(0, 255)), Err(Refused::NotUser));
}

/// The refusal of a ticket on the crown: method, requestor, members.
fn ticket_refused(method: u8, requestor: u8, members: &[u8]) -> Refused {
    let answer = crown().ticket(ticket(method, requestor, members));
    answer.expect_err("the ticket is refused")
}

#[test]
fn tickets_are_refused_in_order() {
    let mut no_object = ticket(0, CROWN, &[0, 3]);
    no_object.question.object = 3;
    assert_eq!(ticket_refused(4, CROWN, &[0, 3]), Refused::NoMethod);
    assert_eq!(crown().ticket(no_object), Err(Refused::NoObject));
    assert_eq!(ticket_refused(0, CROWN, &[0, 3]), Refused::NotUser);
    assert_eq!(ticket_refused(0, BEN, &[0, 1]), Refused::NotEnabled);
    assert_eq!(ticket_refused(1, BEN, &[1]), Refused::NotConsistent);
    assert_eq!(ticket_refused(1, ANA, &[1, 2]), Refused::GuardNotMet);
}

#[test]
fn members_that_are_no_principals_are_refused() {
    for member in 3..32 {
        let refused = Err(Refused::NotEnabled);
        assert_eq!(crown().ticket(ticket(0, ANA, &[1, 2, member])), refused);
        assert_eq!(crown().ticket(ticket(2, ANA, &[member])), refused);
    }
    let all = Ticket {
        question: question(0, ANA),
        set: Set::of_number(u32::MAX),
    };
    assert_eq!(crown().ticket(all), Err(Refused::NotEnabled));
    assert_eq!(Set::of_members([1, 32]), None);
    assert_eq!(
        Set::of_members([31, 0, 31]),
        Some(Set::of_number(0x8000_0001))
    );
}

#[test]
fn a_refusal_has_number_line_and_text() {
    let wrong_sum = Refused::WrongSum { line: 5 };
    assert_eq!((wrong_sum.number(), wrong_sum.line()), (3, Some(5)));
    assert_eq!(
        wrong_sum.to_string(),
        "refused (3), line 5: line sum not zero"
    );
    assert_eq!(
        (Refused::NotUser.number(), Refused::NotUser.line()),
        (16, None)
    );
    assert_eq!(
        Refused::NotUser.to_string(),
        "refused (16): requestor is not a user"
    );
}
