//! What an engine keeps from call to call, and what it writes.

mod support;

use case_access::{Answer, Call, Decision, Edge, Engine, Question, Set, Ticket};
use support::{crown, grants, question, ANA, ANA_CHECKS, BEN, BUNDLE, CROWN};

/// Every call on the crown: each kind, each method and one more, each object and one more.
fn calls() -> Vec<Call> {
    let edges = (0..3).flat_map(|label| {
        (0..4).map(move |to| Edge {
            label,
            from: CROWN,
            to,
        })
    });
    let questions =
        (0..5).flat_map(|method| (0..4).map(move |requestor| question(method, requestor)));
    let questions: Vec<Question> = questions.collect();
    let mut calls = Vec::new();
    for edge in edges {
        calls.extend(questions.iter().map(|&question| Call::Lazy(question)));
        calls.push(Call::Remove(edge));
        calls.extend(questions.iter().map(|&question| Call::Eager(question)));
        calls.push(Call::Add(edge));
        calls.extend(questions.iter().map(|&question| Call::Liberal(question)));
        calls.push(Call::Add(edge));
        calls.extend(questions.iter().map(|&question| Call::Strict(question)));
        calls.extend(tickets(&questions));
    }
    calls
}

/// Each set of the crown's principals, and one with a member more, as a ticket for each question.
fn tickets(questions: &[Question]) -> impl Iterator<Item = Call> + '_ {
    let sets = (0..9).map(Set::of_number);
    sets.flat_map(move |set| {
        let proposed = move |&question| Call::Ticket(Ticket { question, set });
        questions.iter().map(proposed)
    })
}

/// The answer to one call, by the method of its name.
fn one(engine: &mut Engine, call: Call) -> Answer {
    match call {
        Call::Add(edge) => Answer::Edit(engine.add(edge)),
        Call::Remove(edge) => Answer::Edit(engine.remove(edge)),
        Call::Eager(question) => Answer::Decision(engine.eager(question)),
        Call::Lazy(question) => Answer::Decision(engine.lazy(question)),
        Call::Liberal(question) => Answer::Verdict(engine.liberal(question)),
        Call::Strict(question) => Answer::Verdict(engine.strict(question)),
        Call::Ticket(ticket) => Answer::Ticket(engine.ticket(ticket)),
    }
}

/// An answer without its evaluations, which depend on the memo.
fn without_evaluations(answer: Answer) -> Answer {
    match answer {
        Answer::Decision(Ok(Decision::Granted { set, .. })) => {
            Answer::Decision(Ok(Decision::Granted {
                set,
                evaluations: 0,
            }))
        }
        Answer::Decision(Ok(Decision::Denied { .. })) => {
            Answer::Decision(Ok(Decision::Denied { evaluations: 0 }))
        }
        answer => answer,
    }
}

#[test]
fn edits_and_the_memo_are_kept_between_calls() {
    let mut engine = crown();
    assert!(grants(engine.lazy(question(0, ANA)).unwrap(), &[1, 2], 2));
    assert!(grants(engine.lazy(question(0, ANA)).unwrap(), &[1, 2], 0));
    assert!(grants(engine.eager(question(0, ANA)).unwrap(), &[1, 2], 1));
    engine.remove(ANA_CHECKS).unwrap();
    assert!(!engine.lazy(question(0, ANA)).unwrap().is_granted());
    assert!(!engine.eager(question(0, ANA)).unwrap().is_granted());
    engine.add(ANA_CHECKS).unwrap();
    assert!(grants(engine.lazy(question(0, ANA)).unwrap(), &[1, 2], 2));
}

#[test]
fn liberal_and_strict_leave_the_record() {
    let mut engine = crown();
    assert!(grants(engine.eager(question(0, ANA)).unwrap(), &[1, 2], 3));
    assert_eq!(engine.liberal(question(3, BEN)), Ok(false));
    assert_eq!(engine.strict(question(0, BEN)), Ok(true));
    assert!(grants(engine.eager(question(0, ANA)).unwrap(), &[1, 2], 0));
}

#[test]
fn tickets_leave_the_record() {
    let mut engine = crown();
    assert!(grants(engine.lazy(question(0, ANA)).unwrap(), &[1, 2], 2));
    let proposed: Vec<Call> = tickets(&[question(0, ANA), question(0, BEN)]).collect();
    let answers = engine.answer(&proposed);
    assert!(answers.contains(&Answer::Ticket(Ok(()))));
    assert!(grants(engine.eager(question(0, ANA)).unwrap(), &[1, 2], 1));
    assert_eq!(engine.write(), BUNDLE);
}

#[test]
fn a_list_is_answered_as_one_call_after_another() {
    let mut listed = crown();
    let mut singly = crown();
    let answers = listed.answer(&calls());
    let each: Vec<Answer> = calls()
        .into_iter()
        .map(|call| one(&mut singly, call))
        .collect();
    assert_eq!(answers, each);
    assert_eq!(listed.write(), singly.write());
    assert_eq!(crown().answer(&[]), []);
}

#[test]
fn what_is_written_loads_to_the_same_answers() {
    let mut kept = crown();
    let mut written = crown();
    for call in calls() {
        written = Engine::load(&written.write()).expect("a written bundle loads");
        let answer = one(&mut written, call);
        assert_eq!(
            without_evaluations(answer),
            without_evaluations(one(&mut kept, call))
        );
        assert_eq!(kept.write(), written.write());
    }
}

#[test]
fn the_bundle_is_written_again() {
    let mut engine = crown();
    assert_eq!(engine.write(), BUNDLE);
    engine.remove(ANA_CHECKS).unwrap();
    let written = String::from_utf8(engine.write()).expect("a bundle is text");
    assert!(!written.contains("0303010001F8\n"));
    assert!(written.ends_with("06FF001600001600CF\n"));
    engine.add(ANA_CHECKS).unwrap();
    assert_eq!(engine.write(), BUNDLE);
}

#[test]
fn a_clone_is_a_snapshot() {
    let mut engine = crown();
    let mut snapshot = engine.clone();
    engine.remove(ANA_CHECKS).unwrap();
    assert!(!engine.lazy(question(0, ANA)).unwrap().is_granted());
    assert!(grants(snapshot.lazy(question(0, ANA)).unwrap(), &[1, 2], 2));
    engine = snapshot;
    assert_eq!(engine.write(), BUNDLE);
}

#[test]
fn two_engines_stand_side_by_side() {
    let mut one_crown = crown();
    let mut other_crown = crown();
    other_crown.remove(ANA_CHECKS).unwrap();
    let mut other_alone = other_crown.clone();
    let mut answers = (Vec::new(), Vec::new());
    for call in calls() {
        answers.0.push(one(&mut one_crown, call));
        answers.1.push(one(&mut other_crown, call));
    }
    assert_ne!(answers.0, answers.1);
    assert_eq!(answers.0, crown().answer(&calls()));
    assert_eq!(answers.1, other_alone.answer(&calls()));
}

#[test]
fn engines_go_to_other_threads() {
    let expected = crown().answer(&calls());
    let threads: Vec<_> = (0..4)
        .map(|_| crown())
        .map(|mut engine| std::thread::spawn(move || engine.answer(&calls())))
        .collect();
    for thread in threads {
        assert_eq!(thread.join().expect("the thread ends"), expected);
    }
}

#[test]
fn a_shared_engine_is_read_by_several_threads() {
    let engine = crown();
    std::thread::scope(|scope| {
        for _ in 0..4 {
            scope.spawn(|| assert_eq!(engine.liberal(question(3, ANA)), Ok(true)));
            scope.spawn(|| assert_eq!(engine.write(), BUNDLE));
        }
    });
}
