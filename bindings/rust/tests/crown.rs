//! Document 01's crown table, and tickets on the crown: all on object 0, each from a fresh load.

mod support;

use case_access::{Decision, Refused, Ticket};
use support::{crown, grants, question, ticket, ANA, ANA_CHECKS, BEN, CROWN};

#[test]
fn a_to_e_ana_asks() {
    assert!(grants(crown().lazy(question(0, ANA)).unwrap(), &[1, 2], 2));
    assert!(grants(crown().eager(question(0, ANA)).unwrap(), &[1, 2], 3));
    assert!(grants(crown().lazy(question(1, ANA)).unwrap(), &[0], 1));
    assert!(grants(crown().lazy(question(2, ANA)).unwrap(), &[], 0));
    let denied = Decision::Denied { evaluations: 0 };
    assert_eq!(crown().lazy(question(3, ANA)), Ok(denied));
}

#[test]
fn f_and_g_liberal_and_strict() {
    assert_eq!(crown().liberal(question(3, ANA)), Ok(true));
    assert_eq!(crown().strict(question(3, ANA)), Ok(false));
}

#[test]
fn h_and_i_ben_asks() {
    let denied = Decision::Denied { evaluations: 2 };
    assert_eq!(crown().lazy(question(0, BEN)), Ok(denied));
    assert_eq!(crown().strict(question(0, BEN)), Ok(true));
}

#[test]
fn j_ana_no_longer_checks() {
    let mut engine = crown();
    assert_eq!(engine.remove(ANA_CHECKS), Ok(()));
    let denied = Decision::Denied { evaluations: 1 };
    assert_eq!(engine.lazy(question(0, ANA)), Ok(denied));
}

#[test]
fn k_the_crown_is_no_user() {
    assert_eq!(crown().lazy(question(0, CROWN)), Err(Refused::NotUser));
    assert_eq!(crown().eager(question(0, CROWN)), Err(Refused::NotUser));
    assert_eq!(crown().liberal(question(0, CROWN)), Err(Refused::NotUser));
    assert_eq!(crown().strict(question(0, CROWN)), Err(Refused::NotUser));
}

#[test]
fn tickets_for_method_0() {
    let inconsistent = Err(Refused::NotConsistent);
    assert_eq!(crown().ticket(ticket(0, ANA, &[1, 2])), Ok(()));
    assert_eq!(crown().ticket(ticket(0, ANA, &[1])), inconsistent);
    assert_eq!(crown().ticket(ticket(0, ANA, &[0, 1])), inconsistent);
    let guard = Err(Refused::GuardNotMet);
    assert_eq!(crown().ticket(ticket(0, ANA, &[2])), guard);
    assert_eq!(crown().ticket(ticket(0, BEN, &[1])), inconsistent);
    let not_enabled = Err(Refused::NotEnabled);
    assert_eq!(crown().ticket(ticket(0, BEN, &[1, 2])), not_enabled);
}

#[test]
fn tickets_for_other_methods() {
    assert_eq!(crown().ticket(ticket(1, ANA, &[0])), Ok(()));
    assert_eq!(crown().ticket(ticket(1, ANA, &[0, 2])), Ok(()));
    assert_eq!(crown().ticket(ticket(2, ANA, &[])), Ok(()));
    assert_eq!(crown().ticket(ticket(2, BEN, &[])), Ok(()));
    let all = ticket(3, ANA, &[0, 1, 2]);
    assert_eq!(crown().ticket(all), Err(Refused::NotConsistent));
    let none = ticket(1, ANA, &[]);
    assert_eq!(crown().ticket(none), Err(Refused::GuardNotMet));
}

#[test]
fn what_is_granted_is_accepted_as_a_ticket() {
    for question in (0..3).map(|method| question(method, ANA)) {
        let granted = crown().lazy(question).unwrap().set();
        let set = granted.expect("Ana is granted methods 0 to 2");
        assert_eq!(crown().ticket(Ticket { question, set }), Ok(()));
    }
}
