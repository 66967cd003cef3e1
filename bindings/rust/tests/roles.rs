//! Roles last among equals (request 2026-06), on the bundle of `examples/roles.c`.

mod support;

use case_access::{Edge, Engine};
use support::{grants, question, ticket, ANA, BEN, CROWN};

/// A fresh load of the example's bundle.
fn roles() -> Engine {
    Engine::load(include_bytes!("../../../examples/roles.hex")).expect("the bundle loads")
}

#[test]
fn a_relation_comes_before_a_role() {
    assert!(grants(roles().lazy(question(0, ANA)).unwrap(), &[1], 1));
    assert!(grants(roles().eager(question(0, ANA)).unwrap(), &[1], 5));
    assert_eq!(roles().ticket(ticket(0, ANA, &[0])), Ok(()));
}

#[test]
fn a_role_comes_before_more_members() {
    assert!(grants(roles().lazy(question(1, ANA)).unwrap(), &[2], 1));
    assert_eq!(roles().ticket(ticket(1, ANA, &[3, 4])), Ok(()));
}

#[test]
fn a_formula_that_contains_a_role_is_none() {
    assert!(grants(roles().lazy(question(2, ANA)).unwrap(), &[6], 1));
}

#[test]
fn a_role_is_shown_where_no_relation_will_do() {
    assert!(grants(roles().lazy(question(0, BEN)).unwrap(), &[0], 2));
    let mut engine = roles();
    let designed = Edge {
        label: 0,
        from: CROWN,
        to: BEN,
    };
    assert_eq!(engine.add(designed), Ok(()));
    assert!(grants(engine.lazy(question(0, BEN)).unwrap(), &[1], 1));
}
