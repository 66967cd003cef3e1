//! The order of sets, request 2026-06: "Among satisfying sets with equally few members, the one with
//! fewer role principals (formula of op 3) now comes first, and then the smaller set number. The lazy
//! order of candidates follows. Counts are compared with the new order."

#[path = "order/rules.rs"]
mod rules;
mod support;

use reference::{Answer, Policy};
use rules::*;

/// Loads a text that must pass.
fn loaded(text: &[u8]) -> Policy {
    Policy::load(text).expect("it loads")
}

/// An answer written shortly.
fn answer(number: u8, set: u32, evaluations: u8) -> Answer {
    Answer {
        number,
        set,
        evaluations,
    }
}

/// The answers to both forms of a question, each on a copy of the record. They have the same number
/// and set, and lazy does not evaluate more.
fn ask(record: &Policy, method: u8) -> [Answer; 2] {
    let eager = record.clone().ask_eager(method, OBJECT, USER);
    let lazy = record.clone().ask_lazy(method, OBJECT, USER);
    assert_eq!((eager.number, eager.set), (lazy.number, lazy.set));
    assert!(lazy.evaluations <= eager.evaluations);
    [eager, lazy]
}

/// The number and set that both forms of a question have on a policy with one method.
fn outcome(principals: &[(u8, u64)], pairs: &[[u8; 3]], method: (u8, u64)) -> (u8, u32) {
    let [Answer { number, set, .. }, _] = ask(&loaded(&text(principals, pairs, &[method])), 0);
    (number, set)
}

/// The order of all sets of principals with these formulas; of the enabled ones, where some are not.
fn order(formulas: &[u8]) -> Vec<u32> {
    one_by_one(formulas, |text| {
        let [eager, _] = ask(&loaded(text), 0);
        (eager.number == 0).then_some(eager.set)
    })
}

#[test]
fn the_order_of_two_principals() {
    let by_number = [0b00, 0b01, 0b10, 0b11];
    assert_eq!(order(&[TRUE, ALSO_TRUE]), by_number);
    assert_eq!(order(&[ROLE, OTHER_ROLE]), by_number);
    assert_eq!(order(&[TRUE, ROLE]), by_number);
    assert_eq!(order(&[ROLE, TRUE]), [0b00, 0b10, 0b01, 0b11]);
}

#[test]
fn the_order_of_three_principals() {
    let by_number = [0, 0b001, 0b010, 0b100, 0b011, 0b101, 0b110, 0b111];
    assert_eq!(order(&[TRUE, TRUE, TRUE]), by_number);
    assert_eq!(order(&[ROLE, ROLE, ROLE]), by_number);
    assert_eq!(order(&[TRUE, TRUE, ROLE]), by_number);
    assert_eq!(order(&[TRUE, ROLE, ROLE]), by_number);
    let first = [0, 0b010, 0b100, 0b001, 0b110, 0b011, 0b101, 0b111];
    assert_eq!(order(&[ROLE, TRUE, TRUE]), first);
    let second = [0, 0b001, 0b100, 0b010, 0b101, 0b011, 0b110, 0b111];
    assert_eq!(order(&[TRUE, ROLE, TRUE]), second);
    let first_and_second = [0, 0b100, 0b001, 0b010, 0b101, 0b110, 0b011, 0b111];
    assert_eq!(order(&[ROLE, ROLE, TRUE]), first_and_second);
    let first_and_third = [0, 0b010, 0b001, 0b100, 0b011, 0b110, 0b101, 0b111];
    assert_eq!(order(&[ROLE, TRUE, ROLE]), first_and_third);
}

#[test]
fn the_order_of_four_principals() {
    let first_and_third = [
        0, 0b0010, 0b1000, 0b0001, 0b0100, 0b1010, 0b0011, 0b0110, 0b1001, 0b1100, 0b0101, 0b1011,
        0b1110, 0b0111, 0b1101, 0b1111,
    ];
    assert_eq!(order(&[ROLE, TRUE, ROLE, TRUE]), first_and_third);
    let first_and_second = [
        0, 0b0100, 0b1000, 0b0001, 0b0010, 0b1100, 0b0101, 0b0110, 0b1001, 0b1010, 0b0011, 0b1101,
        0b1110, 0b0111, 0b1011, 0b1111,
    ];
    assert_eq!(order(&[ROLE, ROLE, TRUE, TRUE]), first_and_second);
    let all_but_last = [
        0, 0b1000, 0b0001, 0b0010, 0b0100, 0b1001, 0b1010, 0b1100, 0b0011, 0b0101, 0b0110, 0b1011,
        0b1101, 0b1110, 0b0111, 0b1111,
    ];
    assert_eq!(order(&[ROLE, ROLE, ROLE, TRUE]), all_but_last);
    assert_eq!(order(&[OTHER_ROLE, ROLE, ROLE, ALSO_TRUE]), all_but_last);
}

#[test]
fn members_come_before_role_principals() {
    let one_role = [(ROLE, 3), (TRUE, 1), (ALSO_TRUE, 2)];
    assert_eq!(outcome(&one_role, &[], (ALL_OF, 3)), (0, 0b001));
    let two_roles = [(ROLE, 3), (ROLE, 4), (TRUE, 1), (TRUE, 2), (TRUE, 4)];
    assert_eq!(outcome(&two_roles, &[], (ALL_OF, 7)), (0, 0b10001));
    let apart = [[8, 0, 4]];
    assert_eq!(outcome(&two_roles, &apart, (ALL_OF, 7)), (0, 0b00011));
    let needed = [[8, 0, 4], [9, 2, 0]];
    assert_eq!(outcome(&two_roles, &needed, (ALL_OF, 7)), (0, 0b11100));
}

#[test]
fn role_principals_come_before_the_number() {
    let alike = [(ROLE, 1), (ROLE, 2), (TRUE, 1), (TRUE, 2)];
    assert_eq!(outcome(&alike, &[], (ONE_OF, 3)), (0, 0b0100));
    assert_eq!(outcome(&alike, &[], (ALL_OF, 3)), (0, 0b1100));
    let apart = [[8, 2, 3]];
    assert_eq!(outcome(&alike, &apart, (ALL_OF, 3)), (0, 0b0110));
    let apart = [[8, 1, 2], [8, 2, 3]];
    assert_eq!(outcome(&alike, &apart, (ALL_OF, 3)), (0, 0b1001));
    let apart = [[8, 0, 3], [8, 1, 2], [8, 2, 3]];
    assert_eq!(outcome(&alike, &apart, (ALL_OF, 3)), (0, 0b0011));
}

#[test]
fn the_number_comes_last() {
    let two = [(ROLE, 1), (OTHER_ROLE, 1)];
    assert_eq!(outcome(&two, &[], (ONE_OF, 1)), (0, 0b01));
    let one_role_each = [(ROLE, 1), (OTHER_ROLE, 2), (TRUE, 1), (TRUE, 2)];
    let apart = [[8, 2, 3]];
    assert_eq!(outcome(&one_role_each, &apart, (ALL_OF, 3)), (0, 0b0110));
    let last_two = [(TRUE, 4), (ROLE, 1), (TRUE, 2), (ROLE, 2), (TRUE, 1)];
    let apart = [[8, 2, 4]];
    assert_eq!(outcome(&last_two, &apart, (ALL_OF, 3)), (0, 0b00110));
}

#[test]
fn a_formula_that_contains_op_3_makes_no_role_principal() {
    let with_true = [0b00, 0b01, 0b10, 0b11];
    let with_role = [0b00, 0b10, 0b01, 0b11];
    let with_both = [0, 0b001, 0b100, 0b010, 0b101, 0b011, 0b110, 0b111];
    for around in AROUND_ROLE {
        assert_eq!(order(&[around, TRUE]), with_true, "{around}");
        assert_eq!(order(&[ROLE, around]), with_role, "{around}");
        assert_eq!(order(&[around, ROLE, TRUE]), with_both, "{around}");
        let gives = [(ROLE, 1), (around, 1)];
        assert_eq!(outcome(&gives, &[], (ALL_OF, 1)), (0, 0b10), "{around}");
    }
}

#[test]
fn principals_that_share_a_formula_of_op_3_count_each() {
    let shared = order(&[ROLE, ROLE, OTHER_ROLE, TRUE]);
    let apart = order(&[ROLE, OTHER_ROLE, ROLE, TRUE]);
    let two_members = [0b1001, 0b1010, 0b1100, 0b0011, 0b0101, 0b0110];
    let three_members = [0b1011, 0b1101, 0b1110, 0b0111];
    for sets in [shared, apart] {
        assert_eq!(sets[5..11], two_members);
        assert_eq!(sets[11..15], three_members);
    }
    let either = [(ROLE, 1), (ROLE, 2), (TRUE, 1), (OTHER_ROLE, 2)];
    let apart = [[8, 0, 3], [8, 1, 2]];
    assert_eq!(outcome(&either, &apart, (ALL_OF, 3)), (0, 0b1100));
}

#[test]
fn a_role_principal_that_is_not_enabled_makes_no_difference_to_eager() {
    assert_eq!(order(&[NO_ROLE, TRUE]), [0b00, 0b10]);
    assert_eq!(order(&[ROLE, NO_ROLE, TRUE]), [0b000, 0b100, 0b001, 0b101]);
    assert_eq!(order(&[ROLE, FALSE, TRUE]), [0b000, 0b100, 0b001, 0b101]);
    let methods = [(ALL_OF, 3), (ONE_OF, 3)];
    for place in 0..5 {
        let eager_with = |formula: u8| {
            let roles = [(ROLE, 1), (OTHER_ROLE, 2)];
            let others = [(TRUE, 2), (ALSO_TRUE, 1), (RELATION, 3)];
            let mut principals = [&roles[..], &others].concat();
            principals[place].0 = formula;
            let record = loaded(&text(&principals, &[[8, 2, 3]], &methods));
            [0, 1].map(|method| ask(&record, method)[0])
        };
        assert_eq!(eager_with(NO_ROLE), eager_with(FALSE), "{place}");
    }
}

/// "The lazy order of candidates follows." By members and number alone there would be 2 evaluations,
/// then 1 with the set {0}, then 2 (of 0 and of 1).
#[test]
fn lazy_evaluations_are_those_of_the_new_order() {
    let relation_at_once = [(NO_ROLE, 1), (TRUE, 1)];
    let [eager, lazy] = ask(&loaded(&text(&relation_at_once, &[], &[(ONE_OF, 1)])), 0);
    assert_eq!([eager, lazy], [answer(0, 0b10, 2), answer(0, 0b10, 1)]);
    let relation_sought = [(ROLE, 1), (FALSE, 1), (TRUE, 1)];
    let [eager, lazy] = ask(&loaded(&text(&relation_sought, &[], &[(ONE_OF, 1)])), 0);
    assert_eq!([eager, lazy], [answer(0, 0b100, 3), answer(0, 0b100, 2)]);
    let none_enabled = [(NO_ROLE, 1), (FALSE, 2), (ALSO_FALSE, 1)];
    let [eager, lazy] = ask(&loaded(&text(&none_enabled, &[], &[(ALL_OF, 3)])), 0);
    assert_eq!([eager, lazy], [answer(17, 0, 3), answer(17, 0, 1)]);
}

/// The candidates in order: {1, 2} is ended by 1, {0, 1} passed over, {2, 3} survives; {0, 3} is not
/// reached. By members and number alone {0, 3} would survive, with as many evaluations.
#[test]
fn lazy_passes_over_and_ends_candidates_in_the_new_order() {
    let principals = [(ROLE, 1), (FALSE, 2), (TRUE, 1), (OTHER_ROLE, 2)];
    let record = loaded(&text(&principals, &[], &[(ALL_OF, 3)]));
    assert_eq!(ask(&record, 0)[1], answer(0, 0b1100, 3));
}

/// What the memo knows does not come into the order: the role principal is known to be enabled.
#[test]
fn the_memo_does_not_change_the_order() {
    let principals = [(ROLE, 3), (FALSE, 1), (TRUE, 1)];
    let mut record = loaded(&text(&principals, &[], &[(ALL_OF, 2), (ALL_OF, 1)]));
    assert_eq!(record.ask_lazy(0, OBJECT, USER), answer(0, 0b001, 1));
    assert_eq!(record.ask_lazy(1, OBJECT, USER), answer(0, 0b100, 2));
    assert_eq!(record.ask_eager(1, OBJECT, USER), answer(0, 0b100, 0));
    assert_eq!(record.ask_lazy(0, OBJECT, USER), answer(0, 0b001, 0));
}

/// "Laboratory heads want a grant shown by relation where one exists."
#[test]
fn a_relation_takes_the_place_of_a_role_while_it_exists() {
    let principals = [(ROLE, 1), (RELATION, 1)];
    let mut record = loaded(&text(&principals, &[], &[(ONE_OF, 1)]));
    for _ in 0..2 {
        assert_eq!(ask(&record, 0), [answer(0, 0b01, 2); 2]);
        assert_eq!(record.ask_lazy(0, OBJECT, USER), answer(0, 0b01, 2));
        assert_eq!(record.add_edge(0, OBJECT, USER), 0);
        assert_eq!(ask(&record, 0), [answer(0, 0b10, 2), answer(0, 0b10, 1)]);
        assert_eq!(record.ask_lazy(0, OBJECT, USER), answer(0, 0b10, 1));
        assert_eq!(record.remove_edge(0, OBJECT, USER), 0);
    }
}

/// Every set of enabled principals that is consistent and meets the guard is accepted, whatever its
/// place in the order.
#[test]
fn tickets_do_not_depend_on_the_order() {
    let principals = [(ROLE, 1), (ROLE, 2), (TRUE, 1), (TRUE, 2), (NO_ROLE, 3)];
    let record = loaded(&text(&principals, &[[8, 0, 2]], &[(ALL_OF, 3)]));
    let number = |set: u32| record.check_ticket(0, OBJECT, USER, set);
    for accepted in [0b1100, 0b0110, 0b1001, 0b0011, 0b1110, 0b1011] {
        assert_eq!(number(accepted), 0, "{accepted:b}");
    }
    assert_eq!(number(0b1_0000), 20);
    assert_eq!([0b1111, 0b0101].map(number), [21, 21]);
    assert_eq!([0b1010, 0].map(number), [22, 22]);
}

#[test]
fn both_forms_grant_the_first_of_the_accepted_sets() {
    for (formulas, text) in all_of_four() {
        let record = loaded(&text);
        let has_role = |set: u32, p: usize| set >> p & 1 == 1 && is_role(formulas[p]);
        let roles = |set: u32| (0..4).filter(|&p| has_role(set, p)).count();
        for method in 0..METHODS {
            let number = |set: u32| record.check_ticket(method, OBJECT, USER, set);
            let accepted = (0..16).filter(|&set| number(set) == 0);
            let least = accepted.min_by_key(|&set| (set.count_ones(), roles(set), set));
            let [Answer { number, set, .. }, _] = ask(&record, method);
            let granted = (number == 0).then_some(set);
            assert_eq!(granted, least, "{formulas:?}, method {method}");
        }
    }
}
