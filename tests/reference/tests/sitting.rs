//! Item 3 of document 02, sentence by sentence: pairs of roles that exclude
//! each other, the active roles of a seat, and the question about them.

mod support;

use role_reference::generate::short;
use role_reference::reference::{Clash, Reference};
use support::*;

fn exclude(a: u8, b: u8) -> Vec<u8> {
    short(13, a, b)
}

fn assign(seat: u8, role: u8) -> Vec<u8> {
    short(10, seat, role)
}

fn unassign(seat: u8, role: u8) -> Vec<u8> {
    short(11, seat, role)
}

fn activate(seat: u8, role: u8) -> Vec<u8> {
    short(14, seat, role)
}

fn deactivate(seat: u8, role: u8) -> Vec<u8> {
    short(15, seat, role)
}

/// Example A after these calls.
fn table_one_with(records: &[Vec<u8>]) -> Reference {
    let mut keeper = table_one();
    accept_all(&mut keeper, records);
    keeper
}

/// The privileges for which the question says yes.
fn questioned(keeper: &Reference, seat: u8) -> u64 {
    let yes = |privilege: &u8| keeper.question(seat, *privilege) == YES;
    (0..64).filter(yes).fold(0, |all, p| all | 1 << p)
}

/// The pairs, the lower role first.
fn pairs(keeper: &Reference) -> Vec<(u8, u8)> {
    let under = |lower: u8| {
        let higher = (0..64).filter(move |role| keeper.exclusions_of(lower) >> role & 1 == 1);
        higher.map(move |higher| (lower, higher))
    };
    (0..64).flat_map(under).collect()
}

// ---- active roles ----

/// A designer who may also release works without the release rights.
#[test]
fn a_designer_sits_down_in_one_role() {
    let mut keeper = after(&[
        by_privileges(2, &[0]),
        by_privileges(3, &[1]),
        assign(5, 2),
        assign(5, 3),
    ]);
    assert_eq!(keeper.active(), [0; 64]);
    assert_eq!(questioned(&keeper, 5), 0);
    accept_all(&mut keeper, &[activate(5, 2)]);
    assert_eq!(keeper.active_of_seat(5), set(&[2]));
    assert_eq!(keeper.question(5, 0), YES);
    assert_eq!(keeper.question(5, 1), ACCEPTED);
    accept_all(&mut keeper, &[deactivate(5, 2)]);
    assert_eq!(keeper.active(), [0; 64]);
    assert_eq!(keeper.question(5, 0), ACCEPTED);
}

#[test]
fn a_junior_of_an_assigned_role_is_put_in() {
    let mut keeper = table_one_with(&[assign(0, 8), activate(0, 4)]);
    assert_eq!(keeper.active_of_seat(0), set(&[4]));
    assert_eq!(questioned(&keeper, 0), set(&[1, 3, 4]));
    accept_all(&mut keeper, &[activate(0, 2), activate(0, 3)]);
    assert_eq!(keeper.active_of_seat(0), set(&[2, 3, 4]));
    assert_eq!(questioned(&keeper, 0), set(&[1, 2, 3, 4]));
}

#[test]
fn juniors_are_reached_and_not_made_members() {
    let mut keeper = table_one_with(&[assign(0, 8), activate(0, 8)]);
    assert_eq!(keeper.active_of_seat(0), set(&[8]));
    assert_eq!(questioned(&keeper, 0), run_of(1, 10, &[]));
    refuses(&mut keeper, &deactivate(0, 4), 23, 0);
    accept_all(&mut keeper, &[activate(0, 4), deactivate(0, 8)]);
    assert_eq!(keeper.active_of_seat(0), set(&[4]));
}

#[test]
fn each_seat_has_its_own_set() {
    let keeper = table_one_with(&[assign(0, 8), assign(1, 8), activate(1, 7)]);
    assert_eq!(keeper.active_of_seat(0), 0);
    assert_eq!(keeper.active_of_seat(1), set(&[7]));
    assert_eq!(questioned(&keeper, 0), 0);
    assert_eq!(questioned(&keeper, 1), set(&[2, 7, 8]));
}

#[test]
fn kind_12_still_judges_by_assigned_roles() {
    let mut keeper = table_one_with(&[assign(0, 8), activate(0, 4)]);
    assert_eq!(keeper.call(&short(12, 0, 10)), YES);
    assert_eq!(keeper.ask(0, 10), YES);
    assert_eq!(keeper.question(0, 10), ACCEPTED);
}

#[test]
fn the_question_is_refused_by_2_alone() {
    let keeper = table_one_with(&[assign(63, 8), activate(63, 8)]);
    assert_eq!(keeper.question(64, 64), refused(2, 64));
    assert_eq!(keeper.question(65, 1), refused(2, 65));
    assert_eq!(keeper.question(63, 70), refused(2, 70));
    assert_eq!(keeper.question(255, 200), refused(2, 255));
    assert_eq!(keeper.question(63, 63), ACCEPTED);
    assert_eq!(keeper.question(63, 1), YES);
    assert_eq!(keeper.question(62, 1), ACCEPTED);
    assert_eq!(Reference::fresh().question(0, 0), ACCEPTED);
}

#[test]
fn the_question_follows_the_graph() {
    let mut keeper = table_one_with(&[assign(0, 5), activate(0, 2)]);
    assert_eq!(questioned(&keeper, 0), set(&[1]));
    accept_all(&mut keeper, &[short(4, 2, 20)]);
    assert_eq!(questioned(&keeper, 0), set(&[1, 20]));
}

// ---- refusals 22, 23 and 34 ----

#[test]
fn refusal_34() {
    let mut keeper = table_one_with(&[assign(3, 4)]);
    refuses(&mut keeper, &activate(3, 5), 34, 3);
    refuses(&mut keeper, &activate(3, 3), 34, 3);
    refuses(&mut keeper, &activate(3, 8), 34, 3);
    refuses(&mut keeper, &activate(7, 4), 34, 7);
    accept_all(&mut keeper, &[activate(3, 4), activate(3, 2)]);
}

#[test]
fn a_role_taken_from_the_seat_reaches_nothing_for_it() {
    let mut keeper = table_one_with(&[assign(3, 8), activate(3, 8), unassign(3, 8)]);
    refuses(&mut keeper, &activate(3, 4), 34, 3);
}

#[test]
fn repeats() {
    let mut keeper = table_one_with(&[assign(0, 8), activate(0, 4), exclude(5, 6)]);
    refuses(&mut keeper, &activate(0, 4), 22, 0);
    refuses(&mut keeper, &exclude(5, 6), 22, 5);
    refuses(&mut keeper, &exclude(6, 5), 22, 6);
    refuses(&mut keeper, &deactivate(0, 8), 23, 0);
    refuses(&mut keeper, &deactivate(9, 4), 23, 9);
}

#[test]
fn lower_numbers_come_first() {
    let mut keeper = table_one();
    refuses(&mut keeper, &exclude(70, 0), 2, 70);
    refuses(&mut keeper, &exclude(1, 1), 3, 1);
    refuses(&mut keeper, &exclude(40, 40), 5, 40);
    refuses(&mut keeper, &exclude(2, 40), 21, 40);
    refuses(&mut keeper, &activate(70, 1), 2, 70);
    refuses(&mut keeper, &activate(7, 0), 3, 0);
    refuses(&mut keeper, &activate(7, 40), 21, 40);
    refuses(&mut keeper, &deactivate(7, 40), 21, 40);
}

// ---- refusal 35 of a pair offered ----

#[test]
fn a_pair_joined_by_a_path_is_refused() {
    let mut keeper = table_one();
    refuses(&mut keeper, &exclude(2, 4), 35, 2);
    refuses(&mut keeper, &exclude(4, 2), 35, 2);
    refuses(&mut keeper, &exclude(9, 3), 35, 3);
    assert_eq!(
        keeper.clash_of(&exclude(9, 3)),
        Some((Clash::Joined, false))
    );
}

/// A role above both, and a seat that has both, are no hindrance: rule 8 is
/// about active roles.
#[test]
fn a_pair_may_lie_below_one_role_and_be_assigned_to_one_seat() {
    let mut keeper = table_one_with(&[assign(0, 8), assign(1, 4), assign(1, 7)]);
    accept_all(&mut keeper, &[exclude(7, 4), activate(1, 4)]);
    assert_eq!(pairs(&keeper), [(4, 7)]);
}

#[test]
fn a_pair_that_one_active_role_reaches_is_refused() {
    let mut keeper = table_one_with(&[assign(0, 8), activate(0, 8)]);
    refuses(&mut keeper, &exclude(5, 4), 35, 4);
    let clash = keeper.clash_of(&exclude(5, 4));
    assert_eq!(clash, Some((Clash::ByOneMember, false)));
    accept_all(&mut keeper, &[exclude(9, 8), deactivate(0, 8)]);
    accept_all(&mut keeper, &[exclude(5, 4)]);
    assert_eq!(pairs(&keeper), [(4, 5), (8, 9)]);
}

#[test]
fn a_pair_that_two_active_roles_reach_is_refused() {
    let mut keeper = table_one_with(&[assign(0, 8), activate(0, 4), activate(0, 7)]);
    refuses(&mut keeper, &exclude(7, 4), 35, 4);
    refuses(&mut keeper, &exclude(2, 3), 35, 2);
    let clash = keeper.clash_of(&exclude(2, 3));
    assert_eq!(clash, Some((Clash::ByTwoMembers, false)));
}

#[test]
fn two_seats_may_have_one_role_each() {
    let mut keeper = table_one_with(&[assign(0, 8), assign(1, 8)]);
    accept_all(
        &mut keeper,
        &[activate(0, 4), activate(1, 7), exclude(4, 7)],
    );
    refuses(&mut keeper, &activate(0, 7), 35, 4);
    refuses(&mut keeper, &activate(1, 4), 35, 4);
}

// ---- refusal 35 of a role put in ----

#[test]
fn a_role_put_in_may_reach_both_of_a_pair() {
    let mut keeper = table_one_with(&[assign(0, 8), exclude(4, 7)]);
    refuses(&mut keeper, &activate(0, 8), 35, 4);
    let clash = keeper.clash_of(&activate(0, 8));
    assert_eq!(clash, Some((Clash::ByOneMember, false)));
    assert_eq!(keeper.active(), [0; 64]);
}

#[test]
fn a_role_put_in_may_complete_a_pair() {
    let mut keeper = table_one_with(&[assign(0, 8), exclude(7, 4), activate(0, 4)]);
    refuses(&mut keeper, &activate(0, 7), 35, 4);
    accept_all(&mut keeper, &[activate(0, 5), deactivate(0, 4)]);
    accept_all(&mut keeper, &[activate(0, 7)]);
    refuses(&mut keeper, &activate(0, 4), 35, 4);
}

#[test]
fn the_place_is_the_lower_role_of_the_lowest_pair() {
    let mut keeper = table_one_with(&[assign(0, 8)]);
    accept_all(&mut keeper, &[exclude(7, 6), exclude(6, 5)]);
    refuses(&mut keeper, &activate(0, 8), 35, 5);
    accept_all(&mut keeper, &[exclude(7, 4)]);
    refuses(&mut keeper, &activate(0, 8), 35, 4);
    accept_all(&mut keeper, &[exclude(3, 2)]);
    refuses(&mut keeper, &activate(0, 8), 35, 2);
    refuses(&mut keeper, &activate(0, 5), 35, 2);
}

#[test]
fn refusal_34_comes_before_35() {
    let mut keeper = table_one_with(&[assign(0, 4), activate(0, 4), exclude(4, 7)]);
    refuses(&mut keeper, &activate(0, 7), 34, 0);
    accept_all(&mut keeper, &[assign(0, 7)]);
    refuses(&mut keeper, &activate(0, 7), 35, 4);
}

// ---- refusal 35 of an edit ----

/// Two roles apart, which exclude each other.
fn excluded_two() -> Reference {
    after(&[
        by_privileges(2, &[0]),
        by_privileges(3, &[1]),
        exclude(3, 2),
    ])
}

#[test]
fn a_growing_role_may_come_above_its_pair() {
    refuses(&mut excluded_two(), &short(6, 2, 3), 35, 2);
    refuses(&mut excluded_two(), &short(6, 3, 2), 35, 2);
    refuses(&mut excluded_two(), &short(4, 3, 0), 35, 2);
    refuses(&mut excluded_two(), &by_place(9, &[5], &[2], &[3]), 35, 2);
    refuses(&mut excluded_two(), &by_place(9, &[0, 5], &[], &[3]), 35, 2);
}

#[test]
fn a_path_over_other_roles_counts() {
    let mut keeper = excluded_two();
    accept_all(&mut keeper, &[by_privileges(4, &[0, 5])]);
    refuses(&mut keeper, &short(6, 4, 3), 35, 2);
}

/// Role 6 has role 5 as its junior; without privilege 0 it lies below role 7.
fn excluded_three() -> Reference {
    after(&[
        by_privileges(5, &[0]),
        by_privileges(6, &[0, 1]),
        by_privileges(7, &[1, 2]),
        exclude(7, 6),
    ])
}

#[test]
fn a_shrinking_role_may_come_below_its_pair() {
    refuses(&mut excluded_three(), &short(3, 5, 0), 35, 6);
    refuses(&mut excluded_three(), &short(7, 5, 6), 35, 6);
    let mut keeper = after(&[
        by_privileges(6, &[0, 1]),
        by_privileges(7, &[1, 2]),
        exclude(6, 7),
    ]);
    refuses(&mut keeper, &short(5, 6, 0), 35, 6);
}

/// With b 1 every other set stays, and so does every path between the others.
#[test]
fn a_removal_that_passes_on_joins_no_pair() {
    let mut keeper = excluded_three();
    accept_all(&mut keeper, &[short(3, 5, 1)]);
    assert_eq!(keeper.effective(6), set(&[0, 1]));
    assert_eq!(pairs(&keeper), [(6, 7)]);
}

#[test]
fn a_role_added_by_privileges_may_lie_above_a_pair() {
    let mut keeper = excluded_two();
    accept_all(&mut keeper, &[by_privileges(4, &[0, 1])]);
    accept_all(&mut keeper, &[assign(0, 4)]);
    refuses(&mut keeper, &activate(0, 4), 35, 2);
}

#[test]
fn an_edit_may_let_active_roles_reach_a_pair() {
    let start = [
        by_privileges(2, &[0]),
        by_privileges(3, &[1]),
        by_privileges(4, &[2]),
        exclude(2, 3),
        assign(0, 3),
        assign(0, 4),
        activate(0, 4),
    ];
    let mut keeper = after(&start);
    accept_all(&mut keeper, &[activate(0, 3)]);
    refuses(&mut keeper, &short(6, 2, 4), 35, 2);
    let clash = keeper.clash_of(&short(6, 2, 4));
    assert_eq!(clash, Some((Clash::ByTwoMembers, false)));
    accept_all(&mut keeper, &[deactivate(0, 3), short(6, 2, 4)]);
    refuses(&mut keeper, &short(6, 3, 4), 35, 2);
    let clash = keeper.clash_of(&short(6, 3, 4));
    assert_eq!(clash, Some((Clash::ByOneMember, false)));
}

#[test]
fn refusals_28_to_30_come_before_35() {
    let mut keeper = excluded_two();
    accept_all(&mut keeper, &[by_privileges(4, &[0, 1])]);
    refuses(&mut keeper, &short(6, 2, 3), 28, 3);
    let mut keeper = excluded_two();
    accept_all(&mut keeper, &[short(8, 0, 1)]);
    refuses(&mut keeper, &short(6, 2, 3), 29, 3);
    let mut keeper = excluded_two();
    accept_all(&mut keeper, &[by_privileges(4, &[5]), short(8, 0, 5)]);
    accept_all(&mut keeper, &[assign(9, 3), assign(9, 4)]);
    refuses(&mut keeper, &short(6, 2, 3), 30, 9);
}

// ---- switching off ----

#[test]
fn an_unassigned_role_takes_its_active_juniors_along() {
    let mut keeper = table_one_with(&[assign(0, 8), assign(0, 4)]);
    accept_all(
        &mut keeper,
        &[activate(0, 2), activate(0, 7), activate(0, 8)],
    );
    accept_all(&mut keeper, &[unassign(0, 8)]);
    assert_eq!(keeper.active_of_seat(0), set(&[2]));
    assert_eq!(questioned(&keeper, 0), set(&[1]));
    accept_all(&mut keeper, &[unassign(0, 4)]);
    assert_eq!(keeper.active(), [0; 64]);
    accept_all(&mut keeper, &[assign(0, 8)]);
    assert_eq!(keeper.active(), [0; 64]);
}

#[test]
fn another_seat_stays_on() {
    let mut keeper = table_one_with(&[assign(0, 8), assign(1, 8)]);
    accept_all(&mut keeper, &[activate(0, 4), activate(1, 4)]);
    accept_all(&mut keeper, &[unassign(0, 8)]);
    assert_eq!(keeper.active_of_seat(0), 0);
    assert_eq!(keeper.active_of_seat(1), set(&[4]));
}

#[test]
fn a_removed_edge_switches_its_junior_off() {
    let chain = [
        by_privileges(2, &[0]),
        by_privileges(3, &[0, 1]),
        by_privileges(4, &[0, 1, 2]),
    ];
    let mut keeper = after(&chain);
    accept_all(&mut keeper, &[assign(5, 3), activate(5, 2), activate(5, 3)]);
    accept_all(&mut keeper, &[assign(6, 4), activate(6, 2)]);
    accept_all(&mut keeper, &[short(7, 2, 3)]);
    assert_eq!(keeper.active_of_seat(5), set(&[3]));
    assert_eq!(keeper.active_of_seat(6), set(&[2]));
}

#[test]
fn refusal_24_looks_at_assigned_roles_alone() {
    for passing_on in [0, 1] {
        let mut keeper = table_one_with(&[assign(0, 8), activate(0, 4), activate(0, 5)]);
        refuses(&mut keeper, &short(3, 8, passing_on), 24, 0);
        accept_all(&mut keeper, &[short(3, 4, passing_on)]);
        assert_eq!(keeper.active_of_seat(0), set(&[5]));
    }
}

#[test]
fn a_role_put_back_is_not_active() {
    let mut keeper = table_one_with(&[assign(0, 8), activate(0, 4), short(3, 4, 1)]);
    accept_all(&mut keeper, &[by_privileges(4, &[1, 3, 4])]);
    assert_eq!(keeper.active(), [0; 64]);
    accept_all(&mut keeper, &[activate(0, 4)]);
}

#[test]
fn a_call_refused_with_35_switches_nothing_off() {
    for edit in [short(3, 5, 0), short(7, 5, 6)] {
        let mut keeper = excluded_three();
        accept_all(&mut keeper, &[assign(0, 6), activate(0, 5)]);
        assert_eq!(keeper.clash_of(&edit), Some((Clash::Joined, true)));
        refuses(&mut keeper, &edit, 35, 6);
        assert_eq!(keeper.active_of_seat(0), set(&[5]));
        accept_all(&mut keeper, &[short(3, 7, 0), edit]);
        assert_eq!(keeper.active_of_seat(0), 0);
    }
}

#[test]
fn a_call_refused_otherwise_switches_nothing_off() {
    let mut keeper = after(&[
        by_privileges(2, &[0]),
        by_privileges(3, &[0, 1]),
        by_privileges(4, &[1]),
    ]);
    accept_all(&mut keeper, &[assign(5, 3), activate(5, 2)]);
    refuses(&mut keeper, &short(7, 2, 3), 28, 3);
    refuses(&mut keeper, &short(3, 2, 0), 28, 3);
    assert_eq!(keeper.active_of_seat(5), set(&[2]));
}

/// A role that is switched off no longer stands against another.
#[test]
fn a_role_switched_off_frees_its_pair() {
    let mut keeper = table_one_with(&[assign(0, 4), assign(0, 7), exclude(4, 7)]);
    accept_all(&mut keeper, &[activate(0, 4)]);
    refuses(&mut keeper, &activate(0, 7), 35, 4);
    accept_all(&mut keeper, &[unassign(0, 4), activate(0, 7)]);
}

// ---- pairs go ----

#[test]
fn a_pair_goes_when_either_role_is_removed() {
    let mut keeper = table_one_with(&[exclude(2, 3), exclude(4, 3), exclude(5, 6)]);
    assert_eq!(pairs(&keeper), [(2, 3), (3, 4), (5, 6)]);
    accept_all(&mut keeper, &[short(3, 3, 1)]);
    assert_eq!(pairs(&keeper), [(5, 6)]);
    accept_all(&mut keeper, &[by_privileges(3, &[2])]);
    assert_eq!(pairs(&keeper), [(5, 6)]);
    accept_all(&mut keeper, &[short(3, 6, 0)]);
    assert_eq!(pairs(&keeper), []);
}

/// The pairs of a removed role are gone before 35 is judged.
#[test]
fn a_removal_is_not_refused_for_a_pair_of_the_removed_role() {
    let mut keeper = after(&[
        by_privileges(5, &[0]),
        by_privileges(6, &[0, 1]),
        by_privileges(7, &[1, 2]),
        exclude(5, 7),
    ]);
    accept_all(&mut keeper, &[short(3, 5, 0)]);
    assert_eq!(pairs(&keeper), []);
}

// ---- images ----

fn sitting() -> Reference {
    table_one_with(&[assign(0, 8), activate(0, 4), exclude(4, 7), exclude(5, 7)])
}

#[test]
fn pairs_and_active_roles_are_not_saved() {
    let (keeper, bare) = (sitting(), table_one_with(&[assign(0, 8)]));
    assert_eq!(keeper.save(), bare.save());
    assert!(keeper.is_saved_alike(&bare) && keeper != bare);
}

#[test]
fn a_load_clears_pairs_and_active_roles() {
    let mut keeper = sitting();
    assert_eq!(keeper.load(&sitting().save()), Ok(()));
    assert!(keeper == table_one_with(&[assign(0, 8)]));
    assert_eq!(keeper.active(), [0; 64]);
    assert_eq!(keeper.exclusions(), [0; 64]);
    assert_eq!(questioned(&keeper, 0), 0);
}

#[test]
fn a_refused_load_keeps_pairs_and_active_roles() {
    let image = sitting().save();
    let mut twin = image.clone();
    twin[9 + 8..][..9].copy_from_slice(&image[8..][..9]);
    for (bytes, number) in [(&image[1..], 6), (&twin, 7), (&[0; 15], 6)] {
        let mut keeper = sitting();
        assert_eq!(keeper.load(bytes), Err(number));
        assert!(keeper == sitting());
    }
}

// ---- the tape ----

#[test]
fn the_new_calls_print() {
    let tape = [
        by_privileges(2, &[0]),
        by_privileges(3, &[1]),
        exclude(3, 2),
        assign(9, 2),
        activate(9, 2),
        activate(9, 3),
        assign(9, 3),
        activate(9, 3),
        deactivate(9, 3),
        short(16, 9, 3),
    ];
    let lines =
        "1 0 0\n2 0 0\n3 0 0\n4 0 0\n5 0 0\n6 34 9\n7 0 0\n8 35 2\n9 23 9\n10 1 0\nend 10 4\n";
    assert_eq!(Reference::tape(&tape.concat()), lines);
}
