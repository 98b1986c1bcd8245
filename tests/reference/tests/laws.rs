//! What the documents say about all states and calls holds in random lists.

use role_reference::generate::{list, Step, MIXES};
use role_reference::random::{printed_seed, Random};
use role_reference::reference::{has, members, one, Answer, Reference, Set};

fn included(inner: Set, outer: Set) -> bool {
    inner & !outer == 0
}

/// Closing the drawn graph changes no set.
fn is_closed(keeper: &Reference) {
    let mut sets = keeper.directs();
    for _ in 0..64 {
        for (junior, senior) in keeper.edges() {
            sets[*senior as usize] |= sets[*junior as usize];
        }
    }
    assert_eq!(sets, keeper.sets());
}

/// No role is empty or has a twin or holds a declared pair; MaxRole holds all.
fn is_sound(keeper: &Reference) {
    let (sets, conflicts) = (keeper.sets(), keeper.conflicts());
    let pair_in = |set: Set| {
        members(set)
            .iter()
            .any(|p| conflicts[*p as usize] & set != 0)
    };
    let roles = members(keeper.roles());
    for role in &roles {
        let set = sets[*role as usize];
        assert!(set != 0 && included(set, sets[1]) && !pair_in(set));
        assert!(roles
            .iter()
            .all(|other| other == role || sets[*other as usize] != set));
    }
    for seat in keeper.seats() {
        assert!(included(seat, keeper.roles()));
        let union = members(seat)
            .iter()
            .fold(0, |union, role| union | sets[*role as usize]);
        assert!(!pair_in(union));
    }
}

/// The drawn edges have exactly the paths of "below", and none can be spared.
fn edges_are_fewest(keeper: &Reference) {
    let (sets, juniors) = (keeper.sets(), keeper.juniors());
    let below = |r: u8, s: u8| {
        let strictly =
            sets[r as usize] != sets[s as usize] && included(sets[r as usize], sets[s as usize]);
        r != s && s != 0 && r != 1 && (r == 0 || s == 1 || strictly)
    };
    let present = members(keeper.roles() | 3);
    let mut under = [0u64; 64];
    for _ in 0..64 {
        for s in 0..64 {
            under[s] = members(juniors[s])
                .iter()
                .fold(juniors[s], |u, j| u | under[*j as usize]);
        }
    }
    for s in &present {
        let expected = present
            .iter()
            .filter(|r| below(**r, *s))
            .fold(0, |u, r| u | 1u64 << r);
        assert_eq!(under[*s as usize], expected);
        let indirect = members(juniors[*s as usize])
            .iter()
            .fold(0, |u, j| u | under[*j as usize]);
        assert_eq!(indirect & juniors[*s as usize], 0);
    }
}

/// For each role, the roles that it reaches: itself and those with a path to
/// it.
fn reached(keeper: &Reference) -> [Set; 64] {
    let mut reached = [0; 64];
    for role in members(keeper.roles() | 3) {
        reached[role as usize] = one(role);
    }
    for _ in 0..64 {
        for (junior, senior) in keeper.edges() {
            reached[*senior as usize] |= reached[*junior as usize];
        }
    }
    reached
}

/// What the roles reach together.
fn reached_by(roles: Set, reached: &[Set; 64]) -> Set {
    members(roles)
        .iter()
        .fold(0, |set, role| set | reached[*role as usize])
}

/// No pair is joined by a path, no active set reaches both of a pair, and every
/// active role is reached by an assigned one. Pairs are of roles present.
fn sitting_is_sound(keeper: &Reference) {
    let (pairs, active, reached) = (keeper.exclusions(), keeper.active(), reached(keeper));
    let seats = active.map(|roles| reached_by(roles, &reached));
    for lower in 0..64u8 {
        for higher in members(pairs[lower as usize]) {
            let both = |set: Set| has(set, lower) && has(set, higher);
            assert!(lower < higher && both(keeper.roles()));
            assert!(!both(reached[lower as usize]) && !both(reached[higher as usize]));
            assert!(!seats.into_iter().any(both));
        }
    }
    for (active, assigned) in active.into_iter().zip(keeper.seats()) {
        assert!(included(active, reached_by(assigned, &reached)));
    }
}

/// Pairs and active roles change as the accepted record says. Nothing but the
/// removal of a role drops a pair. Only kinds 3, 7 and 11 switch off, kind 3
/// the removed role alone, and kind 7 the edge's junior alone.
fn sitting_changes(record: &[u8], before: &Reference, after: &Reference) {
    let [kind, a, b] = [record[0], record[1], record[2]];
    let mut pairs = before.exclusions();
    match kind {
        13 => pairs[a.min(b) as usize] |= one(a.max(b)),
        3 => {
            pairs[a as usize] = 0;
            pairs.iter_mut().for_each(|set| *set &= !one(a));
        }
        _ => {}
    }
    assert_eq!(after.exclusions(), pairs);
    for seat in 0..64u8 {
        let (old, new) = (before.active_of_seat(seat), after.active_of_seat(seat));
        let gained = match kind {
            14 if a == seat => one(b),
            _ => 0,
        };
        let lost = match kind {
            3 | 7 => one(a),
            11 if a == seat => old,
            15 if a == seat => one(b),
            _ => 0,
        };
        assert_eq!(new & !old, gained, "{record:?}");
        assert!(included(old & !new, lost), "{record:?}");
        assert!(kind != 15 || a != seat || !has(new, b));
    }
}

/// 34 is kind 14's, and 35 is of the kinds that can break a pair.
fn sitting_refusals(record: &[u8], number: u8) {
    match number {
        34 => assert_eq!(record[0], 14),
        35 => assert!(
            matches!(record[0], 1 | 4..=7 | 13 | 14) || record[..3] == [3, record[1], 0],
            "{record:?}"
        ),
        _ => {}
    }
}

/// Kinds 12 to 15 leave the saved state and its image.
fn saved_state_stays(record: &[u8], before: &Reference, after: &Reference) {
    if record[0] >= 12 {
        assert!(before.is_saved_alike(after) && before.save() == after.save());
    }
}

/// Removing an edge changes the set of its senior alone.
fn edge_removal_is_local(record: &[u8], before: &[Set; 64], after: &[Set; 64]) {
    for role in 0..64 {
        assert!(role == record[2] as usize || before[role] == after[role]);
    }
}

/// The answer to a withdrawal tells whether the role lacks the privilege, has
/// it through a junior, or has it alone.
fn withdrawal_tells_the_holder(record: &[u8], before: &Reference, answer: Answer) {
    if !matches!(answer.number, 0 | 23 | 31 | 27 | 28) {
        return;
    }
    let holds = |role: u8| has(before.effective(role), record[2]);
    let juniors = members(before.juniors_of(record[1]));
    let expected = match (holds(record[1]), juniors.into_iter().any(holds)) {
        (false, _) => answer.number == 23,
        (true, true) => answer.number == 31,
        (true, false) => !matches!(answer.number, 23 | 31),
    };
    assert!(expected, "{record:?} {answer:?}");
}

fn follow(keeper: &mut Reference, record: &[u8]) {
    let before = keeper.clone();
    let answer = keeper.call(record);
    if record.first() == Some(&5) {
        withdrawal_tells_the_holder(record, &before, answer);
    }
    if answer.number != 0 {
        sitting_refusals(record, answer.number);
        assert!(*keeper == before);
        return;
    }
    sitting_changes(record, &before, keeper);
    saved_state_stays(record, &before, keeper);
    if record[0] == 7 {
        edge_removal_is_local(record, &before.sets(), &keeper.sets());
    }
    is_closed(keeper);
    is_sound(keeper);
    sitting_is_sound(keeper);
}

/// A load clears pairs and active roles; a refused one keeps everything.
fn follow_load(keeper: &mut Reference, bytes: &[u8]) {
    let before = keeper.clone();
    match keeper.load(bytes) {
        Ok(()) => assert!(keeper.exclusions() == [0; 64] && keeper.active() == [0; 64]),
        Err(_) => assert!(*keeper == before),
    }
}

/// The saved state comes back, and nothing else.
fn follow_reload(keeper: &mut Reference) {
    let before = keeper.clone();
    follow_load(keeper, &before.save());
    assert!(keeper.is_saved_alike(&before));
}

#[test]
fn random_lists_keep_the_laws() {
    let mut random = Random::new(printed_seed());
    for round in 0..10 * MIXES.len() {
        let mut keeper = Reference::fresh();
        for step in list(&mut random, MIXES[round % MIXES.len()]) {
            match step {
                Step::Call(record) => follow(&mut keeper, &record),
                Step::Load(bytes) => follow_load(&mut keeper, &bytes),
                Step::Reload(_) => follow_reload(&mut keeper),
                Step::Save => edges_are_fewest(&keeper),
                _ => {}
            }
        }
    }
}

/// Without its refused calls a list ends alike, pairs and active roles too.
#[test]
fn refused_calls_can_be_left_out() {
    let mut random = Random::new(printed_seed());
    let mut sittings = 0;
    for round in 0..10 * MIXES.len() {
        let (mut whole, mut rest) = (Reference::fresh(), Reference::fresh());
        for step in list(&mut random, MIXES[round % MIXES.len()]) {
            match step {
                Step::Call(record) => {
                    let answer = whole.call(&record);
                    if answer.number == 0 {
                        assert_eq!(rest.call(&record), answer);
                    }
                }
                Step::Load(bytes) if whole.load(&bytes).is_ok() => {
                    assert_eq!(rest.load(&bytes), Ok(()));
                }
                _ => {}
            }
        }
        assert!(whole == rest);
        sittings += usize::from(whole.exclusions() != [0; 64] && whole.active() != [0; 64]);
    }
    assert!(
        sittings > 10,
        "{sittings} lists end with pairs and active roles"
    );
}
