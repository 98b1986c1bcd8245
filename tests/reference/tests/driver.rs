//! The driver agrees with the reference itself and catches broken keepers.

mod layered;

use layered::Layered;
use role_reference::compare::{accepted_share, run, Counts, Failure, Keeper};
use role_reference::generate::{list, shrink, Mix, Step};
use role_reference::random::{printed_seed, Random};
use role_reference::reference::Reference;

const CALLS: usize = 60_000;
const IMAGES: usize = 15_000;

#[test]
fn reference_agrees_with_itself() {
    let counts = run::<Reference>(printed_seed(), CALLS, IMAGES);
    let counts: Counts = counts.unwrap_or_else(|failure| panic!("{failure}"));
    println!("{counts}");
    assert!(counts.calls >= CALLS && counts.images >= IMAGES);
}

#[test]
fn few_numbers_give_mostly_accepted_calls() {
    assert!(accepted_share(7, Mix::Few, 50) > 0.5);
    assert!(accepted_share(7, Mix::Layered, 20) > 0.5);
    assert!(accepted_share(7, Mix::Sitting, 20) > 0.5);
    assert!(accepted_share(7, Mix::Scenes, 20) > 0.5);
}

#[test]
fn damaged_records_have_all_lengths() {
    let mut random = Random::new(7);
    let mut seen = [0; 71];
    for step in (0..100).flat_map(|_| list(&mut random, Mix::Damaged)) {
        if let Step::Call(record) = step {
            seen[record.len()] += 1;
        }
    }
    assert!(seen.iter().all(|count| *count > 0), "{seen:?}");
}

#[test]
fn a_short_run_does_not_see_all() {
    let failure = run::<Reference>(1, 10, 10).expect_err("ten calls see too little");
    assert!(matches!(failure, Failure::Unseen { .. }));
}

#[test]
fn a_run_should_see_both_refusals_of_a_withdrawal() {
    let missing = Counts::none().missing();
    for unseen in ["refusal 31", "kind 5 refused 23", "kind 5 refused 31"] {
        assert!(missing.iter().any(|text| text == unseen), "{unseen}");
    }
}

#[test]
fn a_run_should_see_all_of_item_3() {
    let missing = Counts::none().missing();
    let refused = [1, 3, 4, 5, 6, 7, 13, 14].map(|kind| format!("kind {kind} refused 35"));
    let switching = [3, 7, 11].map(|kind| format!("kind {kind} switching off"));
    let accepted = [13, 14, 15].map(|kind| format!("kind {kind} accepted"));
    let others = [
        "refusal 34",
        "refusal 35",
        "kind 14 refused 34",
        "kind 13 refused 35 joined",
        "kind 13 refused 35 by one member",
        "kind 13 refused 35 by two members",
        "a question's yes",
        "a question's no",
        "a load that clears",
        "a refused load that keeps",
    ];
    let others = others.map(String::from);
    let unseen = [&refused[..], &switching, &accepted, &others].concat();
    for text in unseen {
        assert!(missing.contains(&text), "{text}");
    }
    for text in ["kind 2 refused 35", "kind 14 refused 35 joined"] {
        assert!(!missing.contains(&text.to_string()), "{text}");
    }
}

#[test]
fn shrinker_finds_the_shortest() {
    let list: Vec<u32> = (0..1_000).collect();
    let fails = |part: &[u32]| part.contains(&17) && part.contains(&903);
    assert_eq!(shrink(&list, fails), [17, 903]);
    assert_eq!(shrink(&list, |_| true), []);
    let even =
        |part: &[u32]| part.len().is_multiple_of(2) && part.contains(&8) && part.contains(&9);
    assert_eq!(shrink(&list, even), [8, 9]);
}

// ---- broken keepers ----

const ALWAYS_28: u8 = 0;
const WRONG_PLACE_OF_29: u8 = 1;
const SWAPPED_TRAILER: u8 = 2;
const ALWAYS_YES: u8 = 3;
const INVENTED_EDGES: u8 = 4;
const EACH_IMAGE_6: u8 = 5;
const DRAWS_NOTHING: u8 = 6;
const REPEATS_FIRST: u8 = 7;
const WRITES_BEHIND: u8 = 8;
const CHANGES_ON_REFUSED_LOAD: u8 = 9;
const PANICS_AT_30: u8 = 10;
const INHERITED_AS_23: u8 = 11;
const LACKED_AS_31: u8 = 12;

/// The reference with one fault.
struct Broken<const FAULT: u8> {
    inner: Reference,
    first: Option<(u8, u8)>,
}

impl<const FAULT: u8> Broken<FAULT> {
    fn faulty(&mut self, record: &[u8], answer: (u8, u8)) -> (u8, u8) {
        let is_ask = record.first() == Some(&12);
        let is_withdrawal = record.first() == Some(&5);
        let first = *self.first.get_or_insert(answer);
        match (FAULT, answer) {
            (ALWAYS_28, _) => (28, 0),
            (WRONG_PLACE_OF_29, (29, place)) => (29, place + 1),
            (ALWAYS_YES, (0, 0)) if is_ask => (0, 1),
            (REPEATS_FIRST, _) => first,
            (PANICS_AT_30, (30, _)) => panic!("the fault of this keeper"),
            (INHERITED_AS_23, (31, place)) => (23, place),
            (LACKED_AS_31, (23, place)) if is_withdrawal => (31, place),
            _ => answer,
        }
    }
}

impl<const FAULT: u8> Keeper for Broken<FAULT> {
    fn fresh() -> Self {
        Broken {
            inner: Reference::fresh(),
            first: None,
        }
    }

    fn call(&mut self, record: &[u8]) -> (u8, u8) {
        let before = self.inner.clone();
        let answer = Keeper::call(&mut self.inner, record);
        if FAULT == ALWAYS_28 || FAULT == DRAWS_NOTHING {
            self.inner = before;
        }
        self.faulty(record, answer)
    }

    fn save(&self) -> Vec<u8> {
        let mut image = self.inner.save();
        if FAULT == SWAPPED_TRAILER {
            let roles = image.len() - 4;
            image.swap(roles, roles + 1);
        }
        image
    }

    fn load(&mut self, bytes: &[u8]) -> u8 {
        if FAULT == EACH_IMAGE_6 {
            return 6;
        }
        let number = Keeper::load(&mut self.inner, bytes);
        if FAULT == CHANGES_ON_REFUSED_LOAD && number == 8 {
            self.inner = Reference::fresh();
        }
        number
    }

    fn roles(&self) -> u64 {
        self.inner.roles()
    }

    fn set(&self, role: u8) -> u64 {
        Keeper::set(&self.inner, role)
    }

    fn direct(&self, role: u8) -> u64 {
        Keeper::direct(&self.inner, role)
    }

    fn juniors(&self, role: u8) -> u64 {
        Keeper::juniors(&self.inner, role)
    }

    fn conflict(&self, privilege: u8) -> u64 {
        Keeper::conflict(&self.inner, privilege)
    }

    fn seat(&self, seat: u8) -> u64 {
        Keeper::seat(&self.inner, seat)
    }

    fn edge_count(&self) -> u64 {
        match FAULT {
            INVENTED_EDGES => u64::from(self.inner.roles().count_ones()) + 1,
            _ => self.inner.edges().len() as u64,
        }
    }

    fn ask(&self, seat: u8, privilege: u8) -> (u8, u8) {
        match (FAULT, Keeper::ask(&self.inner, seat, privilege)) {
            (ALWAYS_YES, (0, 0)) => (0, 1),
            (_, answer) => answer,
        }
    }

    fn pairs(&self, role: u8) -> u64 {
        Keeper::pairs(&self.inner, role)
    }

    fn active(&self, seat: u8) -> u64 {
        Keeper::active(&self.inner, seat)
    }

    fn question(&self, seat: u8, privilege: u8) -> (u8, u8) {
        Keeper::question(&self.inner, seat, privilege)
    }

    fn save_into(&self, buffer: &mut [u8]) -> (u8, usize) {
        let answer = Keeper::save_into(&self.inner, buffer);
        if FAULT == WRITES_BEHIND && answer.0 == 0 && answer.1 < buffer.len() {
            buffer[answer.1] = 0;
        }
        answer
    }
}

/// The driver's shrunk list and the words about the difference.
fn caught<const FAULT: u8>() -> (Vec<Step>, String) {
    difference::<Broken<FAULT>>()
}

fn difference<K: Keeper>() -> (Vec<Step>, String) {
    let failure = run::<K>(printed_seed(), CALLS, IMAGES);
    let failure = failure.expect_err("the fault is found");
    println!("{failure}");
    match failure {
        Failure::Differs {
            steps, difference, ..
        } => (steps, difference.text),
        Failure::Unseen { .. } => panic!("no difference is found"),
    }
}

#[test]
fn catches_28_to_everything() {
    let (steps, text) = caught::<ALWAYS_28>();
    assert_eq!(steps.len(), 1);
    assert!(
        text.contains("answer") && text.contains("keeper (28, 0)"),
        "{text}"
    );
}

#[test]
fn catches_wrong_place_of_29() {
    let (steps, text) = caught::<WRONG_PLACE_OF_29>();
    assert!(steps.len() <= 3, "{steps:?}");
    assert!(
        text.contains("answer") && text.contains("reference (29, "),
        "{text}"
    );
}

#[test]
fn catches_the_wrong_refusal_of_a_withdrawal() {
    let (steps, text) = caught::<INHERITED_AS_23>();
    assert!(steps.len() <= 10, "{steps:?}");
    assert!(text.contains("reference (31, "), "{text}");
    let (steps, text) = caught::<LACKED_AS_31>();
    assert!(steps.len() <= 10, "{steps:?}");
    assert!(text.contains("reference (23, "), "{text}");
}

#[test]
fn catches_swapped_trailer() {
    let (steps, text) = caught::<SWAPPED_TRAILER>();
    assert!(steps.len() <= 2, "{steps:?}");
    assert!(text.contains("saved image"), "{text}");
}

#[test]
fn catches_the_worthless_keepers() {
    assert!(caught::<ALWAYS_YES>().0.len() <= 2);
    assert!(caught::<INVENTED_EDGES>().0.len() <= 3);
    assert!(caught::<EACH_IMAGE_6>().0.len() <= 2);
    assert!(caught::<DRAWS_NOTHING>().0.len() <= 1);
    assert!(caught::<REPEATS_FIRST>().0.len() <= 2);
}

#[test]
fn catches_faults_around_buffers_and_loads() {
    assert!(caught::<WRITES_BEHIND>().0.len() <= 2);
    assert!(caught::<CHANGES_ON_REFUSED_LOAD>().0.len() <= 2);
}

#[test]
fn catches_a_panic() {
    let (steps, text) = caught::<PANICS_AT_30>();
    assert!(steps.len() <= 10, "{steps:?}");
    assert_eq!(text, "panic");
}

// ---- keepers broken in what isn't saved ----

/// Such a keeper is caught in a list of at most this many steps, at a
/// difference with these words.
fn caught_sitting<const FAULT: u8>(most: usize, words: &str) {
    let (steps, text) = difference::<Layered<FAULT>>();
    assert!(steps.len() <= most, "{steps:?}");
    assert!(text.contains(words), "{text}");
}

#[test]
fn layers_agree_with_the_whole() {
    let counts = run::<Layered<{ layered::NO_FAULT }>>(printed_seed(), CALLS, IMAGES);
    counts.unwrap_or_else(|failure| panic!("{failure}"));
}

/// A role that a call puts out of a seat's reach lies below the one role that
/// the call lets others newly reach, or goes. So a pair that only the roles
/// about to be switched off would break was joined by a path before the call,
/// and no state has such a pair.
#[test]
fn judging_before_switching_off_makes_no_difference() {
    let counts = run::<Layered<{ layered::JUDGES_BEFORE_SWITCHING }>>(7, CALLS, IMAGES);
    counts.unwrap_or_else(|failure| panic!("{failure}"));
}

#[test]
fn catches_pairs_judged_wrongly() {
    caught_sitting::<{ layered::SEES_EDGES_ALONE }>(8, "reference (35, ");
    caught_sitting::<{ layered::SEES_NO_PATH }>(6, "reference (35, ");
    caught_sitting::<{ layered::SEES_ONE_MEMBER }>(10, "reference (35, ");
    caught_sitting::<{ layered::PLACES_THE_HIGHER }>(10, "keeper (35, ");
    caught_sitting::<{ layered::TAKES_THE_LAST_PAIR }>(12, "keeper (35, ");
    caught_sitting::<{ layered::SEES_ONE_ORDER }>(6, "reference (22, ");
}

#[test]
fn catches_pairs_and_active_roles_that_stay_or_go_wrongly() {
    caught_sitting::<{ layered::KEEPS_PAIRS_OF_REMOVED }>(6, "excluded by role");
    caught_sitting::<{ layered::NEVER_SWITCHES_OFF }>(8, "active roles of seat");
    caught_sitting::<{ layered::SWITCHES_WHEN_REFUSED }>(14, "active roles of seat");
    caught_sitting::<{ layered::LOAD_KEEPS_PAIRS }>(6, "excluded by role");
    caught_sitting::<{ layered::LOAD_KEEPS_ACTIVE }>(6, "active roles of seat");
    caught_sitting::<{ layered::REFUSED_LOAD_CLEARS }>(6, "reference 0x");
}

#[test]
fn catches_activations_misread() {
    caught_sitting::<{ layered::JUNIORS_ARE_MEMBERS }>(8, "active roles of seat");
    caught_sitting::<{ layered::ACTIVATES_ASSIGNED_ALONE }>(8, "keeper (34, ");
    caught_sitting::<{ layered::ACTIVE_ROLE_STAYS }>(8, "keeper (24, ");
}

#[test]
fn catches_questions_misread() {
    caught_sitting::<{ layered::QUESTIONS_THE_ASSIGNED }>(3, "question of seat");
    caught_sitting::<{ layered::ASKS_THE_ACTIVE }>(4, "reference (0, 1)");
}
