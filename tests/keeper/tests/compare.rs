//! The proved keeper beside the reference: random lists of calls, loads and saves, and what each shows of its state.

use keeper::{image_length, Keeper};
use keeper_tests::Kept;
use role_reference::compare::{run, Counts};
use role_reference::generate::{image_list, list, random_state, Mix, Step};
use role_reference::random::{printed_seed, Random};
use role_reference::reference::{has, Reference};

const CALLS: usize = 200_000;
const IMAGES: usize = 50_000;

/// A run that misses a kind, a refusal, a refusal that a kind can meet, a way in which 35 can arise in it, or a switch-off
/// that a kind can cause fails.
#[test]
fn the_keeper_agrees_with_the_reference() {
    let counts = run::<Kept>(printed_seed(), CALLS, IMAGES);
    let counts: Counts = counts.unwrap_or_else(|failure| panic!("{failure}"));
    println!("{counts}");
    assert!(counts.calls >= CALLS && counts.images >= IMAGES);
}

// ---- what the driver does not ask ----

/// Below, by the paths along the reference's edges.
fn below(reference: &Reference) -> [u64; 64] {
    let mut above = [0u64; 64];
    for (junior, senior) in reference.edges() {
        above[*junior as usize] |= 1 << senior;
    }
    for middle in 0..64 {
        for role in 0..64 {
            if has(above[role], middle) {
                above[role] |= above[middle as usize];
            }
        }
    }
    above
}

fn same_order(keeper: &Keeper, reference: &Reference) {
    let above = below(reference);
    for junior in 0..=70u8 {
        let mut seniors = 0;
        for senior in 0..=70u8 {
            let known = junior < 64 && senior < 64;
            let expected = known && has(above[junior as usize], senior);
            assert_eq!(keeper.is_below(junior, senior), expected);
            if reference.edges().contains(&(junior, senior)) {
                seniors |= 1 << senior;
            }
        }
        assert_eq!(keeper.seniors(junior).0, seniors);
    }
}

/// Whether two numbers are paired, in either order, by the words that have the higher ones under the lower.
fn paired(words: &[u64; 64], first: u8, second: u8) -> bool {
    let (lower, higher) = (first.min(second), first.max(second));
    lower < higher && higher < 64 && has(words[lower as usize], higher)
}

fn same_pairs(keeper: &Keeper, reference: &Reference) {
    let (conflicts, exclusions) = (reference.conflicts(), reference.exclusions());
    for first in 0..=70u8 {
        for second in 0..=70u8 {
            let (declared, excluded) = (
                paired(&conflicts, first, second),
                paired(&exclusions, first, second),
            );
            assert_eq!(keeper.is_declared(first, second), declared);
            assert_eq!(keeper.is_excluded(first, second), excluded);
        }
    }
}

fn same_seats(keeper: &Keeper, reference: &Reference) {
    for seat in 0..64 {
        let roles = (0..64).filter(|role| has(reference.roles_of_seat(seat), *role));
        let held = roles.fold(0, |held, role| held | reference.effective(role));
        assert_eq!(keeper.seat_holds(seat).0, held);
        assert_eq!(keeper.active_roles(seat).0, reference.active_of_seat(seat));
    }
    for seat in 64..=70 {
        assert!(keeper.active_roles(seat).is_empty());
    }
}

#[test]
fn the_keeper_shows_what_the_reference_does() {
    let mut random = Random::new(printed_seed());
    for _ in 0..300 {
        let mut reference = random_state(&mut random);
        let image = reference.save();
        assert_eq!(reference.load(&image), Ok(()));
        let mut keeper = Keeper::fresh();
        assert_eq!(keeper.load(&image), Ok(()));
        same_order(&keeper, &reference);
        same_pairs(&keeper, &reference);
        same_seats(&keeper, &reference);
    }
}

/// With pairs and active roles, which no image holds, so that the calls themselves are given to both.
#[test]
fn the_keeper_shows_pairs_and_active_roles() {
    let mut random = Random::new(printed_seed());
    let mut sittings = 0;
    for _ in 0..40 {
        let (mut keeper, mut reference) = (Keeper::fresh(), Reference::fresh());
        for step in list(&mut random, Mix::Scenes) {
            let Step::Call(record) = step else { continue };
            let answer = reference.call(&record);
            let expected = (answer.number, answer.place);
            assert_eq!(keeper_tests::printed(keeper.record(&record)), expected);
        }
        same_pairs(&keeper, &reference);
        same_seats(&keeper, &reference);
        sittings += usize::from(reference.exclusions() != [0; 64] && reference.active() != [0; 64]);
    }
    assert!(
        sittings > 10,
        "{sittings} lists end with pairs and active roles"
    );
}

/// The length measured is that of the image that loads, and the refusals are loading's.
#[test]
fn an_image_is_measured_as_it_loads() {
    let mut random = Random::new(printed_seed());
    let (mut loads, mut refused) = (0, 0);
    for step in (0..60).flat_map(|_| image_list(&mut random)) {
        let Step::Load(bytes) = step else { continue };
        let mut keeper = Keeper::fresh();
        let measured = keeper.load(&bytes).map(|()| keeper.save().len());
        assert_eq!(image_length(&bytes), measured);
        loads += usize::from(measured.is_ok());
        refused += usize::from(measured.is_err());
    }
    assert!(refused > 1000, "{refused} images are refused");
    assert!(loads > 1000, "{loads} images load");
}
