//! The proved importer beside the reference, on sheets and on texts that are none; what it writes, played by the keeper.

use keeper::{block, import, SheetRefusal};
use keeper_tests::Kept;
use role_reference::compare::{first_difference, Counts};
use role_reference::compare_sheets::{run, Seen};
use role_reference::generate::Step;
use role_reference::generate_sheets::{cases, Case, Shape, SHAPES};
use role_reference::random::{printed_seed, Random};
use role_reference::reference::RECORD_LENGTH;
use role_reference::sheets::read;

const TEXTS: usize = 20_000;

/// A run that misses a refusal, a damage, or a way to write a sheet fails.
#[test]
fn the_importer_agrees_with_the_reference() {
    let seen = run(printed_seed(), TEXTS, &keeper_tests::import);
    let seen: Seen = seen.unwrap_or_else(|failure| panic!("{failure}"));
    println!("{seen}");
    assert!(seen.texts >= TEXTS);
}

/// Cases around some sheets of each shape.
fn some_cases() -> Vec<Case> {
    let mut random = Random::new(printed_seed());
    let shapes = (0..2).flat_map(|_| SHAPES);
    shapes.flat_map(|shape| cases(&mut random, shape)).collect()
}

/// The room that the wrapper takes is never too short.
#[test]
fn a_tape_of_its_own_is_that_of_the_sheet() {
    let (mut sheets, mut others) = (0, 0);
    for case in some_cases() {
        let expected = read(&case.text).map(|sheet| sheet.tape());
        sheets += usize::from(expected.is_ok());
        others += usize::from(expected.is_err());
        let expected = expected.map_err(|row| SheetRefusal::BadSheet { row: row as u64 });
        assert_eq!(import(&case.text), expected, "{}", case.text.escape_ascii());
    }
    assert!(sheets > 100 && others > 500, "{sheets} and {others}");
}

/// The archive's own number: a length, 2 to the 63, or that and the row.
#[test]
fn a_length_and_a_row_are_told_apart() {
    const NOT_IMPORTED: u64 = 1 << 63;
    for case in some_cases() {
        let (long, empty) = match read(&case.text) {
            Ok(sheet) if sheet.rows.is_empty() => (0, 0),
            Ok(sheet) => (32 * sheet.rows.len() as u64, NOT_IMPORTED),
            Err(row) => (NOT_IMPORTED + row as u64, NOT_IMPORTED + row as u64),
        };
        let mut tape = vec![0; case.text.len() * RECORD_LENGTH];
        assert_eq!(block::import(&case.text, &mut tape), long);
        assert_eq!(block::import(&case.text, &mut []), empty);
    }
}

/// The keeper takes an imported tape as the reference does.
#[test]
fn an_imported_tape_plays_alike() {
    let mut random = Random::new(printed_seed());
    let mut counts = Counts::none();
    for _ in 0..10 {
        for case in cases(&mut random, Shape::Sound) {
            let tape = import(&case.text).unwrap_or_default();
            let calls = tape.chunks(RECORD_LENGTH);
            let steps: Vec<Step> = calls.map(|call| Step::Call(call.to_vec())).collect();
            let difference = first_difference::<Kept>(&steps, &mut counts);
            assert!(difference.is_none(), "{difference:?}");
        }
    }
    assert!(
        counts.accepted[2] > 500,
        "{} are accepted",
        counts.accepted[2]
    );
}
