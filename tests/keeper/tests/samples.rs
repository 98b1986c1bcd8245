//! Document 01's sample tape, its saved sample, and what it says of the edges of a record and an image; and a tape of document
//! 02's Item 3.

use keeper::{Answer, Keeper, Refusal};
use role_reference::generate::{record, short};
use role_reference::reference::RECORD_LENGTH;

/// What benchtape prints for a tape.
fn printed(tape: &[u8]) -> String {
    let mut keeper = Keeper::fresh();
    let mut lines = String::new();
    let mut count = 0;
    for record in tape.chunks(RECORD_LENGTH) {
        let (number, place) = keeper_tests::printed(keeper.record(record));
        count += 1;
        lines += &format!("{count} {number} {place}\n");
    }
    lines + &format!("end {count} {}\n", keeper.edge_count())
}

fn sample() -> [Vec<u8>; 6] {
    [
        record(2, 2, 0, [0b1, 0, 0]),
        record(2, 3, 0, [0b11, 0, 0]),
        short(8, 0, 2),
        short(10, 5, 3),
        short(4, 2, 2),
        short(12, 5, 1),
    ]
}

fn after_sample() -> Keeper {
    let mut keeper = Keeper::fresh();
    for record in sample() {
        let _ = keeper.record(&record);
    }
    keeper
}

const SAVED: [u8; 45] = [
    0x03, 0, 0, 0, 0, 0, 0, 0, // MaxRole
    0x02, 0x01, 0, 0, 0, 0, 0, 0, 0, // role 2
    0x03, 0x03, 0, 0, 0, 0, 0, 0, 0, // role 3
    0x00, 0x02, // the conflict
    0x05, 0x08, 0, 0, 0, 0, 0, 0, 0, // seat 5
    0x2D, 0, 0, 0, 0x02, 0x01, 0x01, 0, // the trailer
];

#[test]
fn the_sample_tape_prints_its_lines() {
    let lines = "1 0 0\n2 0 0\n3 0 0\n4 0 0\n5 29 2\n6 0 1\nend 6 3\n";
    assert_eq!(printed(&sample().concat()), lines);
}

#[test]
fn empty_input_prints_one_edge() {
    assert_eq!(printed(&[]), "end 0 1\n");
}

#[test]
fn a_partial_record_is_refused() {
    let mut tape = sample()[0].clone();
    tape.push(12);
    assert_eq!(printed(&tape), "1 0 0\n2 1 0\nend 2 2\n");
}

#[test]
fn the_sample_is_saved() {
    assert_eq!(after_sample().save(), SAVED);
}

#[test]
fn the_saved_sample_loads_behind_other_bytes() {
    let mut keeper = Keeper::fresh();
    let bytes = [&[0xA5; 7][..], &SAVED].concat();
    assert_eq!(keeper.load(&bytes), Ok(()));
    assert_eq!(keeper, after_sample());
}

#[test]
fn a_record_has_32_bytes() {
    let ask = short(12, 5, 1);
    let longer = [&ask[..], &[0]].concat();
    let mut keeper = after_sample();
    assert_eq!(keeper.record(&ask), Ok(Answer::Yes));
    assert_eq!(keeper.record(&ask[..31]), Err(Refusal::Malformed));
    assert_eq!(keeper.record(&longer), Err(Refusal::Malformed));
}

#[test]
fn privilege_63_is_known() {
    let mut keeper = after_sample();
    let above = Refusal::UnknownNumber { number: 64 };
    assert_eq!(keeper.record(&short(12, 5, 63)), Ok(Answer::No));
    assert_eq!(keeper.record(&short(12, 5, 64)), Err(above));
    assert_eq!(keeper.ask(5, 63), Ok(false));
    assert_eq!(keeper.ask(5, 64), Err(above));
    assert_eq!(keeper.ask(64, 64), Err(above));
}

#[test]
fn a_fresh_image_has_16_bytes() {
    let image = Keeper::fresh().save();
    assert_eq!(image.len(), 16);
    let mut keeper = after_sample();
    assert_eq!(keeper.load(&image[1..]), Err(Refusal::NoImage));
    assert_eq!(keeper, after_sample());
    assert_eq!(keeper.load(&image), Ok(()));
    assert_eq!(keeper, Keeper::fresh());
}

#[test]
fn a_short_buffer_is_refused_and_left() {
    let keeper = after_sample();
    let mut buffer = [0xA5; 50];
    let short = keeper.save_into(&mut buffer[..44]);
    assert_eq!(short, Err(Refusal::ShortBuffer));
    assert_eq!(buffer, [0xA5; 50]);
    assert_eq!(keeper.save_into(&mut buffer), Ok(45));
    assert_eq!(buffer[..45], SAVED);
    assert_eq!(buffer[45..], [0xA5; 5]);
}

// ---- sitting down in one role ----

/// Roles 2 {0}, 3 {1} and 4 {0,1,2}; seat 5 has role 4, and roles 2 and 3 exclude each other.
fn desk() -> Vec<Vec<u8>> {
    vec![
        record(2, 2, 0, [0b1, 0, 0]),
        record(2, 3, 0, [0b10, 0, 0]),
        record(2, 4, 0, [0b111, 0, 0]),
        short(10, 5, 4),
        short(13, 3, 2),
    ]
}

#[test]
fn a_sitting_prints_its_lines() {
    let mut tape = desk();
    tape.extend([
        short(14, 5, 2),
        short(14, 5, 3),
        short(14, 6, 2),
        short(6, 2, 3),
        short(15, 5, 2),
        short(14, 5, 3),
        short(12, 5, 0),
    ]);
    let lines = "1 0 0\n2 0 0\n3 0 0\n4 0 0\n5 0 0\n6 0 0\n7 35 2\n8 34 6\n9 35 2\n10 0 0\n11 0 0\n12 0 1\nend 12 5\n";
    assert_eq!(printed(&tape.concat()), lines);
}

#[test]
fn kind_15_is_known() {
    let mut keeper = after_sample();
    assert_eq!(
        keeper.record(&short(15, 5, 3)),
        Err(Refusal::NotSo { place: 5 })
    );
    assert_eq!(keeper.record(&short(16, 5, 3)), Err(Refusal::Malformed));
}

/// An image has the same bytes whatever is excluded and active.
#[test]
fn a_sitting_is_not_saved() {
    let mut keeper = Keeper::fresh();
    for record in desk() {
        assert_eq!(keeper.record(&record), Ok(Answer::Accepted));
    }
    let mut plain = Keeper::fresh();
    for record in &desk()[..4] {
        assert_eq!(plain.record(record), Ok(Answer::Accepted));
    }
    assert_eq!(keeper.record(&short(14, 5, 2)), Ok(Answer::Accepted));
    assert_eq!(keeper.save(), plain.save());
    assert_eq!(keeper.load(&plain.save()), Ok(()));
    assert_eq!(keeper, plain);
}
