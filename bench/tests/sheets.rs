//! The plain importer gives document 02's tapes and rows, and where the archive stands the keeper gives the same bytes.

use bench::plain::Plain;
use bench::side::Side;
use bench::work::{refused_sheet, sheet, SHEET_ROLES};
use role_reference::generate::record;
use role_reference::random::Random;

const NOT_IMPORTED: u64 = 1 << 63;
const FILLER: u8 = 0xA5;

/// What a side gives for a text and a buffer of a length, and the buffer behind it.
fn imported<S: Side>(text: &[u8], room: usize) -> (u64, Vec<u8>) {
    let mut tape = vec![FILLER; room];
    let given = S::fresh().import(text, &mut tape);
    (given, tape)
}

#[test]
fn a_sheet_becomes_its_tape() {
    let rows = [(2, 1), (3, 1 << 63 | 1), (0, 0)];
    let tape: Vec<u8> = rows
        .iter()
        .flat_map(|(role, set)| record(2, *role, 0, [*set, 0, 0]))
        .collect();
    for text in [
        ",0,63\r\n2,1,0\r\n3,1,1\r\n0,0,0\r\n",
        "\"\",\"0\",63\r\n\"2\",1,\"0\"\r\n3,1,1\r\n0,0,0",
    ] {
        assert_eq!(imported::<Plain>(text.as_bytes(), 96), (96, tape.clone()));
        let longer = [&tape[..], &[FILLER; 5]].concat();
        assert_eq!(imported::<Plain>(text.as_bytes(), 101), (96, longer));
        let short = (NOT_IMPORTED, vec![FILLER; 95]);
        assert_eq!(imported::<Plain>(text.as_bytes(), 95), short);
    }
    assert_eq!(imported::<Plain>(b",7", 0), (0, Vec::new()));
}

/// Texts that are no sheets, with their rows.
const WRONG: [(&str, u64); 25] = [
    ("", 1),
    ("\r\n", 1),
    ("0", 1),
    ("\"", 1),
    (",64", 1),
    (",100", 1),
    (",00", 1),
    (",01", 1),
    (",1,1", 1),
    (",2,1", 1),
    (", 1", 1),
    (",\"1", 1),
    (",\"\"1\"\"", 1),
    (",1\"", 1),
    (",1\n2,1", 1),
    (",1\r2,1", 1),
    (",1\r\n2", 2),
    (",1\r\n2,1,0", 2),
    (",1\r\n2,2", 2),
    (",1\r\n2,01", 2),
    (",1\r\n64,1", 2),
    (",1\r\n\r\n2,1", 2),
    (",1\r\n2,1\n3,1", 2),
    (",1\r\n2,1\r\n\r\n", 3),
    (",1\r\n2,1\r\n3,\"1\r\n", 3),
];

#[test]
fn a_text_that_is_no_sheet_has_its_row() {
    for (text, row) in WRONG {
        let refused = (NOT_IMPORTED + row, vec![FILLER; 64]);
        assert_eq!(imported::<Plain>(text.as_bytes(), 64), refused, "{text:?}");
        let refused = (NOT_IMPORTED + row, Vec::new());
        assert_eq!(imported::<Plain>(text.as_bytes(), 0), refused, "{text:?}");
    }
}

#[test]
fn the_timed_sheets_are_what_they_are_called() {
    let room = SHEET_ROLES * 32;
    assert_eq!(imported::<Plain>(&sheet(), room).0, room as u64);
    let last = NOT_IMPORTED + SHEET_ROLES as u64 + 1;
    assert_eq!(imported::<Plain>(&refused_sheet(), room).0, last);
}

/// The bytes that damage a sheet.
const DAMAGE: &[u8] = b"\r\n,\"0129 x\0";

/// A sheet of few rows and columns, quoted here and there, and mostly damaged somewhere.
fn random_sheet(random: &mut Random) -> Vec<u8> {
    let columns = 1 + random.under(4);
    let mut text = String::new();
    let quoted = |random: &mut Random, content: String| match random.one_in(5) {
        true => format!("\"{content}\""),
        false => content,
    };
    text += &quoted(random, String::new());
    for column in 0..columns {
        let number = (column * 15 + random.under(15)).to_string();
        text += &format!(",{}", quoted(random, number));
    }
    for _ in 0..random.under(5) {
        let role = random.under(64).to_string();
        text += &format!("\r\n{}", quoted(random, role));
        for _ in 0..columns {
            let mark = random.under(2).to_string();
            text += &format!(",{}", quoted(random, mark));
        }
    }
    if random.one_in(2) {
        text += "\r\n";
    }
    let mut text = text.into_bytes();
    for _ in 0..random.under(3) {
        let at = random.under(text.len());
        let byte = DAMAGE[random.under(DAMAGE.len())];
        match random.under(3) {
            0 => text[at] = byte,
            1 => text.insert(at, byte),
            _ => drop(text.remove(at)),
        }
    }
    text
}

#[test]
fn random_sheets_are_taken_and_refused() {
    let mut random = Random::new(2);
    let (mut taken, mut refused) = (0, 0);
    for _ in 0..20_000 {
        let text = random_sheet(&mut random);
        match imported::<Plain>(&text, text.len() / 5 * 32).0 {
            given if given < NOT_IMPORTED => taken += 1,
            given => {
                refused += 1;
                assert!(given > NOT_IMPORTED, "the room takes every tape: {text:?}");
            }
        }
    }
    assert!(taken > 4_000 && refused > 4_000, "{taken}, {refused}");
}

#[cfg(archive)]
#[test]
fn the_keeper_gives_the_same_bytes() {
    use bench::keeper::Kept;
    let same = |text: &[u8]| {
        let rows = text.len() / 5;
        let length = match imported::<Plain>(text, 32 * rows).0 {
            given if given < NOT_IMPORTED => given as usize,
            _ => 32 * rows,
        };
        for room in [0, length.saturating_sub(1), length, length + 1, length + 40] {
            let (first, second) = (imported::<Kept>(text, room), imported::<Plain>(text, room));
            assert!(first == second, "{text:?} into {room} bytes");
        }
    };
    same(&sheet());
    same(&refused_sheet());
    for (text, _) in WRONG {
        same(text.as_bytes());
    }
    let mut random = Random::new(3);
    for _ in 0..20_000 {
        same(&random_sheet(&mut random));
    }
}
