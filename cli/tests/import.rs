//! The command import: sheets that become tapes, and the row that is shown where one does not.

#[allow(dead_code)]
mod common;

use common::{Folder, Ran};

/// The sheet of document 01's bench example A, and the lines of its tape.
const BENCH: &[u8] = include_bytes!("../../examples/sheets/bench.csv");
const ROLES: &str = "\
role 2 {1}
role 3 {2}
role 4 {1,3,4}
role 5 {1,2,4,5}
role 6 {1,2,5,6}
role 7 {2,7,8}
role 8 {1..10}
role 9 {1..8,11}
";

/// Imports a sheet from standard input.
fn imported(sheet: &[u8]) -> Ran {
    Folder::new().given(&["import", "-"], sheet)
}

/// The text of the tape of a sheet.
fn roles(sheet: &[u8]) -> String {
    let ran = imported(sheet);
    assert_eq!((ran.status, ran.errors.as_str()), (0, ""));
    let read = Folder::new().given(&["tape", "read"], &ran.output);
    read.text().to_string()
}

/// A sheet is refused with status 1 and without output; this is said of it, and the row is shown with a mark at the place.
fn refuses(sheet: &[u8], said: &str, row: &str, column: usize) {
    let ran = imported(sheet);
    assert_eq!((ran.status, ran.output.len()), (1, 0), "{sheet:?}");
    let mark = format!("{:column$}^", "");
    assert_eq!(
        ran.errors,
        format!("keeper: standard input: refused with 32, row {said}\n    {row}\n    {mark}\n")
    );
}

// ---- sheets ----

#[test]
fn a_sheet_becomes_a_tape_that_an_image_takes() {
    let folder = Folder::new();
    folder.write("bench.csv", BENCH);
    let ran = folder.run(&["import", "bench.csv"]);
    assert_eq!((ran.status, ran.errors.as_str()), (0, ""));
    assert_eq!(ran.output.len(), 8 * 32);
    folder.write("bench.tape", &ran.output);
    folder.given(&["tape", "read"], &ran.output).is(0, ROLES);
    folder.run(&["new", "image"]).is(0, "");
    folder
        .run(&["apply", "--quiet", "image", "bench.tape"])
        .is(0, "8 accepted, 0 refused; the file is replaced\n");
    let shown = folder.run(&["show", "image"]);
    assert!(shown.text().contains("\n18 edges"), "{}", shown.text());
    assert_eq!(folder.names(), ["bench.csv", "bench.tape", "image"]);
}

#[test]
fn a_tape_is_the_one_that_the_text_form_writes() {
    let text = Folder::new().given(&["tape", "write"], ROLES.as_bytes());
    assert_eq!(imported(BENCH).output, text.output);
}

#[test]
fn fields_may_be_quoted_and_the_last_line_end_missing() {
    let sheets: [&[u8]; 4] = [
        b",0,63\r\n5,1,0\r\n6,0,1\r\n",
        b",0,63\r\n5,1,0\r\n6,0,1",
        b"\"\",\"0\",\"63\"\r\n\"5\",\"1\",\"0\"\r\n\"6\",\"0\",\"1\"\r\n",
        b",\"0\",63\r\n5,\"1\",0\r\n\"6\",0,1",
    ];
    for sheet in sheets {
        assert_eq!(roles(sheet), "role 5 {0}\nrole 6 {63}\n");
    }
}

#[test]
fn a_heading_alone_is_an_empty_tape() {
    for sheet in [&b",0"[..], b",0\r\n", b"\"\",0,1,2\r\n"] {
        assert_eq!(roles(sheet), "");
    }
    let folder = Folder::new();
    folder.run(&["new", "image"]).is(0, "");
    folder
        .given(&["apply", "image", "-"], &imported(b",0").output)
        .is(0, "0 accepted, 0 refused; the file is as it was\n");
}

/// What the keeper refuses later is a record like others.
#[test]
fn end_roles_repeated_roles_and_empty_ones_are_imported() {
    let sheet = b",0\r\n0,1\r\n1,1\r\n2,1\r\n2,1\r\n3,0\r\n";
    assert_eq!(
        roles(sheet),
        "role 0 {0}\nrole 1 {0}\nrole 2 {0}\nrole 2 {0}\nrole 3 {}\n"
    );
}

// ---- rows that are wrong ----

/// A sheet, what is said of it from its row on, the row as it is shown, and where the mark stands.
const WRONG: [(&[u8], &str, &str, usize); 34] = [
    (
        b"",
        "1: the text is empty, and a sheet starts with a heading",
        "",
        0,
    ),
    (b"\r\n", "1: the heading has no privilege", "", 0),
    (
        b"\"\"\r\n2\r\n",
        "1: the heading has no privilege",
        "\"\"",
        2,
    ),
    (
        b"role,0\r\n",
        "1: the heading starts with an empty field, and 'role' stands here",
        "role,0",
        0,
    ),
    (
        b"\" \",0\r\n",
        "1: the heading starts with an empty field, and ' ' stands here",
        "\" \",0",
        0,
    ),
    (
        b"\xEF\xBB\xBF,0\r\n",
        "1: a byte order mark stands before the heading, and a sheet has none",
        "\\xef\\xbb\\xbf,0",
        0,
    ),
    (
        b";0;1\r\n",
        "1: commas part the fields, and ';' stands here",
        ";0;1",
        0,
    ),
    (
        b"\t0\t1\r\n",
        "1: commas part the fields, and '\\t' stands here",
        "\\t0\\t1",
        0,
    ),
    (
        b",0,,2\r\n",
        "1: a privilege's number is missing here",
        ",0,,2",
        3,
    ),
    (
        b",0,\r\n",
        "1: a privilege's number is missing here",
        ",0,",
        3,
    ),
    (b",0,64\r\n", "1: '64' is above 63", ",0,64", 3),
    (
        b",99999999999999999999999\r\n",
        "1: '99999999999999999999..' is above 63",
        ",99999999999999999999999",
        1,
    ),
    (b",00\r\n", "1: '00' has a leading zero", ",00", 1),
    (b",+1\r\n", "1: '+1' is not a number from 0 to 63", ",+1", 1),
    (b", 1\r\n", "1: ' 1' is not a number from 0 to 63", ", 1", 1),
    (
        b",1,3,2\r\n",
        "1: privilege 2 stands behind 3, and they strictly ascend",
        ",1,3,2",
        5,
    ),
    (
        b",1,1\r\n",
        "1: privilege 1 stands behind 1, and they strictly ascend",
        ",1,1",
        3,
    ),
    (
        b",0\n2,1\n",
        "1: the line ends with LF alone, and lines of a sheet end with CR LF",
        ",0",
        2,
    ),
    (b",0\r2,1\r", "1: a CR stands here without its LF", ",0", 2),
    (b",0\r", "1: a CR stands here without its LF", ",0", 2),
    (b",\"0\r\n2,1\r\n", "1: this quote is not closed", ",\"0", 1),
    (
        b",\"0\"1\r\n",
        "1: '1' stands behind a closing quote",
        ",\"0\"1",
        4,
    ),
    (
        b",0\"\r\n",
        "1: '0\"' is not a number from 0 to 63",
        ",0\"",
        1,
    ),
    (
        b",\"\"\"0\"\r\n",
        "1: '\"\"0' is not a number from 0 to 63",
        ",\"\"\"0\"",
        1,
    ),
    (
        b",0\r\n2,1\r\n3,1\n4,1\r\n",
        "3: the line ends with LF alone, and lines of a sheet end with CR LF",
        "3,1",
        3,
    ),
    (b",0\r\n\r\n2,1\r\n", "2: the row is empty", "", 0),
    (b",0\r\n2,1\r\n\r\n", "3: the row is empty", "", 0),
    (b",0\r\n64,1\r\n", "2: '64' is above 63", "64,1", 0),
    (
        b",0\r\n2,1\r\n03,1",
        "3: '03' has a leading zero",
        "03,1",
        0,
    ),
    (
        b",0\r\n,1\r\n",
        "2: the role's number is missing here",
        ",1",
        0,
    ),
    (
        b",0,1\r\n2,1\r\n",
        "2: a field is missing: the heading has 3, and this row 2",
        "2,1",
        3,
    ),
    (
        b",0\r\n2,1,\r\n",
        "2: a field too many: the heading has 2",
        "2,1,",
        4,
    ),
    (
        b",0,1\r\n2,1,2\r\n",
        "2: '2' is neither 0 nor 1",
        "2,1,2",
        4,
    ),
    (
        b",0,1\r\n2,,1\r\n",
        "2: a 0 or a 1 is missing here",
        "2,,1",
        2,
    ),
];

#[test]
fn a_wrong_row_is_shown_with_its_place() {
    for (sheet, said, row, column) in WRONG {
        refuses(sheet, said, row, column);
    }
}

/// A quoted field may have line ends; its row is shown up to the first.
#[test]
fn a_row_is_shown_up_to_its_first_line_end() {
    refuses(
        b",0\r\n2,\"a\r\nb\"\r\n",
        "2: 'a\\r\\nb' is neither 0 nor 1",
        "2,\"a",
        2,
    );
}

#[test]
fn bytes_that_do_not_print_are_escaped() {
    refuses(
        b",0,1\r\n2,1,\x00\x1B[31m\\\xFF\r\n",
        "2: '\\x00\\x1b[31m\\\\\\xff' is neither 0 nor 1",
        "2,1,\\x00\\x1b[31m\\\\\\xff",
        4,
    );
    refuses(
        b",0\r\n\xC3\xBC,1\r\n",
        "2: '\\xc3\\xbc' is not a number from 0 to 63",
        "\\xc3\\xbc,1",
        0,
    );
}

/// A sheet of one column and so many roles, which are 2 to 63 over and over.
fn long(rows: usize) -> Vec<u8> {
    let row = |at: usize| format!("\r\n{},1", 2 + at % 62);
    let rows: String = (0..rows).map(row).collect();
    format!(",0{rows}").into_bytes()
}

#[test]
fn a_row_above_255_is_named_by_its_number() {
    for rows in [254, 255, 256, 65_534, 65_535, 65_536] {
        let sheet = long(rows);
        assert_eq!(imported(&sheet).output.len(), 32 * rows);
        let said = format!("{}: '2' is neither 0 nor 1", rows + 2);
        refuses(&[&sheet, &b"\r\n7,2\r\n8,1"[..]].concat(), &said, "7,2", 2);
    }
}

#[test]
fn a_long_row_is_shown_around_the_place() {
    let sheet = [b",0\r\n2,".to_vec(), b"1,".repeat(1_000_000)].concat();
    let ran = imported(&sheet);
    assert_eq!(ran.status, 1);
    assert!(
        ran.errors.contains("row 2: a field too many"),
        "{}",
        ran.errors
    );
    assert!(ran.errors.len() < 1000);
    let sheet = [b",".to_vec(), b"x".repeat(1_000_000)].concat();
    let ran = imported(&sheet);
    let said = format!("'{}..' is not a number", "x".repeat(20));
    assert!(ran.errors.contains(&said), "{}", ran.errors);
    assert!(ran.errors.len() < 1000);
}

// ---- files ----

#[test]
fn a_file_is_named_and_trouble_with_it_is_no_refusal() {
    let folder = Folder::new();
    folder.write("old.csv", ",0\n2,1\n");
    let ran = folder.run(&["import", "old.csv"]);
    assert_eq!((ran.status, ran.text()), (1, ""));
    assert!(ran
        .errors
        .starts_with("keeper: old.csv: refused with 32, row 1: the line ends with LF alone"));
    folder
        .run(&["import", "absent.csv"])
        .fails("absent.csv: No such file");
    folder.run(&["import", "."]).fails(".: ");
    assert_eq!(folder.names(), ["old.csv"]);
}

/// The help says how to import a sheet whose lines end with LF alone.
#[test]
fn the_help_has_the_line_ends() {
    let help = Folder::new().run(&["help", "import"]);
    assert!(help
        .text()
        .contains("\n  sed 's/$/\\r/' SHEET | keeper import - > TAPE\n"));
}

/// Numbers that look random and are the same in every run.
fn noise(seed: u64) -> impl FnMut(usize) -> usize {
    let mut state = seed;
    move |below| {
        state = state
            .wrapping_mul(6364136223846793005)
            .wrapping_add(1442695040888963407);
        (state >> 33) as usize % below
    }
}

/// Whatever is given, the command ends with a tape, or with a row and a reason of its own.
#[test]
fn any_bytes_get_a_tape_or_a_reason() {
    let mut noise = noise(17);
    let pieces: [&[u8]; 20] = [
        b",", b",", b",", b"0", b"1", b"2", b"63", b"64", b"07", b"\r\n", b"\r\n", b"\n", b"\r",
        b"\"", b"\"\"", b"\"1\"", b" ", b";", b"x", b"\xFF",
    ];
    let starts: [&[u8]; 3] = [b"", b",0,1\r\n", b",0,1\r\n2,1,0\r\n"];
    let (mut tapes, mut reasons) = (0, 0);
    for _ in 0..600 {
        let mut sheet = starts[noise(3)].to_vec();
        for _ in 0..noise(7) {
            sheet.extend(pieces[noise(pieces.len())]);
        }
        let ran = imported(&sheet);
        match ran.status {
            0 => {
                tapes += 1;
                assert_eq!((ran.output.len() % 32, ran.errors.as_str()), (0, ""));
            }
            _ => {
                reasons += 1;
                assert_eq!((ran.status, ran.output.len()), (1, 0), "{sheet:?}");
                assert!(
                    ran.errors.contains(": refused with 32, row "),
                    "{sheet:?}: {}",
                    ran.errors
                );
                assert!(
                    !ran.errors.contains("is not one of a sheet"),
                    "{sheet:?}: {}",
                    ran.errors
                );
                assert_eq!(ran.errors.lines().count(), 3, "{}", ran.errors);
            }
        }
    }
    assert!(
        tapes > 20 && reasons > 200,
        "{tapes} tapes, {reasons} reasons"
    );
}
