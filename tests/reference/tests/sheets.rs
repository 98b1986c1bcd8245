//! Document 02's sheets: samples by hand, the driver on the reference itself, and broken importers, which it catches.

use role_reference::compare_sheets::{run, Failure, Imported, Seen};
use role_reference::generate::record;
use role_reference::random::printed_seed;
use role_reference::reference::RECORD_LENGTH;
use role_reference::sheets::{import, read, split, write, Fields, Refused, Sheet};

const TEXTS: usize = 20_000;
const FILLER: u8 = 0xA5;

// ---- samples ----

const SHORT: Refused = Refused {
    number: 33,
    place: 0,
};

fn at_row(row: usize) -> Refused {
    Refused {
        number: 32,
        place: row,
    }
}

/// The text becomes calls of kind 2 for these roles and privileges.
fn accepts(text: &[u8], rows: &[(u8, &[u8])]) {
    let set = |members: &[u8]| members.iter().fold(0, |set, member| set | 1 << member);
    let calls = rows.iter();
    let calls = calls.map(|(role, members)| record(2, *role, 0, [set(members), 0, 0]));
    let mut expected = calls.collect::<Vec<Vec<u8>>>().concat();
    let mut buffer = vec![FILLER; expected.len() + 40];
    let shown = text.escape_ascii();
    assert_eq!(import(text, &mut buffer), Ok(expected.len()), "{shown}");
    expected.extend([FILLER; 40]);
    assert_eq!(buffer, expected, "{shown}");
}

/// The text fails in this row, in a long buffer as in an empty one.
fn refuses(text: &[u8], row: usize) {
    let mut buffer = [FILLER; 200];
    let (shown, refusal) = (text.escape_ascii(), Err(at_row(row)));
    assert_eq!(import(text, &mut buffer), refusal, "{shown}");
    assert_eq!(buffer, [FILLER; 200], "{shown}");
    assert_eq!(import(text, &mut []), refusal, "{shown}");
}

#[test]
fn a_row_becomes_32_bytes() {
    let mut buffer = [FILLER; 33];
    assert_eq!(import(b",0,9,63\r\n5,1,1,1\r\n", &mut buffer), Ok(32));
    let record = [
        2, 5, 0, 0, 0, 0, 0, 0, // kind and role
        0x01, 0x02, 0, 0, 0, 0, 0, 0x80, // {0, 9, 63}
        0, 0, 0, 0, 0, 0, 0, 0, //
        0, 0, 0, 0, 0, 0, 0, 0, //
    ];
    assert_eq!((&buffer[..32], buffer[32]), (&record[..], FILLER));
}

#[test]
fn rows_become_calls_in_their_order() {
    accepts(b",3\r\n7,1\r\n6,0\r\n", &[(7, &[3]), (6, &[])]);
    accepts(b",0,1,4\r\n2,1,1,0\r\n3,0,0,1", &[(2, &[0, 1]), (3, &[4])]);
    accepts(
        b",10,20\r\n63,0,1\r\n10,1,0\r\n",
        &[(63, &[20]), (10, &[10])],
    );
}

#[test]
fn end_roles_and_repeated_roles_are_records() {
    accepts(b",5\r\n0,1\r\n1,1\r\n", &[(0, &[5]), (1, &[5])]);
    accepts(b",5\r\n9,1\r\n9,1\r\n", &[(9, &[5]), (9, &[5])]);
}

#[test]
fn fields_may_be_quoted() {
    accepts(b"\"\",\"5\"\r\n\"9\",\"1\"\r\n", &[(9, &[5])]);
    accepts(b"\"\",5,6\r\n\"9\",0,\"1\"", &[(9, &[6])]);
    accepts(b",\"5\"", &[]);
}

#[test]
fn a_heading_alone_gives_an_empty_tape() {
    accepts(b",5", &[]);
    accepts(b",5\r\n", &[]);
    assert_eq!(import(b",5\r\n", &mut []), Ok(0));
}

#[test]
fn all_64_columns_are_one_set() {
    let numbers: Vec<u8> = (0..64).collect();
    let columns: String = numbers.iter().map(|column| format!(",{column}")).collect();
    let text = format!(
        "{columns}\r\n2{}\r\n3{}\r\n",
        ",1".repeat(64),
        ",0".repeat(64)
    );
    accepts(text.as_bytes(), &[(2, &numbers), (3, &[])]);
    refuses(
        format!("{columns},64\r\n2{}", ",1".repeat(65)).as_bytes(),
        1,
    );
}

const WRONG_HEADINGS: &[&[u8]] = &[
    b"",
    b"\"\"",
    b"\r\n",
    b",",
    b",\"\"",
    b"5",
    b"0,5",
    b" ,5",
    b"\" \",5",
    b"\"\"\"\",5",
    b",5,5",
    b",6,5",
    b",64",
    b",05",
    b",00",
    b",+5",
    b",-0",
    b", 5",
    b",5 ",
    b",5,",
    b",\"5\"\"\"",
    b",\xB5",
];

#[test]
fn a_wrong_heading_fails_in_row_1() {
    for heading in WRONG_HEADINGS.iter().copied() {
        refuses(heading, 1);
        refuses(&[heading, b"\r\n"].concat(), 1);
        refuses(&[heading, b"\r\n2,1\r\n"].concat(), 1);
    }
}

const WRONG_ROWS: &[&[u8]] = &[
    b",1",
    b"\"\",1",
    b"64,1",
    b"02,1",
    b"002,1",
    b"256,1",
    b"258,1",
    b"18446744073709551618,1",
    b"+2,1",
    b"-2,1",
    b" 2,1",
    b"2 ,1",
    b"2, 1",
    b"2,1 ",
    b"\" 2\",1",
    b"\"2\" ,1",
    b"2;1",
    b"2,2",
    b"2,00",
    b"2,01",
    b"2,",
    b"2,\"\"",
    b"2,10",
    b"2,x",
    b"2",
    b"2,1,1",
    b"2,1,",
    b"",
    b"\"\"\"2\",1",
    b"\"2,1",
    b"2,\"1",
    b"2,\"1\"1",
    b"2\0,1",
    b"\xEF\xBC\x92,1",
];

#[test]
fn a_wrong_row_fails_at_its_place() {
    for row in WRONG_ROWS.iter().copied() {
        refuses(&[b",5\r\n", row, b"\r\n2,1"].concat(), 2);
        refuses(&[b",5\r\n2,1\r\n3,0\r\n", row, b"\r\n2,1\r\n"].concat(), 4);
        refuses(&[b",5\r\n2,1\r\n", row, b"\r\n"].concat(), 3);
    }
}

#[test]
fn only_cr_lf_ends_a_line() {
    refuses(b",5\n2,1\n", 1);
    refuses(b",5\r2,1\r", 1);
    refuses(b",5\n\r2,1", 1);
    refuses(b",5\r\n2,1\n3,1\r\n", 2);
    refuses(b",5\r\n2,1\n", 2);
    refuses(b",5\r\n2,1\r", 2);
    refuses(b",5\r\n2,1\r\r\n", 2);
    refuses(b",5\r\n\"2\r\n\",1\r\n", 2);
    refuses(b",5\r\n2,1\r\n\n", 3);
}

#[test]
fn a_second_line_end_is_an_empty_row() {
    refuses(b",5\r\n\r\n", 2);
    refuses(b",5\r\n2,1\r\n\r\n", 3);
    refuses(b",5\r\n\r\n2,1\r\n", 2);
    refuses(b",5\r\n2,1\r\n\r\n\r\n", 3);
}

/// A quote that stays open takes in all rows behind it.
#[test]
fn the_first_wrong_row_is_the_place() {
    refuses(b",5\r\n2,1\r\n3,2\r\n4,2\r\n", 3);
    refuses(b",5\r\n2,1\r\n3,\"1\r\n4,1\r\n5,1\r\n", 3);
    refuses(b",5,4\r\n2,2\r\n", 1);
    let rows = [&b",5\r\n"[..], &b"2,1\r\n".repeat(70_000)].concat();
    refuses(&[&rows[..], b"2"].concat(), 70_002);
    refuses(&[&rows[..5 * 255 + 4], b"2,2"].concat(), 257);
}

#[test]
fn a_short_buffer_is_refused_after_the_whole_text() {
    let text = b",5\r\n2,1\r\n3,1\r\n";
    let mut buffer = [FILLER; 64];
    assert_eq!(import(text, &mut buffer[..63]), Err(SHORT));
    assert_eq!(import(text, &mut buffer[..32]), Err(SHORT));
    assert_eq!(import(text, &mut []), Err(SHORT));
    assert_eq!(buffer, [FILLER; 64]);
    assert_eq!(import(text, &mut buffer), Ok(64));
    refuses(b",5\r\n2,1\r\n3,1\r\n4,", 4);
}

/// The examples of RFC 4180, section 2.
#[test]
fn a_text_is_split_by_the_rfc() {
    let fields = |contents: [&[u8]; 3]| -> Fields { contents.map(<[u8]>::to_vec).to_vec() };
    let (plain, other) = (
        fields([b"aaa", b"bbb", b"ccc"]),
        fields([b"zzz", b"yyy", b"xxx"]),
    );
    for text in [
        &b"aaa,bbb,ccc\r\nzzz,yyy,xxx\r\n"[..],
        b"\"aaa\",\"bbb\",\"ccc\"\r\nzzz,yyy,xxx",
    ] {
        assert_eq!(split(text).rows, [plain.clone(), other.clone()]);
        assert!(split(text).whole);
    }
    let broken = split(b"\"aaa\",\"b\r\nbb\",\"ccc\"\r\nzzz,yyy,xxx");
    assert_eq!(broken.rows, [fields([b"aaa", b"b\r\nbb", b"ccc"]), other]);
    let doubled = split(b"\"aaa\",\"b\"\"bb\",\"ccc\"");
    assert_eq!(doubled.rows, [fields([b"aaa", b"b\"bb", b"ccc"])]);
}

// ---- the driver ----

#[test]
fn reference_agrees_with_itself() {
    let seen = run(printed_seed(), TEXTS, &import);
    let seen: Seen = seen.unwrap_or_else(|failure| panic!("{failure}"));
    println!("{seen}");
    assert!(seen.texts >= TEXTS);
}

#[test]
fn a_short_run_does_not_see_all() {
    let failure = run(1, 10, &import).expect_err("ten texts see too little");
    let Failure::Unseen { missing, .. } = failure else {
        panic!("{failure}");
    };
    let unseen = "sheet of 64 columns".to_string();
    assert!(missing.contains(&unseen), "{missing:?}");
}

#[test]
fn a_run_should_see_each_refusal_and_each_damage() {
    let missing = Seen::default().missing();
    let wanted = "accepted, exact buffer|33, buffer one byte short|33, empty buffer|32 in row 1|\
        32 in row 2|32 further down|32 above row 255|32 above row 65,535|32 before 33|\
        sheet without rows|sheet of thousands of rows|sheet of 64 columns|\
        role 0|role 1|role repeated|played, all accepted|played, some refused|\
        all quoted|empty field quoted|no last line end|heading alone|heading alone, no line end|\
        bare LF in row 1|bare LF behind row 1|bare CR in row 1|bare CR behind row 1|\
        open quote in row 1|open quote behind row 1|doubled quote|text behind a closing quote|\
        leading zero in row 1|leading zero behind row 1|column 64|role 64|\
        more digits or above 64|sign|space|number left empty|mark 2|mark 00 or 01|\
        too few fields|too many fields|empty row in the middle|empty row at the end|\
        heading without a privilege|heading's first field not empty|\
        columns equal|columns descending|empty text|arbitrary bytes|non-ASCII byte|NUL";
    for unseen in wanted.split('|') {
        assert!(missing.iter().any(|text| text == unseen), "{unseen}");
    }
}

// ---- broken importers ----

type Broken = fn(&[u8], &mut [u8]) -> Imported;

/// The driver's shrunk text, found among at least so many random ones or the
/// short or long ones.
fn caught(texts: usize, name: &str, broken: Broken) -> Vec<u8> {
    let failure = run(printed_seed(), texts, &broken).expect_err(name);
    println!("{name}: {failure}");
    match failure {
        Failure::Differs { text, .. } => text,
        Failure::Unseen { .. } => panic!("no difference is found"),
    }
}

/// Each is caught, with a text that is easily read.
fn all_caught(importers: &[(&str, Broken)]) {
    for (name, broken) in importers {
        let text = caught(TEXTS, name, *broken);
        assert!(text.len() <= 500, "{name}: {}", text.escape_ascii());
    }
}

/// Imports with each row of fields changed. A text that isn't split whole
/// stays as it is.
fn import_changed(text: &[u8], buffer: &mut [u8], change: fn(&mut Fields)) -> Imported {
    let mut split = split(text);
    if !split.whole {
        return import(text, buffer);
    }
    split.rows.iter_mut().for_each(change);
    let quoted = |field: &Vec<u8>| [b"\"", &replaced(field, b"\"", b"\"\"")[..], b"\""].concat();
    let row = |fields: &Fields| fields.iter().map(quoted).collect::<Vec<_>>().join(&b',');
    let rows: Vec<Vec<u8>> = split.rows.iter().map(row).collect();
    import(&rows.join(&b"\r\n"[..]), buffer)
}

/// Writes another tape of the sheet.
fn write_other(text: &[u8], buffer: &mut [u8], change: fn(&mut Sheet)) -> Imported {
    let tape = read(text).map(|mut sheet| {
        change(&mut sheet);
        sheet.tape()
    });
    write(tape.as_deref().map_err(|row| *row), buffer)
}

/// Imports, and refuses with another place.
fn import_misplaced(text: &[u8], buffer: &mut [u8], change: fn(usize) -> usize) -> Imported {
    import(text, buffer).map_err(|refused| match refused.number {
        32 => at_row(change(refused.place)),
        _ => refused,
    })
}

/// The text with each of these bytes replaced.
fn replaced(text: &[u8], from: &[u8], to: &[u8]) -> Vec<u8> {
    let mut changed = Vec::new();
    let mut rest = text;
    while !rest.is_empty() {
        match rest.strip_prefix(from) {
            Some(behind) => {
                changed.extend(to);
                rest = behind;
            }
            None => {
                changed.push(rest[0]);
                rest = &rest[1..];
            }
        }
    }
    changed
}

#[test]
fn catches_wrong_tapes() {
    all_caught(&[
        ("columns in reverse", |text, buffer| {
            write_other(text, buffer, |sheet| sheet.columns.reverse())
        }),
        ("marks inverted", |text, buffer| {
            write_other(text, buffer, |sheet| {
                let marks = sheet.rows.iter_mut().flat_map(|row| &mut row.marks);
                marks.for_each(|mark| *mark = !*mark);
            })
        }),
        ("rows in reverse", |text, buffer| {
            write_other(text, buffer, |sheet| sheet.rows.reverse())
        }),
        ("end roles left out", |text, buffer| {
            write_other(text, buffer, |sheet| sheet.rows.retain(|row| row.role > 1))
        }),
        ("repeated roles left out", |text, buffer| {
            write_other(text, buffer, |sheet| {
                sheet.rows.dedup_by_key(|row| row.role)
            })
        }),
        ("rows without a 1 left out", |text, buffer| {
            write_other(text, buffer, |sheet| {
                sheet.rows.retain(|row| row.marks.contains(&true))
            })
        }),
        ("the column's place for its privilege", |text, buffer| {
            write_other(text, buffer, |sheet| {
                sheet.columns = (0..sheet.columns.len() as u8).collect()
            })
        }),
        ("privileges from 32 on left out", |text, buffer| {
            write_other(text, buffer, |sheet| {
                let marks = sheet.rows.iter_mut().flat_map(|row| {
                    let columns = sheet.columns.iter().zip(&mut row.marks);
                    columns.filter(|(column, _)| **column >= 32)
                });
                marks.for_each(|(_, mark)| *mark = false);
            })
        }),
        ("another kind", |text, buffer| {
            let imported = import(text, buffer)?;
            let records = buffer[..imported].chunks_mut(RECORD_LENGTH);
            records.for_each(|record| record[0] = 1);
            Ok(imported)
        }),
    ]);
}

#[test]
fn catches_wrong_rows() {
    all_caught(&[
        ("row counted from 0", |text, buffer| {
            import_misplaced(text, buffer, |row| row - 1)
        }),
        ("heading not counted", |text, buffer| {
            import_misplaced(text, buffer, |row| row.max(2) - 1)
        }),
        ("row after the wrong one", |text, buffer| {
            import_misplaced(text, buffer, |row| row + 1)
        }),
        ("last row for the first", |text, buffer| {
            let rows = text.split(|byte| *byte == b'\n').count();
            import(text, buffer).map_err(|refused| match refused.number {
                32 => at_row(rows.max(refused.place)),
                _ => refused,
            })
        }),
    ]);
}

#[test]
fn catches_narrow_rows() {
    let text = caught(TEXTS, "row in a byte", |text, buffer| {
        import_misplaced(text, buffer, |row| row as u8 as usize)
    });
    assert_eq!(read(&text), Err(256));
    let text = caught(0, "row in two bytes", |text, buffer| {
        import_misplaced(text, buffer, |row| row as u16 as usize)
    });
    assert_eq!(read(&text), Err(65_536));
}

#[test]
fn catches_faults_around_buffers() {
    all_caught(&[
        ("33 before 32", |text, buffer| {
            import(text, buffer).map_err(|refused| {
                let good = refused.place.saturating_sub(2) * RECORD_LENGTH;
                if buffer.len() < good {
                    SHORT
                } else {
                    refused
                }
            })
        }),
        ("written up to the wrong row", |text, buffer| {
            import(text, buffer).inspect_err(|refused| {
                let good = refused.place.saturating_sub(2) * RECORD_LENGTH;
                let length = good.min(buffer.len());
                buffer[..length].fill(0);
            })
        }),
        ("written as far as the buffer goes", |text, buffer| {
            import(text, buffer).inspect_err(|refused| {
                if refused.number == 33 {
                    buffer.fill(0);
                }
            })
        }),
        ("cleared behind the tape", |text, buffer| {
            let length = import(text, buffer)?;
            buffer[length..].fill(0);
            Ok(length)
        }),
        ("exact buffer refused", |text, buffer| match read(text) {
            Ok(sheet) if sheet.tape().len() == buffer.len() => Err(SHORT),
            _ => import(text, buffer),
        }),
        ("records for a length", |text, buffer| {
            import(text, buffer).map(|length| length / RECORD_LENGTH)
        }),
        ("33 with a row", |text, buffer| {
            import(text, buffer).map_err(|refused| match refused.number {
                33 => Refused {
                    number: 33,
                    place: 1,
                },
                _ => refused,
            })
        }),
    ]);
}

#[test]
fn catches_wrong_line_ends() {
    all_caught(&[
        ("last line end needed", |text, buffer| match read(text) {
            Ok(sheet) if !text.ends_with(b"\r\n") => Err(at_row(sheet.rows.len() + 1)),
            _ => import(text, buffer),
        }),
        ("last line end refused", |text, buffer| match read(text) {
            Ok(sheet) if text.ends_with(b"\r\n") => Err(at_row(sheet.rows.len() + 2)),
            _ => import(text, buffer),
        }),
        ("bare LF taken", |text, buffer| {
            let text = replaced(text, b"\r\n", b"\n");
            import(&replaced(&text, b"\n", b"\r\n"), buffer)
        }),
        ("bare CR taken", |text, buffer| {
            let text = replaced(text, b"\r\n", b"\r");
            import(&replaced(&text, b"\r", b"\r\n"), buffer)
        }),
        ("empty last row taken", |text, buffer| {
            let text = text.strip_suffix(b"\r\n\r\n").unwrap_or(text);
            import(text, buffer)
        }),
        ("empty rows taken", |text, buffer| {
            import(&replaced(text, b"\r\n\r\n", b"\r\n"), buffer)
        }),
        ("text ended by NUL", |text, buffer| {
            let length = text.iter().position(|byte| *byte == 0);
            import(&text[..length.unwrap_or(text.len())], buffer)
        }),
    ]);
}

#[test]
fn catches_wrong_fields() {
    all_caught(&[
        ("quotes refused", |text, buffer| {
            match text.iter().position(|byte| *byte == b'"') {
                Some(at) if read(text).is_ok() => {
                    let before = text[..at].iter().filter(|byte| **byte == b'\n');
                    Err(at_row(before.count() + 1))
                }
                _ => import(text, buffer),
            }
        }),
        ("quotes passed over", |text, buffer| {
            import(&replaced(text, b"\"", b""), buffer)
        }),
        ("doubled quotes passed over", |text, buffer| {
            import_changed(text, buffer, |fields| {
                let contents = fields.iter_mut();
                contents.for_each(|content| content.retain(|byte| *byte != b'"'));
            })
        }),
        ("leading zeros taken", |text, buffer| {
            import_changed(text, buffer, |fields| {
                for content in fields {
                    while content.len() > 1 && content[0] == b'0' {
                        content.remove(0);
                    }
                }
            })
        }),
        ("spaces taken", |text, buffer| {
            import(&replaced(text, b" ", b""), buffer)
        }),
        ("plus signs taken", |text, buffer| {
            import(&replaced(text, b"+", b""), buffer)
        }),
        ("highest bits passed over", |text, buffer| {
            let low: Vec<u8> = text.iter().map(|byte| byte & 0x7F).collect();
            import(&low, buffer)
        }),
        ("64 taken", |text, buffer| {
            import_changed(text, buffer, |fields| {
                for content in fields {
                    if content == b"64" {
                        *content = b"63".to_vec();
                    }
                }
            })
        }),
        ("numbers in a byte", |text, buffer| {
            import_changed(text, buffer, |fields| {
                for content in fields {
                    let number = std::str::from_utf8(content).ok();
                    let number = number.and_then(|text| text.parse::<u128>().ok());
                    if let Some(number @ 256..) = number {
                        *content = (number as u8).to_string().into_bytes();
                    }
                }
            })
        }),
        ("empty number as 0", |text, buffer| {
            import_changed(text, buffer, |fields| {
                for content in fields.iter_mut().skip(1) {
                    if content.is_empty() {
                        *content = b"0".to_vec();
                    }
                }
            })
        }),
        ("mark above 1 as 1", |text, buffer| {
            import_changed(text, buffer, |fields| {
                if fields[0].is_empty() {
                    return;
                }
                for content in &mut fields[1..] {
                    if content == b"2" {
                        *content = b"1".to_vec();
                    }
                }
            })
        }),
    ]);
}

#[test]
fn catches_wrong_headings() {
    all_caught(&[
        ("empty text taken", |text, buffer| {
            if text.is_empty() {
                return Ok(0);
            }
            import(text, buffer)
        }),
        ("heading alone refused", |text, buffer| match read(text) {
            Ok(sheet) if sheet.rows.is_empty() => Err(at_row(2)),
            _ => import(text, buffer),
        }),
        (
            "heading without a privilege taken",
            |text, buffer| match text {
                b"\r\n" | b"\"\"" => Ok(0),
                _ => import(text, buffer),
            },
        ),
        ("any first field taken", |text, buffer| {
            let Some(comma) = text.iter().position(|byte| *byte == b',') else {
                return import(text, buffer);
            };
            import(&text[comma..], buffer)
        }),
        ("columns in any order taken", |text, buffer| {
            import_changed(text, buffer, |fields| {
                if fields[0].is_empty() {
                    fields.sort_by_key(|content| (content.len(), content.clone()));
                }
            })
        }),
        ("repeated columns taken", |text, buffer| {
            import_changed(text, buffer, |fields| {
                if fields[0].is_empty() {
                    fields.dedup();
                }
            })
        }),
        ("further fields passed over", |text, buffer| {
            import_changed(text, buffer, |fields| {
                if fields.len() == 3 && !fields[0].is_empty() {
                    fields.pop();
                }
            })
        }),
    ]);
}

#[test]
fn catches_a_panic() {
    let text = caught(TEXTS, "panics at 33", |text, buffer| {
        let imported = import(text, buffer);
        assert!(imported != Err(SHORT), "the fault of this importer");
        imported
    });
    assert!(text.len() <= 10, "{}", text.escape_ascii());
}
