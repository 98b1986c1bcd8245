//! The text form: every kind both ways, what a hand writes, and wrong lines.

#[allow(dead_code)]
mod common;

use common::{Folder, SAMPLE};

/// The tape of a text.
fn written(text: &str) -> Vec<u8> {
    let ran = Folder::new().given(&["tape", "write"], text.as_bytes());
    assert_eq!((ran.status, ran.errors.as_str()), (0, ""), "{text}");
    ran.output
}

/// The text of a tape.
fn read(tape: &[u8]) -> String {
    let ran = Folder::new().given(&["tape", "read"], tape);
    assert_eq!((ran.status, ran.errors.as_str()), (0, ""));
    ran.text().to_string()
}

/// A record: its first bytes, then its sets.
fn record(front: &[u8], sets: [u64; 3]) -> Vec<u8> {
    let mut bytes = front.to_vec();
    bytes.resize(8, 0);
    bytes.extend(sets.iter().flat_map(|set| set.to_le_bytes()));
    bytes
}

/// A record of no set.
fn short(kind: u8, a: u8, b: u8) -> Vec<u8> {
    record(&[kind, a, b], [0; 3])
}

/// Every kind: its line as reading writes it, and its bytes.
fn kinds() -> Vec<(&'static str, Vec<u8>)> {
    vec![
        (
            "add 5 holds {1,2} over {3,4} under {8}",
            record(&[1, 5], [0b110, 0b11000, 1 << 8]),
        ),
        ("add 5", record(&[1, 5], [0; 3])),
        ("add 5 under {63}", record(&[1, 5], [0, 0, 1 << 63])),
        (
            "add 0 holds {0..63} over {0,1}",
            record(&[1, 0], [u64::MAX, 3, 0]),
        ),
        ("role 5 {1,2,4}", record(&[2, 5], [0b10110, 0, 0])),
        ("role 255 {}", short(2, 255, 0)),
        ("role 9 {1..8,11}", record(&[2, 9], [0b100111111110, 0, 0])),
        ("remove 5", short(3, 5, 0)),
        ("remove 5 keep", short(3, 5, 1)),
        ("grant 9 to 5", short(4, 5, 9)),
        ("withdraw 9 from 5", short(5, 5, 9)),
        ("edge 4 to 8", short(6, 4, 8)),
        ("unedge 4 to 8", short(7, 4, 8)),
        ("conflict 9 11", short(8, 9, 11)),
        ("lift 9 11", short(9, 9, 11)),
        ("seat 5 gets 3", short(10, 5, 3)),
        ("seat 5 loses 3", short(11, 5, 3)),
        ("ask seat 5 for 1", short(12, 5, 1)),
        ("exclude 3 4", short(13, 3, 4)),
        ("seat 5 switches on 3", short(14, 5, 3)),
        ("seat 5 switches off 3", short(15, 5, 3)),
        ("grant 255 to 64", short(4, 64, 255)),
    ]
}

#[test]
fn every_kind_both_ways() {
    for (line, bytes) in kinds() {
        assert_eq!(written(line), bytes, "{line}");
        assert_eq!(read(&bytes), format!("{line}\n"));
    }
    let mut found: Vec<u8> = kinds().iter().map(|(_, bytes)| bytes[0]).collect();
    found.dedup();
    assert_eq!(found[..15], (1..=15).collect::<Vec<u8>>());
}

#[test]
fn the_help_and_the_reference_have_every_kind() {
    let help = Folder::new().run(&["help", "tape"]);
    let reference = include_str!("../../docs/REFERENCE.md");
    for text in [help.text(), reference] {
        let shown: Vec<&str> = text
            .lines()
            .filter_map(|line| {
                line.trim_start()
                    .split_once("   ")
                    .filter(|(_, rest)| rest.trim_start().starts_with("kind "))
            })
            .map(|(form, _)| form)
            .collect();
        let mut found: Vec<u8> = shown.iter().map(|form| written(form)[0]).collect();
        found.dedup();
        assert_eq!(found, (1..=15).collect::<Vec<u8>>());
    }
}

#[test]
fn the_sample_is_document_01s() {
    let tape = [
        record(&[2, 2], [1, 0, 0]),
        record(&[2, 3], [3, 0, 0]),
        short(8, 0, 2),
        short(10, 5, 3),
        short(4, 2, 2),
        short(12, 5, 1),
    ];
    assert_eq!(written(SAMPLE), tape.concat());
    assert_eq!(read(&tape.concat()), SAMPLE);
}

#[test]
fn what_a_hand_writes() {
    let text = "# roles\n\n  role 5{ 1 , 2..4 } # four\r\n\tadd 6   over 5 , 7 under 8,8,9\nremove 007 keep#\n";
    let tape = [
        record(&[2, 5], [0b11110, 0, 0]),
        record(&[1, 6], [0, 0b10100000, 0b1100000000]),
        short(3, 7, 1),
    ];
    assert_eq!(written(text), tape.concat());
    let braces = "add 6 holds {} over { 5,7 } under {8..9}";
    assert_eq!(written(braces), tape[1]);
    assert_eq!(written("role 5 1..4"), tape[0]);
    assert_eq!(written("role 5 {1 .. 4}"), tape[0]);
    assert_eq!(written("\u{FEFF}role 5 1..4"), tape[0]);
    assert!(written("").is_empty() && written("# nothing").is_empty());
}

/// Numbers that look random and are the same in every run.
fn noise(seed: u64) -> impl FnMut(u64) -> u64 {
    let mut state = seed;
    move |below| {
        state = state
            .wrapping_mul(6364136223846793005)
            .wrapping_add(1442695040888963407);
        (state >> 33) % below
    }
}

#[test]
fn reading_and_writing_gives_the_tape_again() {
    let mut noise = noise(7);
    let mut tape = kinds()
        .into_iter()
        .flat_map(|(_, bytes)| bytes)
        .collect::<Vec<u8>>();
    for _ in 0..3000 {
        let mut bytes = short(noise(17) as u8, noise(70) as u8, noise(70) as u8);
        for _ in 0..[0, 0, 1, 2, 8][noise(5) as usize] {
            bytes[noise(32) as usize] = [0, 1, 255, noise(256) as u8][noise(4) as usize];
        }
        tape.extend(bytes);
    }
    for end in 0..32 {
        let given = &tape[..tape.len() - end];
        let text = read(given);
        assert_eq!(written(&text), given);
        assert_eq!(text.lines().count(), given.len().div_ceil(32));
    }
}

/// A wrong line, what is said of it, and the place of the mark under it.
const WRONG: [(&str, &str, usize); 42] = [
    (
        "fly 5",
        "no record starts with 'fly'; a line starts with add, role,",
        0,
    ),
    ("{1}", "no record starts with '{'", 0),
    (
        "grant 9 5",
        "expected 'to', as in 'grant PRIVILEGE to ROLE'",
        8,
    ),
    ("grant 9 to", "the role's number is missing", 10),
    (
        "grant to 5",
        "expected the privilege's number, but 'to' stands here",
        6,
    ),
    ("grant 9 to 5 now", "the record ends before 'now'", 13),
    (
        "seat 5 has 3",
        "expected 'gets', 'loses' or 'switches', as in 'seat SEAT gets ROLE', 'seat SEAT loses ROLE', 'seat SEAT switches on ROLE' or 'seat SEAT switches off ROLE'",
        7,
    ),
    (
        "seat 5 switches 3",
        "expected 'on' or 'off', as in 'seat SEAT switches on ROLE' or 'seat SEAT switches off ROLE'",
        16,
    ),
    ("seat 5 switches on", "the role's number is missing", 18),
    (
        "exclude 3 and 4",
        "expected the role's number, but 'and' stands here",
        10,
    ),
    (
        "ask 5 for 1",
        "expected 'seat', as in 'ask seat SEAT for PRIVILEGE'",
        4,
    ),
    (
        "ask seat 5",
        "expected 'for', as in 'ask seat SEAT for PRIVILEGE'",
        10,
    ),
    (
        "conflict 9,11",
        "expected the privilege's number, but ',' stands here",
        10,
    ),
    ("conflict 9", "the privilege's number is missing", 10),
    ("grant 256 to 5", "'256' is not a number from 0 to 255", 6),
    (
        "grant 99999999999999999999 to 5",
        "'99999999999999999999' is not a number from 0 to 255",
        6,
    ),
    (
        "grant -1 to 5",
        "expected the privilege's number, but '-1' stands here",
        6,
    ),
    (
        "grant ٣ to 5",
        "expected the privilege's number, but '٣' stands here",
        6,
    ),
    (
        "role 5 {64}",
        "'64' is not a member of a set, a number from 0 to 63",
        8,
    ),
    ("role 5 {1,}", "a member is missing before this '}'", 10),
    ("role 5 {,1}", "a member is missing before this ','", 8),
    ("role 5 {1,,2}", "a member is missing before this ','", 10),
    ("role 5 {1,2", "a '}' is missing here", 11),
    ("role 5 {1,2 # open", "a '}' is missing here", 11),
    ("role 5 {", "a '}' is missing here", 8),
    ("role 5 {1,", "a member is missing behind the last ','", 10),
    (
        "role 5 {1..",
        "a member is missing behind the last '..'",
        11,
    ),
    ("role 5 {..3}", "a member is missing before this '..'", 8),
    ("role 5 {3..1}", "the range 3..1 runs downwards", 11),
    ("role 5 {1 2}", "a ',' is missing before '2'", 10),
    ("role 5 1 2", "a ',' is missing before '2'", 9),
    ("role 5 1,2}", "this '}' has no '{' before it", 10),
    ("role 5 {{1}}", "a set has one '{'", 8),
    ("role 5 {1}}", "this '}' has no '{' before it", 10),
    ("role 5", "a set is missing here, as {1,2,4..7}", 6),
    (
        "role {1}",
        "expected the role's number, but '{' stands here",
        5,
    ),
    ("remove 5 keeping", "the record ends before 'keeping'", 9),
    ("add 5 holds {1,2 over {3}", "a '}' is missing here", 17),
    (
        "add 5 over 1 holds 2",
        "'holds' stands once, in the order holds, over, under",
        13,
    ),
    (
        "add 5 with 1",
        "expected 'holds', 'over' or 'under' and a set, but 'with' stands here",
        6,
    ),
    (
        "bytes 012",
        "expected 1 to 32 bytes in base sixteen, two digits each",
        6,
    ),
    (
        "bytes",
        "expected 1 to 32 bytes in base sixteen, two digits each",
        5,
    ),
];

#[test]
fn a_wrong_line_is_shown_with_its_place() {
    for (line, said, column) in WRONG {
        let text = format!("remove 5\n\n{line}\nremove 5\n");
        let ran = Folder::new().given(&["tape", "write"], text.as_bytes());
        ran.fails(&format!("line 3: {said}"));
        let lines: Vec<&str> = ran.errors.lines().collect();
        assert_eq!(lines.len(), 3, "{}", ran.errors);
        assert_eq!(lines[1], format!("    {line}"));
        assert_eq!(lines[2], format!("    {:column$}^", ""), "{line}");
    }
}

#[test]
fn all_wrong_lines_are_named_up_to_twenty() {
    let ran = Folder::new().given(&["tape", "write"], b"remove 5\nfly\n\nbytes x\n\xff\n");
    ran.fails("line 2: ");
    assert!(ran.errors.contains("\nline 4: ") && ran.errors.contains("\nline 5: "));
    let ran = Folder::new().given(&["tape", "write"], "fly\n".repeat(50).as_bytes());
    ran.fails("\nline 20: ");
    assert!(
        ran.errors.ends_with("\nand 30 more wrong lines\n"),
        "{}",
        ran.errors
    );
}

#[test]
fn a_partial_record_stands_last() {
    assert_eq!(written("bytes 01\n\n# the end\n"), [1]);
    let ran = Folder::new().given(&["tape", "write"], b"bytes 01\nremove 5\n");
    ran.fails("line 2: a record stands behind line 1, which has fewer than 32 bytes");
}

/// Whatever is given, the command ends with a tape or with a message.
#[test]
fn any_bytes_get_a_tape_or_a_message() {
    let mut noise = noise(11);
    let pieces = [
        "role", "add", "5", "{", "}", ",", "..", ".", "holds", "#", "\n", "\t", " ", "\u{0}",
        "bytes", "é", "64", "grant", "to", "keep", "\r",
    ];
    let folder = Folder::new();
    for round in 0..400 {
        let mut given = Vec::new();
        for _ in 0..noise(12) {
            match round % 4 {
                0 => given.push(noise(256) as u8),
                _ => given.extend(pieces[noise(pieces.len() as u64) as usize].as_bytes()),
            }
        }
        let ran = folder.given(&["tape", "write"], &given);
        assert!(matches!(ran.status, 0 | 2), "{given:?}: {ran:?}");
        assert!(
            ran.status == 0 || ran.errors.starts_with("keeper: line "),
            "{given:?}: {ran:?}"
        );
    }
    let long = [b"role 5 {".to_vec(), b"1,".repeat(1_000_000)].concat();
    let ran = folder.given(&["tape", "write"], &long);
    ran.fails("line 1: a member is missing behind the last ','");
    assert!(ran.errors.len() < 1000);
}
