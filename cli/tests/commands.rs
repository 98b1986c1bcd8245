//! The commands new, apply, ask, who and show, and wrong usage.

#[allow(dead_code)]
mod common;

use common::{Folder, SAMPLE, SAVED};

/// A folder with the sample's image.
fn sample() -> Folder {
    let folder = Folder::new();
    folder.write("sample", SAVED);
    folder
}

/// Gives lines to a fresh image; the lines of the answers, without the last, which counts them, and one before it on what is
/// not kept.
fn answers(lines: &str) -> Vec<String> {
    let folder = Folder::new();
    folder.run(&["new", "image"]).is(0, "");
    let ran = folder.given(&["apply", "image", "-"], lines.as_bytes());
    let mut said: Vec<String> = ran.text().lines().map(str::to_string).collect();
    let end = said.pop().expect("a last line");
    said.retain(|line| !line.starts_with("not kept in the file: "));
    let refused = said
        .iter()
        .filter(|line| line.contains(": refused with "))
        .count();
    assert!(
        end.starts_with(&format!(
            "{} accepted, {refused} refused; ",
            said.len() - refused
        )),
        "{end}"
    );
    assert_eq!(ran.status, i32::from(refused > 0));
    said
}

/// The answer to the last of the lines.
fn last(lines: &str) -> String {
    let said = answers(lines).pop().expect("a line");
    let text = lines.trim_end().lines().last().expect("a line");
    let line = lines.trim_end().lines().count();
    let front = format!("line {line}: {text}: ");
    said.strip_prefix(&front)
        .unwrap_or_else(|| panic!("{said} lacks {front}"))
        .to_string()
}

// ---- apply ----

#[test]
fn the_sample_becomes_its_image() {
    let folder = Folder::new();
    folder.run(&["new", "image"]).is(0, "");
    assert_eq!(folder.read("image").len(), 16);
    let ran = folder.given(&["apply", "image", "-"], SAMPLE.as_bytes());
    ran.is(
        1,
        "line 1: role 2 {0}: accepted\n\
         line 2: role 3 {0,1}: accepted\n\
         line 3: conflict 0 2: accepted\n\
         line 4: seat 5 gets 3: accepted\n\
         line 5: grant 2 to 2: refused with 29, place 2: role 2 would hold 0 and 2, which are in conflict\n\
         line 6: ask seat 5 for 1: yes\n\
         5 accepted, 1 refused; the file is replaced\n",
    );
    assert_eq!(folder.read("image"), SAVED);
    assert_eq!(folder.names(), ["image"]);
}

#[test]
fn a_tape_is_taken_as_its_text_is() {
    let folder = Folder::new();
    folder.run(&["new", "image"]).is(0, "");
    let tape = folder.given(&["tape", "write"], SAMPLE.as_bytes());
    folder.write("tape", &tape.output);
    let ran = folder.run(&["apply", "--quiet", "image", "tape"]);
    ran.is(
        1,
        "record 5: grant 2 to 2: refused with 29, place 2: role 2 would hold 0 and 2, which are in conflict\n\
         5 accepted, 1 refused; the file is replaced\n",
    );
    assert_eq!(folder.read("image"), SAVED);
    folder.write("tape", [2]);
    folder
        .run(&["apply", "image", "tape"])
        .fails("no record starts with");
    let ran = folder.run(&["apply", "--tape", "image", "tape"]);
    ran.is(
        1,
        "record 1: bytes 02: refused with 1, place 0: it has 1 bytes, and a record has 32\n\
         0 accepted, 1 refused; the file is as it was\n",
    );
}

#[test]
fn the_file_stays_as_it_was_where_that_is_asked_for() {
    let folder = Folder::new();
    folder.run(&["new", "image"]).is(0, "");
    for option in ["--dry-run", "--all-or-none"] {
        let ran = folder.given(&["apply", option, "image", "-"], SAMPLE.as_bytes());
        assert_eq!(ran.status, 1);
        assert!(ran
            .text()
            .ends_with("5 accepted, 1 refused; the file is as it was\n"));
        assert_eq!(folder.read("image").len(), 16);
    }
    let accepted = SAMPLE.replace("grant 2 to 2\n", "");
    let ran = folder.given(
        &["apply", "--all-or-none", "--quiet", "image", "-"],
        accepted.as_bytes(),
    );
    ran.is(0, "5 accepted, 0 refused; the file is replaced\n");
    assert_eq!(folder.read("image"), SAVED);
}

#[test]
fn an_asks_no_is_no_refusal() {
    assert_eq!(
        answers("ask seat 5 for 1\n"),
        ["line 1: ask seat 5 for 1: no"]
    );
    assert!(answers("# nothing\n\n").is_empty());
}

/// What an image does not keep is said in one line, and the file is replaced for what it keeps alone.
#[test]
fn what_is_not_kept_is_said() {
    let folder = Folder::new();
    folder.run(&["new", "image"]).is(0, "");
    let desk = b"role 2 {0}\nrole 3 {1}\nseat 5 gets 2\nexclude 2 3\nseat 5 switches on 2\n";
    folder.given(&["apply", "--quiet", "image", "-"], desk).is(
        0,
        "not kept in the file: 1 pair of roles that exclude each other, active roles of 1 seat\n\
         5 accepted, 0 refused; the file is replaced\n",
    );
    let image = folder.read("image");
    let given = |lines: &[u8]| folder.given(&["apply", "--quiet", "image", "-"], lines);
    given(b"exclude 3 2\n").is(
        0,
        "not kept in the file: 1 pair of roles that exclude each other\n\
         1 accepted, 0 refused; the file is as it was\n",
    );
    given(b"seat 5 switches on 2\nseat 6 gets 3\nseat 6 switches on 3\nseat 6 loses 3\n").is(
        0,
        "not kept in the file: active roles of 1 seat\n\
         4 accepted, 0 refused; the file is as it was\n",
    );
    given(b"seat 5 switches on 2\nseat 5 switches off 2\n")
        .is(0, "2 accepted, 0 refused; the file is as it was\n");
    assert_eq!(folder.read("image"), image);
}

/// Lines behind a small graph, and how the last of them is refused.
const REFUSED: [(&str, &str); 41] = [
    ("role 64 {1}", "2, place 64: 64 is above 63, the highest role, privilege and seat"),
    ("grant 4 to 0", "3, place 0: role 0 is MinRole, which no call names"),
    ("conflict 4 4", "4, place 4: privilege 4 cannot be in conflict with itself"),
    ("edge 4 to 4", "5, place 4: role 4 cannot be its own junior or senior"),
    ("role 5 {7}", "20, place 5: role 5 is there already"),
    ("seat 9 gets 6", "21, place 6: there is no role 6"),
    ("grant 1 to 5", "22, place 5: role 5 has privilege 1 already, from role 4, which has it from role 2, where it is direct"),
    ("edge 2 to 5", "22, place 2: role 2 lies below role 5 already"),
    ("withdraw 9 from 4", "23, place 4: role 4 does not have privilege 9"),
    ("unedge 2 to 5", "23, place 2: no edge is drawn from role 2 to role 5; it lies below by way of role 4"),
    ("lift 1 2", "23, place 1: no conflict of 1 and 2 is declared"),
    ("seat 9 loses 2", "23, place 9: seat 9 does not have role 2"),
    ("withdraw 1 from 4", "31, place 4: role 4 has privilege 1 through a junior, from role 2, where it is direct"),
    ("seat 9 gets 2\nremove 2", "24, place 9: role 2 is still assigned to seat 9"),
    ("edge 5 to 2", "25, place 5: role 2 lies below role 5, so the edge would close a circle"),
    ("add 6 over {5} under {2}", "25, place 5: role 2 would lie above junior 5, and lies below it"),
    ("role 6 {1,3,5}\nrole 7 {1,2,3,4,5}\nunedge 4 to 7", "23, place 4: no edge is drawn from role 4 to role 7; it lies below by way of roles 5 and 6"),
    ("role 6 {1,2}\nrole 7 {1..4,6}\nunedge 6 to 5", "26, place 5: without the edge role 5 would still hold all that role 6 holds"),
    ("add 6", "27, place 6: role 6 would be empty"),
    ("role 6 {2}", "28, place 3: roles 3 and 6 would hold the same privileges"),
    ("grant 2 to 2\nwithdraw 1 from 2", "28, place 2: role 2 would hold what another role holds"),
    ("conflict 3 7\ngrant 7 to 2", "29, place 4: role 4 would hold 3 and 7, which are in conflict"),
    ("conflict 1 3", "29, place 4: role 4 holds both 1 and 3"),
    ("role 6 {7}\nconflict 7 2\nedge 6 to 4", "29, place 5: role 5 would hold 2 and 7, which are in conflict"),
    ("role 6 {7}\nconflict 7 1\nseat 9 gets 6\nseat 9 gets 4", "30, place 9: seat 9 would hold 1 and 7, which are in conflict"),
    ("exclude 3 64", "2, place 64: 64 is above 63, the highest role, privilege and seat"),
    ("seat 9 switches on 1", "3, place 1: role 1 is MaxRole, which no call names"),
    ("exclude 3 3", "5, place 3: role 3 cannot exclude itself"),
    ("seat 9 switches off 6", "21, place 6: there is no role 6"),
    ("exclude 4 3\nexclude 3 4", "22, place 3: roles 3 and 4 exclude each other already"),
    ("seat 9 gets 5\nseat 9 switches on 2\nseat 9 switches on 2", "22, place 9: seat 9 has role 2 switched on already"),
    ("seat 9 gets 5\nseat 9 switches off 5", "23, place 9: seat 9 does not have role 5 switched on"),
    ("seat 9 switches on 3", "34, place 9: seat 9 has no role"),
    ("seat 9 gets 2\nseat 9 switches on 4", "34, place 9: seat 9 has role 2, which does not lie above role 4"),
    ("seat 9 gets 2\nseat 9 gets 3\nseat 9 switches on 4", "34, place 9: seat 9 has roles 2 and 3, of which none lies above role 4"),
    ("exclude 5 2", "35, place 2: role 2 lies below role 5 by way of role 4"),
    ("seat 9 gets 5\nseat 9 switches on 5\nexclude 4 3", "35, place 3: seat 9 has role 5, which lies above both, switched on"),
    ("exclude 4 3\nedge 3 to 2", "35, place 3: roles 3 and 4 exclude each other, and role 3 would lie below role 4 by way of role 2"),
    ("exclude 4 3\nseat 9 gets 5\nseat 9 switches on 3\nseat 9 switches on 4", "35, place 3: roles 3 and 4 exclude each other, and seat 9 would have roles 3 and 4 switched on"),
    ("exclude 2 3\nseat 9 gets 5\nseat 9 switches on 3\nseat 9 switches on 4", "35, place 2: roles 2 and 3 exclude each other, and seat 9 would have role 4, which lies above role 2, and role 3 switched on"),
    ("role 6 {7}\nexclude 2 3\nseat 9 gets 6\nseat 9 gets 3\nseat 9 switches on 6\nseat 9 switches on 3\nedge 2 to 6", "35, place 2: roles 2 and 3 exclude each other, and seat 9 has role 6, which would lie above role 2, and role 3 switched on"),
];

#[test]
fn a_refusal_says_what_is_wrong_and_where() {
    let graph = "role 2 {1}\nrole 3 {2}\nrole 4 {1,3}\nrole 5 {1,2,3,4}\n";
    let after = |lines: &str| last(&format!("{graph}{lines}\n"));
    for (lines, said) in REFUSED {
        assert_eq!(after(lines), format!("refused with {said}"), "{lines}");
    }
}

#[test]
fn bytes_of_no_call_say_which_byte_is_wrong() {
    let bytes = |front: &str| format!("bytes {front:0<64}");
    let cases = [
        (bytes("10"), "byte 0 is 16, and kinds are 1 to 15"),
        (
            bytes("0e0501000001"),
            "byte 5 is 1, and kind 14 leaves it zero",
        ),
        (
            bytes("030502"),
            "byte 2 is 2, and kind 3 takes 0 or 1 there",
        ),
        (
            bytes("0205000001"),
            "byte 4 is 1, and kind 2 leaves it zero",
        ),
        (bytes("020501"), "byte 2 is 1, and kind 2 leaves it zero"),
        (
            "bytes 0205".to_string(),
            "it has 2 bytes, and a record has 32",
        ),
    ];
    for (line, said) in cases {
        assert_eq!(last(&line), format!("refused with 1, place 0: {said}"));
    }
}

/// Records of every kind with small numbers, the same in every run.
fn small_records(count: usize) -> Vec<u8> {
    let mut state = 5u64;
    let mut under = |most: u64| {
        state = state
            .wrapping_mul(6364136223846793005)
            .wrapping_add(1442695040888963407);
        ((state >> 33) % most) as u8
    };
    let mut tape = Vec::new();
    for _ in 0..count {
        let mut record = [0; 32];
        record[..3].copy_from_slice(&[1 + under(15), under(12), under(12)]);
        match record[0] {
            1 => {
                record[2] = 0;
                for at in [8, 16, 24] {
                    record[at] = under(256) & under(256) & under(256);
                }
            }
            2 => (record[2], record[8]) = (0, under(256)),
            3 => record[2] &= 1,
            _ => {}
        }
        tape.extend(record);
    }
    tape
}

/// Many of the records are refused, and for what only adds each refusal names the pair or the twin; 35 always names its
/// pair and says what joins it.
#[test]
fn random_records_are_explained() {
    let folder = Folder::new();
    folder.run(&["new", "image"]).is(0, "");
    folder.write("tape", small_records(20_000));
    let ran = folder.run(&["apply", "image", "tape"]);
    assert_eq!(ran.status, 1, "{}", ran.errors);
    let said: Vec<&str> = ran.text().lines().collect();
    assert_eq!(said.len(), 20_002);
    for number in [3, 4, 5, 20, 21, 22, 23, 24, 25, 26, 27, 28, 29, 30, 34, 35] {
        let refused = format!("refused with {number}, ");
        assert!(said.iter().any(|line| line.contains(&refused)), "{refused}");
    }
    let adds = ["add", "role", "grant", "edge", "conflict", "seat"];
    for line in said {
        assert!(!line.contains("one that it excludes"), "{line}");
        if let Some((_, why)) = line.split_once(": refused with 35, place ") {
            let (place, why) = why.split_once(": ").expect("a place and a reason");
            let pair = format!("roles {place} and ");
            assert!(
                line.contains(": exclude ") || why.starts_with(&pair),
                "{line}"
            );
        }
        let text = line.split(": ").nth(1).unwrap_or_default();
        if adds.iter().any(|word| text.starts_with(word)) {
            let vague =
                line.ends_with("another role holds") || line.ends_with("privileges in conflict");
            assert!(!vague, "{line}");
        }
    }
}

// ---- ask, who and show ----

#[test]
fn a_yes_says_why() {
    let folder = sample();
    folder.run(&["ask", "sample", "5", "1"]).is(
        0,
        "yes: seat 5 may use privilege 1\n  it has role 3, which has privilege 1 directly\n",
    );
    folder.run(&["ask", "sample", "5", "0"]).is(
        0,
        "yes: seat 5 may use privilege 0\n  it has role 3, which has privilege 0 from role 2, where it is direct\n",
    );
    folder
        .given(&["apply", "sample", "-"], b"seat 5 gets 2")
        .text();
    folder.run(&["ask", "sample", "5", "0"]).is(
        0,
        "yes: seat 5 may use privilege 0\n  it has role 2, which has privilege 0 directly\n  \
         it has role 3, which has privilege 0 from role 2, where it is direct\n",
    );
}

#[test]
fn a_no_says_why() {
    let folder = sample();
    folder
        .run(&["ask", "sample", "5", "2"])
        .is(1, "no: seat 5 has role 3, without privilege 2\n");
    folder
        .run(&["ask", "sample", "6", "1"])
        .is(1, "no: seat 6 has no role\n");
}

#[test]
fn a_number_above_63_is_refused_and_never_a_yes() {
    let folder = sample();
    let zero = "role 4 {0..63}\nseat 0 gets 4\n";
    let ran = folder.given(&["apply", "sample", "-"], b"lift 0 2");
    assert_eq!(ran.status, 0);
    assert_eq!(
        folder
            .given(&["apply", "sample", "-"], zero.as_bytes())
            .status,
        0
    );
    for number in [
        "64",
        "255",
        "256",
        "320",
        "4294967296",
        "18446744073709551616",
        "99999999999999999999999",
    ] {
        let seat = format!("refused with 2: SEAT {number} is above 63\n");
        folder.run(&["ask", "sample", number, "0"]).is(1, &seat);
        let privilege = format!("refused with 2: PRIVILEGE {number} is above 63\n");
        folder
            .run(&["ask", "sample", "0", number])
            .is(1, &privilege);
        folder.run(&["who", "sample", number]).is(1, &privilege);
    }
    assert_eq!(folder.run(&["ask", "sample", "0", "63"]).status, 0);
}

#[test]
fn who_names_the_seats() {
    let folder = sample();
    folder
        .given(
            &["apply", "sample", "-"],
            b"seat 5 gets 2\nseat 63 gets 2\n",
        )
        .text();
    folder
        .run(&["who", "sample", "0"])
        .is(0, "seat 5 by roles 2 and 3\nseat 63 by role 2\n");
    folder
        .run(&["who", "sample", "1"])
        .is(0, "seat 5 by role 3\n");
    folder
        .run(&["who", "sample", "9"])
        .is(1, "no seat may use privilege 9\n");
}

#[test]
fn show_says_what_an_image_holds() {
    let folder = sample();
    folder.run(&["show", "sample"]).is(
        0,
        "2 roles besides MinRole and MaxRole\n\
         \x20 role 0 (MinRole)  effective {}  direct {}\n\
         \x20 role 2            effective {0}  direct {0}\n\
         \x20 role 3            effective {0,1}  direct {1}\n\
         \x20 role 1 (MaxRole)  effective {0,1}  direct {}\n\
         3 edges, from junior to senior\n  0 to 2\n  2 to 3\n  3 to 1\n\
         1 conflict\n  0 and 2\n\
         1 seat with roles\n  seat 5 has role 3 and may use {0,1}\n",
    );
    folder.run(&["show", "--dot", "sample"]).is(
        0,
        "digraph roles {\n  rankdir=BT;\n  node [shape=box];\n\
         \x20 r0 [label=\"role 0 (MinRole)\"];\n\
         \x20 r2 [label=\"role 2\\n{0}\"];\n\
         \x20 r3 [label=\"role 3\\n{1}\"];\n\
         \x20 r1 [label=\"role 1 (MaxRole)\"];\n\
         \x20 r0 -> r2;\n  r2 -> r3;\n  r3 -> r1;\n\
         \x20 s5 [label=\"seat 5\", shape=oval];\n  s5 -> r3 [style=dashed];\n\
         \x20 // privileges 0 and 2 are in conflict\n}\n",
    );
}

// ---- usage ----

/// Wrong words, and what is said of them.
const WRONG: [(&[&str], &str); 18] = [
    (&[], "a command is missing"),
    (&["fly"], "there is no command 'fly'"),
    (&["new"], "IMAGE is missing"),
    (&["apply", "sample"], "TAPE is missing"),
    (
        &["apply", "--fast", "sample", "-"],
        "there is no option '--fast'",
    ),
    (&["apply", "--tape", "--text", "sample", "-"], "not both"),
    (&["ask", "sample", "5"], "PRIVILEGE is missing"),
    (
        &["ask", "sample", "5", "1", "2"],
        "'2' is one word too many",
    ),
    (
        &["ask", "sample", "five", "1"],
        "SEAT is a number, and 'five' is none",
    ),
    (&["ask", "sample", "5", "-1"], "there is no option '-1'"),
    (
        &["ask", "sample", "5", "--", "-1"],
        "PRIVILEGE is a number, and '-1' is none",
    ),
    (
        &["ask", "sample", "", "1"],
        "SEAT is a number, and '' is none",
    ),
    (
        &["who", "sample", "1.0"],
        "PRIVILEGE is a number, and '1.0' is none",
    ),
    (&["show", "--svg", "sample"], "there is no option '--svg'"),
    (&["tape"], "write or read is missing"),
    (&["tape", "play"], "'play' is neither write nor read"),
    (&["import"], "SHEET is missing"),
    (&["import", "--text", "-"], "there is no option '--text'"),
];

#[test]
fn wrong_usage_is_said() {
    let folder = sample();
    for (words, said) in WRONG {
        let ran = folder.run(words);
        ran.fails(said);
        assert!(ran.errors.contains("usage: keeper"), "{}", ran.errors);
    }
    assert_eq!(folder.read("sample"), SAVED);
}

#[test]
fn every_command_has_its_help() {
    let folder = Folder::new();
    let all = folder.run(&["--help"]);
    assert_eq!(all.status, 0);
    for command in ["new", "apply", "ask", "who", "show", "tape", "import"] {
        assert!(all.text().contains(&format!("\n  {command} ")), "{command}");
        let help = folder.run(&[command, "--help"]);
        assert!(help
            .text()
            .starts_with(&format!("usage: keeper {command} ")));
        help.is(0, folder.run(&["help", command]).text());
    }
    folder.run(&["help"]).is(0, all.text());
    folder
        .run(&["--version"])
        .is(0, concat!("keeper ", env!("CARGO_PKG_VERSION"), "\n"));
    folder
        .run(&["help", "fly"])
        .fails("there is no help for 'fly'");
}
