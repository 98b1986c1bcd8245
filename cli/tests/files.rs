//! Files: an image behind other bytes, files that are refused, and how a file is replaced.

#[allow(dead_code)]
mod common;

use common::{Folder, SAMPLE, SAVED};
use std::fs;
use std::os::unix::fs::{symlink, PermissionsExt};

const LENS: &[u8] = b"lens file \x00\xFF\n with bytes of its own";

#[test]
fn an_image_behind_other_bytes_is_replaced_in_place() {
    let folder = Folder::new();
    folder.write("lens", LENS);
    folder.run(&["new", "lens"]).fails("lens: is there already");
    assert_eq!(folder.read("lens"), LENS);
    folder.run(&["new", "--behind", "lens"]).is(0, "");
    assert_eq!(folder.read("lens").len(), LENS.len() + 16);
    assert_eq!(
        folder
            .given(&["apply", "lens", "-"], SAMPLE.as_bytes())
            .status,
        1
    );
    assert_eq!(folder.read("lens"), [LENS, &SAVED].concat());
    assert_eq!(folder.run(&["ask", "lens", "5", "1"]).status, 0);
    let shorter = b"seat 5 loses 3\nremove 3\nremove 2\nlift 0 2\n";
    assert_eq!(folder.given(&["apply", "lens", "-"], shorter).status, 0);
    let bytes = folder.read("lens");
    assert_eq!((&bytes[..LENS.len()], bytes.len()), (LENS, LENS.len() + 16));
    folder
        .run(&["new", "--behind", "lens"])
        .fails("lens: ends with an image already");
    folder
        .run(&["new", "--behind", "other"])
        .fails("other: No such file");
    assert_eq!(folder.names(), ["lens"]);
}

#[test]
fn the_front_may_be_an_image_too() {
    let folder = Folder::new();
    let front = [&SAVED[..], &SAVED].concat();
    folder.write("two", &front);
    assert_eq!(
        folder
            .given(&["apply", "two", "-"], b"seat 5 loses 3")
            .status,
        0
    );
    let bytes = folder.read("two");
    assert_eq!(bytes.len(), 45 + 36);
    assert_eq!(bytes[..45], SAVED);
}

/// Bytes of the saved sample that are changed, and what is said of the image then.
const CHANGED: [(&[(usize, u8)], &str); 14] = [
    (
        &[(37, 46)],
        "6: its last 8 bytes are no trailer of an image",
    ),
    (
        &[(8, 1)],
        "7: role entry 1 has number 1, and ordinary roles are 2 to 63",
    ),
    (
        &[(17, 64)],
        "7: role entry 2 has number 64, and ordinary roles are 2 to 63",
    ),
    (&[(8, 3), (17, 2)], "7: role 2 stands behind role 3"),
    (&[(26, 2)], "7: conflict 1 is of 2 and 2"),
    (&[(27, 64)], "7: conflict 1 is of 0 and 64"),
    (
        &[(28, 64)],
        "7: seat entry 1 has number 64, and seats are 0 to 63",
    ),
    (&[(29, 0)], "7: seat 5 has no role"),
    (
        &[(29, 16)],
        "7: seat 5 has role 4, which is no ordinary role of the image",
    ),
    (&[(9, 0)], "8: role 2 is empty"),
    (&[(9, 3)], "8: roles 2 and 3 hold the same privileges"),
    (&[(0, 1)], "8: MaxRole lacks {1} of role 3"),
    (
        &[(0, 7), (18, 7)],
        "8: role 3 holds 0 and 2, which are in conflict",
    ),
    (
        &[(0, 7), (18, 4), (29, 12)],
        "8: seat 5 holds 0 and 2, which are in conflict",
    ),
];

/// A file whose image is refused stays as it was, and what is said names the place.
fn is_refused(bytes: &[u8], said: &str) {
    let folder = Folder::new();
    folder.write("image", bytes);
    let said = format!("image: refused with {said}");
    folder
        .given(&["apply", "image", "-"], SAMPLE.as_bytes())
        .fails(&said);
    folder.run(&["ask", "image", "5", "1"]).fails(&said);
    folder.run(&["show", "image"]).fails(&said);
    assert_eq!(folder.read("image"), bytes);
    assert_eq!(folder.names(), ["image"]);
}

#[test]
fn a_refused_image_is_left_and_says_where_it_is_wrong() {
    for (changes, said) in CHANGED {
        let mut bytes = [LENS, &SAVED].concat();
        for (place, byte) in changes {
            bytes[LENS.len() + place] = *byte;
        }
        is_refused(&bytes, said);
    }
    is_refused(&[], "6: it has 0 bytes, and an image has 16 or more");
    is_refused(LENS, "6: its last 8 bytes are no trailer of an image");
    is_refused(
        &SAVED[3..],
        "6: its image has 45 bytes, of which the first 3 are missing",
    );
}

/// Two conflicts and two seats, each pair of entries in the wrong order.
#[test]
fn entries_out_of_order_are_named() {
    let folder = Folder::new();
    folder.write("image", SAVED);
    assert_eq!(
        folder
            .given(&["apply", "image", "-"], b"conflict 5 6\nseat 9 gets 2")
            .status,
        0
    );
    let image = folder.read("image");
    let swapped = |first: usize, length: usize| {
        let mut bytes = image.clone();
        bytes[first..first + 2 * length].rotate_left(length);
        bytes
    };
    is_refused(
        &swapped(26, 2),
        "7: the conflict of 0 and 2 stands behind that of 5 and 6",
    );
    is_refused(&swapped(30, 9), "7: seat 5 stands behind seat 9");
}

#[test]
fn a_wrong_text_leaves_the_file() {
    let folder = Folder::new();
    folder.write("image", SAVED);
    folder
        .given(&["apply", "image", "-"], b"remove 2\nfly\n")
        .fails("keeper: standard input: line 2: no record starts with 'fly'");
    folder
        .run(&["apply", "image", "absent"])
        .fails("absent: No such file");
    folder
        .run(&["apply", "absent", "image"])
        .fails("absent: No such file");
    assert_eq!(folder.read("image"), SAVED);
    assert_eq!(folder.names(), ["image"]);
}

#[test]
fn a_replaced_file_keeps_its_mode_and_its_links() {
    let folder = Folder::new();
    folder.write("image", SAVED);
    fs::set_permissions(folder.path("image"), fs::Permissions::from_mode(0o640)).expect("a mode");
    symlink("image", folder.path("link")).expect("a link");
    assert_eq!(
        folder
            .given(&["apply", "link", "-"], b"seat 5 loses 3")
            .status,
        0
    );
    assert_eq!(folder.read("image").len(), 36);
    let mode = fs::metadata(folder.path("image"))
        .expect("the file")
        .permissions()
        .mode();
    assert_eq!(mode & 0o7777, 0o640);
    assert_eq!(
        fs::read_link(folder.path("link"))
            .expect("still a link")
            .to_str(),
        Some("image")
    );
    assert_eq!(folder.names(), ["image", "link"]);
}

#[test]
fn what_changes_nothing_does_not_replace_the_file() {
    let folder = Folder::new();
    folder.write("image", SAVED);
    let before = fs::metadata(folder.path("image"))
        .expect("the file")
        .modified()
        .expect("a time");
    folder
        .given(&["apply", "--quiet", "image", "-"], b"ask seat 5 for 1")
        .is(0, "1 accepted, 0 refused; the file is as it was\n");
    let after = fs::metadata(folder.path("image"))
        .expect("the file")
        .modified()
        .expect("a time");
    assert_eq!(before, after);
}

#[test]
fn a_file_that_is_held_is_left() {
    let folder = Folder::new();
    folder.write("image", SAVED);
    folder.write("image.lock", "");
    folder
        .given(&["apply", "image", "-"], b"seat 5 loses 3")
        .fails("image.lock: is there");
    assert_eq!(folder.names(), ["image", "image.lock"]);
    assert_eq!(folder.read("image"), SAVED);
    assert_eq!(folder.run(&["ask", "image", "5", "1"]).status, 0);
    assert_eq!(
        folder
            .given(&["apply", "--dry-run", "image", "-"], b"seat 5 loses 3")
            .status,
        0
    );
}

/// Of many at once, each that says it replaced the file has its change in the end, and the others say that it is held.
#[test]
fn no_change_is_lost() {
    let folder = Folder::new();
    folder.write("image", SAVED);
    let seated = |seat: u8| {
        let line = format!("seat {seat} gets 2");
        let ran = folder.given(&["apply", "image", "-"], line.as_bytes());
        if ran.status == 2 {
            ran.fails("image.lock: is there");
        }
        ran.status == 0
    };
    let seats = 20..44u8;
    let done: Vec<bool> = std::thread::scope(|scope| {
        let runs: Vec<_> = seats
            .clone()
            .map(|seat| scope.spawn(move || seated(seat)))
            .collect();
        runs.into_iter()
            .map(|run| run.join().expect("a run"))
            .collect()
    });
    assert!(done.contains(&true));
    for (seat, done) in seats.zip(done) {
        let ran = folder.run(&["ask", "image", &seat.to_string(), "0"]);
        assert_eq!(ran.status, i32::from(!done), "seat {seat}");
    }
    assert_eq!(folder.names(), ["image"]);
}

#[test]
fn a_read_only_file_is_left() {
    let folder = Folder::new();
    folder.write("image", SAVED);
    fs::set_permissions(folder.path("image"), fs::Permissions::from_mode(0o444)).expect("a mode");
    folder
        .given(&["apply", "image", "-"], b"seat 5 loses 3")
        .fails("image: is read-only");
    assert_eq!(folder.read("image"), SAVED);
    assert_eq!(folder.names(), ["image"]);
}

#[test]
fn a_folder_is_no_image() {
    let folder = Folder::new();
    fs::create_dir(folder.path("folder")).expect("a folder");
    folder
        .run(&["new", "folder"])
        .fails("folder: is there already");
    folder
        .given(&["apply", "folder", "-"], b"")
        .fails("not a file that can be replaced");
    folder.run(&["show", "folder"]).fails("folder: ");
    folder
        .run(&["new", "absent/image"])
        .fails("absent/image: there is no such folder");
    assert_eq!(folder.names(), ["folder"]);
}
