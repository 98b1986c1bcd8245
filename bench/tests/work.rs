//! What is timed is what it is called, and the plain tape program writes document 01's lines.

use bench::plain::{Plain, LARGEST_IMAGE};
use bench::side::{copied, saved};
use bench::work::{
    active_count, answered, largest, middling, pair_count, shape, sitting, switching_off, tape,
    Shape, ON_SITTING, REFUSED,
};
use role_reference::reference::Reference;
use std::io::Write;
use std::process::{Command, Stdio};

#[test]
fn shapes_have_their_edges() {
    for count in [8, 16, 32, 62] {
        let edges = |lie| shape(lie, count).edge_count();
        let n = count as u64;
        assert_eq!(edges(Shape::Chain), n + 1);
        assert_eq!(edges(Shape::Unrelated), 2 * n);
        // Three edges from MinRole, three down from each role above the lowest layer, and those of the last layer up.
        let last = (n - 1) % 3 + 1;
        assert_eq!(edges(Shape::Layers), 3 + 3 * (n - 3) + last);
    }
}

#[test]
fn images_have_their_lengths() {
    assert_eq!(saved(&Plain::fresh()).len(), 16);
    assert_eq!(saved(&middling()).len(), 16 + 9 * 24 + 9 * 16 + 2 * 24);
    assert_eq!(saved(&largest()).len(), LARGEST_IMAGE);
}

#[test]
fn every_timed_record_is_found() {
    let state = middling();
    for kind in 1..=12 {
        assert!(answered(&state, kind, 0).is_some(), "kind {kind}");
    }
    for (kind, number) in REFUSED {
        assert!(answered(&state, kind, number).is_some(), "{kind}: {number}");
    }
}

#[test]
fn every_record_timed_with_pairs_is_found() {
    let state = sitting();
    for (kind, numbers) in ON_SITTING {
        for number in numbers {
            let record = answered(&state, kind, *number);
            assert!(record.is_some(), "{kind}: {number}");
        }
    }
    assert!(switching_off(&state).is_some());
    assert!(answered(&middling(), 14, 0).is_some());
}

#[test]
fn sitting_adds_pairs_and_active_roles_alone() {
    let (state, before) = (sitting(), middling());
    assert_eq!((pair_count(&before), active_count(&before)), (0, 0));
    assert_eq!(pair_count(&state), 12);
    let seats = (0..64).filter(|seat| state.active(*seat) != 0);
    assert_eq!(seats.count(), 12);
    assert!(saved(&state) == saved(&before));
}

#[test]
fn a_copy_is_the_whole_state() {
    let state = sitting();
    assert!(copied::<Plain>(&state) == state);
}

#[cfg(archive)]
#[test]
fn the_keeper_answers_by_the_same_active_roles() {
    use bench::keeper::Kept;
    use bench::side::{unsaved, Side};
    let state = sitting();
    let kept: Kept = copied(&state);
    assert!(unsaved(&kept) == unsaved(&state));
    for (seat, privilege) in (0..=64).flat_map(|seat| (0..=64).map(move |other| (seat, other))) {
        let answer = Side::ask_active(&state, seat, privilege);
        assert_eq!(kept.ask_active(seat, privilege), answer);
        let may = kept.may_active(seat.into(), privilege.into());
        assert_eq!(may, answer == 1, "{seat}, {privilege}");
    }
}

fn plaintape(bytes: &[u8]) -> String {
    let mut program = Command::new(env!("CARGO_BIN_EXE_plaintape"))
        .stdin(Stdio::piped())
        .stdout(Stdio::piped())
        .spawn()
        .expect("plaintape starts");
    let mut input = program.stdin.take().expect("a pipe");
    input.write_all(bytes).expect("plaintape reads");
    drop(input);
    let output = program.wait_with_output().expect("plaintape ends");
    String::from_utf8(output.stdout).expect("text")
}

#[test]
fn plaintape_writes_the_lines() {
    let (bytes, _) = tape(1024, 15);
    for length in [0, 1, 32, 33, 1000 * 32, 1024 * 32 - 1, 1024 * 32] {
        let part = &bytes[..length];
        assert!(plaintape(part) == Reference::tape(part), "{length} bytes");
    }
}
