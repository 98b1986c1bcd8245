//! Document 01's examples and each refusal of document 01 and of item 1 of
//! document 02; what item 3's kinds share with the others stands here too.

mod support;

use role_reference::generate::{largest_image, record, short};
use role_reference::random::Random;
use role_reference::reference::{Reference, Set};
use support::*;

fn after_example_3() -> Reference {
    let mut keeper = table_one();
    accept_all(&mut keeper, &[short(4, 5, 9)]);
    keeper
}

fn after_example_4() -> Reference {
    let mut keeper = after_example_3();
    accept_all(&mut keeper, &[short(4, 5, 10)]);
    keeper
}

// ---- the ten bench examples ----

#[test]
fn example_1() {
    let keeper = table_one();
    assert_eq!(keeper.edges().len(), 18);
    assert_eq!(keeper.direct(8), set(&[9, 10]));
    assert_eq!(keeper.effective(1), run_of(1, 11, &[]));
    assert_eq!(keeper.direct(1), 0);
}

#[test]
fn example_2() {
    let mut keeper = table_one();
    accept_all(&mut keeper, &[by_privileges(10, &[9, 10, 11])]);
    assert_eq!(keeper.edges().len(), 20);
}

#[test]
fn example_3() {
    let keeper = after_example_3();
    assert_eq!(keeper.direct(8), set(&[10]));
    assert_eq!(keeper.effective(9), run_of(1, 9, &[11]));
}

#[test]
fn example_4() {
    let keeper = after_example_4();
    assert_eq!(keeper.edges().len(), 14);
    assert!(keeper.edges().contains(&(8, 9)));
    assert_eq!(keeper.effective(8), run_of(1, 10, &[]));
    assert_eq!(keeper.effective(9), run_of(1, 11, &[]));
}

#[test]
fn example_5() {
    refuses(&mut after_example_4(), &short(4, 5, 11), 28, 8);
}

#[test]
fn example_6() {
    let mut keeper = table_one();
    let before = keeper.sets();
    accept_all(&mut keeper, &[short(7, 4, 8)]);
    let mut expected = before;
    expected[8] &= !set(&[3]);
    assert_eq!(keeper.sets(), expected);
    assert_eq!(keeper.edges().len(), 17);
}

#[test]
fn example_7() {
    refuses(&mut table_one(), &short(7, 5, 8), 26, 8);
}

#[test]
fn example_8() {
    refuses(&mut table_one(), &short(6, 8, 4), 25, 8);
}

#[test]
fn example_9() {
    let mut keeper = table_one();
    accept_all(&mut keeper, &[short(8, 9, 11), short(10, 0, 8)]);
    refuses(&mut keeper, &short(10, 0, 9), 30, 0);
    refuses(&mut keeper, &short(4, 5, 9), 29, 9);
}

#[test]
fn example_10() {
    refuses(&mut Reference::fresh(), &by_place(2, &[], &[], &[]), 27, 2);
}

// ---- the sample tape ----

fn sample_tape() -> Vec<Vec<u8>> {
    vec![
        by_privileges(2, &[0]),
        by_privileges(3, &[0, 1]),
        short(8, 0, 2),
        short(10, 5, 3),
        short(4, 2, 2),
        short(12, 5, 1),
    ]
}

#[test]
fn sample_tape_prints() {
    let text = Reference::tape(&sample_tape().concat());
    assert_eq!(text, "1 0 0\n2 0 0\n3 0 0\n4 0 0\n5 29 2\n6 0 1\nend 6 3\n");
    assert_eq!(Reference::tape(&[]), "end 0 1\n");
}

#[test]
fn partial_last_record_has_its_line() {
    let mut bytes = sample_tape()[..1].concat();
    bytes.push(2);
    assert_eq!(Reference::tape(&bytes), "1 0 0\n2 1 0\nend 2 2\n");
    bytes.pop();
    bytes.extend([0; 31]);
    assert_eq!(Reference::tape(&bytes), "1 0 0\n2 1 0\nend 2 2\n");
}

fn sample_image() -> Vec<u8> {
    let zeros = [0u8; 7];
    let mut bytes = vec![0x03];
    bytes.extend(zeros);
    bytes.extend([0x02, 0x01]);
    bytes.extend(zeros);
    bytes.extend([0x03, 0x03]);
    bytes.extend(zeros);
    bytes.extend([0x00, 0x02]);
    bytes.extend([0x05, 0x08]);
    bytes.extend(zeros);
    bytes.extend([0x2D, 0x00, 0x00, 0x00, 0x02, 0x01, 0x01, 0x00]);
    bytes
}

fn sample_state() -> Reference {
    let mut keeper = Reference::fresh();
    for record in sample_tape() {
        keeper.call(&record);
    }
    keeper
}

#[test]
fn sample_tape_saves() {
    assert_eq!(sample_state().save(), sample_image());
}

#[test]
fn sample_image_loads_alone_and_behind_other_bytes() {
    for ahead in [0, 1, 7, 16, 100] {
        let bytes = [vec![0xFF; ahead], sample_image()].concat();
        let mut keeper = table_one();
        assert_eq!(keeper.load(&bytes), Ok(()));
        assert!(keeper == sample_state());
    }
}

// ---- at the edges ----

#[test]
fn record_lengths() {
    let mut bytes = by_privileges(2, &[0]);
    bytes.pop();
    refuses(&mut Reference::fresh(), &bytes, 1, 0);
    bytes.push(0);
    assert_eq!(Reference::fresh().call(&bytes), ACCEPTED);
    bytes.push(0);
    refuses(&mut Reference::fresh(), &bytes, 1, 0);
    refuses(&mut Reference::fresh(), &[], 1, 0);
}

#[test]
fn privilege_63_is_known_and_64_is_not() {
    let mut keeper = after(&[by_privileges(2, &[0])]);
    refuses(&mut keeper, &short(4, 2, 64), 2, 64);
    assert_eq!(keeper.call(&short(4, 2, 63)), ACCEPTED);
    assert_eq!(keeper.effective(2), set(&[0, 63]));
}

#[test]
fn fresh_graph() {
    let keeper = Reference::fresh();
    assert_eq!(keeper.edges().iter().collect::<Vec<_>>(), [&(0, 1)]);
    assert_eq!(keeper.roles(), 0);
    assert_eq!(keeper.sets(), [0; 64]);
    assert_eq!(keeper.conflicts(), [0; 64]);
    assert_eq!(keeper.seats(), [0; 64]);
    assert_eq!(keeper.exclusions(), [0; 64]);
    assert_eq!(keeper.active(), [0; 64]);
}

#[test]
fn fresh_image() {
    let image = Reference::fresh().save();
    assert_eq!(image, [0, 0, 0, 0, 0, 0, 0, 0, 16, 0, 0, 0, 0, 0, 0, 0]);
    let mut keeper = table_one();
    assert_eq!(keeper.load(&image[1..]), Err(6));
    assert!(keeper == table_one());
    assert_eq!(keeper.load(&image), Ok(()));
    assert!(keeper == Reference::fresh());
}

#[test]
fn largest_image_has_5182_bytes() {
    let image = largest_image(&mut Random::new(1));
    assert_eq!(image.len(), 5_182);
    let mut keeper = Reference::fresh();
    assert_eq!(keeper.load(&image), Ok(()));
    assert_eq!(keeper.save(), image);
}

// ---- misreadings ----

#[test]
fn grants_do_not_commute() {
    let start = [by_privileges(2, &[1]), by_privileges(3, &[2])];
    let mut keeper = after(&start);
    accept_all(&mut keeper, &[short(4, 3, 1), short(4, 2, 3)]);
    assert_eq!(keeper.effective(3), set(&[1, 2, 3]));
    let mut keeper = after(&start);
    accept_all(&mut keeper, &[short(4, 2, 3), short(4, 3, 1)]);
    assert_eq!(keeper.effective(3), set(&[1, 2]));
}

#[test]
fn conflicts_are_looked_for_in_seniors_and_seats() {
    let mut keeper = after(&[
        by_privileges(2, &[0]),
        by_privileges(3, &[0, 1]),
        by_privileges(4, &[5]),
        short(8, 1, 2),
    ]);
    refuses(&mut keeper, &short(4, 2, 2), 29, 3);
    accept_all(&mut keeper, &[short(10, 7, 3), short(10, 7, 4)]);
    refuses(&mut keeper, &short(4, 4, 2), 30, 7);
}

// ---- the calls ----

#[test]
fn add_by_place_joins_juniors_and_seniors() {
    let mut keeper = after(&[by_privileges(2, &[0]), by_privileges(3, &[1])]);
    accept_all(&mut keeper, &[by_place(4, &[2], &[2], &[3])]);
    assert_eq!(keeper.effective(4), set(&[0, 2]));
    assert_eq!(keeper.effective(3), set(&[0, 1, 2]));
    assert_eq!(keeper.direct(3), set(&[1]));
    let edges: Vec<(u8, u8)> = keeper.edges().iter().copied().collect();
    assert_eq!(edges, [(0, 2), (2, 4), (3, 1), (4, 3)]);
}

#[test]
fn removing_drops_or_passes_on() {
    let chain = [
        by_privileges(2, &[0]),
        by_place(3, &[1], &[2], &[]),
        by_place(4, &[2], &[3], &[]),
    ];
    let mut dropped = after(&chain);
    accept_all(&mut dropped, &[short(3, 3, 0)]);
    assert_eq!(dropped.effective(4), set(&[0, 2]));
    assert_eq!(dropped.effective(1), set(&[0, 2]));
    let mut passed = after(&chain);
    accept_all(&mut passed, &[short(3, 3, 1)]);
    assert_eq!(passed.effective(4), set(&[0, 1, 2]));
    assert_eq!(passed.direct(4), set(&[1, 2]));
}

#[test]
fn removing_passes_on_to_max_role() {
    let mut keeper = after(&[by_privileges(2, &[0, 1])]);
    accept_all(&mut keeper, &[short(3, 2, 1)]);
    assert_eq!(keeper.effective(1), set(&[0, 1]));
    assert_eq!(keeper.direct(1), set(&[0, 1]));
    accept_all(&mut keeper, &[by_privileges(2, &[0]), short(3, 2, 0)]);
    assert_eq!(keeper.effective(1), set(&[1]));
}

#[test]
fn max_role_may_equal_an_ordinary_role() {
    let keeper = after(&[by_privileges(2, &[3])]);
    assert_eq!(keeper.effective(1), keeper.effective(2));
    assert!(keeper.edges().contains(&(2, 1)));
    assert_eq!(keeper.direct(1), 0);
}

#[test]
fn ask_answers_yes_or_no() {
    let mut keeper = sample_state();
    assert_eq!(keeper.call(&short(12, 5, 1)), YES);
    assert_eq!(keeper.call(&short(12, 5, 2)), ACCEPTED);
    assert_eq!(keeper.call(&short(12, 4, 1)), ACCEPTED);
    assert_eq!(keeper.ask(5, 0), YES);
    assert_eq!(keeper.ask(64, 70), refused(2, 64));
    assert_eq!(keeper.ask(5, 70), refused(2, 70));
}

// ---- refusals that come from the input ----

#[test]
fn refusal_1() {
    let mut keeper = table_one();
    refuses(&mut keeper, &[0; 32], 1, 0);
    refuses(&mut keeper, &short(16, 2, 3), 1, 0);
    refuses(&mut keeper, &short(255, 200, 200), 1, 0);
    refuses(&mut keeper, &short(3, 2, 2), 1, 0);
    refuses(&mut keeper, &short(3, 2, 64), 1, 0);
    refuses(&mut keeper, &record(1, 10, 1, [1, 0, 0]), 1, 0);
    refuses(&mut keeper, &record(2, 10, 1, [1, 0, 0]), 1, 0);
    refuses(&mut keeper, &record(2, 10, 0, [1, 4, 0]), 1, 0);
    refuses(&mut keeper, &record(2, 10, 0, [1, 0, 4]), 1, 0);
    for kind in 3..=15 {
        for place in 0..3 {
            let mut sets = [0; 3];
            sets[place] = 1 << 63;
            refuses(&mut keeper, &record(kind, 200, 1, sets), 1, 0);
        }
    }
}

#[test]
fn refusal_1_for_each_unused_byte() {
    for kind in 1..=15 {
        for place in 3..8 {
            let mut bytes = short(kind, 200, 0);
            bytes[place] = 1;
            refuses(&mut table_one(), &bytes, 1, 0);
        }
    }
}

#[test]
fn refusal_2() {
    let mut keeper = table_one();
    refuses(&mut keeper, &by_place(64, &[1], &[0], &[]), 2, 64);
    refuses(&mut keeper, &by_privileges(255, &[1]), 2, 255);
    refuses(&mut keeper, &short(3, 64, 1), 2, 64);
    for kind in 4..=15 {
        refuses(&mut keeper, &short(kind, 64, 65), 2, 64);
        refuses(&mut keeper, &short(kind, 0, 65), 2, 65);
        refuses(&mut keeper, &short(kind, 70, 70), 2, 70);
    }
}

#[test]
fn refusal_3() {
    let mut keeper = table_one();
    refuses(&mut keeper, &by_place(1, &[1], &[0], &[0]), 3, 1);
    refuses(&mut keeper, &by_place(2, &[1], &[1, 2], &[0]), 3, 1);
    refuses(&mut keeper, &by_place(2, &[1], &[2, 3], &[1, 2]), 3, 1);
    refuses(&mut keeper, &by_place(2, &[1], &[0, 1], &[]), 3, 0);
    for kind in 2..=5 {
        refuses(&mut keeper, &short(kind, 1, 0), 3, 1);
        refuses(&mut keeper, &short(kind, 0, 0), 3, 0);
    }
    for kind in [6, 7, 13] {
        refuses(&mut keeper, &short(kind, 1, 0), 3, 1);
        refuses(&mut keeper, &short(kind, 2, 0), 3, 0);
        refuses(&mut keeper, &short(kind, 1, 1), 3, 1);
    }
    for kind in [10, 11, 14, 15] {
        refuses(&mut keeper, &short(kind, 5, 1), 3, 1);
        refuses(&mut keeper, &short(kind, 5, 0), 3, 0);
    }
}

#[test]
fn refusals_4_and_5() {
    let mut keeper = table_one();
    for kind in [8, 9] {
        refuses(&mut keeper, &short(kind, 1, 1), 4, 1);
        refuses(&mut keeper, &short(kind, 63, 63), 4, 63);
    }
    for kind in [6, 7, 13] {
        refuses(&mut keeper, &short(kind, 2, 2), 5, 2);
        refuses(&mut keeper, &short(kind, 60, 60), 5, 60);
    }
    refuses(&mut keeper, &by_place(2, &[1], &[2], &[]), 5, 2);
    refuses(&mut keeper, &by_place(40, &[1], &[], &[40, 41]), 5, 40);
}

// ---- refusals that come from the state ----

#[test]
fn refusal_20() {
    let mut keeper = table_one();
    refuses(&mut keeper, &by_privileges(5, &[]), 20, 5);
    refuses(&mut keeper, &by_place(5, &[60], &[50], &[51]), 20, 5);
}

#[test]
fn refusal_21() {
    let mut keeper = table_one();
    refuses(
        &mut keeper,
        &by_place(10, &[1], &[2, 40, 41], &[30]),
        21,
        40,
    );
    refuses(&mut keeper, &by_place(10, &[1], &[2], &[3, 30]), 21, 30);
    for kind in [3, 4, 5] {
        refuses(&mut keeper, &short(kind, 33, 1), 21, 33);
    }
    for kind in [6, 7, 13] {
        refuses(&mut keeper, &short(kind, 33, 34), 21, 33);
        refuses(&mut keeper, &short(kind, 2, 34), 21, 34);
    }
    for kind in [10, 11, 14, 15] {
        refuses(&mut keeper, &short(kind, 2, 34), 21, 34);
    }
}

#[test]
fn refusal_22() {
    let mut keeper = table_one();
    accept_all(&mut keeper, &[short(8, 20, 30), short(10, 9, 2)]);
    refuses(&mut keeper, &short(4, 8, 1), 22, 8);
    refuses(&mut keeper, &short(6, 2, 8), 22, 2);
    refuses(&mut keeper, &short(8, 20, 30), 22, 20);
    refuses(&mut keeper, &short(8, 30, 20), 22, 30);
    refuses(&mut keeper, &short(10, 9, 2), 22, 9);
}

#[test]
fn refusal_23() {
    let mut keeper = table_one();
    refuses(&mut keeper, &short(5, 5, 12), 23, 5);
    refuses(&mut keeper, &short(5, 8, 11), 23, 8);
    refuses(&mut keeper, &short(7, 2, 8), 23, 2);
    refuses(&mut keeper, &short(7, 8, 4), 23, 8);
    refuses(&mut keeper, &short(9, 30, 20), 23, 30);
    refuses(&mut keeper, &short(11, 9, 2), 23, 9);
}

#[test]
fn refusal_31() {
    let mut keeper = table_one();
    refuses(&mut keeper, &short(5, 5, 1), 31, 5);
    refuses(&mut keeper, &short(5, 8, 1), 31, 8);
    refuses(&mut after_example_3(), &short(5, 8, 9), 31, 8);
}

#[test]
fn refusal_31_comes_after_those_from_the_input_and_21() {
    let mut keeper = table_one();
    refuses(&mut keeper, &short(5, 5, 64), 2, 64);
    refuses(&mut keeper, &short(5, 1, 1), 3, 1);
    refuses(&mut keeper, &short(5, 0, 1), 3, 0);
    refuses(&mut keeper, &short(5, 10, 1), 21, 10);
}

/// 23 for a privilege that the role lacks, 31 for an inherited one, neither
/// for a direct one.
#[test]
fn withdrawals_from_each_role_of_table_one() {
    let directs: [&[u8]; 8] = [
        &[1],
        &[2],
        &[3, 4],
        &[4, 5],
        &[5, 6],
        &[7, 8],
        &[9, 10],
        &[11],
    ];
    for ((role, effective), direct) in TABLE_ONE.into_iter().zip(directs) {
        for privilege in 0..64 {
            let withdrawal = short(5, role, privilege);
            if direct.contains(&privilege) {
                let number = table_one().call(&withdrawal).number;
                assert!(number != 23 && number != 31, "{withdrawal:?}");
            } else if effective.contains(&privilege) {
                refuses(&mut table_one(), &withdrawal, 31, role);
            } else {
                refuses(&mut table_one(), &withdrawal, 23, role);
            }
        }
    }
}

#[test]
fn a_direct_privilege_is_withdrawn() {
    let mut keeper = table_one();
    accept_all(&mut keeper, &[short(5, 8, 9)]);
    assert_eq!(keeper.effective(8), run_of(1, 8, &[10]));
    assert_eq!(keeper.direct(8), set(&[10]));
    assert_eq!(keeper.effective(1), run_of(1, 8, &[10, 11]));
    refuses(&mut keeper, &short(5, 8, 9), 23, 8);
}

#[test]
fn refused_withdrawals_print() {
    let tape = [
        by_privileges(2, &[0]),
        by_privileges(3, &[0, 1]),
        short(5, 3, 0),
        short(5, 3, 2),
    ];
    let text = Reference::tape(&tape.concat());
    assert_eq!(text, "1 0 0\n2 0 0\n3 31 3\n4 23 3\nend 4 3\n");
}

#[test]
fn refusal_24() {
    let mut keeper = table_one();
    accept_all(
        &mut keeper,
        &[short(10, 9, 2), short(10, 4, 2), short(10, 3, 5)],
    );
    refuses(&mut keeper, &short(3, 2, 0), 24, 4);
    refuses(&mut keeper, &short(3, 2, 1), 24, 4);
    accept_all(
        &mut keeper,
        &[short(11, 4, 2), short(11, 9, 2), short(3, 2, 0)],
    );
}

#[test]
fn refusal_25() {
    let mut keeper = table_one();
    refuses(&mut keeper, &short(6, 8, 2), 25, 8);
    refuses(&mut keeper, &by_place(10, &[12], &[5], &[5]), 25, 5);
    refuses(&mut keeper, &by_place(10, &[12], &[2, 8, 9], &[5]), 25, 8);
    refuses(&mut keeper, &by_place(10, &[12], &[4, 7, 9], &[3]), 25, 7);
}

#[test]
fn refusal_26() {
    let mut keeper = table_one();
    refuses(&mut keeper, &short(7, 6, 5), 23, 6);
    refuses(&mut keeper, &short(7, 5, 9), 26, 9);
}

#[test]
fn refusal_27() {
    let mut keeper = table_one();
    refuses(&mut keeper, &short(5, 2, 1), 27, 2);
    refuses(&mut keeper, &by_privileges(10, &[]), 27, 10);
}

#[test]
fn refusal_28() {
    let mut keeper = table_one();
    refuses(&mut keeper, &by_privileges(10, &[2]), 28, 3);
    refuses(&mut keeper, &by_place(10, &[], &[7], &[]), 28, 7);
}

#[test]
fn refusal_29() {
    let mut keeper = table_one();
    refuses(&mut keeper, &short(8, 4, 1), 29, 4);
    accept_all(&mut keeper, &[short(8, 3, 20)]);
    refuses(&mut keeper, &by_privileges(10, &[3, 20]), 29, 10);
    refuses(&mut keeper, &short(4, 2, 20), 29, 4);
}

#[test]
fn refusal_30() {
    let mut keeper = table_one();
    accept_all(
        &mut keeper,
        &[short(10, 6, 2), short(10, 6, 3), by_privileges(10, &[40])],
    );
    accept_all(
        &mut keeper,
        &[short(10, 5, 10), short(10, 5, 2), short(10, 7, 10)],
    );
    refuses(&mut keeper, &short(8, 40, 1), 30, 5);
    accept_all(&mut keeper, &[short(8, 40, 2)]);
    refuses(&mut keeper, &short(10, 5, 3), 30, 5);
    refuses(&mut keeper, &short(10, 6, 10), 30, 6);
}

// ---- images ----

/// An image with these entries and a trailer that fits.
fn image(max: Set, roles: &[(u8, Set)], conflicts: &[(u8, u8)], seats: &[(u8, Set)]) -> Vec<u8> {
    let mut bytes = max.to_le_bytes().to_vec();
    for (role, set) in roles {
        bytes.push(*role);
        bytes.extend(set.to_le_bytes());
    }
    for (lower, higher) in conflicts {
        bytes.extend([*lower, *higher]);
    }
    for (seat, set) in seats {
        bytes.push(*seat);
        bytes.extend(set.to_le_bytes());
    }
    let distance = bytes.len() as u32 + 8;
    bytes.extend(distance.to_le_bytes());
    bytes.extend([roles.len() as u8, seats.len() as u8]);
    bytes.extend((conflicts.len() as u16).to_le_bytes());
    bytes
}

fn load_refuses(bytes: &[u8], number: u8) {
    let mut keeper = sample_state();
    assert_eq!(keeper.load(bytes), Err(number), "{bytes:?}");
    assert!(keeper == sample_state());
}

#[test]
fn refusal_6() {
    load_refuses(&[], 6);
    load_refuses(&[0; 15], 6);
    load_refuses(&[0; 16], 6);
    load_refuses(&sample_image()[1..], 6);
    for place in sample_image().len() - 8..sample_image().len() {
        let mut bytes = sample_image();
        bytes[place] ^= 1;
        load_refuses(&bytes, 6);
    }
    let mut long = vec![0xEE; 40];
    long.extend([41 + 8, 0, 0, 0, 0, 0, 0, 0]);
    load_refuses(&long, 6);
}

#[test]
fn refusal_7() {
    let role = [(2, 1)];
    load_refuses(&image(1, &[(0, 1)], &[], &[]), 7);
    load_refuses(&image(1, &[(1, 1)], &[], &[]), 7);
    load_refuses(&image(1, &[(64, 1)], &[], &[]), 7);
    load_refuses(&image(3, &[(3, 1), (2, 2)], &[], &[]), 7);
    load_refuses(&image(3, &[(2, 1), (2, 2)], &[], &[]), 7);
    load_refuses(&image(1, &role, &[(2, 1)], &[]), 7);
    load_refuses(&image(1, &role, &[(2, 2)], &[]), 7);
    load_refuses(&image(1, &role, &[(2, 64)], &[]), 7);
    load_refuses(&image(1, &role, &[(2, 4), (2, 3)], &[]), 7);
    load_refuses(&image(1, &role, &[(2, 4), (2, 4)], &[]), 7);
    load_refuses(&image(1, &role, &[(3, 4), (2, 5)], &[]), 7);
    load_refuses(&image(1, &role, &[], &[(64, 4)]), 7);
    load_refuses(&image(1, &role, &[], &[(5, 0)]), 7);
    load_refuses(&image(1, &role, &[], &[(5, 4 | 1)]), 7);
    load_refuses(&image(1, &role, &[], &[(5, 4 | 2)]), 7);
    load_refuses(&image(1, &role, &[], &[(5, 4 | 8)]), 7);
    load_refuses(&image(1, &role, &[], &[(5, 4), (5, 4)]), 7);
    load_refuses(&image(1, &role, &[], &[(6, 4), (5, 4)]), 7);
    // A later 7 comes before an earlier 8.
    load_refuses(&image(0, &[(2, 0)], &[], &[(5, 0)]), 7);
}

#[test]
fn refusal_7_above_the_largest_distance() {
    let roles: Vec<(u8, Set)> = (0..255).map(|number| (number, 1)).collect();
    let conflicts = vec![(1, 2); 3_000];
    load_refuses(&image(1, &roles, &conflicts, &[]), 7);
}

#[test]
fn refusal_8() {
    load_refuses(&image(1, &[(2, 0)], &[], &[]), 8);
    load_refuses(&image(1, &[(2, 1), (3, 1)], &[], &[]), 8);
    load_refuses(&image(3, &[(2, 3)], &[(0, 1)], &[]), 8);
    load_refuses(&image(3, &[(2, 1), (3, 2)], &[(0, 1)], &[(9, 12)]), 8);
    load_refuses(&image(1, &[(2, 1), (3, 2)], &[], &[]), 8);
    let mut keeper = sample_state();
    let sound = image(7, &[(2, 1), (3, 2)], &[(0, 1)], &[(9, 8)]);
    assert_eq!(keeper.load(&sound), Ok(()));
    assert_eq!(keeper.save(), sound);
    assert_eq!(keeper.direct(1), set(&[2]));
}

#[test]
fn refusal_9() {
    let keeper = sample_state();
    let mut short_buffer = vec![0xCC; 44];
    assert_eq!(keeper.save_into(&mut short_buffer), Err(9));
    assert_eq!(short_buffer, [0xCC; 44]);
    let mut long_buffer = vec![0xCC; 50];
    assert_eq!(keeper.save_into(&mut long_buffer), Ok(45));
    assert_eq!(long_buffer[..45], sample_image());
    assert_eq!(long_buffer[45..], [0xCC; 5]);
}
