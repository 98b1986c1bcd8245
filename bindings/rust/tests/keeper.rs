//! The wrapper over the archive: calls and their records, refusals and their words, asks, active roles, images, what a
//! keeper shows, and sheets.

use keeper::{
    block, image_length, import, import_into, tape_room, Answer, Call, Keeper, Refusal, Set,
    SheetRefusal, RECORD_LENGTH, WORDS,
};

/// Document 01's sample: its six calls, of which the fifth is refused.
const SAMPLE: [Call; 6] = [
    Call::AddByPrivileges {
        role: 2,
        effective: Set::of(&[0]),
    },
    Call::AddByPrivileges {
        role: 3,
        effective: Set::of(&[0, 1]),
    },
    Call::Declare {
        first: 0,
        second: 2,
    },
    Call::Assign { seat: 5, role: 3 },
    Call::Grant {
        privilege: 2,
        role: 2,
    },
    Call::Ask {
        seat: 5,
        privilege: 1,
    },
];

/// The state after the sample.
fn sample() -> Keeper {
    let mut keeper = Keeper::fresh();
    for call in &SAMPLE {
        let _ = keeper.call(call);
    }
    keeper
}

// ---- calls ----

/// A record by its first bytes and its sets.
fn bytes(front: [u8; 3], sets: [u64; 3]) -> Vec<u8> {
    let mut record = front.to_vec();
    record.resize(8, 0);
    record.extend(sets.iter().flat_map(|set| set.to_le_bytes()));
    record
}

#[test]
fn each_kind_with_sets_has_its_record() {
    let placed = Call::AddByPlace {
        role: 5,
        direct: Set::of(&[0, 1]),
        juniors: Set::of(&[2]),
        seniors: Set::of(&[63]),
    };
    has_record(placed, bytes([1, 5, 0], [3, 4, 1 << 63]));
    let effective = Set::of(&[0, 8]);
    let held = Call::AddByPrivileges { role: 5, effective };
    has_record(held, bytes([2, 5, 0], [257, 0, 0]));
}

#[test]
fn each_kind_without_sets_has_its_record() {
    let (role, seat, privilege) = (5, 6, 7);
    let (junior, senior, first, second) = (8, 9, 10, 11);
    let kinds = [
        (Call::RemoveRole { role, keep: false }, [3, 5, 0]),
        (Call::RemoveRole { role, keep: true }, [3, 5, 1]),
        (Call::Grant { privilege, role }, [4, 5, 7]),
        (Call::Withdraw { privilege, role }, [5, 5, 7]),
        (Call::AddEdge { junior, senior }, [6, 8, 9]),
        (Call::RemoveEdge { junior, senior }, [7, 8, 9]),
        (Call::Declare { first, second }, [8, 10, 11]),
        (Call::Lift { first, second }, [9, 10, 11]),
        (Call::Assign { seat, role }, [10, 6, 5]),
        (Call::Unassign { seat, role }, [11, 6, 5]),
        (Call::Ask { seat, privilege }, [12, 6, 7]),
        (Call::Exclude { first, second }, [13, 10, 11]),
        (Call::Activate { seat, role }, [14, 6, 5]),
        (Call::Deactivate { seat, role }, [15, 6, 5]),
    ];
    for (call, front) in kinds {
        has_record(call, bytes(front, [0; 3]));
    }
}

/// A call has this record, and the record is of this call.
fn has_record(call: Call, record: Vec<u8>) {
    assert_eq!(call.record()[..], record[..], "{call:?}");
    assert_eq!(Call::of_record(&record), Some(call));
    assert_eq!(call.kind(), record[0]);
}

/// A record is that of a call exactly when the keeper does not refuse it with 1.
#[test]
fn a_record_of_no_call_is_refused_with_1() {
    let mut keeper = sample();
    for kind in 0..=255 {
        for place in 0..33 {
            let mut record = bytes([kind, 5, 0], [0; 3]);
            record.push(0);
            record[place] ^= 2;
            for length in [31, 32, 33] {
                let given = &record[..length];
                let refused = keeper.record(given) == Err(Refusal::Malformed);
                assert_eq!(Call::of_record(given).is_none(), refused, "{given:?}");
            }
        }
    }
    assert_eq!(keeper.record(&[]), Err(Refusal::Malformed));
    assert_eq!(Call::of_record(&[]), None);
}

#[test]
fn the_sample_is_answered() {
    let mut keeper = Keeper::fresh();
    let answers = SAMPLE.map(|call| keeper.call(&call));
    let accepted = Ok(Answer::Accepted);
    let refused = Err(Refusal::RoleConflict { role: 2 });
    assert_eq!(answers[..4], [accepted; 4]);
    assert_eq!(answers[4..], [refused, Ok(Answer::Yes)]);
    let other = Call::Ask {
        seat: 4,
        privilege: 1,
    };
    assert_eq!(keeper.call(&other), Ok(Answer::No));
}

// ---- refusals ----

#[test]
fn every_refusal_has_its_number_place_and_words() {
    let mut words = Vec::new();
    for number in (1..=9).chain(20..=31).chain(34..=35) {
        let refusal = Refusal::of(number, 7);
        let place = if matches!(number, 1 | 6..=9) { 0 } else { 7 };
        assert_eq!(refusal.parts(), (number, place));
        assert!(!matches!(refusal, Refusal::Other { .. }), "{number}");
        let said = refusal.to_string();
        assert_eq!(said.contains('7'), place == 7, "{said}");
        assert!(!words.contains(&said), "{said}");
        words.push(said);
    }
    assert_eq!(Refusal::of(99, 7).to_string(), "refused with 99, place 7");
    assert_eq!(
        Refusal::of_answer(256 * 29 + 2),
        Refusal::RoleConflict { role: 2 }
    );
    assert_eq!(Refusal::of_answer(block::NO_STATE), Refusal::NoState);
}

#[test]
fn a_refused_call_changes_nothing() {
    let mut keeper = sample();
    let twin = Call::AddByPrivileges {
        role: 4,
        effective: Set::of(&[0]),
    };
    let seated = Call::RemoveRole {
        role: 3,
        keep: true,
    };
    let end = Call::Assign { seat: 5, role: 1 };
    let above = Call::Assign { seat: 64, role: 3 };
    assert_eq!(keeper.call(&twin), Err(Refusal::EqualRoles { role: 2 }));
    assert_eq!(keeper.call(&seated), Err(Refusal::RoleAssigned { seat: 5 }));
    assert_eq!(keeper.call(&end), Err(Refusal::EndRole { role: 1 }));
    assert_eq!(
        keeper.call(&above),
        Err(Refusal::UnknownNumber { number: 64 })
    );
    assert_eq!(keeper, sample());
}

// ---- asks ----

#[test]
fn asks_are_answered() {
    let keeper = sample();
    assert_eq!(keeper.ask(5, 1), Ok(true));
    assert_eq!(keeper.ask(5, 2), Ok(false));
    assert_eq!(keeper.ask(4, 1), Ok(false));
    assert_eq!(
        keeper.ask(64, 1),
        Err(Refusal::UnknownNumber { number: 64 })
    );
    assert_eq!(
        keeper.ask(5, 255),
        Err(Refusal::UnknownNumber { number: 255 })
    );
    assert_eq!(keeper.count_yes(&[[5, 0], [5, 1], [5, 2], [64, 0]]), 2);
}

#[test]
fn may_says_yes_where_the_ask_does_and_nowhere_else() {
    let mut keeper = Keeper::fresh();
    let every = Set(u64::MAX);
    let all = Call::AddByPrivileges {
        role: 2,
        effective: every,
    };
    assert_eq!(keeper.call(&all), Ok(Answer::Accepted));
    for seat in 0..64 {
        let given = Call::Assign { seat, role: 2 };
        assert_eq!(keeper.call(&given), Ok(Answer::Accepted));
    }
    let numbers = (0..400).chain([1 << 16, 1 << 24, 1 << 31, u32::MAX - 255, u32::MAX]);
    for number in numbers {
        assert_eq!(keeper.may(number, 0), number < 64);
        assert_eq!(keeper.may(0, number), number < 64);
    }
}

#[test]
fn a_short_block_says_no() {
    let words = [u64::MAX; WORDS];
    assert!(block::may(&words, 0, 0) && block::may_active(&words, 0, 0));
    for count in 0..WORDS {
        let short = &words[..count];
        assert!(!block::may(short, 0, 0) && !block::may_active(short, 0, 0));
        assert_eq!(block::ask(short, 0, 0), block::NO_STATE);
        assert_eq!(block::ask_active(short, 0, 0), block::NO_STATE);
        assert_eq!(block::active_roles(short, 0), 0);
        assert!(!block::is_excluded(short, 2, 3));
    }
}

// ---- sitting down in one role ----

/// Roles 2 {0} and 3 {1} exclude each other; role 4 {0,1,2} lies above both, and seat 5 has it.
const DESK: [Call; 5] = [
    Call::AddByPrivileges {
        role: 2,
        effective: Set::of(&[0]),
    },
    Call::AddByPrivileges {
        role: 3,
        effective: Set::of(&[1]),
    },
    Call::AddByPrivileges {
        role: 4,
        effective: Set::of(&[0, 1, 2]),
    },
    Call::Assign { seat: 5, role: 4 },
    Call::Exclude {
        first: 3,
        second: 2,
    },
];

/// Seat 5 switches a role on.
fn on(role: u8) -> Call {
    Call::Activate { seat: 5, role }
}

/// The state after the desk's calls and these, all of them accepted.
fn desk(calls: &[Call]) -> Keeper {
    let mut keeper = Keeper::fresh();
    for call in DESK.iter().chain(calls) {
        assert_eq!(keeper.call(call), Ok(Answer::Accepted), "{call:?}");
    }
    keeper
}

#[test]
fn a_seat_may_use_what_its_active_roles_reach() {
    let mut keeper = desk(&[on(2)]);
    assert_eq!(keeper.active_roles(5), Set::of(&[2]));
    assert!(keeper.may_active(5, 0) && !keeper.may_active(5, 1));
    assert!(keeper.may(5, 0) && keeper.may(5, 1) && keeper.may(5, 2));
    let off = Call::Deactivate { seat: 5, role: 2 };
    assert_eq!(keeper.call(&off), Ok(Answer::Accepted));
    assert_eq!(keeper.active_roles(5), Set::EMPTY);
    assert!(!keeper.may_active(5, 0) && keeper.may(5, 0));
    assert_eq!(keeper, desk(&[]));
}

/// Juniors of an active role are reached without being active themselves.
#[test]
fn an_active_role_reaches_its_juniors() {
    let mut keeper = desk(&[Call::RemoveRole {
        role: 3,
        keep: false,
    }]);
    assert!(keeper.exclusions().is_empty());
    assert_eq!(keeper.call(&on(4)), Ok(Answer::Accepted));
    assert_eq!(keeper.active_roles(5), Set::of(&[4]));
    assert!(keeper.may_active(5, 0) && keeper.may_active(5, 2));
}

#[test]
fn the_question_by_active_roles_fails_closed() {
    let keeper = desk(&[on(2)]);
    for number in [64, 255, 256, 256 + 5, 1 << 16, 1 << 31, u32::MAX] {
        assert!(!keeper.may_active(number, 0) && !keeper.may_active(5, number));
    }
    let above = |number| Err(Refusal::UnknownNumber { number });
    assert_eq!(keeper.ask_active(5, 0), Ok(true));
    assert_eq!(keeper.ask_active(5, 1), Ok(false));
    assert_eq!(keeper.ask_active(6, 0), Ok(false));
    assert_eq!(keeper.ask_active(64, 255), above(64));
    assert_eq!(keeper.ask_active(5, 255), above(255));
}

#[test]
fn roles_exclude_each_other_in_either_order() {
    let keeper = desk(&[]);
    assert!(keeper.is_excluded(2, 3) && keeper.is_excluded(3, 2));
    assert!(!keeper.is_excluded(2, 4) && !keeper.is_excluded(2, 2));
    assert!(!keeper.is_excluded(2, 255));
    assert_eq!(keeper.exclusions(), [(2, 3)]);
}

#[test]
fn what_is_wrong_with_a_sitting_is_refused() {
    let mut keeper = desk(&[on(2)]);
    let exclude = |first, second| Call::Exclude { first, second };
    let activate = |seat, role| Call::Activate { seat, role };
    let deactivate = |seat, role| Call::Deactivate { seat, role };
    let edge = Call::AddEdge {
        junior: 3,
        senior: 2,
    };
    let refused = [
        (exclude(64, 2), Refusal::UnknownNumber { number: 64 }),
        (exclude(2, 1), Refusal::EndRole { role: 1 }),
        (exclude(9, 9), Refusal::SameRole { role: 9 }),
        (exclude(2, 9), Refusal::RoleAbsent { role: 9 }),
        (exclude(2, 3), Refusal::AlreadySo { place: 2 }),
        (exclude(3, 2), Refusal::AlreadySo { place: 3 }),
        (exclude(4, 3), Refusal::Excluded { role: 3 }),
        (activate(5, 0), Refusal::EndRole { role: 0 }),
        (activate(5, 9), Refusal::RoleAbsent { role: 9 }),
        (activate(5, 2), Refusal::AlreadySo { place: 5 }),
        (activate(6, 2), Refusal::NotReached { seat: 6 }),
        (activate(5, 3), Refusal::Excluded { role: 2 }),
        (activate(5, 4), Refusal::Excluded { role: 2 }),
        (deactivate(64, 2), Refusal::UnknownNumber { number: 64 }),
        (deactivate(5, 9), Refusal::RoleAbsent { role: 9 }),
        (deactivate(5, 4), Refusal::NotSo { place: 5 }),
        (edge, Refusal::Excluded { role: 2 }),
    ];
    for (call, refusal) in refused {
        assert_eq!(keeper.call(&call), Err(refusal), "{call:?}");
        assert_eq!(keeper, desk(&[on(2)]));
    }
}

#[test]
fn a_role_that_no_assigned_role_reaches_is_switched_off() {
    let mut keeper = desk(&[on(2)]);
    let taken = Call::Unassign { seat: 5, role: 4 };
    assert_eq!(keeper.call(&taken), Ok(Answer::Accepted));
    assert_eq!(keeper.active_roles(5), Set::EMPTY);
    let given = Call::Assign { seat: 5, role: 4 };
    assert_eq!(keeper.call(&given), Ok(Answer::Accepted));
    assert!(!keeper.may_active(5, 0));
}

#[test]
fn no_image_keeps_exclusions_and_active_roles() {
    let mut keeper = desk(&[on(2)]);
    let image = keeper.save();
    let plain = Keeper::of_image(&image).expect("an image");
    assert_eq!(plain.save(), image);
    assert!(plain.exclusions().is_empty() && plain.active_roles(5).is_empty());
    assert_eq!(keeper.load(&image[1..]), Err(Refusal::NoImage));
    assert_eq!(keeper, desk(&[on(2)]));
    assert_eq!(keeper.load(&image), Ok(()));
    assert_eq!(keeper, plain);
}

// ---- images ----

#[test]
fn an_image_ends_the_bytes() {
    let keeper = sample();
    let image = keeper.save();
    let bytes = [b"lens file", &image[..]].concat();
    assert_eq!(image.len(), 45);
    assert_eq!(image_length(&image), Ok(45));
    assert_eq!(image_length(&bytes), Ok(45));
    assert_eq!(Keeper::of_image(&bytes), Ok(keeper));
}

#[test]
fn a_refused_image_keeps_the_state() {
    let mut keeper = sample();
    let image = keeper.save();
    let changed = |place: usize, byte| {
        let mut image = image.clone();
        image[place] = byte;
        image
    };
    let refused = [
        (image[..44].to_vec(), Refusal::NoImage),
        (changed(37, 46), Refusal::NoImage),
        (changed(8, 1), Refusal::BadEntry),
        (changed(9, 3), Refusal::BadContents),
        (Vec::new(), Refusal::NoImage),
    ];
    for (bytes, refusal) in refused {
        assert_eq!(keeper.load(&bytes), Err(refusal));
        assert_eq!(Keeper::of_image(&bytes), Err(refusal));
        assert_eq!(image_length(&bytes), Err(refusal));
        assert_eq!(keeper, sample());
    }
}

#[test]
fn a_short_buffer_is_left_alone() {
    let mut buffer = [0xA5; 50];
    let keeper = sample();
    assert_eq!(
        keeper.save_into(&mut buffer[..44]),
        Err(Refusal::ShortBuffer)
    );
    assert_eq!(buffer, [0xA5; 50]);
    assert_eq!(keeper.save_into(&mut buffer), Ok(45));
    assert_eq!(buffer[..45], keeper.save());
    assert_eq!(buffer[45..], [0xA5; 5]);
}

// ---- what a keeper shows ----

#[test]
fn a_keeper_shows_its_roles() {
    let keeper = sample();
    assert_eq!(keeper.roles(), Set::of(&[2, 3]));
    assert_eq!(keeper.edges(), [(0, 2), (2, 3), (3, 1)]);
    assert_eq!(keeper.edge_count(), 3);
    assert_eq!(keeper.effective(3), Set::of(&[0, 1]));
    assert_eq!(keeper.direct(3), Set::of(&[1]));
    assert_eq!(keeper.juniors(3), Set::of(&[2]));
    assert_eq!(keeper.seniors(3), Set::of(&[1]));
    assert!(keeper.is_below(2, 3) && !keeper.is_below(3, 2));
    assert_eq!(keeper.conflicts(), [(0, 2)]);
    assert!(keeper.is_declared(2, 0) && !keeper.is_declared(0, 1));
    assert_eq!(keeper.seat_roles(5), Set::of(&[3]));
    assert_eq!(keeper.seat_holds(5), Set::of(&[0, 1]));
    assert_eq!(keeper.words()[0], 0b1100);
    assert_eq!(Keeper::default(), Keeper::fresh());
}

#[test]
fn a_set_prints_its_members() {
    let printed = |members: &[u8]| Set::of(members).to_string();
    assert_eq!(printed(&[]), "{}");
    assert_eq!(printed(&[5]), "{5}");
    assert_eq!(printed(&[0, 1, 3]), "{0,1,3}");
    assert_eq!(printed(&[1, 2, 3, 4, 11, 62, 63]), "{1..4,11,62,63}");
    assert_eq!(Set(u64::MAX).to_string(), "{0..63}");
    assert_eq!(Set(u64::MAX).count(), 64);
    assert!(!Set(u64::MAX).has(64) && Set::EMPTY.is_empty());
}

#[test]
#[should_panic(expected = "0 to 63")]
fn a_set_has_no_member_64() {
    Set::of(&[64]);
}

// ---- sheets ----

/// Roles 2 {0}, 3 {0,63} and 0 {}, quoted here and there.
const SHEET: &[u8] = b"\"\",0,\"7\",63\r\n2,1,0,0\r\n\"3\",1,\"0\",1\r\n0,0,0,0\r\n";

/// The tape of that sheet.
fn sheet_tape() -> Vec<u8> {
    let rows = [(2, 1), (3, 1 | 1 << 63), (0, 0)];
    let records = rows.map(|(role, set)| bytes([2, role, 0], [set, 0, 0]));
    records.concat()
}

#[test]
fn a_sheet_becomes_its_tape() {
    assert_eq!(import(SHEET), Ok(sheet_tape()));
    let cut = &SHEET[..SHEET.len() - 2];
    assert_eq!(import(cut), Ok(sheet_tape()));
    assert_eq!(import(b",5"), Ok(Vec::new()));
    let mut keeper = Keeper::fresh();
    let answers: Vec<_> = sheet_tape()
        .chunks(RECORD_LENGTH)
        .map(|record| keeper.record(record))
        .collect();
    let accepted = Ok(Answer::Accepted);
    let end = Err(Refusal::EndRole { role: 0 });
    assert_eq!(answers, [accepted, accepted, end]);
}

#[test]
fn a_text_that_is_no_sheet_names_its_row() {
    let refused = [
        (&b""[..], 1),
        (b",0\n2,1\n", 1),
        (b",64\r\n", 1),
        (b",0\r\n2,1\r\n03,1\r\n", 3),
        (b",0\r\n2,1\r\n\r\n", 3),
    ];
    for (text, row) in refused {
        let refusal = SheetRefusal::BadSheet { row };
        assert_eq!(import(text), Err(refusal));
        assert_eq!(import_into(text, &mut []), Err(refusal));
    }
    let long = [b",0".to_vec(), b"\r\n2,1".repeat(70_000), b"\r\n2".to_vec()].concat();
    let refusal = import(&long).expect_err("the last row has one field");
    assert_eq!(refusal.parts(), (32, 70_002));
    assert_eq!((refusal.number(), refusal.place()), (32, 70_002));
    assert_eq!(
        refusal.to_string(),
        "row 70002 is not one of a sheet, or has a number out of range"
    );
}

#[test]
fn a_buffer_shorter_than_the_tape_is_left_alone() {
    let tape = sheet_tape();
    let mut buffer = [0xA5; 100];
    let short = import_into(SHEET, &mut buffer[..95]);
    assert_eq!(short, Err(SheetRefusal::ShortTape));
    assert_eq!(buffer, [0xA5; 100]);
    assert_eq!(SheetRefusal::ShortTape.parts(), (33, 0));
    let said = SheetRefusal::ShortTape.to_string();
    assert_eq!(said, "the buffer is shorter than the tape");
    assert_eq!(import_into(SHEET, &mut buffer[..96]), Ok(96));
    assert_eq!((&buffer[..96], &buffer[96..]), (&tape[..], &[0xA5; 4][..]));
    assert_eq!(import_into(SHEET, &mut buffer), Ok(96));
    assert_eq!(buffer[96..], [0xA5; 4]);
    assert_eq!(import_into(b",5\r\n", &mut []), Ok(0));
}

#[test]
fn the_room_takes_the_tape_of_every_sheet() {
    for rows in 0..50 {
        let text = [b",0".to_vec(), b"\r\n2,1".repeat(rows)].concat();
        assert_eq!(import(&text).map(|tape| tape.len()), Ok(32 * rows));
        assert!(tape_room(text.len()) >= 32 * rows);
    }
}

#[test]
fn the_archives_numbers_are_told_apart() {
    let mut tape = [0; 32];
    assert_eq!(block::import(b",0\r\n2,1", &mut tape), 32);
    let refused = block::NOT_IMPORTED + 2;
    assert_eq!(block::import(b",0\r\n2,2", &mut tape), refused);
    assert_eq!(
        block::import(b",0\r\n2,1", &mut tape[1..]),
        block::NOT_IMPORTED
    );
}
