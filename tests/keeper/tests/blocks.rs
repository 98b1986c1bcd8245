//! Blocks of any length and any contents: every function answers, and touches only what it should.

use keeper::block::{self, LONGEST_IMAGE, NOT_SAVED, NO_STATE, WORDS};
use role_reference::generate::random_state;
use role_reference::random::{printed_seed, Random};

const FILLER: u8 = 0xA5;

/// How many of a state's words an image keeps.
const SAVED: usize = 193;

/// A word with few, some or all kinds of members.
fn word(random: &mut Random) -> u64 {
    match random.under(5) {
        0 => 0,
        1 => 1 << random.under(64),
        2 => random.word() & random.word() & random.word(),
        3 => u64::MAX,
        _ => random.word(),
    }
}

fn words(random: &mut Random, count: usize) -> Vec<u64> {
    (0..count).map(|_| word(random)).collect()
}

/// A record of any bytes, most of them of a known kind with small numbers.
fn record(random: &mut Random) -> Vec<u8> {
    let length = match random.under(8) {
        0 => random.under(70),
        _ => 32,
    };
    let mut record = random.bytes(length);
    if random.under(8) > 0 && length == 32 {
        record[0] = random.between(1, 15) as u8;
        record[1] &= 127;
        record[2] &= 127;
        record[3..8].fill(0);
    }
    if random.under(4) > 0 && length == 32 && record[0] > 1 {
        record[16..].fill(0);
        record[8..16].fill(0);
    }
    record
}

// ---- short blocks ----

/// What changes nothing, of a block without a state.
fn shows_nothing(words: &[u64], a: u8, b: u8) {
    assert!(!block::may(words, a.into(), b.into()));
    assert_eq!(block::ask(words, a, b), NO_STATE);
    assert!(!block::may_active(words, a.into(), b.into()));
    assert_eq!(block::ask_active(words, a, b), NO_STATE);
    assert_eq!(block::active_roles(words, a), 0);
    assert!(!block::is_excluded(words, a, b));
    assert_eq!(block::count_yes(words, &[a, b]), 0);
    assert_eq!(block::edge_count(words), 0);
    assert_eq!(block::effective(words, a), 0);
    assert_eq!(block::direct(words, a), 0);
    assert_eq!(block::juniors(words, a), 0);
    assert_eq!(block::seniors(words, a), 0);
    assert!(!block::is_below(words, a, b));
    assert!(!block::is_declared(words, a, b));
    assert_eq!(block::seat_roles(words, a), 0);
    assert_eq!(block::seat_holds(words, a), 0);
}

#[test]
fn a_short_block_is_left_alone() {
    let mut random = Random::new(printed_seed());
    for count in 0..WORDS {
        let before = words(&mut random, count);
        let mut after = before.clone();
        let bytes = record(&mut random);
        let mut buffer = vec![FILLER; random.under(6000)];
        shows_nothing(&before, random.byte(), random.byte());
        assert_eq!(block::fresh(&mut after), NO_STATE);
        assert_eq!(block::call(&mut after, &bytes), NO_STATE);
        assert_eq!(block::load(&mut after, &bytes), NO_STATE);
        assert_eq!(block::save(&after, &mut buffer), NOT_SAVED + NO_STATE);
        assert_eq!(after, before);
        assert!(buffer.iter().all(|byte| *byte == FILLER));
    }
}

// ---- any contents ----

fn bit(set: u64, member: u8) -> bool {
    member < 64 && set >> member & 1 == 1
}

/// The word at a table's place, or 0 for a number that has none.
fn entry(words: &[u64], table: usize, number: u8) -> u64 {
    match number {
        0..=63 => words[table + number as usize],
        _ => 0,
    }
}

fn shows_its_words(words: &[u64], a: u8, b: u8) {
    assert_eq!(block::effective(words, a), entry(words, 1, a));
    assert_eq!(block::seat_roles(words, a), entry(words, 129, a));
    let declared = a != b && bit(entry(words, 65, a.min(b)), a.max(b));
    assert_eq!(block::is_declared(words, a, b), declared);
    let roles = (0..64).filter(|role| bit(entry(words, 129, a), *role));
    let held = roles.fold(0, |held, role| held | entry(words, 1, role));
    assert_eq!(block::seat_holds(words, a), held);
    assert_eq!(block::ask(words, a, b), answered(a, b, bit(held, b)));
    may_as_asked(block::may, block::ask, words, a, b);
}

/// The answer to a question about a seat and a privilege, by what it is for known numbers.
fn answered(seat: u8, privilege: u8, yes: bool) -> u32 {
    match (seat, privilege) {
        (64.., _) => 512 + u32::from(seat),
        (_, 64..) => 512 + u32::from(privilege),
        _ => yes.into(),
    }
}

type May = fn(&[u64], u32, u32) -> bool;
type Ask = fn(&[u64], u8, u8) -> u32;

/// A yes is what the ask answers with 1, and no number that a byte narrows is taken for another.
fn may_as_asked(may: May, ask: Ask, words: &[u64], a: u8, b: u8) {
    let asked = ask(words, a, b) == 1;
    let (a, b) = (u32::from(a), u32::from(b));
    assert_eq!(may(words, a, b), asked);
    for far in [256, 512, 1 << 16, 1 << 31] {
        assert!(!may(words, a + far, b));
        assert!(!may(words, a, b + far));
    }
}

/// The words of exclusions and active roles, and the question by the latter.
fn shows_its_sitting(words: &[u64], a: u8, b: u8) {
    let active = entry(words, 257, a);
    assert_eq!(block::active_roles(words, a), active);
    let excluded = a != b && bit(entry(words, 193, a.min(b)), a.max(b));
    assert_eq!(block::is_excluded(words, a, b), excluded);
    let reaches = |role, low| role == low || block::is_below(words, low, role);
    let reached = |low| (0..64).any(|role| bit(active, role) && reaches(role, low));
    let yes = (0..64).any(|low| bit(entry(words, 1, low), b) && reached(low));
    assert_eq!(block::ask_active(words, a, b), answered(a, b, yes));
    may_as_asked(block::may_active, block::ask_active, words, a, b);
}

/// The yeses among many asks are those that each ask gives by itself; a byte left over asks nothing.
fn counts_yeses(random: &mut Random, words: &[u64]) {
    let length = random.under(40);
    let asks: Vec<u8> = random.bytes(length).iter().map(|byte| byte % 80).collect();
    let yes = |ask: &[u8]| block::ask(words, ask[0], ask[1]) == 1;
    let yeses = asks.chunks_exact(2).filter(|ask| yes(ask)).count();
    assert_eq!(block::count_yes(words, &asks), yeses as u64);
}

fn shows_one_graph(words: &[u64], a: u8, b: u8) {
    let joined = bit(block::juniors(words, b), a);
    assert_eq!(joined, bit(block::seniors(words, a), b));
    assert!(!joined || block::is_below(words, a, b));
    let kept = block::direct(words, a) & block::effective(words, a);
    assert_eq!(block::direct(words, a), kept);
    let edges = (0..64).map(|role| block::juniors(words, role).count_ones());
    assert_eq!(block::edge_count(words), edges.sum::<u32>());
}

/// A refused call leaves the block, and no call touches words behind it.
fn takes(random: &mut Random, words: &mut [u64], load: bool) {
    let before = words.to_vec();
    let bytes = record(random);
    let answer = match load {
        true => block::load(words, &bytes),
        false => block::call(words, &bytes),
    };
    assert!(answer < 36 * 256, "{answer}");
    assert_eq!(words[WORDS..], before[WORDS..]);
    if answer >= 256 {
        assert_eq!(words, before);
    }
}

fn saves(words: &[u64], length: usize) {
    let mut whole = [FILLER; LONGEST_IMAGE];
    let written = block::save(words, &mut whole) as usize;
    let mut buffer = vec![FILLER; length];
    let answer = block::save(words, &mut buffer);
    let written = if length < written { 0 } else { written };
    let expected = if written == 0 {
        NOT_SAVED + 9 * 256
    } else {
        written as u32
    };
    assert_eq!(answer, expected);
    assert_eq!(buffer[..written], whole[..written]);
    assert!(buffer[written..].iter().all(|byte| *byte == FILLER));
}

#[test]
fn any_contents_get_an_answer() {
    let mut random = Random::new(printed_seed());
    for _ in 0..2_000 {
        let count = WORDS + random.under(40);
        let mut words = words(&mut random, count);
        for _ in 0..10 {
            let load = random.one_in(8);
            takes(&mut random, &mut words, load);
            shows_its_words(&words, random.byte() & 127, random.byte() & 127);
            shows_its_sitting(&words, random.byte() & 127, random.byte() & 127);
            shows_one_graph(&words, random.byte() & 63, random.byte() & 63);
            counts_yeses(&mut random, &words);
        }
        saves(&words, random.under(6000));
    }
}

#[test]
fn fresh_touches_its_words_alone() {
    let mut random = Random::new(printed_seed());
    for count in WORDS..WORDS + 40 {
        let before = words(&mut random, count);
        let mut after = before.clone();
        assert_eq!(block::fresh(&mut after), 0);
        assert!(after[..WORDS].iter().all(|word| *word == 0));
        assert_eq!(after[WORDS..], before[WORDS..]);
    }
}

/// The image of a state, loaded over words of any contents, leaves the words that it keeps as they are and clears the others.
#[test]
fn a_load_clears_what_no_image_keeps() {
    let mut random = Random::new(printed_seed());
    for _ in 0..300 {
        let saved = random_state(&mut random).save();
        let mut words = words(&mut random, WORDS + 1);
        let behind = words[WORDS];
        assert_eq!(block::load(&mut words, &saved), 0);
        assert!(words[SAVED..WORDS].iter().all(|word| *word == 0));
        assert_eq!(words[WORDS], behind);
        let (kept, mut image) = (words.clone(), [FILLER; LONGEST_IMAGE]);
        words[SAVED..WORDS].fill(u64::MAX);
        let length = block::save(&words, &mut image) as usize;
        assert_eq!(image[..length], saved);
        assert_eq!(block::load(&mut words, &image[..length]), 0);
        assert_eq!(words, kept);
    }
}
