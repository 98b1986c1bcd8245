//! A driver that runs a keeper and the reference side by side.

use crate::generate::{image_list, list, shrink, Mix, Step, MIXES};
use crate::random::Random;
use crate::reference::{has, members, one, Clash, Reference, Set};
use std::cell::Cell;
use std::fmt;
use std::panic::{catch_unwind, set_hook, take_hook, AssertUnwindSafe};
use std::sync::Once;

/// What a keeper shows of itself. Sets are words with member n at bit n.
///
/// `set`, `direct` and `juniors` are asked for the numbers 0 to 63 and are 0
/// for an absent role; `conflict` gives, under the lower privilege, the higher
/// ones; `seat` gives the roles of a seat. `pairs` gives, under the lower role,
/// the higher ones that it excludes; `active` gives the active roles of a seat.
pub trait Keeper {
    fn fresh() -> Self;
    /// Refusal number (0 for accepted) and place (1 or 0 for an ask).
    fn call(&mut self, record: &[u8]) -> (u8, u8);
    fn save(&self) -> Vec<u8>;
    /// 0 or the refusal.
    fn load(&mut self, bytes: &[u8]) -> u8;
    fn roles(&self) -> u64;
    fn set(&self, role: u8) -> u64;
    fn direct(&self, role: u8) -> u64;
    fn juniors(&self, role: u8) -> u64;
    fn conflict(&self, privilege: u8) -> u64;
    fn seat(&self, seat: u8) -> u64;
    fn edge_count(&self) -> u64;
    fn ask(&self, seat: u8, privilege: u8) -> (u8, u8);
    fn pairs(&self, role: u8) -> u64;
    fn active(&self, seat: u8) -> u64;
    /// Whether the seat's active roles reach one with the privilege: 2 and its
    /// place, or 0 and 1 for yes or 0 for no.
    fn question(&self, seat: u8, privilege: u8) -> (u8, u8);

    /// Saves into a lent buffer: (0, length written), or (9, 0). A keeper that
    /// fills buffers itself replaces this; else its vector is copied here.
    fn save_into(&self, buffer: &mut [u8]) -> (u8, usize) {
        let image = self.save();
        if buffer.len() < image.len() {
            return (9, 0);
        }
        buffer[..image.len()].copy_from_slice(&image);
        (0, image.len())
    }
}

// ---- the whole state as words ----

/// The reference's whole state, and what its question answers.
#[derive(Clone, PartialEq)]
pub struct Words {
    pub roles: Set,
    pub sets: [Set; 64],
    pub directs: [Set; 64],
    pub juniors: [Set; 64],
    pub conflicts: [Set; 64],
    pub seats: [Set; 64],
    pub edge_count: u64,
    pub exclusions: [Set; 64],
    pub active: [Set; 64],
    /// Under each seat, the privileges for which the question says yes.
    pub active_privileges: [Set; 64],
}

impl Words {
    pub fn of(reference: &Reference) -> Words {
        Words {
            roles: reference.roles(),
            sets: reference.sets(),
            directs: reference.directs(),
            juniors: reference.juniors(),
            conflicts: reference.conflicts(),
            seats: reference.seats(),
            edge_count: reference.edges().len() as u64,
            exclusions: reference.exclusions(),
            active: reference.active(),
            active_privileges: active_privileges(reference),
        }
    }

    /// Some pair and some active role are there.
    fn has_sitting(&self) -> bool {
        self.exclusions != [0; 64] && self.active != [0; 64]
    }

    /// Some active role of this state isn't active in the next.
    fn loses_active(&self, next: &Words) -> bool {
        let mut seats = self.active.iter().zip(&next.active);
        seats.any(|(before, after)| before & !after != 0)
    }
}

fn active_privileges(reference: &Reference) -> [Set; 64] {
    let yes = |seat: u8, privilege: u8| reference.question(seat, privilege).place == 1;
    let mut words = [0; 64];
    for seat in (0..64).filter(|seat| reference.active_of_seat(*seat) != 0) {
        let privileges = (0..64).filter(|privilege| yes(seat, *privilege));
        words[seat as usize] = privileges.fold(0, |set, privilege| set | one(privilege));
    }
    words
}

type Check = Result<(), String>;

fn same<T: PartialEq + fmt::Debug>(what: &str, keeper: T, reference: T) -> Check {
    if keeper == reference {
        return Ok(());
    }
    Err(format!(
        "{what}: keeper {keeper:?}, reference {reference:?}"
    ))
}

/// Compares one word for each of the numbers 0 to 63.
fn same_words(what: &str, keeper: impl Fn(u8) -> Set, reference: &[Set; 64]) -> Check {
    for (number, expected) in reference.iter().enumerate() {
        let found = keeper(number as u8);
        if found != *expected {
            return Err(format!(
                "{what} {number}: keeper {found:#018x}, reference {expected:#018x}"
            ));
        }
    }
    Ok(())
}

fn same_state<K: Keeper>(keeper: &K, words: &Words) -> Check {
    same("roles present", keeper.roles(), words.roles)?;
    same_words("set of role", |role| keeper.set(role), &words.sets)?;
    same_words(
        "direct set of role",
        |role| keeper.direct(role),
        &words.directs,
    )?;
    same_words(
        "juniors of role",
        |role| keeper.juniors(role),
        &words.juniors,
    )?;
    same_words(
        "conflicts of privilege",
        |lower| keeper.conflict(lower),
        &words.conflicts,
    )?;
    same_words("roles of seat", |seat| keeper.seat(seat), &words.seats)?;
    same("edge count", keeper.edge_count(), words.edge_count)?;
    same_words(
        "excluded by role",
        |role| keeper.pairs(role),
        &words.exclusions,
    )?;
    same_words(
        "active roles of seat",
        |seat| keeper.active(seat),
        &words.active,
    )
}

/// Compares the question for each seat.
fn same_questions<K: Keeper>(keeper: &K, words: &Words) -> Check {
    for seat in 0..64u8 {
        let yes = words.active_privileges[seat as usize];
        for privilege in members(asked_of(words, seat)) {
            let expected = (0, u8::from(has(yes, privilege)));
            let found = keeper.question(seat, privilege);
            if found != expected {
                let what = format!("question of seat {seat}, privilege {privilege}");
                return same(&what, found, expected);
            }
        }
    }
    Ok(())
}

/// The privileges to ask for: all of them where the seat has active roles, else
/// the lowest that its assigned roles hold, where the question still says no.
fn asked_of(words: &Words, seat: u8) -> Set {
    if words.active[seat as usize] != 0 {
        return Set::MAX;
    }
    let assigned = members(words.seats[seat as usize]).into_iter();
    let held = assigned.fold(0, |held, role| held | words.sets[role as usize]);
    match held {
        0 => one(seat),
        _ => held & held.wrapping_neg(),
    }
}

// ---- counting ----

/// Every refusal number is below this.
const NUMBERS: usize = 36;

/// The kinds are 1 to this.
const KINDS: usize = 15;

/// The refusal numbers of calls and images; 32 and 33 are the importer's.
fn refusals() -> impl Iterator<Item = usize> {
    (1..=9).chain(20..=31).chain(34..=35)
}

/// For each kind from 1, the refusals that can arise in it. Those left out
/// can't: kinds 2 and 3 change no seat's union for the worse, kinds 3, 5 and 7
/// only shrink sets, and kinds 3, 4, 6 and 7 empty no role.
///
/// 35 needs a role that newly lies below another, a pair or an active role.
/// Kind 2 and kind 3 with b 1 change no set of another ordinary role, so those
/// lie as they lay; kinds 8 to 12 and 15 change no graph and add no pair and
/// no active role. In kinds 1, 4 and 6 a senior's set grows around another,
/// and in kinds 3 with b 0, 5 and 7 a set shrinks into another.
const POSSIBLE: [&[usize]; KINDS] = [
    &[1, 2, 3, 5, 20, 21, 25, 27, 28, 29, 30, 35],
    &[1, 2, 3, 20, 27, 28, 29],
    &[1, 2, 3, 21, 24, 28, 35],
    &[1, 2, 3, 21, 22, 28, 29, 30, 35],
    &[1, 2, 3, 21, 23, 31, 27, 28, 35],
    &[1, 2, 3, 5, 21, 22, 25, 28, 29, 30, 35],
    &[1, 2, 3, 5, 21, 23, 26, 28, 35],
    &[1, 2, 4, 22, 29, 30],
    &[1, 2, 4, 23],
    &[1, 2, 3, 21, 22, 30],
    &[1, 2, 3, 21, 23],
    &[1, 2],
    &[1, 2, 3, 5, 21, 22, 35],
    &[1, 2, 3, 21, 22, 34, 35],
    &[1, 2, 3, 21, 23],
];

/// The ways a pair can clash, in the order of their discriminants.
const CLASHES: [(Clash, &str); 3] = [
    (Clash::Joined, "joined"),
    (Clash::ByOneMember, "by one member"),
    (Clash::ByTwoMembers, "by two members"),
];

/// Each kind that 35 can refuse can be refused in each way, but that kind 14
/// joins no roles.
fn can_clash(kind: usize, clash: Clash) -> bool {
    POSSIBLE[kind - 1].contains(&35) && (kind, clash) != (14, Clash::Joined)
}

/// The kinds that can switch an active role off. Kinds 1, 2, 4, 5 and 6 keep
/// every edge, and so every path: whatever an assigned role reached it still
/// reaches. Kind 3 puts edges in the place of the paths through a, so it
/// switches off a alone; kind 7 takes b's reach of a alone. The later kinds but
/// 11 take no edge and no assigned role, and what kind 15 takes out is no
/// switch-off.
const SWITCHING: [usize; 3] = [3, 7, 11];

/// What has been seen in a run.
#[derive(Clone, Debug)]
pub struct Counts {
    pub calls: usize,
    pub images: usize,
    pub lists: usize,
    pub saves: usize,
    pub reloads: usize,
    pub loaded: usize,
    /// By refusal number.
    pub refused: [usize; NUMBERS],
    /// Refused calls by kind, then by refusal number.
    pub refused_in_kind: [[usize; NUMBERS]; KINDS + 1],
    /// By kind.
    pub accepted: [usize; KINDS + 1],
    pub yes: usize,
    pub no: usize,
    /// Calls refused with 35 by kind, then by the way of the clash.
    pub clashed: [[usize; CLASHES.len()]; KINDS + 1],
    /// Accepted calls that switched an active role off, by kind.
    pub switched_off: [usize; KINDS + 1],
    /// Calls refused with 35 that would have switched an active role off.
    pub held_back: usize,
    pub question_yes: usize,
    pub question_no: usize,
    /// Loads that cleared pairs and active roles.
    pub cleared: usize,
    /// Refused loads beside pairs and active roles.
    pub kept: usize,
}

impl Counts {
    pub fn none() -> Counts {
        Counts {
            calls: 0,
            images: 0,
            lists: 0,
            saves: 0,
            reloads: 0,
            loaded: 0,
            refused: [0; NUMBERS],
            refused_in_kind: [[0; NUMBERS]; KINDS + 1],
            accepted: [0; KINDS + 1],
            yes: 0,
            no: 0,
            clashed: [[0; CLASHES.len()]; KINDS + 1],
            switched_off: [0; KINDS + 1],
            held_back: 0,
            question_yes: 0,
            question_no: 0,
            cleared: 0,
            kept: 0,
        }
    }

    fn call(&mut self, record: &[u8], answer: (u8, u8)) {
        self.calls += 1;
        match answer {
            (0, place) => self.accept(record[0], place),
            (number, _) => self.refuse(record.first().copied(), number as usize),
        }
    }

    fn refuse(&mut self, kind: Option<u8>, number: usize) {
        self.refused[number] += 1;
        let kind = kind.map_or(0, usize::from);
        if (1..=KINDS).contains(&kind) {
            self.refused_in_kind[kind][number] += 1;
        }
    }

    fn question(&mut self, answer: (u8, u8)) {
        match answer {
            (0, 1) => self.question_yes += 1,
            (0, _) => self.question_no += 1,
            _ => {}
        }
    }

    fn accept(&mut self, kind: u8, place: u8) {
        self.accepted[kind as usize] += 1;
        match (kind, place) {
            (12, 1) => self.yes += 1,
            (12, _) => self.no += 1,
            _ => {}
        }
    }

    fn image(&mut self, number: u8, before: &Words) {
        let sitting = usize::from(before.has_sitting());
        self.images += 1;
        match number {
            0 => {
                self.loaded += 1;
                self.cleared += sitting;
            }
            _ => {
                self.refused[number as usize] += 1;
                self.kept += sitting;
            }
        }
    }

    /// All that a run should see and this one hasn't.
    pub fn missing(&self) -> Vec<String> {
        let unseen = refusals().filter(|number| self.refused[*number] == 0);
        let mut missing: Vec<String> = unseen.map(|number| format!("refusal {number}")).collect();
        let idle = (1..=KINDS).filter(|kind| self.accepted[*kind] == 0);
        missing.extend(idle.map(|kind| format!("kind {kind} accepted")));
        let others = [
            (self.yes, "an ask's yes"),
            (self.no, "an ask's no"),
            (self.loaded, "a loaded image"),
            (self.saves, "a save"),
            (self.reloads, "a reload"),
            (self.question_yes, "a question's yes"),
            (self.question_no, "a question's no"),
            (self.held_back, "a switch-off that 35 holds back"),
            (self.cleared, "a load that clears"),
            (self.kept, "a refused load that keeps"),
        ];
        missing.extend(self.missing_in_kinds());
        missing.extend(self.missing_clashes());
        let idle = SWITCHING
            .iter()
            .filter(|kind| self.switched_off[**kind] == 0);
        missing.extend(idle.map(|kind| format!("kind {kind} switching off")));
        missing.extend(
            others
                .iter()
                .filter(|(count, _)| *count == 0)
                .map(|o| o.1.to_string()),
        );
        missing
    }
}

impl Counts {
    fn missing_in_kinds(&self) -> Vec<String> {
        let mut missing = Vec::new();
        for (place, numbers) in POSSIBLE.iter().enumerate() {
            let seen = &self.refused_in_kind[place + 1];
            let unseen = numbers.iter().filter(|number| seen[**number] == 0);
            missing.extend(unseen.map(|number| format!("kind {} refused {number}", place + 1)));
        }
        missing
    }

    fn missing_clashes(&self) -> Vec<String> {
        let seen = self.seen_clashes().into_iter();
        let unseen = seen.filter(|(_, _, count)| *count == 0);
        unseen
            .map(|(kind, way, _)| format!("kind {kind} refused 35 {way}"))
            .collect()
    }

    /// Each kind that 35 can refuse, each way of the clash, and how often.
    fn seen_clashes(&self) -> Vec<(usize, &'static str, usize)> {
        let mut seen = Vec::new();
        for kind in 1..=KINDS {
            let ways = CLASHES.iter().filter(|(clash, _)| can_clash(kind, *clash));
            seen.extend(ways.map(|(clash, way)| (kind, *way, self.clashed[kind][*clash as usize])));
        }
        seen
    }
}

impl fmt::Display for Counts {
    fn fmt(&self, out: &mut fmt::Formatter) -> fmt::Result {
        writeln!(
            out,
            "lists {}, calls {}, images {}",
            self.lists, self.calls, self.images
        )?;
        writeln!(
            out,
            "loaded {}, saves {}, reloads {}, yes {}, no {}",
            self.loaded, self.saves, self.reloads, self.yes, self.no
        )?;
        write!(out, "accepted by kind:")?;
        for kind in 1..=KINDS {
            write!(out, " {kind}:{}", self.accepted[kind])?;
        }
        write!(out, "\nrefused by number:")?;
        for number in refusals() {
            write!(out, " {number}:{}", self.refused[number])?;
        }
        for kind in 1..=KINDS {
            write!(out, "\nkind {kind} refused:")?;
            for number in refusals().filter(|number| self.refused_in_kind[kind][*number] > 0) {
                write!(out, " {number}:{}", self.refused_in_kind[kind][number])?;
            }
        }
        for (kind, way, count) in self.seen_clashes() {
            write!(out, "\nkind {kind} refused 35 {way}: {count}")?;
        }
        write!(out, "\nswitched off by kind:")?;
        for kind in SWITCHING {
            write!(out, " {kind}:{}", self.switched_off[kind])?;
        }
        write!(
            out,
            "; held back by 35: {}\nquestions: yes {}, no {}; loads that clear {}, refused loads that keep {}",
            self.held_back, self.question_yes, self.question_no, self.cleared, self.kept
        )
    }
}

// ---- one list, side by side ----

struct Pair<K> {
    keeper: K,
    reference: Reference,
    words: Words,
}

impl<K: Keeper> Pair<K> {
    fn fresh() -> Pair<K> {
        let reference = Reference::fresh();
        let words = Words::of(&reference);
        Pair {
            keeper: K::fresh(),
            reference,
            words,
        }
    }

    /// Takes a step on both sides and compares the answer and the state.
    fn take(&mut self, step: &Step, counts: &mut Counts) -> Check {
        match step {
            Step::Call(record) => self.take_call(record, counts)?,
            Step::Load(bytes) => self.take_load(bytes, counts)?,
            Step::Save => self.take_save(counts)?,
            Step::Reload(ahead) => self.take_reload(ahead, counts)?,
            Step::Ask(seat, privilege) => self.take_ask(*seat, *privilege, counts)?,
            Step::AskAll => self.take_ask_all(counts)?,
        }
        self.same_all()
    }

    fn same_all(&self) -> Check {
        same_state(&self.keeper, &self.words)?;
        same_questions(&self.keeper, &self.words)
    }

    fn take_call(&mut self, record: &[u8], counts: &mut Counts) -> Check {
        let found = self.keeper.call(record);
        let answer = self.reference.call(record);
        let expected = (answer.number, answer.place);
        counts.call(record, expected);
        match answer.number {
            0 => self.accept(record[0], counts),
            35 => self.count_clash(record, counts),
            _ => {}
        }
        same("answer (number, place)", found, expected)
    }

    fn accept(&mut self, kind: u8, counts: &mut Counts) {
        let before = std::mem::replace(&mut self.words, Words::of(&self.reference));
        if kind != 15 && before.loses_active(&self.words) {
            counts.switched_off[kind as usize] += 1;
        }
    }

    /// Counts how the pair clashes that 35 names, and a switch-off that the
    /// refusal holds back. The refused record finds the state as it was.
    fn count_clash(&self, record: &[u8], counts: &mut Counts) {
        if let Some((clash, switching)) = self.reference.clash_of(record) {
            counts.clashed[record[0] as usize][clash as usize] += 1;
            counts.held_back += usize::from(switching);
        }
    }

    fn take_load(&mut self, bytes: &[u8], counts: &mut Counts) -> Check {
        let found = self.keeper.load(bytes);
        let expected = self.reference.load(bytes).err().unwrap_or(0);
        counts.image(expected, &self.words);
        if expected == 0 {
            self.words = Words::of(&self.reference);
        }
        same("answer of loading", found, expected)
    }

    fn take_save(&self, counts: &mut Counts) -> Check {
        counts.saves += 1;
        let image = self.reference.save();
        same_bytes("saved image", &self.keeper.save(), &image)?;
        for length in [
            0,
            image.len() / 2,
            image.len() - 1,
            image.len(),
            image.len() + 13,
        ] {
            self.save_into_length(length, counts)?;
        }
        Ok(())
    }

    fn save_into_length(&self, length: usize, counts: &mut Counts) -> Check {
        const FILLER: u8 = 0xA5;
        let mut found = vec![FILLER; length];
        let mut expected = vec![FILLER; length];
        let answer = self.keeper.save_into(&mut found);
        let wanted = match self.reference.save_into(&mut expected) {
            Ok(written) => (0, written),
            Err(number) => (number, 0),
        };
        if wanted.0 == 9 {
            counts.refused[9] += 1;
        }
        same("answer of saving (number, length)", answer, wanted)?;
        same_bytes("buffer after saving", &found, &expected)
    }

    fn take_reload(&mut self, ahead: &[u8], counts: &mut Counts) -> Check {
        counts.reloads += 1;
        let image = self.keeper.save();
        same_bytes("saved image", &image, &self.reference.save())?;
        let bytes = [ahead, &image].concat();
        self.keeper = K::fresh();
        same("answer of reloading", self.keeper.load(&bytes), 0)?;
        self.reload_reference(&bytes)
    }

    fn reload_reference(&mut self, bytes: &[u8]) -> Check {
        let mut reference = Reference::fresh();
        let loaded = reference.load(bytes) == Ok(());
        let alike = reference.is_saved_alike(&self.reference);
        self.reference = reference;
        self.words = Words::of(&self.reference);
        if !loaded || !alike {
            return Err("the reference's own image doesn't load as the graph saved".to_string());
        }
        Ok(())
    }

    fn take_ask(&self, seat: u8, privilege: u8, counts: &mut Counts) -> Check {
        let answer = self.reference.ask(seat, privilege);
        let question = self.reference.question(seat, privilege);
        let expected = [answer, question].map(|answer| (answer.number, answer.place));
        counts.question(expected[1]);
        let found = [
            self.keeper.ask(seat, privilege),
            self.keeper.question(seat, privilege),
        ];
        if found == expected {
            return Ok(());
        }
        let what = format!("ask and question of seat {seat}, privilege {privilege}");
        same(&what, found, expected)
    }

    fn take_ask_all(&self, counts: &mut Counts) -> Check {
        for seat in 0..=64 {
            for privilege in 0..=64 {
                self.take_ask(seat, privilege, counts)?;
            }
        }
        Ok(())
    }
}

fn same_bytes(what: &str, keeper: &[u8], reference: &[u8]) -> Check {
    if keeper == reference {
        return Ok(());
    }
    Err(format!(
        "{what}:\n  keeper    {}\n  reference {}",
        hex(keeper),
        hex(reference)
    ))
}

/// The step of a list at which the two differ, from 0, and how.
#[derive(Clone, Debug)]
pub struct Difference {
    pub at: usize,
    pub text: String,
}

/// Runs the list on a fresh keeper and a fresh reference. A panic counts as a
/// difference.
pub fn first_difference<K: Keeper>(steps: &[Step], counts: &mut Counts) -> Option<Difference> {
    let mut at = 0;
    let walk = AssertUnwindSafe(|| walk::<K>(steps, counts, &mut at));
    let text = match catch_unwind(walk) {
        Ok(Ok(())) => return None,
        Ok(Err(text)) => text,
        Err(_) => "panic".to_string(),
    };
    Some(Difference { at, text })
}

fn walk<K: Keeper>(steps: &[Step], counts: &mut Counts, at: &mut usize) -> Check {
    let mut pair: Pair<K> = Pair::fresh();
    pair.same_all()?;
    for (place, step) in steps.iter().enumerate() {
        *at = place;
        pair.take(step, counts)?;
    }
    Ok(())
}

// ---- the driver ----

/// Why a run fails.
#[derive(Clone, Debug)]
pub enum Failure {
    /// Keeper and reference differ on this list, shrunk.
    Differs {
        seed: u64,
        steps: Vec<Step>,
        difference: Difference,
    },
    /// All agrees, but the run hasn't seen all that it should.
    Unseen {
        seed: u64,
        missing: Vec<String>,
        counts: Box<Counts>,
    },
}

fn hex(bytes: &[u8]) -> String {
    bytes.iter().map(|byte| format!("{byte:02X}")).collect()
}

fn step_text(step: &Step) -> String {
    match step {
        Step::Call(record) => format!("call {}", hex(record)),
        Step::Load(bytes) => format!("load {}", hex(bytes)),
        Step::Save => "save".to_string(),
        Step::Reload(ahead) => format!("reload behind [{}]", hex(ahead)),
        Step::Ask(seat, privilege) => format!("ask {seat} {privilege}"),
        Step::AskAll => "ask all".to_string(),
    }
}

impl fmt::Display for Failure {
    fn fmt(&self, out: &mut fmt::Formatter) -> fmt::Result {
        match self {
            Failure::Differs {
                seed,
                steps,
                difference,
            } => {
                writeln!(out, "seed {seed:#x}: differs at step {}", difference.at + 1)?;
                for (place, step) in steps.iter().enumerate() {
                    writeln!(out, "{:>4} {}", place + 1, step_text(step))?;
                }
                write!(out, "{}", difference.text)
            }
            Failure::Unseen {
                seed,
                missing,
                counts,
            } => {
                writeln!(out, "seed {seed:#x}: never seen: {}", missing.join(", "))?;
                write!(out, "{counts}")
            }
        }
    }
}

thread_local! {
    static QUIET: Cell<bool> = const { Cell::new(false) };
}

/// Does the work without the messages of panics on this thread.
pub(crate) fn quietly<T>(work: impl FnOnce() -> T) -> T {
    static HOOK: Once = Once::new();
    HOOK.call_once(|| {
        let usual = take_hook();
        set_hook(Box::new(move |panic| {
            if !QUIET.get() {
                usual(panic);
            }
        }));
    });
    QUIET.set(true);
    let result = work();
    QUIET.set(false);
    result
}

/// The shortest list found that differs, with its first difference.
fn shortest<K: Keeper>(seed: u64, steps: &[Step], found: Difference) -> Failure {
    let probe = |steps: &[Step]| first_difference::<K>(steps, &mut Counts::none());
    let front = &steps[..steps.len().min(found.at + 1)];
    let steps = quietly(|| shrink(front, |part| probe(part).is_some()));
    let difference = quietly(|| probe(&steps)).unwrap_or(found);
    Failure::Differs {
        seed,
        steps,
        difference,
    }
}

/// Runs at least `calls` calls and `images` images; gives what was seen, or
/// the first failure. The seed decides all the lists.
pub fn run<K: Keeper>(seed: u64, calls: usize, images: usize) -> Result<Counts, Failure> {
    let mut random = Random::new(seed);
    let mut counts = Counts::none();
    while counts.calls < calls {
        let mix = MIXES[counts.lists % MIXES.len()];
        let steps = list(&mut random, mix);
        take_list::<K>(seed, &steps, &mut counts)?;
    }
    while counts.images < images {
        let steps = image_list(&mut random);
        take_list::<K>(seed, &steps, &mut counts)?;
    }
    let missing = counts.missing();
    if missing.is_empty() {
        Ok(counts)
    } else {
        Err(Failure::Unseen {
            seed,
            missing,
            counts: Box::new(counts),
        })
    }
}

fn take_list<K: Keeper>(seed: u64, steps: &[Step], counts: &mut Counts) -> Result<(), Failure> {
    counts.lists += 1;
    match first_difference::<K>(steps, counts) {
        None => Ok(()),
        Some(found) => Err(shortest::<K>(seed, steps, found)),
    }
}

/// Runs, prints what was seen or the failure, and says whether all agrees.
pub fn run_and_print<K: Keeper>(seed: u64, calls: usize, images: usize) -> bool {
    match run::<K>(seed, calls, images) {
        Ok(counts) => {
            println!("{counts}\nagrees");
            true
        }
        Err(failure) => {
            println!("{failure}");
            false
        }
    }
}

/// The share of calls that the reference accepts in lists of one mix.
pub fn accepted_share(seed: u64, mix: Mix, lists: usize) -> f64 {
    let mut random = Random::new(seed);
    let mut counts = Counts::none();
    for _ in 0..lists {
        let steps = list(&mut random, mix);
        let difference = first_difference::<Reference>(&steps, &mut counts);
        assert!(difference.is_none());
    }
    counts.accepted.iter().sum::<usize>() as f64 / counts.calls as f64
}

// ---- the reference as a keeper ----

impl Keeper for Reference {
    fn fresh() -> Reference {
        Reference::fresh()
    }

    fn call(&mut self, record: &[u8]) -> (u8, u8) {
        let answer = Reference::call(self, record);
        (answer.number, answer.place)
    }

    fn save(&self) -> Vec<u8> {
        Reference::save(self)
    }

    fn load(&mut self, bytes: &[u8]) -> u8 {
        Reference::load(self, bytes).err().unwrap_or(0)
    }

    fn roles(&self) -> u64 {
        Reference::roles(self)
    }

    fn set(&self, role: u8) -> u64 {
        self.effective(role)
    }

    fn direct(&self, role: u8) -> u64 {
        Reference::direct(self, role)
    }

    fn juniors(&self, role: u8) -> u64 {
        self.juniors_of(role)
    }

    fn conflict(&self, privilege: u8) -> u64 {
        self.conflicts_of(privilege)
    }

    fn seat(&self, seat: u8) -> u64 {
        self.roles_of_seat(seat)
    }

    fn edge_count(&self) -> u64 {
        self.edges().len() as u64
    }

    fn ask(&self, seat: u8, privilege: u8) -> (u8, u8) {
        let answer = Reference::ask(self, seat, privilege);
        (answer.number, answer.place)
    }

    fn pairs(&self, role: u8) -> u64 {
        self.exclusions_of(role)
    }

    fn active(&self, seat: u8) -> u64 {
        self.active_of_seat(seat)
    }

    fn question(&self, seat: u8, privilege: u8) -> (u8, u8) {
        let answer = Reference::question(self, seat, privilege);
        (answer.number, answer.place)
    }

    fn save_into(&self, buffer: &mut [u8]) -> (u8, usize) {
        match Reference::save_into(self, buffer) {
            Ok(written) => (0, written),
            Err(number) => (number, 0),
        }
    }
}
