//! Prints the table: each row is one piece of work, the keeper and plain Rust on the same data in the same run.
//!
//! `bench [WORD]` prints the rows whose names have the word.

use bench::plain::{Plain, LARGEST_IMAGE, RECORD_LENGTH};
use bench::side::{copied, loaded, saved, unsaved, Side};
use bench::timing::{time_restored, time_steady, Timed};
use bench::work::{
    active_count, answered, largest, middling, pair_count, refused_sheet, shape, sheet, sitting,
    switching_off, tape, Shape, ON_SITTING, REFUSED, SHEET_ROLES, SPARE,
};
use role_reference::generate::short;
use std::fmt::{Debug, Display};
use std::fs::File;
use std::hint::black_box;
use std::io;
use std::path::{Path, PathBuf};
use std::process::{Command, Stdio};

#[cfg(archive)]
type Keeper = bench::keeper::Kept;
/// Without the archive the table still shows how far two times of one program lie apart.
#[cfg(not(archive))]
type Keeper = Plain;

/// What the design allows: the keeper's time over that of plain Rust, and layers over a chain.
const MOST: f64 = 1.5;
const MOST_OF_LAYERS: f64 = 2.0;

const TAPE_RECORDS: usize = 1_000_000;
const TAPE_RUNS: usize = 9;

const NAMES: [&str; 15] = [
    "add by place",
    "add by privileges",
    "remove role",
    "grant",
    "withdraw",
    "add edge",
    "remove edge",
    "declare",
    "lift",
    "assign",
    "unassign",
    "ask",
    "exclude",
    "activate",
    "deactivate",
];

/// What a kind is called in the table.
fn kind_name(kind: u8) -> String {
    format!("kind {kind}, {}", NAMES[kind as usize - 1])
}

/// The table under way: the word that its rows have, the title of the rows to come, and how many rows there are and how
/// many lie above what is allowed.
struct Table {
    word: String,
    title: String,
    rows: usize,
    above: usize,
}

impl Table {
    fn wants(&self, name: &str) -> bool {
        name.contains(&self.word)
    }

    fn title(&mut self, title: &str) {
        self.title = title.to_string();
    }

    fn row(&mut self, name: &str, timed: &Timed) {
        if !self.title.is_empty() {
            let title = std::mem::take(&mut self.title);
            println!();
            print_row(&title, "keeper ns", "plain ns", "ratio", "");
        }
        let above = timed.ratio.median > MOST;
        let mark = if above { " *" } else { "" };
        print_row(name, timed.first, timed.second, timed.ratio, mark);
        self.rows += 1;
        self.above += above as usize;
    }

    /// An operation that leaves the state as it is.
    fn steady<A: PartialEq + Debug>(
        &mut self,
        name: &str,
        state: &Plain,
        mut keeper: impl FnMut(&mut Keeper) -> A,
        mut plain: impl FnMut(&mut Plain) -> A,
    ) {
        if self.wants(name) {
            let sides = both(name, state, &mut keeper, &mut plain);
            self.row(name, &time_steady(sides, keeper, plain));
        }
    }

    /// A record that changes the state.
    fn changing(&mut self, name: &str, state: &Plain, record: &[u8]) {
        if self.wants(name) {
            let sides = both(name, state, &mut given(record), &mut given(record));
            self.row(name, &time_restored(sides, given(record), given(record)));
        }
    }

    /// A record that leaves the state as it is.
    fn keeping(&mut self, name: &str, state: &Plain, record: &[u8]) {
        self.steady(name, state, given(record), given(record));
    }
}

fn print_row(
    name: &str,
    first: impl Display,
    second: impl Display,
    ratio: impl Display,
    mark: &str,
) {
    println!("{name:<44} {first:>20} {second:>20} {ratio:>20}{mark}");
}

/// Giving a record, as an operation.
fn given<S: Side>(record: &[u8]) -> impl FnMut(&mut S) -> u32 + '_ {
    |side| side.call(black_box(record))
}

/// Both sides in the state. They give the same answer and leave the same image, pairs and active roles, or the run
/// stops.
fn both<A: PartialEq + Debug>(
    name: &str,
    state: &Plain,
    keeper: &mut impl FnMut(&mut Keeper) -> A,
    plain: &mut impl FnMut(&mut Plain) -> A,
) -> (Keeper, Plain) {
    let sides: (Keeper, Plain) = (copied(state), copied(state));
    let (mut first, mut second) = sides.clone();
    assert_eq!(keeper(&mut first), plain(&mut second), "{name}: answers");
    assert!(saved(&first) == saved(&second), "{name}: images");
    assert!(unsaved(&first) == unsaved(&second), "{name}: sittings");
    sides
}

/// A chain of 62 roles, of which seats 1, 4 and 62 have 1, 4 and all.
fn seated() -> Plain {
    let mut state = shape(Shape::Chain, 62);
    state.call(&short(10, 1, 9));
    for role in [3, 9, 20, 40] {
        state.call(&short(10, 4, role));
    }
    for role in 2..64 {
        state.call(&short(10, 62, role));
    }
    state
}

fn asks(table: &mut Table) {
    table.title("ask, without a record");
    let state = seated();
    for (seat, privilege, name) in [
        (0, 5, "ask: seat without a role, no"),
        (1, 5, "ask: seat with 1 role, yes"),
        (1, 40, "ask: seat with 1 role, no"),
        (4, 30, "ask: seat with 4 roles, yes"),
        (4, 50, "ask: seat with 4 roles, no"),
        (62, 62, "ask: seat with 62 roles, no"),
        (64, 0, "ask: refused 2"),
    ] {
        table.steady(
            name,
            &state,
            |side| Side::ask(side, black_box(seat), black_box(privilege)),
            |side| Side::ask(side, black_box(seat), black_box(privilege)),
        );
    }
    for (seat, privilege, name) in [
        (1, 5, "may: seat with 1 role, yes"),
        (4, 50, "may: seat with 4 roles, no"),
        (256, 5, "may: seat 256, no"),
    ] {
        table.steady(
            name,
            &state,
            |side| Side::may(side, black_box(seat), black_box(privilege)),
            |side| Side::may(side, black_box(seat), black_box(privilege)),
        );
    }
}

/// The question, where every assigned role is active.
fn questions(table: &mut Table) {
    table.title("the question on active roles");
    let mut state = seated();
    for (seat, role) in (0..64).flat_map(|seat| (2..64).map(move |role| (seat, role))) {
        if state.seat(seat) >> role & 1 == 1 {
            state.call(&short(14, seat, role));
        }
    }
    for (seat, privilege, name) in [
        (0, 5, "question: seat without an active role, no"),
        (1, 5, "question: seat with 1 active role, yes"),
        (1, 40, "question: seat with 1 active role, no"),
        (4, 30, "question: seat with 4 active roles, yes"),
        (4, 50, "question: seat with 4 active roles, no"),
        (62, 62, "question: seat with 62 active roles, no"),
        (64, 0, "question: refused 2"),
    ] {
        table.steady(
            name,
            &state,
            |side| Side::ask_active(side, black_box(seat), black_box(privilege)),
            |side| Side::ask_active(side, black_box(seat), black_box(privilege)),
        );
    }
    for (seat, privilege, name) in [
        (1, 5, "may by active roles: 1 role, yes"),
        (4, 50, "may by active roles: 4 roles, no"),
        (256, 5, "may by active roles: seat 256, no"),
    ] {
        table.steady(
            name,
            &state,
            |side| Side::may_active(side, black_box(seat), black_box(privilege)),
            |side| Side::may_active(side, black_box(seat), black_box(privilege)),
        );
    }
}

/// Asks one after another in one call, the loop being the keeper's own; the time is that of all.
fn asks_in_a_loop(table: &mut Table) {
    table.title("asks in the keeper's own loop");
    let state = middling();
    let ask = |n: u32| [(n % 20) as u8, (n * 7 % 64) as u8];
    let asks: Vec<u8> = (0..1024).flat_map(ask).collect();
    table.steady(
        "1024 asks in one call",
        &state,
        |side| Side::count_yes(side, black_box(&asks)),
        |side| Side::count_yes(side, black_box(&asks)),
    );
}

fn calls(table: &mut Table) {
    let state = middling();
    let roles = state.roles().count_ones();
    table.title(&format!("records, on a middling state of {roles} roles"));
    for kind in 1..=12u8 {
        let name = kind_name(kind);
        let record = answered(&state, kind, 0).expect("an accepted record is found");
        match kind {
            12 => table.keeping(&format!("{name}: yes"), &state, &record),
            _ => table.changing(&format!("{name}: accepted"), &state, &record),
        }
        for (_, number) in REFUSED.iter().filter(|refused| refused.0 == kind) {
            let record = answered(&state, kind, *number).expect("a refused record is found");
            table.keeping(&format!("{name}: refused {number}"), &state, &record);
        }
    }
    table.keeping("kind 12, ask: refused 2", &state, &short(12, 64, 0));
    table.keeping("record of 31 bytes: refused 1", &state, &[1; 31]);
    table.keeping("record of kind 16: refused 1", &state, &short(16, 2, 3));
}

/// The kinds that pairs and active roles concern: the new ones, a grant, and an unassigning that switches off.
fn calls_while_sitting(table: &mut Table) {
    let state = sitting();
    let (pairs, active) = (pair_count(&state), active_count(&state));
    table.title(&format!(
        "records, with {pairs} pairs and {active} active roles"
    ));
    for (kind, numbers) in ON_SITTING {
        let name = kind_name(kind);
        for number in numbers {
            let record = answered(&state, kind, *number).expect("a record is found");
            match number {
                0 => table.changing(&format!("{name}, with pairs: accepted"), &state, &record),
                _ => table.keeping(&format!("{name}: refused {number}"), &state, &record),
            }
        }
    }
    let record = switching_off(&state).expect("a record that switches off is found");
    table.changing("kind 11, unassign: switching off", &state, &record);
    let state = middling();
    let record = answered(&state, 14, 0).expect("a record is found");
    table.changing(
        "kind 14, activate, without pairs: accepted",
        &state,
        &record,
    );
}

fn grants(table: &mut Table) {
    table.title("grant to the lowest role");
    let record = short(4, 2, SPARE);
    for count in [8, 16, 32, 62] {
        for (lie, name) in [
            (Shape::Chain, "in a chain"),
            (Shape::Layers, "in layers of three"),
            (Shape::Unrelated, "unrelated"),
        ] {
            let name = format!("grant: {count} roles {name}");
            table.changing(&name, &shape(lie, count), &record);
        }
    }
}

/// The keeper on layers beside the keeper on a chain of as many roles.
fn layers(table: &Table) {
    let name = |count: &u8| format!("layers: {count} roles");
    let counts = [8, 16, 32, 62].into_iter();
    let wanted: Vec<u8> = counts.filter(|count| table.wants(&name(count))).collect();
    if !wanted.is_empty() {
        println!();
        print_row(
            "grant, layers beside a chain, the keeper",
            "layers ns",
            "chain ns",
            "ratio",
            "",
        );
    }
    let record = short(4, 2, SPARE);
    for count in wanted {
        let on = |lie| loaded::<Keeper>(&saved(&shape(lie, count)));
        let sides = (on(Shape::Layers), on(Shape::Chain));
        let timed = time_restored(sides, given(&record), given(&record));
        let above = timed.ratio.median > MOST_OF_LAYERS;
        let mark = if above { " *" } else { "" };
        print_row(&name(&count), timed.first, timed.second, timed.ratio, mark);
    }
}

fn images(table: &mut Table) {
    table.title("images");
    for (state, size) in [
        (Plain::fresh(), "smallest"),
        (middling(), "middling"),
        (largest(), "largest"),
    ] {
        let image = saved(&state);
        let length = image.len();
        table.steady(
            &format!("load the {size}, {length} bytes"),
            &state,
            |side| Side::load(side, black_box(&image)),
            |side| Side::load(side, black_box(&image)),
        );
        let (mut first, mut second) = ([0; LARGEST_IMAGE], [0; LARGEST_IMAGE]);
        table.steady(
            &format!("save the {size}, {length} bytes"),
            &state,
            |side| Side::save(side, black_box(&mut first[..])),
            |side| Side::save(side, black_box(&mut second[..])),
        );
    }
}

fn sheets(table: &mut Table) {
    table.title("sheets");
    let state = Plain::fresh();
    for (text, name) in [
        (sheet(), "import a sheet of 62 roles by 64 columns"),
        (refused_sheet(), "import: refused 32 at the last row"),
    ] {
        const TAPE: usize = SHEET_ROLES * RECORD_LENGTH;
        let (mut first, mut second) = ([0; TAPE], [0; TAPE]);
        table.steady(
            name,
            &state,
            |side| Side::import(side, black_box(&text), black_box(&mut first[..])),
            |side| Side::import(side, black_box(&text), black_box(&mut second[..])),
        );
        assert!(first == second, "{name}: tapes");
    }
}

// ---- the tape, through the two programs

fn program(path: &Path, tape: &Path) -> io::Result<Command> {
    let mut command = Command::new(path);
    command.stdin(File::open(tape)?);
    Ok(command)
}

/// The lines that a program writes.
fn lines(path: &Path, tape: &Path) -> io::Result<Vec<u8>> {
    Ok(program(path, tape)?.output()?.stdout)
}

/// The processor time of the programs that have ended, in nanoseconds: unlike the clock's, it leaves out what the
/// machine does beside them. Fields 16 and 17 of the kernel's line, which counts in hundredths of a second.
fn programs_time() -> io::Result<u64> {
    let line = std::fs::read_to_string("/proc/self/stat")?;
    let fields = line.rsplit(')').next().unwrap_or_default();
    let times = fields.split_whitespace().skip(13).take(2);
    Ok(times
        .filter_map(|time| time.parse::<u64>().ok())
        .sum::<u64>()
        * 10_000_000)
}

/// Nanoseconds a record, the program's start and end included.
fn run_time(path: &Path, tape: &Path) -> io::Result<f64> {
    let before = programs_time()?;
    let status = program(path, tape)?.stdout(Stdio::null()).status()?;
    assert!(status.success(), "{path:?} runs");
    Ok((programs_time()? - before) as f64 / TAPE_RECORDS as f64)
}

/// The two programs: benchtape where it is built, and plaintape.
fn tape_programs() -> io::Result<(PathBuf, PathBuf)> {
    let proved = Path::new(env!("CARGO_MANIFEST_DIR")).join("../target/bin/benchtape");
    let plain: PathBuf = std::env::current_exe()?.with_file_name("plaintape");
    if proved.exists() {
        return Ok((proved, plain));
    }
    println!("target/bin/benchtape is not there: plaintape stands in for it");
    Ok((plain.clone(), plain))
}

/// Benchtape beside plaintape on a tape of the kinds up to the last.
fn programs(table: &mut Table, last: usize) -> io::Result<()> {
    let name = format!("benchtape, for a record of kinds 1 to {last}");
    if !table.wants(&name) {
        return Ok(());
    }
    let (bytes, accepted) = tape(TAPE_RECORDS, last);
    let share = 100.0 * accepted as f64 / TAPE_RECORDS as f64;
    table.title(&format!(
        "a tape of a million records, {share:.0} % accepted"
    ));
    let folder = Path::new(env!("CARGO_MANIFEST_DIR"));
    let tape = folder.join(format!("target/mixed-{last}.tape"));
    std::fs::write(&tape, bytes)?;
    let (keeper, plain) = tape_programs()?;
    let (first, second) = (lines(&keeper, &tape)?, lines(&plain, &tape)?);
    assert!(first == second, "the programs write the same lines");
    assert_eq!(
        first.iter().filter(|byte| **byte == b'\n').count(),
        TAPE_RECORDS + 1
    );
    let timed = Timed::in_turn(
        TAPE_RUNS,
        || run_time(&keeper, &tape).expect("the program runs"),
        || run_time(&plain, &tape).expect("the program runs"),
    );
    table.row(&name, &timed);
    println!(
        "the tape has {} bytes: {}",
        TAPE_RECORDS * RECORD_LENGTH,
        tape.display()
    );
    Ok(())
}

fn main() -> io::Result<()> {
    let word = std::env::args().nth(1).unwrap_or_default();
    let mut table = Table {
        word,
        title: String::new(),
        rows: 0,
        above: 0,
    };
    if cfg!(not(archive)) {
        println!("target/staticlib/libkeeper.a is not there: plain Rust stands in for the keeper");
    }
    println!("medians with their quartiles; * marks a ratio above {MOST}, of layers to a chain above {MOST_OF_LAYERS}");
    asks(&mut table);
    questions(&mut table);
    asks_in_a_loop(&mut table);
    calls(&mut table);
    calls_while_sitting(&mut table);
    grants(&mut table);
    layers(&table);
    images(&mut table);
    sheets(&mut table);
    programs(&mut table, 12)?;
    programs(&mut table, 15)?;
    println!("\n{} of {} rows above {MOST}", table.above, table.rows);
    Ok(())
}
