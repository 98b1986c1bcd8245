//! Random texts of sheets: good ones in each way of writing, ones with each
//! damage, and ones made blindly.
//!
//! A text is made from a plan, the meaning that it is to have, and a damage
//! knows the row that fails by it. So the reference's own reading of a text is
//! checked too.

use crate::generate::record;
use crate::random::Random;
use crate::reference::{has, one, Set, RECORD_LENGTH};
use std::collections::BTreeSet;

/// A text with what is known about it.
#[derive(Clone, Debug)]
pub struct Case {
    /// The name of its writing, of its damage or of how it is made blindly.
    pub kind: &'static str,
    pub text: Vec<u8>,
    pub expected: Expected,
}

/// What importing a text is to give, as far as its making tells.
#[derive(Clone, Debug, PartialEq)]
pub enum Expected {
    Tape(Vec<u8>),
    /// Refusal 32 at this row.
    Row(usize),
    Unknown,
}

// ---- plans ----

/// The privileges of a heading, then each row's role and set.
struct Plan {
    columns: Vec<u8>,
    rows: Vec<(u8, Set)>,
}

/// The form of a plan.
#[derive(Clone, Copy, Debug, PartialEq)]
pub enum Shape {
    /// Few columns and rows, at times no rows.
    Few,
    /// Many columns, often all 64.
    Wide,
    /// Some hundreds of rows.
    Tall,
    /// Roles and sets that the keeper accepts, with few exceptions.
    Sound,
}

use Shape::{Few, Sound, Tall, Wide};

pub const SHAPES: [Shape; 8] = [Few, Sound, Few, Wide, Few, Sound, Few, Tall];

/// So many privileges in ascending order.
fn columns(random: &mut Random, count: usize) -> Vec<u8> {
    let mut privileges: Vec<u8> = (0..=63).collect();
    random.shuffle(&mut privileges);
    privileges.truncate(count);
    privileges.sort();
    privileges
}

/// Any role with any of the privileges; now and then an end role, none of the
/// privileges or all of them.
fn any_row(random: &mut Random, whole: Set) -> (u8, Set) {
    let role = match random.under(10) {
        0 => random.under(2),
        _ => random.under(64),
    };
    let set = match random.under(10) {
        0 => 0,
        1 => whole,
        _ => random.word() & whole,
    };
    (role as u8, set)
}

/// Different ordinary roles with different sets that aren't empty; half the
/// time any row among them.
fn sound_rows(random: &mut Random, whole: Set) -> Vec<(u8, Set)> {
    let mut roles: Vec<u8> = (2..=63).collect();
    random.shuffle(&mut roles);
    roles.truncate(random.between(1, 40));
    let mut taken = BTreeSet::from([0]);
    let pairs = roles.iter().map(|role| (*role, random.word() & whole));
    let mut rows: Vec<(u8, Set)> = pairs.filter(|row| taken.insert(row.1)).collect();
    if random.one_in(2) {
        rows.insert(random.under(rows.len() + 1), any_row(random, whole));
    }
    rows
}

impl Plan {
    fn with_any_rows(random: &mut Random, width: usize, height: usize) -> Plan {
        let columns = columns(random, width);
        let rows = Vec::new();
        let mut plan = Plan { columns, rows };
        let whole = plan.whole();
        plan.rows = (0..height).map(|_| any_row(random, whole)).collect();
        plan
    }

    fn of_shape(random: &mut Random, shape: Shape) -> Plan {
        let (width, height) = match shape {
            Few => (random.between(1, 4), random.under(7)),
            Wide if random.one_in(2) => (64, random.under(13)),
            Wide => (random.between(5, 64), random.under(25)),
            Tall => (random.between(1, 4), random.between(260, 400)),
            Sound => (random.between(2, 20), 0),
        };
        let mut plan = Plan::with_any_rows(random, width, height);
        if shape == Sound {
            plan.rows = sound_rows(random, plan.whole());
        }
        plan
    }

    /// All privileges of the heading.
    fn whole(&self) -> Set {
        let columns = self.columns.iter();
        columns.fold(0, |set, privilege| set | one(*privilege))
    }

    fn tape(&self) -> Vec<u8> {
        let records = self.rows.iter();
        let records = records.map(|(role, set)| record(2, *role, 0, [*set, 0, 0]));
        records.collect::<Vec<Vec<u8>>>().concat()
    }
}

// ---- drafts ----

const LINE_END: &[u8] = b"\r\n";

/// A text in parts: the fields of each row as they are written, the heading's
/// first, and the bytes behind each row.
#[derive(Clone)]
struct Draft {
    rows: Vec<Vec<Vec<u8>>>,
    ends: Vec<Vec<u8>>,
}

fn digits(number: u8) -> Vec<u8> {
    number.to_string().into_bytes()
}

/// A content without quotes between quotes.
fn quoted(content: &[u8]) -> Vec<u8> {
    [b"\"", content, b"\""].concat()
}

fn without_quotes(bytes: &[u8]) -> Vec<u8> {
    bytes.iter().copied().filter(|byte| *byte != b'"').collect()
}

impl Draft {
    fn plain(plan: &Plan) -> Draft {
        let mut heading = vec![Vec::new()];
        heading.extend(plan.columns.iter().map(|privilege| digits(*privilege)));
        let mut rows = vec![heading];
        for (role, set) in &plan.rows {
            let mut fields = vec![digits(*role)];
            let marks = plan.columns.iter().map(|column| has(*set, *column));
            fields.extend(marks.map(|mark| digits(u8::from(mark))));
            rows.push(fields);
        }
        let ends = vec![LINE_END.to_vec(); rows.len()];
        Draft { rows, ends }
    }

    /// The draft of a plan in some good writing.
    fn written(random: &mut Random, plan: &Plan) -> Draft {
        let mut draft = Draft::plain(plan);
        match random.under(4) {
            0 => draft.quote(random, 1),
            1 => draft.quote(random, 3),
            _ => {}
        }
        if random.one_in(3) {
            draft.end_with(b"");
        }
        draft
    }

    fn text(&self) -> Vec<u8> {
        let mut text = Vec::new();
        for (fields, end) in self.rows.iter().zip(&self.ends) {
            text.extend(fields.join(&b','));
            text.extend(end);
        }
        text
    }

    fn last(&self) -> usize {
        self.rows.len() - 1
    }

    /// How many columns the heading has.
    fn width(&self) -> usize {
        self.rows[0].len() - 1
    }

    fn end_with(&mut self, end: &[u8]) {
        let last = self.last();
        self.ends[last] = end.to_vec();
    }

    /// Puts in a row before another one.
    fn insert(&mut self, row: usize, bytes: Vec<u8>) {
        self.rows.insert(row, vec![bytes]);
        self.ends.insert(row, LINE_END.to_vec());
    }

    /// Drops all but the heading.
    fn keep_heading(&mut self, end: &[u8]) {
        self.rows.truncate(1);
        self.ends = vec![end.to_vec()];
    }

    /// Quotes each field once in so many times.
    fn quote(&mut self, random: &mut Random, once_in: usize) {
        for field in self.rows.iter_mut().flatten() {
            if random.one_in(once_in) {
                *field = quoted(field);
            }
        }
    }

    /// A row's place, counted from 0: often the heading, the first row behind
    /// it or the last one.
    fn any_row(&self, random: &mut Random) -> usize {
        match random.under(6) {
            0 => 0,
            1 => 1.min(self.last()),
            2 => self.last(),
            _ => random.under(self.rows.len()),
        }
    }
}

// ---- good writings ----

/// A way to write a sheet. One that drops rows drops all but the heading.
type Writing = fn(&mut Random, &mut Draft);

const WRITINGS: &[(&str, Writing)] = &[
    ("plain", |_, _| {}),
    ("all quoted", |random, draft| draft.quote(random, 1)),
    ("quoted here and there", |random, draft| {
        draft.quote(random, 2)
    }),
    ("empty field quoted", |_, draft| {
        draft.rows[0][0] = quoted(b"")
    }),
    ("no last line end", |_, draft| draft.end_with(b"")),
    ("all quoted, no last line end", |random, draft| {
        draft.quote(random, 1);
        draft.end_with(b"");
    }),
    ("heading alone", |random, draft| {
        draft.keep_heading(LINE_END);
        draft.quote(random, 2);
    }),
    ("heading alone, no line end", |random, draft| {
        draft.keep_heading(b"");
        draft.quote(random, 2);
    }),
];

fn good(random: &mut Random, plan: &Plan, (kind, write): (&'static str, Writing)) -> Case {
    let mut draft = Draft::plain(plan);
    write(random, &mut draft);
    let mut tape = plan.tape();
    tape.truncate(draft.last() * RECORD_LENGTH);
    Case {
        kind,
        text: draft.text(),
        expected: Expected::Tape(tape),
    }
}

// ---- damages ----

/// Ways to write something wrongly, with `|` between them and `#` for the
/// digits there.
type Wrong = &'static [u8];

/// How a text is damaged at a row, whose place counts from 0, or elsewhere.
#[derive(Clone, Copy)]
enum Deal {
    /// One of the row's numbers: a column, a role or a mark.
    Number(Wrong),
    /// The row's role; the heading has none.
    Role(Wrong),
    /// One of the row's marks; the heading has none.
    Mark(Wrong),
    /// What stands behind the row instead of CR LF.
    End(Wrong),
    /// The same, but not behind the heading.
    LaterEnd(Wrong),
    /// A row put in before the row, but not before the heading.
    Before(Wrong),
    /// The whole heading.
    Heading(Wrong),
    /// The heading's first field.
    Corner(Wrong),
    /// What stands behind the last row; what comes next fails.
    Tail(Wrong),
    /// Something else. It gives the row that fails, counted from 1, or nothing
    /// where the draft has no place for it.
    Other(fn(&mut Random, &mut Draft, usize) -> Option<usize>),
}

use Deal::{Before, Corner, End, Heading, LaterEnd, Mark, Number, Other, Role, Tail};

const DAMAGES: &[(&str, Deal)] = &[
    ("bare LF", End(b"\n")),
    ("bare CR", End(b"\r")),
    ("broken line end", End(BROKEN_ENDS)),
    ("line end left out", Other(no_line_end)),
    ("CR or LF in a field", Number(b"#\r|\r#|#\n|\n#")),
    ("open quote", Number(b"\"|\"#")),
    ("doubled quote", Number(DOUBLED_QUOTES)),
    ("text behind a closing quote", Number(BEHIND_QUOTES)),
    ("text before a quote", Number(BEFORE_QUOTES)),
    ("quote in a plain field", Number(b"#\"|#\"1|1\"#")),
    ("quoted line end", Number(QUOTED_ENDS)),
    ("quoted comma", Number(b"\"#,\"|\",#\"|\",\"|\"#,1\"")),
    ("other separator", Other(other_separator)),
    ("row in quotes", Other(row_in_quotes)),
    ("leading zero", Number(b"0#|00#|\"0#\"|000000000#")),
    ("column 64", Other(column_64)),
    ("role 64", Role(b"64|\"64\"")),
    ("more digits or above 64", Number(ABOVE_64)),
    ("mark 2", Mark(b"2|\"2\"")),
    ("mark 00 or 01", Mark(b"00|01|\"00\"|\"01\"")),
    ("other mark", Mark(b"3|9|10|11|63|64|x|yes")),
    ("sign", Number(b"+#|-#|#-|\"+#\"|\"-#\"|-0|+")),
    ("space", Number(SPACES)),
    ("letter or other sign", Number(OTHER_SIGNS)),
    ("non-ASCII byte", Number(NON_ASCII)),
    ("NUL", Number(b"\0|#\0|\0#|\"#\0\"|\"#\"\0")),
    ("control byte", Number(b"#\x01|\x1B#|\"#\x08\"|#\x7F|\x11")),
    ("number left empty", Number(b"|\"\"")),
    ("too many fields", LaterEnd(MORE_FIELDS)),
    ("too few fields", Other(fewer_fields)),
    ("comma at a row's end", End(b",\r\n|,")),
    ("empty row in the middle", Before(b"|\"\"")),
    ("empty row at the end", Tail(EMPTY_ROWS)),
    ("row of commas", Before(b",|,,|,,,|,,,,")),
    ("bytes behind the end", Tail(TAILS)),
    ("heading without a privilege", Heading(b"|\"\"")),
    ("heading's first field not empty", Corner(CORNERS)),
    ("byte order mark", Corner(BYTE_ORDER_MARKS)),
    ("line end before the heading", Corner(b"\r\n|\"\"\r\n")),
    ("columns descending", Other(columns_descending)),
    ("columns equal", Other(columns_equal)),
    ("empty text", Other(empty_text)),
];

const BROKEN_ENDS: Wrong = b"\n\r|\r\r\n|\n\r\n|\r \n| \r\n|\x0B";
const DOUBLED_QUOTES: Wrong = b"\"#\"\"\"|\"\"\"#\"|\"\"\"\"|\"\"\"#\"\"\"|\"#\"\"1\"";
const BEHIND_QUOTES: Wrong = b"\"#\"1|\"#\"#|\"#\"x|\"\"#|\"\"#\"\"";
const BEFORE_QUOTES: Wrong = b"x\"#\"|0\"#\"|#\"#\"|#\"\"";
const QUOTED_ENDS: Wrong = b"\"#\r\n\"|\"\r\n#\"|\"\r\n\"|\"#\n\"|\"\r#\"";
const SPACES: Wrong = b" #|# |\" #\"|\"# \"| \"#\"|\"#\" | |\t#|#\t";
const OTHER_SIGNS: Wrong = b"0x#|#e0|#.0|#x|\"#x\"|A|/|:|1/|1:|'#'";
const MORE_FIELDS: Wrong = b",0\r\n|,1\r\n|,\"1\"\r\n|,1,0,0\r\n";
const EMPTY_ROWS: Wrong = b"\r\n\r\n|\r\n\r\n\r\n|\r\n\"\"\r\n|\r\n\"\"";
const TAILS: Wrong = b"\r\n |\r\n\0|\r\n\x1A|\r\n,|\r\n\"|\r\n0|\r\n\xFF|\r\n\n|\r\n\r";
const CORNERS: Wrong = b"0|2| |role|\"0\"|\" \"|\"\"\"\"|\"\r\n\"|\",\"";
const BYTE_ORDER_MARKS: Wrong = b"\xEF\xBB\xBF|\xEF\xBB\xBF\"\"|\xFE\xFF";

/// Among them digits with the highest bit set and ones of other scripts.
const NON_ASCII: Wrong =
    b"#\x80|\xFF#|\xB0|\xB1|\"\xB1\"|\xEF\xBC\x91|\xD9\xA1|\"#\xC3\xA9\"|\xC2\xA0#";

/// The last line has what is the number itself in 8, 16, 32, 64 and 128 bits.
const ABOVE_64: Wrong = b"65|99|\"100\"|100#|\"#00\"\
    |256|65536|4294967296|18446744073709551616\
    |128#|32768#|2147483648#|9223372036854775808#|170141183460469231731687303715884105728#";

/// One of the ways to write something wrongly, for these digits.
fn wrongly(random: &mut Random, wrong: Wrong, digits: &[u8]) -> Vec<u8> {
    let ways: Vec<&[u8]> = wrong.split(|byte| *byte == b'|').collect();
    let way = ways[random.under(ways.len())].split(|byte| *byte == b'#');
    way.collect::<Vec<&[u8]>>().join(digits)
}

impl Draft {
    /// Writes one of the row's fields from `first` to `last` wrongly.
    fn spoil(
        &mut self,
        random: &mut Random,
        row: usize,
        (first, last): (usize, usize),
        wrong: Wrong,
    ) {
        let field = random.between(first, last);
        let digits = without_quotes(&self.rows[row][field]);
        self.rows[row][field] = wrongly(random, wrong, &digits);
    }
}

impl Deal {
    /// Whether any row can take it, the heading too.
    fn fits_any_row(self) -> bool {
        matches!(self, Number(_) | End(_))
    }

    /// Whether the other rows keep their places and their fields.
    fn stays_in_row(self) -> bool {
        matches!(self, Number(_) | Role(_) | Mark(_) | End(_))
    }

    /// Damages the draft and gives the row that fails, counted from 1.
    fn deal(self, random: &mut Random, draft: &mut Draft, row: usize) -> Option<usize> {
        let width = draft.width();
        match self {
            Role(_) | Mark(_) | LaterEnd(_) | Before(_) if row == 0 => return None,
            Number(wrong) if row == 0 => draft.spoil(random, 0, (1, width), wrong),
            Number(wrong) => draft.spoil(random, row, (0, width), wrong),
            Role(wrong) => draft.spoil(random, row, (0, 0), wrong),
            Mark(wrong) => draft.spoil(random, row, (1, width), wrong),
            End(wrong) | LaterEnd(wrong) => draft.ends[row] = wrongly(random, wrong, b""),
            Before(wrong) => draft.insert(row, wrongly(random, wrong, b"")),
            Heading(_) | Corner(_) if row > 0 => return self.deal(random, draft, 0),
            Heading(wrong) => draft.rows[0] = vec![wrongly(random, wrong, b"")],
            Corner(wrong) => draft.rows[0][0] = wrongly(random, wrong, b""),
            Tail(wrong) => {
                draft.end_with(&wrongly(random, wrong, b""));
                return Some(draft.rows.len() + 1);
            }
            Other(deal) => return deal(random, draft, row),
        }
        Some(row + 1)
    }
}

/// Two rows in one have too many fields; a heading goes on with numbers that
/// don't ascend.
fn no_line_end(_: &mut Random, draft: &mut Draft, row: usize) -> Option<usize> {
    if row == draft.last() {
        return None;
    }
    draft.ends[row].clear();
    Some(row + 1)
}

fn other_separator(random: &mut Random, draft: &mut Draft, row: usize) -> Option<usize> {
    let separator = wrongly(random, b";|\t| |.|:|,,|\"", b"");
    let first = random.under(draft.width());
    let second = draft.rows[row].remove(first + 1);
    draft.rows[row][first].extend([separator, second].concat());
    Some(row + 1)
}

fn row_in_quotes(_: &mut Random, draft: &mut Draft, row: usize) -> Option<usize> {
    let whole = without_quotes(&draft.rows[row].join(&b','));
    draft.rows[row] = vec![quoted(&whole)];
    Some(row + 1)
}

/// The privilege 64 in a column of its own, so that all else is good.
fn column_64(random: &mut Random, draft: &mut Draft, _: usize) -> Option<usize> {
    draft.rows[0].push(wrongly(random, b"64|\"64\"", b""));
    for fields in &mut draft.rows[1..] {
        fields.push(digits(random.under(2) as u8));
    }
    Some(1)
}

/// At least one field stays, as a row of no fields is an empty row.
fn fewer_fields(random: &mut Random, draft: &mut Draft, row: usize) -> Option<usize> {
    if row == 0 {
        return None;
    }
    let removed = if random.one_in(3) { draft.width() } else { 1 };
    for _ in 0..removed {
        let field = random.under(draft.rows[row].len());
        draft.rows[row].remove(field);
    }
    Some(row + 1)
}

/// The place of a column that has another behind it.
fn inner_column(random: &mut Random, draft: &Draft) -> Option<usize> {
    let inner = draft.width() - 1;
    (inner > 0).then(|| random.between(1, inner))
}

fn columns_descending(random: &mut Random, draft: &mut Draft, _: usize) -> Option<usize> {
    let column = inner_column(random, draft)?;
    draft.rows[0].swap(column, column + 1);
    Some(1)
}

fn columns_equal(random: &mut Random, draft: &mut Draft, _: usize) -> Option<usize> {
    let column = inner_column(random, draft)?;
    draft.rows[0][column + 1] = draft.rows[0][column].clone();
    Some(1)
}

fn empty_text(_: &mut Random, draft: &mut Draft, _: usize) -> Option<usize> {
    draft.rows.clear();
    draft.ends.clear();
    Some(1)
}

fn damaged_at(
    random: &mut Random,
    draft: &Draft,
    (kind, deal): (&'static str, Deal),
    row: usize,
) -> Option<Case> {
    let mut damaged = draft.clone();
    let failing = deal.deal(random, &mut damaged, row)?;
    Some(Case {
        kind,
        text: damaged.text(),
        expected: Expected::Row(failing),
    })
}

/// The draft with this damage at some row, where it has a place for it.
fn damaged(random: &mut Random, draft: &Draft, damage: (&'static str, Deal)) -> Option<Case> {
    let mut rows = [draft.any_row(random), draft.last(), 0].into_iter();
    rows.find_map(|row| damaged_at(random, draft, damage, row))
}

/// Damages in two rows, of which the upper one decides. In neighbours a CR at
/// one's end and an LF at the other's start would be a line end.
fn two_damages(random: &mut Random, draft: &Draft) -> Option<Case> {
    let mut damaged = draft.clone();
    let rows = [draft.any_row(random), draft.any_row(random)];
    if rows[0].abs_diff(rows[1]) < 2 {
        return None;
    }
    for row in rows {
        let deal = DAMAGES[random.under(DAMAGES.len())].1;
        if !deal.stays_in_row() {
            return None;
        }
        deal.deal(random, &mut damaged, row)?;
    }
    Some(Case {
        kind: TWO_DAMAGES,
        text: damaged.text(),
        expected: Expected::Row(rows[0].min(rows[1]) + 1),
    })
}

// ---- texts made blindly ----

const TWO_DAMAGES: &str = "two damages";
const ANY_BYTES: &str = "arbitrary bytes";
const ANY_SIGNS: &str = "arbitrary signs";
const EDITED: &str = "edited";
const CUT: &str = "cut";
const SHORT: &str = "each short text";

fn blind(kind: &'static str, text: Vec<u8>) -> Case {
    Case {
        kind,
        text,
        expected: Expected::Unknown,
    }
}

/// A byte that sheets are made of, now and then any other.
fn any_sign(random: &mut Random) -> u8 {
    const SIGNS: &[u8] = b"\",\r\n0123456 ";
    match random.under(8) {
        0 => random.byte(),
        _ => SIGNS[random.under(SIGNS.len())],
    }
}

fn any_bytes(random: &mut Random) -> Case {
    let length = random.under(80);
    blind(ANY_BYTES, random.bytes(length))
}

/// Signs of sheets in any order, half the time behind a good heading.
fn any_signs(random: &mut Random) -> Case {
    let heading: &[u8] = if random.one_in(2) { b",1,5\r\n" } else { b"" };
    let signs: Vec<u8> = (0..random.under(20)).map(|_| any_sign(random)).collect();
    blind(ANY_SIGNS, [heading, &signs].concat())
}

/// Puts in, removes, doubles or swaps something somewhere.
fn edit(random: &mut Random, text: &mut Vec<u8>) {
    let place = random.under(text.len());
    let end = (place + random.between(1, 12)).min(text.len());
    match random.under(6) {
        0 => text[place] = any_sign(random),
        1 => text.insert(place, any_sign(random)),
        2 => text.push(any_sign(random)),
        3 => text.swap(place, end - 1),
        4 => {
            text.drain(place..end);
        }
        _ => text.extend_from_within(place..end),
    }
}

fn edited(random: &mut Random, draft: &Draft) -> Case {
    let mut text = draft.text();
    edit(random, &mut text);
    if !text.is_empty() && random.one_in(3) {
        edit(random, &mut text);
    }
    blind(EDITED, text)
}

/// Texts up to this length are cut at every place.
const LONGEST_CUT: usize = 60;

fn cuts(random: &mut Random, text: &[u8]) -> Vec<Case> {
    let mut lengths: Vec<usize> = (0..text.len()).collect();
    if text.len() > LONGEST_CUT {
        random.shuffle(&mut lengths);
        lengths.truncate(6);
        lengths.extend([text.len() - 3, text.len() - 2, text.len() - 1]);
    }
    let cut = |length: usize| blind(CUT, text[..length].to_vec());
    lengths.into_iter().map(cut).collect()
}

/// Every text of up to this many signs is tried.
pub const LONGEST_SHORT: u32 = 5;

/// All texts of so many signs out of those that matter, alone and behind a
/// good heading.
pub fn short_cases(length: u32) -> impl Iterator<Item = Case> {
    const SIGNS: &[u8] = b"\",\r\n016";
    let headings: [&[u8]; 2] = [b"", b",1\r\n"];
    let sign = |number, place| SIGNS[number / SIGNS.len().pow(place) % SIGNS.len()];
    let signs = move |number: usize| (0..length).map(move |place| sign(number, place));
    headings.into_iter().flat_map(move |heading| {
        let numbers = 0..SIGNS.len().pow(length);
        let text = move |number| heading.iter().copied().chain(signs(number)).collect();
        numbers.map(move |number| blind(SHORT, text(number)))
    })
}

// ---- cases ----

/// The names of all that a case can be made by.
pub fn kinds() -> Vec<&'static str> {
    let mut kinds = vec![TWO_DAMAGES, ANY_BYTES, ANY_SIGNS, EDITED, CUT, SHORT];
    kinds.extend(WRITINGS.iter().map(|writing| writing.0));
    kinds.extend(DAMAGES.iter().map(|damage| damage.0));
    kinds
}

/// The names of the damages that any row can take, the heading too.
pub fn kinds_for_any_row() -> Vec<&'static str> {
    let fitting = DAMAGES.iter().filter(|damage| damage.1.fits_any_row());
    fitting.map(|damage| damage.0).collect()
}

/// The cases around one random sheet of the shape: it in each good writing,
/// with each damage, and changed blindly.
pub fn cases(random: &mut Random, shape: Shape) -> Vec<Case> {
    let plan = Plan::of_shape(random, shape);
    let mut cases: Vec<Case> = Vec::new();
    cases.extend(WRITINGS.iter().map(|writing| good(random, &plan, *writing)));
    for damage in DAMAGES {
        let draft = Draft::written(random, &plan);
        cases.extend(damaged(random, &draft, *damage));
    }
    let draft = Draft::written(random, &plan);
    cases.extend((0..30).filter_map(|_| two_damages(random, &draft)));
    cases.extend((0..16).map(|_| edited(random, &draft)));
    cases.extend((0..4).map(|_| any_bytes(random)));
    cases.extend((0..12).map(|_| any_signs(random)));
    cases.extend(cuts(random, &draft.text()));
    cases
}

/// Cases around one sheet with more rows than two bytes count: good ones, and
/// ones with a wrong mark around the 256th and 65,536th row and in the last.
pub fn long_cases(random: &mut Random) -> Vec<Case> {
    let plan = Plan::with_any_rows(random, 2, 65_600);
    let draft = Draft::plain(&plan);
    let mut cases = vec![
        good(random, &plan, WRITINGS[0]),
        good(random, &plan, WRITINGS[5]),
    ];
    for row in [255, 256, 65_535, 65_536, draft.last()] {
        cases.extend(damaged_at(random, &draft, ("mark 2", Mark(b"2")), row));
    }
    cases
}
