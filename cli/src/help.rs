//! The help texts.

/// The help of the whole.
pub const ALL: &str = "\
The role keeper: may this seat use this privilege?

usage: keeper COMMAND ...

  new [--behind] IMAGE        make a file with a fresh image
  apply [OPTION]... IMAGE TAPE
                              give the records of a tape, or of its text form, to an image
  ask IMAGE SEAT PRIVILEGE    may the seat use the privilege, and why
  who IMAGE PRIVILEGE         the seats that may use the privilege
  show [--dot] IMAGE          roles, edges, conflicts and seats
  tape write | read           turn the text form into a tape, or a tape into text
  import SHEET                turn a permission sheet into a tape
  help [COMMAND]              this help, or that of a command (also: keeper COMMAND --help)
  --version                   the version

IMAGE is a file that ends with an image; what precedes the image is kept byte for byte.
Roles, privileges and seats are numbers from 0 to 63.

exit status: 0 yes or accepted, 1 no or refused, 2 wrong usage or trouble with a file
";

/// The help of `new`.
const NEW: &str = "\
usage: keeper new [--behind] IMAGE

Makes a file with a fresh image: MinRole and MaxRole alone, no conflict, no seat with a role.

  --behind    puts the image behind the bytes of a file that exists and does not end with an image

exit status: 0 made, 2 wrong usage or trouble with the file; a file that exists is left as it is
";

/// The help of `apply`.
const APPLY: &str = "\
usage: keeper apply [OPTION]... IMAGE TAPE

Gives the records of TAPE, or of standard input where TAPE is '-', to the image one after another, and says each
record's answer; a refused record changes nothing, and its line says why. The file is then replaced, whole or not at
all. A file beside it, IMAGE.lock, keeps other keepers from changing it meanwhile.

Roles that exclude each other and active roles hold within one run: the file does not keep them. Where there are any at
the end, a line says so.

TAPE is read as a tape where it has a zero byte, as every record of a call does, and else as text.

  --all-or-none    leaves the file as it was where a record is refused
  --dry-run        leaves the file as it was
  --quiet          says the refused records alone
  --tape, --text   says what TAPE is

exit status: 0 every record accepted (an ask's no too), 1 a record refused, 2 wrong usage or trouble with a file
";

/// The help of `ask`.
const ASK: &str = "\
usage: keeper ask IMAGE SEAT PRIVILEGE

Says whether the seat may use the privilege. A yes has a line for each of the seat's roles that gives it: the way from
that role down to the one in which the privilege is direct.

exit status: 0 yes, 1 no or refused (a number above 63), 2 wrong usage or trouble with the file
";

/// The help of `who`.
const WHO: &str = "\
usage: keeper who IMAGE PRIVILEGE

Says the seats that may use the privilege, a line each, with their roles that give it.

exit status: 0 there is one, 1 there is none or refused (a number above 63), 2 wrong usage or trouble with the file
";

/// The help of `show`.
const SHOW: &str = "\
usage: keeper show [--dot] IMAGE

Says the roles with their effective and direct privileges, the drawn edges, the conflicts, and the seats with their roles.

  --dot    writes the graph for Graphviz, as in: keeper show --dot IMAGE | dot -Tsvg > roles.svg

exit status: 0, or 2 for wrong usage or trouble with the file
";

/// The help of `tape`.
const TAPE: &str = "\
usage: keeper tape write < TEXT > TAPE
       keeper tape read < TAPE > TEXT

Turns the text form of records into a tape, and a tape into that text. One record a line:

  add 5 holds {1,2} over {3,4} under {8}   kind 1: role 5, its direct privileges, its juniors, its seniors
  role 5 {1,2,4}                           kind 2: role 5 by its effective privileges
  remove 5                                 kind 3: role 5 goes, and its direct privileges are dropped
  remove 5 keep                            kind 3: they become direct in its immediate seniors
  grant 9 to 5                             kind 4: privilege 9 to role 5
  withdraw 9 from 5                        kind 5: direct privilege 9 from role 5
  edge 4 to 8                              kind 6: from junior 4 to senior 8
  unedge 4 to 8                            kind 7: the drawn edge from 4 to 8
  conflict 9 11                            kind 8: of privileges 9 and 11
  lift 9 11                                kind 9: that conflict
  seat 5 gets 3                            kind 10: seat 5, role 3
  seat 5 loses 3                           kind 11: seat 5, role 3
  ask seat 5 for 1                         kind 12: may seat 5 use privilege 1?
  exclude 3 4                              kind 13: roles 3 and 4 exclude each other
  seat 5 switches on 3                     kind 14: role 3 becomes an active role of seat 5
  seat 5 switches off 3                    kind 15: role 3 is no longer one
  bytes ff05                               the bytes themselves, base sixteen

Numbers are 0 to 255, also those that the keeper refuses; members of sets are 0 to 63, a range is 4..7, and the braces of
a set that is not empty may be left out. A part of 'add' that is left out is empty. '#' starts a comment.
'bytes' has 32 bytes, or in the last line 1 to 31; reading writes it for records that are of no kind's form.
Reading a tape and writing the text gives the tape again. Wrong lines are shown, and then nothing is written.

exit status: 0, or 2 for wrong usage, a wrong line or trouble with reading or writing
";

/// The help of `import`.
const IMPORT: &str = "\
usage: keeper import SHEET > TAPE

Turns a permission sheet into a tape, a record for each row behind the heading, in row order. 'keeper apply IMAGE TAPE'
gives them to an image. SHEET is a file of RFC 4180 text (CSV), or standard input where it is '-':

  ,0,1,4       the heading: an empty field, then the numbers of privileges, strictly ascending
  2,1,1,0      a row: the number of a role, then 0 or 1 for each privilege; as the text 'role 2 {0,1}'
  3,1,1,1      role 3 {0,1,4}

Numbers are 0 to 63 in base ten, without leading zeros, signs or spaces. A field may stand between double quotes. Every
line ends with CR LF, which may be missing behind the last. For a sheet whose lines end with LF alone:

  sed 's/$/\\r/' SHEET | keeper import - > TAPE

Where the text is no sheet, nothing is written to standard output. Standard error names the first row that is wrong, the
heading being row 1, says why, and shows what stands around the place, up to the row's first CR or LF; a byte that does
not print stands there as '\\x00'.

exit status: 0 imported, 1 refused, 2 wrong usage or trouble with a file
";

/// The help of a command.
pub fn of(command: &str) -> Option<&'static str> {
    Some(match command {
        "new" => NEW,
        "apply" => APPLY,
        "ask" => ASK,
        "who" => WHO,
        "show" => SHOW,
        "tape" => TAPE,
        "import" => IMPORT,
        _ => return None,
    })
}

/// The usage lines of a help text.
pub fn usage(help: &str) -> String {
    let lines = help.lines().skip_while(|line| !line.starts_with("usage:"));
    lines
        .take_while(|line| !line.is_empty())
        .collect::<Vec<_>>()
        .join("\n")
}
