//! Program benchtape in plain Rust: takes the records of standard input on a fresh graph, in memory of a fixed size, and
//! writes a line for each and the last line.

use bench::plain::{Plain, RECORD_LENGTH};
use std::io::{self, ErrorKind, Read, Write};
use std::process::ExitCode;

/// Bytes read at once.
const CHUNK: usize = 1024 * RECORD_LENGTH;
/// A line has three numbers of at most 20 digits, and three more bytes.
const LINE: usize = 63;

/// Lines under way to standard output.
struct Lines<W: Write> {
    out: W,
    buffer: [u8; CHUNK],
    at: usize,
}

impl<W: Write> Lines<W> {
    fn put(&mut self, bytes: &[u8]) {
        self.buffer[self.at..self.at + bytes.len()].copy_from_slice(bytes);
        self.at += bytes.len();
    }

    fn put_number(&mut self, number: u64) {
        let mut digits = [0; 20];
        let (mut at, mut rest) = (digits.len(), number);
        loop {
            at -= 1;
            digits[at] = b'0' + (rest % 10) as u8;
            rest /= 10;
            if rest == 0 {
                break;
            }
        }
        self.put(&digits[at..]);
    }

    fn put_line(&mut self, front: u64, middle: u64, last: u64) -> io::Result<()> {
        self.put_number(front);
        self.put(b" ");
        self.put_tail(middle, last)
    }

    fn put_tail(&mut self, middle: u64, last: u64) -> io::Result<()> {
        self.put_number(middle);
        self.put(b" ");
        self.put_number(last);
        self.put(b"\n");
        if self.at + LINE > self.buffer.len() {
            self.flush()?;
        }
        Ok(())
    }

    fn flush(&mut self) -> io::Result<()> {
        self.out.write_all(&self.buffer[..self.at])?;
        self.at = 0;
        Ok(())
    }
}

/// Reads until the buffer is full or the input ends.
fn fill(input: &mut impl Read, buffer: &mut [u8]) -> io::Result<usize> {
    let mut done = 0;
    while done < buffer.len() {
        match input.read(&mut buffer[done..]) {
            Ok(0) => break,
            Ok(count) => done += count,
            Err(error) if error.kind() == ErrorKind::Interrupted => {}
            Err(error) => return Err(error),
        }
    }
    Ok(done)
}

fn sit(input: &mut impl Read, out: impl Write) -> io::Result<()> {
    let mut lines = Lines {
        out,
        buffer: [0; CHUNK],
        at: 0,
    };
    let mut keeper = Plain::fresh();
    let mut chunk = [0; CHUNK];
    let mut count = 0;
    loop {
        let length = fill(input, &mut chunk)?;
        for record in chunk[..length].chunks(RECORD_LENGTH) {
            let answer = keeper.call(record);
            count += 1;
            lines.put_line(count, answer.number as u64, answer.place as u64)?;
        }
        if length < CHUNK {
            break;
        }
    }
    lines.put(b"end ");
    lines.put_tail(count, keeper.edge_count())?;
    lines.flush()
}

fn main() -> ExitCode {
    match sit(&mut io::stdin().lock(), io::stdout().lock()) {
        Ok(()) => ExitCode::SUCCESS,
        Err(error) => {
            eprintln!("plaintape: {error}");
            ExitCode::FAILURE
        }
    }
}
