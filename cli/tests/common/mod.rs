//! The built command in a folder of its own.

use std::ffi::OsStr;
use std::fs;
use std::io::Write;
use std::path::{Path, PathBuf};
use std::process::{Command, Stdio};
use std::sync::atomic::{AtomicU32, Ordering};

/// A folder that goes with its value.
pub struct Folder(PathBuf);

static COUNT: AtomicU32 = AtomicU32::new(0);

/// What a run of the command gave.
#[derive(Debug)]
pub struct Ran {
    pub status: i32,
    pub output: Vec<u8>,
    pub errors: String,
}

impl Ran {
    pub fn text(&self) -> &str {
        std::str::from_utf8(&self.output).expect("the output is text")
    }

    pub fn is(&self, status: i32, output: &str) {
        assert_eq!(
            (self.status, self.text()),
            (status, output),
            "{}",
            self.errors
        );
    }

    /// Failed with status 2, without output, and said this.
    pub fn fails(&self, said: &str) {
        assert_eq!((self.status, self.text()), (2, ""));
        assert!(self.errors.starts_with("keeper: "), "{}", self.errors);
        assert!(self.errors.contains(said), "{} lacks {said}", self.errors);
        assert!(!self.errors.contains("panicked"), "{}", self.errors);
    }
}

impl Folder {
    pub fn new() -> Folder {
        let number = COUNT.fetch_add(1, Ordering::Relaxed);
        let name = format!("keeper-cli-{}-{number}", std::process::id());
        let path = std::env::temp_dir().join(name);
        fs::create_dir(&path).expect("a folder");
        Folder(path)
    }

    pub fn path(&self, name: &str) -> PathBuf {
        self.0.join(name)
    }

    pub fn read(&self, name: &str) -> Vec<u8> {
        fs::read(self.path(name)).expect("a file")
    }

    pub fn write(&self, name: &str, bytes: impl AsRef<[u8]>) {
        fs::write(self.path(name), bytes).expect("a file");
    }

    /// The names of the files.
    pub fn names(&self) -> Vec<String> {
        let files = fs::read_dir(&self.0).expect("the folder");
        let mut names: Vec<String> = files
            .map(|file| {
                file.expect("a file")
                    .file_name()
                    .into_string()
                    .expect("a name")
            })
            .collect();
        names.sort();
        names
    }

    pub fn run<W: AsRef<OsStr>>(&self, words: &[W]) -> Ran {
        self.given(words, b"")
    }

    /// Runs the command in the folder with this on standard input.
    pub fn given<W: AsRef<OsStr>>(&self, words: &[W], input: &[u8]) -> Ran {
        let mut program = Command::new(env!("CARGO_BIN_EXE_keeper"))
            .args(words)
            .current_dir::<&Path>(&self.0)
            .stdin(Stdio::piped())
            .stdout(Stdio::piped())
            .stderr(Stdio::piped())
            .spawn()
            .expect("the command starts");
        let mut pipe = program.stdin.take().expect("a pipe");
        let bytes = input.to_vec();
        let writer = std::thread::spawn(move || {
            let _ = pipe.write_all(&bytes);
        });
        let output = program.wait_with_output().expect("the command ends");
        writer.join().expect("the input is given");
        Ran {
            status: output.status.code().expect("a status"),
            output: output.stdout,
            errors: String::from_utf8(output.stderr).expect("the errors are text"),
        }
    }
}

impl Drop for Folder {
    fn drop(&mut self) {
        let _ = fs::remove_dir_all(&self.0);
    }
}

/// Document 01's sample tape as text.
pub const SAMPLE: &str = "\
role 2 {0}
role 3 {0,1}
conflict 0 2
seat 5 gets 3
grant 2 to 2
ask seat 5 for 1
";

/// The saved sample of document 01.
pub const SAVED: [u8; 45] = [
    0x03, 0, 0, 0, 0, 0, 0, 0, 0x02, 0x01, 0, 0, 0, 0, 0, 0, 0, 0x03, 0x03, 0, 0, 0, 0, 0, 0, 0,
    0x00, 0x02, 0x05, 0x08, 0, 0, 0, 0, 0, 0, 0, 0x2D, 0, 0, 0, 0x02, 0x01, 0x01, 0,
];
