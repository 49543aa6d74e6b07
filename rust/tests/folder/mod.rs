//! Folders of tests, and programs that are run in them.

// Each test program uses some of it.
#![allow(dead_code)]

use std::ffi::OsStr;
use std::fs;
use std::io::{ErrorKind, Write};
use std::path::{Path, PathBuf};
use std::process::{Command, Stdio};
use std::sync::atomic::{AtomicUsize, Ordering};

/// A folder below the system's temporary ones, removed at the end.
pub struct Folder(pub PathBuf);

impl Folder {
    pub fn new() -> Self {
        static MADE: AtomicUsize = AtomicUsize::new(0);
        loop {
            let number = MADE.fetch_add(1, Ordering::Relaxed);
            let path = std::env::temp_dir().join(format!("caplune-test-{}-{number}", std::process::id()));
            match fs::create_dir(&path) {
                // an earlier process of this number was stopped
                Err(error) if error.kind() == ErrorKind::AlreadyExists => {}
                made => {
                    made.expect("a new folder");
                    return Folder(path);
                }
            }
        }
    }

    /// With these files.
    pub fn with(files: &[(&str, &[u8])]) -> Self {
        let folder = Folder::new();
        files.iter().for_each(|(name, bytes)| folder.write(name, bytes));
        folder
    }

    pub fn file(&self, name: &str) -> PathBuf {
        self.0.join(name)
    }

    pub fn write(&self, name: &str, bytes: &[u8]) {
        fs::write(self.file(name), bytes).expect("a file is written");
    }

    pub fn read(&self, name: &str) -> Vec<u8> {
        fs::read(self.file(name)).expect("a file is read")
    }

    /// The names of all files, in order.
    pub fn names(&self) -> Vec<String> {
        let entries = fs::read_dir(&self.0).expect("the folder is read");
        let mut names: Vec<_> = entries.map(|entry| entry.unwrap().file_name().into_string().unwrap()).collect();
        names.sort();
        names
    }

    /// What a program does here, with this on its standard input.
    pub fn run(&self, program: &Path, words: &[impl AsRef<OsStr>], input: &[u8]) -> Ended {
        let mut command = Command::new(program);
        command.args(words).current_dir(&self.0);
        command.stdin(Stdio::piped()).stdout(Stdio::piped()).stderr(Stdio::piped());
        let mut child = command.spawn().expect("the program starts");
        // a program that reads nothing has closed it
        let _ = child.stdin.take().expect("it is piped").write_all(input);
        let ended = child.wait_with_output().expect("the program ends");
        Ended {
            status: ended.status.code(),
            out: ended.stdout,
            err: String::from_utf8(ended.stderr).expect("errors are text"),
        }
    }
}

impl Drop for Folder {
    fn drop(&mut self) {
        // a folder that is left behind fails no test
        let _ = fs::remove_dir_all(&self.0);
    }
}

/// How a program ended, and what it printed.
#[derive(Debug, PartialEq, Eq)]
pub struct Ended {
    /// Its status, if no signal ended it.
    pub status: Option<i32>,
    pub out: Vec<u8>,
    pub err: String,
}

impl Ended {
    pub fn text(&self) -> &str {
        std::str::from_utf8(&self.out).expect("it prints text")
    }
}
