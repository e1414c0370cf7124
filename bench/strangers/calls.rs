//! Calls of a program, and what they came to.

use std::cell::RefCell;
use std::fs;
use std::io::{Read, Write};
use std::os::unix::process::ExitStatusExt;
use std::path::{Path, PathBuf};
use std::process::{Child, ChildStdin, ChildStdout, Command, ExitStatus, Stdio};

/// A folder in which one call after another is made.
pub struct Lane {
    pub folder: PathBuf,
    pub program: Server,
    /// The program of the views, if they are tried.
    pub views: Option<Server>,
}

/// A program that waits for words in the folder of a lane, as shims/measuring.c says.
pub struct Server {
    folder: PathBuf,
    process: Child,
    /// Where words go to, and ends come from; none once no more words are to come.
    ends: RefCell<Option<(ChildStdin, ChildStdout)>>,
}

pub struct Answer {
    /// None where a signal ended the program.
    pub status: Option<i32>,
    pub signal: Option<i32>,
    pub out: Vec<u8>,
    pub notes: Vec<u8>,
    /// The most bytes that it had allocated at once, and its microseconds of processor time.
    pub most: u64,
    pub microseconds: u64,
}

impl Lane {
    /// Writes a text that words can name.
    pub fn put(&self, name: &str, text: &[u8]) {
        fs::write(self.folder.join(name), text).expect("the folder of a lane can be written");
    }
}

impl Server {
    pub fn start(program: &str, library: &str, folder: &Path) -> Server {
        let mut process = Command::new(program)
            .current_dir(folder)
            .env("LD_PRELOAD", library)
            .stdin(Stdio::piped())
            .stdout(Stdio::piped())
            .spawn()
            .expect("the program can be called");
        let ends = process.stdin.take().zip(process.stdout.take());
        Server { folder: folder.into(), process, ends: RefCell::new(ends) }
    }

    pub fn answer(&self, words: &[&str]) -> Answer {
        let mut ends = self.ends.borrow_mut();
        let (ask, told) = ends.as_mut().expect("the program waits");
        let mut bytes = b"room\0".to_vec();
        for word in words {
            bytes.extend_from_slice(word.as_bytes());
            bytes.push(0);
        }
        let list = [&(bytes.len() as u32).to_ne_bytes()[..], &bytes].concat();
        ask.write_all(&list).expect("the program waits for words");
        let [status, microseconds, most] = [(); 3].map(|()| {
            let mut number = [0; 8];
            told.read_exact(&mut number).expect("the program tells how a call ended");
            u64::from_ne_bytes(number)
        });
        let status = ExitStatus::from_raw(status as i32);
        Answer {
            status: status.code(),
            signal: status.signal(),
            out: fs::read(self.folder.join("out")).unwrap_or_default(),
            notes: fs::read(self.folder.join("notes")).unwrap_or_default(),
            most,
            microseconds,
        }
    }
}

impl Drop for Server {
    fn drop(&mut self) {
        self.ends.take();
        let _ = self.process.wait();
    }
}
