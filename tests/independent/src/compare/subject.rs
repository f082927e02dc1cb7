//! A program under test, as a process.
//!
//! One thread writes its input and another reads its output, so neither side can block the other. Both hold no more than a few pieces at
//! a time, however long the input is.

use std::ffi::OsString;
use std::io::{self, BufWriter, Read, Write};
use std::process::{Child, ChildStdin, ChildStdout, Command, Stdio};
use std::sync::mpsc::{sync_channel, Receiver, RecvTimeoutError, SyncSender};
use std::thread;
use std::time::{Duration, Instant};

const PIECE: usize = 1 << 16;

#[derive(Clone, Debug)]
pub struct Subject {
    /// The command: what stands before the program, the program, its arguments.
    pub words: Vec<OsString>,
    /// How long it may say nothing.
    pub patience: Duration,
}

/// What comes next on standard output.
#[derive(Debug, PartialEq, Eq)]
pub enum Said {
    /// With the newline, if there is one.
    Line(Vec<u8>),
    /// The output is at its end.
    End,
    /// Nothing for too long.
    Silence,
}

/// An end that is not right.
#[derive(Clone, Debug, PartialEq, Eq)]
pub struct BadEnd {
    pub what: String,
    /// It said nothing, or did not end, for too long.
    pub is_silent: bool,
}

impl Subject {
    /// Start it on this input, which is written as it is read.
    pub fn start(&self, input: impl Iterator<Item = Vec<u8>> + Send + 'static) -> io::Result<Running> {
        let mut child = self.command().spawn()?;
        if let Some(pipe) = child.stdin.take() {
            thread::spawn(move || feed(pipe, input));
        }
        let (sender, output) = sync_channel(4);
        if let Some(pipe) = child.stdout.take() {
            thread::spawn(move || collect(pipe, sender));
        }
        Ok(Running { child, output, unread: Vec::new(), place: 0, patience: self.patience })
    }

    fn command(&self) -> Command {
        let mut command = Command::new(self.words.first().cloned().unwrap_or_default());
        command.args(self.words.iter().skip(1));
        // An emulator is to run the program by no other settings than ours.
        for (name, _) in std::env::vars_os().filter(|(name, _)| name.to_string_lossy().starts_with("QEMU_")) {
            command.env_remove(name);
        }
        command.stdin(Stdio::piped()).stdout(Stdio::piped()).stderr(Stdio::null());
        command
    }

    /// All that it writes on this input, and how it ended; for inputs that are not long.
    pub fn answer(&self, input: &[u8]) -> io::Result<(Vec<u8>, Result<(), BadEnd>)> {
        let mut running = self.start(std::iter::once(input.to_vec()))?;
        let mut said = Vec::new();
        loop {
            match running.next_line() {
                Said::Line(line) => said.extend(line),
                Said::End => return Ok((said, running.ended_well())),
                Said::Silence => return Ok((said, Err(running.silence()))),
            }
        }
    }
}

/// A program that stops reading ends this; what it says then shows why.
fn feed(pipe: ChildStdin, input: impl Iterator<Item = Vec<u8>>) {
    let mut pipe = BufWriter::with_capacity(PIECE, pipe);
    for piece in input {
        if pipe.write_all(&piece).is_err() {
            return;
        }
    }
    drop(pipe.flush());
}

fn collect(mut pipe: ChildStdout, sender: SyncSender<Vec<u8>>) {
    let mut buffer = vec![0; PIECE];
    while let Ok(length @ 1..) = pipe.read(&mut buffer) {
        if sender.send(buffer[..length].to_vec()).is_err() {
            return;
        }
    }
}

pub struct Running {
    child: Child,
    output: Receiver<Vec<u8>>,
    unread: Vec<u8>,
    place: usize,
    patience: Duration,
}

impl Running {
    pub fn next_line(&mut self) -> Said {
        loop {
            let rest = &self.unread[self.place..];
            if let Some(end) = rest.iter().position(|&byte| byte == b'\n') {
                let line = rest[..=end].to_vec();
                self.place += end + 1;
                return Said::Line(line);
            }
            match self.output.recv_timeout(self.patience) {
                Ok(piece) => {
                    self.unread.drain(..self.place);
                    self.place = 0;
                    self.unread.extend(piece);
                }
                Err(RecvTimeoutError::Timeout) => return Said::Silence,
                Err(RecvTimeoutError::Disconnected) if rest.is_empty() => return Said::End,
                Err(RecvTimeoutError::Disconnected) => {
                    let line = rest.to_vec();
                    self.place = self.unread.len();
                    return Said::Line(line);
                }
            }
        }
    }

    /// Waits for its end, which has to be with status 0.
    pub fn ended_well(&mut self) -> Result<(), BadEnd> {
        let until = Instant::now() + self.patience;
        let bad = |what| Err(BadEnd { what, is_silent: false });
        while Instant::now() < until {
            match self.child.try_wait() {
                Ok(Some(status)) if status.success() => return Ok(()),
                Ok(Some(status)) => return bad(format!("the program ends with {status}")),
                Ok(None) => thread::sleep(Duration::from_millis(1)),
                Err(error) => return bad(error.to_string()),
            }
        }
        Err(self.silence())
    }

    pub fn silence(&self) -> BadEnd {
        let what = format!("the program neither speaks nor ends for {} s", self.patience.as_secs());
        BadEnd { what, is_silent: true }
    }
}

impl Drop for Running {
    fn drop(&mut self) {
        // It may have ended by itself.
        drop(self.child.kill());
        drop(self.child.wait());
    }
}
