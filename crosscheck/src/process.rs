//! Running another program with bytes for its standard input.

use std::io::{BufRead, BufReader, Read, Write};
use std::path::Path;
use std::process::{Child, Command, ExitStatus, Stdio};
use std::sync::mpsc;
use std::thread;
use std::time::{Duration, Instant};

/// No program under comparison is waited for any longer.
pub const PATIENCE: Duration = Duration::from_secs(60);
/// An answer that comes no sooner does not come at once.
const SOON: Duration = Duration::from_secs(5);

#[derive(Debug, PartialEq, Eq)]
pub enum Ending {
    Status(i32),
    Signal,
    TooSlow,
    NotStarted(String),
}

#[derive(Debug)]
pub struct Outcome {
    pub stdout: Vec<u8>,
    pub stderr: Vec<u8>,
    pub ending: Ending,
}

impl Outcome {
    fn without_output(ending: Ending) -> Outcome {
        Outcome {
            stdout: Vec::new(),
            stderr: Vec::new(),
            ending,
        }
    }
}

fn start(program: &Path, arguments: &[&str]) -> std::io::Result<Child> {
    Command::new(program)
        .args(arguments)
        .stdin(Stdio::piped())
        .stdout(Stdio::piped())
        .stderr(Stdio::piped())
        .spawn()
}

fn ending(status: ExitStatus) -> Ending {
    status.code().map_or(Ending::Signal, Ending::Status)
}

/// Waits for the end of a program whose output has ended, and ends it itself
/// where it goes on for too long.
fn wait(child: &mut Child, until: Instant) -> Ending {
    loop {
        match child.try_wait() {
            Ok(Some(status)) => return ending(status),
            Ok(None) if Instant::now() < until => thread::sleep(Duration::from_micros(50)),
            Ok(None) => {
                let _ = child.kill();
                let _ = child.wait();
                return Ending::TooSlow;
            }
            Err(error) => return Ending::NotStarted(error.to_string()),
        }
    }
}

fn read_all(mut from: impl Read) -> Vec<u8> {
    let mut bytes = Vec::new();
    let _ = from.read_to_end(&mut bytes);
    bytes
}

/// Runs a program on an input and reads all that it prints.
pub fn run(program: &Path, arguments: &[&str], input: &[u8], patience: Duration) -> Outcome {
    let mut child = match start(program, arguments) {
        Ok(child) => child,
        Err(error) => return Outcome::without_output(Ending::NotStarted(error.to_string())),
    };
    let until = Instant::now() + patience;
    let (stdin, stdout, stderr) = (child.stdin.take(), child.stdout.take(), child.stderr.take());
    thread::scope(|scope| {
        // The program may stop reading early, so a failed write is no fault.
        scope.spawn(move || stdin.map(|mut pipe| pipe.write_all(input)));
        let errors = scope.spawn(move || stderr.map(read_all).unwrap_or_default());
        let (sender, receiver) = mpsc::channel();
        scope.spawn(move || sender.send(stdout.map(read_all).unwrap_or_default()));
        let stdout = receiver.recv_timeout(patience).unwrap_or_default();
        let ending = wait(&mut child, until);
        Outcome {
            stdout,
            stderr: errors.join().unwrap_or_default(),
            ending,
        }
    })
}

/// Runs a program line by line: each line is written only when the answer to
/// the one before has come. A first answer comes before any line. So many
/// lines are written as there are answers to be had; one without an LF is the
/// last, and its answer is not waited for before the input ends.
pub fn talk(program: &Path, arguments: &[&str], lines: &[&[u8]], answers: usize) -> Outcome {
    let mut child = match start(program, arguments) {
        Ok(child) => child,
        Err(error) => return Outcome::without_output(Ending::NotStarted(error.to_string())),
    };
    let until = Instant::now() + PATIENCE;
    let (stdin, stdout, stderr) = (child.stdin.take(), child.stdout.take(), child.stderr.take());
    thread::scope(|scope| {
        let errors = scope.spawn(move || stderr.map(read_all).unwrap_or_default());
        let (sender, receiver) = mpsc::channel();
        scope.spawn(move || stdout.map(|pipe| send_lines(pipe, &sender)));
        let mut ear = Ear {
            receiver,
            printed: Vec::new(),
            late: false,
        };
        let mut pipe = stdin;
        let mut going = ear.hears();
        for line in lines.iter().take(answers.saturating_sub(1)) {
            let wrote = pipe.as_mut().is_some_and(|p| p.write_all(line).is_ok());
            if !going || !wrote || line.last() != Some(&b'\n') {
                break;
            }
            going = ear.hears();
        }
        // The end of the input, then whatever is printed unasked.
        drop(pipe);
        let late = ear.late;
        while ear.hears() {}
        let ending = wait(&mut child, until);
        Outcome {
            stdout: ear.printed,
            stderr: errors.join().unwrap_or_default(),
            ending: if late { Ending::TooSlow } else { ending },
        }
    })
}

/// Sends on each line as soon as it is printed.
fn send_lines(pipe: impl Read, sender: &mpsc::Sender<Vec<u8>>) {
    let mut from = BufReader::new(pipe);
    loop {
        let mut line = Vec::new();
        match from.read_until(b'\n', &mut line) {
            Ok(length) if length > 0 && sender.send(line).is_ok() => {}
            _ => return,
        }
    }
}

/// What was heard of a program so far.
struct Ear {
    receiver: mpsc::Receiver<Vec<u8>>,
    printed: Vec<u8>,
    late: bool,
}

impl Ear {
    /// Waits for one more line.
    fn hears(&mut self) -> bool {
        match self.receiver.recv_timeout(SOON) {
            Ok(line) => {
                self.printed.extend(line);
                true
            }
            Err(error) => {
                self.late |= error == mpsc::RecvTimeoutError::Timeout;
                false
            }
        }
    }
}
