//! One run of a program on one file.
use std::ffi::OsString;
use std::io::{self, Read, Write};
use std::process::{Child, ChildStdin, Command, ExitStatus, Stdio};
use std::sync::mpsc::{channel, Receiver};
use std::thread;
use std::time::{Duration, Instant};

/// The time that a run may take.
const TIME: Duration = Duration::from_secs(10);
/// Bytes that are read of what a program writes; no file asks for so many.
const MOST_OUTPUT: u64 = 1 << 24;
/// Between two pieces of a file, so that a program has read the first.
const WHILE: Duration = Duration::from_millis(4);
/// Between two looks at a program that has closed its output.
const PAUSE: Duration = Duration::from_micros(20);

/// The words that start a program, and whether it stands under a wrapper.
pub struct Program {
    words: Vec<OsString>,
    pub is_wrapped: bool,
}

/// What a program wrote, and how it ended.
pub struct Run {
    pub output: Vec<u8>,
    pub errors: Vec<u8>,
    pub status: ExitStatus,
}

impl Program {
    /// A program under the words of a wrapper, or under none.
    pub fn new(program: OsString, wrapper: &[OsString]) -> Program {
        Program {
            words: [wrapper, &[program]].concat(),
            is_wrapped: !wrapper.is_empty(),
        }
    }

    /// Runs it on a file that comes in these pieces; nothing where it does not end in time.
    pub fn run(&self, pieces: &[&[u8]]) -> io::Result<Option<Run>> {
        let deadline = Instant::now() + TIME;
        let mut child = self.start()?;
        let output = child.stdout.take().map(reading);
        let errors = child.stderr.take().map(reading);
        if let Some(input) = child.stdin.take() {
            // A program may end before it has read all; what it printed tells whether that is right.
            let _ = feed(input, pieces);
        }
        let output = output.and_then(|pipe| in_time(&pipe, deadline));
        let errors = errors.and_then(|pipe| in_time(&pipe, deadline));
        let status = ended(&mut child, deadline)?;
        Ok(match (output, errors, status) {
            (Some(output), Some(errors), Some(status)) => Some(Run {
                output,
                errors,
                status,
            }),
            _ => None,
        })
    }

    fn start(&self) -> io::Result<Child> {
        let mut command = Command::new(&self.words[0]);
        command.args(&self.words[1..]);
        command.stdin(Stdio::piped());
        command.stdout(Stdio::piped());
        command.stderr(Stdio::piped());
        let named = |error: io::Error| {
            let program = self.words[0].to_string_lossy();
            io::Error::new(error.kind(), format!("{program}: {error}"))
        };
        command.spawn().map_err(named)
    }
}

/// Writes the pieces with a while between them, and closes the pipe.
fn feed(mut input: ChildStdin, pieces: &[&[u8]]) -> io::Result<()> {
    for (piece, number) in pieces.iter().zip(0..) {
        if number > 0 {
            thread::sleep(WHILE);
        }
        input.write_all(piece)?;
    }
    Ok(())
}

/// Reads a pipe to its end on a thread of its own, so that a program that never ends keeps nobody.
fn reading(pipe: impl Read + Send + 'static) -> Receiver<Vec<u8>> {
    let (sender, receiver) = channel();
    thread::spawn(move || {
        let mut bytes = Vec::new();
        // What was read before an error is compared all the same.
        let _ = pipe.take(MOST_OUTPUT).read_to_end(&mut bytes);
        let _ = sender.send(bytes);
    });
    receiver
}

fn in_time(pipe: &Receiver<Vec<u8>>, deadline: Instant) -> Option<Vec<u8>> {
    let left = deadline.saturating_duration_since(Instant::now());
    pipe.recv_timeout(left).ok()
}

/// The status of a program that ends in time; another one is killed.
fn ended(child: &mut Child, deadline: Instant) -> io::Result<Option<ExitStatus>> {
    loop {
        if let Some(status) = child.try_wait()? {
            return Ok(Some(status));
        }
        if Instant::now() >= deadline {
            child.kill()?;
            child.wait()?;
            return Ok(None);
        }
        thread::sleep(PAUSE);
    }
}
