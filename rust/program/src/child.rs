//! The program under test, started as a child process.

use std::io::{Read, Write};
use std::path::PathBuf;
use std::process::{Child, ChildStdin, Command, ExitStatus, Output, Stdio};
use std::thread;
use std::time::{Duration, Instant};

/// How long the program may take for one input.
const TIME_LIMIT: Duration = Duration::from_secs(120);

/// The path of the program.
pub struct Program(PathBuf);

/// Bytes for the standard input of the program, and how they are written to the pipe.
pub struct Input {
    pub bytes: Vec<u8>,
    /// How many times they are written, one behind the other.
    pub times: usize,
    /// The most bytes in one write.
    pub piece: usize,
    /// What the writer waits after each write.
    pub pause: Duration,
    /// Whether the pipe stays open until the program has ended.
    pub stays_open: bool,
}

/// Everything in one write.
impl From<Vec<u8>> for Input {
    fn from(bytes: Vec<u8>) -> Input {
        Input {
            bytes,
            times: 1,
            piece: usize::MAX,
            pause: Duration::ZERO,
            stays_open: false,
        }
    }
}

impl Input {
    /// In pieces of so many bytes, with pauses.
    pub fn in_pieces(bytes: Vec<u8>, piece: usize, milliseconds: u64) -> Input {
        Input {
            piece,
            pause: Duration::from_millis(milliseconds),
            ..bytes.into()
        }
    }

    /// By a pipe that stays open.
    pub fn left_open(bytes: Vec<u8>) -> Input {
        Input {
            stays_open: true,
            ..bytes.into()
        }
    }

    /// Writes until the end, or until the program reads no more: it need not read on once it
    /// knows its answer.
    fn write_to(&self, pipe: &mut ChildStdin) {
        let pieces = (0..self.times).flat_map(|_| self.bytes.chunks(self.piece));
        for piece in pieces {
            if pipe.write_all(piece).is_err() {
                return;
            }
            if !self.pause.is_zero() {
                thread::sleep(self.pause);
            }
        }
    }
}

impl Program {
    pub fn new(path: &str) -> Program {
        Program(path.into())
    }

    /// The command that starts the program, with all its streams captured.
    pub fn command(&self) -> Command {
        captured(Command::new(&self.0))
    }

    /// The same by way of a shell, whose `script` names the program `"$0"`.
    pub fn shell(&self, script: &str) -> Command {
        let mut command = Command::new("sh");
        command.args(["-c", script]).arg(&self.0);
        captured(command)
    }
}

fn captured(mut command: Command) -> Command {
    command
        .stdin(Stdio::piped())
        .stdout(Stdio::piped())
        .stderr(Stdio::piped());
    command
}

/// Starts the program and waits until it has ended.
pub fn run(command: &mut Command, input: &Input) -> Result<Output, String> {
    let mut child = start(command)?;
    let stdout = child.stdout.take();
    finish(child, stdout, input)
}

/// The same with the reading end of standard output closed before the program has its input.
pub fn run_unread(command: &mut Command, input: &Input) -> Result<Output, String> {
    let mut child = start(command)?;
    drop(child.stdout.take());
    finish(child, None::<&[u8]>, input)
}

fn start(command: &mut Command) -> Result<Child, String> {
    command
        .spawn()
        .map_err(|error| format!("{command:?} cannot be started: {error}"))
}

/// Writes the input and reads the captured streams, all at once, so that no pipe fills up.
fn finish(
    mut child: Child,
    stdout: Option<impl Read + Send>,
    input: &Input,
) -> Result<Output, String> {
    let (mut stdin, stderr) = (child.stdin.take(), child.stderr.take());
    thread::scope(|scope| {
        scope.spawn(|| {
            if let Some(pipe) = &mut stdin {
                input.write_to(pipe);
            }
            if !input.stays_open {
                stdin = None;
            }
        });
        let stdout = scope.spawn(|| read_all(stdout));
        let stderr = scope.spawn(|| read_all(stderr));
        let status = wait(&mut child)?;
        Ok(Output {
            status,
            stdout: stdout.join().expect("the reader does not panic")?,
            stderr: stderr.join().expect("the reader does not panic")?,
        })
    })
}

fn read_all(stream: Option<impl Read>) -> Result<Vec<u8>, String> {
    let mut bytes = Vec::new();
    if let Some(mut stream) = stream {
        stream
            .read_to_end(&mut bytes)
            .map_err(|error| format!("its output cannot be read: {error}"))?;
    }
    Ok(bytes)
}

/// Waits for the program, which is ended by force when it takes too long.
fn wait(child: &mut Child) -> Result<ExitStatus, String> {
    let failed = |error| format!("it cannot be waited for: {error}");
    let start = Instant::now();
    while start.elapsed() < TIME_LIMIT {
        if let Some(status) = child.try_wait().map_err(failed)? {
            return Ok(status);
        }
        thread::sleep(Duration::from_micros(100));
    }
    child.kill().map_err(failed)?;
    child.wait().map_err(failed)?;
    Err(format!("it did not end within {TIME_LIMIT:?}"))
}
