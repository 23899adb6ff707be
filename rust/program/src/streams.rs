//! Streams that fail: the program must end, say so on standard error, and print nothing where
//! it could not read.

use std::fs::File;
use std::io::{self, Write};
use std::os::fd::OwnedFd;
use std::os::unix::net::UnixStream;
use std::process::Output;

use relief_inputs::{two_by_one, Difference};

use crate::child::{run, run_unread, Input, Program};
use crate::compare::report;
use crate::tapes::full_tape;

/// Starts the program with an output that cannot be written, then with an input that cannot
/// be read. In what it says it names itself so.
pub fn compare(program: &Program, name: &str) -> Result<(), Difference> {
    for tape in [two_by_one().tape(&[]), full_tape()] {
        output_fails(program, name, &tape.into())?;
    }
    println!("output that cannot be written: ended");
    input_fails(program, name)?;
    println!("input that cannot be read: ended, nothing printed");
    Ok(())
}

fn output_fails(program: &Program, name: &str, input: &Input) -> Result<(), Difference> {
    let said = format!("{name}: standard output cannot be written\n");
    let unread = run_unread(&mut program.command(), input);
    // Without a word: the toolchain's runtime ignores the system's signal, so the write fails, as it
    // does where whoever starts the program ignores it.
    expect_message("output that nobody reads", unread, input, "")?;
    let mut signal_ignored = program.shell(r#"trap "" PIPE; exec "$0""#);
    let unread = run_unread(&mut signal_ignored, input);
    let what = "output that nobody reads, its signal ignored";
    expect_message(what, unread, input, "")?;
    let full = opened(File::create("/dev/full"))?;
    let to_full = run(program.command().stdout(full), input);
    expect_message("output to a full device", to_full, input, &said)?;
    let to_none = run(&mut program.shell(r#"exec "$0" >&-"#), input);
    expect_message("output closed", to_none, input, &said)
}

fn input_fails(program: &Program, name: &str) -> Result<(), Difference> {
    let said = format!("{name}: standard input cannot be read\n");
    let none = Vec::new().into();
    let folder = opened(File::open("/"))?;
    let from_folder = run(program.command().stdin(folder), &none);
    expect_message("input from a folder", from_folder, &none, &said)?;
    let closed = run(&mut program.shell(r#"exec "$0" <&-"#), &none);
    expect_message("input closed", closed, &none, &said)?;

    // Behind this tape the system would have to wait, which it is told not to do.
    let tape = two_by_one().tape(&[]);
    let (mut near, far) = opened(UnixStream::pair())?;
    opened(far.set_nonblocking(true))?;
    opened(near.write_all(&tape))?;
    let fails_late = run(program.command().stdin(OwnedFd::from(far)), &none);
    expect_message("input that fails late", fails_late, &tape.into(), &said)
}

fn opened<T>(stream: io::Result<T>) -> Result<T, Difference> {
    stream.map_err(|error| Difference(error.to_string()))
}

/// Sees to it that the program has ended, with nothing printed and this on standard error.
fn expect_message(
    what: &str,
    result: Result<Output, String>,
    input: &Input,
    said: &str,
) -> Result<(), Difference> {
    let differs = match result {
        Err(failure) => failure,
        Ok(output) if !output.stdout.is_empty() => {
            format!("it printed \"{}\"", output.stdout.escape_ascii())
        }
        Ok(output) if output.stderr != said.as_bytes() => {
            format!("standard error has \"{}\"", output.stderr.escape_ascii())
        }
        Ok(output) if !output.status.success() => {
            format!("it ended with {}", output.status)
        }
        Ok(_) => return Ok(()),
    };
    Err(report(&format!("{what}: {differs}"), input))
}
