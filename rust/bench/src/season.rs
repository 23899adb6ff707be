//! Times the season report beside the second implementation's optimized one, as whole programs: the
//! same file as standard input, by turns, with the start of the process and all its reading. Then
//! it finds how much memory each takes at most.
//!
//! `season-bench PROVED OPTIMIZED` is given the paths of the two programs.

mod clock;

use std::env;
use std::fs::{self, File};
use std::io::Write;
use std::path::PathBuf;
use std::process::{self, Command, ExitCode, Stdio};
use std::thread;
use std::time::Duration;

use clock::{by_turns, Side, Times};
use relief_inputs::{two_by_one, Case, Random};
use relief_reference::season::LIMITS;
use relief_reference::{Rounds, Terms};

/// Measurements of each side, after one that warms up.
const REPETITIONS: usize = 11;

/// A program takes what is left in its pipe in this time.
const DRAIN_TIME: Duration = Duration::from_millis(500);

fn main() -> ExitCode {
    let arguments: Vec<String> = env::args().skip(1).collect();
    let [proved, reference] = &arguments[..] else {
        eprintln!("usage: season-bench PROVED OPTIMIZED");
        return ExitCode::from(2);
    };
    println!(
        "ms for the whole program, median of {REPETITIONS} and least, and KiB of memory at most"
    );
    let sides = format!("{:>9}{:>9}", "proved", "Rust");
    println!(
        "{:24}{sides}{ratio:>7}  {sides}{ratio:>7}  {sides}",
        "",
        ratio = "ratio"
    );
    for (name, season) in seasons() {
        report(name, &season, proved, reference);
    }
    ExitCode::SUCCESS
}

/// Times both programs on a season and prints a line.
fn report(name: &str, season: &[u8], proved: &str, reference: &str) {
    let file = TemporaryFile::new(season);
    let mut texts = Vec::new();
    let times = by_turns(REPETITIONS, |side| {
        let path = match side {
            Side::Proved => proved,
            Side::Reference => reference,
        };
        texts.push(printed(path, &file));
    });
    let first = &texts[0];
    assert_eq!(first.lines().count(), 8, "a job is refused: {first}");
    assert!(texts.iter().all(|text| text == first), "the texts differ");

    let figures = |figure: fn(&Times) -> f64| {
        let [proved, reference] = times.each_ref().map(|times| 1e3 * figure(times));
        format!("{proved:9.1}{reference:9.1}{:7.2}", proved / reference)
    };
    let memory = [proved, reference].map(|path| match peak_memory(path, season) {
        Some(kibibytes) => format!("{kibibytes:>9}"),
        None => format!("{:>9}", "?"),
    });
    let (median, least, memory) = (figures(Times::median), figures(least), memory.concat());
    println!("{name:24}{median}  {least}  {memory}");
}

/// The least of the times in seconds.
fn least(times: &Times) -> f64 {
    times.0[0].as_secs_f64()
}

/// Seasons of the most jobs and of the most pixels, run and checked, without weights and with them.
fn seasons() -> [(&'static str, Vec<u8>); 4] {
    let mut random = Random::new(0xBE2C4);
    let (mut runs, mut checks, mut weighted_runs) = (Vec::new(), Vec::new(), Vec::new());
    for _ in 0..200 {
        let case = Case {
            terms: Terms {
                width: 64,
                height: 64,
                weight: 16_384,
                low: 16,
                high: 240,
            },
            rounds: Rounds {
                quick: 20,
                allowance: 50,
            },
            samples: random.bytes(64 * 64),
            weights: Vec::new(),
        };
        runs.extend(case.tape(&[]));
        checks.extend(case.tape(&case.flow(&mut random)));
        let weighted = Case {
            weights: random.weights(case.grid().pair_count(), 32_768),
            ..case
        };
        weighted_runs.extend(weighted.tape(&[]));
    }
    let smallest = two_by_one().tape(&[]).repeat(LIMITS.jobs as usize);
    [
        ("65,535 runs of 2 by 1", smallest),
        ("200 runs of 64 by 64", runs),
        ("200 checks of 64 by 64", checks),
        ("200 weighted runs", weighted_runs),
    ]
}

/// A season in a file, which is removed with it.
struct TemporaryFile(PathBuf);

impl TemporaryFile {
    fn new(season: &[u8]) -> TemporaryFile {
        let path = env::temp_dir().join(format!("season-bench-{}.tape", process::id()));
        fs::write(&path, season).expect("the season is stored");
        TemporaryFile(path)
    }
}

impl Drop for TemporaryFile {
    fn drop(&mut self) {
        let _ = fs::remove_file(&self.0);
    }
}

/// What the program prints for the season in the file.
fn printed(path: &str, season: &TemporaryFile) -> String {
    let output = Command::new(path)
        .stdin(File::open(&season.0).expect("the season is there"))
        .output()
        .expect("the program can be started");
    String::from_utf8(output.stdout).expect("the program prints text")
}

/// The most memory that the program has taken when all of the season but its last byte has come;
/// none where the system does not tell.
fn peak_memory(path: &str, season: &[u8]) -> Option<u64> {
    let mut child = Command::new(path)
        .stdin(Stdio::piped())
        .stdout(Stdio::null())
        .spawn()
        .expect("the program can be started");
    let (last, others) = season.split_last().expect("a season has bytes");
    let mut pipe = child.stdin.take().expect("its input is a pipe");
    pipe.write_all(others).expect("the program reads");
    thread::sleep(DRAIN_TIME);
    let status = fs::read_to_string(format!("/proc/{}/status", child.id()));
    pipe.write_all(&[*last]).expect("the program reads");
    drop(pipe);
    child.wait().expect("the program ends");
    let status = status.ok()?;
    let peak = status
        .lines()
        .find_map(|line| line.strip_prefix("VmHWM:"))?;
    peak.split_whitespace().next()?.parse().ok()
}
