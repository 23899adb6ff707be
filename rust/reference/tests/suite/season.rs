//! The season report: the documents' values, refused jobs, limits, and the sum over what the
//! cleaning program says of each job. Every text is made twice, by the definitions from the
//! whole input, and by the optimized calls from a stream.

use std::io::{self, Read};

use relief_inputs::{
    filler, flat, jointed, mutated_jobs, season_job, season_prefixes, two_by_one, Case, Random,
    Tape, TWO_BY_ONE_SEASON,
};
use relief_reference::program::{clean, TABLES};
use relief_reference::season::{optimized, report, report_within, Limits, LIMITS};
use relief_reference::tape::Capacity;

use crate::support::printed;

/// A stream that gives at most so many bytes at a time.
struct Chunks<'a> {
    bytes: &'a [u8],
    size: usize,
}

impl Read for Chunks<'_> {
    fn read(&mut self, buffer: &mut [u8]) -> io::Result<usize> {
        let length = self.size.min(buffer.len());
        self.bytes.read(&mut buffer[..length])
    }
}

/// The text of a season within `limits`, which is the same from a stream.
fn reported_within(limits: &Limits, input: &[u8]) -> String {
    let text = report_within(limits, input);
    for size in [1, 7, usize::MAX] {
        let stream = Chunks { bytes: input, size };
        assert_eq!(optimized::report_within(limits, stream).unwrap(), text);
    }
    text
}

fn reported(input: &[u8]) -> String {
    assert_eq!(report(input), report_within(&LIMITS, input));
    reported_within(&LIMITS, input)
}

/// The lines of a report.
#[derive(Clone, Copy, Debug, Default)]
struct Lines {
    jobs: u64,
    pixels: u64,
    settled: u64,
    spent: u64,
    checked: u64,
    total: u64,
    largest: (u64, u64),
    mean: (u64, u64),
    /// Number and place of the refusal of the job after these.
    refused: Option<(u32, usize)>,
}

impl Lines {
    fn text(&self) -> String {
        let names = ["jobs", "pixels", "settled", "spent", "checked", "total"];
        let numbers = [
            self.jobs,
            self.pixels,
            self.settled,
            self.spent,
            self.checked,
            self.total,
        ];
        let mut lines: Vec<String> = names
            .iter()
            .zip(numbers)
            .map(|(name, number)| format!("{name} {number}"))
            .collect();
        lines.push(format!("largest {} {}", self.largest.0, self.largest.1));
        lines.push(format!("mean {} {}", self.mean.0, self.mean.1));
        if let Some((number, place)) = self.refused {
            lines.push(format!("job {} refused {number} at {place}", self.jobs + 1));
        }
        lines.iter().map(|line| format!("{line}\n")).collect()
    }
}

/// So many of the 2 by 1 job, whose slack is 16, and then a refusal.
fn two_by_ones(jobs: u64, refused: Option<(u32, usize)>) -> String {
    let lines = Lines {
        jobs,
        pixels: 2 * jobs,
        settled: jobs,
        total: 16 * jobs,
        largest: if jobs > 0 { (16, 1) } else { (0, 0) },
        mean: if jobs > 0 { (8, 0) } else { (0, 0) },
        refused,
        ..Lines::default()
    };
    lines.text()
}

#[test]
fn the_two_by_one_job_alone() {
    assert_eq!(two_by_ones(1, None), TWO_BY_ONE_SEASON);
    assert_eq!(reported(&two_by_one().tape(&[])), TWO_BY_ONE_SEASON);
}

#[test]
fn no_jobs_are_zeros() {
    let text = "\
jobs 0
pixels 0
settled 0
spent 0
checked 0
total 0
largest 0 0
mean 0 0
";
    assert_eq!(reported(&[]), text);
}

#[test]
fn a_refused_job_after_the_two_by_one_job() {
    let job = two_by_one();
    let mut beyond = job.tape(&[256]);
    beyond[20..24].copy_from_slice(&257_i32.to_le_bytes());
    let text = format!("{TWO_BY_ONE_SEASON}job 2 refused 8 at 0\n");
    assert_eq!(reported(&[job.tape(&[]), beyond].concat()), text);
}

#[test]
fn a_job_with_every_two_mutations_after_the_two_by_one_job() {
    let good = two_by_one().tape(&[]);
    for (job, due) in mutated_jobs() {
        let text = reported(&[&good[..], &job].concat());
        match due {
            Ok(()) => assert_eq!(text.lines().count(), 8),
            Err(refusal) => assert!(text.ends_with(&format!(" {refusal}\n"))),
        }
    }
}

/// The 2 by 1 job: spent with slack 36.
fn spent() -> Vec<u8> {
    let mut job = two_by_one();
    job.rounds.allowance = 16;
    job.tape(&[])
}

#[test]
fn outcomes_are_counted_and_slacks_added() {
    let job = two_by_one();
    let season = [
        job.tape(&[]),
        job.tape(&[-256]),
        spent(),
        flat(1, 1).tape(&[]),
        job.tape(&[256]),
        job.tape(&[0]),
    ];
    let total = 16 + 36 + 917_504 + 262_144;
    let lines = Lines {
        jobs: 6,
        pixels: 11,
        settled: 2,
        spent: 1,
        checked: 3,
        total,
        largest: (917_504, 5),
        mean: (107_245, 5),
        refused: None,
    };
    assert_eq!(11 * lines.mean.0 + lines.mean.1, total);
    assert_eq!(reported(&season.concat()), lines.text());
}

#[test]
fn the_first_of_equal_slacks_is_named() {
    let job = two_by_one();
    let [none, small, large] = [-256, 0, 256].map(|flow| job.tape(&[flow]));
    for (season, largest) in [
        (vec![&none], "largest 0 1"),
        (vec![&none, &none], "largest 0 1"),
        (vec![&none, &small, &none, &small], "largest 262144 2"),
        (
            vec![&small, &small, &large, &small, &large],
            "largest 917504 3",
        ),
    ] {
        let season: Vec<u8> = season.into_iter().flatten().copied().collect();
        let text = reported(&season);
        assert_eq!(text.lines().nth(6), Some(largest));
    }
}

#[test]
fn jobs_with_a_joint() {
    let job = jointed();
    let mut quick = job.clone();
    (quick.rounds.quick, quick.rounds.allowance) = (3, 0);
    let mut season = [&job, &quick].map(|job| job.tape(&[])).concat();
    season.extend([[0, 0], [0, -512]].map(|flow| job.tape(&flow)).concat());
    let lines = Lines {
        jobs: 4,
        pixels: 12,
        settled: 2,
        checked: 2,
        total: 2_097_152,
        largest: (2_097_152, 3),
        mean: (174_762, 8),
        ..Lines::default()
    };
    assert_eq!(reported(&season), lines.text());

    // The first number is beyond the first weight, though not beyond the terms'.
    let mut beyond = Tape::new(&job, &[0, 0]);
    beyond.set_flow(0, 1);
    season.extend(&beyond.bytes);
    let refused = Some((8, 0));
    assert_eq!(reported(&season), Lines { refused, ..lines }.text());
}

/// One pixel has no pairs: it is run, with nothing to move.
#[test]
fn jobs_of_one_pixel() {
    let one = flat(1, 1).tape(&[]);
    let lines = Lines {
        jobs: 3,
        pixels: 3,
        settled: 3,
        largest: (0, 1),
        ..Lines::default()
    };
    assert_eq!(reported(&one.repeat(3)), lines.text());

    let lines = Lines {
        jobs: 2,
        pixels: 3,
        settled: 2,
        total: 16,
        largest: (16, 2),
        mean: (5, 1),
        ..Lines::default()
    };
    let season = [one, two_by_one().tape(&[])].concat();
    assert_eq!(reported(&season), lines.text());
}

/// A job of 2 by 2 pixels with weights and a flow. Its records stand at 0, 5, 10, 15 to 21, 23 to
/// 32, 35 to 50 and 55.
fn square_tape() -> Tape {
    let mut job = two_by_one();
    (job.terms.height, job.terms.weight) = (2, 257);
    (job.terms.low, job.terms.high) = (8, 12);
    job.samples = vec![0, 9, 255, 4];
    job.weights = vec![1, 2, 256, 257];
    Tape::new(&job, &[1, -2, 256, -257])
}

fn square() -> Vec<u8> {
    square_tape().bytes
}

/// The report of the 2 by 1 job before the first bytes of a tape, which are not all of it.
fn two_by_one_and_first(tape: &Tape, length: usize) -> String {
    let refusal = tape.prefix_answer(length).unwrap_err();
    two_by_ones(1, Some((refusal.number, refusal.place as usize)))
}

/// Every kind of refusal that a season can have but 13, 17 and 18: number and place, and the byte
/// that leads to it.
const MUTATIONS: [(u32, usize, usize, u8); 29] = [
    (12, 0, 0, 7),
    (12, 5, 5, 255),
    (12, 17, 17, 7),
    (12, 32, 32, 7),
    (12, 45, 45, 255),
    (12, 55, 55, 7),
    (14, 0, 0, 0),
    (14, 0, 0, 2),
    (14, 5, 5, 1),
    (14, 15, 15, 5),
    (14, 15, 15, 6),
    (14, 21, 21, 0),
    (14, 23, 23, 4),
    (14, 26, 26, 0),
    (14, 29, 29, 5),
    (14, 35, 35, 6),
    (14, 40, 40, 0),
    (14, 50, 50, 6),
    (14, 55, 55, 5),
    (1, 0, 1, 0),
    (1, 0, 2, 0x10),
    (16, 0, 2, 0x0F),
    (2, 5, 7, 0xFF),
    (3, 5, 8, 13),
    (10, 10, 12, 0x11),
    (2, 23, 25, 0xFF),
    (2, 32, 34, 0xFF),
    (8, 1, 43, 0x7F),
    (8, 3, 53, 0x80),
];

#[test]
fn every_refusal_at_the_first_and_at_later_jobs() {
    let good = two_by_one().tape(&[]);
    let square = square();
    assert_eq!(reported(&square).lines().count(), 8);
    for (number, place, offset, byte) in MUTATIONS {
        let mut faulty = square.clone();
        assert_ne!(faulty[offset], byte);
        faulty[offset] = byte;
        for before in 0..3 {
            let expected = two_by_ones(before, Some((number, place)));
            let season = [good.repeat(before as usize), faulty.clone()].concat();
            assert_eq!(reported(&season), expected);
            // What follows does not count, be it a job or not.
            for behind in [&good[..], &square, &[0], &[7; 99]] {
                assert_eq!(reported(&[&season, behind].concat()), expected);
            }
        }
    }
}

/// The faulty record counts, not the first bytes of another job.
#[test]
fn the_first_faulty_record_decides() {
    let mut faulty = square();
    faulty[53] = 0x80;
    let refused = Some((8, 3));
    assert_eq!(reported(&faulty), two_by_ones(0, refused));
    faulty[55] = 7;
    let refused = Some((12, 55));
    assert_eq!(reported(&faulty), two_by_ones(0, refused));
    faulty[34] = 0xFF;
    let refused = Some((2, 32));
    assert_eq!(reported(&faulty), two_by_ones(0, refused));
    faulty[12] = 0x11;
    let refused = Some((10, 10));
    assert_eq!(reported(&faulty), two_by_ones(0, refused));
}

/// Where one tape must end, another may begin: 15 does not occur.
#[test]
fn a_byte_behind_the_end_begins_another_job() {
    let job = two_by_one().tape(&[]);
    for byte in 0..=255 {
        let refused = match byte {
            1 => (13, 0),
            0..=6 => (14, 0),
            _ => (12, 0),
        };
        let season = [&job[..], &[byte]].concat();
        assert_eq!(reported(&season), two_by_ones(1, Some(refused)));
    }
}

#[test]
fn a_season_cut_at_every_byte() {
    let jobs = [Tape::new(&two_by_one(), &[]), square_tape()];
    let first = jobs[0].bytes.len();
    for (season, due) in season_prefixes(&jobs) {
        let text = reported(&season);
        let refused = due
            .err()
            .map(|refusal| (refusal.number, refusal.place as usize));
        match season.len() {
            length if length < first => assert_eq!(text, two_by_ones(0, refused)),
            length if length < first + jobs[1].bytes.len() => {
                assert_eq!(text, two_by_ones(1, refused))
            }
            _ => assert!(text.starts_with("jobs 2\n") && text.lines().count() == 8),
        }
    }
}

/// A season that was never finished, and a cut one: places count from the first byte of the job.
#[test]
fn where_the_second_job_ends() {
    let (job, square) = (two_by_one().tape(&[]), square());
    for (length, number, place) in [
        (1, 13, 0),
        (4, 13, 0),
        (5, 18, 5),
        (6, 13, 5),
        (15, 18, 15),
        (16, 13, 15),
        (23, 18, 23),
        (24, 13, 23),
        (25, 13, 23),
        (26, 18, 26),
        (34, 13, 32),
        (35, 18, 35),
        (36, 13, 35),
        (54, 13, 50),
        (55, 18, 55),
    ] {
        let season = [&job, &square[..length]].concat();
        assert_eq!(reported(&season), two_by_ones(1, Some((number, place))));
    }
}

#[test]
fn a_season_ends_after_65_535_jobs() {
    let one = flat(1, 1).tape(&[]);
    let most = |jobs, refused| {
        let lines = Lines {
            jobs,
            pixels: jobs,
            settled: jobs,
            largest: (0, 1),
            refused,
            ..Lines::default()
        };
        lines.text()
    };
    let expected = most(65_535, None);
    assert_eq!(reported(&one.repeat(65_535)), expected);
    assert_eq!(reported(&one.repeat(65_536)), expected);
    assert_eq!(
        reported(&[&one.repeat(65_535)[..], &[7; 9]].concat()),
        expected
    );
    assert_eq!(reported(&one.repeat(65_534)), most(65_534, None));
    assert_eq!(
        reported(&[&one.repeat(65_534)[..], &[7; 9]].concat()),
        most(65_534, Some((12, 0)))
    );
}

#[test]
fn a_smaller_number_of_jobs() {
    let job = two_by_one().tape(&[]);
    let limits = Limits { jobs: 3, ..LIMITS };
    for (jobs, counted) in [(2, 2), (3, 3), (4, 3), (9, 3)] {
        let season = job.repeat(jobs);
        let expected = two_by_ones(counted, None);
        assert_eq!(reported_within(&limits, &season), expected);
    }
    let none = Limits { jobs: 0, ..LIMITS };
    assert_eq!(reported_within(&none, &job), two_by_ones(0, None));
}

/// The report of the 2 by 1 job and `input`, where a job may have so many bytes.
fn reported_up_to(job_bytes: usize, input: &[u8]) -> String {
    let limits = Limits {
        job_bytes,
        ..LIMITS
    };
    let season = [&two_by_one().tape(&[]), input].concat();
    reported_within(&limits, &season)
}

#[test]
fn a_job_may_end_at_its_last_byte_but_not_behind() {
    let (tape, square) = (square_tape(), square());
    let (length, both) = (square.len(), square.repeat(2));
    let refused = |number, place| two_by_ones(1, Some((number, place)));
    for input in [&square, &both] {
        assert_eq!(reported_up_to(length, input), reported_up_to(65_536, input));
        assert_eq!(reported_up_to(length - 1, input), refused(17, 0));
        assert_eq!(reported_up_to(20, input), refused(17, 0));
    }
    // The input ends where these bytes do, or before.
    for cut in 20..length {
        let ended = two_by_one_and_first(&tape, cut);
        assert_eq!(reported_up_to(cut, &square[..cut]), ended);
        assert_eq!(reported_up_to(length, &square[..cut]), ended);
        assert_eq!(reported_up_to(cut, &square[..cut + 1]), refused(17, 0));
    }
}

#[test]
fn a_fault_in_the_first_bytes_of_a_job_is_told() {
    let refused = |number, place| two_by_ones(1, Some((number, place)));
    for (number, place, offset, byte) in MUTATIONS {
        let mut season = square().repeat(2);
        season[offset] = byte;
        // A kind is a fault by itself and terms with their record; flow numbers are judged when
        // the whole tape has passed.
        let seen = match (number, place) {
            (12 | 14, _) => place + 1,
            (8, _) => square().len(),
            (2, 23 | 32) => place + 3,
            _ => place + 5,
        };
        for job_bytes in 20..=season.len() {
            let expected = if seen <= job_bytes {
                refused(number, place)
            } else {
                refused(17, 0)
            };
            assert_eq!(reported_up_to(job_bytes, &season), expected);
        }
    }
}

/// Larger tables than the program's, so that a job can have more than 65,536 bytes.
const LARGE: Limits = Limits {
    tables: Capacity {
        samples: 40_000,
        weights: 80_000,
        flow: 80_000,
    },
    ..LIMITS
};

/// A flat job of this size with its tape's length, with a flow of zeros or without.
fn long_tape(width: u32, height: u32, flow: bool, length: usize) -> Tape {
    let job = flat(width, height);
    let pairs = if flow { job.grid().pair_count() } else { 0 };
    let tape = Tape::new(&job, &vec![0; pairs]);
    assert_eq!(tape.bytes.len(), length);
    tape
}

#[test]
fn jobs_about_as_long_as_65_536_bytes() {
    let good = two_by_one().tape(&[]);
    let refused = |number, place| two_by_ones(1, Some((number, place)));
    for (tape, taken) in [
        (long_tape(34, 163, true, 65_535), true),
        (long_tape(182, 180, false, 65_536), true),
        (long_tape(2, 3_449, true, 65_537), false),
        (long_tape(181, 181, false, 65_538), false),
    ] {
        let followed_by = |behind: &[u8]| {
            let season = [&good, &tape.bytes, behind].concat();
            reported_within(&LARGE, &season)
        };
        if taken {
            assert!(followed_by(&[]).starts_with("jobs 2\n"));
            assert!(followed_by(&good).starts_with("jobs 3\n"));
            assert!(followed_by(&[7]).ends_with("job 3 refused 12 at 0\n"));
        } else {
            assert_eq!(followed_by(&[]), refused(17, 0));
            assert_eq!(followed_by(&good), refused(17, 0));
        }
        // Cut at or before the 65,536th byte, it is just a tape that ends too early.
        for cut in [65_534, 65_535, 65_536] {
            if cut < tape.bytes.len() {
                let season = [&good, &tape.bytes[..cut]].concat();
                let ended = two_by_one_and_first(&tape, cut);
                assert_eq!(reported_within(&LARGE, &season), ended);
            }
        }
        // The program's tables do not hold it.
        let season = [&good[..], &tape.bytes].concat();
        assert_eq!(reported(&season), refused(16, 0));
    }
}

#[test]
fn more_records_than_the_tables_hold_are_not_allowed() {
    let good = two_by_one().tape(&[]);
    let refused = |number, place| two_by_ones(1, Some((number, place)));
    let mut random = Random::new(0x10A6);
    let mut case = Case::sized(&mut random, 64, 64);
    case.weights.clear();
    let flowing = case.tape(&case.flow(&mut random));
    assert_eq!(flowing.len(), 16 + 2 * TABLES.samples + 5 * TABLES.flow);
    case.weights = case.pair_weights();
    let weighted = case.tape(&[]);
    assert_eq!(weighted.len(), 16 + 2 * TABLES.samples + 3 * TABLES.weights);
    for (mut tape, more) in [(flowing, &[5, 0, 0, 0, 0][..]), (weighted, &[6, 0, 0])] {
        let end = tape.len() - 1;
        tape.truncate(end);
        tape.extend(more.repeat(20_000));
        let season = [&good[..], &tape].concat();
        assert_eq!(reported(&season), refused(14, end));
    }
}

/// A flat job of this size with all weights and a flow of zeros, and its tape's length.
fn longest_tape(width: u32, height: u32, length: usize) -> Tape {
    let mut job = flat(width, height);
    job.weights = job.pair_weights();
    let tape = Tape::new(&job, &vec![0; job.weights.len()]);
    assert_eq!(tape.bytes.len(), length);
    tape
}

/// With weights and a flow a job of the program's own tables may be too long.
#[test]
fn weights_and_flow_of_over_65_536_bytes() {
    let good = two_by_one().tape(&[]);
    let season = |job: &[u8], behind: &[u8]| reported(&[&good[..], job, behind].concat());
    let too_long = two_by_ones(1, Some((17, 0)));
    let short = longest_tape(100, 37, 65_520);
    assert!(season(&short.bytes, &good).starts_with("jobs 3\n"));
    assert!(season(&short.bytes, &[7]).ends_with("job 3 refused 12 at 0\n"));

    // Byte 65,536 is inside the last flow record, further before the end, and right before one.
    for tape in [
        longest_tape(14, 269, 65_540),
        longest_tape(64, 64, 72_720),
        longest_tape(19, 197, 65_662),
    ] {
        for behind in [&[][..], &good, &[7; 99]] {
            assert_eq!(season(&tape.bytes, behind), too_long);
        }
        assert_eq!(clean(&tape.bytes), "refused 17 at 0\n");
        for cut in [65_534, 65_535, 65_536] {
            let ended = two_by_one_and_first(&tape, cut);
            assert_eq!(season(&tape.bytes[..cut], &[]), ended);
        }
        assert_eq!(season(&tape.bytes[..65_537], &[]), too_long);
    }
}

/// A fault counts in the first 65,536 bytes and not behind them. Flow numbers are judged at the
/// end, which these do not hold.
#[test]
fn faults_of_a_job_of_over_65_536_bytes() {
    let tape = longest_tape(64, 64, 72_720);
    let weights = 15 + 2 * TABLES.samples;
    let flow = weights + 3 * TABLES.weights;
    // The record that goes past byte 65,536, and the one after it.
    let last = flow + 5 * ((65_536 - flow) / 5);
    for (offset, byte, refused) in [
        (10, 7, (12, 10)),
        (weights + 300, 5, (14, weights + 300)),
        (weights + 302, 0xFF, (17, 0)),
        (flow, 6, (14, flow)),
        (flow + 3, 0x7F, (17, 0)),
        (last, 6, (14, last)),
        (last + 5, 6, (17, 0)),
        (72_719, 6, (17, 0)),
    ] {
        let mut faulty = tape.bytes.clone();
        faulty[offset] = byte;
        let (number, place) = refused;
        assert_eq!(reported(&faulty), two_by_ones(0, Some((number, place))));
    }
    // A weight is judged at its record.
    let mut beyond = tape;
    beyond.set_pair_weight(100, 65_281);
    let refused = Some((2, weights + 300));
    assert_eq!(reported(&beyond.bytes), two_by_ones(0, refused));
}

impl Lines {
    /// Adds a job by the text that the cleaning program prints for it.
    fn add(&mut self, text: &str) {
        let words: Vec<&str> = text.split_whitespace().collect();
        if words[0] == "refused" {
            self.refused = Some((words[1].parse().unwrap(), words[3].parse().unwrap()));
            return;
        }
        *match words[5] {
            "settled" => &mut self.settled,
            "spent" => &mut self.spent,
            "checked" => &mut self.checked,
            other => panic!("a job is never {other}"),
        } += 1;
        let slack = words[9].parse().unwrap();
        self.jobs += 1;
        self.pixels += words.len() as u64 - 10;
        self.total += slack;
        self.mean = (self.total / self.pixels, self.total % self.pixels);
        if self.jobs == 1 || slack > self.largest.0 {
            self.largest = (slack, self.jobs);
        }
    }
}

/// Each total is the sum over what the cleaning program says of the jobs.
#[test]
fn totals_are_the_sums_over_the_jobs() {
    let mut random = Random::new(0x5EA5);
    let (mut settled, mut spent, mut checked, mut refused) = (0, 0, 0, 0);
    for _ in 0..400 {
        let jobs = random.below(12);
        let mut tapes: Vec<Vec<u8>> = (0..jobs)
            .map(|_| season_job(&mut random, 30).bytes)
            .collect();
        let damaged = season_job(&mut random, 30).damaged(&mut random);
        // Nothing at all is no job, and a byte behind the end begins another.
        if !damaged.is_empty() && !clean(&damaged).starts_with("refused 15 ") {
            tapes.push(damaged);
        }
        let mut lines = Lines::default();
        for tape in &tapes {
            lines.add(&clean(tape));
        }
        assert_eq!(reported(&tapes.concat()), lines.text());
        settled += lines.settled;
        spent += lines.spent;
        checked += lines.checked;
        refused += u64::from(lines.refused.is_some());
    }
    for count in [settled, spent, checked, refused] {
        assert!(count > 200);
    }
}

/// The comparison's filler has the length that is asked for and holds only accepted jobs.
#[test]
fn filler_of_every_length() {
    let lengths = (18..600).step_by(2).chain((43..600).step_by(2));
    for length in lengths
        .chain(8_190..8_250)
        .chain(16_380..16_460)
        .chain([0, 100_001])
    {
        let season = filler(length);
        assert_eq!(season.len(), length);
        assert_eq!(report(&season).lines().count(), 8);
    }
}

#[test]
fn the_binaries_print_the_text() {
    let job = two_by_one().tape(&[]);
    let season = [&job[..], &[7]].concat();
    let text = format!("{TWO_BY_ONE_SEASON}job 2 refused 12 at 0\n");
    for binary in [
        env!("CARGO_BIN_EXE_season-reference"),
        env!("CARGO_BIN_EXE_season-optimized"),
    ] {
        assert_eq!(printed(binary, &job), TWO_BY_ONE_SEASON);
        assert_eq!(printed(binary, &[]), two_by_ones(0, None));
        assert_eq!(printed(binary, &season), text);
    }
}
