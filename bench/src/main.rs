//! Measures the static library beside the second program, in one process and
//! one run.
//!
//!   bench [REPEATS]             times every job, both taking turns
//!   bench only WHO JOB SIZE     has one of the two, `ours` or `second`, do a
//!                               job once and writes how many rounds or ticks
//!                               that took, for a tool that counts instructions

use musselpath::REPORT;
use second::draw::{self, Load, Random};
use second::{cases, report, run, table};
use std::hint::black_box;
use std::process::ExitCode;
use std::time::{Duration, Instant};

const REPEATS: usize = 15;
/// A repeat calls the job as often as takes about so long.
const REPEAT_TIME: Duration = Duration::from_millis(30);
/// The greatest T and D, and the most ticks of a full run.
const MOST: u64 = 1_000_000;
const LIGHT_TABLES: u64 = 400;
const LIGHT_SEED: u64 = 2_001;

#[derive(Clone, Copy, PartialEq)]
enum Who {
    Ours,
    Second,
}

/// What is done once: reports of some texts, or one full run.
enum Work {
    Reports(Vec<Vec<u8>>),
    FullRun { text: Vec<u8>, ticks: u64 },
}

// ------------------------------------------------------------------------ jobs

/// A job by its name. Its size is the T and D of the rows that are long, the
/// number of ticks, or the number of tables.
fn job(name: &str, size: u64) -> Option<Work> {
    let work = match name {
        "light" => Work::Reports(light(size)),
        "pow2far" => Work::Reports(vec![pow2far(size)]),
        "mixed" => Work::Reports(vec![mixed(size)]),
        "all15" => Work::Reports(vec![all15(size)]),
        "extreme" => Work::Reports(vec![extreme(size)]),
        "heaviest" => Work::Reports(vec![heaviest(size)]),
        "ticks3" => Work::FullRun { text: cases::TABLE_A_TEXT.to_vec(), ticks: size },
        "ticks16" => Work::FullRun { text: lines(&vec![(16, "1".to_string()); 16]), ticks: size },
        _ => return None,
    };
    Some(work)
}

/// A text from T, which is D as well, and the times of each row.
fn lines(rows: &[(u64, String)]) -> Vec<u8> {
    let line = |(place, (t, times)): (usize, &(u64, String))| format!("r{}\t{t}\t{t}\t{times}\n", place + 1);
    rows.iter().enumerate().map(line).collect::<String>().into_bytes()
}

fn row(t: u64, times: &str) -> (u64, String) {
    (t, times.to_string())
}

/// Tables as a contractor writes them: load far below one, any number of rows,
/// every other one with a row that waits.
fn light(count: u64) -> Vec<Vec<u8>> {
    let mut random = Random::new(LIGHT_SEED);
    let mut text = |index: u64| {
        let rows = random.between(1, 16) as usize;
        let waits = index % 2 == 1;
        let stretches = if waits { random.between(2, 4) as usize } else { 1 };
        table::write(&draw::table_of(&mut random, Load::Light, rows, stretches))
    };
    (0..count).map(&mut text).collect()
}

/// 15 rows above: T 2, 4, 8, .. 16384 and the size, each with C 1; the last
/// row takes 20,932 rounds and fits.
fn pow2far(size: u64) -> Vec<u8> {
    let mut rows: Vec<_> = (1..=14).map(|power| row(1 << power, "1")).collect();
    rows.extend([row(size, "1"), row(size, "15")]);
    lines(&rows)
}

/// 15 rows above with mixed periods and a load of 0.99999, of which now these
/// and now those release in a round; the last row takes 30,515 rounds and fits.
fn mixed(size: u64) -> Vec<u8> {
    let periods = [4, 9, 10, 11, 13, 16, 17, 18, 27, 28, 32, 38, 46, 47, 48];
    let mut rows: Vec<_> = periods.iter().map(|&t| row(t, "1")).collect();
    rows.push(row(size, "1"));
    lines(&rows)
}

/// 15 rows above, all of which release in every round.
fn all15(size: u64) -> Vec<u8> {
    let mut rows = vec![row(15, "1"); 15];
    rows.push(row(size, "1"));
    lines(&rows)
}

/// The most rounds of one recurrence: D - C + 1 of them.
fn extreme(size: u64) -> Vec<u8> {
    lines(&[row(1, "1"), row(size, "1")])
}

/// The most rounds of a table that we know. Below `1 1 1` a round adds the
/// row's own time and 1 for each further row above, the least that it can, so
/// that row n takes about D / (n - 1) rounds; the last row waits and so has
/// two recurrences.
fn heaviest(size: u64) -> Vec<u8> {
    let mut rows = vec![row(1, "1")];
    rows.extend(vec![row(size, "1"); 14]);
    rows.push(row(size, "1\t1\t1"));
    lines(&rows)
}

// ------------------------------------------------------------------------ work

/// Does the work once and gives how many bytes were written or how many rows
/// are complete, so that nothing of it can be left out.
fn work_once(who: Who, work: &Work) -> usize {
    match work {
        Work::Reports(texts) => texts.iter().map(|text| report_once(who, text)).sum(),
        Work::FullRun { text, ticks } => complete_rows(who, text, *ticks),
    }
}

fn report_once(who: Who, text: &[u8]) -> usize {
    match who {
        Who::Ours => {
            let mut out = [0; REPORT];
            let len = musselpath::report(black_box(text), &mut out).expect("there is room for every report");
            black_box(&out);
            len
        }
        Who::Second => black_box(report::report_answer(black_box(text))).len(),
    }
}

fn complete_rows(who: Who, text: &[u8], ticks: u64) -> usize {
    match who {
        Who::Ours => {
            let first = musselpath::full_run(black_box(text), ticks).expect("a right text");
            first.iter().flatten().count()
        }
        Who::Second => {
            let table = table::read(black_box(text)).expect("a right text");
            let first = run::run_fast(&table, ticks).expect("not too many ticks");
            first.iter().flatten().count()
        }
    }
}

/// The report itself, for its rounds.
fn report_of(who: Who, text: &[u8]) -> Vec<u8> {
    match who {
        Who::Ours => {
            let mut out = vec![0; REPORT];
            let len = musselpath::report(text, &mut out).expect("there is room for every report");
            out.truncate(len);
            out
        }
        Who::Second => report::report_answer(text),
    }
}

/// The rounds of all rows: the sixth field of each line that has one.
fn rounds_in(report: &[u8]) -> u64 {
    let report = std::str::from_utf8(report).expect("a report is plain text");
    let sixth = |line: &str| line.split('\t').nth(5)?.parse::<u64>().ok();
    report.lines().filter_map(sixth).sum()
}

/// Rounds or ticks of the work, by what the one that does it says.
fn units(who: Who, work: &Work) -> u64 {
    match work {
        Work::Reports(texts) => texts.iter().map(|text| rounds_in(&report_of(who, text))).sum(),
        Work::FullRun { text, ticks } => {
            assert!(complete_rows(who, text, *ticks) > 0, "no row is complete");
            *ticks
        }
    }
}

// ---------------------------------------------------------------------- timing

fn timed(who: Who, work: &Work, calls: u32) -> Duration {
    let start = Instant::now();
    for _ in 0..calls {
        black_box(work_once(who, work));
    }
    start.elapsed() / calls
}

/// Seconds of one call: the best and the median of the repeats.
struct Seconds {
    best: f64,
    median: f64,
}

impl Seconds {
    fn of(mut times: Vec<Duration>) -> Seconds {
        times.sort();
        let middle = times[times.len() / 2];
        Seconds { best: times[0].as_secs_f64(), median: middle.as_secs_f64() }
    }
}

/// Both do the work, taking turns; who begins changes as well.
fn side_by_side(work: &Work, repeats: usize) -> (Seconds, Seconds) {
    let slower = timed(Who::Ours, work, 1).max(timed(Who::Second, work, 1));
    let calls = (REPEAT_TIME.as_secs_f64() / slower.as_secs_f64()).ceil().clamp(1.0, 1e6) as u32;
    let mut ours = Vec::new();
    let mut second = Vec::new();
    for repeat in 0..repeats {
        if repeat % 2 == 0 {
            ours.push(timed(Who::Ours, work, calls));
        }
        second.push(timed(Who::Second, work, calls));
        if repeat % 2 == 1 {
            ours.push(timed(Who::Ours, work, calls));
        }
    }
    (Seconds::of(ours), Seconds::of(second))
}

fn check_alike(work: &Work) {
    if let Work::Reports(texts) = work {
        for text in texts {
            assert_eq!(report_of(Who::Ours, text), report_of(Who::Second, text), "the two disagree");
        }
    }
    assert_eq!(work_once(Who::Ours, work), work_once(Who::Second, work), "the two disagree");
}

/// How many reports or ticks one call of the work is worth.
fn worth(work: &Work) -> f64 {
    match work {
        Work::Reports(texts) => texts.len() as f64,
        Work::FullRun { ticks, .. } => *ticks as f64,
    }
}

fn print_rates(what: &str, work: &Work, repeats: usize) {
    check_alike(work);
    let (ours, second) = side_by_side(work, repeats);
    let unit = if matches!(work, Work::Reports(_)) { "reports/s" } else { "ticks/s" };
    let rate = |seconds: f64| worth(work) / seconds;
    let line = |which: &str, ours: f64, second: f64| {
        println!("{what:<48} {unit:<9} {which:<6} {:>14.1} {:>14.1} {:>7.2}", rate(ours), rate(second), second / ours);
    };
    line("best", ours.best, second.best);
    line("median", ours.median, second.median);
}

fn measure(repeats: usize) -> Option<()> {
    println!(
        "{repeats} repeats in one process, the two taking turns; each repeat is as many calls as take about {} ms.",
        REPEAT_TIME.as_millis()
    );
    println!("Warm: both did each job before it was timed, and nothing was cleared in between. A report is text in, bytes out;");
    println!("ours writes into a buffer of {REPORT} bytes on the stack, set to zero each time, the second program into one it allocates.");
    println!("The ratio is how many times as fast as the second program ours is.");
    println!("{:<48} {:<9} {:<6} {:>14} {:>14} {:>7}", "", "", "", "ours", "second", "ratio");
    let jobs = [
        ("light", LIGHT_TABLES),
        ("pow2far", MOST),
        ("mixed", MOST),
        ("all15", MOST),
        ("extreme", MOST),
        ("heaviest", MOST),
        ("ticks3", MOST),
        ("ticks16", MOST),
    ];
    for (name, size) in jobs {
        let work = job(name, size)?;
        print_rates(&title(name, &work), &work, repeats);
    }
    Some(())
}

fn title(name: &str, work: &Work) -> String {
    let rounds = units(Who::Second, work);
    match name {
        "light" => format!("light: {LIGHT_TABLES} drawn tables, {rounds} rounds in all"),
        "pow2far" => format!("pow2far: 15 rows above, {rounds} rounds"),
        "mixed" => format!("mixed: 15 rows above of mixed periods, {rounds} rounds"),
        "all15" => format!("all15: 15 rows above at once, {rounds} rounds"),
        "extreme" => format!("extreme: 1 row above, {rounds} rounds"),
        "heaviest" => format!("heaviest: 16 rows, {rounds} rounds"),
        "ticks3" => "full run of 3 rows (Table A)".to_string(),
        _ => "full run of 16 rows, load one".to_string(),
    }
}

fn only(who: &str, name: &str, size: &str) -> Option<()> {
    let who = match who {
        "ours" => Who::Ours,
        "second" => Who::Second,
        _ => return None,
    };
    let work = job(name, size.parse().ok()?)?;
    println!("{}", units(who, &work));
    Some(())
}

fn main() -> ExitCode {
    let words: Vec<String> = std::env::args().skip(1).collect();
    let words: Vec<&str> = words.iter().map(String::as_str).collect();
    let done = match words.as_slice() {
        ["only", who, job, size] => only(who, job, size),
        [] => measure(REPEATS),
        [repeats] => repeats.parse().ok().filter(|&repeats| repeats > 0).and_then(measure),
        _ => None,
    };
    if done.is_none() {
        eprintln!("usage: bench [REPEATS] | bench only ours|second JOB SIZE");
        return ExitCode::from(2);
    }
    ExitCode::SUCCESS
}
