//! The command line of the second program.
//!
//! A *stream* is, for each item, its length as two bytes (the higher first)
//! and then that many bytes; it ends with the input. An item of a run stream
//! is the number of ticks as four bytes (the higher first) and then the text.
//!
//!   second help                      this list
//!   second report                    text in, its report or refused line out
//!   second run TICKS                 text in, the full run's lines out
//!   second run-fast TICKS            the same by the run in place
//!   second time-run TICKS REPEATS    text in; carries out the run in place
//!                                    REPEATS times and writes the fewest
//!                                    nanoseconds one of them took
//!   second text-stream               writes all hand-made texts, then 600
//!                                    seeded damaged ones, as a stream
//!   second text-answers              stream in; for each text its refused
//!                                    line or the text written back
//!   second draw SEED COUNT [very-heavy]
//!                                    writes a stream of COUNT drawn texts;
//!                                    with very-heavy a few of them take up
//!                                    to a million rounds
//!   second report-answers            stream in; for each text its report or
//!                                    refused line
//!   second run-stream SEED COUNT     writes a run stream of COUNT items
//!   second run-answers               run stream in; for each item the full
//!                                    run's lines or the refused line
//!   second worked-cases              writes the paper's worked cases and
//!                                    further tables as a stream
//!   second run-tables                writes the full runs chosen by hand as
//!                                    a run stream
//!   second coverage                  stream in; how often it meets each
//!                                    refusal, verdict, bound, number of rows
//!   second run-coverage              the same of a run stream
//!
//! A refused text is an answer like any other: the program ends with 0. It
//! ends with 2 for a wrong command, and with 1 where the input is no stream,
//! a text is too bad to be timed, a kind is never met, or reading or writing
//! fails.

use second::table::TEXT_MOST;
use second::{cases, coverage, draw, report, run, run_cases, stream, table};
use std::io::{self, Read, Write};
use std::process::ExitCode;
use std::time::Instant;

const HELP: &str = "\
usage: second COMMAND
  help                      this list
  report                    text in, its report or refused line out
  run TICKS                 text in, the full run's lines out
  run-fast TICKS            the same by the run in place
  time-run TICKS REPEATS    text in, fewest nanoseconds of a run in place out
  text-stream               writes all hand-made texts and 600 damaged ones
  text-answers              stream in; refused lines or texts written back out
  draw SEED COUNT [very-heavy]
                            writes a stream of COUNT drawn texts
  report-answers            stream in; reports or refused lines out
  run-stream SEED COUNT     writes a run stream of COUNT items
  run-answers               run stream in; full runs' lines or refused lines out
  worked-cases              writes the paper's worked cases and further tables
  run-tables                writes a run stream of full runs chosen by hand
  coverage                  stream in; how often each kind of answer is met out
  run-coverage              run stream in; the same out
A stream is, for each item, its length as two bytes (the higher first) and
then that many bytes. An item of a run stream is the number of ticks as four
bytes (the higher first) and then the text.
";

/// Seed and count of the damaged texts in the text stream.
const DAMAGED_SEED: u64 = 2;
const DAMAGED_COUNT: usize = 600;

enum Failure {
    Usage,
    Input(String),
    Io(io::Error),
}

impl From<io::Error> for Failure {
    fn from(error: io::Error) -> Failure {
        Failure::Io(error)
    }
}

impl From<stream::CutOff> for Failure {
    fn from(_: stream::CutOff) -> Failure {
        Failure::Input("the input ends inside an item".to_string())
    }
}

fn main() -> ExitCode {
    let words: Vec<String> = std::env::args().skip(1).collect();
    let words: Vec<&str> = words.iter().map(String::as_str).collect();
    let outcome = answer(&words).and_then(|bytes| Ok(io::stdout().lock().write_all(&bytes)?));
    match outcome {
        Ok(()) => ExitCode::SUCCESS,
        Err(Failure::Usage) => {
            eprint!("{HELP}");
            ExitCode::from(2)
        }
        Err(Failure::Input(why)) => {
            eprintln!("second: {why}");
            ExitCode::from(1)
        }
        Err(Failure::Io(error)) => {
            eprintln!("second: {error}");
            ExitCode::from(1)
        }
    }
}

fn answer(words: &[&str]) -> Result<Vec<u8>, Failure> {
    match words {
        ["help"] => Ok(HELP.as_bytes().to_vec()),
        ["report"] => Ok(report::report_answer(&read_text()?)),
        ["run", ticks] => run_command(run::run, ticks),
        ["run-fast", ticks] => run_command(run::run_fast, ticks),
        ["time-run", ticks, repeats] => time_run(number(ticks)?, number(repeats)?),
        ["text-stream"] => Ok(text_stream()),
        ["text-answers"] => for_each_text(report::text_answer),
        ["draw", seed, count] => drawn(seed, count, false),
        ["draw", seed, count, "very-heavy"] => drawn(seed, count, true),
        ["report-answers"] => for_each_text(report::report_answer),
        ["run-stream", seed, count] => Ok(draw::run_stream(number(seed)?, number(count)? as usize)),
        ["run-answers"] => run_answers(),
        ["worked-cases"] => Ok(stream::from_items(&cases::worked_cases())),
        ["run-tables"] => Ok(run_cases::run_tables()),
        ["coverage"] => covered(coverage::of_texts),
        ["run-coverage"] => covered(coverage::of_runs),
        _ => Err(Failure::Usage),
    }
}

fn number(word: &str) -> Result<u64, Failure> {
    if word.is_empty() || !word.bytes().all(|byte| byte.is_ascii_digit()) {
        return Err(Failure::Usage);
    }
    word.parse().map_err(|_| Failure::Usage)
}

/// One byte more than the limit is read, so that refusal 2 can be told.
fn read_text() -> io::Result<Vec<u8>> {
    let mut text = Vec::new();
    io::stdin().lock().take(TEXT_MOST as u64 + 1).read_to_end(&mut text)?;
    Ok(text)
}

fn read_stream() -> io::Result<Vec<u8>> {
    let mut bytes = Vec::new();
    io::stdin().lock().read_to_end(&mut bytes)?;
    Ok(bytes)
}

fn run_command(full_run: report::FullRun, ticks: &str) -> Result<Vec<u8>, Failure> {
    let ticks = number(ticks)?;
    Ok(report::run_answer_by(full_run, &read_text()?, ticks))
}

fn time_run(ticks: u64, repeats: u64) -> Result<Vec<u8>, Failure> {
    let refused = |_| Failure::Input("the text or the number of ticks is refused".to_string());
    let table = table::read(&read_text()?).map_err(refused)?;
    let mut fewest = None;
    for _ in 0..repeats {
        let start = Instant::now();
        let first = run::run_fast(std::hint::black_box(&table), ticks).map_err(refused)?;
        std::hint::black_box(first);
        let took = start.elapsed().as_nanos();
        fewest = Some(fewest.map_or(took, |least: u128| least.min(took)));
    }
    let fewest = fewest.ok_or(Failure::Usage)?;
    Ok(format!("{fewest}\n").into_bytes())
}

fn text_stream() -> Vec<u8> {
    let mut items: Vec<Vec<u8>> = cases::text_cases().into_iter().map(|case| case.text).collect();
    items.extend(draw::damaged_texts(DAMAGED_SEED, DAMAGED_COUNT));
    stream::from_items(&items)
}

fn drawn(seed: &str, count: &str, very_heavy: bool) -> Result<Vec<u8>, Failure> {
    Ok(draw::text_stream(number(seed)?, number(count)? as usize, very_heavy))
}

fn for_each_text(answer: fn(&[u8]) -> Vec<u8>) -> Result<Vec<u8>, Failure> {
    let bytes = read_stream()?;
    Ok(stream::items(&bytes)?.into_iter().flat_map(answer).collect())
}

fn run_answers() -> Result<Vec<u8>, Failure> {
    let bytes = read_stream()?;
    let mut out = Vec::new();
    for item in stream::items(&bytes)? {
        let (ticks, text) = stream::split_run_item(item)?;
        out.extend(report::run_answer(text, u64::from(ticks)));
    }
    Ok(out)
}

type Cover = fn(&[u8]) -> Result<coverage::Coverage, stream::CutOff>;

/// A kind that is never met makes the command fail, so that a script need
/// not read the counts.
fn covered(cover: Cover) -> Result<Vec<u8>, Failure> {
    let coverage = cover(&read_stream()?)?;
    match coverage.missing().as_slice() {
        [] => Ok(coverage.lines().into_bytes()),
        missing => Err(Failure::Input(format!("never met: {}", missing.join(", ")))),
    }
}
