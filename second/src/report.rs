//! The bytes written: the report, the full run's lines, the refused line.

use crate::figures::{self, RowFigures, RowVerdict, TableVerdict};
use crate::run::{self, FirstCompletions};
use crate::table::{self, Refusal, Row, Table};

/// Writes one line: fields parted by one tab, ended by one line feed.
fn push_line(out: &mut Vec<u8>, fields: &[&[u8]]) {
    out.extend_from_slice(&fields.join(&b'\t'));
    out.push(b'\n');
}

/// A number, or a hyphen where there is none.
fn number_or_hyphen(number: Option<u64>) -> String {
    number.map_or_else(|| "-".to_string(), |number| number.to_string())
}

/// `refused`, number, line, field; the refusals without a place have the
/// number alone.
pub fn refused_line(refusal: &Refusal) -> Vec<u8> {
    let line = match refusal.place {
        Some((line, field)) => format!("refused\t{}\t{}\t{}\n", refusal.number, line, field),
        None => format!("refused\t{}\n", refusal.number),
    };
    line.into_bytes()
}

/// The report of a table: one line a row and the table's verdict.
pub fn report(table: &Table) -> Vec<u8> {
    let all = figures::table_figures(table);
    let mut out = Vec::new();
    for (row, figures) in table.rows.iter().zip(&all) {
        push_row(&mut out, row, figures);
    }
    let verdict: &[u8] = match figures::table_verdict(&all) {
        TableVerdict::Fits => b"fits",
        TableVerdict::Misses => b"misses",
        TableVerdict::Open => b"open",
    };
    push_line(&mut out, &[b"table", verdict]);
    out
}

fn push_row(out: &mut Vec<u8>, row: &Row, figures: &RowFigures) {
    let (verdict, figure): (&[u8], _) = match figures.verdict {
        RowVerdict::Fits { figure, .. } => (b"fits", Some(figure)),
        RowVerdict::Misses => (b"misses", None),
        RowVerdict::Open => (b"open", None),
    };
    let figure = number_or_hyphen(figure);
    let whole = number_or_hyphen(figures.whole);
    let split = number_or_hyphen(figures.split);
    let rounds = figures.rounds.to_string();
    let numbers = [figure.as_bytes(), whole.as_bytes(), split.as_bytes(), rounds.as_bytes()];
    push_line(out, &[&[row.name.as_slice(), verdict], numbers.as_slice()].concat());
}

/// The whole answer to a text: its report or its refused line.
pub fn report_answer(text: &[u8]) -> Vec<u8> {
    match table::read(text) {
        Ok(table) => report(&table),
        Err(refusal) => refused_line(&refusal),
    }
}

/// The text written back from the table read, or its refused line.
pub fn text_answer(text: &[u8]) -> Vec<u8> {
    match table::read(text) {
        Ok(table) => table::write(&table),
        Err(refusal) => refused_line(&refusal),
    }
}

/// The full run's lines: name and completion instant of the first job.
fn run_lines(table: &Table, first: &FirstCompletions) -> Vec<u8> {
    let mut out = Vec::new();
    for (row, &instant) in table.rows.iter().zip(first) {
        push_line(&mut out, &[&row.name, number_or_hyphen(instant).as_bytes()]);
    }
    out
}

/// A way to carry out the full run: `run::run` or `run::run_fast`.
pub type FullRun = fn(&Table, u64) -> Result<FirstCompletions, Refusal>;

/// The whole answer to a text and a number of ticks. The text comes first:
/// without a table there is no run to be too long.
pub fn run_answer_by(full_run: FullRun, text: &[u8], ticks: u64) -> Vec<u8> {
    let answer = table::read(text).and_then(|table| {
        let first = full_run(&table, ticks)?;
        Ok(run_lines(&table, &first))
    });
    answer.unwrap_or_else(|refusal| refused_line(&refusal))
}

/// The answer by the plain full run.
pub fn run_answer(text: &[u8], ticks: u64) -> Vec<u8> {
    run_answer_by(run::run, text, ticks)
}
