//! The figures: the recurrence, whole, split, rounds and the verdicts.

use crate::table::{Row, Table};

/// Which of the two bounds gave the figure of a fitting row.
#[derive(Clone, Copy, Debug, PartialEq, Eq)]
pub enum Bound {
    Whole,
    Split,
}

#[derive(Clone, Copy, Debug, PartialEq, Eq)]
pub enum RowVerdict {
    Fits { figure: u64, bound: Bound },
    Misses,
    Open,
}

#[derive(Clone, Copy, Debug, PartialEq, Eq)]
pub enum TableVerdict {
    Fits,
    Misses,
    Open,
}

/// Everything worked out for one row. A bound above D is no figure and is
/// None here; a row with one C has no split at all.
#[derive(Clone, Copy, Debug, PartialEq, Eq)]
pub struct RowFigures {
    pub verdict: RowVerdict,
    pub whole: Option<u64>,
    pub split: Option<u64>,
    pub rounds: u64,
}

/// f(t): the row's own ticks and those of every release of a row above in a
/// window of t ticks. The ceiling leaves out a release exactly at its end.
fn right_side(above: &[Row], own: u64, t: u64) -> u64 {
    own + above.iter().map(|row| t.div_ceil(row.t) * row.times[0]).sum::<u64>()
}

/// The values of the right side one after another, the last included: it
/// ends with the first that equals the t it was worked out from or is above D.
pub struct Rounds<'a> {
    above: &'a [Row],
    own: u64,
    d: u64,
    t: Option<u64>,
}

impl<'a> Rounds<'a> {
    pub fn new(above: &'a [Row], own: u64, d: u64) -> Rounds<'a> {
        Rounds { above, own, d, t: Some(own) }
    }
}

impl Iterator for Rounds<'_> {
    type Item = u64;

    fn next(&mut self) -> Option<u64> {
        let t = self.t?;
        let value = right_side(self.above, self.own, t);
        let settled = value == t || value > self.d;
        self.t = if settled { None } else { Some(value) };
        Some(value)
    }
}

/// The outcome of one recurrence: its result unless it passed D, and how
/// many times the right side was worked out.
#[derive(Clone, Copy, Debug, PartialEq, Eq)]
pub struct Outcome {
    pub result: Option<u64>,
    pub rounds: u64,
}

/// One recurrence for `own` ticks below the rows above, stopped above D.
pub fn recurrence(above: &[Row], own: u64, d: u64) -> Outcome {
    let (last, rounds) =
        Rounds::new(above, own, d).fold((own, 0), |(_, rounds), value| (value, rounds + 1));
    Outcome { result: within(last, d), rounds }
}

fn within(value: u64, d: u64) -> Option<u64> {
    (value <= d).then_some(value)
}

/// Split: every stretch by itself. Only a stretch that by itself passes D
/// leaves the later ones out; a sum above D doesn't, it is just no figure.
fn split(above: &[Row], row: &Row) -> Outcome {
    let mut sum: u64 = row.suspensions().sum();
    let mut rounds = 0;
    for stretch in row.stretches() {
        let outcome = recurrence(above, stretch, row.d);
        rounds += outcome.rounds;
        match outcome.result {
            Some(result) => sum += result,
            None => return Outcome { result: None, rounds },
        }
    }
    Outcome { result: within(sum, row.d), rounds }
}

/// The figures of a row below the rows above it.
fn judge(above: &[Row], row: &Row) -> RowFigures {
    let whole = recurrence(above, row.sum(), row.d);
    if row.waits() {
        // Split is worked out even where whole is a figure: it may be lesser.
        judge_waiting(whole, split(above, row))
    } else {
        judge_plain(whole)
    }
}

fn judge_plain(whole: Outcome) -> RowFigures {
    let verdict = match whole.result {
        Some(figure) => RowVerdict::Fits { figure, bound: Bound::Whole },
        None => RowVerdict::Misses,
    };
    RowFigures { verdict, whole: whole.result, split: None, rounds: whole.rounds }
}

fn judge_waiting(whole: Outcome, split: Outcome) -> RowFigures {
    let verdict = match (whole.result, split.result) {
        (None, None) => RowVerdict::Open,
        (Some(figure), None) => RowVerdict::Fits { figure, bound: Bound::Whole },
        (None, Some(figure)) => RowVerdict::Fits { figure, bound: Bound::Split },
        (Some(w), Some(s)) if w <= s => RowVerdict::Fits { figure: w, bound: Bound::Whole },
        (Some(_), Some(s)) => RowVerdict::Fits { figure: s, bound: Bound::Split },
    };
    RowFigures {
        verdict,
        whole: whole.result,
        split: split.result,
        rounds: whole.rounds + split.rounds,
    }
}

/// The figures of one row by its number from 1; None where there is no such
/// row (refusal 21).
pub fn row_figures(table: &Table, number: usize) -> Option<RowFigures> {
    let place = number.checked_sub(1)?;
    let row = table.rows.get(place)?;
    Some(judge(&table.rows[..place], row))
}

/// The figures of every row, in order.
pub fn table_figures(table: &Table) -> Vec<RowFigures> {
    let rows = &table.rows;
    rows.iter().enumerate().map(|(place, row)| judge(&rows[..place], row)).collect()
}

/// The table fits if every row does, misses if some row misses, and is open
/// otherwise.
pub fn table_verdict(figures: &[RowFigures]) -> TableVerdict {
    let some = |verdict| figures.iter().any(|row| row.verdict == verdict);
    if some(RowVerdict::Misses) {
        TableVerdict::Misses
    } else if some(RowVerdict::Open) {
        TableVerdict::Open
    } else {
        TableVerdict::Fits
    }
}
