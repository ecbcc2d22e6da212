//! What a stream meets: how often each refusal, verdict, bound and number of
//! rows, so that a stream which misses one of them is known for it.

use crate::figures::{self, Bound, RowFigures, RowVerdict, TableVerdict};
use crate::report::report;
use crate::run::{self, TICKS_MOST};
use crate::stream::{self, CutOff};
use crate::table::{self, Refusal, Row, Table, ROWS_MOST, STRETCHES_MOST};
use std::collections::{BTreeMap, BTreeSet};

/// How often each kind of item was met, and what was only added up.
pub struct Coverage {
    met: BTreeMap<String, u64>,
    /// Lines and fields of each refusal with a place.
    places: BTreeMap<u32, BTreeSet<(usize, usize)>>,
    sums: BTreeMap<&'static str, u64>,
}

impl Coverage {
    /// All kinds that are wanted, each met 0 times.
    fn wanting(kinds: impl IntoIterator<Item = String>) -> Coverage {
        let met = kinds.into_iter().map(|kind| (kind, 0)).collect();
        Coverage { met, places: BTreeMap::new(), sums: BTreeMap::new() }
    }

    fn meet(&mut self, kind: impl Into<String>) {
        *self.met.entry(kind.into()).or_default() += 1;
    }

    fn add(&mut self, sum: &'static str, number: u64) {
        *self.sums.entry(sum).or_default() += number;
    }

    fn rise(&mut self, most: &'static str, number: u64) {
        let so_far = self.sums.entry(most).or_default();
        *so_far = number.max(*so_far);
    }

    fn meet_refusal(&mut self, refusal: &Refusal) {
        self.meet(refusal_kind(refusal.number));
        if let Some(place) = refusal.place {
            self.places.entry(refusal.number).or_default().insert(place);
        }
    }

    /// The kinds that were wanted and not met.
    pub fn missing(&self) -> Vec<&str> {
        self.met.iter().filter(|(_, &count)| count == 0).map(|(kind, _)| kind.as_str()).collect()
    }

    /// One line a kind and its count; of a refusal also its different places.
    pub fn lines(&self) -> String {
        let met = self.met.iter().map(|(kind, count)| format!("{kind}\t{count}\n"));
        let places = self.places.iter().map(|(number, places)| {
            format!("places of {}\t{}\n", refusal_kind(*number), places.len())
        });
        let sums = self.sums.iter().map(|(sum, number)| format!("{sum}\t{number}\n"));
        met.chain(places).chain(sums).collect()
    }
}

/// Two digits, so that the kinds stand in the order of their numbers.
fn refusal_kind(number: u32) -> String {
    format!("refusal {number:2}")
}

fn counted(kind: &'static str, most: usize) -> impl Iterator<Item = String> {
    (1..=most).map(move |number| format!("{kind} {number:2}"))
}

/// What a stream of texts meets.
pub fn of_texts(bytes: &[u8]) -> Result<Coverage, CutOff> {
    let words = ["table fits", "table misses", "table open"];
    let rows = ["row fits by whole", "row fits by split", "row fits, bounds equal", "row misses", "row open"];
    let mut coverage = Coverage::wanting(
        words
            .into_iter()
            .chain(rows)
            .map(String::from)
            .chain(counted("refusal", 11))
            .chain(counted("rows", ROWS_MOST))
            .chain(counted("stretches", STRETCHES_MOST)),
    );
    for text in stream::items(bytes)? {
        match table::read(text) {
            Ok(table) => meet_table(&mut coverage, &table),
            Err(refusal) => coverage.meet_refusal(&refusal),
        }
    }
    Ok(coverage)
}

fn meet_table(coverage: &mut Coverage, table: &Table) {
    let all = figures::table_figures(table);
    coverage.meet(match figures::table_verdict(&all) {
        TableVerdict::Fits => "table fits",
        TableVerdict::Misses => "table misses",
        TableVerdict::Open => "table open",
    });
    coverage.meet(format!("rows {:2}", table.rows.len()));
    for (row, figures) in table.rows.iter().zip(&all) {
        meet_row(coverage, row, figures);
    }
    coverage.rise("longest report", report(table).len() as u64);
}

fn meet_row(coverage: &mut Coverage, row: &Row, figures: &RowFigures) {
    coverage.meet(match figures.verdict {
        RowVerdict::Fits { .. } if figures.whole == figures.split => "row fits, bounds equal",
        RowVerdict::Fits { bound: Bound::Whole, .. } => "row fits by whole",
        RowVerdict::Fits { bound: Bound::Split, .. } => "row fits by split",
        RowVerdict::Misses => "row misses",
        RowVerdict::Open => "row open",
    });
    coverage.meet(format!("stretches {:2}", row.stretches().count()));
    coverage.add("rounds in all", figures.rounds);
    coverage.rise("rounds of a row, the most", figures.rounds);
}

/// What a run stream meets.
pub fn of_runs(bytes: &[u8]) -> Result<Coverage, CutOff> {
    let ticks = ["no tick", "the most ticks", "text refused", "text refused, too many ticks"];
    let rows = ["complete", "complete, late", "complete, waits", "not complete", "not complete, waits"];
    let mut coverage = Coverage::wanting(
        ticks
            .into_iter()
            .chain(rows)
            .map(String::from)
            .chain(counted("rows", ROWS_MOST))
            .chain([refusal_kind(23)]),
    );
    for item in stream::items(bytes)? {
        let (ticks, text) = stream::split_run_item(item)?;
        meet_run(&mut coverage, u64::from(ticks), text);
    }
    Ok(coverage)
}

fn meet_run(coverage: &mut Coverage, ticks: u64, text: &[u8]) {
    let Ok(table) = table::read(text) else {
        let too_many = ticks > TICKS_MOST;
        coverage.meet(if too_many { "text refused, too many ticks" } else { "text refused" });
        return;
    };
    match run::run_fast(&table, ticks) {
        Err(refusal) => coverage.meet_refusal(&refusal),
        Ok(first) => {
            meet_ticks(coverage, ticks);
            coverage.meet(format!("rows {:2}", table.rows.len()));
            for (row, first) in table.rows.iter().zip(first) {
                coverage.meet(run_kind(row, first));
            }
        }
    }
}

fn meet_ticks(coverage: &mut Coverage, ticks: u64) {
    coverage.add("ticks in all", ticks);
    match ticks {
        0 => coverage.meet("no tick"),
        TICKS_MOST => coverage.meet("the most ticks"),
        _ => {}
    }
}

fn run_kind(row: &Row, first: Option<u64>) -> &'static str {
    match first {
        Some(first) if first > row.d => "complete, late",
        Some(_) if row.waits() => "complete, waits",
        Some(_) => "complete",
        None if row.waits() => "not complete, waits",
        None => "not complete",
    }
}
