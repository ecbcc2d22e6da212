//! The full run, and what the figures promise of it and of any legal run.

use second::draw::{self, Load, Random};
use second::figures::{self, RowFigures, RowVerdict};
use second::report;
use second::run::{self, Machine};
use second::run_cases;
use second::table::{self, Refusal, Row, Table};

fn table_of(text: &[u8]) -> Table {
    table::read(text).expect("a right text")
}

#[test]
fn table_a_goes_as_worked_out_by_hand() {
    // pulse 0..2, radio 2..7, save 7..10, pulse 10..12, save 12..13, then it
    // waits for 20 ticks: 33. pulse 30..32, save 33..39: complete at 39.
    let table = table_of(second::cases::TABLE_A_TEXT);
    assert_eq!(run::run(&table, 39), Ok(vec![Some(2), Some(7), Some(39)]));
    assert_eq!(run::run(&table, 38), Ok(vec![Some(2), Some(7), None]));
    assert_eq!(run::run(&table, 7), Ok(vec![Some(2), Some(7), None]));
    assert_eq!(run::run(&table, 6), Ok(vec![Some(2), None, None]));
    assert_eq!(run::run(&table, 1), Ok(vec![None, None, None]));
    assert_eq!(run::run(&table, 0), Ok(vec![None, None, None]));
}

#[test]
fn every_hand_chosen_run_goes_as_worked_out() {
    for case in run_cases::run_cases() {
        for full_run in [run::run, run::run_fast] {
            let answer = report::run_answer_by(full_run, &case.text, u64::from(case.ticks));
            assert_eq!(answer.escape_ascii().to_string(), case.expected.escape_default().to_string(), "{}", case.why);
        }
    }
}

#[test]
fn late_jobs_queue_up() {
    // a has the ticks 0, 2, 4, .. and b all others: the jobs of b end at 4,
    // 8, 12, .. and are released at 0, 3, 6, .., so that it always has a late
    // one and c never runs.
    let table = table_of(b"a\t2\t2\t1\nb\t3\t3\t2\nc\t100\t100\t1\n");
    assert_eq!(run::run(&table, 1_000), Ok(vec![Some(1), Some(4), None]));
    let mut machine = Machine::new(3);
    let mut ends = Vec::new();
    for now in 0..13 {
        for (place, row) in table.rows.iter().enumerate() {
            if now % row.t == 0 {
                machine.release(place);
            }
        }
        let done = machine.tick(&mut |row| table.rows[row].times.clone());
        ends.extend(done.filter(|done| done.row == 1).map(|done| (done.released, done.instant)));
    }
    assert_eq!(ends, [(0, 4), (3, 8), (6, 12)]);
    assert_eq!(machine.unfinished(1).collect::<Vec<_>>(), [9, 12]);
    assert_eq!(machine.now(), 13);
}

#[test]
fn a_waiting_job_keeps_the_next_job_of_its_row_from_starting() {
    // Two jobs of 1 + 5 + 1, the second released while the first waits. Were
    // it started then, tick 2 would be its; it begins only at 7.
    let mut machine = Machine::new(1);
    let mut ends = Vec::new();
    for now in 0..20 {
        if now == 0 || now == 2 {
            machine.release(0);
        }
        let done = machine.tick(&mut |_| vec![1, 5, 1]);
        ends.extend(done.map(|done| (done.released, done.instant)));
    }
    assert_eq!(ends, [(0, 7), (2, 14)]);
}

#[test]
fn a_suspension_of_0_takes_no_tick() {
    let mut machine = Machine::new(1);
    machine.release(0);
    let mut times = |_| vec![2, 0, 3];
    let ends: Vec<_> = (0..6).filter_map(|_| machine.tick(&mut times)).collect();
    assert_eq!(ends.len(), 1);
    assert_eq!(ends[0].instant, 5);
}

#[test]
fn a_million_ticks_are_the_most() {
    let table = table_of(b"a\t1\t1\t1\n");
    for full_run in [run::run, run::run_fast] {
        assert_eq!(full_run(&table, 1_000_000), Ok(vec![Some(1)]));
        assert_eq!(full_run(&table, 1_000_001), Err(Refusal::alone(23)));
        assert_eq!(full_run(&table, u64::MAX), Err(Refusal::alone(23)));
    }
}

#[test]
fn the_lines_of_a_run() {
    let text = b"a\t10\t10\t2\nb\t20\t20\t3\n";
    assert_eq!(report::run_answer(text, 4), b"a\t2\nb\t-\n");
    assert_eq!(report::run_answer(text, 5), b"a\t2\nb\t5\n");
    assert_eq!(report::run_answer(text, 1_000_001), b"refused\t23\n");
    // The text comes first: without a table there is no run to be too long.
    assert_eq!(report::run_answer(b"a\t10\t10\t0\n", 1_000_001), b"refused\t8\t1\t4\n");
}

#[test]
fn the_fast_run_equals_the_plain_one() {
    let mut random = Random::new(31);
    for _ in 0..600 {
        let table = draw::right_table(&mut random);
        let ticks = u64::from(draw::draw_ticks(&mut random, &table)).min(50_000);
        assert_eq!(run::run_fast(&table, ticks), run::run(&table, ticks), "{table:?} {ticks}");
    }
    for _ in 0..3_000 {
        let table = small_table(&mut random);
        let ticks = random.between(0, 400);
        assert_eq!(run::run_fast(&table, ticks), run::run(&table, ticks), "{table:?} {ticks}");
    }
}

#[test]
fn the_fast_run_equals_the_plain_one_to_the_last_tick() {
    let mut random = Random::new(32);
    for _ in 0..4 {
        let table = draw::right_table(&mut random);
        assert_eq!(run::run_fast(&table, 1_000_000), run::run(&table, 1_000_000), "{table:?}");
    }
}

fn small_table(random: &mut Random) -> Table {
    let rows = random.between(1, 6) as usize;
    let stretches = random.between(1, 4) as usize;
    draw::table_of(random, Load::Small, rows, stretches)
}

/// A row with one C that fits with R is complete at exactly R in the full
/// run, one that misses isn't complete by D. A waiting row that fits is
/// complete by its figure, which in this one run it need not reach.
fn check_exactness(table: &Table, seen: &mut [u64; 3]) {
    let longest = table.rows.iter().map(|row| row.d).max().expect("a table has rows");
    let first = run::run_fast(table, longest).expect("D is at most 1,000,000");
    for ((row, figures), first) in table.rows.iter().zip(figures::table_figures(table)).zip(first) {
        match figures.verdict {
            RowVerdict::Fits { figure, .. } if row.waits() => {
                assert!(first.is_some_and(|first| first <= figure), "{table:?}");
                seen[0] += 1;
            }
            RowVerdict::Fits { figure, .. } => {
                assert_eq!(first, Some(figure), "{table:?}");
                seen[1] += 1;
            }
            RowVerdict::Misses => {
                assert!(first.is_none_or(|first| first > row.d), "{table:?}");
                seen[2] += 1;
            }
            RowVerdict::Open => {}
        }
    }
}

#[test]
fn figures_of_rows_with_one_c_are_exact() {
    let mut seen = [0; 3];
    let mut random = Random::new(33);
    for _ in 0..3_000 {
        check_exactness(&small_table(&mut random), &mut seen);
    }
    for _ in 0..150 {
        check_exactness(&draw::right_table(&mut random), &mut seen);
    }
    assert!(seen.iter().all(|&count| count > 300), "{seen:?}");
}

/// Full times half of the time, so that the worst is near; else any legal
/// ones: stretches from 1, suspensions from 0.
fn chosen_times(random: &mut Random, row: &Row) -> Vec<u64> {
    let full = random.once_in(2);
    let mut choose = |(place, &time): (usize, &u64)| {
        if full {
            time
        } else {
            random.between(u64::from(place % 2 == 0), time)
        }
    };
    row.times.iter().enumerate().map(&mut choose).collect()
}

/// Carries out one random legal run and returns how many jobs of fitting
/// rows took exactly their figure.
fn check_legal_run(random: &mut Random, table: &Table, all: &[RowFigures], ticks: u64) -> u64 {
    let figure = |row: usize| match all[row].verdict {
        RowVerdict::Fits { figure, .. } => Some(figure),
        _ => None,
    };
    let mut next: Vec<u64> = table.rows.iter().map(|row| random.below(row.t + 1)).collect();
    let mut machine = Machine::new(table.rows.len());
    let mut met = 0;
    for now in 0..ticks {
        for (place, row) in table.rows.iter().enumerate() {
            if next[place] == now {
                machine.release(place);
                let later = if random.once_in(3) { random.below(row.t) } else { 0 };
                next[place] = now + row.t + later;
            }
        }
        let done = machine.tick(&mut |row| chosen_times(random, &table.rows[row]));
        if let Some((done, figure)) = done.and_then(|done| Some((done, figure(done.row)?))) {
            let took = done.instant - done.released;
            assert!(took <= figure, "{table:?}: row {} took {took}", done.row + 1);
            met += u64::from(took == figure);
        }
    }
    for row in 0..table.rows.len() {
        if let Some(figure) = figure(row) {
            assert!(machine.unfinished(row).all(|released| released + figure > ticks), "{table:?}");
        }
    }
    met
}

#[test]
fn no_legal_run_takes_a_job_beyond_its_figure() {
    let mut random = Random::new(34);
    let mut met = 0;
    for _ in 0..2_000 {
        let table = small_table(&mut random);
        let all = figures::table_figures(&table);
        for _ in 0..3 {
            met += check_legal_run(&mut random, &table, &all, 400);
        }
    }
    // Figures are reached, so a figure one too small would have been caught.
    assert!(met > 10_000, "{met}");
}

#[test]
fn the_full_run_is_not_the_worst_of_a_waiting_row() {
    // Full run: a 0..3, b 3..5, b waits until 12, a again 10..13, b 13..15.
    let table = table_of(b"a\t10\t10\t3\nb\t100\t100\t2\t7\t2\n");
    assert_eq!(run::run(&table, 100), Ok(vec![Some(3), Some(15)]));
    // With a's second release two ticks later its three ticks all fall on
    // b's second stretch, and b takes its whole figure.
    let mut machine = Machine::new(2);
    let mut took = None;
    for now in 0..20 {
        if now == 0 || now == 12 {
            machine.release(0);
        }
        if now == 0 {
            machine.release(1);
        }
        let done = machine.tick(&mut |row| table.rows[row].times.clone());
        took = took.or(done.filter(|done| done.row == 1).map(|done| done.instant - done.released));
    }
    assert_eq!(took, Some(17));
    let figures = figures::row_figures(&table, 2).expect("there is a row 2");
    assert_eq!((figures.whole, figures.split), (Some(17), Some(17)));
}
