//! The figures: the paper's cases, and drawn tables against a search that
//! knows no recurrence.

use second::cases;
use second::draw::{self, Load, Random};
use second::figures::{self, Bound, RowVerdict, TableVerdict};
use second::report;
use second::table::{self, Row, Table};

#[test]
fn every_worked_case_has_its_figures() {
    for case in cases::WORKED_CASES {
        let table = case.table_value();
        for expected in case.expected {
            let figures = figures::row_figures(&table, expected.row).expect("there is such a row");
            let why = format!("{}, row {}", case.why, expected.row);
            assert_eq!(figures.verdict, expected.verdict, "{why}");
            assert_eq!(figures.whole, expected.whole, "{why}");
            assert_eq!(figures.split, expected.split, "{why}");
            assert_eq!(figures.rounds, expected.rounds, "{why}");
        }
        let verdict = figures::table_verdict(&figures::table_figures(&table));
        assert_eq!(verdict, case.table, "{}", case.why);
    }
    assert_eq!(cases::WORKED_CASES.iter().filter(|case| case.proved).count(), 7);
}

#[test]
fn worked_cases_are_right_tables() {
    for case in cases::WORKED_CASES {
        let table = case.table_value();
        assert_eq!(table::read(&table::write(&table)), Ok(table), "{}", case.why);
    }
}

#[test]
fn table_a_has_its_report_byte_for_byte() {
    let report = report::report_answer(cases::TABLE_A_TEXT);
    assert_eq!(report.escape_ascii().to_string(), cases::TABLE_A_REPORT.escape_ascii().to_string());
}

#[test]
fn what_the_open_case_would_be_with_a_longer_deadline() {
    // The paper says of it: whole would be 14, split 18.
    let text = b"a\t4\t4\t1\nb\t20\t20\t2\nc\t20\t20\t2\nd\t18\t18\t2\t2\t2\n";
    let table = table::read(text).expect("a right text");
    let figures = figures::row_figures(&table, 4).expect("there is a row 4");
    assert_eq!((figures.whole, figures.split), (Some(14), Some(18)));
}

#[test]
fn whole_is_named_where_the_bounds_are_equal() {
    let table = table::read(b"a\t20\t20\t3\t4\t5\n").expect("a right text");
    let figures = figures::row_figures(&table, 1).expect("there is a row 1");
    assert_eq!((figures.whole, figures.split), (Some(12), Some(12)));
    assert_eq!(figures.verdict, RowVerdict::Fits { figure: 12, bound: Bound::Whole });
}

#[test]
fn there_is_no_row_0_and_none_beyond_the_last() {
    let table = table::read(cases::TABLE_A_TEXT).expect("Table A is right");
    assert_eq!(figures::row_figures(&table, 0), None);
    assert_eq!(figures::row_figures(&table, 4), None);
    assert_eq!(figures::row_figures(&table, usize::MAX), None);
    assert!(figures::row_figures(&table, 3).is_some());
}

#[test]
fn misses_comes_before_open() {
    let text = b"a\t3\t3\t2\nb\t5\t3\t2\nc\t9\t9\t1\t1\t1\n";
    let report = report::report_answer(text);
    assert_eq!(
        report.escape_ascii().to_string(),
        // b: 2, then 2 + 2 = 4 above 3. c: 3 + 2 + 2 = 7, then 3 + 6 + 4 = 13
        // above 9; its first stretch 1 + 2 + 2 = 5, 1 + 4 + 2 = 7, 1 + 6 + 4
        // = 11 above 9, and the second is left out: 2 + 3 rounds.
        b"a\tfits\t2\t2\t-\t1\nb\tmisses\t-\t-\t-\t1\nc\topen\t-\t-\t-\t5\ntable\tmisses\n"
            .escape_ascii()
            .to_string()
    );
}

#[test]
fn a_report_shows_split_where_whole_is_none() {
    // Whole: 24 + 3 times 4 = 36, above 34. Split: 3 + 4 = 7 for each stretch
    // in two rounds, and 18 between them.
    let report = report::report_answer(b"a\t10\t10\t4\nb\t60\t34\t3\t18\t3\n");
    assert_eq!(
        report.escape_ascii().to_string(),
        b"a\tfits\t4\t4\t-\t1\nb\tfits\t32\t-\t32\t5\ntable\tfits\n".escape_ascii().to_string()
    );
}

#[test]
fn a_report_shows_whole_where_split_is_none() {
    // The example of source 003. Whole: 8, 10, 10. Split: 3 + 3 + 6 = 12,
    // above 11: 1 + 2 = 3 in two rounds for each stretch.
    let report = report::report_answer(b"a\t10\t10\t2\nb\t11\t11\t1\t6\t1\n");
    assert_eq!(
        report.escape_ascii().to_string(),
        b"a\tfits\t2\t2\t-\t1\nb\tfits\t10\t10\t-\t6\ntable\tfits\n".escape_ascii().to_string()
    );
}

#[test]
fn a_million_rounds_are_met_exactly() {
    let table = table::read(b"full\t1\t1\t1\nlast\t1000000\t1000000\t1\n").expect("a right text");
    let figures = figures::row_figures(&table, 2).expect("there is a row 2");
    assert_eq!(figures.rounds, 1_000_000);
    assert_eq!(figures.verdict, RowVerdict::Misses);
}

#[test]
fn a_refused_text_has_its_line() {
    assert_eq!(report::report_answer(b""), b"refused\t1\t0\t0\n");
    assert_eq!(report::report_answer(b"\n"), b"refused\t6\t1\t0\n");
    assert_eq!(report::report_answer(b"a\t10\t10\t1\r\n"), b"refused\t8\t1\t4\n");
}

/// Releases of a row in a window of t ticks that begins with one: counted
/// one by one, no division.
fn releases_within(t: u64, row: &Row) -> u64 {
    (0..).take_while(|number| number * row.t < t).count() as u64
}

/// The smallest positive t up to D at which the work released in t ticks is
/// t, by trying every one.
fn searched(above: &[Row], own: u64, d: u64) -> Option<u64> {
    (1..=d).find(|&t| {
        let work: u64 = above.iter().map(|row| releases_within(t, row) * row.times[0]).sum();
        own + work == t
    })
}

fn small_tables(seed: u64, count: usize) -> Vec<Table> {
    let mut random = Random::new(seed);
    let mut drawn = || {
        let rows = random.between(1, 6) as usize;
        let stretches = random.between(1, 4) as usize;
        draw::table_of(&mut random, Load::Small, rows, stretches)
    };
    (0..count).map(|_| drawn()).collect()
}

#[test]
fn bounds_are_the_smallest_fixed_points() {
    let mut seen = [0; 4];
    for table in small_tables(21, 4_000) {
        for (place, row) in table.rows.iter().enumerate() {
            let above = &table.rows[..place];
            let figures = figures::row_figures(&table, place + 1).expect("there is such a row");
            assert_eq!(figures.whole, searched(above, row.sum(), row.d));
            let split: Option<u64> = row.stretches().map(|c| searched(above, c, row.d)).sum();
            let split = split.map(|sum| sum + row.suspensions().sum::<u64>());
            let split = split.filter(|&sum| row.waits() && sum <= row.d);
            assert_eq!(figures.split, split);
            let lesser = figures.whole.into_iter().chain(split).min();
            match figures.verdict {
                RowVerdict::Fits { figure, bound } => {
                    assert_eq!(Some(figure), lesser);
                    assert_eq!(bound == Bound::Whole, lesser == figures.whole);
                    seen[(bound == Bound::Split) as usize] += 1;
                }
                RowVerdict::Misses => {
                    assert!(lesser.is_none() && !row.waits());
                    seen[2] += 1;
                }
                RowVerdict::Open => {
                    assert!(lesser.is_none() && row.waits());
                    seen[3] += 1;
                }
            }
        }
    }
    // Whole, split, misses, open: each must have been met for this to count.
    assert!(seen.iter().all(|&count| count > 100), "{seen:?}");
}

#[test]
fn rounds_of_a_row_with_one_c_are_at_most_d_less_c_and_one() {
    let mut random = Random::new(22);
    for _ in 0..1_000 {
        let table = draw::right_table(&mut random);
        for (row, figures) in table.rows.iter().zip(figures::table_figures(&table)) {
            assert!(figures.rounds >= 1);
            if !row.waits() {
                assert!(figures.rounds <= row.d - row.times[0] + 1);
            }
        }
    }
}

#[test]
fn every_case_of_the_paper_stands_in_the_stream_of_worked_cases() {
    let texts = cases::worked_cases();
    for case in cases::WORKED_CASES {
        assert!(texts.contains(&table::write(&case.table_value())), "{}", case.why);
    }
    let answers: Vec<Vec<u8>> = texts.iter().map(|text| report::report_answer(text)).collect();
    let position = |text: &[u8]| texts.iter().position(|other| other == text).expect("it is there");
    assert_eq!(answers[position(cases::TABLE_A_TEXT)], cases::TABLE_A_REPORT);
    assert_eq!(answers[position(b"")], b"refused\t1\t0\t0\n");
    assert_eq!(answers[position(b"\n")], b"refused\t6\t1\t0\n");
    // T 1000000 and C + S = D are read; 1000001, 0 and 07 give 8, one more
    // than D gives 10, and a carriage return 8 at the last field.
    let refused = |line: &[u8]| answers.iter().filter(|answer| *answer == line).count();
    assert_eq!(refused(b"refused\t8\t1\t2\n"), 3);
    assert_eq!(refused(b"refused\t8\t1\t4\n"), 1);
    assert_eq!(refused(b"refused\t10\t1\t0\n"), 1);
    assert_eq!(answers.iter().filter(|answer| answer.starts_with(b"refused")).count(), 7);
}

#[test]
fn worked_cases_are_of_every_verdict_and_bound() {
    let texts = cases::worked_cases();
    assert!(texts.len() >= 59, "{}", texts.len());
    let mut verdicts = Vec::new();
    let mut bounds = Vec::new();
    for table in texts.iter().filter_map(|text| table::read(text).ok()) {
        let all = figures::table_figures(&table);
        verdicts.push(figures::table_verdict(&all));
        bounds.extend(all.iter().map(|figures| (figures.whole.is_some(), figures.split.is_some())));
    }
    for verdict in [TableVerdict::Fits, TableVerdict::Misses, TableVerdict::Open] {
        assert!(verdicts.contains(&verdict), "{verdict:?}");
    }
    for bound in [(false, false), (false, true), (true, false), (true, true)] {
        assert!(bounds.contains(&bound), "{bound:?}");
    }
}
