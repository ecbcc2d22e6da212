//! Reading and writing: the hand-made texts, and round trips of drawn ones.

use second::cases::{self, Answer};
use second::draw::{self, Random};
use second::report;
use second::table::{self, Refusal};
use std::collections::{BTreeMap, BTreeSet};

/// The triple of an answer, told from the refusal itself.
fn triple(text: &[u8]) -> Answer {
    match table::read(text) {
        Ok(_) => (0, 0, 0),
        Err(Refusal { number, place: Some((line, field)) }) => (number, line, field),
        Err(Refusal { number, place: None }) => panic!("reading gave {number} without a place"),
    }
}

#[test]
fn every_hand_made_text_has_its_answer() {
    for case in cases::text_cases() {
        assert_eq!(triple(&case.text), case.expected, "{}", case.why);
    }
}

#[test]
fn a_hand_made_text_that_is_read_is_written_back_the_same() {
    let mut read = 0;
    for case in cases::text_cases() {
        if case.expected == (0, 0, 0) {
            assert_eq!(report::text_answer(&case.text), case.text, "{}", case.why);
            read += 1;
        }
    }
    assert!(read >= 30, "only {read} hand-made texts are right");
}

#[test]
fn hand_made_texts_cover_every_refusal_and_place() {
    let answers: BTreeSet<Answer> = cases::text_cases().iter().map(|case| case.expected).collect();
    for answer in [(1, 0, 0), (2, 0, 0), (3, 0, 0), (4, 17, 0)] {
        assert!(answers.contains(&answer), "{answer:?}");
    }
    for line in 1..=16 {
        for answer in [(6, line, 0), (7, line, 1), (9, line, 3), (10, line, 0)] {
            assert!(answers.contains(&answer), "{answer:?}");
        }
        for field in 2..=10 {
            assert!(answers.contains(&(8, line, field)), "8 at {line}, {field}");
        }
    }
    for line in 2..=16 {
        for answer in [(5, line, 0), (11, line, 1)] {
            assert!(answers.contains(&answer), "{answer:?}");
        }
    }
}

#[test]
fn hand_made_texts_have_the_lengths_their_names_say() {
    let all = cases::text_cases();
    let length = |why: &str| all.iter().find(|case| case.why == why).expect(why).text.len();
    assert_eq!(length("1,360 bytes, one field"), 1_360);
    assert_eq!(length("1,361 bytes, one field"), 1_361);
    assert_eq!(length("16 longest lines, 1,360 bytes"), 1_360);
    assert_eq!(length("15 rows and a long name up to 1,360 bytes"), 1_360);
    assert_eq!(length("one row and tabs up to 1,360 bytes"), 1_360);
    assert_eq!(length("a number of 1,350 digits"), 1_359);
    assert_eq!(length("the longest right text, 633 bytes"), 633);
}

#[test]
fn no_two_hand_made_cases_have_the_same_name() {
    let all = cases::text_cases();
    let names: BTreeSet<&str> = all.iter().map(|case| case.why.as_str()).collect();
    assert_eq!(names.len(), all.len());
}

#[test]
fn reading_keeps_every_value() {
    let table = table::read(cases::TABLE_A_TEXT).expect("Table A is right");
    let rows: Vec<_> = table
        .rows
        .iter()
        .map(|row| (row.name.as_slice(), row.t, row.d, row.times.as_slice()))
        .collect();
    let expected: Vec<(&[u8], u64, u64, &[u64])> = vec![
        (b"pulse", 10, 10, &[2]),
        (b"radio", 25, 20, &[5]),
        (b"save", 100, 60, &[4, 20, 6]),
    ];
    assert_eq!(rows, expected);
}

#[test]
fn drawn_tables_are_read_back_as_they_were() {
    let mut random = Random::new(11);
    for _ in 0..3_000 {
        let table = draw::right_table(&mut random);
        let text = table::write(&table);
        assert_eq!(table::read(&text).as_ref(), Ok(&table), "{}", text.escape_ascii());
    }
}

#[test]
fn a_damaged_text_that_is_read_was_the_one_text_of_its_table() {
    let mut right = 0;
    for text in draw::damaged_texts(12, 3_000) {
        if let Ok(table) = table::read(&text) {
            assert_eq!(table::write(&table), text);
            right += 1;
        }
    }
    assert!(right > 50, "only {right} damaged texts are right after all");
}

#[test]
fn damaged_texts_meet_every_refusal() {
    let mut met: BTreeMap<u32, usize> = BTreeMap::new();
    for text in draw::damaged_texts(13, 3_000) {
        *met.entry(triple(&text).0).or_default() += 1;
    }
    for number in 1..=11 {
        let count = met.get(&number).copied().unwrap_or(0);
        assert!(count >= 20, "refusal {number} met {count} times: {met:?}");
    }
}

#[test]
fn damaged_texts_meet_8_at_every_field_and_many_lines() {
    let met: BTreeSet<Answer> =
        draw::damaged_texts(14, 6_000).iter().map(|text| triple(text)).collect();
    for field in 2..=10 {
        assert!(met.iter().any(|&(number, _, at)| number == 8 && at == field), "field {field}");
    }
    for line in 1..=16 {
        assert!(met.iter().any(|&(number, at, _)| number == 8 && at == line), "line {line}");
    }
}
