//! The static library against the second program, on drawn input, right and
//! damaged. No seed here is one of the stored vectors'.

use musselpath::{Refusal, NOT_COMPLETE, REPORT, ROWS};
use second::cases;
use second::draw::{self, Random};
use second::{report, run, run_cases, stream, table};

/// So much of a buffer is never lent, on either side.
const BEYOND: usize = 64;

/// Differs from place to place, so that bytes that were moved show as well.
fn pattern(place: usize) -> u8 {
    (place * 37 + 11) as u8
}

fn filled(len: usize) -> Vec<u8> {
    (0..len).map(pattern).collect()
}

/// Asks for a report with a buffer of so many bytes, and tells what was
/// answered once all else is seen to be unchanged.
fn asked(text: &[u8], room: usize) -> Option<Vec<u8>> {
    let mut buffer = filled(BEYOND + room + BEYOND);
    let answer = musselpath::report(text, &mut buffer[BEYOND..BEYOND + room]);
    let end = BEYOND + answer.unwrap_or(0);
    let before = filled(buffer.len());
    assert_eq!(buffer[..BEYOND], before[..BEYOND], "{}", text.escape_ascii());
    assert_eq!(buffer[end..], before[end..], "{}", text.escape_ascii());
    answer.map(|_| buffer[BEYOND..end].to_vec())
}

fn check_report(text: &[u8]) {
    let expected = report::report_answer(text);
    let why = text.escape_ascii();
    assert_eq!(asked(text, REPORT).as_deref(), Some(expected.as_slice()), "{why}");
    assert_eq!(asked(text, expected.len()).as_deref(), Some(expected.as_slice()), "{why}");
    assert_eq!(asked(text, expected.len() - 1), None, "{why}");
    assert_eq!(asked(text, 0), None, "{why}");
}

#[test]
fn table_a_has_its_report() {
    assert_eq!(asked(cases::TABLE_A_TEXT, REPORT).as_deref(), Some(cases::TABLE_A_REPORT));
}

#[test]
fn reports_of_hand_made_texts() {
    cases::worked_cases().iter().for_each(|text| check_report(text));
    cases::text_cases().iter().for_each(|case| check_report(&case.text));
}

#[test]
fn reports_of_drawn_texts() {
    let bytes = draw::text_stream(1_001, 6_000, false);
    stream::items(&bytes).expect("a whole stream").into_iter().for_each(check_report);
}

#[test]
fn reports_of_damaged_texts() {
    draw::damaged_texts(1_002, 6_000).iter().for_each(|text| check_report(text));
}

#[test]
fn reports_of_very_heavy_tables() {
    let mut random = Random::new(1_003);
    for _ in 0..8 {
        check_report(&table::write(&draw::very_heavy_table(&mut random)));
    }
}

/// Bytes of any kind, of which next to none make a table.
fn any_bytes(random: &mut Random) -> Vec<u8> {
    let len = random.between(0, 1_500);
    (0..len).map(|_| if random.once_in(8) { random.pick(b"\t\n1a") } else { random.below(256) as u8 }).collect()
}

#[test]
fn reports_of_any_bytes() {
    let mut random = Random::new(1_004);
    for _ in 0..2_000 {
        check_report(&any_bytes(&mut random));
    }
    // Far beyond the limit of a text, and beyond 16 bits of length.
    check_report(&vec![b'\n'; 100_000]);
}

/// Elements that a run may not touch hold this.
fn element(place: usize) -> u64 {
    0x5a5a_0000 + place as u64
}

/// Asks for a full run with a buffer of so many elements, and tells what was
/// answered once all else is seen to be unchanged.
fn run_asked(text: &[u8], ticks: u64, room: usize, rows: usize) -> Result<Vec<u64>, Refusal> {
    let before: Vec<u64> = (0..room + 2).map(element).collect();
    let mut buffer = before.clone();
    let answer = musselpath::full_run_into(text, ticks, &mut buffer[1..=room]);
    let written = answer.map_or(0, |()| rows);
    assert_eq!(buffer[0], before[0]);
    assert_eq!(buffer[1 + written..], before[1 + written..], "{} {ticks}", text.escape_ascii());
    answer.map(|()| buffer[1..=rows].to_vec())
}

/// The second program's answer, as the library gives it.
fn run_expected(text: &[u8], ticks: u64) -> Result<Vec<Option<u64>>, Refusal> {
    let answer = table::read(text).and_then(|table| run::run_fast(&table, ticks));
    answer.map_err(|refusal| {
        let (line, field) = refusal.place.unwrap_or((0, 0));
        Refusal { number: refusal.number as u16, line: line as u16, field: field as u32 }
    })
}

/// A refusal that has no place.
fn alone(number: u16) -> Refusal {
    Refusal { number, line: 0, field: 0 }
}

fn check_run(text: &[u8], ticks: u64) {
    let why = format!("{} {ticks}", text.escape_ascii());
    let expected = run_expected(text, ticks);
    let rows = expected.as_ref().map_or(0, Vec::len);
    let instants = expected.clone().map(|first| {
        first.into_iter().map(|instant| instant.unwrap_or(NOT_COMPLETE)).collect::<Vec<_>>()
    });
    assert_eq!(run_asked(text, ticks, ROWS, rows), instants, "{why}");
    assert_eq!(run_asked(text, ticks, ROWS + 5, rows), instants, "{why}");
    assert_eq!(run_asked(text, ticks, rows, rows), instants, "{why}");
    // 22 comes last, for one element less than rows, and 23 only once the text is right.
    let refusal = expected.as_ref().err().copied();
    assert_eq!(run_asked(text, ticks, rows.saturating_sub(1), rows), Err(refusal.unwrap_or(alone(22))), "{why}");
    assert_eq!(run_asked(text, ticks, 0, rows), Err(refusal.unwrap_or(alone(22))), "{why}");
    assert_eq!(run_asked(text, u64::MAX, 0, rows), Err(refusal.unwrap_or(alone(23))), "{why}");
    let padded = expected.map(|first| {
        let mut padded = [None; ROWS];
        padded[..first.len()].copy_from_slice(&first);
        padded
    });
    assert_eq!(musselpath::full_run(text, ticks), padded, "{why}");
}

#[test]
fn full_runs_chosen_by_hand() {
    for case in run_cases::run_cases() {
        check_run(&case.text, u64::from(case.ticks));
    }
}

#[test]
fn full_runs_of_drawn_tables() {
    let mut random = Random::new(1_005);
    for _ in 0..1_500 {
        let table = draw::right_table(&mut random);
        // Long runs are dear and are tried below.
        let ticks = u64::from(draw::draw_ticks(&mut random, &table));
        let ticks = if ticks > 1_000_000 { ticks } else { ticks % 20_000 };
        check_run(&table::write(&table), ticks);
    }
}

#[test]
fn full_runs_to_the_last_tick() {
    let mut random = Random::new(1_006);
    for _ in 0..12 {
        check_run(&table::write(&draw::right_table(&mut random)), 1_000_000);
    }
}

#[test]
fn full_runs_of_damaged_texts() {
    let mut random = Random::new(1_007);
    for text in draw::damaged_texts(1_008, 1_500) {
        let ticks = random.pick(&[0, 1, 100, 1_000_001, u64::from(u32::MAX) + 1]);
        check_run(&text, ticks);
    }
}
