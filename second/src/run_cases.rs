//! Full runs chosen by hand. What is expected of each is worked out on paper,
//! tick by tick, and is never asked of `run`.

use crate::cases::TABLE_A_TEXT;
use crate::stream;

/// A full run: the ticks asked for, the text, and the lines it is answered by.
pub struct RunCase {
    pub why: &'static str,
    pub ticks: u32,
    pub text: Vec<u8>,
    pub expected: String,
}

type Fixed = (&'static str, u32, &'static [u8], &'static str);

/// The most ticks of a full run, as the paper has them.
const MOST: u32 = 1_000_000;
/// The example of source 003.
const EXAMPLE_003: &[u8] = b"a\t10\t10\t2\nw\t11\t11\t1\t6\t1\n";
/// a has nine ticks in ten, b one: its five ticks are 9, 19, 29, 39 and 49,
/// and by then four more of its jobs are released.
const LATE: &[u8] = b"a\t10\t10\t9\nb\t12\t12\t5\n";
/// w runs in 6..9 and waits until 12. Its second job comes at 9, when the
/// processor is idle, and stays behind the first: a has 10..16, w 16..19.
const LATE_AND_WAITING: &[u8] = b"a\t10\t10\t6\nw\t9\t9\t3\t3\t3\n";
const HALVES: &[u8] = b"a\t1000000\t1000000\t500000\nb\t1000000\t1000000\t500000\n";

const FIXED: &[Fixed] = &[
    // pulse 0..2, radio 2..7, save 7..10, pulse 10..12, save 12..13, then it
    // waits until 33 (radio 25..30, pulse 30..32), and save 33..39.
    ("Table A, no tick", 0, TABLE_A_TEXT, "pulse\t-\nradio\t-\nsave\t-\n"),
    ("Table A, 1 tick", 1, TABLE_A_TEXT, "pulse\t-\nradio\t-\nsave\t-\n"),
    ("Table A, 2 ticks", 2, TABLE_A_TEXT, "pulse\t2\nradio\t-\nsave\t-\n"),
    ("Table A, one before radio's end", 6, TABLE_A_TEXT, "pulse\t2\nradio\t-\nsave\t-\n"),
    ("Table A, radio's end", 7, TABLE_A_TEXT, "pulse\t2\nradio\t7\nsave\t-\n"),
    ("Table A, one before save's end", 38, TABLE_A_TEXT, "pulse\t2\nradio\t7\nsave\t-\n"),
    ("Table A, save's end", 39, TABLE_A_TEXT, "pulse\t2\nradio\t7\nsave\t39\n"),
    ("Table A, save's split bound, which this run doesn't reach", 48, TABLE_A_TEXT, "pulse\t2\nradio\t7\nsave\t39\n"),
    ("Table A, save's deadline", 60, TABLE_A_TEXT, "pulse\t2\nradio\t7\nsave\t39\n"),
    ("Table A, save's second release", 100, TABLE_A_TEXT, "pulse\t2\nradio\t7\nsave\t39\n"),
    ("Table A, the most ticks", MOST, TABLE_A_TEXT, "pulse\t2\nradio\t7\nsave\t39\n"),
    // The least row, at both ends of the range.
    ("1 1 1, no tick", 0, b"a\t1\t1\t1\n", "a\t-\n"),
    ("1 1 1, 1 tick", 1, b"a\t1\t1\t1\n", "a\t1\n"),
    ("1 1 1, the most ticks", MOST, b"a\t1\t1\t1\n", "a\t1\n"),
    // More load than there are ticks.
    ("a row that takes every tick", 1_000, b"a\t2\t2\t2\nb\t9\t9\t1\n", "a\t2\nb\t-\n"),
    ("the same, the most ticks", MOST, b"a\t2\t2\t2\nb\t9\t9\t1\n", "a\t2\nb\t-\n"),
    // a has two ticks in three. b has 2, 5, 8, ..: its jobs end at 6, 12, ..
    // and come every 5, so that c waits for ever.
    ("load above one", 2_000, b"a\t3\t3\t2\nb\t5\t5\t2\nc\t9\t9\t1\n", "a\t2\nb\t6\nc\t-\n"),
    // a 0, b 1..4, a 4, b 5: a job that ends after its deadline.
    ("a late end is told", 500, b"a\t4\t4\t1\nb\t5\t5\t4\nc\t100\t100\t1\n", "a\t1\nb\t6\nc\t-\n"),
    ("late jobs queue up, one tick before the first ends", 49, LATE, "a\t9\nb\t-\n"),
    ("late jobs queue up, the first ends", 50, LATE, "a\t9\nb\t50\n"),
    ("late jobs queue up, long after", 100_000, LATE, "a\t9\nb\t50\n"),
    // b has 9 and 19, c 29: a late row above lets the others through in time.
    ("a late row above", 30, b"a\t10\t10\t9\nb\t30\t3\t2\nc\t100\t100\t1\n", "a\t9\nb\t20\nc\t30\n"),
    // The row that waits.
    ("source 003, one before the end", 9, EXAMPLE_003, "a\t2\nw\t-\n"),
    ("source 003, the end", 10, EXAMPLE_003, "a\t2\nw\t10\n"),
    ("four stretches alone", 7, b"w\t20\t20\t1\t1\t1\t1\t1\t1\t1\n", "w\t7\n"),
    // w waits from 2 to 5, where a's second job comes; w has 6.
    ("ready at the instant of a release above", 7, b"a\t5\t5\t1\nw\t50\t50\t1\t3\t1\n", "a\t1\nw\t7\n"),
    // a 0..3, w 3..5, waiting until 12, a 10..13, w 13..15.
    ("ready in the middle of a stretch above", 15, b"a\t10\t10\t3\nw\t100\t100\t2\t7\t2\n", "a\t3\nw\t15\n"),
    ("a late row that waits, one before the end", 18, LATE_AND_WAITING, "a\t6\nw\t-\n"),
    ("a late row that waits, the end", 19, LATE_AND_WAITING, "a\t6\nw\t19\n"),
    ("a late row that waits, long after", 100_000, LATE_AND_WAITING, "a\t6\nw\t19\n"),
    // The last tick of the longest run.
    ("an end at the last tick", MOST, HALVES, "a\t500000\nb\t1000000\n"),
    ("an end one tick after the last", MOST - 1, HALVES, "a\t500000\nb\t-\n"),
    // Refusals: those of the text come before 23.
    ("one tick too many", MOST + 1, TABLE_A_TEXT, "refused\t23\n"),
    ("4294967295 ticks", 4_294_967_295, TABLE_A_TEXT, "refused\t23\n"),
    ("no byte at all", 10, b"", "refused\t1\t0\t0\n"),
    ("a single line feed", 10, b"\n", "refused\t6\t1\t0\n"),
    ("a bad number", 10, b"a\t9\t9\t1\nb\t9\t9\t0\n", "refused\t8\t2\t4\n"),
    ("no byte and a tick too many", MOST + 1, b"", "refused\t1\t0\t0\n"),
    ("a name twice and a tick too many", MOST + 1, b"a\t9\t9\t1\na\t9\t9\t1\n", "refused\t11\t2\t1\n"),
];

/// Rows r1 to r16, each with one tick in sixteen; the last may wait.
fn sixteen_rows(last: &str) -> Vec<u8> {
    let above: String = (1..16).map(|number| format!("r{number}\t16\t16\t1\n")).collect();
    format!("{above}r16\t16\t16\t{last}\n").into_bytes()
}

/// r1 ends at 1, r2 at 2 and so on; `last` stands for r16.
fn sixteen_lines(last: &str) -> String {
    let above: String = (1..16).map(|number| format!("r{number}\t{number}\n")).collect();
    format!("{above}r16\t{last}\n")
}

/// The runs of sixteen rows, too long to be written out.
fn built() -> Vec<RunCase> {
    let case = |why, ticks, times, last| RunCase {
        why,
        ticks,
        text: sixteen_rows(times),
        expected: sixteen_lines(last),
    };
    vec![
        case("16 rows, one tick before the last ends", 15, "1", "-"),
        case("16 rows, the last ends", 16, "1", "16"),
        case("16 rows, long after", 50_000, "1", "16"),
        // Its two ticks are 15 and, after one of waiting and then the fifteen
        // rows above, 31.
        case("16 rows, the last waits", 31, "1\t1\t1", "-"),
        case("16 rows, the last waits, its end", 32, "1\t1\t1", "32"),
    ]
}

/// All full runs chosen by hand.
pub fn run_cases() -> Vec<RunCase> {
    let fixed = FIXED.iter().map(|&(why, ticks, text, expected)| RunCase {
        why,
        ticks,
        text: text.to_vec(),
        expected: expected.to_string(),
    });
    fixed.chain(built()).collect()
}

/// They as a run stream.
pub fn run_tables() -> Vec<u8> {
    let items: Vec<Vec<u8>> =
        run_cases().iter().map(|case| stream::run_item(case.ticks, &case.text)).collect();
    stream::from_items(&items)
}
