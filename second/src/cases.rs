//! The worked cases of the paper, and a list of texts made by hand.
//!
//! What is expected is written out from reasoning about the paper; nothing
//! here asks the reader or the recurrence.

use crate::figures::{Bound, RowVerdict, TableVerdict};
use crate::table::{Row, Table};

const fn fits(figure: u64, bound: Bound) -> RowVerdict {
    RowVerdict::Fits { figure, bound }
}

/// A row as the paper writes it: T, D, times.
pub type PaperRow = (u64, u64, &'static [u64]);

/// What the paper says of one row, by its number from 1.
pub struct Expected {
    pub row: usize,
    pub verdict: RowVerdict,
    pub whole: Option<u64>,
    pub split: Option<u64>,
    pub rounds: u64,
}

/// A worked case about figures; `proved` are the ones marked P. The others
/// work out what the paper says beside them.
pub struct WorkedCase {
    pub why: &'static str,
    pub proved: bool,
    pub rows: &'static [PaperRow],
    pub expected: &'static [Expected],
    pub table: TableVerdict,
}

impl WorkedCase {
    /// The rows named r1, r2 ..: the paper gives these cases no names.
    pub fn table_value(&self) -> Table {
        let named = |(place, &(t, d, times)): (usize, &PaperRow)| Row {
            name: format!("r{}", place + 1).into_bytes(),
            t,
            d,
            times: times.to_vec(),
        };
        Table { rows: self.rows.iter().enumerate().map(named).collect() }
    }
}

/// Table A, its text and its whole report.
pub const TABLE_A_TEXT: &[u8] =
    b"pulse\t10\t10\t2\nradio\t25\t20\t5\nsave\t100\t60\t4\t20\t6\n";
pub const TABLE_A_REPORT: &[u8] =
    b"pulse\tfits\t2\t2\t-\t1\nradio\tfits\t7\t7\t-\t2\nsave\tfits\t48\t50\t48\t9\ntable\tfits\n";

pub const WORKED_CASES: &[WorkedCase] = &[
    WorkedCase {
        why: "Table A",
        proved: true,
        rows: &[(10, 10, &[2]), (25, 20, &[5]), (100, 60, &[4, 20, 6])],
        expected: &[
            Expected { row: 1, verdict: fits(2, Bound::Whole), whole: Some(2), split: None, rounds: 1 },
            Expected { row: 2, verdict: fits(7, Bound::Whole), whole: Some(7), split: None, rounds: 2 },
            Expected { row: 3, verdict: fits(48, Bound::Split), whole: Some(50), split: Some(48), rounds: 9 },
        ],
        table: TableVerdict::Fits,
    },
    WorkedCase {
        why: "a release exactly at the end of the window doesn't count",
        proved: true,
        rows: &[(2, 2, &[1]), (4, 4, &[2])],
        expected: &[
            Expected { row: 2, verdict: fits(4, Bound::Whole), whole: Some(4), split: None, rounds: 3 },
        ],
        table: TableVerdict::Fits,
    },
    WorkedCase {
        why: "the same with D = 3 misses",
        proved: true,
        rows: &[(2, 2, &[1]), (4, 3, &[2])],
        expected: &[
            Expected { row: 2, verdict: RowVerdict::Misses, whole: None, split: None, rounds: 2 },
        ],
        table: TableVerdict::Misses,
    },
    WorkedCase {
        why: "too much load stops above D",
        proved: true,
        rows: &[(2, 2, &[2]), (9, 9, &[1])],
        expected: &[
            Expected { row: 2, verdict: RowVerdict::Misses, whole: None, split: None, rounds: 5 },
        ],
        table: TableVerdict::Misses,
    },
    WorkedCase {
        why: "the least table",
        proved: true,
        rows: &[(1, 1, &[1])],
        expected: &[
            Expected { row: 1, verdict: fits(1, Bound::Whole), whole: Some(1), split: None, rounds: 1 },
        ],
        table: TableVerdict::Fits,
    },
    WorkedCase {
        why: "the example of source 003: whole fits where split passes D",
        proved: true,
        rows: &[(10, 10, &[2]), (11, 11, &[1, 6, 1])],
        expected: &[
            Expected { row: 2, verdict: fits(10, Bound::Whole), whole: Some(10), split: None, rounds: 6 },
        ],
        table: TableVerdict::Fits,
    },
    WorkedCase {
        why: "both bounds pass D: open, not misses",
        proved: true,
        rows: &[(4, 4, &[1]), (20, 20, &[2]), (20, 20, &[2]), (13, 13, &[2, 2, 2])],
        expected: &[
            Expected { row: 4, verdict: RowVerdict::Open, whole: None, split: None, rounds: 9 },
        ],
        table: TableVerdict::Open,
    },
    WorkedCase {
        why: "the same with D = 18: whole would be 14, split 18",
        proved: false,
        rows: &[(4, 4, &[1]), (20, 20, &[2]), (20, 20, &[2]), (18, 18, &[2, 2, 2])],
        expected: &[
            // Whole: 12, 13, 14, 14. Each stretch: 7, 8, 8; with S, 8 + 8 + 2.
            Expected { row: 4, verdict: fits(14, Bound::Whole), whole: Some(14), split: Some(18), rounds: 10 },
        ],
        table: TableVerdict::Fits,
    },
    WorkedCase {
        why: "a partial sum above D doesn't stop split",
        proved: false,
        rows: &[(10, 10, &[5]), (20, 10, &[1, 1, 1, 1, 1])],
        expected: &[
            Expected { row: 2, verdict: fits(10, Bound::Whole), whole: Some(10), split: None, rounds: 8 },
        ],
        table: TableVerdict::Fits,
    },
];

/// Number, line, field; 0, 0, 0 is a text that is read.
pub type Answer = (u32, usize, usize);

const READ: Answer = (0, 0, 0);

/// A text and the answer to it.
pub struct TextCase {
    pub why: String,
    pub text: Vec<u8>,
    pub expected: Answer,
}

type Fixed = (&'static str, &'static [u8], Answer);

/// The texts the paper itself speaks of: "text of 0 bytes gives 1; a single
/// line feed gives 6", "T 1000000 is read; 1000001, 0 and 07 give 8", "C + S
/// = D is read; one more gives 10", "a carriage return before the line feed
/// gives 8 at the last field".
const PAPER_TEXTS: &[Fixed] = &[
    ("no byte at all", b"", (1, 0, 0)),
    ("a single line feed", b"\n", (6, 1, 0)),
    ("T 1000000", b"a\t1000000\t1\t1\n", READ),
    ("T 1000001", b"a\t1000001\t1\t1\n", (8, 1, 2)),
    ("T 0", b"a\t0\t1\t1\n", (8, 1, 2)),
    ("T 07", b"a\t07\t1\t1\n", (8, 1, 2)),
    ("C + S = D", b"a\t20\t9\t2\t3\t4\n", READ),
    ("C + S one above D", b"a\t20\t9\t2\t4\t4\n", (10, 1, 0)),
    ("a carriage return", b"a\t10\t10\t1\r\n", (8, 1, 4)),
    ("Table A", TABLE_A_TEXT, READ),
];

/// One row after another rule, each line and field reasoned out by hand.
const FIXED_TEXTS: &[Fixed] = &[
    // 3 looks at the last byte of the whole text, before any line.
    ("no last line feed", b"a\t10\t10\t1", (3, 0, 0)),
    ("one byte, no line feed", b"a", (3, 0, 0)),
    ("one tab", b"\t", (3, 0, 0)),
    ("one zero byte", b"\0", (3, 0, 0)),
    ("one byte 255", b"\xff", (3, 0, 0)),
    ("a carriage return ends the text", b"a\t10\t10\t1\n\r", (3, 0, 0)),
    ("second line cut off", b"a\t10\t10\t1\nb\t10\t10\t1", (3, 0, 0)),
    ("a tab after the last line feed", b"a\t10\t10\t1\n\t", (3, 0, 0)),
    ("3 before a bad first line", b"A\t0\t10\t1\nb", (3, 0, 0)),
    ("a zero byte after the last line feed", b"a\t10\t10\t1\n\0", (3, 0, 0)),
    // 5, whatever the line after the waiting row holds.
    ("a row after 2 stretches", b"a\t10\t10\t1\t1\t1\nb\t10\t10\t1\n", (5, 2, 0)),
    ("a row after 3 stretches", b"a\t10\t10\t1\t1\t1\t1\t1\nb\t10\t10\t1\n", (5, 2, 0)),
    ("a row after 4 stretches", b"a\t10\t10\t1\t1\t1\t1\t1\t1\t1\nb\t10\t10\t1\n", (5, 2, 0)),
    ("an empty line after a waiting row", b"a\t10\t10\t1\t1\t1\n\n", (5, 2, 0)),
    ("a waiting row after a waiting row", b"a\t10\t10\t1\t1\t1\nb\t10\t10\t1\t1\t1\n", (5, 2, 0)),
    ("5 before 6", b"a\t10\t10\t1\t1\t1\nb\t10\n", (5, 2, 0)),
    ("5 before 7", b"a\t10\t10\t1\t1\t1\nB\t10\t10\t1\n", (5, 2, 0)),
    ("5 before 8", b"a\t10\t10\t1\t1\t1\nb\t0\t10\t1\n", (5, 2, 0)),
    ("5 before 9", b"a\t10\t10\t1\t1\t1\nb\t10\t11\t1\n", (5, 2, 0)),
    ("5 before 10", b"a\t10\t10\t1\t1\t1\nb\t10\t10\t11\n", (5, 2, 0)),
    ("5 before 11", b"a\t10\t10\t1\t1\t1\na\t10\t10\t1\n", (5, 2, 0)),
    ("waiting row in the middle", b"a\t9\t9\t1\nb\t9\t9\t1\t1\t1\nc\t9\t9\t1\n", (5, 3, 0)),
    ("a bad waiting row comes before the line after it", b"a\t9\t9\t5\t5\t5\nb\t9\t9\t1\n", (10, 1, 0)),
    ("a waiting row last", b"a\t9\t9\t1\nb\t9\t9\t1\t1\t1\n", READ),
    ("3 stretches", b"b\t9\t9\t1\t1\t1\t1\t1\n", READ),
    ("4 stretches", b"b\t9\t9\t1\t1\t1\t1\t1\t1\t1\n", READ),
    // 6: the count alone, whatever the fields hold.
    ("1 field", b"a\n", (6, 1, 0)),
    ("1 field, a bad name", b"A B\n", (6, 1, 0)),
    ("2 fields", b"a\t10\n", (6, 1, 0)),
    ("3 fields", b"a\t10\t10\n", (6, 1, 0)),
    ("5 fields", b"a\t10\t10\t1\t1\n", (6, 1, 0)),
    ("5 fields, all bad", b"A\t0\t-1\tx\t\n", (6, 1, 0)),
    ("7 fields", b"a\t10\t10\t1\t1\t1\t1\n", (6, 1, 0)),
    ("9 fields", b"a\t10\t10\t1\t1\t1\t1\t1\t1\n", (6, 1, 0)),
    ("11 fields", b"a\t10\t10\t1\t1\t1\t1\t1\t1\t1\t1\n", (6, 1, 0)),
    ("12 fields", b"a\t99\t99\t1\t1\t1\t1\t1\t1\t1\t1\t1\n", (6, 1, 0)),
    ("12 fields, all bad", b"A\t0\t0\t0\t0\t0\t0\t0\t0\t0\t0\t0\n", (6, 1, 0)),
    ("12 empty fields", b"\t\t\t\t\t\t\t\t\t\t\t\n", (6, 1, 0)),
    ("14 fields", b"a\t99\t99\t1\t1\t1\t1\t1\t1\t1\t1\t1\t1\t1\n", (6, 1, 0)),
    ("two line feeds", b"\n\n", (6, 1, 0)),
    ("an empty first line", b"\na\t10\t10\t1\n", (6, 1, 0)),
    ("an empty line between", b"a\t10\t10\t1\n\nb\t10\t10\t1\n", (6, 2, 0)),
    ("an empty line last", b"a\t10\t10\t1\n\n", (6, 2, 0)),
    ("a carriage return alone", b"\r\n", (6, 1, 0)),
    ("a space alone", b" \n", (6, 1, 0)),
    ("spaces for tabs", b"a 10 10 1\n", (6, 1, 0)),
    ("one space for a tab", b"a\t10\t10 1\n", (6, 1, 0)),
    ("commas for tabs", b"a,10,10,1\n", (6, 1, 0)),
    ("zero bytes for tabs", b"a\x0010\x0010\x001\n", (6, 1, 0)),
    ("vertical tabs for tabs", b"a\x0b10\x0b10\x0b1\n", (6, 1, 0)),
    ("3 empty fields", b"\t\t\n", (6, 1, 0)),
    ("5 empty fields", b"\t\t\t\t\n", (6, 1, 0)),
    // Doubled tabs and tabs at either end make empty fields, and count.
    ("a doubled tab makes 5 fields", b"a\t\t10\t10\t1\n", (6, 1, 0)),
    ("a doubled tab after D", b"a\t10\t10\t\t1\n", (6, 1, 0)),
    ("a doubled tab in 4 fields", b"a\t\t10\t1\n", (8, 1, 2)),
    ("a doubled tab before C in 4 fields", b"a\t10\t\t1\n", (8, 1, 3)),
    ("a doubled tab makes 6 fields", b"a\t10\t10\t1\t\t1\n", (8, 1, 5)),
    ("a tab at the start makes 5 fields", b"\ta\t10\t10\t1\n", (6, 1, 0)),
    ("a tab at the start in 4 fields", b"\t10\t10\t1\n", (7, 1, 1)),
    ("a tab at the end makes 5 fields", b"a\t10\t10\t1\t\n", (6, 1, 0)),
    ("a tab at the end in 4 fields", b"a\t10\t10\t\n", (8, 1, 4)),
    ("a tab at the end makes 6 fields", b"a\t10\t10\t1\t1\t\n", (8, 1, 6)),
    ("two tabs at the end make 6 fields", b"a\t10\t10\t1\t\t\n", (8, 1, 5)),
    ("a tab at the end makes 10 fields", b"a\t10\t10\t1\t1\t1\t1\t1\t1\t\n", (8, 1, 10)),
    // 7: the length and each byte of a name.
    ("4 empty fields", b"\t\t\t\n", (7, 1, 1)),
    ("10 empty fields", b"\t\t\t\t\t\t\t\t\t\n", (7, 1, 1)),
    ("name of 1 byte", b"z\t10\t10\t1\n", READ),
    ("name of 12 bytes", b"abcdefghijkl\t10\t10\t1\n", READ),
    ("name of 13 bytes", b"abcdefghijklm\t10\t10\t1\n", (7, 1, 1)),
    ("name of 14 bytes", b"abcdefghijklmn\t10\t10\t1\n", (7, 1, 1)),
    ("name of 60 bytes", b"aaaaaaaaaaaaaaaaaaaaaaaaaaaaaaaaaaaaaaaaaaaaaaaaaaaaaaaaaaaa\t10\t10\t1\n", (7, 1, 1)),
    ("name is one hyphen", b"-\t10\t10\t1\n", READ),
    ("name of 12 hyphens", b"------------\t10\t10\t1\n", READ),
    ("name of 13 hyphens", b"-------------\t10\t10\t1\n", (7, 1, 1)),
    ("name is 0", b"0\t10\t10\t1\n", READ),
    ("name is a number", b"1000001\t10\t10\t1\n", READ),
    ("name is table", b"table\t10\t10\t1\n", READ),
    ("name is refused", b"refused\t10\t10\t1\n", READ),
    ("every allowed byte", b"abcdefghijkl\t9\t9\t1\nmnopqrstuvwx\t9\t9\t1\nyz0123456789\t9\t9\t1\n-\t9\t9\t1\n", READ),
    ("upper case", b"A\t10\t10\t1\n", (7, 1, 1)),
    ("upper case Z", b"Z\t10\t10\t1\n", (7, 1, 1)),
    ("upper case inside", b"rAdio\t10\t10\t1\n", (7, 1, 1)),
    ("underscore", b"a_b\t10\t10\t1\n", (7, 1, 1)),
    ("space inside", b"a b\t10\t10\t1\n", (7, 1, 1)),
    ("space before", b" a\t10\t10\t1\n", (7, 1, 1)),
    ("space after", b"a \t10\t10\t1\n", (7, 1, 1)),
    ("a space as a name", b" \t10\t10\t1\n", (7, 1, 1)),
    ("dot, the byte above the hyphen", b"a.b\t10\t10\t1\n", (7, 1, 1)),
    ("comma, the byte below the hyphen", b"a,b\t10\t10\t1\n", (7, 1, 1)),
    ("slash, the byte below 0", b"a/b\t10\t10\t1\n", (7, 1, 1)),
    ("colon, the byte above 9", b"a:b\t10\t10\t1\n", (7, 1, 1)),
    ("backquote, the byte below a", b"a`b\t10\t10\t1\n", (7, 1, 1)),
    ("brace, the byte above z", b"a{b\t10\t10\t1\n", (7, 1, 1)),
    ("at sign", b"@\t10\t10\t1\n", (7, 1, 1)),
    ("bracket", b"[\t10\t10\t1\n", (7, 1, 1)),
    ("zero byte as a name", b"\0\t10\t10\t1\n", (7, 1, 1)),
    ("zero byte after a name", b"a\0\t10\t10\t1\n", (7, 1, 1)),
    ("byte 255 in a name", b"a\xff\t10\t10\t1\n", (7, 1, 1)),
    ("byte 225, a with the top bit", b"\xe1\t10\t10\t1\n", (7, 1, 1)),
    ("byte 127 in a name", b"a\x7f\t10\t10\t1\n", (7, 1, 1)),
    ("carriage return in a name", b"a\r\t10\t10\t1\n", (7, 1, 1)),
    ("two bytes of a letter outside ASCII", b"\xc3\xa4\t10\t10\t1\n", (7, 1, 1)),
    ("byte order mark", b"\xef\xbb\xbfa\t10\t10\t1\n", (7, 1, 1)),
    ("bad twelfth byte", b"abcdefghijkL\t10\t10\t1\n", (7, 1, 1)),
    ("7 before 8", b"A\t0\t10\t1\n", (7, 1, 1)),
    ("7 before 9", b"A\t10\t11\t1\n", (7, 1, 1)),
    ("7 before 10", b"A\t10\t10\t11\n", (7, 1, 1)),
    // 8: forms of a number that are none, and the edges of the range.
    ("T = D = C = 1", b"a\t1\t1\t1\n", READ),
    ("T = D = C = 1000000", b"a\t1000000\t1000000\t1000000\n", READ),
    ("T 999999", b"a\t999999\t999999\t999999\n", READ),
    ("D 1000001", b"a\t1000000\t1000001\t1\n", (8, 1, 3)),
    ("C 1000001", b"a\t1000000\t1000000\t1000001\n", (8, 1, 4)),
    ("S 1000001", b"a\t1000000\t1000000\t1\t1000001\t1\n", (8, 1, 5)),
    ("D 0", b"a\t10\t0\t1\n", (8, 1, 3)),
    ("C 0", b"a\t10\t10\t0\n", (8, 1, 4)),
    ("S 0", b"a\t10\t10\t1\t0\t1\n", (8, 1, 5)),
    ("C2 0", b"a\t10\t10\t1\t1\t0\n", (8, 1, 6)),
    ("D 07", b"a\t10\t07\t1\n", (8, 1, 3)),
    ("C 07", b"a\t10\t10\t07\n", (8, 1, 4)),
    ("00", b"a\t10\t10\t00\n", (8, 1, 4)),
    ("0000001", b"a\t10\t10\t0000001\n", (8, 1, 4)),
    ("01000000", b"a\t01000000\t10\t1\n", (8, 1, 2)),
    ("plus", b"a\t+10\t10\t1\n", (8, 1, 2)),
    ("minus", b"a\t10\t-10\t1\n", (8, 1, 3)),
    ("minus zero", b"a\t10\t10\t-0\n", (8, 1, 4)),
    ("a sign alone", b"a\t10\t10\t-\n", (8, 1, 4)),
    ("space before a number", b"a\t 10\t10\t1\n", (8, 1, 2)),
    ("space after a number", b"a\t10 \t10\t1\n", (8, 1, 2)),
    ("space inside a number", b"a\t1 0\t10\t1\n", (8, 1, 2)),
    ("space at the end of the line", b"a\t10\t10\t1 \n", (8, 1, 4)),
    ("a space as a number", b"a\t10\t10\t \n", (8, 1, 4)),
    ("empty T", b"a\t\t10\t1\n", (8, 1, 2)),
    ("empty D", b"a\t10\t\t1\n", (8, 1, 3)),
    ("3 empty numbers", b"a\t\t\t\n", (8, 1, 2)),
    ("decimal point", b"a\t10.0\t10\t1\n", (8, 1, 2)),
    ("decimal comma", b"a\t1,000\t10\t1\n", (8, 1, 2)),
    ("exponent", b"a\t1e6\t10\t1\n", (8, 1, 2)),
    ("hexadecimal", b"a\t0x10\t10\t1\n", (8, 1, 2)),
    ("letter after digits", b"a\t10a\t10\t1\n", (8, 1, 2)),
    ("underscore in a number", b"a\t1_000\t10\t1\n", (8, 1, 2)),
    ("slash, the byte below 0, in a number", b"a\t1/\t10\t1\n", (8, 1, 2)),
    ("colon, the byte above 9, in a number", b"a\t1:\t10\t1\n", (8, 1, 2)),
    ("slash first", b"a\t/1\t10\t1\n", (8, 1, 2)),
    ("colon first", b"a\t:1\t10\t1\n", (8, 1, 2)),
    ("zero byte after a number", b"a\t10\0\t10\t1\n", (8, 1, 2)),
    ("zero byte as a number", b"a\t\0\t10\t1\n", (8, 1, 2)),
    ("byte 255 in a number", b"a\t10\xff\t10\t1\n", (8, 1, 2)),
    ("byte 177, 1 with the top bit", b"a\t\xb1\t10\t1\n", (8, 1, 2)),
    ("a digit outside ASCII", b"a\t\xd9\xa1\t10\t1\n", (8, 1, 2)),
    ("9999999, the most in 7 digits", b"a\t9999999\t10\t1\n", (8, 1, 2)),
    ("10000000, 8 digits", b"a\t10000000\t10\t1\n", (8, 1, 2)),
    ("4294967297, 1 in 32 bits", b"a\t4294967297\t1\t1\n", (8, 1, 2)),
    ("4294967306 as D, 10 in 32 bits", b"a\t10\t4294967306\t1\n", (8, 1, 3)),
    ("65537, 1 in 16 bits, above D", b"a\t10\t10\t65537\n", (10, 1, 0)),
    ("4294967296, 0 in 32 bits", b"a\t4294967296\t1\t1\n", (8, 1, 2)),
    ("18446744073709551617, 1 in 64 bits", b"a\t18446744073709551617\t1\t1\n", (8, 1, 2)),
    ("18446744073709551617 as C", b"a\t10\t10\t18446744073709551617\n", (8, 1, 4)),
    ("18446744073709551616, 0 in 64 bits", b"a\t18446744073709551616\t1\t1\n", (8, 1, 2)),
    ("18446744073709551615, the most in 64 bits", b"a\t18446744073709551615\t1\t1\n", (8, 1, 2)),
    ("18446744073710551616, 1000000 in 64 bits", b"a\t18446744073710551616\t1\t1\n", (8, 1, 2)),
    ("99999999999999999999, twenty digits", b"a\t99999999999999999999\t1\t1\n", (8, 1, 2)),
    ("twenty digits that begin with zeros", b"a\t00000000000000000010\t10\t1\n", (8, 1, 2)),
    ("340282366920938463463374607431768211457, 1 in 128 bits", b"a\t340282366920938463463374607431768211457\t1\t1\n", (8, 1, 2)),
    ("twenty digits as S", b"a\t10\t10\t1\t18446744073709551617\t1\n", (8, 1, 5)),
    ("a carriage return in every line", b"a\t10\t10\t1\r\nb\t10\t10\t1\r\n", (8, 1, 4)),
    ("a carriage return in the second line", b"a\t10\t10\t1\nb\t10\t10\t1\r\n", (8, 2, 4)),
    ("a carriage return after 6 fields", b"a\t10\t10\t1\t1\t1\r\n", (8, 1, 6)),
    ("a carriage return after 8 fields", b"a\t10\t10\t1\t1\t1\t1\t1\r\n", (8, 1, 8)),
    ("a carriage return after 10 fields", b"a\t10\t10\t1\t1\t1\t1\t1\t1\t1\r\n", (8, 1, 10)),
    ("the leftmost of two bad numbers", b"a\t10\tx\ty\n", (8, 1, 3)),
    ("the leftmost of three bad numbers", b"a\t0\t0\t0\n", (8, 1, 2)),
    ("8 at field 4 before 9", b"a\t10\t11\t0\n", (8, 1, 4)),
    ("8 before 9, where T is bad", b"a\tx\t11\t1\n", (8, 1, 2)),
    ("8 before 10", b"a\t10\t10\t11\t0\t1\n", (8, 1, 5)),
    ("8 at the last field before 9 and 10", b"a\t10\t11\t12\t1\tx\n", (8, 1, 6)),
    ("8 before 11", b"a\t10\t10\t1\na\t10\t10\tx\n", (8, 2, 4)),
    // 9: only where all numbers are right.
    ("D = T", b"a\t10\t10\t1\n", READ),
    ("D one above T", b"a\t10\t11\t1\n", (9, 1, 3)),
    ("D above T at the top", b"a\t999999\t1000000\t1\n", (9, 1, 3)),
    ("D above T at the bottom", b"a\t1\t2\t1\n", (9, 1, 3)),
    ("D far above T, more digits", b"a\t9\t10\t1\n", (9, 1, 3)),
    ("9 before 10", b"a\t10\t11\t12\n", (9, 1, 3)),
    ("9 before 10 in a waiting row", b"a\t10\t11\t5\t5\t5\n", (9, 1, 3)),
    ("9 before 11", b"a\t10\t10\t1\na\t10\t11\t1\n", (9, 2, 3)),
    ("9 at the second line", b"a\t10\t10\t1\nb\t10\t11\t1\n", (9, 2, 3)),
    // 10: the sum of all C and S.
    ("C = D", b"a\t10\t5\t5\n", READ),
    ("C one above D", b"a\t10\t5\t6\n", (10, 1, 0)),
    ("C above D, C = T", b"a\t10\t5\t10\n", (10, 1, 0)),
    ("C above D at the bottom", b"a\t1\t1\t2\n", (10, 1, 0)),
    ("C above D at the top", b"a\t1000000\t999999\t1000000\n", (10, 1, 0)),
    ("sum of 3 times = D", b"a\t10\t10\t3\t4\t3\n", READ),
    ("sum of 3 times one above D", b"a\t10\t10\t3\t4\t4\n", (10, 1, 0)),
    ("sum of 5 times = D", b"a\t10\t10\t2\t2\t2\t2\t2\n", READ),
    ("sum of 5 times one above D", b"a\t10\t10\t2\t2\t3\t2\t2\n", (10, 1, 0)),
    ("sum of 7 times = D", b"a\t7\t7\t1\t1\t1\t1\t1\t1\t1\n", READ),
    ("sum of 7 times one above D", b"a\t7\t7\t1\t1\t1\t1\t1\t2\t1\n", (10, 1, 0)),
    ("sum of 7 times = 1000000", b"a\t1000000\t1000000\t1\t1\t1\t1\t1\t1\t999994\n", READ),
    ("sum of 7 times = 1000001", b"a\t1000000\t1000000\t1\t1\t1\t1\t1\t1\t999995\n", (10, 1, 0)),
    ("sum of 7 times of 1000000", b"a\t1000000\t1000000\t1000000\t1000000\t1000000\t1000000\t1000000\t1000000\t1000000\n", (10, 1, 0)),
    ("the C alone within D, the S alone above", b"a\t10\t10\t1\t11\t1\n", (10, 1, 0)),
    ("the sum within T and above D", b"a\t20\t10\t4\t4\t4\n", (10, 1, 0)),
    ("10 even for a name seen before", b"a\t10\t10\t1\na\t10\t10\t11\n", (10, 2, 0)),
    ("10 in a waiting row of a name seen before", b"a\t10\t10\t1\na\t10\t10\t4\t4\t4\n", (10, 2, 0)),
    ("10 at the second line", b"a\t10\t10\t1\nb\t10\t10\t11\n", (10, 2, 0)),
    // 11: the whole name, of any earlier row.
    ("a name twice", b"a\t10\t10\t1\na\t10\t10\t1\n", (11, 2, 1)),
    ("a name twice, other numbers", b"a\t10\t10\t1\na\t20\t15\t2\n", (11, 2, 1)),
    ("a name twice, the second waits", b"a\t10\t10\t1\na\t10\t10\t1\t1\t1\n", (11, 2, 1)),
    ("the first name once more, with a row between", b"a\t9\t9\t1\nb\t9\t9\t1\na\t9\t9\t1\n", (11, 3, 1)),
    ("the second name once more at once", b"a\t9\t9\t1\nb\t9\t9\t1\nb\t9\t9\t1\n", (11, 3, 1)),
    ("a name of 12 bytes twice", b"abcdefghijkl\t9\t9\t1\nabcdefghijkl\t9\t9\t1\n", (11, 2, 1)),
    ("names that differ in the twelfth byte", b"abcdefghijkl\t9\t9\t1\nabcdefghijkm\t9\t9\t1\n", READ),
    ("names that differ in the first byte", b"abcdefghijkl\t9\t9\t1\nbbcdefghijkl\t9\t9\t1\n", READ),
    ("a name that begins another", b"a\t9\t9\t1\nab\t9\t9\t1\n", READ),
    ("a name that another begins", b"ab\t9\t9\t1\na\t9\t9\t1\n", READ),
    ("hyphens of two lengths", b"-\t9\t9\t1\n--\t9\t9\t1\n", READ),
    ("a hyphen twice", b"-\t9\t9\t1\n-\t9\t9\t1\n", (11, 2, 1)),
    ("0 and 00 are two names", b"0\t9\t9\t1\n00\t9\t9\t1\n", READ),
    ("rows alike but for the name", b"a\t9\t9\t1\nb\t9\t9\t1\n", READ),
    // The first bad line ends the reading, however early the number of a
    // later one.
    ("11 at line 2 before 6 at line 3", b"a\t9\t9\t1\na\t9\t9\t1\n\n", (11, 2, 1)),
    ("8 at line 1 before 6 at line 2", b"a\t9\t9\tx\n\n", (8, 1, 4)),
    ("10 at line 1 before 7 at line 2", b"a\t9\t9\t10\nA\t9\t9\t1\n", (10, 1, 0)),
    ("9 at line 2 before 7 at line 3", b"a\t9\t9\t1\nb\t9\t10\t1\nC\t9\t9\t1\n", (9, 2, 3)),
    ("7 at line 2 before 6 at line 3", b"a\t9\t9\t1\nB\t9\t9\t1\nc\n", (7, 2, 1)),
];

/// That many right rows, named r1, r2 .., and then the bytes.
fn after(rows: usize, rest: &[u8]) -> Vec<u8> {
    let mut text = Vec::new();
    for number in 1..=rows {
        text.extend_from_slice(format!("r{number}\t1000\t1000\t1\n").as_bytes());
    }
    text.extend_from_slice(rest);
    text
}

/// The bytes followed by as many of one byte as make the length.
fn padded(mut text: Vec<u8>, byte: u8, length: usize) -> Vec<u8> {
    text.resize(length, byte);
    text
}

fn ended(mut text: Vec<u8>) -> Vec<u8> {
    text.push(b'\n');
    text
}

/// The texts about the limits on rows and bytes, which are too long to be
/// written out byte by byte.
fn built_texts() -> Vec<(&'static str, Vec<u8>, Answer)> {
    let waiting: &[u8] = b"wait\t1000\t1000\t1\t1\t1\n";
    let longest: &[u8] =
        b"aaaaaaaaaaaa\t1000000\t1000000\t1000000\t1000000\t1000000\t1000000\t1000000\t1000000\t1000000\n";
    vec![
        // 4: the 17th line, whatever it holds.
        ("15 rows", after(15, b""), READ),
        ("16 rows", after(16, b""), READ),
        ("17 rows", after(17, b""), (4, 17, 0)),
        ("18 rows", after(18, b""), (4, 17, 0)),
        ("an empty 17th line", after(16, b"\n"), (4, 17, 0)),
        ("a 17th line of one tab", after(16, b"\t\n"), (4, 17, 0)),
        ("a bad 17th line", after(16, b"A\t0\n"), (4, 17, 0)),
        ("a 17th line with a name seen before", after(16, b"r1\t1000\t1000\t1\n"), (4, 17, 0)),
        ("many empty lines after 16 rows", after(16, b"\n\n\n\n"), (4, 17, 0)),
        ("16 rows, the last waits", after(15, waiting), READ),
        ("a 17th line after a waiting 16th row", after(15, b"wait\t9\t9\t1\t1\t1\nb\t9\t9\t1\n"), (4, 17, 0)),
        ("an empty 17th line after a waiting 16th row", after(15, b"wait\t9\t9\t1\t1\t1\n\n"), (4, 17, 0)),
        ("a 17th line with no line feed", after(16, b"x"), (3, 0, 0)),
        ("17 rows, the last line feed missing", after(16, b"x\t9\t9\t1"), (3, 0, 0)),
        ("16 rows, the last line feed missing", after(15, b"x\t9\t9\t1"), (3, 0, 0)),
        ("a bad 16th line before the 17th", after(15, b"\n\n"), (6, 16, 0)),
        ("a 16th row with a name seen before, before the 17th", after(15, b"r15\t9\t9\t1\nx\t9\t9\t1\n"), (11, 16, 1)),
        ("16 empty lines", vec![b'\n'; 16], (6, 1, 0)),
        ("17 empty lines", vec![b'\n'; 17], (6, 1, 0)),
        // 5 at the last lines it can be at.
        ("a 16th row after a waiting 15th", after(14, b"wait\t9\t9\t1\t1\t1\nb\t9\t9\t1\n"), (5, 16, 0)),
        ("an empty 16th line after a waiting 15th row", after(14, b"wait\t9\t9\t1\t1\t1\n\n"), (5, 16, 0)),
        ("two lines after a waiting 15th row", after(14, b"wait\t9\t9\t1\t1\t1\nb\t9\t9\t1\nc\t9\t9\t1\n"), (5, 16, 0)),
        // 11 far apart.
        ("the name of row 1 at line 16", after(15, b"r1\t9\t9\t1\n"), (11, 16, 1)),
        ("the name of row 15 at line 16", after(15, b"r15\t9\t9\t1\n"), (11, 16, 1)),
        ("the name of row 8 at line 16, waiting", after(15, b"r8\t9\t9\t1\t1\t1\n"), (11, 16, 1)),
        ("10 at line 16 even for a name seen before", after(15, b"r1\t9\t9\t10\n"), (10, 16, 0)),
        // 2: over 1,360 bytes, before 3 and before any line. A right text is
        // far shorter, so one of 1,360 bytes is refused by another rule.
        ("1,359 bytes, one field", ended(vec![b'a'; 1_358]), (6, 1, 0)),
        ("1,360 bytes, one field", ended(vec![b'a'; 1_359]), (6, 1, 0)),
        ("1,361 bytes, one field", ended(vec![b'a'; 1_360]), (2, 0, 0)),
        ("1,362 bytes, one field", ended(vec![b'a'; 1_361]), (2, 0, 0)),
        ("1,360 bytes, no last line feed", vec![b'a'; 1_360], (3, 0, 0)),
        ("1,361 bytes, no last line feed", vec![b'a'; 1_361], (2, 0, 0)),
        ("1,360 line feeds", vec![b'\n'; 1_360], (6, 1, 0)),
        ("1,361 line feeds", vec![b'\n'; 1_361], (2, 0, 0)),
        ("1,360 zero bytes", vec![0; 1_360], (3, 0, 0)),
        ("1,361 zero bytes", vec![0; 1_361], (2, 0, 0)),
        ("16 longest lines, 1,360 bytes", longest.repeat(16), (10, 1, 0)),
        ("16 longest lines and a line feed, 1,361 bytes", ended(longest.repeat(16)), (2, 0, 0)),
        ("17 longest lines", longest.repeat(17), (2, 0, 0)),
        ("16 rows and line feeds up to 1,360 bytes", padded(after(16, b""), b'\n', 1_360), (4, 17, 0)),
        ("16 rows and line feeds up to 1,361 bytes", padded(after(16, b""), b'\n', 1_361), (2, 0, 0)),
        ("15 rows and a long name up to 1,360 bytes", long_name_at_16(1_360), (7, 16, 1)),
        ("15 rows and a long name up to 1,361 bytes", long_name_at_16(1_361), (2, 0, 0)),
        ("one row and tabs up to 1,360 bytes", ended(padded(after(1, b""), b'\t', 1_359)), (6, 2, 0)),
        ("one row and tabs up to 1,361 bytes", ended(padded(after(1, b""), b'\t', 1_360)), (2, 0, 0)),
        ("a number of 1,350 digits", ended(padded(b"a\t10\t10\t".to_vec(), b'1', 1_358)), (8, 1, 4)),
        ("a right text and zero bytes up to 1,361", padded(after(2, b""), 0, 1_361), (2, 0, 0)),
        ("5,000 bytes", vec![b'a'; 5_000], (2, 0, 0)),
        ("5,000 bytes of right rows", padded(after(200, b""), b'\n', 5_000), (2, 0, 0)),
        ("the longest right text, 633 bytes", longest_right_text(), READ),
    ]
}

/// 15 right rows, then a row whose name fills the text up to the length.
fn long_name_at_16(length: usize) -> Vec<u8> {
    let tail: &[u8] = b"\t9\t9\t1\n";
    let mut text = padded(after(15, b""), b'a', length - tail.len());
    text.extend_from_slice(tail);
    text
}

/// 15 lines of 37 bytes and one of 78: seven times of six digits are the most
/// bytes that times adding up to 1,000,000 can have.
fn longest_right_text() -> Vec<u8> {
    let mut text = Vec::new();
    for number in 10..25 {
        let line = format!("abcdefghij{number}\t1000000\t1000000\t1000000\n");
        text.extend_from_slice(line.as_bytes());
    }
    text.extend_from_slice(b"abcdefghij25\t1000000\t1000000");
    text.extend_from_slice(&b"\t100000".repeat(7));
    ended(text)
}

/// A bad line, and the number and field it has at every line.
type BadLine = (&'static str, &'static [u8], u32, usize);

const BAD_LINES: &[BadLine] = &[
    ("empty line", b"\n", 6, 0),
    ("1 field", b"bad\n", 6, 0),
    ("3 fields", b"bad\t10\t10\n", 6, 0),
    ("5 fields", b"bad\t10\t10\t1\t1\n", 6, 0),
    ("11 fields", b"bad\t10\t10\t1\t1\t1\t1\t1\t1\t1\t1\n", 6, 0),
    ("upper case", b"Bad\t10\t10\t1\n", 7, 1),
    ("no name", b"\t10\t10\t1\n", 7, 1),
    ("13 bytes", b"abcdefghijklm\t10\t10\t1\n", 7, 1),
    ("T", b"bad\t0\t10\t1\n", 8, 2),
    ("D", b"bad\t10\t0\t1\n", 8, 3),
    ("C", b"bad\t10\t10\t0\n", 8, 4),
    ("T of a waiting row", b"bad\t0\t10\t1\t1\t1\t1\t1\t1\t1\n", 8, 2),
    ("D of a waiting row", b"bad\t10\t0\t1\t1\t1\t1\t1\t1\t1\n", 8, 3),
    ("C1", b"bad\t10\t10\t0\t1\t1\t1\t1\t1\t1\n", 8, 4),
    ("S1", b"bad\t10\t10\t1\t0\t1\t1\t1\t1\t1\n", 8, 5),
    ("C2", b"bad\t10\t10\t1\t1\t0\t1\t1\t1\t1\n", 8, 6),
    ("S2", b"bad\t10\t10\t1\t1\t1\t0\t1\t1\t1\n", 8, 7),
    ("C3", b"bad\t10\t10\t1\t1\t1\t1\t0\t1\t1\n", 8, 8),
    ("S3", b"bad\t10\t10\t1\t1\t1\t1\t1\t0\t1\n", 8, 9),
    ("C4", b"bad\t10\t10\t1\t1\t1\t1\t1\t1\t0\n", 8, 10),
    ("D above T", b"bad\t10\t11\t1\n", 9, 3),
    ("D above T of a waiting row", b"bad\t10\t11\t1\t1\t1\n", 9, 3),
    ("C above D", b"bad\t10\t10\t11\n", 10, 0),
    ("sum above D", b"bad\t10\t10\t4\t4\t3\n", 10, 0),
];

/// Each bad line at each of the 16 lines, below right rows.
fn every_place() -> Vec<TextCase> {
    let mut cases = Vec::new();
    for &(why, bytes, number, field) in BAD_LINES {
        for line in 1..=16 {
            cases.push(TextCase {
                why: format!("{why} at line {line}"),
                text: after(line - 1, bytes),
                expected: (number, line, field),
            });
        }
    }
    cases
}

/// 5 and 11 at each line from the second on.
fn every_later_line() -> Vec<TextCase> {
    let mut cases = Vec::new();
    for line in 2..=16 {
        cases.push(TextCase {
            why: format!("the first name again at line {line}"),
            text: after(line - 1, b"r1\t10\t10\t1\n"),
            expected: (11, line, 1),
        });
        cases.push(TextCase {
            why: format!("line {line} after a waiting row"),
            text: after(line - 2, b"wait\t9\t9\t1\t1\t1\nlast\t9\t9\t1\n"),
            expected: (5, line, 0),
        });
    }
    cases
}

/// All texts made by hand.
pub fn text_cases() -> Vec<TextCase> {
    let mut cases: Vec<TextCase> = Vec::new();
    for &(why, text, expected) in PAPER_TEXTS.iter().chain(FIXED_TEXTS) {
        cases.push(TextCase { why: why.to_string(), text: text.to_vec(), expected });
    }
    for (why, text, expected) in built_texts() {
        cases.push(TextCase { why: why.to_string(), text, expected });
    }
    cases.extend(every_place());
    cases.extend(every_later_line());
    cases
}

/// Further tables for the figures, as rows without names.
const FURTHER_TABLES: &[&[PaperRow]] = &[
    // The least numbers, and load of exactly one and above.
    &[(1, 1, &[1]), (1, 1, &[1])],
    &[(2, 1, &[1])],
    &[(2, 2, &[1]), (2, 2, &[1])],
    &[(2, 1, &[1]), (2, 2, &[1]), (2, 2, &[1])],
    &[(2, 2, &[1]), (3, 3, &[1]), (6, 6, &[1])],
    &[(2, 2, &[1]), (3, 3, &[1]), (7, 7, &[1])],
    &[(3, 3, &[2]), (3, 3, &[2]), (100, 100, &[1])],
    // The most numbers.
    &[(1_000_000, 1_000_000, &[1_000_000])],
    &[(1_000_000, 1_000_000, &[1_000_000]), (1_000_000, 1_000_000, &[1])],
    &[(1_000_000, 1_000_000, &[500_000]), (1_000_000, 1_000_000, &[500_000])],
    &[(1_000_000, 1_000_000, &[500_000]), (1_000_000, 1_000_000, &[500_001])],
    &[(999_999, 999_999, &[1]), (1_000_000, 1_000_000, &[999_998])],
    &[(999_999, 999_999, &[1]), (1_000_000, 1_000_000, &[999_999])],
    &[(1_000_000, 1_000_000, &[1, 999_998, 1])],
    &[(1_000_000, 1_000_000, &[142_857, 142_857, 142_857, 142_857, 142_857, 142_857, 142_858])],
    // A row's answer stands even where a row above misses.
    &[(10, 5, &[4]), (10, 5, &[4]), (40, 40, &[4])],
    &[(4, 4, &[3]), (8, 3, &[2]), (50, 50, &[1, 1, 1])],
    // Misses comes before open.
    &[(3, 3, &[2]), (5, 3, &[2]), (9, 9, &[1, 1, 1])],
    // Whole and split equal: nothing above, then with something above.
    &[(20, 20, &[3, 4, 5])],
    &[(20, 20, &[3, 2, 4, 1, 5, 1, 2])],
    &[(6, 6, &[1]), (60, 60, &[4, 4, 4])],
    // Split alone is a figure, whole alone, neither, and each stopping early.
    &[(10, 10, &[4]), (60, 34, &[3, 18, 3])],
    &[(10, 10, &[5]), (20, 20, &[1, 1, 1])],
    &[(10, 10, &[9]), (30, 30, &[2, 1, 2])],
    &[(10, 10, &[9]), (30, 30, &[4, 1, 1])],
    &[(10, 10, &[9]), (30, 30, &[1, 1, 4, 1, 1])],
    &[(5, 5, &[5]), (30, 30, &[1, 1, 1, 1, 1, 1, 1])],
    &[(7, 7, &[2]), (11, 11, &[3]), (200, 150, &[5, 9, 6, 8, 7, 7, 8])],
    &[(7, 7, &[2]), (11, 11, &[3]), (200, 70, &[5, 9, 6, 8, 7, 7, 8])],
    // A bound exactly at D and one above it.
    &[(5, 5, &[2]), (20, 14, &[2, 4, 2])],
    &[(5, 5, &[2]), (20, 12, &[2, 4, 2])],
    &[(5, 5, &[2]), (20, 11, &[2, 4, 2])],
    // Many rounds: D - C + 1 of them are met exactly.
    &[(1, 1, &[1]), (1_000, 1_000, &[1])],
    &[(1, 1, &[1]), (1_000, 1_000, &[10])],
    &[(1, 1, &[1]), (1_000, 1_000, &[1, 1, 1])],
    &[(2, 2, &[1]), (4, 4, &[1]), (8, 8, &[1]), (16, 16, &[1]), (32, 32, &[1]), (64, 64, &[1]), (128, 128, &[1])],
    // Sixteen rows.
    &[
        (10, 10, &[1]), (20, 20, &[1]), (30, 30, &[1]), (40, 40, &[1]),
        (50, 50, &[2]), (60, 60, &[2]), (70, 70, &[2]), (80, 80, &[2]),
        (90, 90, &[3]), (100, 100, &[3]), (110, 110, &[3]), (120, 120, &[3]),
        (130, 130, &[4]), (140, 140, &[4]), (150, 150, &[4]), (400, 300, &[5, 20, 6, 30, 7, 10, 8]),
    ],
    &[
        (16, 16, &[1]), (16, 16, &[1]), (16, 16, &[1]), (16, 16, &[1]),
        (16, 16, &[1]), (16, 16, &[1]), (16, 16, &[1]), (16, 16, &[1]),
        (16, 16, &[1]), (16, 16, &[1]), (16, 16, &[1]), (16, 16, &[1]),
        (16, 16, &[1]), (16, 16, &[1]), (16, 16, &[1]), (16, 16, &[1]),
    ],
    &[
        (1_000_000, 1_000_000, &[1_000_000]), (1_000_000, 1_000_000, &[1_000_000]),
        (1_000_000, 1_000_000, &[1_000_000]), (1_000_000, 1_000_000, &[1_000_000]),
        (1_000_000, 1_000_000, &[1_000_000]), (1_000_000, 1_000_000, &[1_000_000]),
        (1_000_000, 1_000_000, &[1_000_000]), (1_000_000, 1_000_000, &[1_000_000]),
        (1_000_000, 1_000_000, &[1_000_000]), (1_000_000, 1_000_000, &[1_000_000]),
        (1_000_000, 1_000_000, &[1_000_000]), (1_000_000, 1_000_000, &[1_000_000]),
        (1_000_000, 1_000_000, &[1_000_000]), (1_000_000, 1_000_000, &[1_000_000]),
        (1_000_000, 1_000_000, &[1_000_000]), (1_000_000, 1_000_000, &[1_000_000]),
    ],
    // The most rounds of one recurrence, a million; last, so that it is
    // easily left out where rounds are dear.
    &[(1, 1, &[1]), (1_000_000, 1_000_000, &[1])],
];

/// Every case that the paper works out, those about figures before those
/// about texts (Table A under its own names is among these), then the further
/// tables.
pub fn worked_cases() -> Vec<Vec<u8>> {
    let figures = WORKED_CASES.iter().map(|case| text_of_rows(case.rows));
    let texts = PAPER_TEXTS.iter().map(|&(_, text, _)| text.to_vec());
    let further = FURTHER_TABLES.iter().map(|rows| text_of_rows(rows));
    figures.chain(texts).chain(further).collect()
}

fn text_of_rows(rows: &[PaperRow]) -> Vec<u8> {
    let mut text = String::new();
    for (place, (t, d, times)) in rows.iter().enumerate() {
        text.push_str(&format!("r{}\t{t}\t{d}", place + 1));
        for time in *times {
            text.push_str(&format!("\t{time}"));
        }
        text.push('\n');
    }
    text.into_bytes()
}
