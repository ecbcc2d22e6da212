//! The table on paper, reading it from a text and writing it back.
//!
//! A table is made here by reading or by the drawer only, so a table value
//! that breaks a rule (refusal 20) has no place in this program.

/// The most rows of a table.
pub const ROWS_MOST: usize = 16;
/// The most bytes of a name.
pub const NAME_MOST: usize = 12;
/// The greatest number a field may hold; the least is 1.
pub const NUMBER_MOST: u64 = 1_000_000;
/// The most stretches (computation times) of a row.
pub const STRETCHES_MOST: usize = 4;
/// The field counts a line may have.
pub const FIELD_COUNTS: [usize; STRETCHES_MOST] = [4, 6, 8, 10];
/// The most bytes of a text: sixteen lines of 85 bytes.
pub const TEXT_MOST: usize = 1_360;

const TAB: u8 = b'\t';
const LINE_FEED: u8 = b'\n';

/// One row: times are C1 S1 C2 S2 .., so their count is odd.
#[derive(Clone, Debug, PartialEq, Eq)]
pub struct Row {
    pub name: Vec<u8>,
    pub t: u64,
    pub d: u64,
    pub times: Vec<u64>,
}

impl Row {
    /// The computation times, in order.
    pub fn stretches(&self) -> impl Iterator<Item = u64> + '_ {
        self.times.iter().copied().step_by(2)
    }

    /// The suspension times, in order.
    pub fn suspensions(&self) -> impl Iterator<Item = u64> + '_ {
        self.times.iter().copied().skip(1).step_by(2)
    }

    /// All C and all S added up.
    pub fn sum(&self) -> u64 {
        self.times.iter().sum()
    }

    /// Whether the row has a suspension.
    pub fn waits(&self) -> bool {
        self.times.len() > 1
    }
}

/// The rows, highest priority first.
#[derive(Clone, Debug, PartialEq, Eq)]
pub struct Table {
    pub rows: Vec<Row>,
}

/// Why something was refused. Only the refusals of reading (1 to 11) have a
/// place, line and field; the others are a number alone.
#[derive(Clone, Copy, Debug, PartialEq, Eq)]
pub struct Refusal {
    pub number: u32,
    pub place: Option<(usize, usize)>,
}

impl Refusal {
    /// A refusal of reading.
    pub fn at(number: u32, line: usize, field: usize) -> Refusal {
        Refusal { number, place: Some((line, field)) }
    }

    /// A refusal that has no line and no field.
    pub fn alone(number: u32) -> Refusal {
        Refusal { number, place: None }
    }
}

/// Reads a text: the table, or the first refusal.
pub fn read(text: &[u8]) -> Result<Table, Refusal> {
    check_whole_text(text)?;
    // The last line feed ends the last line and begins no further one, so it
    // is taken off before splitting; an inner one does begin a line.
    let body = &text[..text.len() - 1];
    let mut rows: Vec<Row> = Vec::new();
    for (index, bytes) in body.split(|&byte| byte == LINE_FEED).enumerate() {
        let row = read_line(bytes, index + 1, &rows)?;
        rows.push(row);
    }
    Ok(Table { rows })
}

/// Refusals 1, 2 and 3 look at the text as a whole, before any line.
fn check_whole_text(text: &[u8]) -> Result<(), Refusal> {
    match text.last() {
        None => Err(Refusal::at(1, 0, 0)),
        Some(_) if text.len() > TEXT_MOST => Err(Refusal::at(2, 0, 0)),
        Some(&last) if last != LINE_FEED => Err(Refusal::at(3, 0, 0)),
        Some(_) => Ok(()),
    }
}

/// Refusals 4 to 11 of one line, strictly in that order.
fn read_line(bytes: &[u8], line: usize, earlier: &[Row]) -> Result<Row, Refusal> {
    if line > ROWS_MOST {
        return Err(Refusal::at(4, line, 0));
    }
    if earlier.last().is_some_and(Row::waits) {
        return Err(Refusal::at(5, line, 0));
    }
    let fields: Vec<&[u8]> = bytes.split(|&byte| byte == TAB).collect();
    if !FIELD_COUNTS.contains(&fields.len()) {
        return Err(Refusal::at(6, line, 0));
    }
    if !is_name(fields[0]) {
        return Err(Refusal::at(7, line, 1));
    }
    let numbers = read_numbers(&fields, line)?;
    let row = Row {
        name: fields[0].to_vec(),
        t: numbers[0],
        d: numbers[1],
        times: numbers[2..].to_vec(),
    };
    if row.d > row.t {
        return Err(Refusal::at(9, line, 3));
    }
    if row.sum() > row.d {
        return Err(Refusal::at(10, line, 0));
    }
    if earlier.iter().any(|other| other.name == row.name) {
        return Err(Refusal::at(11, line, 1));
    }
    Ok(row)
}

/// The fields from the second on, all of them numbers, left to right.
fn read_numbers(fields: &[&[u8]], line: usize) -> Result<Vec<u64>, Refusal> {
    let mut numbers = Vec::new();
    for (index, field) in fields.iter().enumerate().skip(1) {
        match read_number(field) {
            Some(number) => numbers.push(number),
            None => return Err(Refusal::at(8, line, index + 1)),
        }
    }
    Ok(numbers)
}

fn is_name(field: &[u8]) -> bool {
    (1..=NAME_MOST).contains(&field.len())
        && field.iter().all(|byte| matches!(byte, b'a'..=b'z' | b'0'..=b'9' | b'-'))
}

fn read_number(field: &[u8]) -> Option<u64> {
    // The first digit alone rules out the empty field, 0 and leading zeros.
    if !matches!(field.first(), Some(b'1'..=b'9')) {
        return None;
    }
    let mut value = 0;
    for byte in field {
        if !byte.is_ascii_digit() {
            return None;
        }
        value = value * 10 + u64::from(byte - b'0');
        // Leaving at once keeps twenty digits from wrapping round.
        if value > NUMBER_MOST {
            return None;
        }
    }
    Some(value)
}

/// Writes a table as its one text.
pub fn write(table: &Table) -> Vec<u8> {
    let mut text = Vec::new();
    for row in &table.rows {
        text.extend_from_slice(&row.name);
        for number in [row.t, row.d].iter().chain(&row.times) {
            text.push(TAB);
            text.extend_from_slice(number.to_string().as_bytes());
        }
        text.push(LINE_FEED);
    }
    text
}
