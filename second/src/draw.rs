//! The drawer: right tables and damaged texts from a seed. It uses whole
//! numbers only, so the same seed gives the same bytes on every machine; its
//! drawing order is part of that promise.

use crate::figures::{self, RowVerdict, Rounds};
use crate::run::TICKS_MOST;
use crate::stream;
use crate::table::{self, Row, Table, NAME_MOST, NUMBER_MOST, ROWS_MOST, TEXT_MOST};

/// The most rounds of one recurrence in a table drawn by default.
pub const CHEAP_ROUNDS: usize = 100_000;
/// With the option on, one text in this many is a very heavy table.
const VERY_HEAVY_EVERY: usize = 40;

/// Splitmix64.
pub struct Random {
    state: u64,
}

impl Random {
    pub fn new(seed: u64) -> Random {
        Random { state: seed }
    }

    pub fn draw(&mut self) -> u64 {
        self.state = self.state.wrapping_add(0x9e37_79b9_7f4a_7c15);
        let mut z = self.state;
        z = (z ^ (z >> 30)).wrapping_mul(0xbf58_476d_1ce4_e5b9);
        z = (z ^ (z >> 27)).wrapping_mul(0x94d0_49bb_1331_11eb);
        z ^ (z >> 31)
    }

    /// A number from 0 to one less than `count`, which isn't 0.
    pub fn below(&mut self, count: u64) -> u64 {
        self.draw() % count
    }

    /// A number from `least` to `most`, both included.
    pub fn between(&mut self, least: u64, most: u64) -> u64 {
        least + self.below(most - least + 1)
    }

    /// True once in `count` times.
    pub fn once_in(&mut self, count: u64) -> bool {
        self.below(count) == 0
    }

    /// A place in something of that length, which isn't 0.
    pub fn place(&mut self, length: usize) -> usize {
        self.below(length as u64) as usize
    }

    pub fn pick<T: Copy>(&mut self, list: &[T]) -> T {
        list[self.place(list.len())]
    }
}

/// How a table is loaded.
#[derive(Clone, Copy, Debug, PartialEq, Eq)]
pub enum Load {
    /// Well below what the processor can do.
    Light,
    /// Near to it, where fits and misses lie close together.
    Tight,
    /// Above it.
    Heavy,
    /// Small numbers, where windows and releases often end together.
    Small,
    /// The edges of every range.
    Edge,
}

const LOADS: [Load; 5] = [Load::Light, Load::Tight, Load::Heavy, Load::Small, Load::Edge];

// ---------------------------------------------------------------- right tables

/// A right table that is cheap to judge.
pub fn right_table(random: &mut Random) -> Table {
    loop {
        let load = random.pick(&LOADS);
        let rows = row_count(random);
        let stretches = if random.once_in(2) { 1 } else { random.between(2, 4) as usize };
        let table = table_of(random, load, rows, stretches);
        if is_cheap(&table) {
            return table;
        }
    }
}

/// Whether no recurrence of the table has more than `CHEAP_ROUNDS`.
pub fn is_cheap(table: &Table) -> bool {
    table.rows.iter().enumerate().all(|(place, row)| {
        let above = &table.rows[..place];
        std::iter::once(row.sum()).chain(row.stretches()).all(|own| {
            Rounds::new(above, own, row.d).take(CHEAP_ROUNDS + 1).count() <= CHEAP_ROUNDS
        })
    })
}

fn row_count(random: &mut Random) -> usize {
    match random.below(6) {
        0 => 1,
        1 => ROWS_MOST,
        _ => random.between(2, ROWS_MOST as u64 - 1) as usize,
    }
}

/// A table of that load, with that many rows, the last of so many stretches.
pub fn table_of(random: &mut Random, load: Load, rows: usize, stretches: usize) -> Table {
    let shape = draw_shape(random, load, rows);
    let mut drawn: Vec<Row> = Vec::new();
    for number in 1..=rows {
        let stretches = if number == rows { stretches } else { 1 };
        drawn.push(row_of(random, &shape, stretches));
    }
    // In the order of T more rows fit; the others keep any order.
    if !random.once_in(4) {
        drawn[..rows - 1].sort_by_key(|row| row.t);
    }
    for (row, name) in drawn.iter_mut().zip(names(random, rows)) {
        row.name = name;
    }
    Table { rows: drawn }
}

/// What the rows of one table have in common.
struct Shape {
    load: Load,
    rows: usize,
    /// Digits of T, give or take one.
    digits: u32,
    /// Whether D is often below T. Many rows with such a D hardly ever all
    /// fit, so most tables aren't strict.
    strict: bool,
}

fn draw_shape(random: &mut Random, load: Load, rows: usize) -> Shape {
    // Many rows with a T of one digit are always overloaded.
    let least_digits = if rows > 3 { 2 } else { 1 };
    let digits = random.between(least_digits, 6) as u32;
    Shape { load, rows, digits, strict: random.once_in(4) }
}

/// One row, still without its name.
fn row_of(random: &mut Random, shape: &Shape, stretches: usize) -> Row {
    if stretches > 1 && random.once_in(2) {
        return long_waiting_row(random, shape, stretches);
    }
    // So many stretches and the suspensions between take a tick each at least.
    let least = 2 * stretches as u64 - 1;
    let t = draw_t(random, shape).max(least);
    let sum = draw_sum(random, shape, t).clamp(least, t);
    let d = draw_d(random, shape, sum, t);
    Row { name: Vec::new(), t, d, times: parts(random, sum, 2 * stretches - 1) }
}

/// A row with a T above the others' and suspensions far longer than its
/// stretches: only there is split the lesser bound.
fn long_waiting_row(random: &mut Random, shape: &Shape, stretches: usize) -> Row {
    let least = 2 * stretches as u64 - 1;
    let t = (draw_t(random, shape) * random.between(2, 20)).clamp(least, NUMBER_MOST);
    let sum = (t * random.between(100, 900) / 1_000).max(least);
    let longest = (sum / (10 * stretches as u64)).max(1);
    let computing: Vec<u64> = (0..stretches).map(|_| random.between(1, longest)).collect();
    let waiting = parts(random, sum - computing.iter().sum::<u64>(), stretches - 1);
    let mut times = vec![computing[0]];
    for (suspension, stretch) in waiting.iter().zip(&computing[1..]) {
        times.extend([suspension, stretch]);
    }
    let d = draw_d(random, shape, sum, t);
    Row { name: Vec::new(), t, d, times }
}

fn draw_t(random: &mut Random, shape: &Shape) -> u64 {
    match shape.load {
        Load::Small => random.between(1, 30),
        Load::Edge => match random.below(8) {
            0 => 1,
            1 => 2,
            2 => NUMBER_MOST - 1,
            3 | 4 => NUMBER_MOST,
            5 => 10,
            _ => of_digits(random, 1 + shape.digits),
        },
        _ => {
            let extra = random.below(2) as u32;
            of_digits(random, shape.digits + extra)
        }
    }
}

/// A number of that many digits, 7 being the limit alone.
fn of_digits(random: &mut Random, digits: u32) -> u64 {
    let low = 10u64.pow(digits - 1);
    random.between(low, (low * 10 - 1).min(NUMBER_MOST))
}

/// All times of a row added up: its share of the table's load.
fn draw_sum(random: &mut Random, shape: &Shape, t: u64) -> u64 {
    let thousandths = match shape.load {
        Load::Light => 300,
        Load::Tight => 850,
        Load::Heavy => 1_500,
        Load::Small => random.pick(&[400, 800, 1_000, 1_200]),
        Load::Edge => return draw_edge_sum(random, shape.rows, t),
    };
    let share = (thousandths / shape.rows as u64).max(2);
    t * random.between(share / 2, share * 3 / 2) / 1_000
}

fn draw_edge_sum(random: &mut Random, rows: usize, t: u64) -> u64 {
    match random.below(6) {
        0 => t,
        1 => t - 1,
        2 => t / 2,
        3 => t / (rows as u64 + 1),
        _ => 1,
    }
}

fn draw_d(random: &mut Random, shape: &Shape, sum: u64, t: u64) -> u64 {
    if !shape.strict && !random.once_in(8) {
        return t;
    }
    match random.below(8) {
        0 => sum,
        1 => (sum + 1).min(t),
        2 | 3 => random.between(sum, t),
        _ => t,
    }
}

/// The sum cut into so many parts of one tick at least.
fn parts(random: &mut Random, sum: u64, count: usize) -> Vec<u64> {
    let mut rest = sum;
    let mut parts = Vec::new();
    for still in (1..count as u64).rev() {
        // `still` parts are to follow and need one tick each. Leaving them
        // their even share keeps one part from taking nearly all.
        let most = if random.once_in(4) { rest - still } else { (rest / still).min(rest - still) };
        let part = random.between(1, most.max(1));
        parts.push(part);
        rest -= part;
    }
    parts.push(rest);
    parts
}

// ----------------------------------------------------------------------- names

const NAME_BYTES: &[u8] = b"abcdefghijklmnopqrstuvwxyz0123456789-";
const WORDS: [&[u8]; 8] =
    [b"table", b"refused", b"fits", b"misses", b"open", b"late", b"-", b"0"];

#[derive(Clone, Copy)]
enum Naming {
    Numbered,
    Longest,
    Shortest,
    HyphensAndDigits,
    AnyLength,
    Words,
}

const NAMINGS: [Naming; 6] = [
    Naming::Numbered,
    Naming::Longest,
    Naming::Shortest,
    Naming::HyphensAndDigits,
    Naming::AnyLength,
    Naming::Words,
];

/// So many names, no two the same.
fn names(random: &mut Random, count: usize) -> Vec<Vec<u8>> {
    let naming = random.pick(&NAMINGS);
    let mut names: Vec<Vec<u8>> = Vec::new();
    while names.len() < count {
        let name = draw_name(random, naming, names.len() + 1);
        if !names.contains(&name) {
            names.push(name);
        }
    }
    names
}

fn draw_name(random: &mut Random, naming: Naming, number: usize) -> Vec<u8> {
    match naming {
        Naming::Numbered => format!("row-{number}").into_bytes(),
        Naming::Longest => name_from(random, NAME_BYTES, NAME_MOST),
        Naming::Shortest => name_from(random, NAME_BYTES, 1),
        Naming::HyphensAndDigits => {
            let length = 1 + random.place(NAME_MOST);
            name_from(random, b"--0189", length)
        }
        Naming::AnyLength => {
            let length = 1 + random.place(NAME_MOST);
            name_from(random, NAME_BYTES, length)
        }
        // There are fewer words than rows; a digit tells them apart.
        Naming::Words => {
            let mut name = random.pick(&WORDS).to_vec();
            if number > 4 {
                name.push(random.pick(b"0123456789"));
            }
            name
        }
    }
}

fn name_from(random: &mut Random, bytes: &[u8], length: usize) -> Vec<u8> {
    (0..length).map(|_| random.pick(bytes)).collect()
}

// ------------------------------------------------------------ very heavy tables

/// A table with up to a million rounds in one recurrence.
pub fn very_heavy_table(random: &mut Random) -> Table {
    let d = NUMBER_MOST - random.below(3);
    let full = |name: &[u8]| Row { name: name.to_vec(), t: 1, d: 1, times: vec![1] };
    let last = |times: Vec<u64>| Row { name: b"last".to_vec(), t: NUMBER_MOST, d, times };
    let rows = match random.below(4) {
        // Each round adds the row's own C alone, the slowest there is.
        0 => vec![full(b"full"), last(vec![1])],
        1 => vec![full(b"full"), last(vec![random.between(1, 4)])],
        2 => vec![full(b"full"), last(vec![1, 1, 1])],
        // Load of exactly one made of two rows.
        _ => vec![half(b"half-1"), half(b"half-2"), last(vec![random.between(1, 3)])],
    };
    Table { rows }
}

fn half(name: &[u8]) -> Row {
    Row { name: name.to_vec(), t: 2, d: 2, times: vec![1] }
}

// --------------------------------------------------------------- damaged texts

/// A text as lines of fields, so that one field can be damaged.
type Lines = Vec<Vec<Vec<u8>>>;

fn lines_of(table: &Table) -> Lines {
    table.rows.iter().map(fields_of).collect()
}

fn fields_of(row: &Row) -> Vec<Vec<u8>> {
    let numbers = [row.t, row.d].into_iter().chain(row.times.iter().copied());
    let numbers = numbers.map(|number| number.to_string().into_bytes());
    std::iter::once(row.name.clone()).chain(numbers).collect()
}

fn text_of(lines: &Lines) -> Vec<u8> {
    let mut text = Vec::new();
    for fields in lines {
        text.extend_from_slice(&fields.join(&b'\t'));
        text.push(b'\n');
    }
    text
}

/// A right text damaged: two times in three so that a rule of one of the
/// refusals 1 to 11 is broken, else by changing bytes blindly. By chance
/// another refusal comes first, or the text is right after all.
pub fn damaged_text(random: &mut Random) -> Vec<u8> {
    loop {
        let text = damage_once(random);
        // A changed digit may have left a right table that is dear to judge.
        if table::read(&text).map_or(true, |table| is_cheap(&table)) {
            return text;
        }
    }
}

fn damage_once(random: &mut Random) -> Vec<u8> {
    if random.once_in(3) {
        return damage_bytes(random);
    }
    match random.between(1, 11) {
        1 if random.once_in(4) => Vec::new(),
        2 => break_length(random),
        3 => break_last_byte(random),
        4 => break_row_limit(random),
        5 => break_waiting_last(random),
        6 => break_field_count(random),
        7 => break_name(random),
        9 => break_row(random, put_d_above_t),
        10 => break_row(random, put_sum_above_d),
        11 => break_distinct_names(random),
        // There is one empty text and a great many bad numbers.
        _ => break_number(random),
    }
}

fn break_length(random: &mut Random) -> Vec<u8> {
    let mut text = table::write(&right_table(random));
    let filler = random.pick(b"\na\t\0 9");
    let length = random.pick(&[TEXT_MOST, TEXT_MOST + 1, TEXT_MOST + 2, 2 * TEXT_MOST]);
    text.resize(length, filler);
    if random.once_in(2) {
        text[length - 1] = b'\n';
    }
    text
}

fn break_last_byte(random: &mut Random) -> Vec<u8> {
    let mut text = table::write(&right_table(random));
    match random.below(3) {
        0 => text.truncate(text.len() - 1),
        1 => text.push(random.pick(b"\ta1\r\0 ")),
        _ => text.truncate(1 + random.place(text.len())),
    }
    text
}

/// A line to put after the last one: empty, right or bad.
fn further_line(random: &mut Random, text: &mut Vec<u8>) {
    let lines: [&[u8]; 5] = [b"\n", b"more\t9\t9\t1\n", b"More\t0\n", b"\t\n", b"more\t9\t9\t1\t1\t1\n"];
    text.extend_from_slice(random.pick(&lines));
}

fn break_row_limit(random: &mut Random) -> Vec<u8> {
    let stretches = random.between(1, 4) as usize;
    let table = table_of(random, Load::Tight, ROWS_MOST, stretches);
    let mut text = table::write(&table);
    for _ in 0..random.between(1, 3) {
        further_line(random, &mut text);
    }
    text
}

fn break_waiting_last(random: &mut Random) -> Vec<u8> {
    let rows = random.between(1, ROWS_MOST as u64) as usize;
    let stretches = random.between(2, 4) as usize;
    let mut text = table::write(&table_of(random, Load::Tight, rows, stretches));
    further_line(random, &mut text);
    text
}

fn break_field_count(random: &mut Random) -> Vec<u8> {
    let mut lines = lines_of(&right_table(random));
    let fields = random_line(random, &mut lines);
    match random.below(5) {
        0 => fields.truncate(random.place(fields.len())),
        1 => {
            let place = random.place(fields.len());
            fields.remove(place);
        }
        2 => {
            let place = random.place(fields.len() + 1);
            fields.insert(place, Vec::new());
        }
        3 => fields.push(b"1".to_vec()),
        _ => fields.resize(random.pick(&[11, 12, 14]), b"1".to_vec()),
    }
    text_of(&lines)
}

fn random_line<'a>(random: &mut Random, lines: &'a mut Lines) -> &'a mut Vec<Vec<u8>> {
    let place = random.place(lines.len());
    &mut lines[place]
}

fn break_name(random: &mut Random) -> Vec<u8> {
    let mut lines = lines_of(&right_table(random));
    let name = &mut random_line(random, &mut lines)[0];
    match random.below(4) {
        0 => name.clear(),
        1 => name.resize(NAME_MOST + 1 + random.place(3), b'x'),
        _ => {
            let place = random.place(name.len());
            name[place] = random.pick(b"AZ_ ./:`{,@[\0\xff\r+\x7f");
        }
    }
    text_of(&lines)
}

const NO_NUMBERS: [&[u8]; 26] = [
    b"", b"0", b"07", b"00", b"1000001", b"9999999", b"10000000", b"-1", b"+1", b" 1", b"1 ", b"1\r",
    b"1.0", b"1e3", b"x", b"1x", b"1:", b"1/", b"\0", b"1\0", b"\xff", b"-",
    b"4294967297", b"18446744073709551617", b"18446744073709551616", b"99999999999999999999",
];

fn break_number(random: &mut Random) -> Vec<u8> {
    let mut lines = lines_of(&right_table(random));
    // Now and then a second bad field: only the leftmost of the first bad
    // line may be named.
    let count = if random.once_in(3) { 2 } else { 1 };
    for _ in 0..count {
        let fields = random_line(random, &mut lines);
        let place = 1 + random.place(fields.len() - 1);
        fields[place] = random.pick(&NO_NUMBERS).to_vec();
    }
    text_of(&lines)
}

fn break_row(random: &mut Random, damage: fn(&mut Random, &mut Row)) -> Vec<u8> {
    let mut table = right_table(random);
    let place = random.place(table.rows.len());
    damage(random, &mut table.rows[place]);
    table::write(&table)
}

fn put_d_above_t(random: &mut Random, row: &mut Row) {
    if row.t == NUMBER_MOST {
        row.t = NUMBER_MOST - 1;
        row.d = NUMBER_MOST;
    } else if random.once_in(2) {
        row.d = row.t + 1;
    } else {
        row.d = random.between(row.t + 1, NUMBER_MOST);
    }
}

fn put_sum_above_d(random: &mut Random, row: &mut Row) {
    let sum = row.sum();
    if sum > 1 && random.once_in(2) {
        row.d = sum - 1;
        return;
    }
    if !row.waits() && row.d == NUMBER_MOST {
        // No C can be above this D.
        row.d -= 1;
    }
    let place = random.place(row.times.len());
    row.times[place] += row.d + 1 - sum;
}

fn break_distinct_names(random: &mut Random) -> Vec<u8> {
    let rows = random.between(2, ROWS_MOST as u64) as usize;
    let stretches = random.between(1, 4) as usize;
    let mut table = table_of(random, Load::Light, rows, stretches);
    let later = 1 + random.place(rows - 1);
    let earlier = random.place(later);
    table.rows[later].name = table.rows[earlier].name.clone();
    table::write(&table)
}

/// One to three blind changes of bytes or lines.
fn damage_bytes(random: &mut Random) -> Vec<u8> {
    let mut text = table::write(&right_table(random));
    for _ in 0..random.between(1, 3) {
        change_once(random, &mut text);
    }
    text
}

fn any_byte(random: &mut Random) -> u8 {
    if random.once_in(4) {
        random.below(256) as u8
    } else {
        random.pick(b"\t\n\r \0\xff-+019aAz/:`{,._")
    }
}

fn change_once(random: &mut Random, text: &mut Vec<u8>) {
    if text.is_empty() {
        text.push(any_byte(random));
        return;
    }
    let place = random.place(text.len());
    match random.below(7) {
        0 => {
            text.remove(place);
        }
        1 => text.insert(place, any_byte(random)),
        2 => text[place] = any_byte(random),
        3 => {
            let other = (place + 1) % text.len();
            text.swap(place, other);
        }
        4 => {
            let other = random.place(text.len());
            text.swap(place, other);
        }
        5 => double_line(text, place),
        _ => text.truncate(place),
    }
}

/// Puts the line that the byte lies in a second time after itself.
fn double_line(text: &mut Vec<u8>, place: usize) {
    let start = text[..place].iter().rposition(|&byte| byte == b'\n').map_or(0, |at| at + 1);
    let end = text[place..].iter().position(|&byte| byte == b'\n').map_or(text.len(), |at| place + at + 1);
    let line = text[start..end].to_vec();
    text.splice(end..end, line);
}

// --------------------------------------------------------------------- streams

/// A stream of so many texts, about one third damaged. With `very_heavy` one
/// in forty, the first of all among them, is a very heavy table.
pub fn text_stream(seed: u64, count: usize, very_heavy: bool) -> Vec<u8> {
    let mut random = Random::new(seed);
    let mut out = Vec::new();
    for index in 0..count {
        let text = if very_heavy && index % VERY_HEAVY_EVERY == 0 {
            table::write(&very_heavy_table(&mut random))
        } else {
            drawn_text(&mut random)
        };
        stream::push_item(&mut out, &text);
    }
    out
}

fn drawn_text(random: &mut Random) -> Vec<u8> {
    if random.once_in(3) {
        damaged_text(random)
    } else {
        table::write(&right_table(random))
    }
}

/// So many damaged texts.
pub fn damaged_texts(seed: u64, count: usize) -> Vec<Vec<u8>> {
    let mut random = Random::new(seed);
    (0..count).map(|_| damaged_text(&mut random)).collect()
}

/// A stream of so many items for the full run.
pub fn run_stream(seed: u64, count: usize) -> Vec<u8> {
    let mut random = Random::new(seed);
    let mut out = Vec::new();
    for _ in 0..count {
        let item = if random.once_in(8) {
            let ticks = random.pick(&[0, 1, 100, 1_000_001]);
            stream::run_item(ticks, &damaged_text(&mut random))
        } else {
            let table = right_table(&mut random);
            let ticks = draw_ticks(&mut random, &table);
            stream::run_item(ticks, &table::write(&table))
        };
        stream::push_item(&mut out, &item);
    }
    out
}

/// Mostly the instants where something ends: a row's figure, one tick less,
/// its D or its T. Rarely long runs, none, and too long ones.
pub fn draw_ticks(random: &mut Random, table: &Table) -> u32 {
    let number = 1 + random.place(table.rows.len());
    let row = &table.rows[number - 1];
    let ticks = match random.below(16) {
        0 => 0,
        1 => random.pick(&[TICKS_MOST + 1, TICKS_MOST + 2, u64::from(u32::MAX)]),
        2 if random.once_in(2) => TICKS_MOST,
        2 => random.between(1, TICKS_MOST),
        3 => random.between(1, 64),
        4 => row.t,
        5 => row.d,
        6 => row.d - 1,
        7 => (row.d * 3).min(TICKS_MOST),
        drawn => match figures::row_figures(table, number).map(|figures| figures.verdict) {
            Some(RowVerdict::Fits { figure, .. }) if drawn % 2 == 0 => figure,
            Some(RowVerdict::Fits { figure, .. }) => figure - 1,
            _ => random.between(1, row.d),
        },
    };
    ticks as u32
}
