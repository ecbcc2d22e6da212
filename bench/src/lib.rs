//! The two functions of the static library as safe functions of Rust.
//!
//! What they answer is proved; that they are called as they are to be called
//! is seen to here. `include/musselpath.h` says the same for C.

/// The most rows of a table: a buffer of so many elements has room for every run.
pub const ROWS: usize = 16;
/// A buffer of so many bytes has room for every report.
pub const REPORT: usize = 845;
/// Stands for the completion instant of a first job that is not complete.
pub const NOT_COMPLETE: u64 = u64::MAX;

// Nothing checks these two lines against the library: they are the header's.
extern "C" {
    fn musselpath_report(text: *const u8, text_len: u64, out: *mut u8, out_len: u64) -> u64;
    fn musselpath_full_run(text: *const u8, text_len: u64, ticks: u64, out: *mut u64, out_len: u64) -> u64;
}

/// Writes the report or the refused line of a text to the front of `out` and
/// gives its length; None where `out` is too short, and then it is unchanged.
pub fn report(text: &[u8], out: &mut [u8]) -> Option<usize> {
    // SAFETY: both pointers come from slices and are handed on with those
    // slices' own lengths, so they are not null and point to so many bytes.
    // `out` is borrowed for writing, so it doesn't overlap the text. The
    // function keeps neither pointer.
    let len = unsafe {
        musselpath_report(text.as_ptr(), text.len() as u64, out.as_mut_ptr(), out.len() as u64)
    };
    // No report has 0 bytes.
    (len > 0).then_some(len as usize)
}

/// Why a run was refused: the number, and for a bad text its line and its
/// field, from 1; 0 where there is none.
#[derive(Clone, Copy, Debug, PartialEq, Eq)]
pub struct Refusal {
    pub number: u16,
    pub line: u16,
    pub field: u32,
}

impl Refusal {
    /// Takes apart what the C function answered.
    fn of(answer: u64) -> Refusal {
        Refusal { number: answer as u16, line: (answer >> 16) as u16, field: (answer >> 32) as u32 }
    }
}

/// The full run into a lent buffer: the refusal, or the completion instants of
/// the rows, `NOT_COMPLETE` where there is none. What lies behind the last
/// row, and after a refusal all of it, is unchanged.
pub fn full_run_into(text: &[u8], ticks: u64, out: &mut [u64]) -> Result<(), Refusal> {
    // SAFETY: as above. The length beside `out` counts elements, as the
    // function takes it, and a slice of u64 is aligned for them.
    let answer = unsafe {
        musselpath_full_run(text.as_ptr(), text.len() as u64, ticks, out.as_mut_ptr(), out.len() as u64)
    };
    match answer {
        0 => Ok(()),
        refused => Err(Refusal::of(refused)),
    }
}

/// The full run: the completion instant of each row's first job, or the
/// refusal. Places behind the last row are None too.
pub fn full_run(text: &[u8], ticks: u64) -> Result<[Option<u64>; ROWS], Refusal> {
    let mut instants = [NOT_COMPLETE; ROWS];
    full_run_into(text, ticks, &mut instants)?;
    Ok(instants.map(|instant| (instant != NOT_COMPLETE).then_some(instant)))
}
