//! The kernel's rules, and the full run carried out by them tick by tick.
//!
//! `Machine` follows the rules with queues, for any legal run; `run` is the
//! full run on it. `run_fast` is the full run again, in place, with neither
//! queue nor allocation in a tick; tests hold the two equal.

use crate::table::{Refusal, Table, ROWS_MOST};
use std::collections::VecDeque;

/// The most ticks of a full run.
pub const TICKS_MOST: u64 = 1_000_000;

/// The completion instant of each row's first job, or None.
pub type FirstCompletions = Vec<Option<u64>>;

/// The job a row is serving. `left` begins with what is left of the stretch
/// under way, then the suspensions and stretches still to come.
struct Job {
    released: u32,
    left: VecDeque<u64>,
    ready_from: u64,
}

/// A job that is complete, and when.
#[derive(Clone, Copy, Debug, PartialEq, Eq)]
pub struct Completion {
    pub row: usize,
    pub released: u64,
    pub instant: u64,
}

/// The state between two ticks. Rows are counted from 0 here.
pub struct Machine {
    now: u64,
    /// Release instants of the jobs that are not started, oldest first. They
    /// are narrow because a late row may queue up a million of them.
    queues: Vec<VecDeque<u32>>,
    /// The job of each row that is started and not complete, if any. While it
    /// is there, suspended or not, the next job of the row stays in its queue.
    serving: Vec<Option<Job>>,
}

impl Machine {
    /// No job at instant 0.
    pub fn new(rows: usize) -> Machine {
        Machine {
            now: 0,
            queues: vec![VecDeque::new(); rows],
            serving: (0..rows).map(|_| None).collect(),
        }
    }

    pub fn now(&self) -> u64 {
        self.now
    }

    /// Releases a job of the row at the present instant.
    pub fn release(&mut self, row: usize) {
        let now = u32::try_from(self.now).expect("a run is far shorter than 2^32 ticks");
        self.queues[row].push_back(now);
    }

    /// One tick. `times` gives C1 S1 C2 .. as chosen for the next job of a row
    /// and is asked once for each job.
    pub fn tick(&mut self, times: &mut dyn FnMut(usize) -> Vec<u64>) -> Option<Completion> {
        self.start_jobs(times);
        let runner = self.highest_ready_row();
        let completion = runner.and_then(|row| self.serve(row));
        self.now += 1;
        completion
    }

    fn start_jobs(&mut self, times: &mut dyn FnMut(usize) -> Vec<u64>) {
        for row in 0..self.queues.len() {
            if self.serving[row].is_none() {
                if let Some(released) = self.queues[row].pop_front() {
                    let left = VecDeque::from(times(row));
                    self.serving[row] = Some(Job { released, left, ready_from: self.now });
                }
            }
        }
    }

    fn highest_ready_row(&self) -> Option<usize> {
        let ready = |job: &Option<Job>| job.as_ref().is_some_and(|job| job.ready_from <= self.now);
        self.serving.iter().position(ready)
    }

    /// Gives the present tick to the row's job.
    fn serve(&mut self, row: usize) -> Option<Completion> {
        let end = self.now + 1;
        let job = self.serving[row].as_mut()?;
        job.left[0] -= 1;
        if job.left[0] > 0 {
            return None;
        }
        job.left.pop_front();
        if let Some(suspension) = job.left.pop_front() {
            // It starts at the instant the stretch ends; one of 0 ticks
            // leaves the next stretch ready at that same instant.
            job.ready_from = end + suspension;
            return None;
        }
        let released = u64::from(job.released);
        self.serving[row] = None;
        Some(Completion { row, released, instant: end })
    }

    /// Release instants of the row's jobs that are not complete, oldest first.
    pub fn unfinished(&self, row: usize) -> impl Iterator<Item = u64> + '_ {
        let started = self.serving[row].iter().map(|job| job.released);
        started.chain(self.queues[row].iter().copied()).map(u64::from)
    }
}

fn check_ticks(ticks: u64) -> Result<(), Refusal> {
    if ticks > TICKS_MOST {
        return Err(Refusal::alone(23));
    }
    Ok(())
}

/// The full run: all rows released at 0 and every T, full times.
pub fn run(table: &Table, ticks: u64) -> Result<FirstCompletions, Refusal> {
    check_ticks(ticks)?;
    let mut first = vec![None; table.rows.len()];
    let mut machine = Machine::new(table.rows.len());
    let mut full_times = |row: usize| table.rows[row].times.clone();
    for now in 0..ticks {
        for (place, row) in table.rows.iter().enumerate() {
            if now % row.t == 0 {
                machine.release(place);
            }
        }
        if let Some(done) = machine.tick(&mut full_times) {
            // Jobs of a row complete in release order: the first one counts.
            first[done.row].get_or_insert(done.instant);
        }
    }
    Ok(first)
}

/// What the fast run keeps of a row. In the full run all jobs of a row are
/// alike, so the queue of late jobs is only a count.
#[derive(Clone, Copy, Default)]
struct Lane {
    t: u32,
    next_release: u32,
    unfinished: u32,
    ready_from: u32,
    /// Place in `times` of the stretch under way, always even.
    stretch: u8,
    last_stretch: u8,
    left: u32,
    times: [u32; 7],
    first: Option<u32>,
}

impl Lane {
    fn new(row: &crate::table::Row) -> Lane {
        let mut times = [0; 7];
        for (slot, &time) in times.iter_mut().zip(&row.times) {
            *slot = time as u32;
        }
        let last_stretch = (row.times.len() - 1) as u8;
        Lane { t: row.t as u32, left: times[0], last_stretch, times, ..Lane::default() }
    }

    #[inline]
    fn release(&mut self, now: u32) {
        if self.next_release == now {
            self.unfinished += 1;
            self.next_release = now + self.t;
        }
    }

    #[inline]
    fn ready(&self, now: u32) -> bool {
        self.unfinished > 0 && self.ready_from <= now
    }

    #[inline]
    fn serve(&mut self, now: u32) {
        self.left -= 1;
        if self.left == 0 {
            self.end_stretch(now + 1);
        }
    }

    fn end_stretch(&mut self, end: u32) {
        if self.stretch == self.last_stretch {
            self.first.get_or_insert(end);
            self.unfinished -= 1;
            self.stretch = 0;
        } else {
            self.ready_from = end + self.times[usize::from(self.stretch) + 1];
            self.stretch += 2;
        }
        self.left = self.times[usize::from(self.stretch)];
    }
}

/// The full run in place. It too goes through every tick it is asked for,
/// also after all first jobs are complete, so that its time is that of a
/// run tick by tick.
pub fn run_fast(table: &Table, ticks: u64) -> Result<FirstCompletions, Refusal> {
    check_ticks(ticks)?;
    let mut lanes = [Lane::default(); ROWS_MOST];
    let lanes = &mut lanes[..table.rows.len()];
    for (lane, row) in lanes.iter_mut().zip(&table.rows) {
        *lane = Lane::new(row);
    }
    for now in 0..ticks as u32 {
        tick_in_place(lanes, now);
    }
    Ok(lanes.iter().map(|lane| lane.first.map(u64::from)).collect())
}

#[inline]
fn tick_in_place(lanes: &mut [Lane], now: u32) {
    let mut runner = None;
    for (place, lane) in lanes.iter_mut().enumerate() {
        lane.release(now);
        if runner.is_none() && lane.ready(now) {
            runner = Some(place);
        }
    }
    if let Some(place) = runner {
        lanes[place].serve(now);
    }
}
