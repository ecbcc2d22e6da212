//! The second program: the same paper, written a second time from the paper
//! alone, so that the answers of the two can be held against each other.
//! It shares no line with the first and favours the plainest way to say
//! each rule over any cleverness.

pub mod cases;
pub mod coverage;
pub mod draw;
pub mod figures;
pub mod report;
pub mod run;
pub mod run_cases;
pub mod stream;
pub mod table;
