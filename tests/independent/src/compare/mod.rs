//! The comparison of programs under test with this one.
//!
//! * `subject`  a program under test, as a process
//! * `source`   event files, piece by piece
//! * `check`    one comparison
//! * `names`    the same threads under other names
//! * `shrink`   the shortest input that still shows a difference
//! * `report`   a difference in print
//! * `outcome`  cases passed and failed
//! * `plan`     what is compared: the fixed run, and the long one

pub mod check;
pub mod names;
pub mod outcome;
pub mod plan;
pub mod report;
pub mod shrink;
pub mod source;
pub mod subject;
