//! The node's nucleus, written from documents 01 and 02 and the project's readings of them, and not from its rules or code.
//!
//! * `numbers`   the document's fixed numbers and the refusals
//! * `event`     events as bytes, with the one table of facts; the pick
//! * `thread`    threads, messages, answers
//! * `node`      the tables and the step
//! * `tables`    the tables as plain numbers, and the table rules
//! * `dump`      the dump's writer and reader
//! * `fault`     what is at fault in bytes that are no dump, and where (refusals 15 to 19)
//! * `batch`     a batch of events in one call
//! * `lent`      step, batch, dump and load over lent plain tables (refusals 11, 12 and 14 to 19)
//! * `program`   the event program
//!
//! And what makes and compares inputs:
//!
//! * `random`    a small random source
//! * `generator` random events that look at the node's state
//! * `rubbish`   event files that look at nothing
//! * `rings`     rows and rings of threads that wait for each other
//! * `census`    what runs reach
//! * `valid`     random tables that meet the table rules, and their dumps; `long` those of nearly full tables
//! * `wrap`      nodes whose counts and beats are about to pass 2^32
//! * `damage`    damaged dumps; `breaks` those with one table rule broken, `spoil` those with a fault of one cause
//! * `verdicts`  what bytes were refused for, counted
//! * `compare`   the comparison of programs under test with this one
//! * `slips`     programs with one slip each, which it has to find
//! * `hex`       fields in hex

pub mod batch;
pub mod breaks;
pub mod census;
pub mod compare;
pub mod damage;
pub mod dump;
pub mod event;
pub mod fault;
pub mod generator;
pub mod hex;
pub mod lent;
pub mod long;
pub mod node;
pub mod numbers;
pub mod program;
pub mod random;
pub mod rings;
pub mod rubbish;
pub mod slips;
pub mod spoil;
pub mod tables;
pub mod thread;
pub mod valid;
pub mod verdicts;
pub mod wrap;

pub use dump::load;
pub use event::pick;
pub use fault::{Bad, Cause};
pub use node::{Decision, Node, Status};
pub use numbers::Refusal;
pub use tables::{Rule, Tables};
