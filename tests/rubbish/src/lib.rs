//! Tables as a board lends them, good ones and rubbish, and the entries of the board's library.
//!
//! * `lent`      the room for the tables between guards, and the library's entries
//! * `layout`    what each word of it says
//! * `judge`     whether the words stand for tables that meet the table rules
//! * `kinds`     the kinds of tables that are lent
//! * `source`    tables that meet the rules; `plausible` numbers in their ranges; `rows` rows spoilt
//! * `events`    events for such tables
//! * `trial`     one room handed to every entry but the batch; `tally` what was met
//!
//! The batch has a program of its own, `batches`.

pub mod events;
pub mod judge;
pub mod kinds;
pub mod layout;
pub mod lent;
pub mod plausible;
pub mod rows;
pub mod source;
pub mod tally;
pub mod trial;
