//! A reference model of the confidential run: one sheet, two executions, or three on a sheet of form 2;
//! and of what makes a sheet's lines.
//!
//! The product is described in document 01 and in the notes of document 02. This package says the
//! same again in plain Rust, written for obvious correctness and not for speed, so that another
//! implementation can be compared with it.
//!
//! - [`model`] reads a sheet and runs it, in the order of the document's text.
//! - [`log`] makes `msg` lines out of the export of a belt log.
//! - [`blocks`] makes `do` lines out of a program with blocks, for Note 5, and [`block_run`] runs such
//!   a program as it stands.
//! - [`plain`] runs one execution alone, and says which programs are honest, for Note 4.
//! - [`record`] writes the record of a screen as a sheet, and reads a sheet into one, for Note 7.
//! - [`forms`] turns a sheet of form 1 into one of form 2, and back, for Note 9.
//! - [`generate`] makes random sheets of either form from a seed: accepted, damaged, noisy, with
//!   something of the other form, and pairs that differ only in the secrets of one owner or of both.
//!   [`generate::log`] makes random exports, [`generate::honest`] jobs whose programs are often honest,
//!   [`generate::blocks`] and [`generate::block_damage`] programs with blocks, [`generate::records`]
//!   records, [`generate::forms`] sheets that are to be turned into the other form.
//! - [`corners`] lists hand-written sheets with the text that the documents demand for each, those
//!   of Note 2 in [`corners::calls`], those of Note 3 in [`corners::clamps`], those of Note 4 in
//!   [`corners::honest`], those of Note 8 in [`corners::owners`]; [`corners::log`] has exports with
//!   their lines, [`corners::blocks`] programs with blocks and theirs, [`corners::records`] records
//!   with their sheets, [`corners::forms`] sheets with those of the other form. [`corners::bytes`]
//!   makes texts of sheets, exports and programs for Note 6.

pub mod block_run;
pub mod blocks;
pub mod corners;
pub mod forms;
pub mod generate;
pub mod log;
pub mod model;
pub mod plain;
pub mod record;

pub use model::{
    c_entry, in_column_of, in_secret_column, printed, read, run_sheet, Command, Form, Job, Level,
    Owner, Refusal, Secret, HIGH,
};
