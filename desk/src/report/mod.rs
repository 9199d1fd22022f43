//! The report of a replayed day: a page with pictures and tables, or its figures as JSON or CSV.
//!
//! May use: words, library, profile, records, session, answers, files, replay.

mod chart;
mod drawn;
pub mod export;
pub mod figures;
mod made;
pub mod page;
mod pictures;
mod plot;
mod tables;
mod uses;
mod written;

pub use made::{Made, KIT, VERSION};
pub use written::{kind, of_files, of_name};
