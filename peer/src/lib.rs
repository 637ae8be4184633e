//! A second implementation of document 01 with requests 1 to 8 of document 02: Byzantine agreement on a number of 1 to 8 bits
//! with two thresholds.
//!
//! It shares no code and no table with the crates, so that the two can be compared byte for byte.
//! Stations and rounds are numbered from 1, as in the document. T is called `upper`.

#![deny(unsafe_code)]

pub mod audit;
pub mod ballot;
#[cfg(feature = "verified")]
pub mod bench;
pub mod by_round;
pub mod check;
#[cfg(feature = "verified")]
pub mod compare;
pub mod draw;
pub mod exchange;
#[cfg(feature = "verified")]
pub mod ffi;
#[cfg(feature = "verified")]
pub mod fuzz;
pub mod generator;
pub mod line;
pub mod listing;
pub mod logs;
pub mod lot;
pub mod number;
pub mod offers;
pub mod outcome;
pub mod rehearsal;
pub mod runs;
pub mod sheet;
pub mod station;
pub mod text;
pub mod timing;
pub mod writer;
