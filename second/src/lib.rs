//! A second program for the card stepper, written from paper 01 and the landed orders of paper 02
//! alone, so that its answers can be compared with those of the proved one. Comments quote paper
//! 01, or an order by its number, or give a reason; R1, S24 and the like are the readings listed
//! in docs/DECISIONS.md.
#![forbid(unsafe_code)]

pub mod access;
pub mod check;
pub mod compute;
pub mod edges;
pub mod image;
pub mod judge;
pub mod layout;
pub mod machine;
pub mod memory;
pub mod number;
pub mod program;
pub mod read;
pub mod record;
pub mod rules;
pub mod run;
pub mod step;
pub mod waiting;
pub mod word;
