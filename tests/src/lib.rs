// A scheduler written from documents 01 and 02 alone, plans to run it on, and the checks of it.

// The scheduler.
pub mod calls;
pub mod conditions;
pub mod explain;
pub mod placing;
pub mod plan;
pub mod reading;

// Plans made from a seed, and those of full size.
mod aim;
mod damage;
pub mod explain_files;
mod extremes;
pub mod full;
pub mod generator;
mod knots;
pub mod many_runs;
pub mod random;

// Checks.
pub mod cases;
pub mod check;
pub mod demand;
mod explain_check;
pub mod explain_tally;
mod faults;
mod second;
pub mod tally;

// The stored corpus, other programs, and what the programs' commands share.
pub mod commands;
pub mod compare;
pub mod corpus;
pub mod limits;
pub mod readings;
