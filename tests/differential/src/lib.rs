//! What the differential tests and the benchmark share: the library's C interface, schedules and checks.

pub mod answers;
pub mod blocks;
pub mod compare;
pub mod coverage;
pub mod guard;
pub mod histories;
pub mod library;
pub mod merges;
pub mod outside;
pub mod plan;
pub mod profiles;
pub mod random;
pub mod range_files;
pub mod ranges;
pub mod rng;
pub mod states;
pub mod seasons;
pub mod stop_files;
pub mod stops;
pub mod systematic;
pub mod ways;
