//! The parts of the comparison at scale that know nothing of the original: they are compiled once, also where the original is changed.

pub mod asked;
pub mod calls;
#[allow(dead_code)]
pub mod cases;
#[allow(dead_code)]
pub mod glue;
pub mod guard;
#[allow(dead_code)]
pub mod options;
#[allow(dead_code)]
pub mod texts;
