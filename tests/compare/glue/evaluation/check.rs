//! In place of the file that the copy lacks: only the names that evaluation/mod.rs passes on.

pub struct Fleet;

pub fn check_solution(_: &Fleet) {}
