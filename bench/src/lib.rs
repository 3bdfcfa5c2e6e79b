//! What the programs share: the books and edits that are measured, the `lean`
//! version of the calls, medians, models of other methods, and charts.

pub mod books;
pub mod chart;
pub mod lean;
pub mod measure;
pub mod models;
pub mod workloads;
