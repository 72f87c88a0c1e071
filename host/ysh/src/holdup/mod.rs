//! The question of the capacitors: how long a box needs power after the supply drops, and what a time that is there has room for.

pub mod against;
pub mod asked;
pub mod boxes;
pub mod chart;
pub mod formulas;
pub mod given;
pub mod json;
pub mod limits;
pub mod page;
pub mod pairs;
pub mod plan;
pub mod reading;
pub mod report;
pub mod sheet;
pub mod supply;
pub mod text;
pub mod told;
pub mod units;
