//! Tests of the reference codec against docs/RULES.md and docs/DECISIONS.md.

mod addresses;
mod area_points;
mod block_points;
mod boundary;
mod common;
mod demands;
mod limits;
mod names;
mod params;
mod places;
mod places_given;
mod sheets;
mod states;
mod wrong_readings;
