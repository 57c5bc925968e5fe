//! A second reader of document 01 and of the requests built on it, to compare the proved library with.
//!
//! It is written from the document alone and by another plan than the library: a message is cut into lines and groups
//! first, and judged then. The program is in `main.rs`; another program may use the parts as well.
#![allow(clippy::new_without_default, clippy::should_implement_trait)]

mod assess;
pub mod desk;
pub mod due;
pub mod edges;
pub mod generate;
mod isolation;
pub mod items;
#[cfg(feature = "library")]
mod judge;
#[cfg(feature = "library")]
// The file has a module of this name for its declarations.
#[allow(clippy::module_inception)]
#[path = "../../include/phengaryl.rs"]
mod library;
mod models;
mod observations;
mod places;
pub mod radio;
pub mod reader;
pub mod refused;
pub mod report;
pub mod row;
#[cfg(feature = "library")]
pub mod run;
pub mod season;
pub mod selfcheck;
#[cfg(feature = "library")]
mod structs;
pub mod test_run;
mod text;
