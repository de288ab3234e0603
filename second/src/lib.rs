//! Second checker of signal policy certificates (document 01 calls them papers).
//!
//! Every step takes the plainest way: images by all corners of a cell, successors by testing every cell.

pub mod amount;
pub mod cabinet;
pub mod cases;
pub mod certificate;
pub mod comparing;
pub mod conditions;
pub mod draw;
pub mod flow;
pub mod grid;
pub mod image;
pub mod judging;
pub mod listing;
pub mod poll;
pub mod reading;
pub mod report;
pub mod state;
pub mod text;

pub use cabinet::Cabinet;
pub use certificate::Certificate;
pub use comparing::{compare, Comparison};
pub use judging::judge;
pub use listing::listing;
pub use report::{Report, Verdict};
pub use state::State;
