//! Stored cases: certificates, calls and what each call must answer.

mod call;
mod change;
mod due;
mod expected;
mod folder;
mod run;
mod stored;
mod stream;

pub use expected::{expected, hash};
pub use run::{run, Outcome};
pub use stream::stream;
