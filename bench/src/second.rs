//! The rules of the second program as a library, so that the plain Rust can be tested against them.

#[path = "../../second/src/choice.rs"]
pub mod choice;
#[path = "../../second/src/limits.rs"]
pub mod limits;
#[path = "../../second/src/power.rs"]
pub mod power;
#[path = "../../second/src/reading.rs"]
pub mod reading;
#[path = "../../second/src/refusal.rs"]
pub mod refusal;
#[path = "../../second/src/sweep.rs"]
pub mod sweep;
#[path = "../../second/src/watch.rs"]
pub mod watch;
