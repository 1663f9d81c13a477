#![doc = include_str!("../README.md")]
#![no_std]
#![warn(missing_docs)]

mod border;
pub mod choice;
pub mod power;
pub mod readings;
mod refusal;
pub mod sweep;
pub mod watch;

pub use choice::{choose, Choice};
pub use readings::{Burst, Reading};
pub use refusal::Refusal;
pub use sweep::{Next, Sweep};
pub use watch::{Verdict, Watch};
