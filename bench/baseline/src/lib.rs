//! The NMT master's start-up and error control in plain Rust.
//!
//! Written from the rules in words, as a second opinion and as a yardstick for speed. Nothing here is proved.

pub mod frame;
pub mod master;
pub mod port;
pub mod session;
pub mod sheet;

pub use frame::{Frame, Malformed};
pub use master::{Heard, Letter, Master, NoSuchNode, Refused, Work};
pub use port::Port;
pub use sheet::{Fault, Layer, Set, Sheet, Slave};
