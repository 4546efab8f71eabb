//! What is measured, on each side. Each function makes its own master, for nothing is kept between two of them.

/// Functions of a sheet's text, a session's text that is run first, and a count of calls that follow. They answer a number
/// that depends on what the calls answered.
pub struct Side {
    pub name: &'static str,
    /// As many as there were ticks if the lamp is green after them, else 0.
    pub ticks: fn(&[u8], &[u8], u32) -> u32,
    /// How many of the heartbeats with the given bytes, of the listed slaves in turn, were used.
    pub heartbeats: fn(&[u8], &[u8], &[u8], u32) -> u32,
    /// How many of the works found nothing due.
    pub works: fn(&[u8], &[u8], u32) -> u32,
    /// How many of so many readings of a sheet's text found no fault.
    pub readings: fn(&[u8], u32) -> u32,
    /// The length of what a session prints, of which as much is written as there is room for.
    pub report: fn(&[u8], &[u8], &mut [u8]) -> usize,
}
