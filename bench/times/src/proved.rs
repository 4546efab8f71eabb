//! The proved library, by the functions that `crates/measure` exports.

use crate::side::Side;

unsafe extern "C" {
    fn measure_ticks(sheet: *const u8, sheet_len: usize, session: *const u8, session_len: usize, count: u32) -> u32;
    fn measure_heartbeats(
        sheet: *const u8,
        sheet_len: usize,
        session: *const u8,
        session_len: usize,
        bytes: *const u8,
        bytes_len: usize,
        count: u32,
    ) -> u32;
    fn measure_works(sheet: *const u8, sheet_len: usize, session: *const u8, session_len: usize, count: u32) -> u32;
    fn measure_readings(text: *const u8, text_len: usize, count: u32) -> u32;
    fn measure_report(
        sheet: *const u8,
        sheet_len: usize,
        session: *const u8,
        session_len: usize,
        out: *mut u8,
        out_len: usize,
    ) -> usize;
}

pub const PROVED: Side = Side { name: "proved", ticks, heartbeats, works, readings, report };

// Every call below hands over slices that live until it returns, and the library keeps none of them.

fn ticks(sheet: &[u8], session: &[u8], count: u32) -> u32 {
    unsafe { measure_ticks(sheet.as_ptr(), sheet.len(), session.as_ptr(), session.len(), count) }
}

fn heartbeats(sheet: &[u8], session: &[u8], bytes: &[u8], count: u32) -> u32 {
    unsafe {
        measure_heartbeats(
            sheet.as_ptr(),
            sheet.len(),
            session.as_ptr(),
            session.len(),
            bytes.as_ptr(),
            bytes.len(),
            count,
        )
    }
}

fn works(sheet: &[u8], session: &[u8], count: u32) -> u32 {
    unsafe { measure_works(sheet.as_ptr(), sheet.len(), session.as_ptr(), session.len(), count) }
}

fn readings(text: &[u8], count: u32) -> u32 {
    unsafe { measure_readings(text.as_ptr(), text.len(), count) }
}

fn report(sheet: &[u8], session: &[u8], out: &mut [u8]) -> usize {
    unsafe {
        measure_report(sheet.as_ptr(), sheet.len(), session.as_ptr(), session.len(), out.as_mut_ptr(), out.len())
    }
}
