//! The baseline, by the same functions as the proved library.

use baseline::session::{self, Call};
use baseline::{Heard, Master, Sheet, Work};

use crate::side::Side;

pub const PLAIN: Side = Side { name: "baseline", ticks, heartbeats, works, readings, report };

/// A master that has gone through a session. A refused sheet is the empty one.
fn after_session(sheet: &[u8], session: &[u8]) -> Master {
    let mut master = Master::new(Sheet::read(sheet).unwrap_or_else(|_| Sheet::empty()));
    for call in session.split(|&b| b == b'\n').filter_map(Call::read) {
        match call {
            Call::Heard(message) => {
                let _ = master.heard(message.id, message.data());
            }
            Call::Work(count) => {
                for _ in 0..count {
                    let _ = master.work();
                }
            }
            Call::Take(count) => {
                for _ in 0..count {
                    master.take();
                }
            }
            Call::Tick(count) => {
                for _ in 0..count {
                    master.tick();
                }
            }
        }
    }
    master
}

#[inline(never)]
fn ticks(sheet: &[u8], session: &[u8], count: u32) -> u32 {
    let mut master = after_session(sheet, session);
    for _ in 0..count {
        master.tick();
    }
    if master.go() {
        count
    } else {
        0
    }
}

#[inline(never)]
fn heartbeats(sheet: &[u8], session: &[u8], bytes: &[u8], count: u32) -> u32 {
    let mut master = after_session(sheet, session);
    let mut used = 0;
    let mut place = 0;
    for _ in 0..count {
        let Some(slave) = master.sheet().slaves.get(place) else {
            return used;
        };
        let id = 0x700 + u32::from(slave.node);
        if master.heard(id, bytes) == Ok(Heard::Used) {
            used += 1;
        }
        place += 1;
        if place >= master.sheet().slaves.len() {
            place = 0;
        }
    }
    used
}

#[inline(never)]
fn works(sheet: &[u8], session: &[u8], count: u32) -> u32 {
    let mut master = after_session(sheet, session);
    let mut idle = 0;
    for _ in 0..count {
        if master.work() == Ok(Work::NothingDue) {
            idle += 1;
        }
    }
    idle
}

#[inline(never)]
fn readings(text: &[u8], count: u32) -> u32 {
    let mut sheet = Sheet::empty();
    let mut read = 0;
    for _ in 0..count {
        match Sheet::read(text) {
            Ok(new) => {
                sheet = new;
                read += 1;
            }
            Err(_) => sheet = Sheet::empty(),
        }
    }
    std::hint::black_box(&sheet);
    read
}

#[inline(never)]
fn report(sheet: &[u8], session: &[u8], out: &mut [u8]) -> usize {
    let mut printed = Vec::new();
    if session::run(sheet, session, &mut printed).is_err() {
        return 0;
    }
    let n = printed.len().min(out.len());
    out[..n].copy_from_slice(&printed[..n]);
    printed.len()
}
