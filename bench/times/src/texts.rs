//! The sheets and the sessions that are measured.

use std::fmt::Write;

use baseline::{Frame, Heard, Master, Sheet, Work};

const TYPE: u32 = 402;
const VENDOR: u32 = 77;
/// The most that a sheet can have; nobody is lost within so many ticks less one.
pub const HB: u32 = 65535;

/// A sheet of mandatory slaves at the nodes 2 and up, with so many sets on the whole.
pub fn sheet(slaves: usize, sets: usize) -> String {
    let mut text = format!(
        "own=1\nwait=1000\nboottime=0\ninhibit=0\nstartall=0\nresetall=0\nstopall=0\nslaves={slaves}\n"
    );
    for place in 0..slaves {
        let count = sets / slaves + usize::from(place < sets % slaves);
        text += &format!(
            "node={}\nmandatory=1\nkeep=0\ntype={TYPE}\nvendor={VENDOR}\nproduct=0\nrevision=0\nserial=0\nhb={HB}\nsets={count}\n",
            place + 2
        );
        for set in 0..count {
            text += &format!("index={}\nsub={set}\nsize=4\nvalue=4000000000\n", 8192 + set);
        }
    }
    text
}

/// A session on such a sheet in which all slaves have passed and are started, and nothing is due. The baseline runs along,
/// to say which request is to be answered next.
pub fn all_passed(sheet: &str) -> String {
    let sheet = Sheet::read(sheet.as_bytes()).expect("a right sheet");
    let nodes: Vec<u32> = sheet.slaves.iter().map(|slave| u32::from(slave.node)).collect();
    let mut run = Run { master: Master::new(sheet), session: String::new() };
    run.put_and_take();
    for node in &nodes {
        run.heard(0x700 + node, &[0]);
    }
    while let Some(request) = run.put_and_take() {
        run.heard(u32::from(request.id()) - 0x80, &answer(&request));
    }
    for node in &nodes {
        run.heard(0x700 + node, &[0x7F]);
    }
    while run.put_and_take().is_some() {}
    assert!(run.master.go(), "not all have passed");
    run.session
}

/// The answer to a request as the sheet wants it.
fn answer(request: &Frame) -> [u8; 8] {
    let &[first, low, high, sub, ..] = request.data() else { panic!("no request") };
    if first != 0x40 {
        return [0x60, low, high, sub, 0, 0, 0, 0];
    }
    let value = if (low, high) == (0x18, 0x10) { VENDOR } else { TYPE };
    let [a, b, c, d] = value.to_le_bytes();
    [0x43, low, high, sub, a, b, c, d]
}

struct Run {
    master: Master,
    session: String,
}

impl Run {
    fn heard(&mut self, id: u32, bytes: &[u8]) {
        assert_eq!(self.master.heard(id, bytes), Ok(Heard::Used));
        write!(self.session, "heard={id}").unwrap();
        for byte in bytes {
            write!(self.session, ",{byte}").unwrap();
        }
        self.session += "\n";
    }

    /// The frame that was due, if any.
    fn put_and_take(&mut self) -> Option<Frame> {
        self.session += "work=1\n";
        match self.master.work() {
            Ok(Work::Put) => {
                self.session += "take=1\n";
                self.master.take()
            }
            _ => None,
        }
    }
}
