//! Runs a session's lines against a fresh master and prints what comes of them.

use std::io::{self, Write};

use crate::frame::{Frame, Malformed};
use crate::master::Master;
use crate::sheet::{number, Sheet};

/// A line of a session.
#[derive(Clone, Copy, Debug, PartialEq, Eq)]
pub enum Call {
    Heard(Message),
    Work(u32),
    Take(u32),
    Tick(u32),
}

/// A frame as the session has it; it need not be one. Of more than eight bytes the first nine are kept.
#[derive(Clone, Copy, Debug, PartialEq, Eq)]
pub struct Message {
    pub id: u32,
    bytes: [u8; 9],
    len: usize,
}

impl Message {
    pub fn data(&self) -> &[u8] {
        &self.bytes[..self.len]
    }

    fn read(text: &[u8]) -> Option<Message> {
        let mut fields = text.split(|&b| b == b',');
        let id = number(fields.next()?)?;
        let mut message = Message { id, bytes: [0; 9], len: 0 };
        for field in fields {
            let byte = u8::try_from(number(field)?).ok()?;
            if message.len < message.bytes.len() {
                message.bytes[message.len] = byte;
                message.len += 1;
            }
        }
        Some(message)
    }
}

impl Call {
    /// None for any other line.
    pub fn read(line: &[u8]) -> Option<Call> {
        let equals = line.iter().position(|&b| b == b'=')?;
        let value = &line[equals + 1..];
        match &line[..equals] {
            b"heard" => Message::read(value).map(Call::Heard),
            b"work" => number(value).map(Call::Work),
            b"take" => number(value).map(Call::Take),
            b"tick" => number(value).map(Call::Tick),
            _ => None,
        }
    }
}

/// Runs the session on the sheet. A refused sheet runs as the empty one.
pub fn run<W: Write>(sheet: &[u8], session: &[u8], out: &mut W) -> io::Result<()> {
    let sheet = match Sheet::read(sheet) {
        Ok(sheet) => sheet,
        Err(fault) => {
            refused(out, fault.number)?;
            Sheet::empty()
        }
    };
    let mut master = Master::new(sheet);
    for call in session.split(|&b| b == b'\n').filter_map(Call::read) {
        perform(&mut master, call, out)?;
    }
    report(&master, out)
}

fn perform<W: Write>(master: &mut Master, call: Call, out: &mut W) -> io::Result<()> {
    match call {
        Call::Heard(message) => {
            if master.heard(message.id, message.data()).is_err() {
                refused(out, Malformed::NUMBER)?;
            }
        }
        Call::Work(count) => {
            for _ in 0..count {
                if let Err(refusal) = master.work() {
                    refused(out, refusal.number())?;
                }
            }
        }
        Call::Take(count) => {
            for _ in 0..count {
                taken(out, master.take())?;
            }
        }
        Call::Tick(count) => {
            for _ in 0..count {
                master.tick();
            }
        }
    }
    Ok(())
}

fn refused<W: Write>(out: &mut W, number: u8) -> io::Result<()> {
    writeln!(out, "refused={number}")
}

fn taken<W: Write>(out: &mut W, frame: Option<Frame>) -> io::Result<()> {
    let Some(frame) = frame else {
        return out.write_all(b"out=none\n");
    };
    write!(out, "out={}", frame.id())?;
    for byte in frame.data() {
        write!(out, ",{byte}")?;
    }
    out.write_all(b"\n")
}

fn report<W: Write>(master: &Master, out: &mut W) -> io::Result<()> {
    writeln!(out, "go={}", u8::from(master.go()))?;
    writeln!(out, "halted={}", u8::from(master.halted()))?;
    for slave in &master.sheet().slaves {
        let result = master.result(slave.node).ok().flatten();
        writeln!(out, "slave={},{}", slave.node, result.map_or("none", |letter| letter.name()))?;
    }
    Ok(())
}

#[cfg(test)]
mod tests {
    use super::*;

    fn printed(sheet: &str, session: &str) -> String {
        let mut out = Vec::new();
        run(sheet.as_bytes(), session.as_bytes(), &mut out).unwrap();
        String::from_utf8(out).unwrap()
    }

    /// own=1, wait=100, and this slave at node 5 (or none).
    fn sheet(slave: Option<(u8, u8, u32, u16)>) -> String {
        let head = "own=1\nwait=100\nboottime=0\ninhibit=0\nstartall=0\nresetall=0\nstopall=0\n";
        let Some((mandatory, keep, device_type, hb)) = slave else {
            return format!("{head}slaves=0\n");
        };
        format!(
            "{head}slaves=1\nnode=5\nmandatory={mandatory}\nkeep={keep}\ntype={device_type}\nvendor=0\nproduct=0\nrevision=0\nserial=0\nhb={hb}\nsets=0\n"
        )
    }

    #[test]
    fn no_slaves_is_go() {
        assert_eq!(printed(&sheet(None), ""), "go=1\nhalted=0\n");
    }

    #[test]
    fn the_wait_ends_at_its_last_tick() {
        let asked = "work=1\nheard=1797,0\nwork=1\n";
        let answer = "heard=1413,75,0,16,0,146,1,0,0\n";
        let sheet = sheet(Some((0, 0, 402, 0)));
        let in_time = printed(&sheet, &format!("{asked}tick=99\n{answer}"));
        assert!(in_time.ends_with("go=1\nhalted=0\nslave=5,OK\n"));
        let late = printed(&sheet, &format!("{asked}tick=100\n{answer}"));
        assert!(late.ends_with("go=1\nhalted=0\nslave=5,B\n"));
        let other_byte = answer.replace("75", "66");
        let unused = printed(&sheet, &format!("{asked}tick=99\n{other_byte}"));
        assert!(unused.ends_with("go=0\nhalted=0\nslave=5,none\n"));
    }

    #[test]
    fn a_silent_keep_alive_slave_is_spared() {
        let out = printed(&sheet(Some((1, 1, 0, 9))), &"work=60\ntake=60\n".repeat(3));
        let resets: Vec<&str> = out.lines().filter(|line| line.starts_with("out=0,130,")).collect();
        assert_eq!(resets.len(), 125);
        assert_eq!(resets[0], "out=0,130,2");
        assert!(!resets.contains(&"out=0,130,5"));
    }

    #[test]
    fn other_lines_are_skipped() {
        for line in ["", "bogus", "tick=x", "heard=5,", "heard=5,256", "heard=05", "work=4294967296", "take=1\r"] {
            assert_eq!(Call::read(line.as_bytes()), None, "{line}");
        }
        assert_eq!(Call::read(b"tick=4294967295"), Some(Call::Tick(u32::MAX)));
        let Some(Call::Heard(message)) = Call::read(b"heard=2047") else { panic!() };
        assert_eq!((message.id, message.data()), (2047, &[][..]));
        let Some(Call::Heard(long)) = Call::read(b"heard=1,1,2,3,4,5,6,7,8,9,10") else { panic!() };
        assert_eq!(long.data().len(), 9);
    }
}
