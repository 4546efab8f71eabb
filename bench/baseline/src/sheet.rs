//! The assignment sheet and its reader.

/// What the fitter assigned. A sheet made by `read` or `empty` keeps the ranges of `docs/SHEET.md`.
#[derive(Clone, Debug, PartialEq, Eq)]
pub struct Sheet {
    pub own: u8,
    pub wait: u16,
    pub boottime: u32,
    pub inhibit: u16,
    pub startall: bool,
    pub resetall: bool,
    pub stopall: bool,
    /// In ascending order of nodes.
    pub slaves: Vec<Slave>,
}

#[derive(Clone, Debug, PartialEq, Eq)]
pub struct Slave {
    pub node: u8,
    pub mandatory: bool,
    pub keep: bool,
    pub device_type: u32,
    /// Vendor, product, revision, serial; 0 is not asked for.
    pub identity: [u32; 4],
    pub hb: u16,
    pub sets: Vec<Set>,
}

#[derive(Clone, Copy, Debug, PartialEq, Eq)]
pub struct Set {
    pub index: u16,
    pub sub: u8,
    pub size: u8,
    pub value: u32,
}

/// The most sets of all slaves together.
pub const MOST_SETS: usize = 256;

/// Why a text is no sheet: the refusal's number, the line from 1, and who found it.
#[derive(Clone, Copy, Debug, PartialEq, Eq)]
pub struct Fault {
    pub number: u8,
    pub line: u32,
    pub layer: Layer,
}

#[derive(Clone, Copy, Debug, PartialEq, Eq)]
pub enum Layer {
    Digits,
    Line,
    Sheet,
}

/// A decimal number without leading zero, at most 4294967295.
pub fn number(digits: &[u8]) -> Option<u32> {
    match digits {
        [] => None,
        [b'0', _, ..] => None,
        _ if digits.len() > 10 => None,
        _ => {
            let value = digits.iter().try_fold(0u64, |value, &byte| {
                byte.is_ascii_digit().then(|| value * 10 + u64::from(byte - b'0'))
            })?;
            u32::try_from(value).ok()
        }
    }
}

impl Sheet {
    pub fn empty() -> Sheet {
        Sheet {
            own: 1,
            wait: 1000,
            boottime: 0,
            inhibit: 0,
            startall: false,
            resetall: false,
            stopall: false,
            slaves: Vec::new(),
        }
    }

    pub fn read(text: &[u8]) -> Result<Sheet, Fault> {
        let mut lines = Lines { rest: text, line: 0 };
        let mut sheet = Sheet {
            own: lines.field("own", 1, 127)? as u8,
            wait: lines.field("wait", 1, 60000)? as u16,
            boottime: lines.field("boottime", 0, u32::MAX)?,
            inhibit: lines.field("inhibit", 0, 65535)? as u16,
            startall: lines.flag("startall")?,
            resetall: lines.flag("resetall")?,
            stopall: lines.flag("stopall")?,
            slaves: Vec::new(),
        };
        let count = lines.field("slaves", 0, 126)? as usize;
        sheet.slaves.reserve_exact(count);
        let mut last = 0;
        let mut sets_left = MOST_SETS;
        for _ in 0..count {
            let slave = lines.slave(sheet.own, last, &mut sets_left)?;
            last = slave.node;
            sheet.slaves.push(slave);
        }
        lines.end()?;
        Ok(sheet)
    }
}

/// The text from the line that is due on; `line` is the number of the line before it.
struct Lines<'a> {
    rest: &'a [u8],
    line: u32,
}

impl Lines<'_> {
    fn fault(&self, number: u8) -> Fault {
        let layer = match number {
            1 => Layer::Digits,
            2 => Layer::Line,
            _ => Layer::Sheet,
        };
        Fault { number, line: self.line, layer }
    }

    /// Reads the line that is due: this key, and a value from `low` to `high`.
    fn field(&mut self, key: &str, low: u32, high: u32) -> Result<u32, Fault> {
        self.line += 1;
        let end = self.rest.iter().position(|&b| b == b'\n').ok_or(self.fault(2))?;
        let (line, rest) = (&self.rest[..end], &self.rest[end + 1..]);
        let digits = line
            .strip_prefix(key.as_bytes())
            .and_then(|after| after.strip_prefix(b"="))
            .ok_or(self.fault(2))?;
        let value = number(digits).ok_or(self.fault(1))?;
        if !(low..=high).contains(&value) {
            return Err(self.fault(3));
        }
        self.rest = rest;
        Ok(value)
    }

    fn flag(&mut self, key: &str) -> Result<bool, Fault> {
        Ok(self.field(key, 0, 1)? == 1)
    }

    fn slave(&mut self, own: u8, last: u8, sets_left: &mut usize) -> Result<Slave, Fault> {
        let node = self.field("node", 1, 127)? as u8;
        if node == own || node <= last {
            return Err(self.fault(4));
        }
        let mandatory = self.flag("mandatory")?;
        let keep = self.flag("keep")?;
        let device_type = self.field("type", 0, u32::MAX)?;
        let mut identity = [0; 4];
        for (value, key) in identity.iter_mut().zip(["vendor", "product", "revision", "serial"]) {
            *value = self.field(key, 0, u32::MAX)?;
        }
        let hb = self.field("hb", 0, 65535)? as u16;
        if keep && hb == 0 {
            return Err(self.fault(5));
        }
        let count = self.field("sets", 0, 32)? as usize;
        *sets_left = sets_left.checked_sub(count).ok_or(self.fault(6))?;
        let sets = (0..count).map(|_| self.set()).collect::<Result<_, _>>()?;
        Ok(Slave { node, mandatory, keep, device_type, identity, hb, sets })
    }

    fn set(&mut self) -> Result<Set, Fault> {
        let index = self.field("index", 0, 65535)? as u16;
        let sub = self.field("sub", 0, 255)? as u8;
        let size = self.field("size", 1, 4)? as u8;
        let value = self.field("value", 0, u32::MAX >> (32 - 8 * u32::from(size)))?;
        Ok(Set { index, sub, size, value })
    }

    /// Nothing may follow the last line.
    fn end(&mut self) -> Result<(), Fault> {
        self.line += 1;
        if self.rest.is_empty() {
            Ok(())
        } else {
            Err(self.fault(7))
        }
    }
}

#[cfg(test)]
mod tests {
    use super::*;

    const HEAD: &str = "own=1\nwait=100\nboottime=0\ninhibit=0\nstartall=0\nresetall=0\nstopall=0\n";

    fn fault(text: &str) -> (u8, u32) {
        let fault = Sheet::read(text.as_bytes()).unwrap_err();
        (fault.number, fault.line)
    }

    fn slave(node: u8, keep: u8, hb: u16, sets: usize) -> String {
        let set = "index=4096\nsub=0\nsize=1\nvalue=255\n".repeat(sets);
        format!(
            "node={node}\nmandatory=1\nkeep={keep}\ntype=0\nvendor=0\nproduct=0\nrevision=0\nserial=0\nhb={hb}\nsets={sets}\n{set}"
        )
    }

    #[test]
    fn numbers() {
        assert_eq!(number(b"0"), Some(0));
        assert_eq!(number(b"00"), None);
        assert_eq!(number(b""), None);
        assert_eq!(number(b"4294967295"), Some(u32::MAX));
        assert_eq!(number(b"4294967296"), None);
        assert_eq!(number(b"42949672950"), None);
        assert_eq!(number(b"+1"), None);
    }

    #[test]
    fn faults() {
        assert_eq!(fault(""), (2, 1));
        assert_eq!(fault("own=x"), (2, 1));
        assert_eq!(fault("own=x\n"), (1, 1));
        assert_eq!(fault("own=1=2\n"), (1, 1));
        assert_eq!(fault("own=0\n"), (3, 1));
        assert_eq!(fault("own=1\nwait=100\r\n"), (1, 2));
        assert_eq!(fault("own=1\nWait=100\n"), (2, 2));
        assert_eq!(fault("own=1\nwait\n"), (2, 2));
        assert_eq!(fault(&format!("{HEAD}slaves=0\n\n")), (7, 9));
        assert_eq!(fault(&format!("{HEAD}slaves=1\n")), (2, 9));
        assert_eq!(fault(&format!("{HEAD}slaves=1\nnode=128\n")), (3, 9));
        assert_eq!(fault(&format!("{HEAD}slaves=1\n{}", slave(1, 0, 0, 0))), (4, 9));
        assert_eq!(fault(&format!("{HEAD}slaves=1\n{}", slave(5, 1, 0, 0))), (5, 17));
        let twice = format!("{HEAD}slaves=2\n{0}{0}", slave(5, 0, 0, 0));
        assert_eq!(fault(&twice), (4, 19));
        let full: String = (2..10).map(|node| slave(node, 0, 0, 32)).collect();
        assert!(Sheet::read(format!("{HEAD}slaves=8\n{full}").as_bytes()).is_ok());
        let over = format!("{HEAD}slaves=9\n{full}node=99\n{}", &slave(5, 0, 0, 1)[7..]);
        assert_eq!(fault(&over), (6, 8 + 8 * (10 + 32 * 4) + 10));
    }

    #[test]
    fn value_fits_its_size() {
        let with = |size: u8, value: u32| {
            let slave = slave(5, 0, 0, 0).replace("sets=0", "sets=1");
            let text = format!("{HEAD}slaves=1\n{slave}index=0\nsub=0\nsize={size}\nvalue={value}\n");
            Sheet::read(text.as_bytes()).is_ok()
        };
        assert!(with(1, 255) && !with(1, 256));
        assert!(with(2, 65535) && !with(2, 65536));
        assert!(with(3, 16777215) && !with(3, 16777216));
        assert!(with(4, u32::MAX));
    }
}
