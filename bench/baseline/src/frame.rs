//! CAN frames, and the few kinds of them that the master makes and reads.

/// Identifier of every NMT command.
pub const NMT: u16 = 0x000;
/// Answers of node n have this plus n.
pub const ANSWER: u16 = 0x580;
/// Requests to node n have this plus n.
pub const REQUEST: u16 = 0x600;
/// Boot-up and heartbeats of node n have this plus n.
pub const ERROR_CONTROL: u16 = 0x700;

/// A frame: identifier 0 to 2047 and up to eight bytes. The bytes past the length are zero.
#[derive(Clone, Copy, Debug, PartialEq, Eq)]
pub struct Frame {
    id: u16,
    len: u8,
    bytes: [u8; 8],
}

/// An identifier above 2047, or more than eight bytes (refusal 11).
#[derive(Clone, Copy, Debug, PartialEq, Eq)]
pub struct Malformed;

impl Malformed {
    pub const NUMBER: u8 = 11;
}

impl Frame {
    pub(crate) const BLANK: Frame = Frame { id: 0, len: 0, bytes: [0; 8] };

    pub fn new(id: u32, data: &[u8]) -> Result<Frame, Malformed> {
        if id > 2047 || data.len() > 8 {
            return Err(Malformed);
        }
        let mut bytes = [0; 8];
        bytes[..data.len()].copy_from_slice(data);
        Ok(Frame { id: id as u16, len: data.len() as u8, bytes })
    }

    pub fn id(&self) -> u16 {
        self.id
    }

    pub fn data(&self) -> &[u8] {
        &self.bytes[..usize::from(self.len)]
    }

    /// For a port, every frame with identifier 0 is an NMT command.
    pub fn is_command(&self) -> bool {
        self.id == NMT
    }

    pub fn command(command: Command, node: u8) -> Frame {
        Frame { id: NMT, len: 2, bytes: [command as u8, node, 0, 0, 0, 0, 0, 0] }
    }

    /// A request to read an object.
    pub fn read(node: u8, index: u16, sub: u8) -> Frame {
        Frame::request(node, 0x40, index, sub, 0)
    }

    /// A request to write the lowest `size` bytes of `value` to an object.
    pub fn write(node: u8, index: u16, sub: u8, size: u8, value: u32) -> Frame {
        let first = match size {
            1 => 0x2F,
            2 => 0x2B,
            3 => 0x27,
            _ => 0x23,
        };
        Frame::request(node, first, index, sub, value)
    }

    fn request(node: u8, first: u8, index: u16, sub: u8, value: u32) -> Frame {
        let [i0, i1] = index.to_le_bytes();
        let [v0, v1, v2, v3] = value.to_le_bytes();
        Frame {
            id: REQUEST + u16::from(node),
            len: 8,
            bytes: [first, i0, i1, sub, v0, v1, v2, v3],
        }
    }
}

#[derive(Clone, Copy, Debug, PartialEq, Eq)]
#[repr(u8)]
pub enum Command {
    Start = 0x01,
    Stop = 0x02,
    ResetNode = 0x81,
    ResetCommunication = 0x82,
}

/// What an answer says, whatever it is an answer to.
#[derive(Clone, Copy, Debug, PartialEq, Eq)]
pub enum Saying {
    Abort,
    Written,
    Value(u32),
}

/// An answer taken apart.
#[derive(Clone, Copy, Debug, PartialEq, Eq)]
pub struct Answer {
    pub index: u16,
    pub sub: u8,
    pub saying: Saying,
}

impl Answer {
    /// Reads the data of an answer. None if it has not eight bytes or begins with a byte that no answer begins with.
    pub fn read(data: &[u8]) -> Option<Answer> {
        let &[first, i0, i1, sub, v0, v1, v2, v3] = data else {
            return None;
        };
        let saying = match first {
            0x80 => Saying::Abort,
            0x60 => Saying::Written,
            0x4F => Saying::Value(u32::from(v0)),
            0x4B => Saying::Value(u32::from_le_bytes([v0, v1, 0, 0])),
            0x47 => Saying::Value(u32::from_le_bytes([v0, v1, v2, 0])),
            0x43 => Saying::Value(u32::from_le_bytes([v0, v1, v2, v3])),
            _ => return None,
        };
        Some(Answer { index: u16::from_le_bytes([i0, i1]), sub, saying })
    }
}

/// What a slave says of itself by error control.
#[derive(Clone, Copy, Debug, PartialEq, Eq)]
pub enum Sign {
    BootUp,
    Stopped,
    Operational,
    PreOperational,
}

impl Sign {
    pub fn read(data: &[u8]) -> Option<Sign> {
        match data {
            [0x00] => Some(Sign::BootUp),
            [0x04] => Some(Sign::Stopped),
            [0x05] => Some(Sign::Operational),
            [0x7F] => Some(Sign::PreOperational),
            _ => None,
        }
    }
}
