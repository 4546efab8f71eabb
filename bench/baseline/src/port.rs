//! The port: a ring of 64 frames, with a gap between NMT commands.

use crate::frame::Frame;

/// The most frames that can wait.
pub const MOST: usize = 64;

pub struct Port {
    ring: [Frame; MOST],
    head: usize,
    len: usize,
    gap: u32,
    pause: u32,
}

impl Port {
    /// An empty port. `inhibit` is in units of 100 µs; the gap in ticks is a tenth of it, rounded up.
    pub fn new(inhibit: u16) -> Port {
        Port {
            ring: [Frame::BLANK; MOST],
            head: 0,
            len: 0,
            gap: u32::from(inhibit).div_ceil(10),
            pause: 0,
        }
    }

    pub fn gap(&self) -> u32 {
        self.gap
    }

    pub fn room(&self) -> usize {
        MOST - self.len
    }

    /// Adds the frame at the end if there is room, and says whether it did.
    pub fn put(&mut self, frame: Frame) -> bool {
        if self.room() == 0 {
            return false;
        }
        self.ring[(self.head + self.len) % MOST] = frame;
        self.len += 1;
        true
    }

    pub fn first(&self) -> Option<&Frame> {
        (self.len > 0).then(|| &self.ring[self.head])
    }

    /// Removes the first frame, unless it is an NMT command and the pause is not over.
    pub fn take(&mut self) -> Option<Frame> {
        let frame = *self.first()?;
        if frame.is_command() {
            if self.pause > 0 {
                return None;
            }
            self.pause = self.gap;
        }
        self.head = (self.head + 1) % MOST;
        self.len -= 1;
        Some(frame)
    }

    pub fn tick(&mut self) {
        self.pause = self.pause.saturating_sub(1);
    }
}

#[cfg(test)]
mod tests {
    use super::*;

    #[test]
    fn gap_is_rounded_up() {
        let gaps = [0, 1, 10, 11, 65535].map(|inhibit| Port::new(inhibit).gap());
        assert_eq!(gaps, [0, 1, 1, 2, 6554]);
    }

    #[test]
    fn first_in_first_out_around_the_end() {
        let mut port = Port::new(0);
        let frame = |id| Frame::new(id, &[]).unwrap();
        for round in 0..5 {
            for i in 0..40 {
                assert!(port.put(frame(1 + round * 40 + i)));
            }
            for i in 0..40 {
                assert_eq!(port.take(), Some(frame(1 + round * 40 + i)));
            }
        }
        assert_eq!(port.take(), None);
    }

    #[test]
    fn full_port_declines() {
        let mut port = Port::new(0);
        let frame = Frame::new(5, &[1]).unwrap();
        assert!((0..64).all(|_| port.put(frame)));
        assert!(!port.put(frame));
        port.take();
        assert!(port.put(frame));
    }

    #[test]
    fn only_commands_pause() {
        let mut port = Port::new(20);
        let command = Frame::new(0, &[1, 5]).unwrap();
        let other = Frame::new(5, &[]).unwrap();
        for frame in [command, other, command] {
            port.put(frame);
        }
        assert_eq!(port.take(), Some(command));
        assert_eq!(port.take(), Some(other));
        assert_eq!(port.take(), None);
        port.tick();
        assert_eq!(port.take(), None);
        port.tick();
        assert_eq!(port.take(), Some(command));
    }
}
