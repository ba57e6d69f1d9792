//! Room that is lent for a result, with bytes around it that tell whether
//! anything was written that shouldn't be.

/// What every byte is before a call.
const FILL: u8 = 0xa5;
/// How many bytes are watched on either side.
const GUARD: usize = 64;

pub struct Room {
    bytes: Vec<u8>,
    start: usize,
    len: usize,
}

impl Default for Room {
    fn default() -> Self {
        Room {
            bytes: vec![FILL; 1 << 16],
            start: GUARD,
            len: 0,
        }
    }
}

impl Room {
    /// Room of so many bytes, so many past a multiple of eight.
    pub fn lend(&mut self, len: usize, odd: usize) -> &mut [u8] {
        self.start = GUARD + odd;
        self.len = len;
        let end = self.start + len;
        if self.bytes.len() < end + GUARD {
            self.bytes.resize(end + GUARD, FILL);
        }
        &mut self.bytes[self.start..end]
    }

    /// What stands in the room now.
    pub fn lent(&self) -> &[u8] {
        &self.bytes[self.start..self.start + self.len]
    }

    /// Whether the room starts with these bytes and nothing else was changed.
    pub fn holds_just(&self, bytes: &[u8]) -> bool {
        let end = self.start + bytes.len();
        let watched = self.start + self.len + GUARD;
        self.bytes[self.start..end] == *bytes
            && self.bytes[self.start - GUARD..self.start]
                .iter()
                .all(|&byte| byte == FILL)
            && self.bytes[end..watched].iter().all(|&byte| byte == FILL)
    }

    /// Clear what a result of so many bytes left.
    pub fn clear(&mut self, written: usize) {
        self.bytes[self.start..self.start + written].fill(FILL);
    }
}

#[cfg(test)]
mod tests {
    use super::*;

    #[test]
    fn every_change_shows() {
        let mut room = Room::default();
        for (len, odd) in [(0, 0), (5, 3), (70_000, 7)] {
            room.lend(len, odd);
            assert!(room.holds_just(&[]));
        }
        for at in [0, 2, 9] {
            let lent = room.lend(10, 1);
            lent[at] = 0;
            assert!(!room.holds_just(&[]));
            room.clear(10);
            assert!(room.holds_just(&[]));
        }
        room.lend(10, 1)[..2].copy_from_slice(&[7, 8]);
        assert!(room.holds_just(&[7, 8]));
        assert!(!room.holds_just(&[7]));
        assert!(!room.holds_just(&[7, 9]));
        assert!(!room.holds_just(&[7, 8, 9]));
        room.clear(2);
        // Past either end.
        for at in [GUARD, GUARD + 11] {
            room.lend(10, 1);
            room.bytes[at] = 0;
            assert!(!room.holds_just(&[]));
            room.bytes[at] = FILL;
        }
    }
}
