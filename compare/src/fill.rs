//! The block map as it is handed in.

/// What a map holds before a pass. A byte that should be written and isn't shows in one of the two.
#[derive(Clone, Copy, Debug, PartialEq, Eq)]
pub enum Fill {
    /// Byte i is i mod 251: the fill of the fixed list.
    Listed,
    /// No byte is 0: one that should be cleared and isn't shows everywhere.
    Zeroless,
}

pub const FILLS: [Fill; 2] = [Fill::Listed, Fill::Zeroless];

impl Fill {
    pub fn byte(self, i: usize) -> u8 {
        match self {
            Fill::Listed => (i % 251) as u8,
            Fill::Zeroless => 255 - (i % 241) as u8,
        }
    }

    pub fn map(self, length: usize) -> Vec<u8> {
        (0..length).map(|i| self.byte(i)).collect()
    }
}

#[cfg(test)]
mod tests {
    use super::*;

    #[test]
    fn one_fill_has_no_zero() {
        assert!((0..1000).all(|i| Fill::Zeroless.byte(i) != 0));
        assert_eq!(Fill::Listed.map(252)[250..], [250, 0]);
    }
}
