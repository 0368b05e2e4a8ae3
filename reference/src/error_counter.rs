//! The three error counters: threshold and count, and the CSRs that show them.

/// The I-cache's, the ICCM's and the DCCM's: micect, miccmect and mdccmect.
pub const ERROR_CSRS: [u32; 3] = [0x7F0, 0x7F1, 0x7F2];
/// A count has 27 bits, so it is below this.
pub const COUNT_END: u32 = 1 << 27;
/// The threshold that selects the highest bit of the count.
pub const HIGHEST_THRESHOLD: u32 = 26;

#[derive(Clone, Debug, Default, PartialEq, Eq)]
pub struct ErrorCounter {
    /// The number of a bit of the count.
    pub threshold: u32,
    pub count: u32,
}

/// Which error counter a CSR address names.
pub fn error_counter(address: u32) -> Option<usize> {
    ERROR_CSRS.iter().position(|&csr| csr == address)
}

impl ErrorCounter {
    pub fn sound(&self) -> bool {
        self.threshold <= HIGHEST_THRESHOLD && self.count < COUNT_END
    }

    /// Whether the bit of the count that the threshold selects is 1.
    pub fn selected(&self) -> bool {
        self.count >> self.threshold & 1 != 0
    }

    /// Counts one error: whether the selected bit is 1 afterwards. The greatest count goes to 0.
    pub fn error(&mut self) -> bool {
        self.count = (self.count + 1) % COUNT_END;
        self.selected()
    }

    /// Bits 31:27 are the threshold, 26:0 the count.
    pub fn read(&self) -> u32 {
        self.threshold * COUNT_END + self.count
    }

    /// A threshold that selects no bit is held as the highest.
    pub fn write(&mut self, value: u32) {
        self.threshold = (value / COUNT_END).min(HIGHEST_THRESHOLD);
        self.count = value % COUNT_END;
    }
}
