//! The two internal timers: counter, bound and control, and the CSRs that show them.

/// The counters of timers 0 and 1.
pub const MITCNT: [u32; 2] = [0x7D2, 0x7D5];
/// Their bounds.
pub const MITB: [u32; 2] = [0x7D3, 0x7D6];
/// Their controls.
pub const MITCTL: [u32; 2] = [0x7D4, 0x7D7];
pub const TIMER_CSRS: [u32; 6] = [MITCNT[0], MITB[0], MITCTL[0], MITCNT[1], MITB[1], MITCTL[1]];

#[derive(Clone, Debug, PartialEq, Eq)]
pub struct Timer {
    pub count: u32,
    pub bound: u32,
    /// Bit 0 enable, bit 1 halt_en, bit 2 pause_en. The last two are held and do nothing.
    pub control: u32,
}

#[derive(Clone, Copy, Debug, PartialEq, Eq)]
pub enum TimerRegister {
    Counter,
    Bound,
    Control,
}

/// Which register of which timer a CSR address names.
pub fn timer_register(address: u32) -> Option<(usize, TimerRegister)> {
    let registers = [
        (MITCNT, TimerRegister::Counter),
        (MITB, TimerRegister::Bound),
        (MITCTL, TimerRegister::Control),
    ];
    for (csrs, register) in registers {
        if let Some(timer) = csrs.iter().position(|&csr| csr == address) {
            return Some((timer, register));
        }
    }
    None
}

impl Timer {
    pub fn power_on() -> Timer {
        Timer {
            count: 0,
            bound: 0xFFFF_FFFF,
            control: 1,
        }
    }

    pub fn sound(&self) -> bool {
        self.control <= 7
    }

    pub fn enabled(&self) -> bool {
        self.control & 1 != 0
    }

    /// One clock: whether the timer signals. A counter at or above its bound is cleared even while
    /// the timer is disabled.
    pub fn clock(&mut self) -> bool {
        let signals = self.count >= self.bound;
        if signals {
            self.count = 0;
        } else if self.enabled() {
            self.count += 1;
        }
        signals
    }

    pub fn read(&self, register: TimerRegister) -> u32 {
        match register {
            TimerRegister::Counter => self.count,
            TimerRegister::Bound => self.bound,
            TimerRegister::Control => self.control,
        }
    }

    pub fn write(&mut self, register: TimerRegister, value: u32) {
        match register {
            TimerRegister::Counter => self.count = value,
            TimerRegister::Bound => self.bound = value,
            TimerRegister::Control => self.control = value & 7,
        }
    }
}
