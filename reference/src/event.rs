//! Events as they stand in a record, and the actions they ask for.

use std::fmt;

/// A head and a value, as in the record.
#[derive(Clone, Copy, Debug, PartialEq, Eq)]
pub struct Event {
    pub head: u32,
    pub value: u32,
}

pub const SAMPLE: u32 = 0;
pub const LOAD: u32 = 1;
pub const STORE: u32 = 2;
pub const CSR_READ: u32 = 3;
pub const CSR_WRITE: u32 = 4;
pub const TAKE: u32 = 5;
pub const OPEN: u32 = 6;
pub const CHAIN: u32 = 7;
pub const RETURN: u32 = 8;
pub const SET_MASK: u32 = 9;
pub const CLOCK: u32 = 10;
pub const ERROR: u32 = 11;
pub const LOOK: u32 = 12;
pub const COMMIT: u32 = 13;
/// The kinds are the numbers below this one.
pub const KINDS: u32 = 14;

/// The head with the number after the last kind, which is of no kind, and address 0.
pub const NO_KIND: u32 = KINDS << 16;

/// An event of a known kind whose unused parts are 0.
#[derive(Clone, Copy, Debug, PartialEq, Eq)]
pub enum Action {
    Sample { word: u32, lines: u32 },
    Load { offset: u32 },
    Store { offset: u32, value: u32 },
    CsrRead { address: u32 },
    CsrWrite { address: u32, value: u32 },
    Take,
    Open,
    Chain,
    Return,
    SetMask { value: u32 },
    Clock,
    Error { counter: u32 },
    Look,
    Commit { source: u32 },
}

/// Head and value in hexadecimal, the head in eight digits.
impl fmt::Display for Event {
    fn fmt(&self, text: &mut fmt::Formatter) -> fmt::Result {
        write!(text, "{:08x}:{:x}", self.head, self.value)
    }
}

impl Event {
    pub fn new(kind: u32, address: u32, value: u32) -> Event {
        Event {
            head: kind << 16 | address,
            value,
        }
    }

    pub fn kind(self) -> u32 {
        self.head >> 16
    }

    pub fn address(self) -> u32 {
        self.head & 0xFFFF
    }

    /// Questions 6 and 7: the action, or the refusal number.
    pub fn action(self) -> Result<Action, u32> {
        let address = self.address();
        let value = self.value;
        let only_address = |action| if value == 0 { Ok(action) } else { Err(7) };
        let only_value = |action| if address == 0 { Ok(action) } else { Err(7) };
        let neither = |action| {
            if address == 0 && value == 0 {
                Ok(action)
            } else {
                Err(7)
            }
        };
        match self.kind() {
            SAMPLE => Ok(Action::Sample {
                word: address,
                lines: value,
            }),
            LOAD => only_address(Action::Load { offset: address }),
            STORE => Ok(Action::Store {
                offset: address,
                value,
            }),
            CSR_READ => only_address(Action::CsrRead { address }),
            CSR_WRITE => Ok(Action::CsrWrite { address, value }),
            TAKE => neither(Action::Take),
            OPEN => neither(Action::Open),
            CHAIN => neither(Action::Chain),
            RETURN => neither(Action::Return),
            SET_MASK => only_value(Action::SetMask { value }),
            CLOCK => neither(Action::Clock),
            ERROR => only_address(Action::Error { counter: address }),
            LOOK => neither(Action::Look),
            COMMIT => only_address(Action::Commit { source: address }),
            _ => Err(6),
        }
    }
}
