//! Short names for playing events on a machine.

#![allow(dead_code)]

pub mod records;

use reference::event::*;
use reference::machine::*;

pub const ACCEPTED: Outcome = Outcome {
    answer: 0,
    refusal: 0,
};

pub fn machine(count: u32) -> Machine {
    let (machine, refusal) = Machine::power_on(count);
    assert_eq!(refusal, 0);
    machine
}

pub fn answer(answer: u32) -> Outcome {
    Outcome { answer, refusal: 0 }
}

pub fn refused(refusal: u32) -> Outcome {
    Outcome { answer: 0, refusal }
}

/// A handler of source 1, rank 3, opened, and within it one of source 2, rank 7, not opened.
pub fn nested() -> Machine {
    let mut machine = machine(4);
    machine.prepare(1, 3);
    machine.prepare(2, 7);
    machine.set_mask(1);
    machine.sample(0, 0b010);
    assert_eq!(machine.take(), answer(4));
    assert_eq!(machine.open(), answer(3));
    machine.sample(0, 0b110);
    assert_eq!(machine.take(), answer(8));
    machine
}

/// The same with an edge latch, a level latch, a claim and a threshold to keep.
pub fn much_to_keep() -> Machine {
    let mut machine = nested();
    machine.store(0x400C, 2);
    machine.sample(0, 0b1_1110);
    machine.sample(0, 0b0_0110);
    machine.csr_write(MEIPT, 2);
    machine.csr_write(MEICPCT, 0);
    // The claim stays source 2, though source 1 would win now.
    machine.store(4, 12);
    machine
}

/// Pending bits, claim and handlers are still those of `much_to_keep`.
pub fn kept(machine: &mut Machine) {
    assert_eq!(machine.load(0x1000), answer(0b1110));
    assert_eq!(machine.csr_read(MEIHAP), answer(8));
    assert_eq!(machine.handlers.len(), 2);
}

pub trait Play {
    fn act(&mut self, kind: u32, address: u32, value: u32) -> Outcome;

    fn sample(&mut self, word: u32, lines: u32) -> Outcome {
        self.act(SAMPLE, word, lines)
    }
    fn load(&mut self, offset: u32) -> Outcome {
        self.act(LOAD, offset, 0)
    }
    fn store(&mut self, offset: u32, value: u32) -> Outcome {
        self.act(STORE, offset, value)
    }
    fn csr_read(&mut self, address: u32) -> Outcome {
        self.act(CSR_READ, address, 0)
    }
    fn csr_write(&mut self, address: u32, value: u32) -> Outcome {
        self.act(CSR_WRITE, address, value)
    }
    fn take(&mut self) -> Outcome {
        self.act(TAKE, 0, 0)
    }
    fn open(&mut self) -> Outcome {
        self.act(OPEN, 0, 0)
    }
    fn chain(&mut self) -> Outcome {
        self.act(CHAIN, 0, 0)
    }
    fn give_back(&mut self) -> Outcome {
        self.act(RETURN, 0, 0)
    }
    fn set_mask(&mut self, value: u32) -> Outcome {
        self.act(SET_MASK, 0, value)
    }
    fn clock(&mut self) -> Outcome {
        self.act(CLOCK, 0, 0)
    }
    fn error(&mut self, counter: u32) -> Outcome {
        self.act(ERROR, counter, 0)
    }
    fn look(&mut self) -> Outcome {
        self.act(LOOK, 0, 0)
    }
    fn commit(&mut self, number: u32) -> Outcome {
        self.act(COMMIT, number, 0)
    }

    /// Ranks and enables a source.
    fn prepare(&mut self, source: u32, field: u32) {
        assert_eq!(self.store(4 * source, field), ACCEPTED);
        assert_eq!(self.store(0x2000 + 4 * source, 1), ACCEPTED);
    }
}

impl Play for Machine {
    /// Plays an event; a refused one must leave the machine as it was.
    fn act(&mut self, kind: u32, address: u32, value: u32) -> Outcome {
        let before = self.clone();
        let outcome = self.play(Event::new(kind, address, value));
        if outcome.refusal != 0 {
            assert_eq!(outcome.answer, 0);
            assert_eq!(*self, before);
        }
        outcome
    }
}

/// By what a winner that no chain would serve fails.
pub fn why_not(machine: &Machine) -> &'static str {
    let rank = machine.handlers.last().unwrap().rank;
    match machine.winner() {
        (0, _) => "none",
        (_, winner) if winner > rank => "higher",
        (_, winner) if winner < rank => "lower",
        _ => "threshold",
    }
}
