//! A record in the making: every event is played at once, so that the next can be chosen by the
//! state that it leads to.

use crate::error_counter::*;
use crate::event::*;
use crate::machine::*;
use crate::random::Random;
use crate::rank::Rank;
use crate::record::{Limits, Record};
use crate::timer::*;

/// How often each sort of step is chosen while wandering.
#[derive(Clone, Copy)]
pub struct Weights {
    /// A whole word of lines.
    pub sample: u32,
    /// One line of one source.
    pub line: u32,
    pub load: u32,
    pub store: u32,
    pub csr_read: u32,
    pub csr_write: u32,
    /// The next service event that the state suggests.
    pub service: u32,
    /// A clock, or a register of a timer.
    pub timer: u32,
    /// An error, or an error counter.
    pub error: u32,
    /// A look or a commit, with what leads to it.
    pub look: u32,
    /// A service event without a look at the state.
    pub blind: u32,
    /// Offsets and CSR addresses at the edges.
    pub boundary: u32,
    /// Events of which most are refused.
    pub refused: u32,
}

pub const EVEN: Weights = Weights {
    sample: 6,
    line: 12,
    load: 10,
    store: 20,
    csr_read: 8,
    csr_write: 10,
    service: 30,
    timer: 8,
    error: 6,
    look: 5,
    blind: 4,
    boundary: 4,
    refused: 2,
};

pub struct Script {
    pub random: Random,
    pub machine: Machine,
    pub events: Vec<Event>,
    pub room: usize,
    /// Sources that most steps are about.
    pub focus: Vec<u32>,
}

/// N at the edges of the range and of the words, or any, within the limits.
pub fn choose_count(random: &mut Random, limits: Limits) -> u32 {
    let mut edges = vec![2, 3, 4, 31, 32, 33, 63, 64, 65, 255];
    edges.retain(|&count| count <= limits.sources);
    if random.chance(2, 3) {
        random.pick(&edges)
    } else {
        random.between(2, limits.sources)
    }
}

impl Script {
    pub fn new(random: &mut Random, limits: Limits) -> Script {
        let count = choose_count(random, limits);
        Script::with_count(random, count, limits.events)
    }

    pub fn with_count(random: &mut Random, count: u32, room: usize) -> Script {
        let mut script = Script {
            random: Random::new(random.draw()),
            machine: Machine::power_on(count).0,
            events: Vec::new(),
            room,
            focus: Vec::new(),
        };
        script.refocus();
        script
    }

    pub fn record(self) -> Record {
        Record {
            sources: self.machine.count() as u32,
            events: self.events,
        }
    }

    pub fn count(&self) -> u32 {
        self.machine.count() as u32
    }

    pub fn left(&self) -> usize {
        self.room - self.events.len()
    }

    pub fn full(&self) -> bool {
        self.left() == 0
    }

    /// Chooses the sources in focus anew, often those at the edges of words.
    pub fn refocus(&mut self) {
        let edges = [
            1, 2, 3, 30, 31, 32, 33, 63, 64, 65, 127, 128, 191, 192, 223, 224, 254, 255,
        ];
        let count = self.count();
        let size = self.random.between(2, 8);
        self.focus.clear();
        while self.focus.len() < size as usize {
            let source = match self.random.below(4) {
                0 => count - self.random.below(count.min(3)),
                1 => self.random.pick(&edges),
                _ => self.random.between(1, count),
            };
            if source <= count {
                self.focus.push(source);
            }
        }
    }

    /// Plays an event and appends it; without room left nothing happens.
    pub fn event(&mut self, kind: u32, address: u32, value: u32) -> Outcome {
        if self.full() {
            return Outcome {
                answer: 0,
                refusal: 0,
            };
        }
        let event = Event::new(kind, address, value);
        let outcome = self.machine.play(event);
        assert!(self.machine.sound(), "unsound after {event:?}");
        self.events.push(event);
        outcome
    }

    pub fn sample(&mut self, word: u32, lines: u32) -> Outcome {
        self.event(SAMPLE, word, lines)
    }

    pub fn load(&mut self, offset: u32) -> Outcome {
        self.event(LOAD, offset, 0)
    }

    pub fn store(&mut self, offset: u32, value: u32) -> Outcome {
        self.event(STORE, offset, value)
    }

    pub fn csr_read(&mut self, address: u32) -> Outcome {
        self.event(CSR_READ, address, 0)
    }

    pub fn csr_write(&mut self, address: u32, value: u32) -> Outcome {
        self.event(CSR_WRITE, address, value)
    }

    pub fn take(&mut self) -> Outcome {
        self.event(TAKE, 0, 0)
    }

    pub fn open(&mut self) -> Outcome {
        self.event(OPEN, 0, 0)
    }

    pub fn chain(&mut self) -> Outcome {
        self.event(CHAIN, 0, 0)
    }

    pub fn give_back(&mut self) -> Outcome {
        self.event(RETURN, 0, 0)
    }

    pub fn set_mask(&mut self, value: u32) -> Outcome {
        self.event(SET_MASK, 0, value)
    }

    pub fn clock(&mut self) -> Outcome {
        self.event(CLOCK, 0, 0)
    }

    pub fn error(&mut self, counter: u32) -> Outcome {
        self.event(ERROR, counter, 0)
    }

    pub fn look(&mut self) -> Outcome {
        self.event(LOOK, 0, 0)
    }

    pub fn commit(&mut self, number: u32) -> Outcome {
        self.event(COMMIT, number, 0)
    }

    /// A look, and a commit of the source that it answers.
    pub fn look_and_commit(&mut self) {
        let source = self.look().answer;
        if source > 0 {
            self.commit(source);
        }
    }

    /// Sometimes sets bits above the kept ones, which the machine must drop.
    fn litter(&mut self, value: u32, kept: u32) -> u32 {
        if self.random.chance(1, 4) {
            value | self.random.word() << kept
        } else {
            value
        }
    }

    pub fn set_line(&mut self, source: u32, level: bool) {
        let word = source / 32;
        let mut lines = 0;
        for bit in 0..32 {
            let number = 32 * word + bit;
            if number == source {
                lines |= u32::from(level) << bit;
            } else if number >= 1 && number <= self.count() {
                lines |= u32::from(self.machine.source(number as usize).line) << bit;
            } else {
                // A bit of no source, dropped.
                lines |= u32::from(self.random.chance(1, 8)) << bit;
            }
        }
        self.sample(word, lines);
    }

    pub fn set_active(&mut self, source: u32, active: bool) {
        let level = active != self.machine.source(source as usize).active_low;
        self.set_line(source, level);
    }

    /// Ends the request of a source: its line goes inactive, and an edge latch is cleared.
    pub fn quiet(&mut self, source: u32) {
        let state = self.machine.source(source as usize).clone();
        if state.active() {
            self.set_active(source, false);
        }
        if state.edge {
            self.clear(source);
        }
    }

    /// The field of a rank in the order of now, sometimes with bits above it.
    fn value_of(&mut self, rank: Rank) -> u32 {
        let field = self.machine.field(rank);
        self.litter(field.into(), 4)
    }

    pub fn set_rank(&mut self, source: u32, rank: Rank) {
        let value = self.value_of(rank);
        self.store(4 * source, value);
    }

    pub fn set_enable(&mut self, source: u32, enabled: bool) {
        let value = self.litter(u32::from(enabled), 1);
        self.store(0x2000 + 4 * source, value);
    }

    pub fn set_gateway(&mut self, source: u32, edge: bool, active_low: bool) {
        let value = self.litter(2 * u32::from(edge) + u32::from(active_low), 2);
        self.store(0x4000 + 4 * source, value);
    }

    pub fn clear(&mut self, source: u32) {
        let value = if self.random.coin() {
            0
        } else {
            self.random.word()
        };
        self.store(0x5000 + 4 * source, value);
    }

    pub fn set_priord(&mut self, reversed: bool) -> Outcome {
        let value = self.litter(u32::from(reversed), 1);
        self.store(0x3000, value)
    }

    /// Asks for the other order, which is refused while a handler is open.
    pub fn switch(&mut self) -> Outcome {
        let other = !self.machine.priord;
        self.set_priord(other)
    }

    pub fn set_threshold(&mut self, rank: Rank) {
        let value = self.value_of(rank);
        self.csr_write(MEIPT, value);
    }

    pub fn set_claimed(&mut self, rank: Rank) {
        let value = self.value_of(rank);
        self.csr_write(MEICIDPL, value);
    }

    pub fn set_current(&mut self, rank: Rank) -> Outcome {
        let value = self.value_of(rank);
        self.csr_write(MEICURPL, value)
    }

    /// Threshold and current to the lowest rank. After a switch they may be too high for a take.
    pub fn lower_bars(&mut self) {
        self.set_threshold(Rank::LOWEST);
        self.set_current(Rank::LOWEST);
    }

    /// The reverse order, and bars that leave room for takes; refused while a handler is open.
    pub fn reverse(&mut self) {
        self.set_priord(true);
        self.lower_bars();
    }

    /// Writes a field to each of the registers that hold one: meiplS of a source, meipt, meicidpl,
    /// meicurpl.
    pub fn write_fields(&mut self, source: u32, fields: [u32; 4]) {
        let [own, threshold, claimed, current] = fields.map(|field| self.litter(field, 4));
        self.store(4 * source, own);
        self.csr_write(MEIPT, threshold);
        self.csr_write(MEICIDPL, claimed);
        self.csr_write(MEICURPL, current);
    }

    /// Reads the registers that hold a field, meiplS of one source.
    pub fn read_fields(&mut self, source: u32) {
        self.load(4 * source);
        for address in [MEIPT, MEICIDPL, MEICURPL] {
            self.csr_read(address);
        }
    }

    pub fn set_base(&mut self) {
        let value = match self.random.below(4) {
            0 => 0,
            1 => u32::MAX,
            2 => self.random.word() & !1023,
            _ => self.random.word(),
        };
        self.csr_write(MEIVT, value);
    }

    pub fn capture(&mut self) {
        let value = if self.random.coin() {
            0
        } else {
            self.random.word()
        };
        self.csr_write(MEICPCT, value);
    }

    pub fn set_counter(&mut self, timer: usize, count: u32) {
        self.csr_write(MITCNT[timer], count);
    }

    pub fn set_bound(&mut self, timer: usize, bound: u32) {
        self.csr_write(MITB[timer], bound);
    }

    pub fn set_control(&mut self, timer: usize, control: u32) {
        let value = self.litter(control, 3);
        self.csr_write(MITCTL[timer], value);
    }

    /// Reads all that the timers hold.
    pub fn read_timers(&mut self) {
        for address in TIMER_CSRS {
            self.csr_read(address);
        }
    }

    /// Writes an error counter; thresholds of 27 to 31 may be written too.
    pub fn set_errors(&mut self, counter: u32, threshold: u32, count: u32) {
        self.csr_write(ERROR_CSRS[counter as usize], threshold << 27 | count);
    }

    pub fn read_errors(&mut self, counter: u32) {
        self.csr_read(ERROR_CSRS[counter as usize]);
    }

    pub fn read_all_errors(&mut self) {
        for address in ERROR_CSRS {
            self.csr_read(address);
        }
    }

    /// Reads what a capture sets.
    pub fn read_claim(&mut self) {
        self.csr_read(MEIHAP);
        self.csr_read(MEICIDPL);
    }

    pub fn pending_words(&mut self) {
        for word in 0..8 {
            self.load(0x1000 + 4 * word);
        }
    }

    /// Reads the pending word that shows a source.
    pub fn look_at(&mut self, source: u32) {
        self.load(0x1000 + 4 * (source / 32));
    }

    pub fn a_source(&mut self) -> u32 {
        if self.random.chance(4, 5) {
            let place = self.random.below(self.focus.len() as u32);
            self.focus[place as usize]
        } else {
            let count = self.count();
            self.random.between(1, count)
        }
    }

    /// A rank, often one beside those that the machine compares with.
    pub fn a_rank(&mut self) -> Rank {
        let machine = &self.machine;
        let near = match self.random.below(6) {
            0 => machine.threshold_rank(),
            1 => machine.current_rank(),
            2 => machine.handlers.last().map_or(Rank(1), |top| top.rank),
            3 => machine.winner().1,
            _ => return self.random.rank(0, 15),
        };
        match self.random.below(3) {
            0 => near.lower(),
            1 => near,
            _ => near.higher(),
        }
    }

    /// A bound, often the least, a low one or the greatest.
    pub fn a_bound(&mut self) -> u32 {
        match self.random.below(8) {
            0 => 0,
            1 => 1,
            2..=4 => self.random.between(2, 9),
            5 => u32::MAX,
            6 => u32::MAX - self.random.below(3),
            _ => self.random.word(),
        }
    }

    /// A count, often beside the timer's bound.
    pub fn a_count(&mut self, timer: usize) -> u32 {
        let bound = self.machine.timers[timer].bound;
        match self.random.below(8) {
            0 => bound.saturating_sub(2),
            1 => bound.saturating_sub(1),
            2 => bound,
            3 => bound.saturating_add(1),
            4 => u32::MAX,
            5 => u32::MAX - 1,
            6 => self.random.below(10),
            _ => self.random.word(),
        }
    }

    /// A threshold to write, often at the ends of its range or above.
    pub fn a_threshold(&mut self) -> u32 {
        match self.random.below(5) {
            0 => self.random.pick(&[0, 1, 25, 26]),
            1 => self.random.between(27, 31),
            2 => self.random.below(4),
            _ => self.random.below(27),
        }
    }

    /// A count of errors, mostly just below one that changes the selected bit or the highest.
    pub fn an_error_count(&mut self, threshold: u32) -> u32 {
        let any = self.random.word() % COUNT_END;
        let bit = match self.random.below(6) {
            0 => return any,
            1 => HIGHEST_THRESHOLD,
            _ => threshold.min(HIGHEST_THRESHOLD),
        };
        let change = any >> bit << bit;
        (COUNT_END + change - self.random.between(1, 3)) % COUNT_END
    }

    /// An address that names no error counter.
    pub fn no_counter(&mut self) -> u32 {
        match self.random.below(4) {
            0 => 3,
            1 => self
                .random
                .pick(&[4, 5, 7, 8, 0x7F0, 0x7F1, 0x7F2, 0x8000, 0xFFFF]),
            // By its low bits it would name one.
            2 => self.random.below(3) | 1 << self.random.between(2, 15),
            _ => self.random.between(3, 0xFFFF),
        }
    }

    /// A number to commit: what a look would answer, or another that might be mistaken for it.
    pub fn a_number(&mut self) -> u32 {
        let right = self.machine.chainable();
        match self.random.below(12) {
            0..=3 => right,
            4 => 0,
            5 => self.machine.winner().0 as u32,
            6 => {
                let top = self.machine.handlers.last();
                top.map_or(0, |top| top.source as u32)
            }
            7 | 8 => self.a_source(),
            // By its low bits it would be right.
            9 => right | 1 << self.random.between(8, 15),
            10 => self.count() + self.random.between(1, 2),
            _ => self.random.below(0x10000),
        }
    }

    /// One of the fifteen CSRs, mostly one of the controller's.
    pub fn a_csr(&mut self) -> u32 {
        match self.random.below(8) {
            0 | 1 => self.random.pick(&TIMER_CSRS),
            2 => self.random.pick(&ERROR_CSRS),
            _ => self.random.pick(&CSRS),
        }
    }

    /// A clock or several, or a register of a timer written or read.
    pub fn timer_step(&mut self) {
        let timer = self.random.below(2) as usize;
        match self.random.below(12) {
            0..=3 => {
                self.clock();
            }
            4 => {
                for _ in 0..self.random.between(2, 12) {
                    self.clock();
                }
            }
            5 => {
                let bound = self.a_bound();
                self.set_bound(timer, bound);
            }
            6 | 7 => {
                let count = self.a_count(timer);
                self.set_counter(timer, count);
            }
            8 => {
                let control = self.random.below(8);
                self.set_control(timer, control);
            }
            9 => {
                let address = self.random.pick(&TIMER_CSRS);
                self.csr_read(address);
            }
            _ => {
                self.csr_read(MITCNT[timer]);
            }
        }
    }

    /// An error or several, or an error counter written or read.
    pub fn error_step(&mut self) {
        let counter = self.random.below(3);
        match self.random.below(12) {
            0..=3 => {
                self.error(counter);
            }
            4 => {
                for _ in 0..self.random.between(2, 6) {
                    self.error(counter);
                }
            }
            5..=7 => {
                let threshold = self.a_threshold();
                let count = self.an_error_count(threshold);
                self.set_errors(counter, threshold, count);
            }
            8 => {
                let value = self.random.word();
                self.csr_write(ERROR_CSRS[counter as usize], value);
            }
            9 => {
                let address = self.no_counter();
                self.error(address);
            }
            _ => self.read_errors(counter),
        }
    }

    /// A look or a commit, or both, or one of them where it is refused with 17 or 19.
    pub fn look_step(&mut self) {
        let idle = self.machine.handlers.is_empty();
        if idle || self.machine.mask {
            match self.random.below(6) {
                0 => {
                    self.look();
                }
                1 => {
                    let number = self.a_number();
                    self.commit(number);
                }
                _ if idle => self.serve(),
                _ => {
                    self.set_mask(0);
                }
            }
            return;
        }
        if self.random.chance(1, 3) {
            self.provoke_chain();
        }
        match self.random.below(6) {
            0 | 1 => self.look_and_commit(),
            2 => {
                self.look();
            }
            // Between the two something changes, perhaps what a look would answer.
            3 => {
                let answer = self.look().answer;
                self.legal_store();
                self.commit(answer);
            }
            _ => {
                let number = self.a_number();
                self.commit(number);
            }
        }
        if self.random.chance(1, 3) {
            self.read_claim();
        }
    }

    /// Enables a source, ranks it and makes it pending.
    pub fn request(&mut self, source: u32, rank: Rank) {
        self.set_rank(source, rank);
        self.set_enable(source, true);
        self.set_active(source, true);
    }

    /// Makes a source win above threshold and current, if a rank is left for it.
    pub fn provoke(&mut self) {
        let current = self.machine.current_rank();
        let bar = self.machine.threshold_rank().max(current);
        if bar == Rank::HIGHEST {
            if current < Rank::HIGHEST {
                let rank = self.random.rank(0, 14);
                self.set_threshold(rank);
            } else if self.machine.handlers.is_empty() {
                let rank = self.random.rank(0, 7);
                self.set_current(rank);
            } else {
                let source = self.machine.winner().0 as u32;
                if source > 0 {
                    self.quiet(source);
                }
            }
            return;
        }
        let source = self.a_source();
        let rank = if self.random.chance(2, 3) {
            bar.higher()
        } else {
            self.random.rank(bar.higher().0, 15)
        };
        self.request(source, rank);
    }

    /// Makes a source of the uppermost handler's rank pending, and often the winner.
    pub fn provoke_chain(&mut self) {
        let top = match self.machine.handlers.last() {
            Some(top) => top.clone(),
            None => return,
        };
        if self.random.coin() {
            self.quiet(top.source as u32);
        }
        let source = self.a_source();
        self.request(source, top.rank);
        for _ in 0..4 {
            let (winner, rank) = self.machine.winner();
            if rank <= top.rank || self.random.chance(1, 4) {
                break;
            }
            self.quiet(winner as u32);
            if self.machine.winner().0 == winner {
                self.set_enable(winner as u32, false);
            }
        }
    }

    /// The service event that the state suggests, with what leads to it.
    pub fn serve(&mut self) {
        let margin = self.machine.margin();
        let dice = self.random.below(10);
        let top = self.machine.handlers.last().cloned();
        match top {
            None if !self.machine.mask => {
                self.set_mask(1);
            }
            None if margin > 0 => {
                self.take();
            }
            None => self.provoke(),
            Some(handler) if !handler.opened => match dice {
                0 => {
                    self.provoke_chain();
                    self.chain();
                }
                1 => {
                    self.chain();
                }
                2 => {
                    self.give_back();
                }
                _ => {
                    self.open();
                }
            },
            Some(_) if self.machine.mask => match dice {
                0 | 1 => {
                    self.set_mask(0);
                }
                _ if margin > 0 => {
                    self.take();
                }
                2 | 3 => {
                    self.set_mask(0);
                }
                _ => self.provoke(),
            },
            Some(_) => match dice {
                0..=2 => {
                    self.provoke_chain();
                    self.chain();
                }
                3 | 4 => {
                    self.chain();
                }
                5 => {
                    self.set_mask(1);
                }
                _ => {
                    self.give_back();
                }
            },
        }
    }

    pub fn legal_load(&mut self) {
        let source = self.a_source();
        let offset = match self.random.below(12) {
            0..=2 => 4 * source,
            3..=6 => 0x1000 + 4 * (source / 32),
            7 => 0x1000 + 4 * self.random.below(8),
            8 => 0x2000 + 4 * source,
            9 => 0x3000,
            10 => 0x4000 + 4 * source,
            _ => 0x5000 + 4 * source,
        };
        self.load(offset);
    }

    pub fn legal_store(&mut self) {
        let source = self.a_source();
        match self.random.below(16) {
            0..=4 => {
                let rank = self.a_rank();
                self.set_rank(source, rank);
            }
            5..=8 => {
                let enabled = self.random.chance(3, 4);
                self.set_enable(source, enabled);
            }
            9..=11 => {
                let (edge, active_low) = (self.random.coin(), self.random.chance(1, 3));
                self.set_gateway(source, edge, active_low);
            }
            12 | 13 => self.clear(source),
            14 => {
                // With a handler open the order must stay.
                let drawn = self.random.coin();
                let idle = self.machine.handlers.is_empty();
                self.set_priord(if idle { drawn } else { self.machine.priord });
            }
            _ => {
                let (word, value) = (self.random.below(8), self.random.word());
                self.store(0x1000 + 4 * word, value);
            }
        }
    }

    pub fn legal_csr_read(&mut self) {
        let address = self.a_csr();
        self.csr_read(address);
    }

    pub fn legal_csr_write(&mut self) {
        let rank = self.a_rank();
        match self.random.below(10) {
            0 | 1 => self.set_base(),
            2..=4 => self.set_threshold(rank),
            5 | 6 => self.capture(),
            7 => self.set_claimed(rank),
            8 => {
                self.set_current(rank.min(Rank(8)));
            }
            // Keeps the bar low, so that takes stay frequent.
            _ => self.set_threshold(Rank::LOWEST),
        }
    }

    pub fn boundary_offset(&mut self) -> u32 {
        let count = self.count();
        let page = 0x1000 * self.random.below(8);
        let plain = match self.random.below(8) {
            0 => page,
            1 => page + 4,
            2 => page + 4 * count,
            3 => page + 4 * (count + 1),
            4 => page + 0xFFC,
            5 => self
                .random
                .pick(&[0x1014, 0x101C, 0x1020, 0x1024, 0x3004, 0x3008]),
            6 => page + self.random.pick(&[0x3FC, 0x400, 0x404]),
            _ => self.random.pick(&[
                0x7FFC, 0x7FFF, 0x8000, 0x8002, 0x8004, 0x9000, 0xB000, 0xFFFF,
            ]),
        };
        match self.random.below(8) {
            0 => plain ^ self.random.between(1, 3),
            1 => plain ^ 0x8000,
            _ => plain,
        }
    }

    pub fn boundary_csr(&mut self) -> u32 {
        let real = match self.random.below(6) {
            0 | 1 => self.random.pick(&TIMER_CSRS),
            2 => self.random.pick(&ERROR_CSRS),
            _ => self.random.pick(&CSRS),
        };
        match self.random.below(11) {
            0..=3 => real,
            4 => self.random.pick(&[
                0x7D1, 0x7D8, 0x7EF, 0x7F3, 0x7F8, 0xBC7, 0xBCD, 0xFC7, 0xFC9,
            ]),
            5 => real | 0x1000 << self.random.below(4),
            6 => self.random.pick(&[
                0x1BC8, 0x1FC8, 0xFBC8, 0x17D2, 0xF7D7, 0x17F0, 0xF7F2, 0, 0xFFFF, 0x7C8, 0xBC0,
                0xBD2, 0xFCC,
            ]),
            7 => real ^ 1 << self.random.below(16),
            8 => 0x7D0 + self.random.below(0x30),
            9 => 0xB00 + self.random.below(0x100),
            _ => self.random.below(0x10000),
        }
    }

    pub fn boundary(&mut self) {
        let value = self.random.word();
        match self.random.below(4) {
            0 => {
                let offset = self.boundary_offset();
                self.load(offset);
            }
            1 => {
                let offset = self.boundary_offset();
                self.store(offset, value);
            }
            2 => {
                let address = self.boundary_csr();
                self.csr_read(address);
            }
            _ => {
                let address = self.boundary_csr();
                self.csr_write(address, value);
            }
        }
    }

    /// An event that is refused, in most states.
    pub fn refused_step(&mut self) {
        let value = self.random.word();
        let no_csrs = [
            0x7D1, 0x7D8, 0x7EF, 0x7F3, 0x17D2, 0x17F2, 0xBC7, 0xBCD, 0x1BCC, 0xFC9,
        ];
        match self.random.below(17) {
            0 => {
                let word = self.random.pick(&[8, 9, 16, 0x100, 0x8000, 0xFFFF]);
                self.sample(word, value);
            }
            1 => {
                let offset = 0x8000 + self.random.below(0x8000);
                self.load(offset);
            }
            2 => {
                let offset = 4 * self.random.below(0x2000) + self.random.between(1, 3);
                self.store(offset, value);
            }
            3 => {
                let address = self.random.pick(&no_csrs);
                self.csr_read(address);
            }
            4 => {
                let address = self.random.pick(&no_csrs);
                self.csr_write(address, value);
            }
            5 => {
                self.csr_write(MEIHAP, value);
            }
            6 => {
                self.csr_write(MEICURPL, value);
            }
            7 => {
                self.take();
            }
            8 => {
                self.open();
            }
            9 => {
                self.chain();
            }
            10 => {
                self.give_back();
            }
            11 => {
                let value = self
                    .random
                    .pick(&[2, 3, 0x100, 0x10000, 0x8000_0001, u32::MAX, value]);
                self.set_mask(value);
            }
            12 => {
                self.switch();
            }
            13 => {
                let address = self.no_counter();
                self.error(address);
            }
            14 => {
                self.look();
            }
            15 => {
                let number = self.a_number();
                self.commit(number);
            }
            _ => {
                self.set_mask(1);
            }
        }
    }

    pub fn random_sample(&mut self) {
        let word = if self.random.chance(3, 4) {
            self.a_source() / 32
        } else {
            self.random.below(8)
        };
        let lines = match self.random.below(5) {
            0 => 0,
            1 => u32::MAX,
            2 => self.random.word() & self.random.word() & self.random.word(),
            3 => 1 << self.random.below(32),
            _ => self.random.word(),
        };
        self.sample(word, lines);
    }

    pub fn step(&mut self, weights: &Weights) {
        let sorts = [
            weights.sample,
            weights.line,
            weights.load,
            weights.store,
            weights.csr_read,
            weights.csr_write,
            weights.service,
            weights.timer,
            weights.error,
            weights.look,
            weights.blind,
            weights.boundary,
            weights.refused,
        ];
        let mut dice = self.random.below(sorts.iter().sum());
        let mut sort = 0;
        while dice >= sorts[sort] {
            dice -= sorts[sort];
            sort += 1;
        }
        match sort {
            0 => self.random_sample(),
            1 => {
                let (source, level) = (self.a_source(), self.random.coin());
                self.set_line(source, level);
            }
            2 => self.legal_load(),
            3 => self.legal_store(),
            4 => self.legal_csr_read(),
            5 => self.legal_csr_write(),
            6 => self.serve(),
            7 => self.timer_step(),
            8 => self.error_step(),
            9 => self.look_step(),
            10 => {
                let kinds = [TAKE, OPEN, CHAIN, RETURN, SET_MASK, LOOK, COMMIT];
                let (address, value) = (self.a_source(), self.random.below(2));
                match self.random.pick(&kinds) {
                    SET_MASK => self.set_mask(value),
                    COMMIT => self.commit(address),
                    kind => self.event(kind, 0, 0),
                };
            }
            11 => self.boundary(),
            _ => self.refused_step(),
        }
    }

    /// At least `count` more events, as far as there is room.
    pub fn wander(&mut self, weights: &Weights, count: usize) {
        let goal = (self.events.len() + count).min(self.room);
        while self.events.len() < goal {
            self.step(weights);
        }
    }

    /// Shows as much of the state as answers can: registers, then latches, then handlers.
    pub fn audit(&mut self) {
        let whole = self.count() <= 40 || self.random.chance(1, 8);
        let mut shown: Vec<u32> = if whole {
            (1..=self.count()).collect()
        } else {
            self.focus.clone()
        };
        shown.sort_unstable();
        shown.dedup();
        for address in CSRS {
            self.csr_read(address);
        }
        self.read_timers();
        self.read_all_errors();
        self.load(0x3000);
        self.pending_words();
        for &source in &shown {
            for page in [0, 0x2000, 0x4000] {
                self.load(page + 4 * source);
            }
        }
        let after = 4 * (self.count() + 1);
        for page in [0, 0x2000, 0x4000, 0x5000] {
            self.load(page);
            self.load(page + after);
        }
        self.capture();
        self.read_claim();
        if self.random.chance(3, 4) {
            self.unwind();
        }
        // An edge source shows the latch that it had as a level source.
        for &source in &shown {
            let active_low = self.machine.source(source as usize).active_low;
            self.set_gateway(source, true, active_low);
        }
        self.pending_words();
        self.capture();
        self.read_claim();
    }

    /// Returns from all handlers, from some after a chain or a commit.
    pub fn unwind(&mut self) {
        while !self.machine.handlers.is_empty() && !self.full() {
            if self.machine.mask {
                self.set_mask(0);
            }
            match self.random.below(6) {
                0 | 1 => {
                    self.chain();
                    self.csr_read(MEIHAP);
                }
                2 => {
                    self.look_and_commit();
                    self.csr_read(MEIHAP);
                }
                _ => {}
            }
            self.give_back();
            self.csr_read(MEICURPL);
        }
    }
}
