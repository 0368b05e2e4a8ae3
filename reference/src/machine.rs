//! The interrupt controller, its handlers, the internal timers, the error counters, and the
//! fourteen events.

use crate::error_counter::{error_counter, ErrorCounter};
use crate::event::{Action, Event};
use crate::rank::{Field, Rank};
use crate::timer::{timer_register, Timer};

pub const MEIVT: u32 = 0xBC8;
pub const MEIPT: u32 = 0xBC9;
pub const MEICPCT: u32 = 0xBCA;
pub const MEICIDPL: u32 = 0xBCB;
pub const MEICURPL: u32 = 0xBCC;
pub const MEIHAP: u32 = 0xFC8;
/// The controller's CSRs; those of timers and error counters are apart.
pub const CSRS: [u32; 6] = [MEIVT, MEIPT, MEICPCT, MEICIDPL, MEICURPL, MEIHAP];

/// One external source with its gateway.
#[derive(Clone, Debug, Default, PartialEq, Eq)]
pub struct Source {
    /// What meiplS holds.
    pub field: Field,
    pub enabled: bool,
    /// Type 1: pending by the latch, not by the line.
    pub edge: bool,
    /// Polarity 1.
    pub active_low: bool,
    pub line: bool,
    pub latch: bool,
}

impl Source {
    pub fn active(&self) -> bool {
        self.line != self.active_low
    }

    pub fn pending(&self) -> bool {
        if self.edge {
            self.latch
        } else {
            self.active()
        }
    }
}

#[derive(Clone, Debug, PartialEq, Eq)]
pub struct Handler {
    pub source: usize,
    pub rank: Rank,
    /// Current's rank at the time of the take.
    pub saved: Rank,
    pub opened: bool,
}

#[derive(Clone, Debug, PartialEq, Eq)]
pub struct Machine {
    /// Source S stands at place S - 1.
    pub sources: Vec<Source>,
    pub priord: bool,
    pub base: u32,
    pub claim: usize,
    /// What meipt holds.
    pub threshold: Field,
    /// What meicidpl holds.
    pub claimed: Field,
    /// What meicurpl holds.
    pub current: Field,
    pub mask: bool,
    /// The uppermost handler is the last.
    pub handlers: Vec<Handler>,
    pub timers: [Timer; 2],
    pub error_counters: [ErrorCounter; 3],
}

/// The answer of an event and its refusal number, 0 when accepted.
#[derive(Clone, Copy, Debug, PartialEq, Eq)]
pub struct Outcome {
    pub answer: u32,
    pub refusal: u32,
}

/// What a memory-mapped offset names.
enum Register {
    Priority(usize),
    Pending(usize),
    Enable(usize),
    Configuration,
    GatewayControl(usize),
    GatewayClear(usize),
    Unmapped,
}

fn require(yes: bool, refusal: u32) -> Result<(), u32> {
    if yes {
        Ok(())
    } else {
        Err(refusal)
    }
}

/// Questions 10 and 11.
fn admit_offset(offset: u32) -> Result<(), u32> {
    require(offset < 0x8000, 10)?;
    require(offset % 4 == 0, 11)
}

/// The priority order that a value stored to mpiccfg asks for.
fn priord_of(value: u32) -> bool {
    value & 1 != 0
}

fn is_csr(address: u32) -> bool {
    CSRS.contains(&address) || timer_register(address).is_some() || error_counter(address).is_some()
}

impl Machine {
    /// The machine at power-on; for a bad N the machine of two sources and refusal 2.
    pub fn power_on(count: u32) -> (Machine, u32) {
        let (count, refusal) = if (2..=255).contains(&count) {
            (count, 0)
        } else {
            (2, 2)
        };
        let machine = Machine {
            sources: vec![Source::default(); count as usize],
            priord: false,
            base: 0,
            claim: 0,
            threshold: Field(0),
            claimed: Field(0),
            current: Field(0),
            mask: false,
            handlers: Vec::new(),
            timers: [Timer::power_on(), Timer::power_on()],
            error_counters: Default::default(),
        };
        (machine, refusal)
    }

    pub fn count(&self) -> usize {
        self.sources.len()
    }

    pub fn source(&self, number: usize) -> &Source {
        &self.sources[number - 1]
    }

    fn source_mut(&mut self, number: usize) -> &mut Source {
        &mut self.sources[number - 1]
    }

    pub fn sound(&self) -> bool {
        self.values_in_range() && self.latches_sound() && self.handlers_sound()
    }

    fn values_in_range(&self) -> bool {
        (2..=255).contains(&self.count())
            && self.sources.iter().all(|source| source.field.sound())
            && self.base % 1024 == 0
            && self.claim <= self.count()
            && self.threshold.sound()
            && self.claimed.sound()
            && self.current.sound()
            && self.handlers.len() <= 15
            && self.timers.iter().all(Timer::sound)
            && self.error_counters.iter().all(ErrorCounter::sound)
    }

    fn latches_sound(&self) -> bool {
        self.sources
            .iter()
            .all(|source| source.latch || !source.active())
    }

    fn handlers_sound(&self) -> bool {
        let top = match self.handlers.last() {
            Some(top) => top,
            None => return true,
        };
        let each = self.handlers.iter().all(|handler| {
            (1..=self.count()).contains(&handler.source) && (1..=15).contains(&handler.rank.0)
        });
        let lowest = &self.handlers[0];
        let pairs = self.handlers.windows(2).all(|pair| {
            pair[0].rank < pair[1].rank && pair[0].opened && pair[1].saved == pair[0].rank
        });
        let level = if top.opened { top.rank } else { top.saved };
        each && lowest.saved < lowest.rank
            && pairs
            && self.current_rank() == level
            && (!self.mask || top.opened)
    }

    /// The rank of a field in the priority order of now.
    pub fn rank(&self, field: Field) -> Rank {
        field.rank(self.priord)
    }

    /// The field of a rank in the priority order of now.
    pub fn field(&self, rank: Rank) -> Field {
        rank.field(self.priord)
    }

    pub fn source_rank(&self, number: usize) -> Rank {
        self.rank(self.source(number).field)
    }

    pub fn threshold_rank(&self) -> Rank {
        self.rank(self.threshold)
    }

    pub fn claimed_rank(&self) -> Rank {
        self.rank(self.claimed)
    }

    pub fn current_rank(&self) -> Rank {
        self.rank(self.current)
    }

    pub fn eligible(&self, number: usize) -> bool {
        let source = self.source(number);
        source.enabled && source.pending() && self.source_rank(number) >= Rank(1)
    }

    /// The eligible source of highest rank, of equals the lowest number, and its rank; else 0, 0.
    pub fn winner(&self) -> (usize, Rank) {
        let mut best = (0, Rank::LOWEST);
        for number in 1..=self.count() {
            let rank = self.source_rank(number);
            if self.eligible(number) && rank > best.1 {
                best = (number, rank);
            }
        }
        best
    }

    /// The margin query: refused with 8 for a machine that isn't sound.
    pub fn query_margin(&self) -> Result<i32, u32> {
        require(self.sound(), 8)?;
        Ok(self.margin())
    }

    pub fn margin(&self) -> i32 {
        let bar = self.threshold_rank().max(self.current_rank());
        i32::from(self.winner().1 .0) - i32::from(bar.0)
    }

    pub fn meihap(&self) -> u32 {
        self.base + 4 * self.claim as u32
    }

    /// Plays one event. A refused event leaves the machine as it was and answers 0.
    pub fn play(&mut self, event: Event) -> Outcome {
        match self.attempt(event) {
            Ok(answer) => Outcome { answer, refusal: 0 },
            Err(refusal) => Outcome { answer: 0, refusal },
        }
    }

    fn attempt(&mut self, event: Event) -> Result<u32, u32> {
        require(self.sound(), 8)?;
        let action = event.action()?;
        self.admit(action)?;
        let answer = self.perform(action);
        self.settle_latches();
        debug_assert!(self.sound(), "unsound after {event:?}: {self:?}");
        Ok(answer)
    }

    /// Questions 9 to 21 and 24 to 26.
    fn admit(&self, action: Action) -> Result<(), u32> {
        match action {
            Action::Sample { word, .. } => require(word <= 7, 9),
            Action::Load { offset } => admit_offset(offset),
            Action::Store { offset, value } => {
                admit_offset(offset)?;
                let switches = self.switches(offset, value);
                require(!switches || self.handlers.is_empty(), 24)
            }
            Action::CsrRead { address } => require(is_csr(address), 12),
            Action::CsrWrite { address, .. } => {
                require(is_csr(address), 12)?;
                require(address != MEIHAP, 13)?;
                require(address != MEICURPL || self.handlers.is_empty(), 14)
            }
            Action::Take => {
                require(self.mask, 15)?;
                require(self.margin() > 0, 16)
            }
            Action::Open => {
                let top = self.handlers.last().ok_or(17u32)?;
                require(!top.opened, 18)
            }
            Action::Chain | Action::Return | Action::Look => self.admit_masked(),
            Action::Commit { source } => {
                self.admit_masked()?;
                require(source != 0 && source == self.chainable(), 26)
            }
            Action::SetMask { value } => {
                require(value <= 1, 20)?;
                let may_unmask = self.handlers.last().map_or(true, |top| top.opened);
                require(value == 0 || may_unmask, 21)
            }
            Action::Clock => Ok(()),
            Action::Error { counter } => require(counter <= 2, 25),
        }
    }

    /// Questions 17 and 19.
    fn admit_masked(&self) -> Result<(), u32> {
        require(!self.handlers.is_empty(), 17)?;
        require(!self.mask, 19)
    }

    /// Does an admitted action and gives its answer.
    fn perform(&mut self, action: Action) -> u32 {
        match action {
            Action::Sample { word, lines } => {
                self.sample(word, lines);
                0
            }
            Action::Load { offset } => self.load(offset),
            Action::Store { offset, value } => {
                self.store(offset, value);
                0
            }
            Action::CsrRead { address } => self.read_csr(address),
            Action::CsrWrite { address, value } => {
                self.write_csr(address, value);
                0
            }
            Action::Take => self.take(),
            Action::Open => self.open(),
            Action::Chain => self.chain(),
            Action::Return => self.give_back(),
            Action::SetMask { value } => {
                self.mask = value == 1;
                0
            }
            Action::Clock => self.clock(),
            Action::Error { counter } => u32::from(self.error_counters[counter as usize].error()),
            Action::Look => self.chainable(),
            Action::Commit { source } => self.commit(source),
        }
    }

    /// An active line sets its latch; other latches stay.
    fn settle_latches(&mut self) {
        for source in &mut self.sources {
            if source.active() {
                source.latch = true;
            }
        }
    }

    fn sample(&mut self, word: u32, lines: u32) {
        for bit in 0..32 {
            let number = (32 * word + bit) as usize;
            if number >= 1 && number <= self.count() {
                self.source_mut(number).line = lines & (1 << bit) != 0;
            }
        }
    }

    fn register(&self, offset: u32) -> Register {
        let page = offset / 0x1000;
        let place = (offset % 0x1000 / 4) as usize;
        let is_source = place >= 1 && place <= self.count();
        match page {
            0 if is_source => Register::Priority(place),
            1 if place < 8 => Register::Pending(place),
            2 if is_source => Register::Enable(place),
            3 if place == 0 => Register::Configuration,
            4 if is_source => Register::GatewayControl(place),
            5 if is_source => Register::GatewayClear(place),
            _ => Register::Unmapped,
        }
    }

    /// Whether a store would change the priority order.
    fn switches(&self, offset: u32, value: u32) -> bool {
        matches!(self.register(offset), Register::Configuration) && priord_of(value) != self.priord
    }

    fn load(&self, offset: u32) -> u32 {
        match self.register(offset) {
            Register::Priority(number) => self.source(number).field.into(),
            Register::Pending(word) => self.pending_word(word),
            Register::Enable(number) => u32::from(self.source(number).enabled),
            Register::Configuration => u32::from(self.priord),
            Register::GatewayControl(number) => {
                let source = self.source(number);
                2 * u32::from(source.edge) + u32::from(source.active_low)
            }
            Register::GatewayClear(_) | Register::Unmapped => 0,
        }
    }

    fn store(&mut self, offset: u32, value: u32) {
        match self.register(offset) {
            Register::Priority(number) => self.source_mut(number).field = Field::written(value),
            Register::Enable(number) => self.source_mut(number).enabled = value & 1 != 0,
            Register::Configuration => self.priord = priord_of(value),
            Register::GatewayControl(number) => {
                let source = self.source_mut(number);
                source.edge = value & 2 != 0;
                source.active_low = value & 1 != 0;
            }
            Register::GatewayClear(number) => self.source_mut(number).latch = false,
            Register::Pending(_) | Register::Unmapped => {}
        }
    }

    pub fn pending_word(&self, word: usize) -> u32 {
        let mut bits = 0;
        for (place, source) in self.sources.iter().enumerate() {
            let number = place + 1;
            if number / 32 == word && source.pending() {
                bits += 1 << (number % 32);
            }
        }
        bits
    }

    fn read_csr(&self, address: u32) -> u32 {
        match address {
            MEIVT => self.base,
            MEIPT => self.threshold.into(),
            MEICIDPL => self.claimed.into(),
            MEICURPL => self.current.into(),
            MEIHAP => self.meihap(),
            _ => self.read_counters(address),
        }
    }

    fn write_csr(&mut self, address: u32, value: u32) {
        match address {
            MEIVT => self.base = value - value % 1024,
            MEIPT => self.threshold = Field::written(value),
            MEICPCT => {
                self.capture();
            }
            MEICIDPL => self.claimed = Field::written(value),
            MEICURPL => self.current = Field::written(value),
            _ => self.write_counters(address, value),
        }
    }

    /// A CSR of the timers or of the error counters.
    fn read_counters(&self, address: u32) -> u32 {
        if let Some((timer, register)) = timer_register(address) {
            self.timers[timer].read(register)
        } else if let Some(counter) = error_counter(address) {
            self.error_counters[counter].read()
        } else {
            0
        }
    }

    fn write_counters(&mut self, address: u32, value: u32) {
        if let Some((timer, register)) = timer_register(address) {
            self.timers[timer].write(register, value);
        } else if let Some(counter) = error_counter(address) {
            self.error_counters[counter].write(value);
        }
    }

    /// Sets claim and claimed from the winner, and gives the winner and its rank.
    fn capture(&mut self) -> (usize, Rank) {
        let (source, rank) = self.winner();
        self.claim = source;
        self.claimed = self.field(rank);
        (source, rank)
    }

    fn take(&mut self) -> u32 {
        let (source, rank) = self.capture();
        self.handlers.push(Handler {
            source,
            rank,
            saved: self.current_rank(),
            opened: false,
        });
        self.mask = false;
        self.meihap()
    }

    fn open(&mut self) -> u32 {
        let top = match self.handlers.last_mut() {
            Some(top) => top,
            None => return 0,
        };
        top.opened = true;
        let rank = top.rank;
        self.current = self.field(rank);
        self.mask = true;
        rank.into()
    }

    /// Whether a chain serves a winner of this rank.
    fn chains(&self, rank: Rank) -> bool {
        match self.handlers.last() {
            Some(top) => top.rank == rank && rank > self.threshold_rank(),
            None => false,
        }
    }

    fn chain(&mut self) -> u32 {
        let (source, rank) = self.capture();
        if self.chains(rank) {
            self.replace(source);
            self.meihap()
        } else {
            0
        }
    }

    /// The source that a chain would serve, or 0.
    pub fn chainable(&self) -> u32 {
        let (source, rank) = self.winner();
        if self.chains(rank) {
            source as u32
        } else {
            0
        }
    }

    /// Serves the source that a look answers.
    fn commit(&mut self, source: u32) -> u32 {
        self.capture();
        self.replace(source as usize);
        self.meihap()
    }

    /// The uppermost handler goes on with another source.
    fn replace(&mut self, source: usize) {
        if let Some(top) = self.handlers.last_mut() {
            top.source = source;
        }
    }

    fn give_back(&mut self) -> u32 {
        if let Some(top) = self.handlers.pop() {
            self.current = self.field(top.saved);
        }
        self.mask = true;
        self.handlers.len() as u32
    }

    /// Bit 0 of the answer: timer 0 signals; bit 1: timer 1.
    fn clock(&mut self) -> u32 {
        let mut signals = 0;
        for (place, timer) in self.timers.iter_mut().enumerate() {
            signals |= u32::from(timer.clock()) << place;
        }
        signals
    }
}
