//! Ranks, and the fields that registers hold for them in either priority order.

/// How urgent a request is: 15 the most, and 0 is never served.
#[derive(Clone, Copy, Debug, Default, PartialEq, Eq, PartialOrd, Ord)]
pub struct Rank(pub u8);

/// Bits 3:0 of meiplS, meipt, meicidpl or meicurpl. What rank it stands for depends on priord, so
/// fields have no order of their own.
#[derive(Clone, Copy, Debug, Default, PartialEq, Eq)]
pub struct Field(pub u8);

impl Rank {
    pub const LOWEST: Rank = Rank(0);
    pub const HIGHEST: Rank = Rank(15);

    /// The field that stands for this rank.
    pub fn field(self, priord: bool) -> Field {
        Field(if priord { 15 - self.0 } else { self.0 })
    }

    /// The next rank down, if there is one.
    pub fn lower(self) -> Rank {
        Rank(self.0.saturating_sub(1))
    }

    /// The next rank up, if there is one.
    pub fn higher(self) -> Rank {
        Rank((self.0 + 1).min(15))
    }
}

impl Field {
    /// What a register keeps of a written value.
    pub fn written(value: u32) -> Field {
        Field((value & 15) as u8)
    }

    /// The rank that this field stands for.
    pub fn rank(self, priord: bool) -> Rank {
        Rank(if priord { 15 - self.0 } else { self.0 })
    }

    pub fn sound(self) -> bool {
        self.0 <= 15
    }
}

impl From<Rank> for u32 {
    fn from(rank: Rank) -> u32 {
        u32::from(rank.0)
    }
}

impl From<Field> for u32 {
    fn from(field: Field) -> u32 {
        u32::from(field.0)
    }
}
