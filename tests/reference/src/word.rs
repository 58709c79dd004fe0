//! The two packed words: document 01, "Tables", sizes from 003's footnote 3.

pub const STABLE: u64 = 0;
pub const RPUSH: u64 = 1;
pub const LPUSH: u64 = 2;

/// The highest tag that 32 bits hold.
pub const LAST_TAG: u64 = 0xffff_ffff;

const SLOT_BITS: u32 = 15;
const SLOT_MASK: u64 = (1 << SLOT_BITS) - 1;
const LINK_SPARE: u64 = 0xffff_ffff & !SLOT_MASK;

#[derive(Clone, Copy, Debug, PartialEq, Eq, Hash)]
pub enum Side {
    Left,
    Right,
}

impl Side {
    /// The document's number of a side: 0 is left; the caller has refused the rest.
    pub fn numbered(number: u64) -> Side {
        if number == 0 {
            Side::Left
        } else {
            Side::Right
        }
    }

    pub fn opposite(self) -> Side {
        match self {
            Side::Left => Side::Right,
            Side::Right => Side::Left,
        }
    }

    /// The status that a push at this side leaves behind.
    pub fn push_status(self) -> u64 {
        match self {
            Side::Left => LPUSH,
            Side::Right => RPUSH,
        }
    }
}

/// An Anchor taken apart: bits 63-32, 31-30, 29-15 and 14-0.
#[derive(Clone, Copy, Debug, PartialEq, Eq)]
pub struct Anchor {
    pub tag: u64,
    pub status: u64,
    pub left: u64,
    pub right: u64,
}

impl Anchor {
    pub fn unpack(word: u64) -> Anchor {
        Anchor {
            tag: word >> 32,
            status: word >> 30 & 3,
            left: word >> SLOT_BITS & SLOT_MASK,
            right: word & SLOT_MASK,
        }
    }

    pub fn pack(self) -> u64 {
        self.tag << 32 | self.status << 30 | self.left << SLOT_BITS | self.right
    }

    pub fn end(self, side: Side) -> u64 {
        match side {
            Side::Left => self.left,
            Side::Right => self.right,
        }
    }

    /// The same Anchor with another slot at one end.
    pub fn with_end(self, side: Side, slot: u64) -> Anchor {
        match side {
            Side::Left => Anchor { left: slot, ..self },
            Side::Right => Anchor { right: slot, ..self },
        }
    }

    pub fn with_status(self, status: u64) -> Anchor {
        Anchor { status, ..self }
    }

    pub fn is_empty(self) -> bool {
        self.left == 0 && self.right == 0
    }

    /// The side that the status names; right for anything but LPUSH.
    pub fn pushed_side(self) -> Side {
        if self.status == LPUSH {
            Side::Left
        } else {
            Side::Right
        }
    }

    /// Refusal 34's four ways for an Anchor to be unsound, denied.
    pub fn is_sound(self, slots: u64) -> bool {
        self.status <= LPUSH
            && self.left <= slots
            && self.right <= slots
            && (self.left == 0) == (self.right == 0)
            && (self.status == STABLE || self.left != self.right)
    }
}

/// A link word: bits 63-32 tag, 31-15 zero, 14-0 slot.
#[derive(Clone, Copy, Debug, PartialEq, Eq)]
pub struct Link(pub u64);

impl Link {
    pub fn new(tag: u64, slot: u64) -> Link {
        Link(tag << 32 | slot)
    }

    pub fn tag(self) -> u64 {
        self.0 >> 32
    }

    pub fn slot(self) -> u64 {
        self.0 & SLOT_MASK
    }

    pub fn is_sound(self, slots: u64) -> bool {
        self.0 & LINK_SPARE == 0 && self.slot() <= slots
    }
}
