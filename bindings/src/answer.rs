//! What a call gives back: one word of 64 bits, decoded.

/// A number, where it points to, how many, by how much, and from which slice.
#[derive(Clone, Copy, Debug, Default, PartialEq, Eq, Hash)]
pub struct Answer {
    /// 0 for a good answer, else the number of the refusal.
    pub number: u8,
    /// The project or the kind that a refusal is about, where its number has one.
    pub place: u8,
    /// Bytes taken or written (of a rescue those of the list), or the least budget.
    pub count: u16,
    /// By how many slices a unit is too long; 24 bits.
    pub excess: u32,
    /// The bad slice of the frame for such a unit to arrive in.
    pub slice: u8,
}

/// The bits that an excess has.
const EXCESS: u32 = 0xFF_FFFF;

impl Answer {
    /// The answer that a word carries.
    pub fn of_word(word: u64) -> Answer {
        Answer {
            number: word as u8,
            place: (word >> 8) as u8,
            count: (word >> 16) as u16,
            excess: (word >> 32) as u32 & EXCESS,
            slice: (word >> 56) as u8,
        }
    }

    /// The word that carries this answer.
    pub fn word(self) -> u64 {
        u64::from(self.number)
            | u64::from(self.place) << 8
            | u64::from(self.count) << 16
            | u64::from(self.excess & EXCESS) << 32
            | u64::from(self.slice) << 56
    }

    /// Whether the call was accepted.
    pub fn is_good(self) -> bool {
        self.number == 0
    }
}

/// Each number with a short sentence, as in the header.
pub const NUMBERS: [(u8, &str); 20] = [
    (0, "good"),
    (1, "fewer bytes than a plan takes"),
    (2, "cards, projects, kinds or frame out of range"),
    (3, "a spare bit or an unused place is not zero"),
    (4, "a project's ceiling or budget is out of range"),
    (5, "a kind names a project that is not there"),
    (
        6,
        "a kind is not 1 <= length <= deadline <= separation <= 4095",
    ),
    (7, "the budgets sum above the cards times the frame"),
    (8, "not admitted: a kind's unit is too long"),
    (9, "a buffer is shorter than needed"),
    (10, "the state is out of form"),
    (12, "there is no such kind"),
    (13, "the unit's length is 0 or above its kind's"),
    (
        14,
        "the kind's last release was less than its separation ago",
    ),
    (16, "a stored sum differs from what is left"),
    (17, "cards out of range, or no list of kinds"),
    (18, "more than eight kinds are listed"),
    (19, "the separations' greatest common divisor exceeds 64"),
    (20, "no kind remains"),
    (27, "there is no such project"),
];

/// A number in words.
pub fn in_words(number: u8) -> &'static str {
    let found = NUMBERS.iter().find(|(known, _)| *known == number);
    found.map_or("no number of this version", |(_, words)| words)
}
