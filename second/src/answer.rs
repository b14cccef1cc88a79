//! "Numbers given back when we say no."

/// "A good answer has number and place 0"; "Excess is 0 except with 8".
#[derive(Clone, Copy, Debug, Default, PartialEq, Eq, Hash)]
pub struct Answer {
    /// The column "no.", or a number that a request adds; 0 for a good answer.
    pub number: u64,
    /// The column "place".
    pub place: u64,
    /// The slices by which its unit is too long, "C minus the greatest C'".
    pub excess: u64,
    /// "which slice is the bad one to arrive in", for the least k that allows C'.
    pub slice: u64,
}

impl Answer {
    /// "A good answer has number and place 0".
    pub const GOOD: Answer = Answer {
        number: 0,
        place: 0,
        excess: 0,
        slice: 0,
    };

    /// A row of the table whose place is 0.
    pub fn refused(number: u64) -> Answer {
        Answer {
            number,
            ..Answer::GOOD
        }
    }

    /// A row of the table whose place is "first such project" or "that kind".
    pub fn refused_at(number: u64, place: usize) -> Answer {
        Answer {
            number,
            place: place as u64,
            ..Answer::GOOD
        }
    }

    /// 8, "first kind with no k, with its excess"; "every verdict and excess should pass that slice on".
    pub fn not_admitted(place: usize, excess: u64, slice: u64) -> Answer {
        Answer {
            number: 8,
            place: place as u64,
            excess,
            slice,
        }
    }

    /// "A good answer has number and place 0".
    pub fn is_good(&self) -> bool {
        self.number == 0
    }
}
