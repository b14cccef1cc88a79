//! The C interface as bytes: images, the answer's word, and one call with all its buffers.

use second::{Answer, Kind, KindState, Plan, Project, State};
use std::fmt;

/// Bytes of a plan image.
pub const PLAN_IMAGE: usize = 140;
/// Bytes of a state image.
pub const STATE_IMAGE: usize = 237;
/// Where the slice stands in a state image: behind the plan.
pub const SLICE_AT: usize = PLAN_IMAGE;
/// Where the units begin: behind the plan and the slice.
pub const UNITS_AT: usize = SLICE_AT + 1;
/// The bytes of a unit: released, gone, left.
pub const UNIT: usize = 5;
/// Where the sums begin: behind sixteen units.
pub const SUMS_AT: usize = UNITS_AT + 16 * UNIT;
/// Bytes of a verdict: the k of each kind, then the slice of each.
pub const VERDICT_BYTES: usize = 32;
/// Bytes of a kind's figures: the workload, the supply at each k, then the slice of each.
pub const FIGURES_BYTES: usize = 44;

/// The thirteen functions on bytes. The word: number in bits 0-7, place 8-15, count 16-31, excess 32-55, slice 56-63.
pub trait Side {
    /// Is the plan in order?
    fn check(&self, plan: &[u8]) -> u64;
    /// Reads plan bytes into a plan image.
    fn read(&self, bytes: &[u8], plan: &mut [u8]) -> u64;
    /// Writes the plan's bytes.
    fn write(&self, plan: &[u8], out: &mut [u8]) -> u64;
    /// Writes the slot table.
    fn slot_table(&self, plan: &[u8], out: &mut [u8]) -> u64;
    /// Gives the least k of each kind, and the slice of each.
    fn verdict(&self, plan: &[u8], k: &mut [u8]) -> u64;
    /// Gives the smallest budget of a project.
    fn smallest_budget(&self, plan: &[u8], project: u64) -> u64;
    /// Builds a plan of one-kind projects.
    fn build(&self, cards: u64, list: &[u8], plan: &mut [u8]) -> u64;
    /// Rescues damaged plan bytes: writes a plan image and the list of changes.
    fn rescue(&self, bytes: &[u8], plan: &mut [u8], list: &mut [u8]) -> u64;
    /// Starts fresh: writes a state image.
    fn fresh(&self, plan: &[u8], state: &mut [u8]) -> u64;
    /// Releases a unit.
    fn release(&self, state: &mut [u8], kind: u64, e: u64) -> u64;
    /// Shows the row of the next slice.
    fn show(&self, state: &[u8], row: &mut [u8]) -> u64;
    /// Runs a slice.
    fn advance(&self, state: &mut [u8]) -> u64;
    /// Gives the figures of a kind.
    fn figures(&self, plan: &[u8], kind: u64, out: &mut [u8]) -> u64;
}

/// The word that carries an answer and a count.
pub fn word(answer: Answer, count: usize) -> u64 {
    let count = (count as u64) << 16;
    answer.number | answer.place << 8 | count | answer.excess << 32 | answer.slice << 56
}

/// The word of a refusal with place 0.
pub fn refused(number: u64) -> u64 {
    word(Answer::refused(number), 0)
}

/// The number in a word; 0 is a good answer.
pub fn number(word: u64) -> u64 {
    word & 0xFF
}

/// Takes one big-endian field after the other.
struct Fields<'a> {
    bytes: &'a [u8],
}

impl Fields<'_> {
    fn take<const N: usize>(&mut self) -> [u8; N] {
        let mut field = [0; N];
        let (first, rest) = self.bytes.split_at(N);
        field.copy_from_slice(first);
        self.bytes = rest;
        field
    }

    fn u8(&mut self) -> u8 {
        self.take::<1>()[0]
    }

    fn u16(&mut self) -> u16 {
        u16::from_be_bytes(self.take())
    }

    fn plan(&mut self) -> Plan {
        let mut plan = Plan {
            m: self.u8(),
            p: self.u8(),
            n: self.u8(),
            frame: self.u8(),
            ..Plan::default()
        };
        for place in &mut plan.projects {
            *place = Project {
                ceiling: self.u8(),
                budget: self.u16(),
            };
        }
        for place in &mut plan.kinds {
            *place = Kind {
                project: self.u8(),
                separation: self.u16(),
                deadline: self.u16(),
                length: self.u16(),
            };
        }
        plan
    }
}

/// Puts one big-endian field after the other.
struct Image<'a> {
    bytes: &'a mut [u8],
    next: usize,
}

impl Image<'_> {
    fn put(&mut self, field: &[u8]) {
        self.bytes[self.next..self.next + field.len()].copy_from_slice(field);
        self.next += field.len();
    }

    fn put_plan(&mut self, plan: &Plan) {
        self.put(&[plan.m, plan.p, plan.n, plan.frame]);
        for place in &plan.projects {
            self.put(&[place.ceiling]);
            self.put(&place.budget.to_be_bytes());
        }
        for place in &plan.kinds {
            self.put(&[place.project]);
            self.put(&place.separation.to_be_bytes());
            self.put(&place.deadline.to_be_bytes());
            self.put(&place.length.to_be_bytes());
        }
    }
}

/// The plan that an image of at least 140 bytes holds.
pub fn plan_of(image: &[u8]) -> Plan {
    Fields { bytes: image }.plan()
}

/// The image of a plan.
pub fn plan_image(plan: &Plan) -> [u8; PLAN_IMAGE] {
    let mut bytes = [0; PLAN_IMAGE];
    Image {
        bytes: &mut bytes,
        next: 0,
    }
    .put_plan(plan);
    bytes
}

/// The state that an image of at least 237 bytes holds; none when a released byte is neither 0 nor 1.
pub fn state_of(image: &[u8]) -> Option<State> {
    let mut fields = Fields { bytes: image };
    let mut state = State {
        plan: fields.plan(),
        slice: fields.u8(),
        ..State::default()
    };
    for place in &mut state.kinds {
        *place = KindState {
            released: match fields.u8() {
                0 => false,
                1 => true,
                _ => return None,
            },
            gone: fields.u16(),
            left: fields.u16(),
        };
    }
    for sum in &mut state.sums {
        *sum = fields.u16();
    }
    Some(state)
}

/// The image of a state.
pub fn state_image(state: &State) -> [u8; STATE_IMAGE] {
    let mut bytes = [0; STATE_IMAGE];
    let mut image = Image {
        bytes: &mut bytes,
        next: 0,
    };
    image.put_plan(&state.plan);
    image.put(&[state.slice]);
    for place in &state.kinds {
        image.put(&[u8::from(place.released)]);
        image.put(&place.gone.to_be_bytes());
        image.put(&place.left.to_be_bytes());
    }
    for sum in &state.sums {
        image.put(&sum.to_be_bytes());
    }
    bytes
}

/// Which of the thirteen functions.
#[derive(Clone, Copy, Debug, PartialEq, Eq, PartialOrd, Ord)]
#[allow(missing_docs)]
pub enum Op {
    Check,
    Read,
    Write,
    SlotTable,
    Verdict,
    SmallestBudget,
    Build,
    Rescue,
    Fresh,
    Release,
    Show,
    Advance,
    Figures,
}

/// Each function with its name.
pub const OPS: [(Op, &str); 13] = [
    (Op::Check, "check"),
    (Op::Read, "read"),
    (Op::Write, "write"),
    (Op::SlotTable, "slot_table"),
    (Op::Verdict, "verdict"),
    (Op::SmallestBudget, "smallest_budget"),
    (Op::Build, "build"),
    (Op::Rescue, "rescue"),
    (Op::Fresh, "fresh"),
    (Op::Release, "release"),
    (Op::Show, "show"),
    (Op::Advance, "advance"),
    (Op::Figures, "figures"),
];

impl Op {
    /// The function's name.
    pub fn name(self) -> &'static str {
        OPS[self as usize].1
    }
}

/// One call: what is given (a plan image, plan bytes, a list or a state image) and what else is lent.
#[derive(Clone, Debug, PartialEq, Eq)]
pub struct Case {
    /// The function called.
    pub op: Op,
    /// The first buffer: a plan image, plan bytes, a list or a state image.
    pub given: Vec<u8>,
    /// The second buffer, as it is lent; empty for `check`, `smallest_budget`, `release` and `advance`.
    pub lent: Vec<u8>,
    /// The third buffer, as it is lent: the list of `rescue`.
    pub list: Vec<u8>,
    /// The kind and the length e of `release`, the project of `smallest_budget`, the cards of `build`, the kind of `figures`.
    pub numbers: [u64; 2],
}

/// What a call leaves: the word, and every byte of both buffers.
#[derive(Clone, Debug, PartialEq, Eq)]
pub struct Outcome {
    /// The answer.
    pub word: u64,
    /// The first buffer after the call.
    pub given: Vec<u8>,
    /// The second buffer after the call.
    pub lent: Vec<u8>,
    /// The third buffer after the call.
    pub list: Vec<u8>,
    /// Whether a byte just outside a buffer was changed.
    pub outside: bool,
}

/// A buffer with known bytes on both sides.
struct Fenced {
    bytes: Vec<u8>,
}

const FENCE: [u8; 16] = [0xA5; 16];

impl Fenced {
    fn new(inside: &[u8]) -> Fenced {
        let mut bytes = Vec::with_capacity(inside.len() + 2 * FENCE.len());
        bytes.extend_from_slice(&FENCE);
        bytes.extend_from_slice(inside);
        bytes.extend_from_slice(&FENCE);
        Fenced { bytes }
    }

    fn inside(&mut self) -> &mut [u8] {
        let end = self.bytes.len() - FENCE.len();
        &mut self.bytes[FENCE.len()..end]
    }

    fn broken(&self) -> bool {
        !self.bytes.starts_with(&FENCE) || !self.bytes.ends_with(&FENCE)
    }
}

impl Case {
    /// A call with no numbers.
    pub fn new(op: Op, given: Vec<u8>, lent: Vec<u8>) -> Case {
        Case {
            op,
            given,
            lent,
            list: Vec::new(),
            numbers: [0; 2],
        }
    }

    /// A rescue: a plan image and a list are lent.
    pub fn rescue(given: Vec<u8>, lent: Vec<u8>, list: Vec<u8>) -> Case {
        Case {
            list,
            ..Case::new(Op::Rescue, given, lent)
        }
    }

    /// A release.
    pub fn release(given: Vec<u8>, kind: u64, e: u64) -> Case {
        Case {
            numbers: [kind, e],
            ..Case::new(Op::Release, given, Vec::new())
        }
    }

    /// A project's budget left open.
    pub fn smallest_budget(given: Vec<u8>, project: u64) -> Case {
        Case {
            numbers: [project, 0],
            ..Case::new(Op::SmallestBudget, given, Vec::new())
        }
    }

    /// A plan of one-kind projects.
    pub fn build(cards: u64, list: Vec<u8>, lent: Vec<u8>) -> Case {
        Case {
            numbers: [cards, 0],
            ..Case::new(Op::Build, list, lent)
        }
    }

    /// The figures of a kind.
    pub fn figures(given: Vec<u8>, kind: u64, lent: Vec<u8>) -> Case {
        Case {
            numbers: [kind, 0],
            ..Case::new(Op::Figures, given, lent)
        }
    }

    /// The call on one side, with buffers of its own.
    pub fn run(&self, side: &impl Side) -> Outcome {
        let (mut given, mut lent) = (Fenced::new(&self.given), Fenced::new(&self.lent));
        let mut list = Fenced::new(&self.list);
        let (first, second) = (given.inside(), lent.inside());
        let [number, e] = self.numbers;
        let word = match self.op {
            Op::Check => side.check(first),
            Op::Read => side.read(first, second),
            Op::Write => side.write(first, second),
            Op::SlotTable => side.slot_table(first, second),
            Op::Verdict => side.verdict(first, second),
            Op::SmallestBudget => side.smallest_budget(first, number),
            Op::Build => side.build(number, first, second),
            Op::Rescue => side.rescue(first, second, list.inside()),
            Op::Fresh => side.fresh(first, second),
            Op::Release => side.release(first, number, e),
            Op::Show => side.show(first, second),
            Op::Advance => side.advance(first),
            Op::Figures => side.figures(first, number, second),
        };
        Outcome {
            word,
            given: given.inside().to_vec(),
            lent: lent.inside().to_vec(),
            list: list.inside().to_vec(),
            outside: given.broken() || lent.broken() || list.broken(),
        }
    }

    /// The call as one line: the function, the bytes given, the bytes lent, the list lent, its two numbers; `-` for no bytes.
    pub fn line(&self) -> String {
        format!(
            "{} {} {} {} {} {}",
            self.op.name(),
            hex(&self.given),
            hex(&self.lent),
            hex(&self.list),
            self.numbers[0],
            self.numbers[1]
        )
    }

    /// The call of such a line.
    pub fn of_line(line: &str) -> Option<Case> {
        let words: Vec<&str> = line.split_whitespace().collect();
        let [op, given, lent, list, number, e] = words[..] else {
            return None;
        };
        Some(Case {
            op: OPS.iter().find(|(_, name)| *name == op)?.0,
            given: of_hex(given)?,
            lent: of_hex(lent)?,
            list: of_hex(list)?,
            numbers: [number.parse().ok()?, e.parse().ok()?],
        })
    }
}

/// An outcome in words: the answer, and those bytes of the buffers that differ from `other`.
pub fn outcome_in_words(own: &Outcome, other: &Outcome) -> String {
    let word = own.word;
    let mut line = format!(
        "number {} place {} count {} excess {} slice {}",
        number(word),
        word >> 8 & 0xFF,
        word >> 16 & 0xFFFF,
        word >> 32 & 0xFF_FFFF,
        word >> 56
    );
    for (name, own, other) in [
        ("given", &own.given, &other.given),
        ("lent", &own.lent, &other.lent),
        ("list", &own.list, &other.list),
    ] {
        let differs = |&at: &usize| own.get(at) != other.get(at);
        let Some(first) = (0..own.len()).find(differs) else {
            continue;
        };
        let last = (0..own.len()).rfind(differs).unwrap_or(first);
        // A few bytes are enough to see where it is.
        let shown = last.min(first + 15);
        let more = if last > shown { ".." } else { "" };
        line += &format!(
            ", {name} from byte {first} on: {}{more}",
            hex(&own[first..=shown])
        );
    }
    if own.outside {
        line += ", and bytes outside a buffer changed";
    }
    line
}

/// The image that a call is given, read aloud; nothing for plan bytes, lists and short images.
pub fn image_in_words(case: &Case) -> Option<String> {
    let (image, running) = match case.op {
        Op::Read | Op::Build | Op::Rescue => return None,
        Op::Release | Op::Show | Op::Advance => (case.given.get(..STATE_IMAGE)?, true),
        _ => (case.given.get(..PLAN_IMAGE)?, false),
    };
    let plan = plan_of(image);
    let mut line = format!("cards {}, frame {}, projects", plan.m, plan.frame);
    for place in plan.used_projects() {
        line += &format!(" ({},{})", place.ceiling, place.budget);
    }
    line += ", kinds";
    for place in plan.used_kinds() {
        let (t, d, c) = (place.separation, place.deadline, place.length);
        line += &format!(" ({},{t},{d},{c})", place.project);
    }
    if running {
        let mut fields = Fields {
            bytes: &image[PLAN_IMAGE..],
        };
        line += &format!(", slice {}, released, gone, left", fields.u8());
        for _ in plan.used_kinds() {
            line += &format!(" ({},{},{})", fields.u8(), fields.u16(), fields.u16());
        }
        let mut fields = Fields {
            bytes: &image[SUMS_AT..],
        };
        line += ", sums";
        for _ in 0..8 {
            line += &format!(" {}", fields.u16());
        }
    }
    Some(line)
}

/// Bytes as hex digits, or `-` for none.
pub fn hex(bytes: &[u8]) -> String {
    struct Hex<'a>(&'a [u8]);
    impl fmt::Display for Hex<'_> {
        fn fmt(&self, f: &mut fmt::Formatter) -> fmt::Result {
            self.0.iter().try_for_each(|byte| write!(f, "{byte:02x}"))
        }
    }
    match bytes {
        [] => "-".to_string(),
        _ => Hex(bytes).to_string(),
    }
}

/// The bytes of such hex digits.
pub fn of_hex(digits: &str) -> Option<Vec<u8>> {
    if digits == "-" {
        return Some(Vec::new());
    }
    if !digits.is_ascii() || !digits.len().is_multiple_of(2) {
        return None;
    }
    (0..digits.len())
        .step_by(2)
        .map(|at| u8::from_str_radix(&digits[at..at + 2], 16).ok())
        .collect()
}
