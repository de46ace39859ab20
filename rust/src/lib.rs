//! Safe calls to Gongperch: a folding sheet is planned into a plan, and a plan is run cycle by cycle in memory that the caller lends.
//!
//! Each call takes slices and answers an enum with one case for each answer that it can give; `number` is document 01's number.
//! Any bytes and any words may be passed. Nothing is allocated, and a refusal changes nothing that was lent, but for an unfoldable
//! sheet, whose loop is written to the plan buffer.
//!
//! ```
//! use gongperch::{clear, memory_words, plan, step, Cleared, Needed, Planned, Stepped};
//!
//! // The mean of channels 0 and 1, over the seam of the full turn.
//! let sheet = include_bytes!(concat!(env!("CARGO_MANIFEST_DIR"), "/../samples/mean.sheet"));
//! let mut buffer = [0; gongperch::PLAN_MAX];
//! let plan = match plan(sheet, &mut buffer) {
//!     Planned::Done(plan) => plan,
//!     refused => panic!("mean.sheet folds, but {refused:?}"),
//! };
//! let words = match memory_words(plan) {
//!     Needed::Words(words) => words,
//!     refused => panic!("the planner's plan is taken, but {refused:?}"),
//! };
//! let mut memory = vec![0; words];
//! assert_eq!(clear(plan, &mut memory), Cleared::Done);
//!
//! // 315 and 45 degrees: the first mean leaves the adder, unit 1, at cycle 6.
//! let mut channels = [0; gongperch::CHANNELS];
//! (channels[0], channels[1]) = (0xE000_0000, 0x2000_0000);
//! let mut out = [1; gongperch::UNITS_MAX];
//! for _ in 0..=6 {
//!     assert_eq!(step(plan, &mut memory, &channels, &mut out), Stepped::Done);
//! }
//! assert_eq!(out[1], 0);
//! ```
#![deny(missing_docs)]

mod exports;

/// The longest sheet in bytes.
pub const SHEET_MAX: usize = 950;
/// The longest plan in bytes: room for every sheet's plan.
pub const PLAN_MAX: usize = 1265;
/// The channel words that a step takes.
pub const CHANNELS: usize = 16;
/// The most units of a plan, so the most words that leave in a cycle.
pub const UNITS_MAX: usize = 8;

/// What is wrong with the bytes of a sheet or a plan.
#[derive(Clone, Copy, Debug, PartialEq, Eq)]
pub enum Fault {
    /// 1: shorter than the header, or a length that isn't what the header says.
    Length,
    /// 2: a record that doesn't open with the mark that belongs there.
    Mark,
    /// 3: a field out of range or naming nothing, an op against its unit's kind, an input that the node hasn't got, a switch into
    /// an empty slot.
    Range,
    /// 4: two nodes in one slot of a unit, or two port nodes of one channel.
    Clash,
    /// 5: a node's input fed by no wire (in a plan: no switch), or by more than one.
    Feed,
}

impl Fault {
    /// Document 01's number.
    pub fn number(self) -> u32 {
        match self {
            Fault::Length => 1,
            Fault::Mark => 2,
            Fault::Range => 3,
            Fault::Clash => 4,
            Fault::Feed => 5,
        }
    }

    fn of(number: u32) -> Fault {
        match number {
            1 => Fault::Length,
            2 => Fault::Mark,
            3 => Fault::Range,
            4 => Fault::Clash,
            5 => Fault::Feed,
            other => unreachable!("{other} is not an answer of this call"),
        }
    }
}

/// What [`plan`] answers.
#[derive(Clone, Copy, Debug, PartialEq, Eq)]
pub enum Planned<'a> {
    /// 0: the plan, at the head of the buffer.
    Done(&'a [u8]),
    /// 1 to 5: the sheet has a fault.
    Refused(Fault),
    /// 6: no retiming makes every wait nonnegative; the loop that shows it.
    Unfoldable(Wires<'a>),
    /// 7: the buffer is too short for the plan, which has this length.
    TooShort(usize),
}

impl Planned<'_> {
    /// Document 01's number.
    pub fn number(&self) -> u32 {
        match self {
            Planned::Done(_) => 0,
            Planned::Refused(fault) => fault.number(),
            Planned::Unfoldable(_) => 6,
            Planned::TooShort(_) => 7,
        }
    }
}

/// The wires of a loop, in walking order from the lowest wire number.
#[derive(Clone, Copy, Debug, PartialEq, Eq)]
pub struct Wires<'a>(&'a [u8]);

impl<'a> Wires<'a> {
    /// The wires' numbers in the sheet.
    pub fn numbers(&self) -> impl Iterator<Item = u8> + 'a {
        self.0.chunks_exact(3).map(|record| record[2])
    }
}

/// What [`memory_words`] answers.
#[derive(Clone, Copy, Debug, PartialEq, Eq)]
pub enum Needed {
    /// 0: the words of this plan's memory.
    Words(usize),
    /// 1 to 5: the plan has a fault.
    Refused(Fault),
    /// 9: a line length or an idle count isn't what the switches and nodes make it.
    WrongFigure,
}

impl Needed {
    /// Document 01's number.
    pub fn number(&self) -> u32 {
        match self {
            Needed::Words(_) => 0,
            Needed::Refused(fault) => fault.number(),
            Needed::WrongFigure => 9,
        }
    }
}

/// What [`clear`] answers.
#[derive(Clone, Copy, Debug, PartialEq, Eq)]
pub enum Cleared {
    /// 0: the memory is that of cycle 0.
    Done,
    /// 1 to 5: the plan has a fault.
    Refused(Fault),
    /// 7: the memory is too short.
    TooShort,
    /// 9: a line length or an idle count isn't what the switches and nodes make it.
    WrongFigure,
}

impl Cleared {
    /// Document 01's number.
    pub fn number(&self) -> u32 {
        match self {
            Cleared::Done => 0,
            Cleared::Refused(fault) => fault.number(),
            Cleared::TooShort => 7,
            Cleared::WrongFigure => 9,
        }
    }
}

/// What [`step`] answers.
#[derive(Clone, Copy, Debug, PartialEq, Eq)]
pub enum Stepped {
    /// 0: one cycle was run.
    Done,
    /// 1 to 5: the plan has a fault.
    Refused(Fault),
    /// 7: the memory, the channels or the output is too short.
    TooShort,
    /// 8: the cycle number is already 4,294,967,295.
    TimeIsUp,
    /// 9: a line length or an idle count isn't what the switches and nodes make it.
    WrongFigure,
}

impl Stepped {
    /// Document 01's number.
    pub fn number(&self) -> u32 {
        match self {
            Stepped::Done => 0,
            Stepped::Refused(fault) => fault.number(),
            Stepped::TooShort => 7,
            Stepped::TimeIsUp => 8,
            Stepped::WrongFigure => 9,
        }
    }
}

/// Plans a sheet into the buffer; bytes of it that the answer doesn't show are kept. [`PLAN_MAX`] bytes are always enough.
///
/// ```
/// use gongperch::{plan, Fault, Planned};
///
/// let mut buffer = [0; gongperch::PLAN_MAX];
/// assert_eq!(plan(b"", &mut buffer), Planned::Refused(Fault::Length));
///
/// let looped = include_bytes!(concat!(env!("CARGO_MANIFEST_DIR"), "/../samples/unfoldable.sheet"));
/// match plan(looped, &mut buffer) {
///     Planned::Unfoldable(wires) => assert_eq!(wires.numbers().collect::<Vec<_>>(), [0, 1]),
///     other => panic!("it doesn't fold, but {other:?}"),
/// }
///
/// assert_eq!(plan(looped, &mut []), Planned::TooShort(57));
/// ```
pub fn plan<'a>(sheet: &[u8], buffer: &'a mut [u8]) -> Planned<'a> {
    let (number, length) = exports::plan(sheet, buffer);
    match number {
        0 => Planned::Done(&buffer[..length]),
        6 => Planned::Unfoldable(Wires(&buffer[..length])),
        7 => Planned::TooShort(length),
        other => Planned::Refused(Fault::of(other)),
    }
}

/// Says how many words a plan's memory has.
///
/// ```
/// use gongperch::{memory_words, Fault, Needed};
///
/// let plan = include_bytes!(concat!(env!("CARGO_MANIFEST_DIR"), "/../samples/line-5000.plan"));
/// assert_eq!(memory_words(plan), Needed::Words(5004));
/// assert_eq!(memory_words(&plan[1..]), Needed::Refused(Fault::Mark));
/// ```
pub fn memory_words(plan: &[u8]) -> Needed {
    let (number, words) = exports::memory_words(plan);
    match number {
        0 => Needed::Words(words),
        9 => Needed::WrongFigure,
        other => Needed::Refused(Fault::of(other)),
    }
}

/// Makes the memory that of cycle 0; words after those that the plan needs are kept.
///
/// ```
/// use gongperch::{clear, Cleared};
///
/// let plan = include_bytes!(concat!(env!("CARGO_MANIFEST_DIR"), "/../samples/line-5000.plan"));
/// let mut memory = vec![7; 5005];
/// assert_eq!(clear(plan, &mut memory), Cleared::Done);
/// assert_eq!((memory[5003], memory[5004]), (0, 7));
/// assert_eq!(clear(plan, &mut memory[..5003]), Cleared::TooShort);
/// ```
pub fn clear(plan: &[u8], memory: &mut [u32]) -> Cleared {
    match exports::clear(plan, memory) {
        0 => Cleared::Done,
        7 => Cleared::TooShort,
        9 => Cleared::WrongFigure,
        other => Cleared::Refused(Fault::of(other)),
    }
}

/// Runs one cycle: the places of the memory move by one, the cycle number in its word 0 rises by one, and the word that leaves each
/// unit goes to `out`. Words of `memory` and `out` after those that the plan needs are kept.
///
/// ```
/// use gongperch::{clear, step, Cleared, Stepped};
///
/// let plan = include_bytes!(concat!(env!("CARGO_MANIFEST_DIR"), "/../samples/line-5000.plan"));
/// let (mut memory, mut out) = (vec![0; 5004], [0; 2]);
/// assert_eq!(clear(plan, &mut memory), Cleared::Done);
/// assert_eq!(step(plan, &mut memory, &[9; 16], &mut out), Stepped::Done);
/// assert_eq!(memory[..3], [1, 9, 0]);
/// assert_eq!(step(plan, &mut memory, &[9; 15], &mut out), Stepped::TooShort);
/// memory[0] = u32::MAX;
/// assert_eq!(step(plan, &mut memory, &[9; 16], &mut out), Stepped::TimeIsUp);
/// ```
pub fn step(plan: &[u8], memory: &mut [u32], channels: &[u32], out: &mut [u32]) -> Stepped {
    match exports::step(plan, memory, channels, out) {
        0 => Stepped::Done,
        7 => Stepped::TooShort,
        8 => Stepped::TimeIsUp,
        9 => Stepped::WrongFigure,
        other => Stepped::Refused(Fault::of(other)),
    }
}
