//! The refusals by name.

use std::fmt;

/// Why a call was refused. The number of each is that of documents 01 and 02.
#[derive(Clone, Copy, Debug, PartialEq, Eq, Hash)]
#[repr(u32)]
pub enum Refusal {
    WrongLength = 1,
    TornBook = 2,
    FalseSheet = 3,
    CutShort = 4,
    UnknownOpcode = 5,
    OutOfRange = 6,
    NotInUse = 7,
    InUse = 8,
    AlreadyRefined = 9,
    StartNode = 10,
    OtherMachine = 11,
    TooDeep = 12,
    Stale = 13,
    NotPlain = 14,
    BufferTooShort = 15,
    NoWay = 16,
    Stops = 17,
    NeitherArrives = 18,
    TooFewNumbers = 19,
    BadTiming = 20,
    HeldStart = 21,
    NodeFull = 22,
    TooManyWalkers = 23,
    WrongDepth = 24,
}

impl Refusal {
    /// Every refusal, the one with number k at place k - 1.
    pub const ALL: [Refusal; 24] = [
        Refusal::WrongLength,
        Refusal::TornBook,
        Refusal::FalseSheet,
        Refusal::CutShort,
        Refusal::UnknownOpcode,
        Refusal::OutOfRange,
        Refusal::NotInUse,
        Refusal::InUse,
        Refusal::AlreadyRefined,
        Refusal::StartNode,
        Refusal::OtherMachine,
        Refusal::TooDeep,
        Refusal::Stale,
        Refusal::NotPlain,
        Refusal::BufferTooShort,
        Refusal::NoWay,
        Refusal::Stops,
        Refusal::NeitherArrives,
        Refusal::TooFewNumbers,
        Refusal::BadTiming,
        Refusal::HeldStart,
        Refusal::NodeFull,
        Refusal::TooManyWalkers,
        Refusal::WrongDepth,
    ];

    /// The refusal of a number 1 to 24.
    pub fn of(number: u32) -> Option<Refusal> {
        Refusal::ALL.get((number as usize).wrapping_sub(1)).copied()
    }

    /// Its number.
    pub fn number(self) -> u32 {
        self as u32
    }

    /// What a call returned: 0 is no refusal. The library returns no number over 24.
    pub(crate) fn check(number: u32) -> Result<(), Refusal> {
        if number == 0 {
            return Ok(());
        }
        Err(Refusal::of(number).expect("a refusal's number is 1 to 24"))
    }

    fn meaning(self) -> &'static str {
        match self {
            Refusal::WrongLength => "a book, a sheet or a table of a wrong length",
            Refusal::TornBook => "the book is not well formed, or no well-formed book comes of the table",
            Refusal::FalseSheet => "the sheet is not true of the book",
            Refusal::CutShort => "the stream ends inside a command",
            Refusal::UnknownOpcode => "a byte that is no opcode",
            Refusal::OutOfRange => "a machine, node, command, walker or hold out of range, or a cost of leaving the root",
            Refusal::NotInUse => "a machine or node that is not in use",
            Refusal::InUse => "a new machine or node that is in use already",
            Refusal::AlreadyRefined => "the node is refined already",
            Refusal::StartNode => "a start node cannot be removed",
            Refusal::OtherMachine => "the target is in another machine",
            Refusal::TooDeep => "more than 8 levels",
            Refusal::Stale => "a machine is stale",
            Refusal::NotPlain => "the node is no state",
            Refusal::BufferTooShort => "the buffer is too short",
            Refusal::NoWay => "no list of commands leads there",
            Refusal::Stops => "the station stops",
            Refusal::NeitherArrives => "neither list arrives",
            Refusal::TooFewNumbers => "the first book has too few unused numbers",
            Refusal::BadTiming => "the timing gives no cost from 0 to 65,535",
            Refusal::HeldStart => "a start node cannot be held, nor a held node become one",
            Refusal::NodeFull => "as many walkers as may be are inside the node",
            Refusal::TooManyWalkers => "a limit or a number of walkers over 8, or more walkers inside than the limit",
            Refusal::WrongDepth => "a depth that is not from 1 to 6",
        }
    }
}

impl fmt::Display for Refusal {
    fn fmt(&self, f: &mut fmt::Formatter<'_>) -> fmt::Result {
        write!(f, "refused with {}: {}", self.number(), self.meaning())
    }
}

impl std::error::Error for Refusal {}
