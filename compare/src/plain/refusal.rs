//! Why a call turns back. The numbers are the description's, in the order in which they are tested; the calls of a
//! schedule, of a survey and of pins have an order of their own.

#[derive(Clone, Copy, Debug, PartialEq, Eq)]
pub enum Refusal {
    /// n is 0 or above 256.
    NodeCount = 1,
    /// An edges, pins, marks, figures, changes or written-snapshot buffer has another length than n requires.
    BufferLength = 2,
    /// The scratch is shorter than n bits, rounded up to bytes.
    ShortScratch = 3,
    /// A node number is n or more.
    NoSuchNode = 4,
    /// The two nodes are the same.
    SameNode = 5,
    /// An add names an edge that exists.
    EdgeExists = 6,
    /// A remove names an edge that does not exist.
    NoSuchEdge = 7,
    /// k is 0 or above n.
    EntryCount = 8,
    /// A snapshot is empty, has a wrong length or spare bits that are not 0; a schedule is empty, or not its first byte
    /// and whole records.
    BadSnapshot = 9,
    /// A snapshot's or a schedule's node count differs from the state's.
    OtherNodeCount = 10,
    /// Before the call a node has more than `MAX_DEGREE` edges.
    Crowded = 11,
    /// After the call, or in the snapshot of a schedule or a survey, a node would have more than `MAX_DEGREE` edges.
    WouldCrowd = 12,
    /// A record's from is not below its to.
    NoHours = 13,
    /// A survey is not a whole number of records.
    BadSurvey = 14,
    /// Both editors have spoken on a pair and left it different.
    Conflict = 15,
}

impl Refusal {
    /// The largest number.
    pub const LAST: u64 = Refusal::Conflict as u64;

    /// The number that a call answers with.
    pub fn number(self) -> u64 {
        self as u64
    }
}

/// `Err(refusal)` where the condition applies.
pub fn refuse_if(condition: bool, refusal: Refusal) -> Result<(), Refusal> {
    if condition {
        Err(refusal)
    } else {
        Ok(())
    }
}
