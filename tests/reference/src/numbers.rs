//! Returned numbers: refusals of a call and faults of an instruction.

/// Why a call was refused; nothing has changed.
#[derive(Clone, Copy, Debug, PartialEq, Eq)]
#[repr(u8)]
pub enum Refusal {
    /// A chunk header or body is cut short.
    CutShort = 1,
    /// The chunk is not of the kind that is due.
    WrongKind = 2,
    /// The length is wrong for the kind.
    WrongLength = 3,
    /// A field is outside its range.
    OutOfRange = 4,
    /// The words pass 8,192.
    TooManyWords = 5,
    /// There are bytes after kind 4.
    BytesAfterEnd = 6,
    /// The memory has fewer than 8,192 words.
    ShortMemory = 7,
    /// The output is too short, or the record has fewer than 1,079 bytes.
    ShortOutput = 8,
    /// The machine record is not sound.
    NotSound = 9,
    /// A segment's gates are dead: its gate domain lacks E on it.
    DeadGate = 10,
}

impl Refusal {
    /// The number that a host gets.
    pub fn number(self) -> u8 {
        self as u8
    }
}

/// Why an instruction did not complete; record and memory are as before it.
/// Four bytes wide, so that a result with a pointer stays in registers.
#[derive(Clone, Copy, Debug, PartialEq, Eq)]
#[repr(u32)]
pub enum Fault {
    /// No such segment or word.
    NoSuchWord = 21,
    /// The domain lacks the flag.
    FlagMissing = 22,
    /// A word number leaves 0 to 4,095.
    WordNumber = 23,
    /// No capability of the live frame matches, or there is no frame.
    NoCapability = 24,
    /// A capability matched, its source fails the static check.
    SourceFails = 25,
    /// Bits 16 to 30 of a pointer word are not 0.
    PointerBits = 26,
    /// Bad instruction word.
    BadInstruction = 27,
    /// JUMP or CALL through a tagged pointer.
    TaggedTransfer = 28,
    /// The word is not a gate.
    NotAGate = 29,
    /// Bad argument list: count, return location or mode word.
    BadList = 30,
    /// Eight frames are in use.
    NoFreeFrame = 31,
    /// Tagged RET with no frame, or to another place, or with another s.
    BadReturn = 32,
}

impl Fault {
    /// The number that a host gets.
    pub fn number(self) -> u8 {
        self as u8
    }
}
