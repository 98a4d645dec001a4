//! The machine record. Its fields can hold any value of their types, so a
//! record need not be sound.

use crate::recent::{self, Registers};
use crate::words::Pointer;

/// Most segments of a machine.
pub const SEGMENTS: usize = 16;
/// Most domains of a machine.
pub const DOMAINS: usize = 8;
/// Most frames in use.
pub const FRAMES: usize = 8;
/// Most capabilities of a frame: eight arguments and the list.
pub const CAPABILITIES: usize = 9;
/// The argument pointer a.
pub const ARGUMENT_POINTER: usize = 0;
/// The activation record pointer s.
pub const ACTIVATION_POINTER: usize = 1;
/// The stack base b.
pub const STACK_BASE: usize = 2;

/// A segment: its length, and gates into a domain below the gate count.
#[derive(Clone, Copy, Debug, Default, PartialEq, Eq)]
pub struct Segment {
    pub length: u16,
    pub gate_count: u16,
    pub gate_domain: u8,
}

/// A domain: its stack segment and a rights byte for each segment.
#[derive(Clone, Copy, Debug, Default, PartialEq, Eq)]
pub struct Domain {
    pub stack_segment: u8,
    pub rights: [u8; SEGMENTS],
}

/// A place to execute at: segment and word 0 to 4,096.
#[derive(Clone, Copy, Debug, Default, PartialEq, Eq)]
pub struct Location {
    pub segment: u8,
    pub word: u16,
}

/// A capability: words of a segment, flags, and the domain it comes from.
#[derive(Clone, Copy, Debug, Default, PartialEq, Eq)]
pub struct Capability {
    pub segment: u8,
    pub word: u16,
    pub length: u16,
    pub read: bool,
    pub write: bool,
    pub source: u8,
}

/// A frame: what a crossing call recorded.
#[derive(Clone, Copy, Debug, Default, PartialEq, Eq)]
pub struct Frame {
    pub capability_count: u8,
    pub capabilities: [Capability; CAPABILITIES],
    pub return_location: Pointer,
    pub s: Pointer,
    pub domain: u8,
}

impl Frame {
    /// The capabilities in use, in order.
    #[inline(always)]
    pub fn capabilities(&self) -> &[Capability] {
        let count = usize::from(self.capability_count).min(CAPABILITIES);
        &self.capabilities[..count]
    }
}

/// The whole machine record.
#[derive(Clone, Debug, Default, PartialEq, Eq)]
pub struct Machine {
    pub segment_count: u8,
    pub domain_count: u8,
    pub segments: [Segment; SEGMENTS],
    pub domains: [Domain; DOMAINS],
    pub a: u32,
    pub pointers: [Pointer; 8],
    pub location: Location,
    pub domain: u8,
    pub frame_count: u8,
    pub frames: [Frame; FRAMES],
    pub recent: Registers,
    pub start_domain: u8,
    pub start: Location,
}

impl Machine {
    /// The newest frame in use, if there is one.
    #[inline(always)]
    pub fn live_frame(&self) -> Option<&Frame> {
        let newest = usize::from(self.frame_count).checked_sub(1)?;
        self.frames.get(newest)
    }

    /// Puts the registers into their fresh state: the start domain at the
    /// start location, no frames, no recent capabilities.
    pub fn restart(&mut self) {
        let stack_segment = self
            .domains
            .get(usize::from(self.start_domain))
            .map_or(0, |domain| domain.stack_segment);
        self.a = 0;
        self.pointers = [Pointer::default(); 8];
        self.pointers[STACK_BASE] = Pointer::untagged(stack_segment, 0);
        self.location = self.start;
        self.domain = self.start_domain;
        self.frame_count = 0;
        self.frames = [Frame::default(); FRAMES];
        self.recent = recent::fresh();
    }
}
