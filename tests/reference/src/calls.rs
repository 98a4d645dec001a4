//! Transfers: JUMP, CALL with its argument list, and RET.

use crate::checks::{has_flag, pass_on, static_check, word_exists, Flag};
use crate::instructions::Completed;
use crate::numbers::Fault;
use crate::recent;
use crate::record::{
    Capability, Frame, Location, ACTIVATION_POINTER, ARGUMENT_POINTER, FRAMES, STACK_BASE,
};
use crate::run::Processor;
use crate::words::{Mode, Pointer};

/// Most arguments of a call.
const ARGUMENTS: u32 = 8;

impl Processor<'_> {
    /// JUMP: an untagged pointer, then static E.
    #[inline]
    pub(crate) fn jump(&mut self, target: Pointer) -> Result<Completed, Fault> {
        if target.tag {
            return Err(Fault::TaggedTransfer);
        }
        let domain = self.machine.domain;
        static_check(
            self.machine,
            domain,
            target.segment,
            target.word,
            Flag::Execute,
        )?;
        self.go_to(target);
        Ok(Completed::Plain)
    }

    /// CALL: inside the domain where it has E, else through a gate.
    pub(crate) fn call(&mut self, target: Pointer) -> Result<Completed, Fault> {
        if target.tag {
            return Err(Fault::TaggedTransfer);
        }
        if !word_exists(self.machine, target.segment, target.word) {
            return Err(Fault::NoSuchWord);
        }
        let domain = self.machine.domain;
        if has_flag(self.machine, domain, target.segment, Flag::Execute) {
            self.go_to(target);
            self.set_stack_base();
            return Ok(Completed::Plain);
        }
        self.call_gate(target)
    }

    /// The rest of a CALL of an existing word on which the domain has no E.
    fn call_gate(&mut self, target: Pointer) -> Result<Completed, Fault> {
        let row = self.machine.segments[usize::from(target.segment)];
        if !has_flag(
            self.machine,
            self.machine.domain,
            target.segment,
            Flag::Gate,
        ) {
            return Err(Fault::FlagMissing);
        }
        if target.word >= row.gate_count {
            return Err(Fault::NotAGate);
        }
        if usize::from(self.machine.frame_count) >= FRAMES {
            return Err(Fault::NoFreeFrame);
        }
        let frame = self.new_frame()?;
        let machine = &mut *self.machine;
        machine.frames[usize::from(machine.frame_count)] = frame;
        machine.frame_count += 1;
        if self.uses_registers {
            recent::enter_list(machine, self.renewed.get_or_insert(machine.recent));
        }
        machine.pointers[ARGUMENT_POINTER].tag = true;
        machine.domain = row.gate_domain;
        self.go_to(target);
        self.set_stack_base();
        Ok(Completed::Called)
    }

    /// The frame that the argument list at a asks for. Each word is judged
    /// before the next is read.
    fn new_frame(&mut self) -> Result<Frame, Fault> {
        let n = self.list_word(0)?;
        if n > ARGUMENTS {
            return Err(Fault::BadList);
        }
        let (list, mode) = self.list(n as u16);
        let source = self.source(list, mode)?;
        let return_location = Pointer::from_word(self.list_word(1)?)?;
        if return_location.tag {
            return Err(Fault::BadList);
        }
        self.list_pointer(2)?;
        let mut frame = Frame {
            return_location,
            s: self.machine.pointers[ACTIVATION_POINTER],
            domain: self.machine.domain,
            ..Frame::default()
        };
        for k in 0..n as usize {
            frame.capabilities[k] = self.argument(k as i16)?;
        }
        frame.capabilities[n as usize] = capability(list, mode, source);
        frame.capability_count = n as u8 + 1;
        Ok(frame)
    }

    /// The pointer to word `k` of the argument list, which has a's tag.
    fn list_pointer(&self, k: i16) -> Result<Pointer, Fault> {
        self.machine.pointers[ARGUMENT_POINTER].plus(k)
    }

    /// Word `k` of the argument list, read by the caller under a's tag.
    fn list_word(&mut self, k: i16) -> Result<u32, Fault> {
        self.load(self.list_pointer(k)?)
    }

    /// The capability for argument `k`.
    fn argument(&mut self, k: i16) -> Result<Capability, Fault> {
        let pointer = Pointer::from_word(self.list_word(3 + 2 * k)?)?;
        let mode = Mode::from_word(self.list_word(4 + 2 * k)?, pointer.word)?;
        let source = self.source(pointer, mode)?;
        Ok(capability(pointer, mode, source))
    }

    /// The list itself as an argument: 3 + 2n words to read.
    fn list(&self, n: u16) -> (Pointer, Mode) {
        let mode = Mode {
            length: 3 + 2 * n,
            read: true,
            write: false,
        };
        (self.machine.pointers[ARGUMENT_POINTER], mode)
    }

    /// The source of an argument or a list: the caller, or passed on where the
    /// pointer is tagged.
    fn source(&self, pointer: Pointer, mode: Mode) -> Result<u8, Fault> {
        if pointer.tag {
            pass_on(self.machine, pointer, mode)
        } else {
            Ok(self.machine.domain)
        }
    }

    /// RET: untagged it is JUMP; tagged it goes back to the recorded place.
    pub(crate) fn ret(&mut self, target: Pointer) -> Result<Completed, Fault> {
        if !target.tag {
            return self.jump(target);
        }
        let s_now = self.machine.pointers[ACTIVATION_POINTER];
        let frame = self.machine.live_frame().ok_or(Fault::BadReturn)?;
        if !target.same_place(frame.return_location) || !s_now.same_place(frame.s) {
            return Err(Fault::BadReturn);
        }
        let (s, domain) = (frame.s, frame.domain);
        static_check(
            self.machine,
            domain,
            target.segment,
            target.word,
            Flag::Execute,
        )?;
        let machine = &mut *self.machine;
        if self.uses_registers {
            let registers = self.renewed.get_or_insert(machine.recent);
            recent::clear(registers, machine.frame_count);
        }
        machine.frame_count -= 1;
        machine.frames[usize::from(machine.frame_count)] = Frame::default();
        machine.pointers[ACTIVATION_POINTER] = s;
        machine.domain = domain;
        self.go_to(target);
        self.set_stack_base();
        Ok(Completed::Returned)
    }

    /// Sets the location to the place that a pointer names.
    #[inline]
    fn go_to(&mut self, target: Pointer) {
        self.machine.location = Location {
            segment: target.segment,
            word: target.word,
        };
    }

    /// Sets b, untagged, to word 0 of the executing domain's stack segment.
    fn set_stack_base(&mut self) {
        let row = self.machine.domains[usize::from(self.machine.domain)];
        self.machine.pointers[STACK_BASE] = Pointer::untagged(row.stack_segment, 0);
    }
}

/// The capability that a pointer and a mode ask for, with its source.
fn capability(pointer: Pointer, mode: Mode, source: u8) -> Capability {
    Capability {
        segment: pointer.segment,
        word: pointer.word,
        length: mode.length,
        read: mode.read,
        write: mode.write,
        source,
    }
}
