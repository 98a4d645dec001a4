//! Pointer formation, and words read or written through pointers.

use crate::checks::{check_reference, Flag};
use crate::numbers::Fault;
use crate::recent::{self, Reference};
use crate::run::Processor;
use crate::words::{Instruction, Pointer};

impl Processor<'_> {
    /// The effective pointer: base register plus offset, then at most one
    /// indirect read, which keeps a tag that is on.
    #[inline(always)]
    pub(crate) fn effective_pointer(&mut self, instruction: Instruction) -> Result<Pointer, Fault> {
        let base = self.machine.pointers[usize::from(instruction.base & 7)];
        let first = base.plus(instruction.offset)?;
        if !instruction.indirect {
            return Ok(first);
        }
        let mut pointer = Pointer::from_word(self.load(first)?)?;
        pointer.tag |= first.tag;
        Ok(pointer)
    }

    /// The word at a pointer, checked for R under the pointer's tag.
    #[inline(always)]
    pub(crate) fn load(&mut self, pointer: Pointer) -> Result<u32, Fault> {
        self.refer(pointer, Flag::Read)?;
        Ok(self.memory[self.address(pointer.segment, pointer.word)])
    }

    /// Stores a word at a pointer, checked for W under the pointer's tag.
    #[inline(always)]
    pub(crate) fn store(&mut self, pointer: Pointer, value: u32) -> Result<(), Fault> {
        self.refer(pointer, Flag::Write)?;
        let address = self.address(pointer.segment, pointer.word);
        self.memory[address] = value;
        Ok(())
    }

    /// Makes a reference, checked as its tag says. Through a tagged pointer it
    /// uses the registers as the instruction's earlier references left them.
    #[inline(always)]
    fn refer(&mut self, pointer: Pointer, flag: Flag) -> Result<(), Fault> {
        if !pointer.tag || !self.uses_registers {
            return check_reference(self.machine, pointer, flag);
        }
        let made = Reference::new(pointer, flag);
        let registers = self.renewed.get_or_insert(self.machine.recent);
        recent::refer(self.machine, registers, made)?;
        self.made.push(made);
        Ok(())
    }
}
