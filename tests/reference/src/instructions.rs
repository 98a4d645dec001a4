//! The thirteen instructions.

use crate::checks::{static_check, Flag};
use crate::numbers::Fault;
use crate::run::Processor;
use crate::words::{Instruction, Opcode, Pointer};

/// What a completed instruction was.
#[derive(Clone, Copy, Debug, PartialEq, Eq)]
pub enum Completed {
    /// Neither HALT nor a crossing.
    Plain,
    /// HALT.
    Halted,
    /// A call through a gate.
    Called,
    /// A tagged return.
    Returned,
}

impl Completed {
    /// Whether the instruction crossed from one domain to another's gate or
    /// back.
    pub fn is_crossing(self) -> bool {
        matches!(self, Completed::Called | Completed::Returned)
    }
}

impl Processor<'_> {
    /// One instruction. At a fault record and memory are as before it, and the
    /// copy of the registers is dropped.
    #[inline(always)]
    pub fn step(&mut self) -> Result<Completed, Fault> {
        self.made.clear();
        self.renewed = None;
        let completed = self.instruction()?;
        if let Some(renewed) = self.renewed {
            self.machine.recent = renewed;
        }
        Ok(completed)
    }

    /// One instruction, but for its copy of the registers.
    #[inline(always)]
    fn instruction(&mut self) -> Result<Completed, Fault> {
        let instruction = self.fetch()?;
        match instruction.opcode {
            Opcode::Halt => Ok(Completed::Halted),
            Opcode::Lit => {
                self.machine.a = i32::from(instruction.offset) as u32;
                self.next_location()
            }
            _ => {
                let pointer = self.effective_pointer(instruction)?;
                self.execute(instruction, pointer)
            }
        }
    }

    /// The instruction at the location.
    #[inline(always)]
    fn fetch(&self) -> Result<Instruction, Fault> {
        let at = self.machine.location;
        let domain = self.machine.domain;
        static_check(self.machine, domain, at.segment, at.word, Flag::Execute)?;
        Instruction::from_word(self.memory[self.address(at.segment, at.word)])
    }

    /// The effect of an instruction that forms an effective pointer.
    #[inline(always)]
    fn execute(&mut self, instruction: Instruction, pointer: Pointer) -> Result<Completed, Fault> {
        let register = usize::from(instruction.register & 7);
        let a = self.machine.a;
        match instruction.opcode {
            Opcode::Halt | Opcode::Lit => {}
            Opcode::Load => self.machine.a = self.load(pointer)?,
            Opcode::Store => self.store(pointer, a)?,
            Opcode::Add => self.machine.a = a.wrapping_add(self.load(pointer)?),
            Opcode::Sub => self.machine.a = a.wrapping_sub(self.load(pointer)?),
            Opcode::Epp => self.machine.pointers[register] = pointer,
            Opcode::Spp => self.store(pointer, self.machine.pointers[register].to_word())?,
            Opcode::Jump => return self.jump(pointer),
            Opcode::Call => return self.call(pointer),
            Opcode::Ret => return self.ret(pointer),
            Opcode::Jz if a == 0 => return self.jump(pointer),
            Opcode::Jm if a >> 31 == 1 => return self.jump(pointer),
            Opcode::Jz | Opcode::Jm => {}
        }
        self.next_location()
    }

    /// Moves the location one word on.
    #[inline(always)]
    fn next_location(&mut self) -> Result<Completed, Fault> {
        self.machine.location.word += 1;
        Ok(Completed::Plain)
    }
}
