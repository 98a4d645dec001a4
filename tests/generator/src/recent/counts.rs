//! Counts over what runs did with the registers.

use super::uses::{uses, Use};
use reference::recent::{Recent, Registers};
use reference::words::{Instruction, Opcode};
use reference::{Completed, Fault, Machine, Processor};
use std::fmt;

/// Faults that may follow an indirect word read through a tagged pointer. The
/// pointer from it is tagged and has no offset: there is no 23, a transfer gives
/// 28, and only a return goes on to a static check.
const AFTER_INDIRECT: [u8; 7] = [21, 22, 24, 25, 26, 28, 32];
/// Faults that may follow a word of a list at a tagged a. The gate and the free
/// frame are judged before, and a list that is covered ends by word 4,095.
const WITHIN_LIST: [u8; 4] = [24, 25, 26, 30];

/// Runs by what they did with the registers.
#[derive(Clone, Debug, Default)]
pub struct Recents {
    /// An argument was referred to by a register.
    pub rereads: u64,
    /// A list was.
    pub list_again: u64,
    /// Two registers or more matched a reference.
    pub several: u64,
    /// An entry replaced a register that an older frame had filled.
    pub older_replaced: u64,
    /// A match was found that may not be entered.
    pub not_entered: u64,
    /// A call's list capability was not entered.
    pub list_not_entered: u64,
    /// A word of a list handed on matched a register that the call found filled.
    pub list_word_matched: u64,
    /// One was entered.
    pub list_word_entered: u64,
    /// The indirect word of a return matched a register.
    pub return_matched: u64,
    /// It was entered, and then cleared.
    pub return_entered: u64,
    /// A return cleared registers.
    pub cleared: u64,
    /// Faults 21 to 32 after references that would have changed the registers:
    /// to an indirect word, and to words of a list.
    faults_between: [[u64; 12]; 2],
}

impl Recents {
    /// Counts an instruction: what the machine was before it, what it gave, and
    /// the processor after it.
    pub(crate) fn count(
        &mut self,
        before: &Machine,
        instruction: Instruction,
        outcome: Result<Completed, Fault>,
        after: &Processor,
    ) {
        let (uses, registers) = uses(before, after.made());
        match outcome {
            Err(fault) if registers != before.recent => {
                let base = before.pointers[usize::from(instruction.base)];
                let at_list = instruction.opcode == Opcode::Call && !base.tag;
                let row = &mut self.faults_between[usize::from(at_list)];
                row[usize::from(fault.number()) - 21] += 1;
            }
            Err(_) => {}
            Ok(completed) => {
                self.count_uses(before, &uses, completed);
                self.count_changes(before, completed, after.machine());
            }
        }
    }

    /// Counts what the references of a completed instruction did.
    fn count_uses(&mut self, before: &Machine, uses: &[Use], completed: Completed) {
        let any = |is_so: &dyn Fn(&Use) -> bool| u64::from(uses.iter().any(is_so));
        self.several += any(&|one| one.several);
        self.not_entered += any(&|one| one.not_entered);
        let list = before.live_frame().and_then(|f| f.capabilities().last());
        let is_list = |row: Recent| list == Some(&row.capability);
        let matched = any(&|one| one.matched.is_some());
        let entered = any(&|one| one.entered);
        if completed == Completed::Called {
            self.list_word_matched += matched;
            self.list_word_entered += entered;
            return;
        }
        self.rereads += any(&|one| one.matched.is_some_and(|row| !is_list(row)));
        self.list_again += any(&|one| one.matched.is_some_and(is_list));
        if completed == Completed::Returned {
            self.return_matched += matched;
            self.return_entered += entered;
        }
    }

    /// Counts what a completed instruction changed in the registers.
    fn count_changes(&mut self, before: &Machine, completed: Completed, after: &Machine) {
        let mut rows = before.recent.iter().zip(&after.recent);
        let replaced = rows.any(|(old, new)| old.frame > 0 && new.frame > old.frame);
        self.older_replaced += u64::from(replaced);
        let of = |registers: &Registers, frame| registers.iter().any(|row| row.frame == frame);
        let has_list = of(&after.recent, after.frame_count);
        self.list_not_entered += u64::from(completed == Completed::Called && !has_list);
        let had_some = of(&before.recent, before.frame_count);
        self.cleared += u64::from(completed == Completed::Returned && had_some);
    }

    /// Runs with each of these faults after references that would have changed
    /// the registers: to an indirect word, or to words of a list.
    fn faults(&self, at_list: bool) -> Vec<(String, u64)> {
        let (name, faults) = match at_list {
            false => ("an indirect word", &AFTER_INDIRECT[..]),
            true => ("words of a list", &WITHIN_LIST[..]),
        };
        let row = self.faults_between[usize::from(at_list)];
        let named = |&fault: &u8| {
            (
                format!("{fault} after {name}"),
                row[usize::from(fault) - 21],
            )
        };
        faults.iter().map(named).collect()
    }

    /// Runs with 24 or 25 at an operand, after an indirect word that would have
    /// changed the registers.
    pub fn operand_failed(&self) -> u64 {
        let [after_indirect, _] = self.faults_between;
        after_indirect[24 - 21] + after_indirect[25 - 21]
    }

    /// Each thing that a run may do with the registers, with how many did.
    pub fn named(&self) -> Vec<(String, u64)> {
        let uses = [
            ("an argument by a register", self.rereads),
            ("the list by a register", self.list_again),
            ("a match of several registers", self.several),
            ("an older frame's register replaced", self.older_replaced),
            ("a match not entered", self.not_entered),
            ("a call's list not entered", self.list_not_entered),
            ("a word of a list handed on matched", self.list_word_matched),
            ("a word of a list handed on entered", self.list_word_entered),
            ("a return's indirect word matched", self.return_matched),
            ("a return's indirect word entered", self.return_entered),
            ("registers cleared", self.cleared),
        ];
        let uses = uses.map(|(name, count)| (name.to_string(), count));
        let faults = [false, true].map(|at_list| self.faults(at_list));
        uses.into_iter().chain(faults.concat()).collect()
    }

    /// How many runs gave a fault where the order of the checks leaves none.
    pub fn impossible(&self) -> u64 {
        let all: u64 = self.faults_between.as_flattened().iter().sum();
        let faults = [false, true].map(|at_list| self.faults(at_list)).concat();
        all - faults.iter().map(|(_, count)| count).sum::<u64>()
    }

    /// All counts.
    fn all(&mut self) -> impl Iterator<Item = &mut u64> {
        let others = [
            &mut self.rereads,
            &mut self.list_again,
            &mut self.several,
            &mut self.older_replaced,
            &mut self.not_entered,
            &mut self.list_not_entered,
            &mut self.list_word_matched,
            &mut self.list_word_entered,
            &mut self.return_matched,
            &mut self.return_entered,
            &mut self.cleared,
        ];
        let faults = self.faults_between.as_flattened_mut();
        others.into_iter().chain(faults)
    }

    /// Adds a run by what was counted in it.
    pub(crate) fn add_run(&mut self, mut run: Recents) {
        for (total, count) in self.all().zip(run.all()) {
            *total += (*count).min(1);
        }
    }
}

impl fmt::Display for Recents {
    fn fmt(&self, out: &mut fmt::Formatter) -> fmt::Result {
        writeln!(out, "runs by what they did with the registers:")?;
        for (name, count) in self.named() {
            writeln!(out, "  {name} {count}")?;
        }
        let impossible = self.impossible();
        writeln!(out, "  any other fault after one of these {impossible}")
    }
}
