//! What the programs printed.

use generator::REFUSALS;
use std::collections::BTreeMap;
use std::fmt;

/// Counts of what both programs printed as the reference does.
#[derive(Clone, Debug, Default)]
pub struct Tally {
    /// How many were compared.
    pub total: u64,
    /// Those that were `refused N`, by number.
    refused: BTreeMap<u32, u64>,
    /// Lines of crossings by the digits of their word, 1 to 4.
    pub digits: [u64; 4],
    /// Lines of crossings into a segment of two digits.
    pub high_segments: u64,
    /// Lines of the longest text.
    pub longest: usize,
}

impl Tally {
    /// Counts what a program printed.
    pub fn add(&mut self, text: &str) {
        self.total += 1;
        self.longest = self.longest.max(text.lines().count());
        text.lines().for_each(|line| self.add_line(line));
    }

    fn add_line(&mut self, line: &str) {
        match line.split(' ').collect::<Vec<_>>()[..] {
            ["refused", number] => {
                let number = number.parse().unwrap_or(0);
                *self.refused.entry(number).or_default() += 1;
            }
            ["call" | "return", _, _, segment, word] => {
                self.digits[word.len() - 1] += 1;
                self.high_segments += u64::from(segment.len() == 2);
            }
            _ => {}
        }
    }

    /// How many were refused with this number.
    pub fn of(&self, number: u32) -> u64 {
        self.refused.get(&number).copied().unwrap_or(0)
    }

    /// What was never reached, of all that a large batch must reach.
    pub fn missing(&self) -> Vec<String> {
        let refused = REFUSALS.map(u32::from).into_iter();
        let refused = refused.map(|number| (format!("refused {number}"), self.of(number)));
        let digits = (1..).zip(self.digits);
        let digits = digits.map(|(digits, count)| (format!("words of {digits} digits"), count));
        let segments = [("segments of two digits".to_string(), self.high_segments)];
        let all = refused.chain(digits).chain(segments);
        all.filter(|&(_, count)| count == 0)
            .map(|(name, _)| name)
            .collect()
    }
}

impl fmt::Display for Tally {
    fn fmt(&self, f: &mut fmt::Formatter<'_>) -> fmt::Result {
        write!(f, "refused:")?;
        for number in REFUSALS.map(u32::from) {
            write!(f, " {number}: {}", self.of(number))?;
        }
        write!(f, "\ncrossings by digits of the word:")?;
        for (digits, count) in (1..).zip(self.digits) {
            write!(f, " {digits}: {count}")?;
        }
        let segments = self.high_segments;
        writeln!(f, "\ncrossings into a segment of two digits: {segments}")?;
        writeln!(f, "longest: {} lines", self.longest)
    }
}
