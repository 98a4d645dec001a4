//! All lines of a text, sorted by segments and domains, names still open.

use std::collections::HashMap;

use crate::statement::{statement, Item, Place, Statement, SEGMENT_WORDS};
use crate::tokens::{Token, Tokens};

/// Most segments, domains, words together and arguments of a list.
const SEGMENTS: usize = 16;
const DOMAINS: usize = 8;
const WORDS: usize = 8192;
const ARGUMENTS: u32 = 8;

/// A segment of the text.
pub struct Segment<'a> {
    pub line: usize,
    pub name: &'a str,
    /// Line, count and domain.
    pub gates: Option<(usize, u32, &'a str)>,
    /// Each word with its line.
    pub words: Vec<(usize, Item<'a>)>,
}

/// A domain of the text.
pub struct Domain<'a> {
    pub line: usize,
    pub name: &'a str,
    pub stack: &'a str,
    /// Line, segment and flags.
    pub rights: Vec<(usize, &'a str, u8)>,
}

/// Where a label stands.
pub struct Label {
    pub line: usize,
    pub segment: usize,
    pub word: usize,
}

/// What the lines of words and rights belong to.
#[derive(Default)]
enum Open {
    #[default]
    Nothing,
    Segment,
    Domain,
}

/// The text so far.
#[derive(Default)]
pub struct Draft<'a> {
    pub segments: Vec<Segment<'a>>,
    pub domains: Vec<Domain<'a>>,
    /// Line, domain and place.
    pub start: Option<(usize, &'a str, Place<'a>)>,
    pub labels: HashMap<&'a str, Label>,
    open: Open,
    /// The word that counts the arguments of the list just before.
    list: Option<usize>,
    word_total: usize,
}

impl<'a> Draft<'a> {
    /// Adds a line of the text.
    pub fn add_line(&mut self, line: usize, text: &'a str) -> Result<(), String> {
        let mut tokens = Tokens::new(text)?;
        let label = match (tokens.peek(0), tokens.peek(1)) {
            (Some(Token::Name(label)), Some(Token::Sign(':'))) => Some(label),
            _ => None,
        };
        if let Some(label) = label {
            tokens.skip();
            tokens.skip();
            self.label(line, label)?;
        }
        if tokens.is_empty() {
            return Ok(());
        }
        let statement = statement(&mut tokens)?;
        if label.is_some() && !makes_words(&statement) {
            return Err("a label must stand before a word".to_string());
        }
        self.add(line, statement)
    }

    fn add(&mut self, line: usize, statement: Statement<'a>) -> Result<(), String> {
        let list = self.list.take();
        match statement {
            Statement::Segment(name) => self.segment(line, name),
            Statement::Gates { count, domain } => self.gates(line, count, domain),
            Statement::Domain { name, stack } => self.domain(line, name, stack),
            Statement::Rights { segment, flags } => self.rights(line, segment, flags),
            Statement::Start { domain, place } => self.start(line, domain, place),
            Statement::Words(items) => self.words(line, &items).map(|_| ()),
            Statement::List(place) => self.new_list(line, place),
            Statement::Argument { pointer, mode } => self.argument(line, list, pointer, mode),
        }
    }

    fn segment(&mut self, line: usize, name: &'a str) -> Result<(), String> {
        if let Some(earlier) = self.segments.iter().find(|part| part.name == name) {
            return Err(twice("segment", name, earlier.line));
        }
        if self.segments.len() == SEGMENTS {
            return Err(format!("more than {SEGMENTS} segments"));
        }
        self.segments.push(Segment {
            line,
            name,
            gates: None,
            words: Vec::new(),
        });
        self.open = Open::Segment;
        Ok(())
    }

    fn domain(&mut self, line: usize, name: &'a str, stack: &'a str) -> Result<(), String> {
        if let Some(earlier) = self.domains.iter().find(|part| part.name == name) {
            return Err(twice("domain", name, earlier.line));
        }
        if self.domains.len() == DOMAINS {
            return Err(format!("more than {DOMAINS} domains"));
        }
        self.domains.push(Domain {
            line,
            name,
            stack,
            rights: Vec::new(),
        });
        self.open = Open::Domain;
        Ok(())
    }

    /// The segment that words, labels and gates belong to.
    fn open_segment(&mut self) -> Result<&mut Segment<'a>, String> {
        match (&self.open, self.segments.last_mut()) {
            (Open::Segment, Some(segment)) => Ok(segment),
            _ => Err("no segment is open here: a 'segment' line comes first".to_string()),
        }
    }

    fn gates(&mut self, line: usize, count: u32, domain: &'a str) -> Result<(), String> {
        let segment = self.open_segment()?;
        if let Some((earlier, ..)) = segment.gates {
            let name = segment.name;
            return Err(format!(
                "segment '{name}' has gates on line {earlier} already"
            ));
        }
        segment.gates = Some((line, count, domain));
        Ok(())
    }

    fn rights(&mut self, line: usize, segment: &'a str, flags: u8) -> Result<(), String> {
        let domain = match (&self.open, self.domains.last_mut()) {
            (Open::Domain, Some(domain)) => domain,
            _ => return Err("no domain is open here: a 'domain' line comes first".to_string()),
        };
        if let Some(earlier) = domain.rights.iter().find(|right| right.1 == segment) {
            let (name, line) = (domain.name, earlier.0);
            return Err(format!(
                "domain '{name}' has rights on '{segment}' on line {line} already"
            ));
        }
        domain.rights.push((line, segment, flags));
        Ok(())
    }

    fn start(&mut self, line: usize, domain: &'a str, place: Place<'a>) -> Result<(), String> {
        if let Some((earlier, ..)) = self.start {
            return Err(format!("the start is already on line {earlier}"));
        }
        self.start = Some((line, domain, place));
        Ok(())
    }

    /// A label for the word that comes next.
    fn label(&mut self, line: usize, name: &'a str) -> Result<(), String> {
        let word = self.open_segment()?.words.len();
        if let Some(earlier) = self.labels.get(name) {
            return Err(twice("label", name, earlier.line));
        }
        let segment = self.segments.len() - 1;
        let label = Label {
            line,
            segment,
            word,
        };
        self.labels.insert(name, label);
        Ok(())
    }

    /// Adds words; gives the first one's word number.
    fn words(&mut self, line: usize, items: &[Item<'a>]) -> Result<usize, String> {
        let total = self.word_total + items.len();
        let segment = self.open_segment()?;
        let first = segment.words.len();
        if first + items.len() > SEGMENT_WORDS as usize {
            let name = segment.name;
            return Err(format!("segment '{name}' passes {SEGMENT_WORDS} words"));
        }
        if total > WORDS {
            return Err(format!("the segments together pass {WORDS} words"));
        }
        segment.words.extend(items.iter().map(|&item| (line, item)));
        self.word_total = total;
        Ok(first)
    }

    /// The three words that a list begins with.
    fn new_list(&mut self, line: usize, place: Place<'a>) -> Result<(), String> {
        let back = Item::Pointer {
            tag: false,
            place,
            length: 1,
        };
        let count = self.words(line, &[Item::Number(0), back, Item::Number(0)])?;
        self.list = Some(count);
        Ok(())
    }

    /// The two words of an argument; the list's first word counts it.
    fn argument(
        &mut self,
        line: usize,
        list: Option<usize>,
        pointer: Item<'a>,
        mode: u32,
    ) -> Result<(), String> {
        let Some(list) = list else {
            return Err("an argument must follow a 'list' line or another argument".to_string());
        };
        self.words(line, &[pointer, Item::Number(mode)])?;
        if let (_, Item::Number(count)) = &mut self.open_segment()?.words[list] {
            *count += 1;
            if *count > ARGUMENTS {
                return Err(format!("more than {ARGUMENTS} arguments in a list"));
            }
        }
        self.list = Some(list);
        Ok(())
    }
}

/// Whether a statement makes words, so that a label can stand before it.
fn makes_words(statement: &Statement) -> bool {
    matches!(
        statement,
        Statement::Words(_) | Statement::List(_) | Statement::Argument { .. }
    )
}

/// The reason for a name that is given again.
fn twice(what: &str, name: &str, line: usize) -> String {
    format!("{what} '{name}' is already on line {line}")
}
