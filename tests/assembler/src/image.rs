//! The image as bytes.

/// A chunk: body length, kind, body.
pub fn chunk(kind: u16, body: &[u8]) -> Vec<u8> {
    let length = body.len();
    let mut bytes = vec![(length % 256) as u8, (length / 256) as u8];
    bytes.extend([(kind % 256) as u8, (kind / 256) as u8]);
    bytes.extend(body);
    bytes
}

/// A word as four bytes, lowest first.
fn word_bytes(word: u32) -> [u8; 4] {
    [0u32, 8, 16, 24].map(|shift| (word >> shift) as u8)
}

/// A segment of an image.
#[derive(Clone, Debug, Default)]
struct SegmentPart {
    gate_count: u16,
    gate_domain: u8,
    words: Vec<u32>,
}

/// A domain of an image.
#[derive(Clone, Debug, Default)]
struct DomainPart {
    stack_segment: u8,
    rights: Vec<(u8, u8)>,
}

/// An image under construction. Nothing is judged, so bad images can be built
/// as well.
#[derive(Clone, Debug, Default)]
pub struct ImageBuilder {
    segments: Vec<SegmentPart>,
    domains: Vec<DomainPart>,
    start_domain: u8,
    start: u32,
}

impl ImageBuilder {
    /// An image without segments and domains.
    pub fn new() -> ImageBuilder {
        ImageBuilder::default()
    }

    /// Adds a segment; gives its number.
    pub fn segment(&mut self, words: impl IntoIterator<Item = impl Into<u32>>) -> u8 {
        self.segments.push(SegmentPart {
            words: words.into_iter().map(Into::into).collect(),
            ..SegmentPart::default()
        });
        self.segments.len() as u8 - 1
    }

    /// Makes the first words of a segment gates into a domain.
    pub fn gates(&mut self, segment: u8, count: u16, domain: u8) -> &mut ImageBuilder {
        let part = &mut self.segments[usize::from(segment)];
        part.gate_count = count;
        part.gate_domain = domain;
        self
    }

    /// Adds a domain with a stack segment and rights (segment, flags); gives
    /// its number.
    pub fn domain(&mut self, stack_segment: u8, rights: &[(u8, u8)]) -> u8 {
        self.domains.push(DomainPart {
            stack_segment,
            rights: rights.to_vec(),
        });
        self.domains.len() as u8 - 1
    }

    /// Sets a domain's rights on a segment.
    pub fn rights(&mut self, domain: u8, segment: u8, flags: u8) -> &mut ImageBuilder {
        self.domains[usize::from(domain)]
            .rights
            .push((segment, flags));
        self
    }

    /// Sets the start: a domain and the place a pointer word names.
    pub fn start(&mut self, domain: u8, pointer_word: u32) -> &mut ImageBuilder {
        self.start_domain = domain;
        self.start = pointer_word;
        self
    }

    /// How many gates a segment has, and the domain they lead into.
    pub fn gates_of(&self, segment: u8) -> (u16, u8) {
        let part = &self.segments[usize::from(segment)];
        (part.gate_count, part.gate_domain)
    }

    /// A domain's rights on a segment.
    pub fn rights_of(&self, domain: u8, segment: u8) -> u8 {
        let mut rights = self.domains[usize::from(domain)].rights.iter().rev();
        let last = rights.find(|&&(on, _)| on == segment);
        last.map_or(0, |&(_, flags)| flags)
    }

    /// Changes a word of a segment.
    pub fn set(&mut self, segment: u8, word: u32, value: impl Into<u32>) -> &mut ImageBuilder {
        self.segments[usize::from(segment)].words[word as usize] = value.into();
        self
    }

    /// Number of segments so far.
    pub fn segment_count(&self) -> usize {
        self.segments.len()
    }

    /// Number of domains so far.
    pub fn domain_count(&self) -> usize {
        self.domains.len()
    }

    /// The words of a segment.
    pub fn words(&self, segment: u8) -> &[u32] {
        &self.segments[usize::from(segment)].words
    }

    /// The chunks of the image, in order.
    pub fn chunks(&self) -> Vec<Vec<u8>> {
        let mut head = vec![self.segments.len() as u8, self.domains.len() as u8];
        head.extend([self.start_domain, 0]);
        head.extend(word_bytes(self.start));
        let mut chunks = vec![chunk(1, &head)];
        chunks.extend(self.segments.iter().map(segment_chunk));
        chunks.extend(self.domains.iter().map(|part| self.domain_chunk(part)));
        chunks.push(chunk(4, &[]));
        chunks
    }

    /// The bytes of the image.
    pub fn bytes(&self) -> Vec<u8> {
        self.chunks().concat()
    }

    fn domain_chunk(&self, part: &DomainPart) -> Vec<u8> {
        let mut body = vec![0; 1 + self.segments.len()];
        body[0] = part.stack_segment;
        for &(segment, flags) in &part.rights {
            body[1 + usize::from(segment)] = flags;
        }
        chunk(3, &body)
    }
}

fn segment_chunk(part: &SegmentPart) -> Vec<u8> {
    let mut body = vec![(part.gate_count % 256) as u8, (part.gate_count / 256) as u8];
    body.extend([part.gate_domain, 0]);
    body.extend(part.words.iter().copied().flat_map(word_bytes));
    chunk(2, &body)
}
