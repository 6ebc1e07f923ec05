//! Owned octets that remember their place in the message.

/// "The parameter is handed back as a part of the caller's own message."
#[derive(Clone, Debug, Default, PartialEq, Eq)]
pub struct Part {
    pub start: usize,
    pub octets: Vec<u8>,
}

impl Part {
    /// The whole of a message, or of a caller's parameter.
    pub fn whole(octets: &[u8]) -> Part {
        Part {
            start: 0,
            octets: octets.to_vec(),
        }
    }

    /// A part of length 0.
    pub fn empty_at(start: usize) -> Part {
        Part {
            start,
            octets: Vec::new(),
        }
    }

    pub fn end(&self) -> usize {
        self.start + self.octets.len()
    }

    pub fn is_empty(&self) -> bool {
        self.octets.is_empty()
    }

    /// The octets `from` up to `to`, counted within this part, if they are there.
    pub fn cut(&self, from: usize, to: usize) -> Option<Part> {
        let octets = self.octets.get(from..to)?.to_vec();
        Some(Part {
            start: self.start + from,
            octets,
        })
    }

    /// What is left from `from` on.
    pub fn rest(&self, from: usize) -> Option<Part> {
        self.cut(from, self.octets.len())
    }
}
