//! A record: a direction, a length and a message.

pub const RECEIVED: u8 = 0;
pub const SENT: u8 = 1;
/// "a length 1 to 255"
pub const LONGEST: usize = 255;

/// What a record is made of, sound or not.
#[derive(Clone, Debug, PartialEq, Eq)]
pub struct Record {
    pub direction: u8,
    pub message: Vec<u8>,
}

impl Record {
    /// Bad are "a direction neither 0 nor 1, no octets, over 255 octets".
    pub fn is_sound(&self) -> bool {
        [RECEIVED, SENT].contains(&self.direction) && (1..=LONGEST).contains(&self.message.len())
    }

    /// A sound record as it stands in a block: "A record takes its length and two
    /// octets."
    pub fn octets(&self) -> Vec<u8> {
        let length = u8::try_from(self.message.len()).expect("a sound record");
        [&[self.direction, length], &self.message[..]].concat()
    }
}

/// The records that stand in these octets back to back; None unless all are sound and
/// the last ends where the octets do. "a lone direction octet is no record"
pub fn records(octets: &[u8]) -> Option<Vec<Record>> {
    let mut records = Vec::new();
    let mut rest = octets;
    while !rest.is_empty() {
        let (&[direction, length], behind) = rest.split_first_chunk()?;
        let (message, further) = behind.split_at_checked(usize::from(length))?;
        let record = Record {
            direction,
            message: message.to_vec(),
        };
        if !record.is_sound() {
            return None;
        }
        records.push(record);
        rest = further;
    }
    Some(records)
}

/// These sound records back to back.
pub fn octets(records: &[Record]) -> Vec<u8> {
    records.iter().flat_map(Record::octets).collect()
}
