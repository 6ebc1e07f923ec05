//! The transaction table and its image of 238 octets.

use crate::operation;

pub const LENGTH: usize = ENTRIES * ENTRY;
const ENTRIES: usize = 14;
/// "An entry has 17 octets": the state and two sides.
const ENTRY: usize = 1 + 2 * SIDE;
/// "up to four own and four peer invokes"
const PLACES: usize = 4;
/// An id and an operation for each place.
const SIDE: usize = 2 * PLACES;

/// An invoke that waits for its answer.
#[derive(Clone, Copy, Debug, PartialEq, Eq)]
pub struct Waiting {
    pub id: i8,
    pub operation: u8,
}

/// The invokes of one side that wait, ours or the peer's, the oldest first; the
/// places behind them are None.
#[derive(Clone, Copy, Debug, Default, PartialEq, Eq)]
pub struct Side {
    places: [Option<Waiting>; PLACES],
}

#[derive(Clone, Copy, Debug, PartialEq, Eq)]
pub enum Entry {
    Closed,
    Open(Open),
}

#[derive(Clone, Copy, Debug, Default, PartialEq, Eq)]
pub struct Open {
    pub own: Side,
    pub peer: Side,
}

/// "named by the flag it is received under and its value"
#[derive(Clone, Copy, Debug, PartialEq, Eq)]
pub struct Transaction {
    pub flag: u8,
    pub value: u8,
}

#[derive(Clone, Debug, PartialEq, Eq)]
pub struct Table {
    entries: [Entry; ENTRIES],
}

impl Transaction {
    /// "a flag over 1 or a value over 6" names none.
    pub fn named(flag: u8, value: u8) -> Option<Transaction> {
        (flag <= 1 && value <= 6).then_some(Transaction { flag, value })
    }

    /// "seven that we began (values 0 to 6), then seven the network began"
    fn index(self) -> usize {
        usize::from(self.value) + if self.flag == 1 { 0 } else { 7 }
    }
}

impl Table {
    /// None for a damaged image, or one that has not 238 octets.
    pub fn decode(image: &[u8]) -> Option<Table> {
        if image.len() != LENGTH {
            return None;
        }
        let mut entries = [Entry::Closed; ENTRIES];
        for (entry, octets) in entries.iter_mut().zip(image.chunks(ENTRY)) {
            *entry = Entry::decode(octets)?;
        }
        Some(Table { entries })
    }

    pub fn encode(&self) -> Vec<u8> {
        self.entries.iter().flat_map(|e| e.encode()).collect()
    }

    pub fn entry(&self, transaction: Transaction) -> Entry {
        self.entries[transaction.index()]
    }

    pub fn set(&mut self, transaction: Transaction, entry: Entry) {
        self.entries[transaction.index()] = entry;
    }

    /// "A begin takes the lowest closed own value."
    pub fn lowest_closed_own(&self) -> Option<Transaction> {
        let own = (0..7).map(|value| Transaction { flag: 1, value });
        own.into_iter().find(|t| self.entry(*t) == Entry::Closed)
    }
}

impl Entry {
    /// "all zero if closed"; else the state, the own side, the peer's side.
    fn decode(octets: &[u8]) -> Option<Entry> {
        if octets == [0; ENTRY] {
            return Some(Entry::Closed);
        }
        let (state, sides) = octets.split_first()?;
        let (own, peer) = sides.split_at(SIDE);
        // "own operations are those we begin, peer ones 18, 60, 61"
        let open = Open {
            own: Side::decode(own, |number| operation::we_begin(number).is_some())?,
            peer: Side::decode(peer, operation::waits_for_us)?,
        };
        (*state == open.state()).then_some(Entry::Open(open))
    }

    fn encode(&self) -> [u8; ENTRY] {
        let mut octets = [0; ENTRY];
        if let Entry::Open(open) = self {
            octets[0] = open.state();
            octets[1..=SIDE].copy_from_slice(&open.own.encode());
            octets[1 + SIDE..].copy_from_slice(&open.peer.encode());
        }
        octets
    }
}

impl Open {
    /// "open is 1, plus 2 with one own invoke or more outstanding, plus 4 with one
    /// peer invoke or more"
    fn state(&self) -> u8 {
        1 + 2 * u8::from(!self.own.is_empty()) + 4 * u8::from(!self.peer.is_empty())
    }
}

impl Side {
    pub fn waiting(&self) -> impl Iterator<Item = Waiting> {
        self.places.into_iter().flatten()
    }

    /// "the place with its id"
    pub fn with_id(&self, id: i8) -> Option<Waiting> {
        self.waiting().find(|waiting| waiting.id == id)
    }

    pub fn is_empty(&self) -> bool {
        self.waiting().count() == 0
    }

    /// "when four wait"
    pub fn is_full(&self) -> bool {
        self.waiting().count() == PLACES
    }

    /// "A new one comes behind the last"
    #[must_use]
    pub fn and(self, new: Waiting) -> Side {
        assert!(!self.is_full(), "no fifth one waits");
        Side::of(self.waiting().chain([new]))
    }

    /// "when one is cleared, those behind it move up"
    #[must_use]
    pub fn without(self, id: i8) -> Side {
        Side::of(self.waiting().filter(|waiting| waiting.id != id))
    }

    fn of(waiting: impl Iterator<Item = Waiting>) -> Side {
        let mut side = Side::default();
        for (place, waiting) in side.places.iter_mut().zip(waiting) {
            *place = Some(waiting);
        }
        side
    }

    /// "the used places first, each with an operation of its side, then zeros only;
    /// no two used places of one side with the same id"; else None.
    fn decode(octets: &[u8], is_of_side: impl Fn(u8) -> bool) -> Option<Side> {
        // "a place is used exactly if its operation isn't 0"
        let places = octets.chunks(2).map(Waiting::decode);
        let side = Side::of(places.take_while(|place| place.operation != 0));
        let is_sound = side.waiting().all(|waiting| is_of_side(waiting.operation))
            && side.has_no_id_twice()
            && side.encode() == octets;
        is_sound.then_some(side)
    }

    fn has_no_id_twice(&self) -> bool {
        let times = |id: i8| self.waiting().filter(|other| other.id == id).count();
        self.waiting().all(|waiting| times(waiting.id) == 1)
    }

    fn encode(&self) -> [u8; SIDE] {
        let mut octets = [0; SIDE];
        for (pair, waiting) in octets.chunks_mut(2).zip(self.waiting()) {
            pair.copy_from_slice(&[waiting.id as u8, waiting.operation]);
        }
        octets
    }
}

impl Waiting {
    fn decode(pair: &[u8]) -> Waiting {
        Waiting {
            id: pair[0] as i8,
            operation: pair[1],
        }
    }
}
