//! The tables of READINGS, and others.

use crate::call::Named;
use crate::chance::Chance;

pub const LENGTH: usize = 238;
/// The octets of an entry: its state, our four places, the peer's four.
pub const ENTRY: usize = 17;
pub const PLACES: usize = 4;

pub type Entry = [u8; ENTRY];
/// An invoke that waits: its id and its operation.
pub type Invoke = [u8; 2];

pub const CLOSED: Entry = [0; ENTRY];

/// Our value 0 and the network's, as numbers among the fourteen.
const O0: usize = 0;
const N0: usize = 7;

const OWNS4: &str = "1:17/2:59/3:11/4:10";
const PEERS4: &str = "5:60/6:18/7:61/8:60";

/// A table by its name.
pub fn named(name: &str) -> Vec<u8> {
    let o0 = |own, peers| with(&[(O0, own, peers)]);
    let n0 = |peers| with(&[(N0, "none", peers)]);
    match name {
        "fresh" => with(&[]),
        "w1" => n0("5:60"),
        "open" => n0("none"),
        "peer61" => n0("5:61"),
        "peer18" => n0("5:18"),
        "peers2" => n0("5:60/6:18"),
        "peers3" => n0("5:60/6:18/7:61"),
        "peers4" => n0(PEERS4),
        "own59" => o0("1:59", "none"),
        "own17" => o0("1:17", "none"),
        "own10" => o0("1:10", "none"),
        "own11" => o0("1:11", "none"),
        "own12" => o0("1:12", "none"),
        "own13" => o0("1:13", "none"),
        "own14" => o0("1:14", "none"),
        "owns2" => o0("1:59/2:17", "none"),
        "owns3" => o0("1:17/2:59/3:11", "none"),
        "owns4" => o0(OWNS4, "none"),
        "eight" => o0(OWNS4, PEERS4),
        "ownopen" => o0("none", "none"),
        "both17" => o0("1:17", "7:18"),
        "other17" => with(&[(O0, "none", "none"), (1, "1:17", "none")]),
        "apart" => with(&[(O0, "1:59", "none"), (1, "2:17", "none")]),
        "full" => with(&[0, 1, 2, 3, 4, 5, 6].map(|value| (value, "none", "none"))),
        "damaged" => image(&[(N0, [&[2][..], &[0; ENTRY - 1]].concat())]),
        "short" => vec![0; LENGTH - 1],
        "crowded" => with(&CROWDED),
        _ => panic!("no such table: {name}"),
    }
}

/// Every entry open, with none to four on each side, but for two of the network's.
const CROWDED: [(usize, &str, &str); 12] = [
    (0, "none", "none"),
    (1, "1:59", "none"),
    (2, "2:17/3:17/4:17/5:17", "none"),
    (3, "-1:10/0:11", "none"),
    (4, "3:11/4:12/5:13", "4:60/3:60"),
    (5, "0:17/1:17/2:59/3:10", "0:18/1:60/2:61/3:18"),
    (6, "none", "-128:61/127:60/0:18"),
    (8, "none", "5:60"),
    (9, "none", "none"),
    (10, "12:12/13:13/14:14/17:17", "none"),
    (11, "127:14", "127:61/-1:61"),
    (12, "none", "0:18/1:18/2:18/3:18"),
];

/// o0 to o6, n0 to n6, as numbers among the fourteen.
pub fn number(entry: &str) -> usize {
    let (side, value) = entry.split_at(1);
    let first = if side == "o" { O0 } else { N0 };
    first + value.parse::<usize>().expect("a value")
}

/// A table by the entries that are open, each with what waits in it, as in
/// `o0 own 1:59 n1 peers 5:60/6:61`.
pub fn opened(text: &str) -> Vec<u8> {
    let mut entries: Vec<(usize, &str, &str)> = Vec::new();
    let mut words = text.split_whitespace();
    while let Some(word) = words.next() {
        match (word, entries.last_mut()) {
            ("own", Some((_, own, _))) => *own = words.next().expect("what waits of ours"),
            ("peers", Some((.., peers))) => *peers = words.next().expect("what waits"),
            _ => entries.push((number(word), "none", "none")),
        }
    }
    with(&entries)
}

/// Open entries by their numbers: ours 0 to 6, the network's 7 to 13.
fn with(entries: &[(usize, &str, &str)]) -> Vec<u8> {
    let opened = |(place, own, peers): &(usize, &str, &str)| {
        let entry = open(&invokes(own), &invokes(peers));
        (*place, entry.to_vec())
    };
    image(&entries.iter().map(opened).collect::<Vec<_>>())
}

/// Entries in their octets, sound or not; the others are closed.
pub fn image(entries: &[(usize, Vec<u8>)]) -> Vec<u8> {
    let mut image = vec![0; LENGTH];
    for (place, entry) in entries {
        image[ENTRY * place..ENTRY * (place + 1)].copy_from_slice(entry);
    }
    image
}

/// "id:operation in order of arrival", or none.
pub fn invokes(text: &str) -> Vec<Invoke> {
    let invoke = |pair: &str| {
        let (id, operation) = pair.split_once(':').expect("id:operation");
        let id: i8 = id.parse().expect("an id");
        [id as u8, operation.parse().expect("an operation")]
    };
    match text {
        "none" => Vec::new(),
        _ => text.split('/').map(invoke).collect(),
    }
}

/// The place of an entry in the image.
pub fn place(flag: u8, value: u8) -> usize {
    ENTRY * (usize::from(value) + if flag == 1 { 0 } else { 7 })
}

pub fn entry(image: &[u8], flag: u8, value: u8) -> Entry {
    let at = place(flag, value);
    image[at..at + ENTRY].try_into().expect("seventeen octets")
}

pub fn put(image: &mut [u8], (flag, value): Named, entry: Entry) {
    let at = place(flag, value);
    image[at..at + ENTRY].copy_from_slice(&entry);
}

/// What waits in a sound entry, of ours.
pub fn owns_of(entry: &Entry) -> Vec<Invoke> {
    used(&entry[1..9])
}

/// What waits in a sound entry, of the peer's.
pub fn peers_of(entry: &Entry) -> Vec<Invoke> {
    used(&entry[9..])
}

fn used(places: &[u8]) -> Vec<Invoke> {
    let pairs = places.chunks(2).map(|pair| [pair[0], pair[1]]);
    pairs.filter(|[_, operation]| *operation != 0).collect()
}

pub fn has(side: &[Invoke], id: u8) -> bool {
    side.iter().any(|[other, _]| *other == id)
}

/// The bits of a state that tell of invokes outstanding.
pub const STATE_OWN: u8 = 2;
pub const STATE_PEER: u8 = 4;

/// Operations that we begin, and peer operations that wait.
pub const OWN: [u8; 7] = [10, 11, 12, 13, 14, 17, 59];
pub const PEER: [u8; 3] = [18, 60, 61];

/// So many invokes of these operations, no id twice.
pub fn side(c: &mut Chance, operations: &[u8], count: usize) -> Vec<Invoke> {
    let mut side = Vec::new();
    while side.len() < count {
        let id = c.id();
        if !has(&side, id) {
            side.push([id, c.pick(operations)]);
        }
    }
    side
}

/// None to four, often four.
pub fn owns(c: &mut Chance) -> Vec<Invoke> {
    let count = c.pick(&[0, 0, 1, 1, 2, 3, 4, 4]);
    side(c, &OWN, count)
}

pub fn peers(c: &mut Chance) -> Vec<Invoke> {
    let count = c.pick(&[0, 0, 1, 1, 2, 3, 4, 4]);
    side(c, &PEER, count)
}

/// An id that isn't among these: near one of them, or any.
pub fn new_id(c: &mut Chance, side: &[Invoke]) -> u8 {
    let mut id = match side {
        [.., [last, _]] if c.flip() => last.wrapping_add(1),
        _ => c.id(),
    };
    while has(side, id) {
        id = id.wrapping_add(1);
    }
    id
}

/// The octets of an open entry.
pub fn open(own: &[Invoke], peers: &[Invoke]) -> Entry {
    let mut entry = CLOSED;
    entry[0] = 1 + 2 * u8::from(!own.is_empty()) + 4 * u8::from(!peers.is_empty());
    entry[1..1 + 2 * own.len()].copy_from_slice(&own.concat());
    entry[9..9 + 2 * peers.len()].copy_from_slice(&peers.concat());
    entry
}

/// An image that is not damaged.
pub fn random(c: &mut Chance) -> Vec<u8> {
    let closed = c.below(8);
    let mut image = Vec::new();
    for _ in 0..14 {
        match c.below(8) < closed {
            true => image.extend(CLOSED),
            false => image.extend(random_entry(c)),
        }
    }
    image
}

/// An open entry; now and then the two sides have the same ids, the other way round.
pub fn random_entry(c: &mut Chance) -> Entry {
    let own = owns(c);
    let peers = match c.one_in(4) {
        true => own
            .iter()
            .rev()
            .map(|[id, _]| [*id, c.pick(&PEER)])
            .collect(),
        false => peers(c),
    };
    open(&own, &peers)
}

/// An open transaction that has these bits of state, if there is one; every other
/// time one of those in which most waits.
pub fn open_one(c: &mut Chance, image: &[u8], wanted: u8) -> Option<Named> {
    let all = [0, 1].map(|flag| [0, 1, 2, 3, 4, 5, 6].map(|value| (flag, value)));
    let entry = |(flag, value)| entry(image, flag, value);
    let has = |named| entry(named)[0] & (1 | wanted) == 1 | wanted;
    let mut fitting: Vec<Named> = all.concat().into_iter().filter(|n| has(*n)).collect();
    if c.flip() {
        let waiting = |named| owns_of(&entry(named)).len() + peers_of(&entry(named)).len();
        let most = fitting.iter().map(|n| waiting(*n)).max();
        fitting.retain(|n| Some(waiting(*n)) == most);
    }
    (!fitting.is_empty()).then(|| c.pick(&fitting))
}
