//! "an image is damaged exactly when" no history leads to it: each sound table by
//! chance is reached from zeros, other invokes coming and going on the way.

use crate::both::{compare, Call, Named};
use crate::carried::{self, asked, REGISTER};
use crate::chance::Chance;
use crate::growing::{answered, cleared, suited};
use crate::tables::{self, new_id, Invoke, PLACES};

const TIMES: u64 = 2_000;

/// An entry on its way: what waits now, and what is still to come, on each side.
struct Way {
    named: Named,
    own: Queue,
    peers: Queue,
}

/// One side of it.
#[derive(Default)]
struct Queue {
    /// Each with whether it is wanted, or only comes and goes.
    waiting: Vec<(Invoke, bool)>,
    to_come: Vec<Invoke>,
}

#[test]
fn histories() {
    for time in 0..TIMES {
        let mut c = Chance::new(9_000_000 + time);
        let wanted = tables::random(&mut c);
        let mut table = tables::named("fresh");
        let mut ways = opened(&mut table, &wanted);
        while let Some(call) = next(&mut c, &mut ways) {
            say(&mut table, &call);
        }
        assert_eq!(table, wanted);
    }
}

fn say(table: &mut Vec<u8>, call: &Call) {
    let facts = compare(table, call, 64);
    assert_eq!(facts.code(), 0);
    *table = facts.table;
}

/// Opens what is to be open, with nothing that waits.
fn opened(table: &mut Vec<u8>, wanted: &[u8]) -> Vec<Way> {
    let all = |flag| (0..7).map(move |value| (flag, value));
    // A begin takes the lowest value: all seven, and those that aren't wanted closed.
    for _ in all(1) {
        say(table, &Call::Begin(10, 0, vec![0x05, 0x00]));
    }
    let is_wanted = |(flag, value): &Named| tables::entry(wanted, *flag, *value)[0] != 0;
    for named in all(1) {
        match is_wanted(&named) {
            true => say(table, &cleared(named, 0)),
            false => say(table, &Call::Release(named)),
        }
    }
    for named in all(0).filter(is_wanted) {
        say(table, &Call::Receive(carried::sent(REGISTER, named, &[])));
    }
    let way = |named: Named| {
        let entry = tables::entry(wanted, named.0, named.1);
        Way {
            named,
            own: Queue::to(tables::owns_of(&entry)),
            peers: Queue::to(tables::peers_of(&entry)),
        }
    };
    all(1).chain(all(0)).filter(is_wanted).map(way).collect()
}

/// The next call of one of those that aren't there yet.
fn next(c: &mut Chance, ways: &mut [Way]) -> Option<Call> {
    let mut left: Vec<&mut Way> = ways.iter_mut().filter(|way| !way.is_there()).collect();
    if left.is_empty() {
        return None;
    }
    let at = c.below(left.len());
    let Way { named, own, peers } = &mut *left[at];
    let is_own = peers.is_there() || !own.is_there() && c.flip();
    Some(match is_own {
        true => match own.next(c, &tables::OWN) {
            Step::Comes([id, operation]) => {
                Call::Invoke(*named, operation, id as i8, suited(operation))
            }
            Step::Goes(id) => cleared(*named, id),
        },
        false => match peers.next(c, &tables::PEER) {
            Step::Comes([id, operation]) => Call::Receive(asked(*named, id, None, operation)),
            Step::Goes(id) => answered(*named, id),
        },
    })
}

impl Way {
    fn is_there(&self) -> bool {
        self.own.is_there() && self.peers.is_there()
    }
}

/// An invoke that comes, or the id of one that goes.
enum Step {
    Comes(Invoke),
    Goes(u8),
}

impl Queue {
    fn to(to_come: Vec<Invoke>) -> Queue {
        Queue {
            to_come,
            ..Queue::default()
        }
    }

    fn is_there(&self) -> bool {
        self.to_come.is_empty() && self.waiting.iter().all(|(_, is_wanted)| *is_wanted)
    }

    /// The next that is wanted; another, while there is room; or another goes.
    fn next(&mut self, c: &mut Chance, operations: &[u8]) -> Step {
        let has_room = self.waiting.len() < PLACES && !self.to_come.is_empty();
        let others = self.others();
        match c.below(3) {
            0 if has_room => {
                let ids = self.waiting.iter().map(|(invoke, _)| *invoke);
                let taken: Vec<Invoke> = ids.chain(self.to_come.iter().copied()).collect();
                let other = [new_id(c, &taken), c.pick(operations)];
                self.waiting.push((other, false));
                Step::Comes(other)
            }
            2 if !others.is_empty() => self.go(c.pick(&others)),
            _ if !has_room => self.go(c.pick(&others)),
            _ => {
                let wanted = self.to_come.remove(0);
                self.waiting.push((wanted, true));
                Step::Comes(wanted)
            }
        }
    }

    fn go(&mut self, id: u8) -> Step {
        self.waiting.retain(|([other, _], _)| *other != id);
        Step::Goes(id)
    }

    /// The ids of those that only come and go.
    fn others(&self) -> Vec<u8> {
        let others = self.waiting.iter().filter(|(_, is_wanted)| !is_wanted);
        others.map(|([id, _], _)| *id).collect()
    }
}
