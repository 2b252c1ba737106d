//! Calls on one board after the other, as records of 34 words.

use super::call::{ARGUMENTS, Call, Op};
use super::edges::{Edge, edges};
use super::reference::{ANSWER_WORDS, Answer, Reference};
use super::walk::Walk;
use crate::command::little_endian;
use crate::state::{entry, thread};
use carv_oracle::Snapshot;
use std::vec;

/// Words in a record.
pub const WORDS: usize = NUMBER + 2 + ANSWER_WORDS;
/// Bytes in a record.
pub const BYTES: usize = WORDS * 8;
/// The word of the expected number.
const NUMBER: usize = 1 + ARGUMENTS;

/// One call and the answer that is expected.
#[derive(Clone, Copy, Debug, PartialEq, Eq)]
pub struct Record {
    /// The call: its number in word 0, its arguments in words 1 to 11.
    pub call: Call,
    /// The number in word 12, in word 13 how many answer words are written, these from word 14 on.
    pub answer: Answer,
}

impl Record {
    /// The record's words.
    pub fn words(&self) -> [u64; WORDS] {
        let mut words = [0; WORDS];
        words[0] = self.call.op() as u64;
        for (place, argument) in words[1..].iter_mut().zip(self.call.arguments()) {
            *place = argument;
        }
        words[NUMBER] = self.answer.number;
        words[NUMBER + 1] = self.answer.written as u64;
        words[NUMBER + 2..].copy_from_slice(&self.answer.words);
        words
    }

    /// The words, little-endian.
    pub fn bytes(&self) -> [u8; BYTES] {
        little_endian(&self.words())
    }
}

/// Records without end: document 01's edges, then random calls. Behind the edges about every
/// second call is a reading.
pub struct Records {
    reference: Reference,
    walk: Walk,
    edges: vec::IntoIter<Edge>,
    /// The last change, and who paid for its object before it.
    last: Call,
    payer: u64,
}

impl Records {
    /// Records that depend on the seed alone.
    pub fn new(seed: u64) -> Self {
        Self {
            reference: Reference::default(),
            walk: Walk::new(seed),
            edges: edges().into_iter(),
            last: Call::Current {},
            payer: 1,
        }
    }

    fn next_call(&mut self) -> Call {
        if let Some((call, _)) = self.edges.next() {
            return call;
        }
        if self.walk.draw().random.one_in(2) {
            return self.reading();
        }
        let state = self.reference.state();
        self.last = self.walk.next_call(state);
        self.payer = payer(self.last, state);
        self.last
    }

    /// A reading, mostly of what the last change was about.
    fn reading(&mut self) -> Call {
        let state = self.reference.state();
        let random = &mut self.walk.draw().random;
        if random.one_in(4) {
            let readings = Op::ALL.iter().copied().filter(|op| op.is_reading());
            let readings: Vec<Op> = readings.collect();
            let op = random.of(&readings);
            return self.walk.call(op, state);
        }
        random.of(&about(self.last, self.payer, state))
    }
}

impl Iterator for Records {
    type Item = Record;

    fn next(&mut self) -> Option<Record> {
        let call = self.next_call();
        let answer = self.reference.call(call);
        Some(Record { call, answer })
    }
}

/// Who pays for the object that a call makes or is about; the root if there is none.
fn payer(call: Call, before: &Snapshot) -> u64 {
    match call {
        Call::Create { payer, .. } | Call::Insert { payer, .. } => payer,
        Call::CreateBudget { parent, .. } => parent,
        Call::ChargeMore { id, .. }
        | Call::Uncharge { id, .. }
        | Call::Remove { id, .. }
        | Call::Refill { id, .. }
        | Call::ChargeCpu { id, .. } => entry(before, id).map_or(1, |entry| entry.payer),
        _ => 1,
    }
}

/// Readings that tell what a call did, which left this state.
fn about(call: Call, payer: u64, state: &Snapshot) -> Vec<Call> {
    match call {
        Call::Create { .. } | Call::Insert { .. } | Call::CreateBudget { .. } => {
            about_object(state.next_id.wrapping_sub(1), payer)
        }
        Call::ChargeMore { id, .. }
        | Call::Uncharge { id, .. }
        | Call::Remove { id, .. }
        | Call::Refill { id, .. }
        | Call::ChargeCpu { id, .. } => about_object(id, payer),
        Call::CreateUserThread { id, .. }
        | Call::Start { id, .. }
        | Call::Wake { id, .. }
        | Call::Kill { id, .. } => about_thread(id, state),
        _ => about_thread(state.current, state),
    }
}

fn about_object(id: u64, payer: u64) -> Vec<Call> {
    vec![
        Call::ChargeOf { id },
        Call::Account { id },
        Call::Account { id: payer },
        Call::PaysForAnything { id: payer },
        Call::Totals { id },
        Call::Totals { id: payer },
    ]
}

fn about_thread(id: u64, state: &Snapshot) -> Vec<Call> {
    let thread = thread(state, id);
    let budget = thread.and_then(|thread| thread.budget).unwrap_or(1);
    let wait = thread.and_then(|thread| thread.wait).unwrap_or_default();
    vec![
        Call::Thread { id },
        Call::Thread { id },
        Call::ExitOf { id },
        Call::Account { id: budget },
        Call::Current {},
        Call::Switches {},
        Call::IsBlockedOn {
            id,
            kind: wait.kind.max(1),
            number: wait.number,
        },
    ]
}

#[cfg(test)]
mod tests {
    use super::super::numbers;
    use super::super::removal::Removal;
    use super::super::totals::Whose;
    use super::*;
    use std::collections::BTreeMap;

    const COUNT: usize = 150_000;

    fn records() -> impl Iterator<Item = Record> {
        Records::new(7).take(COUNT)
    }

    #[test]
    fn words_and_bytes() {
        let record = Record {
            call: Call::Start {
                id: 1,
                space: 2,
                cspace: 3,
                root: 4,
                context: [5, 6, 7, 8, 9, 10, 11],
            },
            answer: Answer {
                number: 12,
                written: 13,
                words: std::array::from_fn(|word| word as u64 + 14),
            },
        };
        let mut expected: [u64; WORDS] = std::array::from_fn(|word| word as u64);
        expected[0] = 14;
        assert_eq!(record.words(), expected);
        assert_eq!(BYTES, 272);
        assert_eq!(record.bytes()[264..], [33, 0, 0, 0, 0, 0, 0, 0]);
    }

    #[test]
    fn a_seed_fixes_the_records() {
        let first = |seed| Records::new(seed).take(10_000);
        assert!(first(7).eq(first(7)));
        assert!(!first(7).eq(first(8)));
    }

    #[test]
    fn edges_come_first_and_answer_as_document_01_says() {
        for (record, (call, number)) in records().zip(edges()) {
            assert_eq!(record.call, call);
            assert_eq!(record.answer.number, number, "{call}");
        }
    }

    #[test]
    fn unwritten_words_are_0() {
        for record in records() {
            let Answer {
                number,
                written,
                words,
            } = record.answer;
            assert!(number == 0 || written == 0);
            assert!(words[written..].iter().all(|word| *word == 0));
        }
    }

    #[test]
    fn every_answer_occurs() {
        let mut found: BTreeMap<(Op, u64), u64> = BTreeMap::new();
        // Before the first opening, 1 too.
        for record in records().skip(edges().len()) {
            let key = (record.call.op(), record.answer.number);
            *found.entry(key).or_default() += 1;
        }
        for (op, number) in numbers::all() {
            let count = found.remove(&(op, number)).unwrap_or(0);
            assert!(count > 4, "{op:?} with {number}: {count}");
        }
        assert!(found.is_empty(), "{found:?}");
    }

    #[test]
    fn removals_meet_every_case() {
        let mut board = Reference::default();
        let removals = records().map(|record| {
            let removal = Removal::of(record.call, board.state());
            board.call(record.call);
            removal
        });
        let found = Removal::counts(removals.skip(edges().len()).flatten());
        for case in Removal::all() {
            let count = found.get(&case).copied().unwrap_or(0);
            assert!(count > 4, "{case:?}: {count}");
        }
    }

    /// Also behind the edges of the recorded sample.
    #[test]
    fn totals_meet_every_case() {
        for (count, least) in [(3_000, 1), (COUNT, 100)] {
            let mut board = Reference::default();
            let totals = records().take(count).map(|record| {
                let whose = Whose::of(record.call, board.state());
                board.call(record.call);
                whose
            });
            let found: Vec<Whose> = totals.skip(edges().len()).flatten().collect();
            for case in Whose::ALL {
                let met = found.iter().filter(|whose| **whose == case).count();
                assert!(met > least, "{case:?}: {met} of {count}");
            }
        }
    }

    #[test]
    fn half_are_readings() {
        let random = || records().skip(edges().len());
        let readings = random().filter(|r| r.call.op().is_reading()).count();
        assert!(readings > random().count() / 2);
        assert!(readings < random().count() * 2 / 3);
    }
}
