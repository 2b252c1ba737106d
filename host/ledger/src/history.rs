//! Book, ledger and clock of a board, written from its calls and their refusal numbers.

use crate::call::tick_time;
use crate::{ACCEPTED, Book, Call, Clock, Ledger};

/// What the calls since the last accepted opening say; nothing before the first.
#[derive(Clone, Debug, Default)]
pub struct History {
    opened: Option<Opened>,
    openings: u64,
    is_before_p2: bool,
}

/// What the calls of an opened board say.
#[derive(Clone, Debug)]
pub struct Opened {
    /// Where the opening stands, as the list counts.
    pub place: u64,
    /// Document 01's book.
    pub book: Book,
    /// Document 02's ledger.
    pub ledger: Ledger,
    /// The clock values.
    pub clock: Clock,
}

impl History {
    /// A history of boards whose removals renew nobody, as before P2.
    pub fn before_p2() -> Self {
        Self {
            is_before_p2: true,
            ..Self::default()
        }
    }

    /// What the calls say since the last accepted opening, if there was one.
    pub fn opened(&self) -> Option<&Opened> {
        self.opened.as_ref()
    }

    /// How many openings were accepted.
    pub fn openings(&self) -> u64 {
        self.openings
    }

    /// Notes a call with its refusal number; `place` is where it stands, as the list counts.
    pub fn note(&mut self, place: u64, call: Call, number: u64) {
        if let (Call::Open { cpu, memory }, ACCEPTED) = (call, number) {
            let book = match self.is_before_p2 {
                true => Book::opening_before_p2(cpu, memory),
                false => Book::opening(cpu, memory),
            };
            self.openings += 1;
            self.opened = Some(Opened {
                place,
                book,
                ledger: Ledger::opening(cpu),
                clock: Clock::default(),
            });
        } else if let Some(opened) = &mut self.opened {
            opened.note(place, call, number);
        }
    }
}

impl Opened {
    fn note(&mut self, place: u64, call: Call, number: u64) {
        if let Some(value) = call.clock() {
            self.clock.note(place, value, number);
        }
        if number == ACCEPTED {
            self.note_accepted(call);
        }
        self.book.write(call, number);
    }

    /// Writes what an accepted call says into the ledger; the book is that before it.
    fn note_accepted(&mut self, call: Call) {
        match call {
            Call::CreateBudget { parent, cpu, .. } => {
                self.ledger.note_budget(self.book.next, parent, cpu);
            }
            Call::ChargeCpu { id, ns, time } => {
                self.ledger.note_charge(id, ns.into(), time.into());
            }
            Call::Tick { n } => {
                let time = tick_time(n);
                if let Some((budget, ns)) = self.book.tick_charge(time) {
                    self.ledger.note_charge(budget, ns, time);
                }
            }
            _ => {}
        }
    }
}
