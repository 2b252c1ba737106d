//! The same board on both sides, built by calls.

use super::Ids;
use crate::area::{self, NEXT_ID};
use crate::edit;
use crate::port::Port;
use carv_compare::board::call::{Call, Edit};
use carv_compare::board::make::{insert, open, remove};
use carv_compare::board::rust::on_rust;
use carv_oracle::account::{Account, PERIOD};
use carv_oracle::{Board, Value};

/// A kind that costs little to create.
pub const NOTIFICATION: u64 = 5;
/// Memory of the root.
pub const MEMORY: u64 = 1 << 40;

/// The same board on both sides.
pub struct Boards {
    pub port: Port,
    pub rust: Board,
}

impl Boards {
    /// A board with this much memory.
    pub fn open(memory: u64) -> Self {
        let mut boards = Self {
            port: Port::new(vec![0; area::BYTES]),
            rust: Board::open(0, 0),
        };
        boards.make(open(PERIOD, memory));
        boards
    }

    /// Makes a call that is accepted on both sides, and answers the first answer word.
    pub fn make(&mut self, call: Call) -> u64 {
        assert_eq!(self.port.make(call), 0, "{call}");
        on_rust(call, &mut self.rust).expect("as on the port");
        self.port.out[0]
    }

    /// Leaves a gap before the id of the next object.
    pub fn leave_gap(&mut self, ids: Ids) {
        match ids {
            Ids::Dense => {}
            Ids::Gaps => {
                for _ in 0..2 {
                    let id = self.make(insert(NOTIFICATION, 1, 0));
                    self.make(remove(id, 0));
                }
            }
            Ids::Far => {
                let next = area::word(&self.port.area, NEXT_ID) + FAR;
                edit::apply(Edit::NextId(next), &mut self.port.area);
                self.rust.set_next_id(next);
            }
        }
    }

    /// A budget's figures.
    pub fn account(&self, id: u64) -> Account {
        match self.rust.account(id) {
            Ok(Value::Account(account)) => account,
            other => panic!("a budget's account is {other:?}"),
        }
    }
}

/// Divisors by whose remainders question 1 notes the places of objects and of threads.
pub const OBJECT_GUESSES: u64 = 509;
const THREAD_GUESSES: u64 = 251;

/// Between ids that lie far apart; 512 of them fit. All ids then have the same remainder, so that
/// question 1's guess of a payer's place is that of the last object.
const FAR: u64 = OBJECT_GUESSES * (1 << 45) - 1;

/// The id of a thread, counted from 0.
pub fn thread_id(place: u64, ids: Ids) -> u64 {
    match ids {
        Ids::Dense => 1_000 + place,
        Ids::Gaps => 1_000 + 3 * place,
        Ids::Far => (place + 1) * (THREAD_GUESSES << 48),
    }
}
