//! Document 01's book: what demand 3's figures are worked from.
//!
//! It is fed each call's arguments and its refusal number, and never sees the board. The definitions
//! are `Book.antt` of `carv_objects_spec` and of `carv_scheduler_spec`; names are theirs.

mod budget;

pub use budget::{Budget, Figures};

use crate::call::{Call, tick_time};
use crate::{ACCEPTED, IDLE, NOT_COVERED, ROOT, TICK};
use std::collections::BTreeMap;

/// An object: "objects with payer and charge".
#[derive(Clone, Copy, Debug, Default, PartialEq, Eq)]
pub struct Object {
    /// The budget that pays.
    pub payer: u64,
    /// The bytes that it pays.
    pub charge: u128,
}

/// A thread: "threads with budget and wait".
#[derive(Clone, Copy, Debug, Default, PartialEq, Eq)]
pub struct Thread {
    /// The budget that it runs on; thread 0 and idle have none.
    pub budget: Option<u64>,
    /// What it waits for: kind and number.
    pub wait: Option<(u64, u64)>,
}

/// The book of a board from its opening on.
#[derive(Clone, Debug, PartialEq, Eq)]
pub struct Book {
    /// The next id.
    pub next: u64,
    /// All objects, budgets among them.
    pub objects: BTreeMap<u64, Object>,
    /// The live budgets: "the root and those carved, not removed".
    pub budgets: BTreeMap<u64, Budget>,
    /// All threads ever created: one that was killed stays, out of the queue and without a wait.
    pub threads: BTreeMap<u64, Thread>,
    /// The threads that are ready, from the front.
    pub queue: Vec<u64>,
    /// The current thread.
    pub current: u64,
    /// Whether it runs.
    pub runs: bool,
    /// The threads that sleep, with the ticks that end it: to be found among all threads ever created.
    sleepers: BTreeMap<u64, u64>,
    /// Whether a removed budget's payer is renewed first, which document 02's request P2 asks for.
    removal_renews: bool,
}

/// The wait of a sleeper; its number is a tick.
const SLEEP: u64 = 5;
/// What a budget's own entry is charged.
const BUDGET_BYTES: u128 = 128;

/// The bytes of an object that is created.
fn bytes_of(kind: u64) -> u128 {
    match kind {
        1 => 33_792,
        2 => 16_384,
        3 => 4_096,
        4 | 6 => 128,
        _ => 64,
    }
}

impl Book {
    /// The book at an opening: "at first 0, running".
    pub fn opening(cpu: u64, memory: u64) -> Self {
        let root = Object {
            payer: ROOT,
            charge: 0,
        };
        Self {
            next: 2,
            objects: BTreeMap::from([(ROOT, root)]),
            budgets: BTreeMap::from([(ROOT, Budget::new(cpu, memory, 0))]),
            threads: BTreeMap::from([(0, Thread::default()), (IDLE, Thread::default())]),
            queue: Vec::new(),
            current: 0,
            runs: true,
            sleepers: BTreeMap::new(),
            removal_renews: true,
        }
    }

    /// The same of a board whose removals renew nobody, as before P2.
    pub fn opening_before_p2(cpu: u64, memory: u64) -> Self {
        Self {
            removal_renews: false,
            ..Self::opening(cpu, memory)
        }
    }

    /// Writes a call with its refusal number: "other refusals move nothing".
    pub fn write(&mut self, call: Call, number: u64) {
        match number {
            ACCEPTED => self.accepted(call),
            NOT_COVERED => self.not_covered(call),
            _ => {}
        }
    }

    /// The figures of the live budgets, by rising id.
    pub fn figures(&self) -> impl Iterator<Item = (u64, Figures)> {
        let budgets = self.budgets.iter();
        budgets.map(|(id, budget)| (*id, budget.figures()))
    }

    /// What a tick at this time books, and to which budget: "the smaller of 1,000,000 and the fourth
    /// figure", to the current thread's budget if that is live.
    pub fn tick_charge(&self, time: u128) -> Option<(u64, u128)> {
        let id = self.thread(self.current).budget?;
        let budget = self.budgets.get(&id)?;
        Some((id, TICK.min(budget.renewed(time).cpu_left())))
    }

    fn accepted(&mut self, call: Call) {
        match call {
            Call::Create { kind, payer } => self.add_charged(payer, bytes_of(kind)),
            Call::Insert { payer, bytes } => self.add_charged(payer, bytes.into()),
            Call::CreateBudget {
                parent,
                cpu,
                memory,
                time,
            } => self.carve(parent, cpu, memory, time.into()),
            Call::ChargeMore { id, bytes } => {
                let payer = self.object(id).payer;
                self.on_budget(payer, |budget| budget.charge(bytes.into()));
                self.on_charge(id, |charge| charge + u128::from(bytes));
            }
            Call::Uncharge { id, bytes } => {
                let payer = self.object(id).payer;
                self.on_budget(payer, |budget| budget.credit(bytes.into()));
                self.on_charge(id, |charge| charge.saturating_sub(bytes.into()));
            }
            Call::Remove { id, time } => self.remove(id, time.into()),
            Call::Refill { id, time } => self.on_budget(id, |budget| budget.renew(time.into())),
            Call::ChargeCpu { id, ns, time } => self.on_budget(id, |budget| {
                budget.renew(time.into());
                budget.take_cpu(ns.into());
            }),
            Call::CreateUserThread { id, budget } => {
                let thread = Thread {
                    budget: Some(budget),
                    wait: None,
                };
                self.threads.insert(id, thread);
                self.sleepers.remove(&id);
            }
            Call::Start { id } => self.queue.push(id),
            Call::BlockCurrent { kind, number } => {
                self.set_wait(self.current, Some((kind, number)));
                self.runs = false;
            }
            Call::Wake { id } => self.wake(id),
            Call::Kill { id } => self.kill(id),
            Call::Tick { n } => self.tick(n),
            Call::Plan { n } => self.plan(n),
            Call::Open { .. } | Call::Reading => {}
        }
    }

    /// "Refused with 12, a CPU charge renews, as does a carve-out with at least 128 bytes free by the
    /// book."
    fn not_covered(&mut self, call: Call) {
        match call {
            Call::ChargeCpu { id, time, .. } => {
                self.on_budget(id, |budget| budget.renew(time.into()));
            }
            Call::CreateBudget { parent, time, .. } => self.on_budget(parent, |budget| {
                if budget.memory_free() >= BUDGET_BYTES {
                    budget.renew(time.into());
                }
            }),
            _ => {}
        }
    }

    // The registry.

    /// An id without an object reads as zeros.
    fn object(&self, id: u64) -> Object {
        self.objects.get(&id).copied().unwrap_or_default()
    }

    fn on_budget(&mut self, id: u64, change: impl FnOnce(&mut Budget)) {
        if let Some(budget) = self.budgets.get_mut(&id) {
            change(budget);
        }
    }

    fn on_charge(&mut self, id: u64, change: impl FnOnce(u128) -> u128) {
        if let Some(object) = self.objects.get_mut(&id) {
            object.charge = change(object.charge);
        }
    }

    fn add_object(&mut self, payer: u64, charge: u128) {
        self.objects.insert(self.next, Object { payer, charge });
        self.next += 1;
    }

    fn add_charged(&mut self, payer: u64, bytes: u128) {
        self.on_budget(payer, |budget| budget.charge(bytes));
        self.add_object(payer, bytes);
    }

    /// "The child has the parent's start and period and its whole allowance left."
    fn carve(&mut self, parent: u64, cpu: u64, memory: u64, time: u128) {
        self.on_budget(parent, |budget| {
            budget.renew(time);
            budget.charge(BUDGET_BYTES);
            budget.carve(cpu.into(), memory.into());
        });
        let start = self.budgets.get(&parent).map_or(0, |budget| budget.start);
        let child = Budget::new(cpu, memory, start);
        self.budgets.insert(self.next, child);
        self.add_object(parent, BUDGET_BYTES);
    }

    /// "`remove` returns a budget's reservations, then credits the charge"; P2: a removed budget's
    /// payer is renewed first.
    fn remove(&mut self, id: u64, time: u128) {
        let object = self.object(id);
        self.objects.remove(&id);
        let child = self.budgets.remove(&id);
        let renews = self.removal_renews;
        self.on_budget(object.payer, |payer| {
            if let Some(child) = child {
                if renews {
                    payer.renew(time);
                }
                payer.take_back(&child);
            }
            payer.credit(object.charge);
        });
    }

    // The threads.

    /// An id without a thread reads as one without budget and wait.
    fn thread(&self, id: u64) -> Thread {
        self.threads.get(&id).copied().unwrap_or_default()
    }

    fn set_wait(&mut self, id: u64, wait: Option<(u64, u64)>) {
        let Some(thread) = self.threads.get_mut(&id) else {
            return;
        };
        thread.wait = wait;
        match wait {
            Some((SLEEP, until)) => self.sleepers.insert(id, until),
            _ => self.sleepers.remove(&id),
        };
    }

    /// "Threads started, woken or put back join the queue's end."
    fn wake(&mut self, id: u64) {
        self.set_wait(id, None);
        self.queue.push(id);
    }

    /// "Blocked or killed, they stop running; killed, they leave queue and wait."
    fn kill(&mut self, id: u64) {
        self.set_wait(id, None);
        self.queue.retain(|queued| *queued != id);
        if id == self.current {
            self.runs = false;
        }
    }

    /// "A tick renews the current thread's live budget, then books .."; sleepers due at or before n
    /// wake by rising id.
    fn tick(&mut self, n: u64) {
        let time = tick_time(n);
        if let Some((id, ns)) = self.tick_charge(time) {
            self.on_budget(id, |budget| {
                budget.renew(time);
                budget.take_cpu(ns);
            });
        }
        let due = self.sleepers.iter().filter(|(_, until)| **until <= n);
        let due: Vec<u64> = due.map(|(id, _)| *id).collect();
        for id in due {
            self.wake(id);
        }
    }

    /// "A planning puts back a running current thread other than idle, then goes through the queue
    /// from its front, renewing at its tick each thread's live budget, until a thread has time left.
    /// .. That one .. leaves the queue, becomes current and runs; if there is none, idle becomes
    /// current and runs."
    fn plan(&mut self, n: u64) {
        if self.runs && self.current != IDLE {
            self.queue.push(self.current);
        }
        let time = tick_time(n);
        let mut queue = std::mem::take(&mut self.queue);
        let chosen = queue.iter().position(|id| self.has_time(*id, time));
        self.current = chosen.map_or(IDLE, |place| queue.remove(place));
        self.queue = queue;
        self.runs = true;
    }

    /// Renews a thread's live budget. "Time left: no budget, or a live one whose fourth figure is
    /// above 0."
    fn has_time(&mut self, id: u64, time: u128) -> bool {
        let Some(budget) = self.thread(id).budget else {
            return true;
        };
        self.on_budget(budget, |budget| budget.renew(time));
        let live = self.budgets.get(&budget);
        live.is_some_and(|budget| budget.cpu_left() > 0)
    }
}
