//! A switching-on that the board refused: where, why, and what to do about it.

use crate::plan::{PERIOD, Service};
use carv::{
    Account, Board, Kind, MOST_OBJECTS, MOST_THREADS, Nanoseconds, ObjectId, Refusal, TICK_NS,
};
use carv_text::figures::{counted, grouped, ms};
use std::fmt;

/// A step of switching a service on.
#[derive(Clone, Copy, Debug, PartialEq, Eq)]
#[expect(missing_docs, reason = "the names say what they are")]
pub enum Step {
    Budget,
    AddressSpace,
    ThreadObject,
    Endpoint,
    /// The frame of this number, counted from 1.
    Frame(u64),
    Thread,
}

impl fmt::Display for Step {
    fn fmt(&self, f: &mut fmt::Formatter<'_>) -> fmt::Result {
        match self {
            Self::Budget => f.write_str("its budget"),
            Self::AddressSpace => f.write_str("its address space"),
            Self::ThreadObject => f.write_str("the object of its thread"),
            Self::Endpoint => f.write_str("its endpoint"),
            Self::Frame(number) => write!(f, "its frame {number}"),
            Self::Thread => f.write_str("its thread"),
        }
    }
}

/// A switching-on that was refused.
#[derive(Clone, Debug)]
pub struct Refused {
    /// What was refused.
    pub step: Step,
    /// Why.
    pub refusal: Refusal,
    /// What a planner can do about it.
    pub advice: String,
    /// The budget, if it was carved out; it is removed again.
    pub budget: Option<ObjectId>,
    /// How many objects were created, and are removed again.
    pub objects: usize,
}

impl Refused {
    /// In lines: what of this service was refused, what to do, and what was removed again.
    pub fn text(&self, name: &str) -> String {
        let Self {
            step,
            refusal,
            advice,
            ..
        } = self;
        let mut text = format!("{name} stays off: {step} is {refusal}.\n{advice}");
        if self.budget.is_some() {
            let objects = counted(self.objects as u64, "object");
            text.push_str(&format!("\nIts budget and {objects} are removed again."));
        }
        text
    }
}

impl Step {
    /// What a planner can do about a refusal of this step, on the board as the refused call left it.
    pub fn advice(
        self,
        board: &Board,
        service: &Service,
        refusal: Refusal,
        tick: u64,
    ) -> Result<String, Refusal> {
        Ok(match (self, refusal) {
            (Self::Budget, Refusal::Limit) => {
                let root = board.account(ObjectId::ROOT)?;
                let advice = [share(&root, service, tick), memory(&root, service)];
                advice.into_iter().flatten().collect::<Vec<_>>().join("\n")
            }
            (Self::Thread, Refusal::Full) => format!(
                "A board has {MOST_THREADS} threads, thread 0 and idle among them. Plan fewer \
                 services, or switch another off before."
            ),
            (_, Refusal::Full) => format!(
                "A board has {MOST_OBJECTS} objects, and {} takes {} of them. Plan fewer frames \
                 or services, or switch another service off before.",
                service.name,
                grouped(objects(service))
            ),
            (_, Refusal::Limit) => format!(
                "Its memory limit is {} bytes, and its thread, address space, endpoint and \
                 frames take {}. Give it as much, or fewer frames.",
                grouped(service.limits.memory_bytes),
                grouped(bytes(service))
            ),
            _ => refusal.advice().to_string(),
        })
    }
}

/// Objects of a service, its budget among them.
fn objects(service: &Service) -> u64 {
    service.frames.saturating_add(4)
}

/// What the objects of a service take.
fn bytes(service: &Service) -> u64 {
    let kinds = [Kind::AddressSpace, Kind::Thread, Kind::Endpoint];
    let frames = service.frames.saturating_mul(Kind::Frame.bytes());
    kinds
        .map(Kind::bytes)
        .iter()
        .sum::<u64>()
        .saturating_add(frames)
}

/// What to do if the root can't cover the share; nothing if it can.
fn share(root: &Account, service: &Service, tick: u64) -> Option<String> {
    let asked = service.limits.cpu_ns;
    let left = root.cpu_left_at(Nanoseconds(tick.saturating_mul(TICK_NS)));
    if asked <= left {
        return None;
    }
    let later = root.limits.cpu_ns.saturating_sub(root.cpu_reserved_ns);
    let next = (tick / PERIOD + 1) * PERIOD;
    let (asked_ms, left, next) = (ms(asked), ms(left), grouped(next));
    Some(match asked <= later {
        true => format!(
            "Its share is {asked_ms} ms, and in this period the root has {left} ms left: what was \
             given back in a period is there from the next on. Switch it on at {next} ms."
        ),
        false => format!(
            "Its share is {asked_ms} ms, and of every 10 ms the root has {} ms left. Give it at \
             most that, or another service less.",
            ms(later)
        ),
    })
}

/// What to do if the root can't cover the memory limit; nothing if it can.
fn memory(root: &Account, service: &Service) -> Option<String> {
    let asked = service.limits.memory_bytes;
    let free = root.memory_free_bytes();
    let left = free.saturating_sub(Kind::Budget.bytes());
    if asked <= left && free >= Kind::Budget.bytes() {
        return None;
    }
    Some(format!(
        "Its memory limit is {} bytes, and the root has {} left, beside the {} that a budget \
         takes. Give it at most that, or another service less.",
        grouped(asked),
        grouped(left),
        Kind::Budget.bytes()
    ))
}
