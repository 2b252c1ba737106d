//! Switching a service on and off.

use crate::calls::Listed;
use crate::plan::Service;
use crate::refused::{Refused, Step};
use carv::{Backing, Cause, Context, Kind, ObjectId, Refusal, Space, ThreadId, Tick, Wait};

/// A service that is switched on.
#[derive(Debug)]
pub struct Live {
    pub budget: ObjectId,
    pub thread: ThreadId,
    /// What its budget pays for.
    objects: Vec<ObjectId>,
}

/// What a switching-on has made so far.
#[derive(Debug, Default)]
struct Made {
    budget: Option<ObjectId>,
    objects: Vec<ObjectId>,
    thread: Option<ThreadId>,
}

/// Carves out a service's budget, creates its objects and starts its thread. If the board refuses a
/// step, what was made before is removed again.
pub fn switch_on(
    board: &mut Listed,
    service: &Service,
    tick: u64,
) -> Result<Result<Live, Refused>, Refusal> {
    let mut made = Made::default();
    match made.make(board, service, tick) {
        Ok(live) => Ok(Ok(live)),
        Err((step, refusal)) => {
            let advice = step.advice(board, service, refusal, tick)?;
            let refused = Refused {
                step,
                refusal,
                advice,
                budget: made.budget,
                objects: made.objects.len(),
            };
            made.undo(board, tick)?;
            Ok(Err(refused))
        }
    }
}

impl Made {
    fn make(
        &mut self,
        board: &mut Listed,
        service: &Service,
        tick: u64,
    ) -> Result<Live, (Step, Refusal)> {
        let at = |step: Step| move |refusal| (step, refusal);
        let budget = Tick(tick)
            .time()
            .and_then(|now| board.create_budget(ObjectId::ROOT, service.limits, now));
        let budget = budget.map_err(at(Step::Budget))?;
        self.budget = Some(budget);
        board.name(budget, &service.name);
        let space = board.create(Kind::AddressSpace, budget, Backing::There);
        let space = self.object(space, Step::AddressSpace)?;
        let thread = board.insert(Kind::Thread, budget, Kind::Thread.bytes());
        let thread = self.object(thread, Step::ThreadObject)?;
        let endpoint = board.create(Kind::Endpoint, budget, Backing::There);
        self.object(endpoint, Step::Endpoint)?;
        for number in 1..=service.frames {
            let frame = board.create(Kind::Frame, budget, Backing::There);
            self.object(frame, Step::Frame(number))?;
        }
        let thread = ThreadId::of(thread);
        let created = board.create_user_thread(thread, budget, Backing::There);
        let _image = created.map_err(at(Step::Thread))?;
        self.thread = Some(thread);
        let space = Space {
            space: space.0,
            ..Space::default()
        };
        let started = board.start(thread, space, Context::default());
        started.map_err(at(Step::Thread))?;
        Ok(Live {
            budget,
            thread,
            objects: std::mem::take(&mut self.objects),
        })
    }

    /// Keeps an object that was created in this step.
    fn object(
        &mut self,
        created: Result<ObjectId, Refusal>,
        step: Step,
    ) -> Result<ObjectId, (Step, Refusal)> {
        let object = created.map_err(|refusal| (step, refusal))?;
        self.objects.push(object);
        Ok(object)
    }

    /// Removes what was made.
    fn undo(self, board: &mut Listed, tick: u64) -> Result<(), Refusal> {
        if let Some(thread) = self.thread {
            board.kill(thread, Cause::Destroyed)?;
        }
        for object in self.objects.into_iter().chain(self.budget) {
            board.remove(object, Tick(tick).time()?)?;
        }
        Ok(())
    }
}

/// What a service left.
#[derive(Debug)]
pub struct Left {
    /// What its thread waited for.
    pub wait: Option<Wait>,
    /// How many objects it had, beside its budget.
    pub objects: usize,
}

/// Kills a service's thread, and removes its objects and its budget.
pub fn switch_off(board: &mut Listed, live: Live, tick: u64) -> Result<Left, Refusal> {
    let now = Tick(tick).time()?;
    let wait = board.kill(live.thread, Cause::Destroyed)?;
    for object in &live.objects {
        board.remove(*object, now)?;
    }
    board.remove(live.budget, now)?;
    Ok(Left {
        wait,
        objects: live.objects.len(),
    })
}
