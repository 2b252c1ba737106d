//! The model's threads, ready queue and exit log.

use super::registry::renew;
use super::{Done, Mistake, Model, ask, planted};
use crate::area::{Account, Exit, ObjectRow, Table, ThreadRow};
use carv_compare::board::state::{BLOCKED, DEAD, INACTIVE, READY, RUNNING};
use carv_compare::board::{BUDGET, EXITS, IDLE, LAST_TICK, SLEEP, THREADS, TICK};

/// A board as it is opened.
pub(super) fn opening(cpu: u64, memory: u64) -> Table {
    let root = ObjectRow {
        id: 1,
        kind: BUDGET,
        payer: 1,
        charge: 0,
        account: Account {
            cpu_allowance: cpu,
            memory_limit: memory,
            cpu_left: cpu,
            ..Account::default()
        },
    };
    Table {
        next_id: 2,
        objects: vec![root],
        threads: vec![fresh(0, RUNNING), fresh(IDLE, READY)],
        ..Table::default()
    }
}

fn fresh(id: u64, state: u64) -> ThreadRow {
    ThreadRow {
        id,
        state,
        context: [0, 0, 0x202, 0, 0, 0, 0],
        ..ThreadRow::default()
    }
}

impl Model {
    fn thread(&mut self, id: u64) -> Result<&mut ThreadRow, u64> {
        let mut rows = self.0.threads.iter_mut();
        rows.find(|row| row.id == id).ok_or(7)
    }

    fn current(&mut self) -> Result<&mut ThreadRow, u64> {
        self.thread(self.0.current)
    }

    pub(super) fn create_user_thread(&mut self, id: u64, budget: u64, stack: bool) -> Done {
        ask(14, !planted(Mistake::StackBeforePlace) || stack)?;
        ask(5, self.thread(id).is_err() && id != 0 && id != IDLE)?;
        let places = THREADS - usize::from(planted(Mistake::ThreadsFullTooEarly));
        ask(6, self.0.threads.len() < places)?;
        if planted(Mistake::BudgetLookedUp) {
            self.budget(budget)?;
        }
        ask(14, stack)?;
        let place = self.0.threads.partition_point(|row| row.id < id);
        let thread = ThreadRow {
            budget: [1, budget],
            ..fresh(id, INACTIVE)
        };
        self.0.threads.insert(place, thread);
        Ok(vec![])
    }

    pub(super) fn start(&mut self, id: u64, space: [u64; 4], context: [u64; 7]) -> Done {
        let thread = self.thread(id)?;
        ask(8, thread.state == INACTIVE)?;
        thread.state = READY;
        thread.space = space;
        if !planted(Mistake::StartKeepsContext) {
            thread.context = context;
        }
        self.0.queue.push(id);
        Ok(vec![])
    }

    pub(super) fn block_current(&mut self, wait: [u64; 2]) -> Done {
        ask(4, (1..=5).contains(&wait[0]))?;
        let idle = self.0.current == IDLE;
        let thread = self.current()?;
        let dead = thread.state == DEAD && planted(Mistake::DeadThreadBlocks);
        ask(8, (thread.state == RUNNING || dead) && !idle)?;
        thread.state = BLOCKED;
        thread.wait = wait;
        Ok(vec![])
    }

    pub(super) fn wake(&mut self, id: u64, results: [u64; 3]) -> Done {
        let thread = self.thread(id)?;
        ask(8, thread.state == BLOCKED)?;
        thread.state = READY;
        if !planted(Mistake::WakeKeepsWait) {
            thread.wait = [0; 2];
        }
        if !planted(Mistake::WakeKeepsResults) {
            thread.results = results;
        }
        self.0.queue.push(id);
        Ok(vec![])
    }

    pub(super) fn is_blocked_on(&mut self, id: u64, wait: [u64; 2]) -> Done {
        let thread = self.thread(id).copied();
        if planted(Mistake::MissingThreadBeforeWait) && thread.is_err() {
            return Ok(vec![0]);
        }
        ask(4, (1..=5).contains(&wait[0]))?;
        let blocked = thread.is_ok_and(|row| row.state == BLOCKED && row.wait == wait);
        Ok(vec![blocked.into()])
    }

    pub(super) fn kill(&mut self, id: u64, cause: u64) -> Done {
        ask(4, (1..=2).contains(&cause))?;
        ask(5, id != IDLE)?;
        let thread = self.thread(id)?;
        let wait = thread.wait;
        let again = thread.state == DEAD;
        thread.state = DEAD;
        thread.wait = [0; 2];
        if id != self.0.current || planted(Mistake::KilledCurrentGoesAtOnce) {
            self.0.threads.retain(|row| row.id != id);
        }
        if !planted(Mistake::KilledStaysInQueue) {
            self.0.queue.retain(|queued| *queued != id);
        }
        if !(again && planted(Mistake::SecondKillNotLogged)) {
            self.log(Exit { thread: id, cause });
        }
        let forgets = planted(Mistake::KillForgetsWait);
        Ok(if forgets { vec![0, 0] } else { wait.to_vec() })
    }

    fn log(&mut self, exit: Exit) {
        let exits = &mut self.0.exits;
        if exits.len() == EXITS - usize::from(planted(Mistake::ExitLogTooShort)) {
            match planted(Mistake::NewestExitForgotten) {
                true => exits.pop(),
                false => Some(exits.remove(0)),
            };
        }
        exits.push(exit);
    }

    pub(super) fn exit_of(&self, id: u64) -> u64 {
        let mut exits = self.0.exits.iter();
        let is_meant = |exit: &&Exit| exit.thread == id;
        let found = match planted(Mistake::ExitOfGivesNewest) {
            true => exits.rfind(is_meant),
            false => exits.find(is_meant),
        };
        found.map_or(0, |exit| exit.cause)
    }

    pub(super) fn tick(&mut self, tick: u64) -> Done {
        ask_tick(tick)?;
        let thread = self.current()?;
        let first = thread.run_ticks == 0;
        thread.run_ticks = match thread.run_ticks {
            u64::MAX if planted(Mistake::RunTicksStopAtTheLast) => u64::MAX,
            _ if planted(Mistake::RunTicksMadeUp) => tick + 1,
            ticks => ticks.wrapping_add(1),
        };
        let [has_budget, budget] = thread.budget;
        let books = first || !planted(Mistake::OnlyFirstTickBooked);
        if let (1, true, Ok(account)) = (has_budget, books, self.budget(budget)) {
            if !planted(Mistake::TickRenewsNoBudget) {
                renew(account, tick * TICK);
            }
            let missing = TICK.saturating_sub(account.cpu_left);
            if missing == 0 || !planted(Mistake::TickRefusedWhereLessIsLeft) {
                account.cpu_left -= TICK - missing;
            }
            if planted(Mistake::TickTakesTheRestFromThePayer) {
                let payer = self.object(budget)?.payer;
                let left = &mut self.budget(payer)?.cpu_left;
                *left -= missing.min(*left);
            }
        }
        let mut due: Vec<u64> = self
            .0
            .threads
            .iter()
            .filter(|t| is_due(t, tick))
            .map(|t| t.id)
            .collect();
        if planted(Mistake::SleepersByFallingId) {
            due.reverse();
        }
        for id in due {
            let results = match planted(Mistake::SleepersKeepResults) {
                true => self.thread(id)?.results,
                false => [0; 3],
            };
            self.wake(id, results)?;
        }
        Ok(vec![])
    }

    pub(super) fn plan(&mut self, tick: u64) -> Done {
        if planted(Mistake::PlanAnswers1WhereAStartIsNoMultiple) {
            ask(1, !self.has_odd_start())?;
        }
        ask_tick(tick)?;
        let old = self.0.current;
        if planted(Mistake::AlwaysNoSwitch) {
            return Ok(vec![0]);
        }
        self.put_back()?;
        if planted(Mistake::PlanningRenewsEveryBudget) {
            for row in self.0.objects.iter_mut().filter(|row| row.kind == BUDGET) {
                renew(&mut row.account, tick * TICK);
            }
        }
        let queue = self.0.queue.clone();
        let chosen = queue.iter().position(|id| self.has_time(*id, tick));
        let next = match chosen {
            Some(place) if !planted(Mistake::AlwaysIdle) => self.0.queue.remove(place),
            _ => IDLE,
        };
        let thread = self.thread(next)?;
        thread.state = RUNNING;
        let [has_root, _, _, root] = thread.space;
        self.0.current = next;
        if next == old {
            self.0.switches = self
                .0
                .switches
                .wrapping_add(planted(Mistake::SwitchesMadeUp).into());
            let ids = planted(Mistake::NoSwitchWritesIds);
            return Ok(if ids { vec![0, old, next] } else { vec![0] });
        }
        self.leave(old)?;
        Ok(
            match has_root == 1 || planted(Mistake::RootWrittenForTheKernel) {
                true => vec![1, old, next, has_root, root],
                false => vec![1, old, next, 0],
            },
        )
    }

    fn put_back(&mut self) -> Result<(), u64> {
        let id = self.0.current;
        let thread = self.current()?;
        let blocked = thread.state == BLOCKED && planted(Mistake::PutBackAlsoBlocked);
        let idle = id == IDLE && !planted(Mistake::IdleInQueue);
        if (thread.state == RUNNING || blocked) && !idle {
            thread.state = READY;
            thread.wait = [0; 2];
            let front = planted(Mistake::PutBackInFront);
            let place = if front { 0 } else { self.0.queue.len() };
            self.0.queue.insert(place, id);
        }
        Ok(())
    }

    fn has_time(&mut self, id: u64, tick: u64) -> bool {
        let budget = self.thread(id).map_or([0, 0], |thread| thread.budget);
        match (budget, self.budget(budget[1])) {
            ([0, _], _) => true,
            (_, Err(_)) => planted(Mistake::MissingBudgetHasTime),
            (_, Ok(account)) => {
                if !planted(Mistake::PlanningRenewsNoBudget) {
                    renew(account, tick * TICK);
                }
                account.cpu_left > 0
            }
        }
    }

    /// Counts a switch, and takes a dead thread out.
    fn leave(&mut self, old: u64) -> Result<(), u64> {
        self.0.switches = match self.0.switches {
            u64::MAX if planted(Mistake::SwitchesStopAtTheLast) => u64::MAX,
            count => count.wrapping_add(1),
        };
        let thread = self.thread(old)?;
        if old == IDLE && planted(Mistake::IdleReadyWhenLeft) {
            thread.state = READY;
        }
        if thread.state == DEAD && !planted(Mistake::DeadThreadKept) {
            self.0.threads.retain(|row| row.id != old);
        }
        Ok(())
    }

    pub(super) fn read_thread(&mut self, id: u64) -> Done {
        let thread = self.thread(id)?;
        let mut words = vec![thread.state];
        words.extend(thread.wait);
        words.extend(thread.budget);
        words.extend(thread.space);
        words.extend(thread.context);
        words.extend(thread.results);
        words.push(thread.run_ticks);
        Ok(words)
    }
}

fn ask_tick(tick: u64) -> Result<(), u64> {
    let early = u64::from(planted(Mistake::LastTickTooEarly));
    ask(3, tick <= LAST_TICK - early)
}

fn is_due(thread: &ThreadRow, tick: u64) -> bool {
    let [kind, at] = thread.wait;
    let sleeps = kind == SLEEP || planted(Mistake::EveryWaitIsASleep);
    let late = planted(Mistake::SleepersWakeLate);
    thread.state == BLOCKED && sleeps && (at < tick || (at == tick && !late))
}
