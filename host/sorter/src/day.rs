//! The day, run on a board tick by tick.

use crate::calls::Listed;
use crate::plan::{Event, FIRST, Jobs, PERIOD, Plan, Service, Work};
use crate::record::{Day, Entry};
use crate::setup::{Live, switch_off, switch_on};
use crate::words::{in_words, services};
use carv::{
    Account, Board, Limits, Nanoseconds, ObjectId, Refusal, TICK_NS, ThreadId, Tick, Totals, Wait,
};
use carv_text::figures::{grouped, ms};
use carv_watch::Doing;

/// Runs the day that is planned. A service that the board refuses stays off; any other refusal ends
/// the day.
pub fn run(plan: &Plan) -> Result<Day, Refusal> {
    let day = run_while(plan, || true)?;
    Ok(day.expect("nothing ends it before its time"))
}

/// The same, as long as it is to go on, which is asked before each tick; none if it isn't.
pub fn run_while(plan: &Plan, goes_on: impl Fn() -> bool) -> Result<Option<Day>, Refusal> {
    let mut sorter = Sorter::open(plan)?;
    for tick in FIRST..=plan.last() {
        if !goes_on() {
            return Ok(None);
        }
        sorter.tick(tick)?;
    }
    sorter.close().map(Some)
}

/// A job: when it comes, and its ms.
type Job = (u64, u64);

/// A service's part in the running day.
#[derive(Debug, Default)]
struct Part {
    live: Option<Live>,
    /// Ms of work that came and are not done.
    backlog: u64,
    /// The next job; none if there is none to come.
    next: Option<Job>,
    draws: u64,
}

impl Part {
    /// Draws the first job after this tick.
    fn draw(&mut self, service: &Service, mut tick: u64) {
        self.next = None;
        while let Some(turn) = service.next_job(tick) {
            tick = turn;
            let job = match service.work_at(tick) {
                Work::None => 0,
                Work::Always => 1,
                Work::Jobs(jobs) => self.draw_ms(jobs),
            };
            if job > 0 {
                self.next = Some((tick, job));
                return;
            }
        }
    }

    /// Draws the ms of a job.
    fn draw_ms(&mut self, jobs: Jobs) -> u64 {
        // A linear congruential generator, of which the high bits are used.
        self.draws = self.draws.wrapping_mul(6_364_136_223_846_793_005);
        self.draws = self.draws.wrapping_add(1_442_695_040_888_963_407);
        let least = jobs.least.min(jobs.most);
        least + (self.draws >> 33) % (jobs.most - least).saturating_add(1)
    }

    /// The work of this tick comes.
    fn take_work(&mut self, service: &Service, tick: u64) {
        if self.live.is_none() {
            return;
        }
        while let Some((at, job)) = self.next.filter(|(at, _)| *at <= tick) {
            self.backlog = self.backlog.saturating_add(job);
            self.draw(service, at);
        }
        if service.work_at(tick) == Work::Always {
            self.backlog = self.backlog.max(1);
        }
    }

    /// What it waits for when its work is done.
    fn wait(&self) -> Wait {
        match self.next {
            Some((tick, _)) => Wait::Sleep(Tick(tick)),
            None => Wait::Notification(0),
        }
    }
}

struct Sorter<'a> {
    plan: &'a Plan,
    board: Listed,
    parts: Vec<Part>,
    day: Day,
}

impl<'a> Sorter<'a> {
    /// Opens the board, and lets thread 0 set up the services in the period before the first.
    fn open(plan: &'a Plan) -> Result<Self, Refusal> {
        let part = |index: usize| Part {
            draws: index as u64,
            ..Part::default()
        };
        let mut sorter = Self {
            plan,
            board: Listed::new(),
            parts: (0..plan.services.len()).map(part).collect(),
            day: Day::new(plan),
        };
        sorter.board.open(plan.board)?;
        for (index, service) in plan.services.iter().enumerate() {
            if service.begins_on {
                sorter.set_up(index)?;
            }
        }
        for tick in 1..FIRST {
            sorter.board.tick(Tick(tick))?;
        }
        sorter.board.begin();
        sorter.note_set_up()?;
        if !plan.first_thread_runs {
            sorter.board.block_current(Wait::Notification(0))?;
        }
        sorter.plan(FIRST - 1)?;
        Ok(sorter)
    }

    /// Switches a service on at the set-up.
    fn set_up(&mut self, index: usize) -> Result<(), Refusal> {
        let behind = self.board.length();
        if let Some(refused) = self.switch_on(index, 0)? {
            self.note(behind, 0, refused);
        }
        Ok(())
    }

    /// Notes the set-up, before what was refused in it.
    fn note_set_up(&mut self) -> Result<(), Refusal> {
        let planned = &self.plan.services;
        let on = self.parts.iter().filter(|part| part.live.is_some()).count();
        let off = planned.iter().filter(|service| !service.begins_on).count();
        let mut text = format!("set-up: {} carved out", services(on));
        for (number, what) in [(planned.len() - on - off, "refused"), (off, "off so far")] {
            if number > 0 {
                text.push_str(&format!(", {} {what}", in_words(number)));
            }
        }
        let root = self.board.account(ObjectId::ROOT)?;
        let left = ms(root.limits.cpu_ns.saturating_sub(root.cpu_reserved_ns));
        text.push_str(&format!("; {left} ms of every 10 ms stays with the root"));
        if self.plan.first_thread_runs {
            text.push_str("; thread 0 goes on running");
        }
        self.board.comment(0, &format!("0 ms: {text}"));
        self.day.diary.insert(0, Entry { tick: 0, text });
        Ok(())
    }

    /// One tick of the day: the current thread is booked, what happens happens, work comes, a
    /// service that has none left sleeps, and the next thread is planned.
    fn tick(&mut self, tick: u64) -> Result<(), Refusal> {
        let current = self.board.current()?;
        let ran = self.service_of(current);
        let before = self.day.timeline.before(tick, &self.board);
        self.board.tick(Tick(tick))?;
        self.day.timeline.tick(before, &self.board);
        if let Some(index) = ran {
            self.parts[index].backlog = self.parts[index].backlog.saturating_sub(1);
            self.check_booking(index, tick)?;
        }
        let plan = self.plan;
        for (_, event) in plan.events_at(tick) {
            self.happen(event, tick)?;
        }
        for (part, service) in self.parts.iter_mut().zip(&plan.services) {
            part.take_work(service, tick);
        }
        if let Some(index) = ran {
            let part = &self.parts[index];
            let stays = part
                .live
                .as_ref()
                .is_some_and(|live| live.thread == current);
            if stays && part.backlog == 0 {
                self.board.block_current(part.wait())?;
            }
        }
        self.plan(tick)
    }

    /// The service whose thread this is.
    fn service_of(&self, thread: ThreadId) -> Option<usize> {
        let is_its = |part: &Part| part.live.as_ref().is_some_and(|live| live.thread == thread);
        self.parts.iter().position(is_its)
    }

    /// Plans, and notes the memory that all use, and the CPU time that services have.
    fn plan(&mut self, tick: u64) -> Result<(), Refusal> {
        let _switch = self.board.plan(Tick(tick))?;
        let all = self.board.totals(ObjectId::ROOT)?;
        self.day.memory = self.day.memory.max(all.memory_used_bytes);
        self.day.memory_lost += u64::from(!is_whole(&all, self.plan.board.memory_bytes));
        let services = self.parts.iter().zip(&self.plan.services);
        let on = services.filter(|(part, _)| part.live.is_some());
        let given = on.map(|(_, service)| service.limits.cpu_ns).sum();
        self.day.given_ns = self.day.given_ns.max(given);
        Ok(())
    }

    /// Compares the account of a service that just ran with what it was seen to run in this period:
    /// of its last ms only what was left of its share is booked.
    fn check_booking(&mut self, index: usize, tick: u64) -> Result<(), Refusal> {
        let Some(live) = &self.parts[index].live else {
            return Ok(());
        };
        let start = tick - tick % PERIOD;
        let runs = |tick: &u64| self.day.timeline.doing(live.budget, *tick) == Some(Doing::Runs);
        let ran = (start..=tick).filter(runs).count() as u64 * TICK_NS;
        let account = self.board.account(live.budget)?;
        let booked = account.limits.cpu_ns - account.cpu_left_ns;
        let expected = ran.min(account.limits.cpu_ns);
        if (account.period_start, booked) != (Nanoseconds(start * TICK_NS), expected) {
            self.day.misbooked += 1;
        }
        Ok(())
    }

    /// Notes what happened, in the list of calls before those that came with it: behind the first
    /// so many lines.
    fn note(&mut self, behind: usize, tick: u64, text: String) {
        let line = text.lines().next().unwrap_or_default();
        let mut comment = format!("{} ms: {line}", grouped(tick));
        if tick >= FIRST {
            let events = self.day.diary.iter().filter(|entry| entry.tick >= FIRST);
            comment = format!("event {}, {comment}", events.count() + 1);
            self.day.timeline.event(tick, line.to_string());
        }
        self.board.comment(behind, &comment);
        self.day.diary.push(Entry { tick, text });
    }

    fn happen(&mut self, event: &Event, tick: u64) -> Result<(), Refusal> {
        let behind = self.board.length();
        let text = match event {
            Event::Off(index) => self.switch_off(*index, tick)?,
            Event::On(index) => self.switch_on_again(*index, tick)?,
            Event::Ask(name, limits) => self.ask(name, *limits, tick)?,
            Event::Note(text) => text.clone(),
        };
        self.note(behind, tick, text);
        Ok(())
    }

    /// Switches a service on, if it is off, and says what comes of it.
    fn switch_on_again(&mut self, index: usize, tick: u64) -> Result<String, Refusal> {
        let name = &self.plan.services[index].name;
        if self.parts[index].live.is_some() {
            return Ok(format!("{name} is on already"));
        }
        let again = self.day.noted[index].was_on;
        Ok(match self.switch_on(index, tick)? {
            Some(refused) => refused,
            None if again => format!("{name} on again, under new ids"),
            None => format!("{name} on"),
        })
    }

    /// Switches a service on. If the board refuses that, the service stays off, and it is said why.
    fn switch_on(&mut self, index: usize, tick: u64) -> Result<Option<String>, Refusal> {
        let service = &self.plan.services[index];
        let before = self.board.clone();
        let switched = switch_on(&mut self.board, service, tick)?;
        let name = service.name.clone();
        match switched {
            Ok(live) => {
                self.day.timeline.name(live.budget, &name);
                self.day.names.insert(live.budget.0, name);
                self.note_on(index, live, tick)?;
                Ok(None)
            }
            Err(refused) => {
                let text = refused.text(&name);
                match refused.budget {
                    Some(budget) => {
                        self.day.names.insert(budget.0, name);
                        self.check_undone(&before)?;
                    }
                    None => self.check_refused(&before, tick)?,
                }
                self.day.noted[index].refused = Some((tick, refused));
                Ok(Some(text))
            }
        }
    }

    /// Notes a service that is on, and the memory that it uses, with all that is carved out of it.
    fn note_on(&mut self, index: usize, live: Live, tick: u64) -> Result<(), Refusal> {
        let totals = self.board.totals(live.budget)?;
        let noted = &mut self.day.noted[index];
        noted.memory = noted.memory.max(totals.memory_used_bytes);
        noted.was_on = true;
        let part = &mut self.parts[index];
        part.live = Some(live);
        // A service looks around once after its start.
        part.backlog = 1;
        part.draw(&self.plan.services[index], tick);
        Ok(())
    }

    /// Notes a refused carve-out, and whether it left every byte, or all but a renewal that was due.
    fn check_refused(&mut self, before: &Board, tick: u64) -> Result<(), Refusal> {
        let mut renewed = before.clone();
        renewed.refill(ObjectId::ROOT, Tick(tick).time()?)?;
        self.day.refused += 1;
        if *self.board != *before {
            let renewal = u64::from(*self.board == renewed);
            self.day.refused_with_renewal += renewal;
            self.day.refused_uncleanly += 1 - renewal;
        }
        Ok(())
    }

    /// Notes a switching-on that was refused behind its carve-out: all is given back.
    fn check_undone(&mut self, before: &Board) -> Result<(), Refusal> {
        let (before, after) = (
            before.account(ObjectId::ROOT)?,
            self.board.account(ObjectId::ROOT)?,
        );
        self.day.undone += 1;
        self.day.undone_in_part += u64::from(!is_given_back(&before, &after));
        Ok(())
    }

    /// Switches a service off, and says what it left.
    fn switch_off(&mut self, index: usize, tick: u64) -> Result<String, Refusal> {
        let name = &self.plan.services[index].name;
        let Some(live) = self.parts[index].live.take() else {
            return Ok(format!("{name} is off already"));
        };
        self.day.noted[index].run_ticks += self.board.read_thread(live.thread)?.run_ticks;
        let left = switch_off(&mut self.board, live, tick)?;
        let wait = match left.wait {
            Some(Wait::Sleep(until)) => format!("asleep until {} ms", grouped(until.0)),
            Some(_) => "asleep, with no work to come".to_string(),
            None => "in the middle of its work".to_string(),
        };
        Ok(format!(
            "{name} off: thread killed, {wait}; {} objects and its budget removed",
            left.objects
        ))
    }

    /// Asks for a budget, and says what comes of it.
    fn ask(&mut self, name: &str, limits: Limits, tick: u64) -> Result<String, Refusal> {
        let now = Tick(tick).time()?;
        // Renewed first, as a refused carve-out keeps a renewal that was due.
        self.board.refill(ObjectId::ROOT, now)?;
        let before = self.board.clone();
        let asked = self.board.create_budget(ObjectId::ROOT, limits, now);
        let share = ms(limits.cpu_ns);
        match asked {
            Ok(budget) => {
                self.board.name(budget, name);
                self.day.names.insert(budget.0, name.to_string());
                Ok(format!(
                    "{name} asks for {share} ms of every 10 ms and gets it"
                ))
            }
            Err(refusal) => {
                self.check_refused(&before, tick)?;
                Ok(format!(
                    "{name} asks for {share} ms of every 10 ms: {refusal}.\n{}",
                    refusal.advice()
                ))
            }
        }
    }

    /// Notes the figures of the day's end.
    fn close(self) -> Result<Day, Refusal> {
        let Self {
            board,
            parts,
            mut day,
            ..
        } = self;
        for (part, noted) in parts.iter().zip(&mut day.noted) {
            if let Some(live) = &part.live {
                noted.run_ticks += board.read_thread(live.thread)?.run_ticks;
            }
        }
        day.switches = board.switches()?;
        day.idle_run_ticks = board.read_thread(ThreadId::IDLE)?.run_ticks;
        let first = board.read_thread(ThreadId::FIRST)?.run_ticks;
        day.first_run_ticks = first.saturating_sub(FIRST - 1);
        day.timeline.end(&board);
        let watch;
        (day.board, day.calls, watch) = board.into_parts();
        day.note(watch.history());
        day.watch = watch;
        let restored = Board::from_bytes(day.board.as_bytes());
        day.sound = restored.is_ok_and(|restored| restored == *day.board);
        Ok(day)
    }
}

/// Are the memory used and free of all the board's memory?
fn is_whole(all: &Totals, memory_bytes: u64) -> bool {
    all.memory_used_bytes.checked_add(all.memory_free_bytes) == Some(memory_bytes)
}

/// Has this account paid and reserved as much as before?
fn is_given_back(before: &Account, after: &Account) -> bool {
    let figures = |account: &Account| {
        (
            account.memory_used_bytes,
            account.memory_reserved_bytes,
            account.cpu_reserved_ns,
        )
    };
    figures(before) == figures(after)
}

#[cfg(test)]
mod tests {
    use super::*;

    #[test]
    fn memory_is_whole_or_not() {
        let all = |used, free| {
            let mut all = Totals::default();
            (all.memory_used_bytes, all.memory_free_bytes) = (used, free);
            all
        };
        let board = 524_288;
        let is_whole = |used, free| is_whole(&all(used, free), board);
        assert!(is_whole(640, board - 640) && is_whole(board, 0));
        assert!(!is_whole(640, board) && !is_whole(640, board - 641));
        assert!(!is_whole(u64::MAX, board + 1));
    }

    #[test]
    fn all_is_given_back_or_not() {
        let before = Account::default();
        let spoilers: [fn(&mut Account); 3] = [
            |account| account.cpu_reserved_ns = 1,
            |account| account.memory_used_bytes = 1,
            |account| account.memory_reserved_bytes = 1,
        ];
        for spoil in spoilers {
            let mut after = before;
            after.cpu_left_ns = 5;
            assert!(is_given_back(&before, &after));
            spoil(&mut after);
            assert!(!is_given_back(&before, &after));
        }
    }
}
