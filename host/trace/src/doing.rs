//! What a thread does, as its track shows it.

use carv::{ThreadId, Tick, Wait};
use carv_layout::state;
use std::fmt;

/// What a thread does.
#[derive(Clone, Copy, Debug, PartialEq, Eq)]
pub struct Doing {
    state: State,
    /// Whether it has the processor without running: it blocked or was killed, and no planning was
    /// made since.
    is_still_current: bool,
}

#[derive(Clone, Copy, Debug, PartialEq, Eq)]
enum State {
    Inactive,
    Ready,
    /// Ready, and its budget has no time left.
    HeldBack,
    /// Ready, and its budget was removed or was never there.
    WithoutBudget,
    Running,
    /// Kind and number of the wait.
    Blocked(u64, u64),
    Dead,
}

/// What is read of a thread.
#[derive(Clone, Copy, Debug)]
pub struct Thread {
    pub id: ThreadId,
    pub state: u64,
    pub wait: (u64, u64),
    pub budget: Option<u64>,
}

/// Whether a thread may run by its budget.
#[derive(Clone, Copy, Debug, PartialEq, Eq)]
pub enum Time {
    Left,
    UsedUp,
    NoBudget,
}

impl Doing {
    /// What a thread does; none for idle while it doesn't run. Only of a Ready one is the time asked.
    pub fn of(thread: &Thread, current: ThreadId, time: impl Fn() -> Time) -> Option<Self> {
        let is_current = thread.id == current;
        if thread.id == ThreadId::IDLE {
            return is_current.then_some(Self {
                state: State::Running,
                is_still_current: false,
            });
        }
        let state = match thread.state {
            state::INACTIVE => State::Inactive,
            state::READY => match time() {
                Time::Left => State::Ready,
                Time::UsedUp => State::HeldBack,
                Time::NoBudget => State::WithoutBudget,
            },
            state::RUNNING => State::Running,
            state::BLOCKED => State::Blocked(thread.wait.0, thread.wait.1),
            _ => State::Dead,
        };
        Some(Self {
            state,
            is_still_current: is_current && state != State::Running,
        })
    }

    /// Its colour in chrome://tracing, one of the names that the format knows.
    pub const fn colour(&self) -> &'static str {
        match self.state {
            State::Running => "good",
            State::Ready => "bad",
            State::HeldBack | State::WithoutBudget => "terrible",
            State::Blocked(..) => "grey",
            State::Inactive => "white",
            State::Dead => "black",
        }
    }

    /// What it waits for: the name of a figure, and the figure.
    pub fn wait(&self) -> Option<(&'static str, u64)> {
        match self.state {
            State::Blocked(SLEEP, tick) => Some(("until_tick", tick)),
            State::Blocked(_, number) => Some(("number", number)),
            _ => None,
        }
    }
}

const SLEEP: u64 = Wait::Sleep(Tick(0)).codes().0;

/// The words for waits, as lists have them, from number 1 on.
const WAITS: [&str; 5] = ["send", "recv", "reply", "notification", "sleep"];

fn wait_word(kind: u64) -> &'static str {
    let place = usize::try_from(kind).ok().and_then(|it| it.checked_sub(1));
    let word = place.and_then(|place| WAITS.get(place));
    word.unwrap_or(&"a wait that is not listed")
}

impl fmt::Display for Doing {
    /// The name of a slice. It needs no escapes.
    fn fmt(&self, f: &mut fmt::Formatter<'_>) -> fmt::Result {
        match self.state {
            State::Inactive => f.write_str("Inactive")?,
            State::Ready => f.write_str("Ready")?,
            State::HeldBack => f.write_str("held back")?,
            State::WithoutBudget => f.write_str("held back: its budget is gone")?,
            State::Running => f.write_str("Running")?,
            State::Blocked(kind, _) => write!(f, "Blocked: {}", wait_word(kind))?,
            State::Dead => f.write_str("Dead")?,
        }
        f.write_str(if self.is_still_current {
            ", still current"
        } else {
            ""
        })
    }
}

#[cfg(test)]
mod tests {
    use super::*;

    fn told(state: u64, wait: (u64, u64), is_current: bool, time: Time) -> String {
        let id = ThreadId(4);
        let current = if is_current { id } else { ThreadId::IDLE };
        let budget = Some(2);
        let thread = Thread {
            id,
            state,
            wait,
            budget,
        };
        Doing::of(&thread, current, || time)
            .expect("not idle")
            .to_string()
    }

    #[test]
    fn names_of_states() {
        let none = (0, 0);
        for (state, wait, is_current, time, expected) in [
            (1, none, false, Time::Left, "Inactive"),
            (2, none, false, Time::Left, "Ready"),
            (2, none, true, Time::Left, "Ready, still current"),
            (2, none, false, Time::UsedUp, "held back"),
            (
                2,
                none,
                false,
                Time::NoBudget,
                "held back: its budget is gone",
            ),
            (3, none, true, Time::UsedUp, "Running"),
            (4, (5, 8), false, Time::UsedUp, "Blocked: sleep"),
            (4, (2, 8), true, Time::Left, "Blocked: recv, still current"),
            (5, none, true, Time::Left, "Dead, still current"),
        ] {
            assert_eq!(told(state, wait, is_current, time), expected);
        }
    }

    /// Who is held back has another colour than who waits its turn.
    #[test]
    fn colours() {
        for (state, colour) in [
            (State::Running, "good"),
            (State::Ready, "bad"),
            (State::HeldBack, "terrible"),
            (State::WithoutBudget, "terrible"),
            (State::Blocked(5, 8), "grey"),
            (State::Inactive, "white"),
            (State::Dead, "black"),
        ] {
            let doing = Doing {
                state,
                is_still_current: false,
            };
            assert_eq!(doing.colour(), colour, "{doing}");
        }
    }

    /// Idle reads Running after its first run, also while it doesn't run.
    #[test]
    fn idle_is_drawn_while_it_runs() {
        for state in [2, 3] {
            let idle = Thread {
                id: ThreadId::IDLE,
                state,
                wait: (0, 0),
                budget: None,
            };
            let runs = Doing::of(&idle, ThreadId::IDLE, || Time::Left);
            assert_eq!(runs.map(|it| it.to_string()), Some("Running".to_string()));
            assert_eq!(Doing::of(&idle, ThreadId::FIRST, || Time::Left), None);
        }
    }

    #[test]
    fn words_for_waits() {
        for (wait, word) in [
            (Wait::Send(1), "send"),
            (Wait::Recv(1), "recv"),
            (Wait::Reply(1), "reply"),
            (Wait::Notification(1), "notification"),
            (Wait::Sleep(Tick(1)), "sleep"),
        ] {
            assert_eq!(wait_word(wait.codes().0), word);
        }
    }
}
