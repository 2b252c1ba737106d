//! How a period went: the rule of missed periods.

use crate::doing::Doing;
use crate::period::PLACES;
use carv::TICK_NS;

/// How a period went for a budget or a thread. Of several budgets in a row the greatest counts.
#[derive(Clone, Copy, Debug, PartialEq, Eq, PartialOrd, Ord, Hash)]
pub enum Outcome {
    /// It wanted no more than it got.
    WantedNoMore,
    /// It used its share up, or was held back.
    UsedUp,
    /// It wanted more than it got, although it had time.
    Missed,
}

/// How a period went, with what was wanted.
#[derive(Clone, Copy, Debug, PartialEq, Eq)]
pub struct Judged {
    /// How it went.
    pub outcome: Outcome,
    /// What it would have run, had nothing stood in its way.
    pub wanted_ns: u64,
    /// What it missed: what others ran while it waited, as far as it had time left at the end.
    pub missed_ns: u64,
}

/// What is known of somebody at the end of a period of which all ten ticks were seen.
#[derive(Clone, Copy, Debug)]
pub struct Closed {
    /// What it did in each ms.
    pub doing: [Doing; PLACES],
    /// What it does in the ms after the period.
    pub next: Doing,
    /// What ticks booked to it.
    pub got_ns: u64,
    /// What its budget has left at the period's last tick. None: nothing limits it.
    pub left_ns: Option<u64>,
}

impl Closed {
    /// Judges the period.
    ///
    /// Work that ended in the period got all that it wanted, however long it waited. Only what is not
    /// done at the period's end can have missed something: the ms in a row up to the end in which it
    /// had something to do. Had nobody else run in those of them in which it waited, it would have run
    /// there; and it would have been booked as far as it has time left.
    pub fn judge(&self) -> Judged {
        let open = self.doing.iter().rev().take_while(|doing| doing.has_work());
        let open: Vec<Doing> = match self.is_done() {
            false => open.copied().collect(),
            true => Vec::new(),
        };
        let ms = |doing| open.iter().filter(|did| **did == doing).count() as u64 * TICK_NS;
        let waited_ns = ms(Doing::Waits);
        let missed_ns = self.left_ns.map_or(waited_ns, |left| left.min(waited_ns));
        // A ms that ends at the period's first tick begins in the period before.
        let begin_in_it = self.doing[1..].iter().chain([&self.next]);
        let held_back = begin_in_it
            .into_iter()
            .any(|doing| *doing == Doing::HeldBack);
        let outcome = match missed_ns {
            1.. => Outcome::Missed,
            0 if held_back || (self.left_ns == Some(0) && self.got_ns > 0) => Outcome::UsedUp,
            0 => Outcome::WantedNoMore,
        };
        Judged {
            outcome,
            wanted_ns: self.got_ns + waited_ns + ms(Doing::HeldBack),
            missed_ns,
        }
    }

    /// Is its work done at the period's end? Only who runs can end it: whoever waits in the last ms
    /// still wants to run, even if it is switched off behind it.
    fn is_done(&self) -> bool {
        let waits = matches!(self.doing[PLACES - 1], Doing::Waits | Doing::HeldBack);
        !waits && !self.next.has_work()
    }
}

#[cfg(test)]
mod tests {
    use super::*;
    use Doing::{HeldBack, Off, Runs, Sleeps, Waits};

    const MS: u64 = TICK_NS;

    /// Judges a period of which this is seen, a letter a ms and one for the ms after it.
    fn judged(seen: &str, left_ms: u64) -> (Outcome, u64, u64) {
        let doing: Vec<Doing> = seen
            .chars()
            .map(|letter| match letter {
                'r' => Runs,
                'w' => Waits,
                'h' => HeldBack,
                's' => Sleeps,
                _ => Off,
            })
            .collect();
        let ran = doing[..PLACES].iter().filter(|doing| **doing == Runs);
        let closed = Closed {
            got_ns: ran.count() as u64 * MS,
            doing: doing[..PLACES].try_into().expect("ten ms"),
            next: doing[PLACES],
            left_ns: Some(left_ms * MS),
        };
        let Judged {
            outcome,
            wanted_ns,
            missed_ns,
        } = closed.judge();
        (outcome, wanted_ns / MS, missed_ns / MS)
    }

    use Outcome::{Missed, UsedUp, WantedNoMore};

    /// It always has work, and others run too often.
    #[test]
    fn starved() {
        assert_eq!(judged("wwwrwwwrwww", 2), (Missed, 10, 2));
        assert_eq!(judged("wwwwwwwwwww", 4), (Missed, 10, 4));
        // Also if it runs last and goes on.
        assert_eq!(judged("wwwwwwwwwrr", 3), (Missed, 10, 3));
        // It would have run in one ms more.
        assert_eq!(judged("sssssssswrr", 3), (Missed, 2, 1));
    }

    /// Work that ends in the period got what it wanted, however long it waited.
    #[test]
    fn done_in_the_period() {
        assert_eq!(judged("wwwwrrsssss", 2), (WantedNoMore, 2, 0));
        assert_eq!(judged("wwwwwwwwrrs", 2), (WantedNoMore, 2, 0));
        // What waits at the end began after that.
        assert_eq!(judged("wwwwrrsswrr", 2), (Missed, 4, 1));
    }

    /// Whoever waits in the last ms is not done, though it is switched off or killed behind it.
    #[test]
    fn ended_by_others() {
        assert_eq!(judged("wwwwwwwwww-", 4), (Missed, 10, 4));
        assert_eq!(judged("ssssssssrws", 3), (Missed, 2, 1));
        assert_eq!(judged("wwwwwwwwwr-", 3), (WantedNoMore, 1, 0));
        assert_eq!(judged("rrrrhhhhhh-", 0), (UsedUp, 10, 0));
    }

    #[test]
    fn never_made_to_wait() {
        assert_eq!(judged("sssssssssss", 4), (WantedNoMore, 0, 0));
        assert_eq!(judged("sssssssssrr", 3), (WantedNoMore, 1, 0));
        // Woken at the period's end: that is the next one's.
        assert_eq!(judged("ssssssssssw", 4), (WantedNoMore, 0, 0));
    }

    #[test]
    fn used_up() {
        assert_eq!(judged("rrrrhhhhhhh", 0), (UsedUp, 10, 0));
        assert_eq!(judged("wrwrwrwrhhh", 0), (UsedUp, 10, 0));
        // All of its share, and not a ms more was wanted.
        assert_eq!(judged("wrrrrssssss", 0), (UsedUp, 4, 0));
        // Held back at the end: the ms after it begins in the period.
        assert_eq!(judged("ssssssrrrrh", 0), (UsedUp, 4, 0));
        // The host charged all of it, and work came at the end.
        assert_eq!(judged("ssssssssssh", 0), (UsedUp, 0, 0));
    }

    /// Held back at first, but by the period before.
    #[test]
    fn held_back_by_the_period_before() {
        assert_eq!(judged("hrrssssssss", 2), (WantedNoMore, 2, 0));
    }

    /// No thread had work, and the host charged all of it: nobody wanted more.
    #[test]
    fn charged_by_the_host() {
        assert_eq!(judged("sssssssssss", 0), (WantedNoMore, 0, 0));
    }

    /// Thread 0 has no budget: whatever it waits for, it misses.
    #[test]
    fn without_a_budget() {
        let closed = Closed {
            doing: [Waits; PLACES],
            next: Waits,
            got_ns: 0,
            left_ns: None,
        };
        let missed_ns = 10 * MS;
        assert_eq!(closed.judge().missed_ns, missed_ns);
    }
}
