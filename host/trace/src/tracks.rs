//! The tracks: what each thread does over time.

use crate::doing::{Doing, Thread};
use crate::event::{EVENTS, Events, PID};
use crate::gauges::Gauges;
use crate::look;
use crate::names::Names;
use carv::ThreadId;
use std::collections::{BTreeMap, BTreeSet};
use std::io::{self, Write};

/// Whose track it is, in the order in which they stand. A thread on another budget has another track.
#[derive(Clone, Copy, Debug, PartialEq, Eq, PartialOrd, Ord)]
enum Whose {
    First,
    Service { budget: u64, thread: ThreadId },
    Idle,
}

impl Whose {
    /// All threads but thread 0 and idle have a budget.
    fn of(thread: &Thread) -> Self {
        match thread.id {
            ThreadId::FIRST => Self::First,
            ThreadId::IDLE => Self::Idle,
            id => Self::Service {
                budget: thread.budget.unwrap_or_default(),
                thread: id,
            },
        }
    }
}

/// The tracks of the threads that there are, by rising id of the thread.
#[derive(Default)]
pub struct Tracks {
    live: Vec<Track>,
    numbers: Numbers,
}

struct Track {
    thread: ThreadId,
    whose: Whose,
    tid: u64,
    /// What it does since when, in ns.
    open: Option<(Doing, u64)>,
    /// What it does after the last call.
    now: Option<Doing>,
}

impl Tracks {
    /// Reads the threads of a board at this time of its clock, in ns.
    pub fn read(&mut self, area: &[u8], gauges: &Gauges, board_ns: u64) {
        for track in &mut self.live {
            track.now = None;
        }
        let current = look::current(area);
        let mut place = 0;
        for thread in look::threads(area) {
            let time = || gauges.time(thread.budget, board_ns);
            let doing = Doing::of(&thread, current, time);
            let live = &self.live;
            while live.get(place).is_some_and(|it| it.thread < thread.id) {
                place += 1;
            }
            place = self.place_of(place, &thread);
            self.live[place].now = doing;
        }
        self.forget();
    }

    /// Leaves out the tracks of threads that are gone and of which nothing is to be written.
    fn forget(&mut self) {
        let is_gone = |track: &Track| track.open.is_none() && track.now.is_none();
        self.live.retain(|track| !is_gone(track));
    }

    /// The place of a thread's track, from this one on; it is made if it isn't there.
    fn place_of(&mut self, from: usize, thread: &Thread) -> usize {
        let whose = Whose::of(thread);
        let same = self.live[from..]
            .iter()
            .take_while(|track| track.thread == thread.id)
            .position(|track| track.whose == whose);
        if let Some(place) = same {
            return from + place;
        }
        let track = Track {
            thread: thread.id,
            whose,
            tid: self.numbers.of(whose),
            open: None,
            now: None,
        };
        self.live.insert(from, track);
        from
    }

    /// Writes what ended, as of this time in ns.
    pub fn write<W: Write>(&mut self, at_ns: u64, out: &mut Events<W>) -> io::Result<()> {
        for track in &mut self.live {
            let doing = track.open.map(|(doing, _)| doing);
            if doing != track.now {
                track.close(at_ns, out)?;
                track.open = track.now.map(|doing| (doing, at_ns));
            }
        }
        self.forget();
        Ok(())
    }

    /// Ends all tracks at this time, and names them.
    pub fn end<W: Write>(
        &mut self,
        at_ns: u64,
        names: &Names,
        out: &mut Events<W>,
    ) -> io::Result<()> {
        for track in &mut self.live {
            track.close(at_ns, out)?;
        }
        out.process("board")?;
        out.thread(EVENTS, 0, "events")?;
        for (place, (whose, tid)) in self.numbers.given.iter().enumerate() {
            let name = match *whose {
                Whose::First => ThreadId::FIRST.to_string(),
                Whose::Idle => ThreadId::IDLE.to_string(),
                Whose::Service { budget, thread } => names.thread(budget, thread),
            };
            out.thread(*tid, place + 1, &name)?;
        }
        Ok(())
    }
}

impl Track {
    /// Writes what it did up to this time, if that lasted.
    fn close<W: Write>(&mut self, at_ns: u64, out: &mut Events<W>) -> io::Result<()> {
        match self.open.take() {
            Some((doing, since_ns)) if since_ns < at_ns => {
                out.slice(self.tid, since_ns, at_ns, &doing)
            }
            _ => Ok(()),
        }
    }
}

/// The numbers of all tracks that there ever were.
#[derive(Default)]
struct Numbers {
    given: BTreeMap<Whose, u64>,
    /// Thread ids that are the number of their track.
    own: BTreeSet<u64>,
    others: u64,
}

/// Thread 0 has the number of the process, so viewers show it as its main thread; idle has the
/// highest.
const FIRST: u64 = PID;
const IDLE: u64 = EVENTS + 1;
/// The first number of tracks that can't have that of their thread.
const OTHERS: u64 = 1_000_000_000;

impl Numbers {
    fn of(&mut self, whose: Whose) -> u64 {
        if let Some(tid) = self.given.get(&whose) {
            return *tid;
        }
        let tid = match whose {
            Whose::First => FIRST,
            Whose::Idle => IDLE,
            Whose::Service { thread, .. } => self.service(thread),
        };
        self.given.insert(whose, tid);
        tid
    }

    /// The thread's own number if it is small and free, so that it reads the same everywhere.
    fn service(&mut self, thread: ThreadId) -> u64 {
        let fits = (FIRST + 1..OTHERS).contains(&thread.0);
        if fits && self.own.insert(thread.0) {
            return thread.0;
        }
        self.others += 1;
        OTHERS + self.others
    }
}

#[cfg(test)]
mod tests {
    use super::*;
    use carv::{Backing, Board, Cause, Limits, ObjectId};

    #[test]
    fn numbers_of_tracks() {
        let mut numbers = Numbers::default();
        let service = |budget, thread| Whose::Service {
            budget,
            thread: ThreadId(thread),
        };
        for (whose, tid) in [
            (Whose::Idle, IDLE),
            (service(2, 4), 4),
            (service(3, 4), OTHERS + 1),
            (service(2, 1), OTHERS + 2),
            (service(2, u64::MAX - 1), OTHERS + 3),
            (Whose::First, FIRST),
            (service(3, 4), OTHERS + 1),
            (service(2, 5), 5),
        ] {
            assert_eq!(numbers.of(whose), tid);
        }
        let order: Vec<u64> = numbers.given.into_values().collect();
        assert_eq!(order[..3], [FIRST, OTHERS + 2, 4]);
        assert_eq!(order.last(), Some(&IDLE));
    }

    /// Threads and budgets that come and go at one time are forgotten, so that reading stays cheap.
    #[test]
    fn what_comes_and_goes_is_forgotten() {
        let limits = |cpu_ns, memory_bytes| Limits {
            cpu_ns,
            memory_bytes,
        };
        let mut board = Board::open(limits(10_000_000, 1_000_000)).expect("a whole period");
        let (mut tracks, mut gauges) = (Tracks::default(), Gauges::default());
        for id in 2..300 {
            let (thread, root) = (ThreadId(id), ObjectId::ROOT);
            let made = board.create_user_thread(thread, root, Backing::There);
            let _image = made.expect("a place");
            let carved = board
                .create_budget(root, limits(1, 1), carv::Nanoseconds(0))
                .expect("time");
            gauges.read(board.as_bytes());
            tracks.read(board.as_bytes(), &gauges, 0);
            assert_eq!((tracks.live.len(), gauges.count()), (2, 2));
            board.kill(thread, Cause::Destroyed).expect("it is there");
            board
                .remove(carved, carv::Nanoseconds(0))
                .expect("it pays for nothing");
            gauges.read(board.as_bytes());
            tracks.read(board.as_bytes(), &gauges, 0);
            assert_eq!((tracks.live.len(), gauges.count()), (1, 1));
        }
    }
}
