//! A board with a timeline of it. The tests of host/picture have it too.

use carv::{
    Backing, Board, Context, Limits, MOST_THREADS, Nanoseconds, ObjectId, PERIOD_NS, Refusal,
    Space, TICK_NS, ThreadId, Tick, Wait,
};
use carv_watch::Timeline;

pub const MS: u64 = TICK_NS;

pub struct Bench {
    pub board: Board,
    pub timeline: Timeline,
    /// When budgets are carved out.
    pub now_ns: u64,
}

impl Bench {
    /// A new board, on which thread 0 runs.
    pub fn new() -> Self {
        let root = Limits {
            cpu_ns: PERIOD_NS,
            memory_bytes: 1_000_000,
        };
        Self {
            board: Board::open(root).expect("a whole period"),
            timeline: Timeline::new(),
            now_ns: 0,
        }
    }

    /// A new board on which thread 0 sleeps for good.
    pub fn without_first() -> Self {
        let mut bench = Self::new();
        bench.block();
        bench
    }

    /// A board with all its threads, each on a budget of its own.
    pub fn full() -> Self {
        let mut bench = Bench::without_first();
        for _ in 0..MOST_THREADS - 2 {
            bench.service(60_000);
        }
        bench.plan(0);
        bench
    }

    pub fn budget(&mut self, cpu_ns: u64) -> ObjectId {
        self.budget_of(ObjectId::ROOT, cpu_ns)
    }

    pub fn budget_of(&mut self, parent: ObjectId, cpu_ns: u64) -> ObjectId {
        let limits = Limits {
            cpu_ns,
            memory_bytes: if parent == ObjectId::ROOT { 1_024 } else { 0 },
        };
        let budget = self
            .board
            .create_budget(parent, limits, Nanoseconds(self.now_ns));
        budget.expect("there is enough")
    }

    /// A Ready thread.
    pub fn thread(&mut self, id: u64, budget: ObjectId) -> ThreadId {
        let thread = ThreadId(id);
        self.inactive(id, budget);
        let started = self
            .board
            .start(thread, Space::default(), Context::default());
        started.expect("it is Inactive");
        thread
    }

    pub fn inactive(&mut self, id: u64, budget: ObjectId) {
        let made = self
            .board
            .create_user_thread(ThreadId(id), budget, Backing::There);
        let _image = made.expect("there is a place");
    }

    /// A budget of this share with a Ready thread.
    pub fn service(&mut self, cpu_ns: u64) -> ObjectId {
        let budget = self.budget(cpu_ns);
        self.thread(100 + budget.0, budget);
        budget
    }

    pub fn block(&mut self) {
        let blocked = self.board.block_current(Wait::Notification(0));
        blocked.expect("it runs");
    }

    pub fn plan(&mut self, n: u64) {
        let _planned = self.board.plan(Tick(n)).expect("it is a tick");
    }

    /// A tick without a planning.
    pub fn book(&mut self, n: u64) {
        let before = self.timeline.before(n, &self.board);
        self.board.tick(Tick(n)).expect("it is a tick");
        self.timeline.tick(before, &self.board);
    }

    /// Ticks with a planning behind each.
    pub fn tick(&mut self, ticks: impl IntoIterator<Item = u64>) {
        for n in ticks {
            self.book(n);
            self.plan(n);
        }
    }
}

/// What must be accepted.
pub fn accepted<T>(answer: Result<T, Refusal>) -> T {
    answer.expect("it is accepted")
}
