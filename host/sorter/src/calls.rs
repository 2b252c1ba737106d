//! A board that writes down each call made on it, in the grammar of `carv replay`, and shows it to
//! the report's watch.

use carv::{
    Backing, Board, Cause, Context, Image, Kind, Limits, Nanoseconds, ObjectId, Planned, Refusal,
    Space, ThreadId, Tick, Wait,
};
use carv_report::Watch;
use std::ops::Deref;

/// A board with the list of the calls made on it. Readings are those of [`Board`] and are not
/// listed.
#[derive(Debug)]
pub struct Listed {
    board: Box<Board>,
    lines: Vec<String>,
    watch: Watch,
}

impl Deref for Listed {
    type Target = Board;

    fn deref(&self) -> &Board {
        &self.board
    }
}

impl Listed {
    /// A board that isn't opened yet, and an empty list.
    pub fn new() -> Self {
        Self {
            board: Box::new(Board::unopened()),
            lines: Vec::new(),
            watch: Watch::new(),
        }
    }

    /// The board, the list, and what was seen of its calls.
    pub fn into_parts(mut self) -> (Box<Board>, Vec<String>, Watch) {
        self.watch.end(&self.board);
        (self.board, self.lines, self.watch)
    }

    /// The set-up is over: what is seen tick by tick begins.
    pub fn begin(&mut self) {
        self.watch.begin_timeline();
    }

    /// How many lines there are, to put a comment behind them later on.
    pub fn length(&self) -> usize {
        self.lines.len()
    }

    /// Puts a comment behind the first so many lines.
    pub fn comment(&mut self, behind: usize, text: &str) {
        self.lines.insert(behind, format!("# {text}"));
    }

    /// Names a budget.
    pub fn name(&mut self, budget: ObjectId, name: &str) {
        self.lines.push(format!("name {} {name}", budget.0));
        self.watch.name(budget, name);
    }

    /// Makes a call and lists it, a refused one with a comment before it.
    fn call<T>(
        &mut self,
        name: &str,
        arguments: &[u64],
        make: impl FnOnce(&mut Board) -> Result<T, Refusal>,
    ) -> Result<T, Refusal> {
        let place = self.length() as u64 + 1;
        let answer = self
            .watch
            .call(place, name, arguments, &mut self.board, make);
        if let Err(refusal) = &answer {
            self.comment(self.length(), &refusal.to_string());
        }
        let mut line = name.to_string();
        for argument in arguments {
            line.push_str(&format!(" {argument}"));
        }
        self.lines.push(line);
        answer
    }
}

/// The calls that the day makes, each as that of [`Board`].
impl Listed {
    pub fn open(&mut self, root: Limits) -> Result<(), Refusal> {
        let arguments = [root.cpu_ns, root.memory_bytes];
        self.call("open", &arguments, |board| board.reopen(root))
    }

    pub fn create(
        &mut self,
        kind: Kind,
        payer: ObjectId,
        backing: Backing,
    ) -> Result<ObjectId, Refusal> {
        let arguments = [kind.code(), payer.0, flag(backing)];
        self.call("create", &arguments, |board| {
            board.create(kind, payer, backing)
        })
    }

    pub fn insert(&mut self, kind: Kind, payer: ObjectId, bytes: u64) -> Result<ObjectId, Refusal> {
        let arguments = [kind.code(), payer.0, bytes];
        self.call("insert", &arguments, |board| {
            board.insert(kind, payer, bytes)
        })
    }

    pub fn create_budget(
        &mut self,
        parent: ObjectId,
        limits: Limits,
        now: Nanoseconds,
    ) -> Result<ObjectId, Refusal> {
        let arguments = [parent.0, limits.cpu_ns, limits.memory_bytes, now.0];
        self.call("create_budget", &arguments, |board| {
            board.create_budget(parent, limits, now)
        })
    }

    pub fn remove(&mut self, id: ObjectId, now: Nanoseconds) -> Result<(), Refusal> {
        self.call("remove", &[id.0, now.0], |board| board.remove(id, now))
    }

    pub fn refill(&mut self, id: ObjectId, now: Nanoseconds) -> Result<bool, Refusal> {
        self.call("refill", &[id.0, now.0], |board| board.refill(id, now))
    }

    pub fn create_user_thread(
        &mut self,
        id: ThreadId,
        budget: ObjectId,
        stack: Backing,
    ) -> Result<Image, Refusal> {
        let arguments = [id.0, budget.0, flag(stack)];
        self.call("create_user_thread", &arguments, |board| {
            board.create_user_thread(id, budget, stack)
        })
    }

    pub fn start(&mut self, id: ThreadId, space: Space, context: Context) -> Result<(), Refusal> {
        let arguments = [
            id.0,
            space.space,
            space.cspace,
            space.root,
            context.rip,
            context.rsp,
            context.rflags,
            context.rdi,
            context.rsi,
            context.cs,
            context.ss,
        ];
        self.call("start", &arguments, |board| board.start(id, space, context))
    }

    pub fn block_current(&mut self, wait: Wait) -> Result<(), Refusal> {
        let (kind, number) = wait.codes();
        self.call("block_current", &[kind, number], |board| {
            board.block_current(wait)
        })
    }

    pub fn kill(&mut self, id: ThreadId, cause: Cause) -> Result<Option<Wait>, Refusal> {
        self.call("kill", &[id.0, cause.code()], |board| board.kill(id, cause))
    }

    pub fn tick(&mut self, n: Tick) -> Result<(), Refusal> {
        self.call("tick", &[n.0], |board| board.tick(n))
    }

    pub fn plan(&mut self, n: Tick) -> Result<Planned, Refusal> {
        self.call("plan", &[n.0], |board| board.plan(n))
    }
}

/// As the list has it: 1 for there, 0 for missing.
fn flag(backing: Backing) -> u64 {
    u64::from(backing == Backing::There)
}
