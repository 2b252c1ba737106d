//! Calls on threads.

use crate::{
    Backing, Board, Cause, Context, Image, ObjectId, Planned, Refusal, Space, ThreadId,
    ThreadRecord, Tick, Wait, ffi,
};
use carv_sys::CARV_OUT_VALUE;

/// Threads.
impl Board {
    /// Creates an Inactive thread under this id, on this budget, which is not looked up: without a
    /// live budget the thread never runs. `stack` says whether its kernel stack is there. Answers
    /// what the thread's floating-point registers start from, for the host to keep with it.
    ///
    /// Refused with [`Refusal::Id`], [`Full`](Refusal::Full) and [`Backing`](Refusal::Backing).
    ///
    /// ```
    /// use carv::{Backing, Board, Image, Limits, ObjectId, Refusal, State, ThreadId};
    ///
    /// let mut board = Board::open(Limits { cpu_ns: 10_000_000, memory_bytes: 1_000_000 })?;
    /// let image = board.create_user_thread(ThreadId(7), ObjectId::ROOT, Backing::There)?;
    /// assert_eq!(image, Image::new()?);
    /// assert_eq!(board.read_thread(ThreadId(7))?.state, State::Inactive);
    ///
    /// let again = board.create_user_thread(ThreadId(7), ObjectId::ROOT, Backing::There);
    /// assert_eq!(again, Err(Refusal::Id));
    /// # Ok::<(), Refusal>(())
    /// ```
    pub fn create_user_thread(
        &mut self,
        id: ThreadId,
        budget: ObjectId,
        stack: Backing,
    ) -> Result<Image, Refusal> {
        let mut image = Image::blank();
        let stack = stack.is_there();
        ffi::create_user_thread(&mut self.area, id.0, budget.0, stack, image.bytes_mut())?;
        Ok(image)
    }

    /// Gives an Inactive thread its space and registers, and makes it Ready, at the queue's end.
    ///
    /// Refused with [`Refusal::Missing`] and [`State`](Refusal::State).
    ///
    /// ```
    /// use carv::{Backing, Board, Context, Limits, ObjectId, Refusal, Space, State, ThreadId};
    ///
    /// let mut board = Board::open(Limits { cpu_ns: 10_000_000, memory_bytes: 1_000_000 })?;
    /// let image = board.create_user_thread(ThreadId(7), ObjectId::ROOT, Backing::There)?;
    /// let space = Space { space: 2, cspace: 3, root: 0x4000 };
    /// let context = Context { rip: 0x1000, rsp: 0x8000, ..Context::default() };
    /// board.start(ThreadId(7), space, context)?;
    /// assert_eq!(board.read_thread(ThreadId(7))?.state, State::Ready);
    /// assert_eq!(board.start(ThreadId(7), space, context), Err(Refusal::State));
    /// # Ok::<(), Refusal>(())
    /// ```
    pub fn start(&mut self, id: ThreadId, space: Space, context: Context) -> Result<(), Refusal> {
        ffi::carv_start(
            &mut self.area,
            id.0,
            space.space,
            space.cspace,
            space.root,
            context.rip,
            context.rsp,
            context.rflags,
            context.rdi,
            context.rsi,
            context.cs,
            context.ss,
        )?;
        Ok(())
    }

    /// Blocks the current thread on a wait. Another runs from the next planning on.
    ///
    /// Refused with [`Refusal::State`] if the current thread is not Running, or is idle.
    ///
    /// ```
    /// use carv::{Board, Limits, Refusal, ThreadId, Tick, Wait};
    ///
    /// let mut board = Board::open(Limits { cpu_ns: 10_000_000, memory_bytes: 1_000_000 })?;
    /// board.block_current(Wait::Sleep(Tick(5)))?;
    /// assert_eq!(board.block_current(Wait::Sleep(Tick(5))), Err(Refusal::State));
    /// board.tick(Tick(5))?;
    /// assert!(!board.is_blocked_on(ThreadId::FIRST, Wait::Sleep(Tick(5)))?);
    /// # Ok::<(), Refusal>(())
    /// ```
    pub fn block_current(&mut self, wait: Wait) -> Result<(), Refusal> {
        self.block_current_by_code(wait.codes())
    }

    /// Makes a Blocked thread Ready, at the queue's end, with these results.
    ///
    /// Refused with [`Refusal::Missing`] and [`State`](Refusal::State).
    ///
    /// ```
    /// use carv::{Board, Limits, ThreadId, Wait};
    ///
    /// let mut board = Board::open(Limits { cpu_ns: 10_000_000, memory_bytes: 1_000_000 })?;
    /// board.block_current(Wait::Recv(7))?;
    /// board.wake(ThreadId::FIRST, [1, 2, 3])?;
    /// assert_eq!(board.read_thread(ThreadId::FIRST)?.results, [1, 2, 3]);
    /// # Ok::<(), carv::Refusal>(())
    /// ```
    pub fn wake(&mut self, id: ThreadId, results: [u64; 3]) -> Result<(), Refusal> {
        let [first, second, third] = results;
        ffi::carv_wake(&mut self.area, id.0, first, second, third)?;
        Ok(())
    }

    /// Is the thread Blocked on just this wait? No if there is no such thread. For an example see
    /// [`block_current`](Self::block_current).
    pub fn is_blocked_on(&self, id: ThreadId, wait: Wait) -> Result<bool, Refusal> {
        self.is_blocked_on_by_code(id, wait.codes())
    }

    /// Ends a thread, logs its end, and answers the wait that this ended. The current thread stays,
    /// Dead, until a planning leaves it.
    ///
    /// Refused with [`Refusal::Id`] (idle) and [`Missing`](Refusal::Missing).
    ///
    /// ```
    /// use carv::{Board, Cause, Limits, Refusal, ThreadId};
    ///
    /// let mut board = Board::open(Limits { cpu_ns: 10_000_000, memory_bytes: 1_000_000 })?;
    /// assert_eq!(board.kill(ThreadId::FIRST, Cause::Faulted)?, None);
    /// assert_eq!(board.exit_of(ThreadId::FIRST)?, Some(Cause::Faulted));
    /// assert_eq!(board.kill(ThreadId::IDLE, Cause::Faulted), Err(Refusal::Id));
    /// # Ok::<(), Refusal>(())
    /// ```
    pub fn kill(&mut self, id: ThreadId, cause: Cause) -> Result<Option<Wait>, Refusal> {
        self.kill_by_code(id, cause.code())
    }

    /// Books tick `n` to the current thread: one run tick more, and its budget, renewed if that is
    /// due, is charged [`TICK_NS`](crate::TICK_NS) or, if less is left, all that is left. Then wakes
    /// the sleepers that are due, by rising id.
    ///
    /// Refused with [`Refusal::Tick`].
    ///
    /// ```
    /// use carv::{Board, Limits, Refusal, ThreadId, Tick};
    ///
    /// let mut board = Board::open(Limits { cpu_ns: 10_000_000, memory_bytes: 1_000_000 })?;
    /// board.tick(Tick(1))?;
    /// assert_eq!(board.read_thread(ThreadId::FIRST)?.run_ticks, 1);
    /// assert_eq!(board.tick(Tick(Tick::LAST.0 + 1)), Err(Refusal::Tick));
    /// # Ok::<(), Refusal>(())
    /// ```
    pub fn tick(&mut self, n: Tick) -> Result<(), Refusal> {
        ffi::carv_tick(&mut self.area, n.0)?;
        Ok(())
    }

    /// Picks the thread that runs at tick `n`, and answers the switch, if there is one. A current
    /// thread in Running, other than idle, goes to the queue's end. Then the first in the queue runs
    /// whose budget, renewed if that is due, has CPU time left, or that has no budget; idle if there
    /// is none.
    ///
    /// Refused with [`Refusal::Tick`].
    ///
    /// ```
    /// use carv::{Board, Limits, ThreadId, Tick, Wait};
    ///
    /// let mut board = Board::open(Limits { cpu_ns: 10_000_000, memory_bytes: 1_000_000 })?;
    /// assert_eq!(board.plan(Tick(0))?.switch, None);
    /// board.block_current(Wait::Notification(1))?;
    /// if let Some(switch) = board.plan(Tick(0))?.switch {
    ///     assert_eq!((switch.old, switch.new), (ThreadId::FIRST, ThreadId::IDLE));
    ///     assert_eq!(switch.root, None);
    /// }
    /// assert_eq!(board.switches()?, 1);
    /// # Ok::<(), carv::Refusal>(())
    /// ```
    pub fn plan(&mut self, n: Tick) -> Result<Planned, Refusal> {
        ffi::carv_plan(&mut self.area, n.0).map(|words| Planned::from(&words))
    }

    /// The record of a thread.
    ///
    /// Refused with [`Refusal::Missing`].
    ///
    /// ```
    /// use carv::{Board, Limits, State, ThreadId};
    ///
    /// let board = Board::open(Limits { cpu_ns: 10_000_000, memory_bytes: 1_000_000 })?;
    /// let thread = board.read_thread(ThreadId::FIRST)?;
    /// assert_eq!(thread.state, State::Running);
    /// assert_eq!(thread.budget, None);
    /// # Ok::<(), carv::Refusal>(())
    /// ```
    pub fn read_thread(&self, id: ThreadId) -> Result<ThreadRecord, Refusal> {
        ffi::carv_read_thread(&self.area, id.0).and_then(|words| ThreadRecord::try_from(&words))
    }

    /// The current thread.
    pub fn current(&self) -> Result<ThreadId, Refusal> {
        ffi::carv_current(&self.area).map(|words| ThreadId(words[CARV_OUT_VALUE]))
    }

    /// How many switches there were, modulo 2^64.
    pub fn switches(&self) -> Result<u64, Refusal> {
        ffi::carv_switches(&self.area).map(|words| words[CARV_OUT_VALUE])
    }

    /// The cause of the oldest logged end of this thread, none if none is logged. For an example see
    /// [`kill`](Self::kill).
    pub fn exit_of(&self, id: ThreadId) -> Result<Option<Cause>, Refusal> {
        let words = ffi::carv_exit_of(&self.area, id.0)?;
        Cause::decode(words[CARV_OUT_VALUE])
    }
}
