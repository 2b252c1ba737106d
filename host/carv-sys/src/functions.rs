//! The functions of `include/carv.h`, in its order. The header says what each asks of its caller, and
//! what it answers.

unsafe extern "C" {
    /// Opens a board over whatever the area held.
    pub fn carv_open(
        area: *mut u8,
        area_bytes: usize,
        cpu: u64,
        memory: u64,
        out: *mut u64,
        out_words: usize,
    ) -> u64;

    /// Is the area of its length and the board in it sound?
    pub fn carv_is_sound(area: *const u8, area_bytes: usize) -> bool;

    /// Creates an object, and charges its payer the bytes of its kind.
    pub fn carv_create(
        area: *mut u8,
        area_bytes: usize,
        kind: u64,
        payer: u64,
        backing: bool,
        out: *mut u64,
        out_words: usize,
    ) -> u64;

    /// Inserts an object, and charges its payer so many bytes.
    pub fn carv_insert(
        area: *mut u8,
        area_bytes: usize,
        kind: u64,
        payer: u64,
        bytes: u64,
        out: *mut u64,
        out_words: usize,
    ) -> u64;

    /// Carves a budget out of its parent.
    pub fn carv_create_budget(
        area: *mut u8,
        area_bytes: usize,
        parent: u64,
        cpu: u64,
        memory: u64,
        time: u64,
        out: *mut u64,
        out_words: usize,
    ) -> u64;

    /// Raises an object's charge and what its payer has used.
    pub fn carv_charge_more(
        area: *mut u8,
        area_bytes: usize,
        id: u64,
        bytes: u64,
        out: *mut u64,
        out_words: usize,
    ) -> u64;

    /// Lowers an object's charge and what its payer has used.
    pub fn carv_uncharge(
        area: *mut u8,
        area_bytes: usize,
        id: u64,
        bytes: u64,
        out: *mut u64,
        out_words: usize,
    ) -> u64;

    /// Removes an object, and credits its payer the charge.
    pub fn carv_remove(
        area: *mut u8,
        area_bytes: usize,
        id: u64,
        time: u64,
        out: *mut u64,
        out_words: usize,
    ) -> u64;

    /// Renews a budget if that is due.
    pub fn carv_refill(
        area: *mut u8,
        area_bytes: usize,
        id: u64,
        time: u64,
        out: *mut u64,
        out_words: usize,
    ) -> u64;

    /// Renews a budget if that is due, then charges it CPU time.
    pub fn carv_charge_cpu(
        area: *mut u8,
        area_bytes: usize,
        id: u64,
        ns: u64,
        time: u64,
        out: *mut u64,
        out_words: usize,
    ) -> u64;

    /// Does another object have this payer?
    pub fn carv_pays_for_anything(
        area: *const u8,
        area_bytes: usize,
        id: u64,
        out: *mut u64,
        out_words: usize,
    ) -> u64;

    /// A budget's account.
    pub fn carv_account(
        area: *const u8,
        area_bytes: usize,
        id: u64,
        out: *mut u64,
        out_words: usize,
    ) -> u64;

    /// An object's payer and charge.
    pub fn carv_charge_of(
        area: *const u8,
        area_bytes: usize,
        id: u64,
        out: *mut u64,
        out_words: usize,
    ) -> u64;

    /// Memory used, memory free and CPU left of a budget with all below it.
    pub fn carv_totals(
        area: *const u8,
        area_bytes: usize,
        id: u64,
        out: *mut u64,
        out_words: usize,
    ) -> u64;

    /// Creates an Inactive thread, and fills its register image.
    pub fn carv_create_user_thread(
        area: *mut u8,
        area_bytes: usize,
        id: u64,
        budget: u64,
        stack: bool,
        image: *mut u8,
        image_bytes: usize,
        out: *mut u64,
        out_words: usize,
    ) -> u64;

    /// Gives an Inactive thread its space and context, and makes it Ready.
    pub fn carv_start(
        area: *mut u8,
        area_bytes: usize,
        id: u64,
        space: u64,
        cspace: u64,
        root: u64,
        rip: u64,
        rsp: u64,
        rflags: u64,
        rdi: u64,
        rsi: u64,
        cs: u64,
        ss: u64,
        out: *mut u64,
        out_words: usize,
    ) -> u64;

    /// Blocks the current thread on a wait.
    pub fn carv_block_current(
        area: *mut u8,
        area_bytes: usize,
        kind: u64,
        number: u64,
        out: *mut u64,
        out_words: usize,
    ) -> u64;

    /// Makes a Blocked thread Ready, with three results.
    pub fn carv_wake(
        area: *mut u8,
        area_bytes: usize,
        id: u64,
        first: u64,
        second: u64,
        third: u64,
        out: *mut u64,
        out_words: usize,
    ) -> u64;

    /// Is the thread Blocked on just this wait?
    pub fn carv_is_blocked_on(
        area: *const u8,
        area_bytes: usize,
        id: u64,
        kind: u64,
        number: u64,
        out: *mut u64,
        out_words: usize,
    ) -> u64;

    /// Ends a thread and logs its end.
    pub fn carv_kill(
        area: *mut u8,
        area_bytes: usize,
        id: u64,
        cause: u64,
        out: *mut u64,
        out_words: usize,
    ) -> u64;

    /// Books a tick to the current thread, and wakes the sleepers that are due.
    pub fn carv_tick(
        area: *mut u8,
        area_bytes: usize,
        n: u64,
        out: *mut u64,
        out_words: usize,
    ) -> u64;

    /// Picks the thread that runs.
    pub fn carv_plan(
        area: *mut u8,
        area_bytes: usize,
        n: u64,
        out: *mut u64,
        out_words: usize,
    ) -> u64;

    /// A thread's record.
    pub fn carv_read_thread(
        area: *const u8,
        area_bytes: usize,
        id: u64,
        out: *mut u64,
        out_words: usize,
    ) -> u64;

    /// The current thread's id.
    pub fn carv_current(area: *const u8, area_bytes: usize, out: *mut u64, out_words: usize)
    -> u64;

    /// How many switches there were.
    pub fn carv_switches(
        area: *const u8,
        area_bytes: usize,
        out: *mut u64,
        out_words: usize,
    ) -> u64;

    /// The cause of the oldest logged end of a thread.
    pub fn carv_exit_of(
        area: *const u8,
        area_bytes: usize,
        id: u64,
        out: *mut u64,
        out_words: usize,
    ) -> u64;

    /// Fills a register image as a new thread has it.
    pub fn carv_image(image: *mut u8, image_bytes: usize) -> u64;
}
