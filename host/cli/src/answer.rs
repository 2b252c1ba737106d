//! What a call answers, and its fields with their names.

use crate::codes::{self, CAUSES, KINDS, STATES, WAITS};
use carv::{
    Account, Cause, Charge, Context, ObjectId, Switch, ThreadId, ThreadRecord, Totals, Wait,
};
use carv_layout::area::{self, ObjectRow, ThreadRow};
use carv_text::json::Json;

/// The answer of an accepted call.
#[derive(Clone, Debug, PartialEq, Eq)]
pub enum Answer {
    /// No values.
    Done,
    /// Whether the board is sound.
    Sound(bool),
    /// The new object.
    Id(ObjectId),
    /// Whether a budget was renewed.
    Renewed(bool),
    /// Whether a budget pays for anything.
    Pays(bool),
    /// A budget's account.
    Account(Account),
    /// What an object is charged.
    Charge(Charge),
    /// Figures of a budget and all below it.
    Totals(Totals),
    /// Whether a thread is blocked on a wait.
    Blocked(bool),
    /// The wait that a kill ended.
    Ended(Option<Wait>),
    /// The switch of a planning.
    Planned(Option<Switch>),
    /// A thread's record.
    Thread(Box<ThreadRecord>),
    /// The current thread.
    Current(ThreadId),
    /// The number of switches.
    Switches(u64),
    /// The cause of a logged end.
    Exit(Option<Cause>),
}

impl Answer {
    /// Its fields. What isn't there is `null`.
    pub fn json(&self) -> Json {
        match self {
            Self::Done => Json::object::<&str>([]),
            Self::Sound(yes) => Json::object([("sound", (*yes).into())]),
            Self::Id(id) => Json::object([("id", id.0.into())]),
            Self::Renewed(yes) => Json::object([("renewed", (*yes).into())]),
            Self::Pays(yes) => Json::object([("pays", (*yes).into())]),
            Self::Account(account) => Json::object(account_fields(figures(account))),
            Self::Charge(charge) => Json::object([
                ("payer", charge.payer.0.into()),
                ("bytes", charge.bytes.into()),
            ]),
            Self::Totals(totals) => Json::object(totals_fields(sums(totals))),
            Self::Blocked(yes) => Json::object([("blocked", (*yes).into())]),
            Self::Ended(wait) => {
                Json::object([("wait", wait.map(|it| wait_json(it.codes())).into())])
            }
            Self::Planned(switch) => Json::object([("switch", switch.map(switch_json).into())]),
            Self::Thread(record) => Json::object(thread_fields(&row(record))),
            Self::Current(thread) => Json::object([("thread", thread.0.into())]),
            Self::Switches(count) => Json::object([("switches", (*count).into())]),
            Self::Exit(cause) => {
                let cause = cause.and_then(|cause| codes::word(CAUSES, cause.code()));
                Json::object([("cause", cause.into())])
            }
        }
    }
}

/// The wrapper's account as the layout's.
pub fn figures(account: &Account) -> area::Account {
    area::Account {
        cpu_allowance: account.limits.cpu_ns,
        memory_limit: account.limits.memory_bytes,
        period_start: account.period_start.0,
        cpu_left: account.cpu_left_ns,
        cpu_reserved: account.cpu_reserved_ns,
        memory_used: account.memory_used_bytes,
        memory_reserved: account.memory_reserved_bytes,
    }
}

/// The wrapper's totals as the layout's.
pub fn sums(totals: &Totals) -> area::Totals {
    area::Totals {
        memory_used: totals.memory_used_bytes,
        memory_free: totals.memory_free_bytes,
        cpu_left: totals.cpu_left_ns,
    }
}

/// The wrapper's record as the layout's row, without its id.
pub fn row(record: &ThreadRecord) -> ThreadRow {
    let wait = match record.state {
        carv::State::Blocked(wait) => wait.codes(),
        _ => (0, 0),
    };
    let Context {
        rip,
        rsp,
        rflags,
        rdi,
        rsi,
        cs,
        ss,
    } = record.context;
    ThreadRow {
        id: 0,
        state: record.state.code(),
        wait: wait.into(),
        budget: record.budget.map_or([0; 2], |budget| [1, budget.0]),
        space: record
            .space
            .map_or([0; 4], |it| [1, it.space, it.cspace, it.root]),
        context: [rip, rsp, rflags, rdi, rsi, cs, ss],
        results: record.results,
        run_ticks: record.run_ticks,
    }
}

/// The fields of an account.
pub fn account_fields(account: area::Account) -> Vec<(&'static str, Json)> {
    vec![
        ("cpu_ns", account.cpu_allowance.into()),
        ("cpu_left_ns", account.cpu_left.into()),
        ("cpu_reserved_ns", account.cpu_reserved.into()),
        ("period_start_ns", account.period_start.into()),
        ("memory_bytes", account.memory_limit.into()),
        ("memory_used_bytes", account.memory_used.into()),
        ("memory_reserved_bytes", account.memory_reserved.into()),
        ("memory_free_bytes", account.memory_free().into()),
    ]
}

/// The fields of totals.
pub fn totals_fields(totals: area::Totals) -> [(&'static str, Json); 3] {
    [
        ("cpu_left_ns", totals.cpu_left.into()),
        ("memory_used_bytes", totals.memory_used.into()),
        ("memory_free_bytes", totals.memory_free.into()),
    ]
}

/// The fields of an object but those of its account.
pub fn object_fields(row: &ObjectRow) -> Vec<(&'static str, Json)> {
    vec![
        ("id", row.id.into()),
        ("kind", code_json(KINDS, row.kind)),
        ("payer", row.payer.into()),
        ("charge_bytes", row.charge.into()),
    ]
}

/// The names of the registers, in their order.
pub const REGISTERS: [&str; 7] = ["rip", "rsp", "rflags", "rdi", "rsi", "cs", "ss"];

/// The fields of a thread but its id.
pub fn thread_fields(row: &ThreadRow) -> Vec<(&'static str, Json)> {
    let [has_space, space, cspace, root] = row.space;
    let space = Json::object([
        ("space", space.into()),
        ("cspace", cspace.into()),
        ("root", root.into()),
    ]);
    let wait = (row.wait != [0; 2]).then(|| wait_json(row.wait.into()));
    let registers = REGISTERS.into_iter().zip(row.context.map(Json::from));
    vec![
        ("state", code_json(STATES, row.state)),
        ("wait", wait.into()),
        (
            "budget",
            (row.budget[0] == 1).then_some(row.budget[1]).into(),
        ),
        ("space", (has_space == 1).then_some(space).into()),
        ("context", Json::object(registers)),
        ("results", Json::list(row.results)),
        ("run_ticks", row.run_ticks.into()),
    ]
}

fn wait_json((kind, number): (u64, u64)) -> Json {
    Json::object([("kind", code_json(WAITS, kind)), ("number", number.into())])
}

fn switch_json(switch: Switch) -> Json {
    Json::object([
        ("old", switch.old.0.into()),
        ("new", switch.new.0.into()),
        ("root", switch.root.into()),
    ])
}

/// The word for a number; the number itself if it isn't listed, as it may be in an unsound area.
pub fn code_json(words: codes::Words, code: u64) -> Json {
    codes::word(words, code).map_or(Json::Number(code), Json::from)
}

#[cfg(test)]
mod tests {
    use super::*;
    use carv::{Backing, Board, Limits, Nanoseconds, Space};

    const START: Nanoseconds = Nanoseconds(0);

    /// Each thread's row by the wrapper is the one that stands in the area.
    #[test]
    fn rows_are_those_of_the_area() {
        let limits = Limits {
            cpu_ns: 10_000_000,
            memory_bytes: 1_000,
        };
        let mut board = Board::open(limits).expect("a share of one period");
        let (id, space) = (
            ThreadId(7),
            Space {
                space: 2,
                cspace: 3,
                root: 4,
            },
        );
        let context = Context {
            rip: 5,
            rsp: 6,
            rdi: 8,
            rsi: 9,
            cs: 10,
            ss: 11,
            ..Context::default()
        };
        let made = board.create_user_thread(id, ObjectId::ROOT, Backing::There);
        let _image = made.expect("a new thread");
        board.start(id, space, context).expect("an inactive thread");
        board.block_current(Wait::Recv(12)).expect("thread 0 runs");
        let table = area::read(board.as_bytes()).expect("a sound area");
        for expected in table.threads {
            let record = board.read_thread(ThreadId(expected.id));
            let id = expected.id;
            let found = row(&record.expect("a thread of the table"));
            assert_eq!(ThreadRow { id, ..found }, expected);
        }
        let root = board.account(ObjectId::ROOT).expect("the root");
        assert_eq!(figures(&root), table.objects[0].account);
    }

    /// The totals by the wrapper are those that the area's words give.
    #[test]
    fn totals_are_those_of_the_area() {
        let limits = |cpu_ns, memory_bytes| Limits {
            cpu_ns,
            memory_bytes,
        };
        let mut board = Board::open(limits(10_000_000, 100_000)).expect("a share of one period");
        for (parent, cpu_ns, memory_bytes) in [
            (1, 4_000_000, 50_000),
            (2, 3_000_000, 20_000),
            (1, 1_000_000, 5_000),
            (4, 2_000_000, 10_000),
        ] {
            let carved = board.create_budget(ObjectId(parent), limits(cpu_ns, memory_bytes), START);
            let payer = carved.expect("the parent covers it");
            let frame = board.create(carv::Kind::Frame, payer, Backing::There);
            frame.expect("the payer covers it");
            board.charge_cpu(payer, 100, START).expect("it is left");
        }
        let table = area::read(board.as_bytes()).expect("a sound area");
        let expected = area::totals(&table.objects);
        assert_eq!(expected.len(), 5);
        for (id, expected) in expected {
            let found = board.totals(ObjectId(id)).expect("a budget");
            assert_eq!(sums(&found), expected, "{id}");
        }
    }

    /// The help on JSON lists the fields of an account and of totals as they are printed.
    #[test]
    fn help_lists_the_fields() {
        let words: Vec<&str> = include_str!("help/json.txt").split_whitespace().collect();
        let help = words.join(" ");
        let account = account_fields(area::Account::default());
        let totals = totals_fields(area::Totals::default());
        for (call, fields) in [("account", &account[..]), ("totals", &totals[..])] {
            let names: Vec<&str> = fields.iter().map(|(name, _)| *name).collect();
            let line = format!(" {call} {}", names.join(", "));
            assert!(help.contains(&line), "{line}");
        }
    }
}
