//! The calls, read from their names and numbers.

use crate::TICK;
use std::fmt;

/// A call with the arguments that book, ledger and clock have a use for.
#[derive(Clone, Copy, Debug, PartialEq, Eq)]
#[expect(missing_docs, reason = "document 01 has the calls and their arguments")]
pub enum Call {
    Open {
        cpu: u64,
        memory: u64,
    },
    Create {
        kind: u64,
        payer: u64,
    },
    Insert {
        payer: u64,
        bytes: u64,
    },
    CreateBudget {
        parent: u64,
        cpu: u64,
        memory: u64,
        time: u64,
    },
    ChargeMore {
        id: u64,
        bytes: u64,
    },
    Uncharge {
        id: u64,
        bytes: u64,
    },
    Remove {
        id: u64,
        time: u64,
    },
    Refill {
        id: u64,
        time: u64,
    },
    ChargeCpu {
        id: u64,
        ns: u64,
        time: u64,
    },
    CreateUserThread {
        id: u64,
        budget: u64,
    },
    Start {
        id: u64,
    },
    BlockCurrent {
        kind: u64,
        number: u64,
    },
    Wake {
        id: u64,
    },
    Kill {
        id: u64,
    },
    Tick {
        n: u64,
    },
    Plan {
        n: u64,
    },
    /// A call that writes nothing.
    Reading,
}

/// Why a name and its numbers are no call.
#[derive(Clone, Debug, PartialEq, Eq)]
pub enum BadCall {
    /// There is no call of this name.
    Unknown(String),
    /// The call takes another number of arguments.
    Arguments {
        /// The call.
        name: String,
        /// How many it takes.
        takes: usize,
        /// How many were given.
        given: usize,
    },
}

/// The calls by name, with how many arguments each takes.
pub const CALLS: [(&str, usize); 27] = [
    ("open", 2),
    ("is_sound", 0),
    ("create", 3),
    ("insert", 3),
    ("create_budget", 4),
    ("charge_more", 2),
    ("uncharge", 2),
    ("remove", 2),
    ("refill", 2),
    ("charge_cpu", 3),
    ("pays_for_anything", 1),
    ("account", 1),
    ("charge_of", 1),
    ("totals", 1),
    ("create_user_thread", 3),
    ("start", 11),
    ("block_current", 2),
    ("wake", 4),
    ("is_blocked_on", 3),
    ("kill", 2),
    ("tick", 1),
    ("plan", 1),
    ("read_thread", 1),
    ("current", 0),
    ("switches", 0),
    ("exit_of", 1),
    ("image", 0),
];

impl Call {
    /// The call of this name, as in `include/carv.h` without `carv_`, with these arguments, in the
    /// order of the C function without pointers and lengths.
    ///
    /// # Errors
    /// If there is no such call, or it takes another number of arguments.
    pub fn parse(name: &str, arguments: &[u64]) -> Result<Self, BadCall> {
        let found = CALLS.iter().find(|(known, _)| *known == name);
        let (name, takes) = *found.ok_or_else(|| BadCall::Unknown(name.to_string()))?;
        if arguments.len() != takes {
            return Err(BadCall::Arguments {
                name: name.to_string(),
                takes,
                given: arguments.len(),
            });
        }
        Ok(match (name, arguments) {
            ("open", &[cpu, memory]) => Self::Open { cpu, memory },
            ("create", &[kind, payer, _]) => Self::Create { kind, payer },
            ("insert", &[_, payer, bytes]) => Self::Insert { payer, bytes },
            ("create_budget", &[parent, cpu, memory, time]) => Self::CreateBudget {
                parent,
                cpu,
                memory,
                time,
            },
            ("charge_more", &[id, bytes]) => Self::ChargeMore { id, bytes },
            ("uncharge", &[id, bytes]) => Self::Uncharge { id, bytes },
            ("remove", &[id, time]) => Self::Remove { id, time },
            ("refill", &[id, time]) => Self::Refill { id, time },
            ("charge_cpu", &[id, ns, time]) => Self::ChargeCpu { id, ns, time },
            ("create_user_thread", &[id, budget, _]) => Self::CreateUserThread { id, budget },
            ("start", &[id, ..]) => Self::Start { id },
            ("block_current", &[kind, number]) => Self::BlockCurrent { kind, number },
            ("wake", &[id, ..]) => Self::Wake { id },
            ("kill", &[id, _]) => Self::Kill { id },
            ("tick", &[n]) => Self::Tick { n },
            ("plan", &[n]) => Self::Plan { n },
            _ => Self::Reading,
        })
    }

    /// Its clock value: its time, or that of its tick. Most calls have none, a sleep's tick is none.
    pub fn clock(self) -> Option<u128> {
        match self {
            Self::CreateBudget { time, .. }
            | Self::Remove { time, .. }
            | Self::Refill { time, .. }
            | Self::ChargeCpu { time, .. } => Some(time.into()),
            Self::Tick { n } | Self::Plan { n } => Some(tick_time(n)),
            _ => None,
        }
    }
}

/// "Tick n means n × 1,000,000 ns."
pub fn tick_time(n: u64) -> u128 {
    u128::from(n) * TICK
}

impl fmt::Display for BadCall {
    fn fmt(&self, f: &mut fmt::Formatter<'_>) -> fmt::Result {
        match self {
            Self::Unknown(name) => write!(f, "there is no call `{name}`"),
            Self::Arguments { name, takes, given } => {
                write!(f, "`{name}` takes {takes} arguments, not {given}")
            }
        }
    }
}

impl std::error::Error for BadCall {}

#[cfg(test)]
mod tests {
    use super::*;

    /// The functions of the header, each with its parameters but for pointers and lengths.
    fn in_header() -> Vec<(String, usize)> {
        let header = include_str!("../../../include/carv.h");
        let mut functions = Vec::new();
        for text in header
            .split("\nuint64_t carv_")
            .skip(1)
            .chain(header.split("\nbool carv_").skip(1))
        {
            let (name, rest) = text.split_once('(').expect("its parameters");
            let (parameters, _) = rest.split_once(");").expect("their end");
            let is_argument =
                |parameter: &&str| !parameter.contains('*') && !parameter.contains("size_t");
            let count = parameters.split(',').filter(is_argument).count();
            functions.push((name.to_string(), count));
        }
        functions
    }

    #[test]
    fn names_and_arguments_are_the_header_s() {
        let mut header = in_header();
        let mut listed: Vec<_> = CALLS.map(|(name, takes)| (name.to_string(), takes)).into();
        header.sort();
        listed.sort();
        assert_eq!(listed, header);
    }

    /// All but the readings have a form of their own, and no other count of arguments is taken.
    #[test]
    fn each_call_is_read() {
        let mut readings = Vec::new();
        for (name, takes) in CALLS {
            let arguments: Vec<u64> = (11..).take(takes + 1).collect();
            let call = Call::parse(name, &arguments[..takes]).expect("a call");
            if call == Call::Reading {
                readings.push(name);
            }
            let given = takes + 1;
            let why = BadCall::Arguments {
                name: name.to_string(),
                takes,
                given,
            };
            assert_eq!(Call::parse(name, &arguments), Err(why));
        }
        let expected = [
            "is_sound",
            "pays_for_anything",
            "account",
            "charge_of",
            "totals",
            "is_blocked_on",
            "read_thread",
            "current",
            "switches",
            "exit_of",
            "image",
        ];
        assert_eq!(readings, expected);
        let unknown = Call::parse("thread", &[1]);
        assert_eq!(unknown, Err(BadCall::Unknown("thread".to_string())));
        let why = Call::parse("plan", &[]).expect_err("one is missing");
        assert_eq!(why.to_string(), "`plan` takes 1 arguments, not 0");
    }

    #[test]
    fn arguments_stand_in_their_order() {
        let parse = |name, arguments: &[u64]| Call::parse(name, arguments).expect("a call");
        let carve = Call::CreateBudget {
            parent: 1,
            cpu: 2,
            memory: 3,
            time: 4,
        };
        assert_eq!(parse("create_budget", &[1, 2, 3, 4]), carve);
        let charge = Call::ChargeCpu {
            id: 1,
            ns: 2,
            time: 3,
        };
        assert_eq!(parse("charge_cpu", &[1, 2, 3]), charge);
        let create = Call::Create { kind: 3, payer: 2 };
        assert_eq!(parse("create", &[3, 2, 1]), create);
        let insert = Call::Insert { payer: 2, bytes: 9 };
        assert_eq!(parse("insert", &[3, 2, 9]), insert);
        let thread = Call::CreateUserThread { id: 7, budget: 2 };
        assert_eq!(parse("create_user_thread", &[7, 2, 1]), thread);
    }

    #[test]
    fn clock_values() {
        let clock = |name, arguments: &[u64]| Call::parse(name, arguments).map(Call::clock);
        assert_eq!(clock("create_budget", &[1, 2, 3, 4]), Ok(Some(4)));
        assert_eq!(clock("remove", &[1, 5]), Ok(Some(5)));
        assert_eq!(clock("refill", &[1, 6]), Ok(Some(6)));
        assert_eq!(clock("charge_cpu", &[1, 2, 7]), Ok(Some(7)));
        assert_eq!(clock("tick", &[8]), Ok(Some(8_000_000)));
        assert_eq!(
            clock("plan", &[u64::MAX]),
            Ok(Some(u128::from(u64::MAX) * 1_000_000))
        );
        assert_eq!(clock("block_current", &[5, 9]), Ok(None), "a sleep");
        assert_eq!(clock("open", &[1, 2]), Ok(None));
    }
}
