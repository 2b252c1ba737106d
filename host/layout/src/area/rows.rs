//! The rows of objects and threads.

macro_rules! fields {
    ($(#[$doc:meta])* $name:ident: $($field:ident $text:literal),*) => {
        $(#[$doc])*
        #[derive(Clone, Copy, Debug, PartialEq, Eq)]
        #[expect(missing_docs, reason = "the names say what stands there")]
        pub enum $name {
            $($field),*
        }

        impl $name {
            /// All fields in their order.
            pub const ALL: [Self; [$(Self::$field),*].len()] = [$(Self::$field),*];

            /// Its name in words.
            pub const fn text(self) -> &'static str {
                match self {
                    $(Self::$field => $text),*
                }
            }
        }
    };
}

fields! {
    /// The words of an object's row, in their order. The last seven are a budget's account; of
    /// other objects they are 0.
    ObjectField:
    Id "id", Kind "kind", Payer "payer", Charge "charge", CpuAllowance "CPU allowance",
    MemoryLimit "memory limit", PeriodStart "period start", CpuLeft "CPU left",
    CpuReserved "CPU reserved", MemoryUsed "memory used", MemoryReserved "memory reserved"
}

fields! {
    /// The words of a thread's row, in their order. What isn't there is 0.
    ThreadField:
    Id "id", State "state", WaitKind "kind of the wait", WaitNumber "number of the wait",
    HasBudget "whether there is a budget", Budget "budget", HasSpace "whether there is a space",
    Space "space", Cspace "cspace", Root "root", Rip "rip", Rsp "rsp", Rflags "rflags",
    Rdi "rdi", Rsi "rsi", Cs "cs", Ss "ss", Result0 "result 0", Result1 "result 1",
    Result2 "result 2", RunTicks "run ticks"
}

/// The figures of a budget, in the order of their words.
#[derive(Clone, Copy, Debug, Default, PartialEq, Eq)]
pub struct Account {
    /// CPU time in each period, in nanoseconds.
    pub cpu_allowance: u64,
    /// Memory that may be used and reserved, in bytes.
    pub memory_limit: u64,
    /// Start of the current period, in nanoseconds.
    pub period_start: u64,
    /// CPU time left in the current period.
    pub cpu_left: u64,
    /// CPU time reserved for children.
    pub cpu_reserved: u64,
    /// Memory in use.
    pub memory_used: u64,
    /// Memory reserved for children.
    pub memory_reserved: u64,
}

impl Account {
    /// The figures as words.
    pub const fn words(self) -> [u64; 7] {
        [
            self.cpu_allowance,
            self.memory_limit,
            self.period_start,
            self.cpu_left,
            self.cpu_reserved,
            self.memory_used,
            self.memory_reserved,
        ]
    }

    /// Memory that may still be used or reserved.
    pub const fn memory_free(&self) -> u64 {
        let free = self.memory_limit.saturating_sub(self.memory_used);
        free.saturating_sub(self.memory_reserved)
    }
}

/// An entry of the exit log.
#[derive(Clone, Copy, Debug, Default, PartialEq, Eq)]
pub struct Exit {
    /// The thread that ended.
    pub thread: u64,
    /// 1 Destroyed, 2 Faulted.
    pub cause: u64,
}

/// An object's row.
#[derive(Clone, Copy, Debug, Default, PartialEq, Eq)]
pub struct ObjectRow {
    /// The object's id.
    pub id: u64,
    /// Its kind, 1 to 9.
    pub kind: u64,
    /// The budget that pays.
    pub payer: u64,
    /// The bytes it pays.
    pub charge: u64,
    /// A budget's figures.
    pub account: Account,
}

impl ObjectRow {
    /// The words of the row.
    pub fn words(&self) -> [u64; 11] {
        let mut words = [0; 11];
        words[..4].copy_from_slice(&[self.id, self.kind, self.payer, self.charge]);
        words[4..].copy_from_slice(&self.account.words());
        words
    }

    /// The row with these words.
    pub fn from_words([id, kind, payer, charge, account @ ..]: [u64; 11]) -> Self {
        let [
            cpu_allowance,
            memory_limit,
            period_start,
            cpu_left,
            cpu_reserved,
            memory_used,
            memory_reserved,
        ] = account;
        Self {
            id,
            kind,
            payer,
            charge,
            account: Account {
                cpu_allowance,
                memory_limit,
                period_start,
                cpu_left,
                cpu_reserved,
                memory_used,
                memory_reserved,
            },
        }
    }
}

/// A thread's row.
#[derive(Clone, Copy, Debug, Default, PartialEq, Eq)]
pub struct ThreadRow {
    /// The thread's id.
    pub id: u64,
    /// 1 Inactive, 2 Ready, 3 Running, 4 Blocked, 5 Dead.
    pub state: u64,
    /// Kind and number of its wait.
    pub wait: [u64; 2],
    /// 1 if it has a budget, and its id.
    pub budget: [u64; 2],
    /// 1 if it has a space; space, cspace, root.
    pub space: [u64; 4],
    /// rip, rsp, rflags, rdi, rsi, cs, ss.
    pub context: [u64; 7],
    /// The results of its last wait.
    pub results: [u64; 3],
    /// Ticks that it was current at.
    pub run_ticks: u64,
}

impl ThreadRow {
    /// The words of the row.
    pub fn words(&self) -> [u64; 21] {
        let mut words = [0; 21];
        words[..2].copy_from_slice(&[self.id, self.state]);
        words[2..4].copy_from_slice(&self.wait);
        words[4..6].copy_from_slice(&self.budget);
        words[6..10].copy_from_slice(&self.space);
        words[10..17].copy_from_slice(&self.context);
        words[17..20].copy_from_slice(&self.results);
        words[20] = self.run_ticks;
        words
    }

    /// The row with these words.
    pub fn from_words(words: [u64; 21]) -> Self {
        fn part<const COUNT: usize>(words: &[u64; 21], from: usize) -> [u64; COUNT] {
            std::array::from_fn(|place| words[from + place])
        }
        Self {
            id: words[0],
            state: words[1],
            wait: part(&words, 2),
            budget: part(&words, 4),
            space: part(&words, 6),
            context: part(&words, 10),
            results: part(&words, 17),
            run_ticks: words[20],
        }
    }
}

#[cfg(test)]
mod tests {
    use super::*;

    #[test]
    fn fields_and_words() {
        assert_eq!(ObjectField::MemoryReserved as usize, 10);
        assert_eq!(ThreadField::RunTicks as usize, 20);
        let words = std::array::from_fn(|word| word as u64);
        assert_eq!(ObjectRow::from_words(words).words(), words);
        let words = std::array::from_fn(|word| word as u64);
        let row = ThreadRow::from_words(words);
        assert_eq!(row.words(), words);
        assert_eq!(row.space[3], ThreadField::Root as u64);
    }
}
