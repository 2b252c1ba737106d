//! The lines of a day file: their words, forms and meanings.

use carv_text::line::BadLine;

/// A kind of line.
#[derive(Debug)]
pub struct Form {
    /// The word that it begins with.
    pub word: &'static str,
    /// How it is written: what stands in brackets may be left out, `|` is between alternatives.
    pub form: &'static str,
    /// What it says.
    pub meaning: &'static str,
}

impl Form {
    /// A bad line of this form.
    pub fn bad(&self, why: impl Into<String>) -> BadLine {
        BadLine {
            why: why.into(),
            form: Some(self.form.to_string()),
        }
    }
}

/// A service.
pub const SERVICE: Form = Form {
    word: "service",
    form: "service NAME: SHARE ms, MEMORY KiB[, NUMBER frames][, off]",
    meaning: "a service with its share of every 10 ms and its memory limit; off: it begins \
              switched off",
};

/// Work of the service above.
pub const WORK: Form = Form {
    word: "work",
    form: "work[ from TIME ms]: every TIME ms, LEAST[ to MOST] ms | always | none",
    meaning: "work of the service above, from a time on: every so many ms a job of so many ms; or \
              always, it never sleeps; or none",
};

/// Something that happens.
pub const AT: Form = Form {
    word: "at",
    form: "at TIME ms: on NAME | off NAME | ask NAME: SHARE ms, MEMORY KiB | note TEXT",
    meaning: "what happens at a time: a service is switched on or off; somebody asks for a \
              budget, and keeps it; something is noted",
};

/// The board.
pub const BOARD: Form = Form {
    word: "board",
    form: "board SHARE ms, MEMORY KiB",
    meaning: "what there is to share out, at most 10 ms; without it 10 ms, 512 KiB",
};

/// The day's length.
pub const PERIODS: Form = Form {
    word: "periods",
    form: "periods NUMBER",
    meaning: "how many periods of 10 ms the day has, from 10 ms on; without it 300",
};

/// What the picture shows.
pub const SHOW: Form = Form {
    word: "show",
    form: "show from TIME ms",
    meaning: "where the ten periods begin that the picture shows ms by ms",
};

/// What stands above it all.
pub const TITLE: Form = Form {
    word: "title",
    form: "title TEXT",
    meaning: "what stands above the report and the picture",
};

/// Thread 0.
pub const THREAD: Form = Form {
    word: "thread",
    form: "thread 0 never sleeps",
    meaning: "thread 0, which has no share, goes on running behind the set-up; without this line \
              it sleeps",
};

/// What the closing line is about.
pub const WATCH: Form = Form {
    word: "watch",
    form: "watch NAME",
    meaning: "the service that the closing line is about; without it the first",
};

/// What is expected.
pub const EXPECT: Form = Form {
    word: "expect",
    form: "expect NAME: never missed | never held back",
    meaning: "adds a check: the service is on at some time, and gets its share in every period in which \
              it wants it; or never wants more than its share",
};

/// All of them, the most used first.
pub const FORMS: [&Form; 10] = [
    &SERVICE, &WORK, &AT, &BOARD, &PERIODS, &SHOW, &TITLE, &THREAD, &WATCH, &EXPECT,
];

/// The most periods of a day.
pub const MOST_PERIODS: u64 = 10_000;
/// The most services. A board has threads for 126 of them.
pub const MOST_SERVICES: usize = 200;
/// The most frames of a service. A board has 512 objects in all.
pub const MOST_FRAMES: u64 = 1_000;
/// The most `work` lines of a service.
pub const MOST_PHASES: usize = 100;
/// The most events.
pub const MOST_EVENTS: usize = 1_000;
/// The longest time from one job to the next, and the longest job, in ms.
pub const MOST_MS: u64 = 1_000_000;
/// The most characters of a name.
pub const NAME_WIDTH: usize = 40;
/// The most characters of a note or title.
pub const TEXT_WIDTH: usize = 200;
