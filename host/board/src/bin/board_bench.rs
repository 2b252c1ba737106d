//! Times the port's board beside the Rust's and prints tables in Markdown.

use carv_board_host::bench::glance::{Glance, is_shown};
use carv_board_host::bench::totals::{self, Row, totals};
use carv_board_host::bench::{HEAD, Line, about, calls, clock, question, registry, threads};
use carv_compare::command::{program, say};
use std::process::ExitCode;

const HELP: &str = "\
Times calls of the port's board beside the Rust's, in nanoseconds, and prints tables in Markdown:
first what is measured and how, then the tables, then the ratios at a glance.

usage: board_bench [PART...] [OBJECTS...]
       board_bench --help

calls     each call on a full board: 512 objects, and 128 threads on the root budget
threads   a tick with the planning behind it, on 16 and on 127 threads, each with a budget of its
          own: all budgets filled, one left that has time, all threads but one asleep, all
          asleep; ids dense and far apart. For 127 threads also tick and planning alone
question  question 1 on a full board: ids dense, with gaps, and against the search
totals    the root's totals beside question 1, on 511 budgets nested in one another, side by side
          and in a random tree; the Rust has no such call
registry  each call on the registry, on boards of OBJECTS objects, numbers from 16 to 512;
          without a number 33, 255 and 512

Without a PART all five are timed, in about half a minute. For instance `board_bench calls` times
each call once, `board_bench registry 100` the registry's calls on 100 objects.

How to read it: every call of the port but open and image first asks question 1 of the whole
state, which the Rust doesn't. `port` is the time with that, `less question 1` the time without
what is_sound takes alone on the same board. A ratio is the port's time over the Rust's: below 1
the port is faster. A time less question 1 is a difference of two long ones. The last table says
only what can be told in spite of that; for more, compare several runs.

How it measures: a short round of the port, one of question 1 and one of the Rust follow each
other many times; the figures are medians of the fastest quarter of these, as what else the
machine does makes times longer and never shorter. Calls that
undo each other are timed in pairs, and the time is half that of the pair. `tick, plan` and
`block_current, wake, plan` have the time of all their calls. create_user_thread, start, wake and
kill are timed alone, 32 at a time, and undone in between. Run it on a machine that does nothing
else: the ratios stand that better than the times.

Exit status: 0 if all went well, 2 if called wrongly.
";

const PARTS: [&str; 5] = ["calls", "threads", "question", "totals", "registry"];
const SIZES: [usize; 3] = [33, 255, 512];

fn main() -> ExitCode {
    program("board_bench", HELP, |arguments| {
        let (parts, sizes): (Vec<&str>, Vec<&str>) =
            arguments.iter().partition(|text| PARTS.contains(text));
        let sizes: Result<Vec<usize>, String> = sizes.into_iter().map(size).collect();
        tables(&or_all(parts, &PARTS), &or_all(sizes?, &SIZES));
        Ok(Ok(()))
    })
}

fn size(text: &str) -> Result<usize, String> {
    let size = text.parse().ok();
    size.filter(|size| (16..=512).contains(size))
        .ok_or_else(|| format!("`{text}` is neither a PART nor a number from 16 to 512"))
}

fn or_all<T: Copy>(chosen: Vec<T>, all: &[T]) -> Vec<T> {
    if chosen.is_empty() {
        all.to_vec()
    } else {
        chosen
    }
}

fn tables(parts: &[&str], sizes: &[usize]) {
    say(format_args!("{}\n", about::about()));
    clock::warm_up();
    let mut lines = Vec::new();
    let mut told = |line: Line| {
        say(&line);
        lines.push(line);
    };
    for part in parts {
        if *part == "totals" {
            totals_beside_question();
            continue;
        }
        say(HEAD);
        match *part {
            "calls" => calls(&mut told),
            "threads" => threads(&mut told),
            "question" => question(&mut told),
            _ => registry(sizes, &mut told),
        }
        say("");
    }
    if lines.iter().any(is_shown) {
        say(Glance(&lines));
    }
}

/// The table of totals, and how far their ratios go.
fn totals_beside_question() {
    say(totals::HEAD);
    let mut most = 0.0;
    totals(|line| {
        say(Row(&line));
        most = line.over_question().unwrap_or_default().max(most);
    });
    say(format_args!(
        "\nThe highest ratio is {most:.2}; at most {} is asked for.\n",
        totals::MOST
    ));
}
