//! The program's help.

use crate::dayfile::form::{
    FORMS, MOST_EVENTS, MOST_FRAMES, MOST_PERIODS, MOST_PHASES, MOST_SERVICES, NAME_WIDTH,
    TEXT_WIDTH,
};
use carv_picture::SHOWN;
use carv_text::figures::{grouped, wrapped};

/// The whole help.
pub fn help() -> String {
    format!("{}\n{}\n{}", usage(), day_files(), STATUSES)
}

fn usage() -> String {
    format!(
        "\
Runs a day in small of the coin sorter on the port's board. Without --day it is the sorter's own:
counting, reject gate, bag printer, display and upload, each with a share of every 10 ms and a
memory limit, for 3 s of board time in ticks of 1 ms. A day file always gives the same day.

usage: sorter [--svg PATH] [--from MS] [--calls PATH] [--html PATH] [--trace PATH] [--day FILE]
       sorter --print-day [NAME]
       sorter --help

--day FILE    runs the day that this file plans, - for standard input
--print-day   prints the sorter's own day as a file to begin with, or the day of this name: sorter,
              or starving, in which counting doesn't get its share
--svg PATH    where the picture is written, by default sorter.svg in the current folder
--from MS     the picture shows {SHOWN} periods ms by ms, beginning with the one that has this ms,
              by default what the day file says
--calls PATH  also writes the calls that the day makes on the board, as a list for `carv replay`:
              one call a line, its name and numbers as in include/carv.h
--html PATH   also writes a report on the day as one page for browser and paper, with all figures,
              the picture, and a stamp of what the library was proved with
--trace PATH  also writes what ran when as a trace; to see it, drop it on https://ui.perfetto.dev or
              load it in chrome://tracing

What it prints: a diary of the day; a table of what each service got of every 10 ms, on average
and at most, against its share, in how many periods it was held back (it had work and no time
left), and its memory, with all that is carved out of it; a table of how many periods it missed
(it wanted more than it got although it had time), how many it used up, and in how many it wanted
no more, with the first and the worst missed period and its longest wait from ready to run. Then
the most that each budget spent in a period, with all below it, by the calls and their refusals
alone; checks, each answered with yes or NO; and whether the watched service got its share in
every period in which it wanted it.

To try something else:

    sorter --print-day > my.day
    (change in my.day `service counting: 4 ms` to `service counting: 5 ms`)
    sorter --day my.day
"
    )
}

/// A small day, and what it shows.
pub const EXAMPLE: &str = "\
# Counting with 5 ms, a display that never sleeps, and a printer that comes later.
periods 100
service counting: 5 ms, 96 KiB, 10 frames
  work: every 5 ms, 0 to 2 ms
  work from 500 ms: every 5 ms, 2 ms
service display: 1 ms, 112 KiB, 14 frames
  work: always
service bag printer: 2.5 ms, 80 KiB, 6 frames, off
  work: every 90 ms, 3 ms
at 300 ms: on bag printer
at 500 ms: note the rush begins
at 600 ms: ask camera: 2 ms, 64 KiB
expect counting: never missed
";

fn day_files() -> String {
    let mut text = "\
A day file has one thing a line, in any order, but for `work`, which belongs to the service above
it. # begins a comment. An example:

"
    .to_string();
    for line in EXAMPLE.lines() {
        text.push_str(&format!("    {line}\n"));
    }
    text.push_str("\nThe lines: what stands in [ ] may be left out, | is between alternatives.\n");
    for form in FORMS {
        text.push_str(&format!("\n  {}\n", form.form));
        for line in wrapped(form.meaning, WIDTH - 6) {
            text.push_str(&format!("      {line}\n"));
        }
    }
    for paragraph in [RULES.to_string(), limits(), REFUSED.to_string()] {
        let lines = wrapped(&paragraph, WIDTH);
        text.push_str(&format!("\n{}\n", lines.join("\n")));
    }
    text
}

/// Width of the text.
const WIDTH: usize = 97;

const RULES: &str = "\
    Shares may have decimals (2.5 ms), and `of every 10 ms` may stand behind them. Memory is in KiB, \
    MiB or bytes: a service takes 33,792 bytes for its thread, 16,384 for its address space, 128 for \
    its endpoint and 4,096 for each frame. After its start it runs for 1 ms, then as its work comes. \
    How long a job is, is drawn by chance, on each run alike. The day begins at 10 ms, behind the \
    set-up; what happens at one ms happens as the file has it.";

fn limits() -> String {
    let (periods, frames) = (grouped(MOST_PERIODS), grouped(MOST_FRAMES));
    let events = grouped(MOST_EVENTS as u64);
    format!(
        "At most {periods} periods, {MOST_SERVICES} services, {frames} frames and {MOST_PHASES} \
         `work` lines a service, {events} `at` lines, {NAME_WIDTH} characters a name and \
         {TEXT_WIDTH} a note. A name has no `:`, comma or #."
    )
}

const REFUSED: &str = "\
    A service that the board refuses stays off, and the rest of the day goes on without it: diary and \
    table say with which number it was refused, why, and what to do.";

const STATUSES: &str = "\
Exit status: 0 if the day went as planned: every service was switched on when it should be, and all
checks hold; 3 if not: a service was refused, or what the file expects doesn't hold; 1 if another
check doesn't hold, or a file can't be read or written; 2 if called wrongly, or if the day file has
bad lines, which are told; 130 if Ctrl-C ended it before the day was over: then no file is written.
What somebody asks for (`ask`) may be refused without that.
";
