//! The command-line tool `carv`: replays lists of calls on the port's board, prints and checks kept
//! boards. `carv help` says how it is used.

pub mod answer;
pub mod area;
pub mod call;
pub mod check;
pub mod codes;
pub mod dump;
pub mod figures;
pub mod files;
pub mod help;
pub mod kept_names;
pub mod list;
pub mod names;
pub mod options;
pub mod output;
pub mod page;
pub mod picture;
pub mod progress;
pub mod reader;
pub mod report;
pub mod run;
pub mod spent;
pub mod status;
pub mod summary;
pub mod text;
pub mod trace;

pub use carv_text::table;

use carv_text::say;
use options::Command;
use output::Output;
use status::{Failure, Status};
use std::ffi::OsString;

/// Does what these arguments, without the tool's own name, ask for.
pub fn carv(arguments: &[OsString]) -> Status {
    match options::parse(arguments).and_then(|command| run_command(&command)) {
        Ok(status) => status,
        Err(Failure { status, says }) => {
            let end = if says.ends_with('?') { "" } else { "." };
            let hint = match status {
                Status::Usage => " See `carv help`.",
                _ => "",
            };
            say(format_args!("carv: {says}{end}{hint}"));
            status
        }
    }
}

fn run_command(command: &Command) -> Result<Status, Failure> {
    let mut out = Output::new();
    let status = match command {
        Command::Help(topic) => out.text(topic.text()).map(|()| Status::Fine),
        Command::Calls => out.text(help::calls()).map(|()| Status::Fine),
        Command::Dump(kept) => dump::dump(kept, &mut out),
        Command::Check(kept) => check::check(kept, &mut out),
        Command::Replay(options) => run::replay(options, &mut out),
    }?;
    out.flush()?;
    Ok(status)
}
