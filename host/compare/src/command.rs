//! What the programs share: the command line, and records written out.

use carv_text::say as say_on_error;
use std::fmt::Display;
use std::io::{self, BufWriter, Write};
use std::process::{self, ExitCode};

/// How a program was called wrongly, or else what went wrong with it.
pub type Done = Result<Result<(), String>, String>;

/// Runs a program called `name` on the arguments of its command line, as [`run`] does.
pub fn program(name: &str, help: &str, work: impl FnOnce(&[&str]) -> Done) -> ExitCode {
    let arguments: Vec<String> = std::env::args().skip(1).collect();
    let arguments: Vec<&str> = arguments.iter().map(String::as_str).collect();
    run(name, help, &arguments, work)
}

/// Runs a program, or a command of one, on its arguments: prints its help if they ask for it.
///
/// The exit status is 0 if all went well, 1 if not, 2 if called wrongly.
pub fn run(
    name: &str,
    help: &str,
    arguments: &[&str],
    work: impl FnOnce(&[&str]) -> Done,
) -> ExitCode {
    if let ["--help" | "-h"] = arguments {
        // Help that isn't read to its end is no failure.
        let _ = write!(io::stdout(), "{help}");
        return ExitCode::SUCCESS;
    }
    let (why, status) = match work(arguments) {
        Ok(Ok(())) => return ExitCode::SUCCESS,
        Ok(Err(why)) => (why, 1),
        Err(why) => (format!("{why}; see {name} --help"), 2),
    };
    say_on_error(format_args!("{name}: {why}"));
    ExitCode::from(status)
}

/// Runs a program that writes records, of which `about` says in its help what they are.
pub fn record_program<const BYTES: usize, R: Iterator<Item = [u8; BYTES]>>(
    name: &str,
    about: &str,
    records: impl FnOnce(u64) -> R,
) -> ExitCode {
    let words = BYTES / 8;
    let help = format!(
        "\
{about}

usage: {name} write COUNT SEED
       {name} --help

write  writes COUNT records of {words} little-endian 64-bit words to standard output

COUNT and SEED are numbers below 2^64; a seed fixes the records.
Exit status: 0 if all went well, 1 if not, 2 if called wrongly.
"
    );
    program(name, &help, |arguments| {
        let ["write", count, seed] = arguments else {
            return Err("expected `write COUNT SEED`".to_string());
        };
        let (count, seed) = numbers(count, seed)?;
        Ok(write_out(records(seed), count))
    })
}

/// Writes the first `count` of records without end to standard output.
///
/// # Errors
/// A sentence that says what went wrong.
pub fn write_out<const BYTES: usize>(
    records: impl Iterator<Item = [u8; BYTES]>,
    count: u64,
) -> Result<(), String> {
    let mut to = BufWriter::new(io::stdout().lock());
    write_records(&mut to, records, count).map_err(|why| format!("can't write the records: {why}"))
}

/// Prints a line to standard output. The program ends if that isn't read any more (status 0), or
/// can't be written (status 1).
pub fn say(line: impl Display) {
    if let Err(why) = writeln!(io::stdout(), "{line}") {
        if why.kind() == io::ErrorKind::BrokenPipe {
            process::exit(0);
        }
        say_on_error(format_args!("standard output can't be written: {why}"));
        process::exit(1);
    }
}

/// A number on the command line.
///
/// # Errors
/// A sentence that says what is wrong.
pub fn number(name: &str, text: &str) -> Result<u64, String> {
    text.parse()
        .map_err(|_| format!("{name} must be a number below 2^64, not `{text}`"))
}

/// COUNT and SEED on the command line.
///
/// # Errors
/// A sentence that says what is wrong.
pub fn numbers(count: &str, seed: &str) -> Result<(u64, u64), String> {
    Ok((number("COUNT", count)?, number("SEED", seed)?))
}

/// Writes the first `count` of records without end.
///
/// # Errors
/// Whatever goes wrong with the writing.
pub fn write_records<const BYTES: usize>(
    to: &mut impl Write,
    records: impl Iterator<Item = [u8; BYTES]>,
    mut count: u64,
) -> io::Result<()> {
    for record in records {
        if count == 0 {
            break;
        }
        to.write_all(&record)?;
        count -= 1;
    }
    to.flush()
}

/// Words as bytes, each with its least byte first.
pub fn little_endian<const BYTES: usize>(words: &[u64]) -> [u8; BYTES] {
    let mut bytes = [0; BYTES];
    for (place, word) in bytes.chunks_exact_mut(8).zip(words) {
        place.copy_from_slice(&word.to_le_bytes());
    }
    bytes
}

#[cfg(test)]
mod tests {
    use super::*;

    #[test]
    fn exit_statuses() {
        let status = |arguments: &[&str], done: Done| {
            let code = run("name", "help\n", arguments, |_| done);
            format!("{code:?}")
        };
        let expected = |status: u8| format!("{:?}", ExitCode::from(status));
        let why = || "what went wrong".to_string();
        assert_eq!(status(&[], Ok(Ok(()))), expected(0));
        assert_eq!(status(&[], Ok(Err(why()))), expected(1));
        assert_eq!(status(&[], Err(why())), expected(2));
        assert_eq!(status(&["--help"], Err(why())), expected(0));
        assert_eq!(status(&["--help", "more"], Err(why())), expected(2));
    }
}
