//! Runs the port's program on records and reads its verdict.

use std::io::{self, BufRead, BufReader, BufWriter, Write};
use std::process::{ChildStdin, Command, Stdio};
use std::thread;

/// Starts `program`, lets `feed` write its standard input, passes its standard output through,
/// and checks that it ends well with a last line `COUNT calls, 0 differences`.
///
/// # Errors
/// A sentence that says what went wrong.
pub fn run<F>(program: &str, count: u64, feed: F) -> Result<(), String>
where
    F: FnOnce(&mut BufWriter<ChildStdin>) -> io::Result<()> + Send + 'static,
{
    let mut child = Command::new(program)
        .stdin(Stdio::piped())
        .stdout(Stdio::piped())
        .spawn()
        .map_err(|why| format!("can't start {program}: {why}"))?;
    let input = child.stdin.take().expect("standard input is piped");
    let output = child.stdout.take().expect("standard output is piped");

    let feeder = thread::spawn(move || {
        let mut input = BufWriter::new(input);
        feed(&mut input)?;
        input.flush()
    });
    let passed = pass_through(BufReader::new(output), io::stdout().lock());
    let fed = feeder.join().expect("the feeder doesn't panic");
    let status = child
        .wait()
        .map_err(|why| format!("can't wait for {program}: {why}"))?;

    let last = passed.map_err(|why| format!("can't pass the output of {program} on: {why}"))?;
    fed.map_err(|why| format!("{program} did not read all records: {why}"))?;
    if !status.success() {
        return Err(format!("{program} ended with {status}"));
    }
    agrees(&last, count)
}

/// Copies lines and gives back the last one that isn't blank.
fn pass_through(mut from: impl BufRead, mut to: impl Write) -> io::Result<String> {
    let mut last = Vec::new();
    let mut line = Vec::new();
    while from.read_until(b'\n', &mut line)? > 0 {
        to.write_all(&line)?;
        if !line.trim_ascii().is_empty() {
            std::mem::swap(&mut last, &mut line);
        }
        line.clear();
    }
    to.flush()?;
    Ok(String::from_utf8_lossy(&last).trim().to_string())
}

/// Whether the program's last line tells of `count` calls and no difference.
fn agrees(last: &str, count: u64) -> Result<(), String> {
    let calls = number_before(last, "calls");
    let differences = number_before(last, "differences");
    match (calls, differences) {
        (Some(calls), _) if calls != count => {
            Err(format!("the program tells of {calls} calls, not {count}"))
        }
        (Some(_), Some(0)) => Ok(()),
        (Some(_), Some(differences)) => Err(format!("{differences} differences")),
        _ => {
            let start: String = last.chars().take(80).collect();
            Err(format!(
                "the program's last line must read `{count} calls, 0 differences`, not {start:?}"
            ))
        }
    }
}

/// The number that stands right before `word`.
fn number_before(line: &str, word: &str) -> Option<u64> {
    let words: Vec<&str> = line
        .split(|c: char| !c.is_ascii_alphanumeric())
        .filter(|word| !word.is_empty())
        .collect();
    let place = words.iter().position(|found| *found == word)?;
    words[place.checked_sub(1)?].parse().ok()
}

#[cfg(test)]
mod tests {
    use super::{agrees, pass_through};

    #[test]
    fn verdicts() {
        assert_eq!(agrees("12 calls, 0 differences", 12), Ok(()));
        assert!(agrees("12 calls, 0 differences", 13).is_err());
        assert!(agrees("12 calls, 10 differences", 12).is_err());
        assert!(agrees("0 differences", 12).is_err());
        assert!(agrees("calls, differences", 12).is_err());
        assert!(agrees("", 0).is_err());
    }

    #[test]
    fn last_line() {
        let mut copy = Vec::new();
        let last = pass_through(&b"first\n\nlast\n \n"[..], &mut copy);
        assert_eq!(last.unwrap(), "last");
        assert_eq!(copy, b"first\n\nlast\n \n");
        assert_eq!(pass_through(&b""[..], Vec::new()).unwrap(), "");
    }
}
