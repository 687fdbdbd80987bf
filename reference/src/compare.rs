//! The comparison with another program that runs call lists.

use crate::boundary::boundaries;
use crate::generate::{call_list, malformed, PROFILES};
use crate::text::{tasklist, MOST_BYTES};
use std::collections::BTreeSet;
use std::fs;
use std::io::{Read, Write};
use std::path::{Path, PathBuf};
use std::process::{Command, Stdio};
use std::sync::mpsc;
use std::thread;
use std::time::Duration;

/// How many lists are generated unless it is said otherwise.
pub const LISTS: u64 = 3_500;

/// How many lines a generated list has, by what it is hard on.
const LINES: [usize; PROFILES] = [200, 200, 200, 400, 300, 1_500, 200];

/// How many differences are shown; the rest are counted.
const SHOWN: usize = 10;

/// How long the other program may take for one list.
const LONGEST: Duration = Duration::from_secs(20);

/// How the other program answered one input.
struct Ended {
    output: Vec<u8>,
    errors: Vec<u8>,
    /// What is wrong with how it ended, if anything.
    fault: Option<String>,
}

/// Runs the program on one input, given in one or more pieces with a pause between them.
/// Not all of it need be read.
fn run(program: &Path, pieces: &[&[u8]]) -> Result<Ended, String> {
    let mut child = Command::new(program)
        .stdin(Stdio::piped())
        .stdout(Stdio::piped())
        .stderr(Stdio::piped())
        .spawn()
        .map_err(|error| format!("{}: {error}", program.display()))?;
    let (Some(mut input), Some(mut output), Some(mut errors)) =
        (child.stdin.take(), child.stdout.take(), child.stderr.take())
    else {
        return Err("a stream is missing".to_string());
    };
    let (done, ends) = mpsc::channel();
    let errors_done = done.clone();
    thread::scope(|scope| {
        scope.spawn(move || {
            for (number, piece) in pieces.iter().enumerate() {
                if number > 0 {
                    thread::sleep(Duration::from_millis(3));
                }
                if input.write_all(piece).and_then(|()| input.flush()).is_err() {
                    break;
                }
            }
        });
        let output = scope.spawn(move || {
            let mut bytes = Vec::new();
            let _ = output.read_to_end(&mut bytes);
            let _ = done.send(());
            bytes
        });
        let errors = scope.spawn(move || {
            let mut bytes = Vec::new();
            let _ = errors.read_to_end(&mut bytes);
            let _ = errors_done.send(());
            bytes
        });
        let ended = (0..2).all(|_| ends.recv_timeout(LONGEST).is_ok());
        if !ended {
            let _ = child.kill();
        }
        let status = child.wait().map_err(|error| error.to_string())?;
        let fault = match ended {
            false => Some(format!("no end within {} seconds", LONGEST.as_secs())),
            true if !status.success() => Some(status.to_string()),
            true => None,
        };
        Ok(Ended {
            output: output.join().unwrap_or_default(),
            errors: errors.join().unwrap_or_default(),
            fault,
        })
    })
}

/// Whether two lines, each with its byte 10, say the same. The tasks of `ready` may be in
/// any order, each once; ours has each once.
fn same_line(ours: &[u8], theirs: &[u8]) -> bool {
    if ours == theirs {
        return true;
    }
    let tasks = |line: &'_ [u8]| -> Option<Vec<Vec<u8>>> {
        let rest = line.strip_prefix(b"ready ")?.strip_suffix(b"\n")?;
        let mut tasks: Vec<Vec<u8>> = rest.split(|&byte| byte == b' ').map(Vec::from).collect();
        tasks.sort();
        Some(tasks)
    };
    tasks(ours).is_some_and(|ours| Some(ours) == tasks(theirs))
}

/// The first line that differs: its number and both versions, if any differs.
fn first_difference(ours: &[u8], theirs: &[u8]) -> Option<(usize, String, String)> {
    let shown = |line: Option<&[u8]>| match line {
        Some(line) => format!("\"{}\"", line.escape_ascii()),
        None => "nothing".to_string(),
    };
    let mut ours = ours.split_inclusive(|&byte| byte == 10);
    let mut theirs = theirs.split_inclusive(|&byte| byte == 10);
    for number in 1.. {
        match (ours.next(), theirs.next()) {
            (None, None) => break,
            (Some(our), Some(their)) if same_line(our, their) => {}
            (our, their) => return Some((number, shown(our), shown(their))),
        }
    }
    None
}

/// What was compared so far.
struct Comparison<'a> {
    program: &'a Path,
    lists: usize,
    differing: usize,
}

impl Comparison<'_> {
    /// Compares one input, given as one piece or more. Fails only if the program does not run.
    fn input(&mut self, name: &str, pieces: &[&[u8]]) -> Result<(), String> {
        let text = pieces.concat();
        self.lists += 1;
        let ours = tasklist(&text);
        let Ended { output, errors, fault } = run(self.program, pieces)?;
        let what = if let Some(fault) = fault {
            fault
        } else if !errors.is_empty() {
            format!("on standard error: {}", errors.escape_ascii())
        } else if let Some((line, our, their)) = first_difference(ours.as_bytes(), &output) {
            format!("output line {line}: the reference has {our}, the program {their}")
        } else {
            return Ok(());
        };
        self.differs(name, &what, Some(&text));
        Ok(())
    }

    /// Notes a difference, and shows it if it is one of the first.
    fn differs(&mut self, name: &str, what: &str, text: Option<&[u8]>) {
        self.differing += 1;
        if self.differing > SHOWN {
            return;
        }
        println!("{name}: {what}");
        if let Some(text) = text {
            let file = format!("differs-{}-{}.calls", std::process::id(), self.differing);
            let path = std::env::temp_dir().join(file);
            match fs::write(&path, text) {
                Ok(()) => println!("  the input is in {}", path.display()),
                Err(error) => println!("  the input is lost: {}: {error}", path.display()),
            }
        }
    }

    /// Every list of the folder, also against the output beside it.
    fn examples(&mut self, folder: &Path) -> Result<(), String> {
        let said = |error: std::io::Error| format!("{}: {error}", folder.display());
        let mut names = BTreeSet::new();
        for entry in fs::read_dir(folder).map_err(said)? {
            let path = entry.map_err(said)?.path();
            if path.extension().is_some_and(|end| end == "calls" || end == "out") {
                names.insert(path.with_extension(""));
            }
        }
        if names.is_empty() {
            self.differs(&folder.display().to_string(), "no call list is there", None);
        }
        for name in names {
            let [calls, out] = ["calls", "out"].map(|end| with_end(&name, end));
            let [text, wanted] = match [fs::read(&calls), fs::read(&out)] {
                [Ok(text), Ok(wanted)] => [text, wanted],
                [text, _] => {
                    let missing = if text.is_err() { calls } else { out };
                    self.differs(&missing.display().to_string(), "cannot be read", None);
                    continue;
                }
            };
            let ours = tasklist(&text);
            if let Some((line, our, their)) = first_difference(ours.as_bytes(), &wanted) {
                let what = format!("line {line}: the reference has {our}, the file {their}");
                self.differs(&out.display().to_string(), &what, None);
            }
            let name = calls.display().to_string();
            self.input(&name, &[&text])?;
            // Once more, cut within a line.
            let (begin, end) = text.split_at(text.len() / 2 + 1);
            self.input(&format!("{name}, in two pieces"), &[begin, end])?;
        }
        Ok(())
    }

    /// The texts at the reader's boundaries, and malformed ones in longer lists.
    fn texts(&mut self, seeds: u64) -> Result<(), String> {
        for boundary in boundaries() {
            self.input(&boundary.name, &[&boundary.text])?;
        }
        for seed in 0..seeds {
            self.input(&format!("malformed seed {seed}"), &[&malformed(seed).text])?;
        }
        Ok(())
    }

    /// Generated lists, and some that are as long as a list can be.
    fn generated(&mut self, seeds: u64) -> Result<(), String> {
        for seed in 0..seeds {
            let lines = LINES[(seed / 2) as usize % PROFILES];
            let list = call_list(seed, lines);
            self.input(&format!("seed {seed} with {lines} calls"), &[list.as_bytes()])?;
        }
        for seed in seeds..seeds + seeds.div_ceil(25) {
            let list = full_list(seed);
            self.input(&format!("seed {seed}, a full list"), &[list.as_bytes()])?;
        }
        Ok(())
    }
}

/// The file beside others of its name.
fn with_end(name: &Path, end: &str) -> PathBuf {
    let mut file = name.as_os_str().to_owned();
    file.push(".");
    file.push(end);
    PathBuf::from(file)
}

/// As many whole lines of a generated list as a list can have bytes.
fn full_list(seed: u64) -> String {
    let mut list = call_list(seed, 4_000);
    let end = list.bytes().take(MOST_BYTES).rposition(|byte| byte == 10).map_or(0, |at| at + 1);
    list.truncate(end);
    list
}

/// Compares, prints what differs and a last line, and answers whether all was the same.
pub fn compare(program: &str, folder: &str, lists: u64) -> bool {
    let mut comparison = Comparison { program: Path::new(program), lists: 0, differing: 0 };
    let mut all = || {
        comparison.examples(Path::new(folder))?;
        if lists > 0 {
            comparison.texts(lists)?;
            comparison.generated(lists)?;
        }
        Ok::<(), String>(())
    };
    if let Err(error) = all() {
        println!("the comparison ended early: {error}");
        return false;
    }
    let Comparison { lists, differing, .. } = comparison;
    if differing == 0 {
        println!("compared {lists} lists: no difference");
    } else {
        println!("compared {lists} lists: {differing} differences");
    }
    differing == 0
}

#[cfg(test)]
mod tests {
    use super::*;

    #[test]
    fn lines_are_the_same_byte_for_byte_but_for_the_order_of_ready() {
        let same = |ours: &str, theirs: &str| same_line(ours.as_bytes(), theirs.as_bytes());
        assert!(same("ok\n", "ok\n"));
        assert!(same("ready\n", "ready\n"));
        assert!(same("ready 1 2 10\n", "ready 10 2 1\n"));
        for theirs in [
            "ready 1 2 10", "ready 1 2\n", "ready 1 2 10 10\n", "ready 1 1 10\n", "ready  1 2 10\n",
            "ready 1 2 10 \n", "ready 01 2 10\n", "Ready 1 2 10\n", "ready 1 2 11\n", "ready\n",
            "ready 1 2 3 10\n", "ready 12 10\n", "ready 1 2 10\r\n", "value 1 2 10\n",
        ] {
            assert!(!same("ready 1 2 10\n", theirs), "{theirs:?}");
        }
        assert!(!same("ready\n", "ready \n") && !same("value 1 2\n", "value 2 1\n"));
        assert!(!same("ok\n", "ok"));
    }

    #[test]
    fn the_first_difference_is_found() {
        let first = |ours: &str, theirs: &str| first_difference(ours.as_bytes(), theirs.as_bytes());
        let found = |line, our: &str, their: &str| Some((line, our.to_string(), their.to_string()));
        assert_eq!(first("", ""), None);
        assert_eq!(first("ok\nready 1 2\n", "ok\nready 2 1\n"), None);
        assert_eq!(first("ok\n", "ok\nok\n"), found(2, "nothing", "\"ok\\n\""));
        assert_eq!(first("ok\nok\n", "ok\nok"), found(2, "\"ok\\n\"", "\"ok\""));
        assert_eq!(first("ok\nno 9\nok\n", "ok\nok\nno\n"), found(2, "\"no 9\\n\"", "\"ok\\n\""));
    }

    #[test]
    fn full_lists_are_nearly_as_long_as_can_be() {
        for seed in 0..2 * PROFILES as u64 {
            let list = full_list(seed);
            assert!(list.len() <= MOST_BYTES && list.len() > MOST_BYTES - 300, "seed {seed}");
            assert!(!tasklist(list.as_bytes()).contains("line"), "seed {seed}");
        }
    }
}
