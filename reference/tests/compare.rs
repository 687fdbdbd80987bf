//! The comparison finds this program the same as itself, and notices what is spoiled.
#![cfg(unix)]

use std::fs;
use std::os::unix::fs::PermissionsExt;
use std::path::{Path, PathBuf};
use std::process::Command;

const REFERENCE: &str = env!("CARGO_BIN_EXE_reference");
const EXAMPLES: &str = concat!(env!("CARGO_MANIFEST_DIR"), "/../examples");

/// A folder of this test's own, where the inputs that differ are put too.
struct Place(PathBuf);

impl Place {
    fn new(name: &str) -> Place {
        let path = std::env::temp_dir().join(format!("{name}-{}", std::process::id()));
        fs::create_dir_all(&path).unwrap();
        Place(path)
    }

    fn file(&self, name: &str, text: &str) -> PathBuf {
        let path = self.0.join(name);
        fs::create_dir_all(path.parent().unwrap()).unwrap();
        fs::write(&path, text).unwrap();
        path
    }

    /// What the comparison prints, and whether it found no difference.
    fn compare(&self, program: &Path, folder: &Path, lists: &str) -> (String, bool) {
        let [program, folder] = [program, folder].map(|path| path.to_str().unwrap());
        let mut command = Command::new(REFERENCE);
        command.args(["compare", program, folder, lists]).env("TMPDIR", &self.0);
        let ended = command.output().unwrap();
        assert!(ended.stderr.is_empty());
        assert!(matches!(ended.status.code(), Some(0 | 1)));
        (String::from_utf8(ended.stdout).unwrap(), ended.status.success())
    }

    /// Compares a shell script, in which `reference` is this program, by the examples alone.
    fn script(&self, script: &str) -> (String, bool) {
        let script = format!("#!/bin/sh\nreference() {{ '{REFERENCE}'; }}\n{script}\n");
        let path = self.file("script", &script);
        fs::set_permissions(&path, fs::Permissions::from_mode(0o755)).unwrap();
        self.compare(&path, Path::new(EXAMPLES), "0")
    }
}

impl Drop for Place {
    fn drop(&mut self) {
        let _ = fs::remove_dir_all(&self.0);
    }
}

#[test]
fn the_same_as_itself() {
    let place = Place::new("compare-itself");
    let (printed, same) = place.compare(Path::new(REFERENCE), Path::new(EXAMPLES), "28");
    assert!(same, "{printed}");
    assert!(printed.starts_with("compared ") && printed.ends_with(" lists: no difference\n"));
    assert_eq!(printed.lines().count(), 1);
}

#[test]
fn what_is_spoiled_is_noticed() {
    let place = Place::new("compare-spoiled");
    // Another order of the tasks that are ready is none.
    let reversed = "reference | awk '$1 == \"ready\" \
        { l = $1; for (i = NF; i > 1; i--) l = l \" \" $i; $0 = l } { print }'";
    let (printed, same) = place.script(reversed);
    assert!(same, "{printed}");
    for (script, told) in [
        ("reference | sed 's/^no 16$/no 15/'", "the reference has \"no 16\\n\", the program \"no 15\\n\""),
        ("reference | sed 's/^ready 1 2$/ready 1 2 2/'", "the program \"ready 1 2 2\\n\""),
        ("reference | sed 's/^ready 4$/ready/'", "the program \"ready\\n\""),
        ("reference | sed '$d'", "the program nothing"),
        ("reference; echo ok", "the reference has nothing, the program \"ok\\n\""),
        ("text=$(reference); printf %s \"$text\"", "the program \"value 7\""),
        ("reference; exit 3", "exit status: 3"),
        ("reference; kill -9 $$", "signal: 9"),
        ("reference; echo oh >&2", "on standard error: oh"),
        ("true", "the program nothing"),
    ] {
        let (printed, same) = place.script(script);
        assert!(!same && printed.contains(told), "{script}: {printed}");
        assert!(printed.contains(".calls") && printed.ends_with(" differences\n"), "{printed}");
    }
    // The input that differs is kept.
    let (printed, _) = place.script("reference | sed 's/^no 16$/no 15/'");
    let kept = printed.lines().nth(1).unwrap().strip_prefix("  the input is in ").unwrap();
    let name = printed.split(": ").next().unwrap().split(',').next().unwrap();
    assert_eq!(fs::read(kept).unwrap(), fs::read(name).unwrap());
}

#[test]
fn what_is_missing_is_noticed() {
    let place = Place::new("compare-missing");
    let none = place.0.join("none");
    let (printed, same) = place.compare(&none, Path::new(EXAMPLES), "0");
    assert!(!same && printed.contains("ended early"), "{printed}");
    let program = Path::new(REFERENCE);
    let (printed, same) = place.compare(program, &none, "0");
    assert!(!same && printed.contains("ended early"), "{printed}");
    for (files, told) in [
        (&[("README.md", "")][..], "no call list"),
        (&[("a.calls", "count 1\nq\n")], "a.out: cannot be read"),
        (&[("a.out", "ready\n")], "a.calls: cannot be read"),
        (&[("a.calls", "count 1\nq\n"), ("a.out", "ready 1\n")], "the file \"ready 1\\n\""),
        (&[("a.calls", "count 1\nq\n"), ("a.out", "ready\n"), ("a.b.out", "")], "a.b.calls"),
    ] {
        let folder = place.0.join("folder");
        fs::create_dir_all(&folder).unwrap();
        for (name, text) in files {
            place.file(&format!("folder/{name}"), text);
        }
        let (printed, same) = place.compare(program, &folder, "0");
        assert!(!same && printed.contains(told), "{printed}");
        fs::remove_dir_all(folder).unwrap();
    }
    place.file("folder/a.calls", "count 1\nq\n");
    place.file("folder/a.out", "ready\n");
    let (printed, same) = place.compare(program, &place.0.join("folder"), "0");
    assert!(same && printed == "compared 2 lists: no difference\n", "{printed}");
}
