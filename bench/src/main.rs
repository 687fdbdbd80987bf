//! How long one task's life takes: in the proved engine, in the second implementation and under libgomp
//! (docs/PERFORMANCE.md).

#[allow(dead_code)]
#[path = "../../reference/src/engine.rs"]
mod engine;
mod flat;
#[allow(dead_code)]
#[path = "../../reference/src/kinds.rs"]
mod kinds;
mod sides;
#[allow(dead_code)]
#[path = "../../reference/src/stores.rs"]
mod stores;
#[allow(dead_code)]
#[path = "../../reference/src/tasks.rs"]
mod tasks;

use sides::{openmp, proved, reference, Setting, MOST_TASKS};
use std::time::Duration;

const CELLS: [u16; 2] = [16, 65_535];
const ALIVE: [u16; 3] = [1, 8, 63];

/// The least of so many measurements, in nanoseconds.
fn least(repeats: u32, mut measure: impl FnMut() -> Duration) -> f64 {
    (0..repeats).map(|_| measure().as_nanos()).min().unwrap_or(0) as f64
}

/// Nanoseconds for a life in the proved engine: engines with their lives, less the same engines without. The two are
/// measured in turn, so that a busy machine slows both.
fn proved_life(setting: Setting, lives: u16) -> f64 {
    const REPEATS: u32 = 80;
    let engines = if lives == 1 { 5_000 } else { 1_000 };
    let (mut with, mut without) = (f64::MAX, f64::MAX);
    for _ in 0..REPEATS {
        with = with.min(least(1, || proved::whole(setting, lives, engines)));
        without = without.min(least(1, || proved::whole(setting, 0, engines)));
    }
    (with - without) / (f64::from(lives) * f64::from(engines))
}

/// Nanoseconds for a life in the reference, on engines that are made before the clock starts.
fn reference_life(setting: Setting, lives: u16) -> f64 {
    let (repeats, engines) = if setting.cells > 1_000 { (10, 2) } else { (60, 200) };
    least(repeats, || reference::lives(setting, lives, engines)) / (f64::from(lives) * f64::from(engines))
}

/// Nanoseconds for a life under libgomp, beside tasks that are created before the clock starts.
fn openmp_life(setting: Setting) -> f64 {
    const LIVES: u64 = 10_000;
    least(100, || openmp::lives(setting, LIVES)) / LIVES as f64
}

fn main() {
    println!("{}", machine());
    println!("One life (create, start, update, finish) in ns, the least of many measurements.");
    println!("alive: the unfinished tasks beside it, task 0 included.");
    println!();
    println!("The first life on an engine:");
    print_row(&["cells", "alive", "proved", "reference", "libgomp", "reference/proved", "libgomp/proved"]);
    for setting in settings() {
        let proved = proved_life(setting, 1);
        let reference = reference_life(setting, 1);
        let openmp = openmp_life(setting);
        print_row(&[
            &setting.cells.to_string(),
            &setting.alive.to_string(),
            &format!("{proved:.0}"),
            &format!("{reference:.0}"),
            &format!("{openmp:.0}"),
            &format!("{:.1}", reference / proved),
            &format!("{:.2}", openmp / proved),
        ]);
    }
    println!();
    println!("The mean of all lives until the engine has its {MOST_TASKS} tasks:");
    print_row(&["cells", "alive", "lives", "proved", "reference", "reference/proved"]);
    for setting in settings() {
        let lives = MOST_TASKS - setting.alive;
        let proved = proved_life(setting, lives);
        let reference = reference_life(setting, lives);
        print_row(&[
            &setting.cells.to_string(),
            &setting.alive.to_string(),
            &lives.to_string(),
            &format!("{proved:.0}"),
            &format!("{reference:.0}"),
            &format!("{:.1}", reference / proved),
        ]);
    }
}

fn settings() -> impl Iterator<Item = Setting> {
    CELLS.into_iter().flat_map(|cells| ALIVE.into_iter().map(move |alive| Setting { cells, alive }))
}

fn print_row(columns: &[&str]) {
    let columns: Vec<String> = columns.iter().map(|column| format!("{column:>16}")).collect();
    println!("{}", columns.join(" "));
}

/// The processor's name, and how many there are.
fn machine() -> String {
    let info = std::fs::read_to_string("/proc/cpuinfo").unwrap_or_default();
    let model = info.lines().find_map(|line| line.strip_prefix("model name")?.split_once(": "));
    let name = model.map_or("unknown processor", |(_, name)| name);
    let count = std::thread::available_parallelism().map_or(1, usize::from);
    format!("{name}, {count} processors")
}
