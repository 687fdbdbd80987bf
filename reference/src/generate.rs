//! Generators of call lists: hard ones that read well, and texts with one malformed thing.
//! Both go by docs/RULES.md.
//!
//! The first kind runs its own lines on an engine as it writes them, so that it knows
//! which tasks and holdings there are and can aim at calls that are just accepted or just
//! refused.

use crate::engine::Engine;
use crate::kinds::{fits, Hold, Kind, Step};
use crate::stores::{pile, Count, Element, Pile, Span};
use crate::tasks::{State, MOST_TASKS};
use crate::text::{read_call, MOST_BYTES};

/// Random numbers from a seed (a counter, well mixed).
struct Random(u64);

impl Random {
    fn new(seed: u64) -> Random {
        Random(seed)
    }

    fn next(&mut self) -> u64 {
        self.0 = self.0.wrapping_add(0x9e37_79b9_7f4a_7c15);
        let mut z = self.0;
        z = (z ^ (z >> 30)).wrapping_mul(0xbf58_476d_1ce4_e5b9);
        z = (z ^ (z >> 27)).wrapping_mul(0x94d0_49bb_1331_11eb);
        z ^ (z >> 31)
    }

    /// A number below `bound`, which must not be 0.
    fn below(&mut self, bound: usize) -> usize {
        (self.next() % bound as u64) as usize
    }

    /// True `part` times of 100.
    fn percent(&mut self, part: usize) -> bool {
        self.below(100) < part
    }

    fn pick<T: Copy>(&mut self, from: &[T]) -> T {
        from[self.below(from.len())]
    }

    /// A letter of the table by its weight.
    fn letter(&mut self, weights: &Weights) -> char {
        let sum: usize = weights.iter().map(|(_, weight)| weight).sum();
        let mut left = self.below(sum);
        for &(letter, weight) in weights {
            if left < weight {
                return letter;
            }
            left -= weight;
        }
        'q'
    }
}

type Weights = [(char, usize); 11];

/// What a list is hard on.
struct Profile {
    /// The least and the most cells.
    cells: (usize, usize),
    weights: Weights,
    /// The codes that a create most often names.
    codes: &'static [usize],
    /// How many calls of 100 are drawn without any aim.
    wild: usize,
    /// How often, of 100, the parent of a create is the newest running task.
    deep: usize,
    /// Regions have at most this many cells, most often.
    widest: usize,
    /// How many calls of 100 are drawn again, a few times, while they would be refused.
    tame: usize,
    /// How often, of 100, a release is one of task 0.
    root: usize,
    /// How often, of 100, a number of a value is at an edge.
    edge: usize,
    /// Whether the first creates give many short runs, and releases cut them further.
    comb: bool,
}

/// A profile's weights, in the order of the letters of the table.
fn weights(of: [usize; 11]) -> Weights {
    let letters = ['n', 's', 'f', 'w', 'c', 'r', 'g', 'p', 'u', 'l', 'q'];
    std::array::from_fn(|i| (letters[i], of[i]))
}

pub const PROFILES: usize = 7;

fn profile(number: usize) -> Profile {
    let plain = Profile {
        cells: (1, 8),
        weights: weights([20, 18, 10, 3, 4, 6, 10, 10, 10, 3, 6]),
        codes: &[1, 2, 3, 3, 4, 5, 6, 7, 8, 8],
        wild: 8,
        deep: 30,
        widest: 3,
        tame: 60,
        root: 2,
        edge: 30,
        comb: false,
    };
    match number {
        // Everything a little.
        0 => plain,
        // Deep nesting, with waits.
        1 => Profile {
            weights: weights([24, 22, 14, 6, 8, 5, 6, 6, 6, 2, 6]),
            codes: &[3, 8, 8, 8, 6, 7, 1, 2],
            deep: 75,
            ..plain
        },
        // Updates: concurrent and commutative on few cells.
        2 => Profile {
            cells: (1, 4),
            weights: weights([22, 22, 12, 4, 5, 8, 5, 4, 18, 2, 8]),
            codes: &[5, 5, 5, 5, 5, 5, 5, 5, 5, 4, 4, 8],
            deep: 5,
            tame: 35,
            ..plain
        },
        // Runs: many cells and small releases.
        3 => Profile {
            cells: (100, 200),
            weights: weights([10, 10, 4, 1, 2, 40, 5, 5, 5, 1, 3]),
            wild: 4,
            widest: 6,
            root: 25,
            comb: true,
            ..plain
        },
        // Records: many writes of different cells.
        4 => Profile {
            cells: (2, 5),
            weights: weights([6, 8, 6, 2, 3, 1, 12, 36, 26, 8, 3]),
            codes: &[3, 2, 4, 8],
            wild: 5,
            ..plain
        },
        // Allowance: many writes, often of one cell only.
        5 => Profile {
            cells: (1, 2),
            weights: weights([1, 4, 4, 0, 1, 0, 3, 60, 40, 3, 1]),
            codes: &[3, 2, 4],
            wild: 2,
            tame: 90,
            edge: 2,
            ..plain
        },
        // Wild: little aim, the largest sizes.
        _ => Profile { cells: (1, 256), wild: 45, widest: 256, tame: 20, ..plain },
    }
}

/// A call list with so many call lines: counts for an even seed, spans for an odd one.
pub fn call_list(seed: u64, count: usize) -> String {
    match seed % 2 {
        0 => Author::<Count>::new(seed, "count").write(count),
        _ => Author::<Span>::new(seed, "span").write(count),
    }
}

/// The writer of one list, with the engine that its lines were run on so far.
struct Author<V> {
    random: Random,
    profile: Profile,
    name: &'static str,
    cells: usize,
    engine: Engine<Pile<V>>,
}

impl<V: Element> Author<V> {
    fn new(seed: u64, name: &'static str) -> Author<V> {
        let mut random = Random::new(seed);
        let profile = profile((seed / 2) as usize % PROFILES);
        let (least, most) = profile.cells;
        let cells = least + random.below(most - least + 1);
        Author { random, profile, name, cells, engine: Engine::new(pile(cells)) }
    }

    fn write(mut self, count: usize) -> String {
        let mut list = format!("{} {}\n", self.name, self.cells);
        for written in 0..count {
            // Task 0 may end only late: not much is accepted after that.
            let late = written * 10 >= count * 9;
            let line = self.line(late);
            if let Ok(call) = read_call::<V>(line.as_bytes()) {
                self.engine.perform(&call);
            }
            list += &line;
            list.push('\n');
        }
        list
    }

    /// One line. A letter is drawn once, its numbers several times if the list is tame.
    fn line(&mut self, late: bool) -> String {
        let mut letter = self.random.letter(&self.profile.weights);
        while self.pointless(letter) && !self.random.percent(20) {
            letter = self.random.letter(&self.profile.weights);
        }
        let tries = if self.random.percent(self.profile.tame) { 6 } else { 1 };
        let mut line = self.draw(letter, late);
        for _ in 1..tries {
            match read_call::<V>(line.as_bytes()) {
                Ok(call) if self.engine.refusal(&call).is_some() => line = self.draw(letter, late),
                _ => break,
            }
        }
        line
    }

    /// Whether hardly any call with this letter could be accepted now.
    fn pointless(&self, letter: char) -> bool {
        match letter {
            'n' => self.engine.tasks().len() == MOST_TASKS,
            's' => self.tasks_in(State::Created).is_empty(),
            'c' => self.tasks_in(State::Waiting).is_empty(),
            'f' | 'w' | 'r' => self.tasks_in(State::Running).iter().all(|&t| t == 0),
            'g' | 'p' | 'u' => self.tasks_in(State::Running).is_empty(),
            _ => false,
        }
    }

    fn draw(&mut self, letter: char, late: bool) -> String {
        let aimed = !self.random.percent(self.profile.wild);
        match letter {
            'n' => self.create(aimed),
            's' => format!("s {}", self.starter(aimed)),
            'f' => format!("f {}", self.leaver(aimed, late)),
            'w' => format!("w {}", self.leaver(aimed, true)),
            'c' => format!("c {}", self.task(aimed, State::Waiting)),
            'r' => self.release(aimed),
            'g' => self.step(aimed, 'g', Step::Read),
            'p' => self.step(aimed, 'p', Step::Write),
            'u' => self.step(aimed, 'u', Step::Update),
            'l' => format!("l {}", self.cell()),
            _ => "q".to_string(),
        }
    }

    /// Any task number, most often of one that exists.
    fn any_task(&mut self) -> usize {
        let tasks = self.engine.tasks().len();
        match self.random.below(12) {
            0 => tasks,
            1 => self.random.pick(&[tasks + 1, 63, 64, 65, 255, 256, 65_535]),
            _ => self.random.below(tasks),
        }
    }

    fn tasks_in(&self, state: State) -> Vec<usize> {
        let tasks = self.engine.tasks();
        (0..tasks.len()).filter(|&t| tasks.state(t) == state).collect()
    }

    fn task(&mut self, aimed: bool, state: State) -> usize {
        let right = self.tasks_in(state);
        if aimed && !right.is_empty() {
            self.random.pick(&right)
        } else {
            self.any_task()
        }
    }

    /// A task to start: half the time one that may.
    fn starter(&mut self, aimed: bool) -> usize {
        let ready = self.engine.tasks().ready();
        if aimed && !ready.is_empty() && self.random.percent(50) {
            self.random.pick(&ready)
        } else {
            self.task(aimed, State::Created)
        }
    }

    /// A task to finish, wait or release, task 0 only now and then.
    fn leaver(&mut self, aimed: bool, root_too: bool) -> usize {
        let running: Vec<usize> =
            self.tasks_in(State::Running).into_iter().filter(|&t| t != 0).collect();
        let root = root_too && self.random.percent(8);
        if root {
            0
        } else if aimed && !running.is_empty() {
            self.random.pick(&running)
        } else {
            // Nothing else to finish: name a task, but hardly ever 0.
            self.any_task().max(1)
        }
    }

    /// A cell number, most often of one that exists.
    fn cell(&mut self) -> usize {
        match self.random.below(16) {
            0 => self.cells,
            1 => self.random.pick(&[self.cells + 1, 255, 256, 65_535]),
            2 => self.cells - 1,
            _ => self.random.below(self.cells),
        }
    }

    /// Any region, often one of the edges.
    fn any_region(&mut self) -> (usize, usize) {
        match self.random.below(10) {
            0 => (0, self.cells),
            1 => (0, self.cells + 1),
            2 => (self.cells, self.cells),
            3 => (self.random.below(self.cells), 65_535),
            4 => (65_535, self.random.below(self.cells)),
            _ => {
                let lo = self.random.below(self.cells);
                (lo, lo + self.random.below(self.cells + 1))
            }
        }
    }

    /// A region of cells that the task holds, mostly; and what it holds at its begin.
    fn held_region(&mut self, task: usize) -> Option<(usize, usize, Hold)> {
        let holds = self.engine.tasks().holdings(task).to_vec();
        let held: Vec<usize> = (0..self.cells).filter(|&c| holds[c].is_some()).collect();
        if held.is_empty() {
            return None;
        }
        let lo = self.random.pick(&held);
        let mut end = lo;
        while end < self.cells && holds[end].is_some() {
            end += 1;
        }
        let length = 1 + self.random.below(self.profile.widest.min(end - lo));
        // Now and then one cell too many.
        let more = self.random.percent(4) as usize;
        holds[lo].map(|hold| (lo, lo + length + more, hold))
    }

    fn any_code(&mut self) -> usize {
        match self.random.below(14) {
            0 => self.random.pick(&[0, 9, 255, 10, 254]),
            1..=4 => 1 + self.random.below(8),
            _ => self.random.pick(self.profile.codes),
        }
    }

    /// A code that a parent with this hold covers, if there is one.
    fn covered_code(&mut self, (kind, _): Hold) -> usize {
        match kind {
            Kind::Inout => self.random.pick(self.profile.codes),
            Kind::In => self.random.pick(&[1, 6]),
            Kind::Out => self.random.pick(&[2, 7]),
            Kind::Concurrent => 4,
            Kind::Commutative => 5,
        }
    }

    fn access(&mut self, aimed: bool, parent: usize) -> (usize, usize, usize) {
        let exists = parent < self.engine.tasks().len();
        if aimed && exists && !self.random.percent(6) {
            if let Some((lo, hi, hold)) = self.held_region(parent) {
                let code = self.covered_code(hold);
                let code = if self.random.percent(4) { self.any_code() } else { code };
                return (lo, hi, code);
            }
        }
        let (lo, hi) = self.any_region();
        (lo, hi, self.any_code())
    }

    /// A create by task 0 of eight regions side by side, each with a code of its own.
    fn comb(&mut self) -> String {
        let width = 4 + self.random.below(8);
        let begin = self.random.below(self.cells - 8 * width);
        let mut line = format!("n 0 {} 8", self.random.below(2));
        for lo in (0..8).map(|region| begin + region * width) {
            line += &format!(" {lo} {} {}", lo + width, self.random.pick(&[1, 2, 3, 4, 6, 7, 8]));
        }
        line
    }

    fn create(&mut self, aimed: bool) -> String {
        if self.profile.comb && self.engine.tasks().len() < 4 && self.random.percent(60) {
            return self.comb();
        }
        let running = self.tasks_in(State::Running);
        let parent = match running.last() {
            Some(&newest) if aimed && self.random.percent(self.profile.deep) => newest,
            _ => self.task(aimed, State::Running),
        };
        let accesses = match self.random.below(20) {
            0 => 0,
            1 => 8,
            2 => self.random.pick(&[9, 10, 12]),
            3 | 4 => 3 + self.random.below(5),
            5..=8 => 2,
            _ => 1,
        };
        let wait = self.random.below(2);
        let mut line = format!("n {parent} {wait} {accesses}");
        for _ in 0..accesses {
            let (lo, hi, code) = self.access(aimed, parent);
            line += &format!(" {lo} {hi} {code}");
        }
        line
    }

    /// The first running task after 0, in a list whose releases cut combs.
    fn combed(&self) -> Option<usize> {
        let running = self.tasks_in(State::Running);
        running.into_iter().find(|&task| task != 0 && self.profile.comb)
    }

    fn release(&mut self, aimed: bool) -> String {
        // Task 0 releases seldom: what it does not hold, no new task can.
        let root = self.random.percent(self.profile.root);
        let task = match self.combed() {
            _ if root => 0,
            Some(task) if self.random.percent(75) => task,
            _ => self.leaver(aimed, false),
        };
        if aimed && task < self.engine.tasks().len() {
            if let Some((lo, hi, _)) = self.held_region(task) {
                // Most often one cell, so that runs are cut.
                let hi = if self.random.percent(80) { lo + 1 } else { hi };
                return format!("r {task} {lo} {hi}");
            }
        }
        let (lo, hi) = self.any_region();
        format!("r {task} {lo} {hi}")
    }

    fn step(&mut self, aimed: bool, letter: char, step: Step) -> String {
        let mut task = self.task(aimed, State::Running);
        let mut cell = self.cell();
        // Most often a pair of task and cell whose holding lets it make the step.
        if aimed && !self.random.percent(20) {
            let mut pairs = Vec::new();
            for t in self.tasks_in(State::Running) {
                let holds = self.engine.tasks().holdings(t);
                pairs.extend((0..self.cells).filter_map(|c| match holds[c] {
                    Some((kind, true)) if fits(kind, step) => Some((t, c)),
                    _ => None,
                }));
            }
            // Task 0 holds the most cells; leave it aside half the time.
            let others: Vec<_> = pairs.iter().copied().filter(|&(t, _)| t != 0).collect();
            if !others.is_empty() && self.random.percent(60) {
                pairs = others;
            }
            if !pairs.is_empty() {
                (task, cell) = self.random.pick(&pairs);
            }
        }
        let mut line = format!("{letter} {task} {cell}");
        if step != Step::Read {
            for _ in 0..V::WIDTH {
                line += &format!(" {}", self.number());
            }
        }
        line
    }

    /// A number of a value: small, or at an edge.
    fn number(&mut self) -> u64 {
        if self.random.percent(self.profile.edge) {
            self.random.pick(&[u64::MAX, u64::MAX - 1, u64::MAX - 2, 1 << 63, 0])
        } else {
            self.random.below(1_000) as u64
        }
    }
}

/// A text with one malformed thing, and where and with what number a reader refuses it.
pub struct Malformed {
    pub text: Vec<u8>,
    /// Asked by the tests only; the program prints the text alone.
    #[cfg_attr(not(test), allow(dead_code))]
    pub line: usize,
    #[cfg_attr(not(test), allow(dead_code))]
    pub question: u8,
}

/// What stands in the place of a header.
const BAD_HEADERS: [&[u8]; 29] = [
    b"", b" ", b"count", b"count ", b"count 0", b"count 257", b"count 04", b"count 4 ",
    b"count  4", b" count 4", b"count\t4", b"count 4\r", b"count +4", b"count -4", b"count 4 4",
    b"Count 4", b"counts 4", b"coun 4", b"COUNT 4", b"count 65536", b"count 18446744073709551617",
    b"count 18446744073709551620", b"count4", b"span 0", b"span 257", b"spans 4", b"span 4\0",
    b"count,4", b"\xef\xbb\xbfcount 4",
];

/// Lines without a letter of the table.
const BAD_LETTERS: [&[u8]; 18] = [
    b"", b" ", b"\t", b"\r", b"x 1", b"S 1", b"N 0 0 0", b"Q", b"0", b"1 1", b" s 1", b"a", b"t 1",
    b"-", b"\0", b"\x80", b"\xff 1", b"\xc3\xa9 0",
];

/// Lines with something that is no number.
const BAD_NUMBERS: [&[u8]; 34] = [
    b"s ", b"s 01", b"s 00", b"s 1 ", b"s  1", b"s\t1", b"s 1\t", b"s 1\r", b"q\r", b"q ", b"q  ",
    b"s +1", b"s -1", b"s -0", b"s 18446744073709551616", b"s 18446744073709551626",
    b"s 99999999999999999999", b"s 340282366920938463463374607431768211457", b"ss", b"s1", b"qq",
    b"q0", b"l 0x1", b"l 1e1", b"l 1.0", b"l 1,", b"l \xb2", b"l \xd9\xa1", b"l 1\0", b"l 1\x80",
    b"n 0 0 18446744073709551616", b"n 0 0 1 0  1 1", b"r 0 0 01", b"l 00000000000000000000000",
];

/// Lines with too many numbers or too few. The last ones are just right for whoever counts
/// the numbers that a create needs modulo 2^64.
const BAD_COUNTS: [&[u8]; 31] = [
    b"s", b"s 1 2", b"f", b"f 1 1", b"w", b"w 1 1", b"c", b"c 1 1", b"l", b"l 0 0", b"q 0",
    b"r 0 0", b"r 0 0 1 1", b"g 0", b"g 0 0 0", b"p 0 0", b"u 0 0", b"p 0 0 1 2 3", b"u 0 0 1 2 3",
    b"n", b"n 0", b"n 0 0", b"n 0 0 1", b"n 0 0 1 0 1", b"n 0 0 0 0 1 1", b"n 0 0 1 0 1 1 0",
    b"s 65536 65536", b"n 0 0 256 0 1 1", b"n 0 0 18446744073709551615",
    b"n 0 0 12297829382473034411 0", b"n 0 0 6148914691236517206 0 1",
];

/// Lines with a number that is too large for its place.
const BAD_SIZES: [&[u8]; 22] = [
    b"s 65536", b"f 65536", b"w 65536", b"c 65536", b"l 65536", b"l 131072", b"s 4294967296",
    b"s 18446744073709551615", b"r 65536 0 1", b"r 0 65536 1", b"r 0 0 65536", b"g 65536 0",
    b"g 0 65536", b"n 65536 0 0", b"n 0 2 0", b"n 0 255 0", b"n 0 256 0", b"n 0 65536 0",
    b"n 0 0 1 65536 1 1", b"n 0 0 1 0 65536 1", b"n 0 0 1 0 1 256", b"n 0 0 1 0 1 65537",
];

/// A text with one malformed thing at a boundary, in or after a few good lines.
pub fn malformed(seed: u64) -> Malformed {
    let mut random = Random::new(!seed);
    let count = random.below(12);
    // The good lines, each with its byte 10; the first is the header.
    let good = call_list(random.next(), count);
    let mut lines: Vec<Vec<u8>> =
        good.split_inclusive('\n').map(|line| line.as_bytes().to_vec()).collect();
    let width = if lines[0].starts_with(b"span") { Span::WIDTH } else { Count::WIDTH };
    let (bad, question) = match random.below(20) {
        0 => return Malformed { text: Vec::new(), line: 1, question: 20 },
        1 | 2 => {
            // The last line has no byte 10; also the header may be the last.
            let keep = 1 + random.below(lines.len());
            lines.truncate(keep);
            let mut text = lines.concat();
            text.pop();
            return Malformed { text, line: keep, question: 20 };
        }
        3 => return too_long(lines.concat()),
        4..=6 => {
            lines[0] = random.pick(&BAD_HEADERS).to_vec();
            lines[0].push(10);
            return Malformed { text: lines.concat(), line: 1, question: 21 };
        }
        7..=9 => (random.pick(&BAD_LETTERS).to_vec(), 22),
        10..=12 => (random.pick(&BAD_NUMBERS).to_vec(), 23),
        13 => {
            // A value that is not below 2^64.
            let values = " 18446744073709551616".repeat(width);
            (format!("{} 0 0{values}", random.pick(&['p', 'u'])).into_bytes(), 23)
        }
        14 | 15 => (random.pick(&BAD_COUNTS).to_vec(), 24),
        16 => {
            // A value with one number too many or too few.
            let numbers = if random.percent(50) { width + 1 } else { width - 1 };
            let values = " 1".repeat(numbers);
            (format!("{} 0 0{values}", random.pick(&['p', 'u'])).into_bytes(), 24)
        }
        17 => {
            // A task or a cell that is too large, before a good value.
            let names = random.pick(&["65536 0", "0 65536"]);
            let values = " 1".repeat(width);
            (format!("{} {names}{values}", random.pick(&['p', 'u'])).into_bytes(), 25)
        }
        18 => (format!("n 0 0 256{}", " 0 1 1".repeat(256)).into_bytes(), 25),
        _ => (random.pick(&BAD_SIZES).to_vec(), 25),
    };
    let place = 1 + random.below(lines.len());
    lines.insert(place, bad);
    lines[place].push(10);
    Malformed { text: lines.concat(), line: place + 1, question }
}

/// The text made one byte too long with good lines.
fn too_long(mut text: Vec<u8>) -> Malformed {
    let missing = MOST_BYTES + 1 - text.len();
    // An odd number of bytes needs one line of five.
    if missing % 2 == 1 {
        text.extend(b"l 10\n");
    }
    while text.len() <= MOST_BYTES {
        text.extend(b"q\n");
    }
    Malformed { text, line: 0, question: 19 }
}

#[cfg(test)]
mod tests {
    use super::*;
    use crate::engine::Answer;
    use crate::tasks::Call;
    use crate::text::{read_header, tasklist};
    use std::collections::BTreeMap;

    #[test]
    fn lists_are_well_formed_and_many_calls_are_accepted() {
        let mut seen: BTreeMap<String, usize> = BTreeMap::new();
        let (mut accepted, mut all) = (0, 0);
        for seed in 0..140 {
            let count = if (seed / 2) % PROFILES as u64 == 5 { 1_500 } else { 400 };
            let list = call_list(seed, count);
            assert!(list.starts_with(if seed % 2 == 0 { "count " } else { "span " }));
            assert_eq!(list.lines().count(), count + 1);
            let printed = tasklist(list.as_bytes());
            assert!(!printed.contains("line"), "seed {seed}");
            assert_eq!(printed.lines().count(), count);
            for line in printed.lines() {
                let parts: Vec<&str> = line.split(' ').collect();
                let key = match parts[..] {
                    ["no", "17", cause, ..] => format!("no 17 {cause}"),
                    ["no", number] => format!("no {number}"),
                    _ => parts[0].to_string(),
                };
                accepted += !key.starts_with("no") as usize;
                all += 1;
                *seen.entry(key).or_default() += 1;
            }
        }
        println!("{accepted} of {all}: {seen:?}");
        assert!(accepted * 2 > all);
        // Every refusal that a list can bring about is met.
        for number in 1..=16 {
            assert!(seen.contains_key(&format!("no {number}")), "no {number}");
        }
        assert!(seen.contains_key("no 17 1") && seen.contains_key("no 17 2"));
    }

    /// What a task did, in the order of its calls.
    enum Deed<V> {
        Create(usize),
        Read(usize, V),
        Write(usize, V),
        Update(usize, V),
    }

    /// Carries out what a task did, and in the place of each create all that the created
    /// task did, on a plain list of cells.
    fn replay<V: Element>(deeds: &[Vec<Deed<V>>], task: usize, cells: &mut [V]) {
        for deed in &deeds[task] {
            match *deed {
                Deed::Create(child) => replay(deeds, child, cells),
                Deed::Read(cell, value) => assert_eq!(cells[cell], value),
                Deed::Write(cell, value) => cells[cell] = value,
                Deed::Update(cell, amount) => cells[cell] = cells[cell].updated_by(amount),
            }
        }
    }

    /// Asks "Program order" and "Progress" of the rules of one list.
    fn check_history<V: Element>(list: &str, seed: u64) {
        let (_, count) = read_header(list.lines().next().unwrap().as_bytes()).unwrap();
        let mut engine = Engine::new::<V>(pile::<V>(count));
        let mut deeds: Vec<Vec<Deed<V>>> = vec![Vec::new()];
        for line in list.lines().skip(1) {
            let call = read_call::<V>(line.as_bytes()).unwrap();
            let answer = engine.perform(&call);
            match (call, answer) {
                (Call::Create { parent, .. }, Answer::Task(child)) => {
                    deeds[parent].push(Deed::Create(child));
                    deeds.push(Vec::new());
                }
                (Call::Read { task, cell }, Answer::Value(value)) => {
                    deeds[task].push(Deed::Read(cell, value));
                }
                (Call::Write { task, cell, value }, Answer::Done) => {
                    deeds[task].push(Deed::Write(cell, value));
                }
                (Call::Update { task, cell, amount }, Answer::Done) => {
                    deeds[task].push(Deed::Update(cell, amount));
                }
                _ => {}
            }
            let tasks = engine.tasks();
            let all_finished = (0..tasks.len()).all(|t| tasks.state(t) == State::Finished);
            let goes_on = (0..tasks.len()).any(|task| {
                [Call::<V>::Start { task }, Call::Finish { task }, Call::Resume { task }]
                    .iter()
                    .any(|call| engine.refusal(call).is_none())
            });
            assert!(all_finished || goes_on, "seed {seed} stands still after {line}");
        }
        let mut cells = vec![V::REST; count];
        replay(&deeds, 0, &mut cells);
        for (cell, value) in cells.into_iter().enumerate() {
            assert_eq!(engine.perform(&Call::Look { cell }), Answer::Value(value), "seed {seed}");
        }
    }

    #[test]
    fn histories_keep_program_order_and_progress() {
        for seed in 0..140 {
            let list = call_list(seed, 250);
            if seed % 2 == 0 {
                check_history::<Count>(&list, seed);
            } else {
                check_history::<Span>(&list, seed);
            }
        }
    }

    #[test]
    fn the_same_seed_gives_the_same_list() {
        assert_eq!(call_list(5, 50), call_list(5, 50));
        assert_ne!(call_list(5, 50), call_list(7, 50));
        assert_eq!(call_list(4, 0).lines().count(), 1);
        assert_eq!(malformed(9).text, malformed(9).text);
    }

    #[test]
    fn malformed_texts_are_refused_where_they_are_malformed() {
        let mut questions = BTreeMap::new();
        for seed in 0..3_000 {
            let Malformed { text, line, question } = malformed(seed);
            let printed = tasklist(&text);
            let wanted = format!("line {line} no {question}");
            assert_eq!(printed.lines().last(), Some(&wanted[..]), "seed {seed}");
            assert_eq!(printed.lines().count(), line.saturating_sub(2) + 1, "seed {seed}");
            if question == 19 {
                assert_eq!(text.len(), MOST_BYTES + 1);
            }
            *questions.entry(question).or_insert(0) += 1;
        }
        println!("{questions:?}");
        assert_eq!(questions.keys().copied().collect::<Vec<u8>>(), (19..=25).collect::<Vec<u8>>());
    }
}
