//! The engine: a table of tasks and a store (docs/RULES.md, "The engine").

use crate::stores::{Element, Fault, Store};
use crate::tasks::{Call, State, Tasks};

#[derive(Clone, PartialEq, Eq, Debug)]
pub enum Answer<V> {
    Done,
    Task(usize),
    Value(V),
    /// The tasks that may start, in ascending number.
    Ready(Vec<usize>),
    /// The number of the first question that was answered no.
    Refused(u8),
    /// Question 17 was answered no, with the store's fault.
    Fault(Fault),
}

pub struct Engine<S> {
    tasks: Tasks,
    store: S,
}

impl<S> Engine<S> {
    pub fn tasks(&self) -> &Tasks {
        &self.tasks
    }

    /// A new engine has task 0 alone, holding every cell of the store.
    pub fn new<V: Element>(store: S) -> Engine<S>
    where
        S: Store<V>,
    {
        Engine { tasks: Tasks::new(store.count()), store }
    }

    /// How the call would be refused, if it would. Question 17 is asked last.
    pub fn refusal<V: Element>(&self, call: &Call<V>) -> Option<Answer<V>>
    where
        S: Store<V>,
    {
        if let Some(question) = self.tasks.first_no(call) {
            return Some(Answer::Refused(question));
        }
        match call {
            Call::Write { cell, .. } | Call::Update { cell, .. } => {
                self.store.verdict(*cell).err().map(Answer::Fault)
            }
            _ => None,
        }
    }

    /// Carries out one call and answers it. A refused call changes nothing.
    pub fn perform<V: Element>(&mut self, call: &Call<V>) -> Answer<V>
    where
        S: Store<V>,
    {
        if let Some(refusal) = self.refusal(call) {
            return refusal;
        }
        match call {
            Call::Create { parent, wait, accesses } => {
                return Answer::Task(self.tasks.create(*parent, *wait, accesses));
            }
            Call::Start { task } => self.tasks.set_state(*task, State::Running),
            Call::Finish { task } => self.tasks.set_state(*task, State::Finished),
            Call::Wait { task } => self.tasks.set_state(*task, State::Waiting),
            Call::Resume { task } => self.tasks.set_state(*task, State::Running),
            Call::Release { task, lo, hi } => self.tasks.release(*task, *lo, *hi),
            Call::Read { cell, .. } | Call::Look { cell } => {
                return Answer::Value(self.store.read(*cell));
            }
            Call::Write { cell, value, .. } => return self.put(*cell, *value),
            Call::Update { cell, amount, .. } => {
                return self.put(*cell, self.store.read(*cell).updated_by(*amount));
            }
            Call::Ready { .. } => return Answer::Ready(self.tasks.ready()),
        }
        Answer::Done
    }

    /// The write itself, answered as the store answers it.
    fn put<V: Element>(&mut self, cell: usize, value: V) -> Answer<V>
    where
        S: Store<V>,
    {
        match self.store.write(cell, value) {
            Ok(()) => Answer::Done,
            Err(fault) => Answer::Fault(fault),
        }
    }
}

/// Each question at its boundary: the call that is just refused, and beside it one that
/// is just accepted (or gets to a later question).
#[cfg(test)]
mod tests {
    use super::*;
    use crate::stores::{pile, Cause, Count, Pile};
    use crate::tasks::Access;

    /// An engine that is told its calls as lines of a call list.
    struct Bench(Engine<Pile<Count>>);

    const DONE: Answer<Count> = Answer::Done;

    fn no(question: u8) -> Answer<Count> {
        Answer::Refused(question)
    }

    fn task(number: usize) -> Answer<Count> {
        Answer::Task(number)
    }

    fn value(number: u64) -> Answer<Count> {
        Answer::Value(Count(number))
    }

    fn ready(tasks: &[usize]) -> Answer<Count> {
        Answer::Ready(tasks.to_vec())
    }

    impl Bench {
        fn new(cells: usize) -> Bench {
            Bench(Engine::new(pile(cells)))
        }

        fn call(&mut self, line: &str) -> Answer<Count> {
            let call = crate::text::read_call(line.as_bytes()).expect(line);
            let before = self.0.tasks.clone();
            let values: Vec<Count> =
                (0..self.0.store.count()).map(|c| self.0.store.read(c)).collect();
            let answer = self.0.perform(&call);
            if matches!(answer, Answer::Refused(_) | Answer::Fault(_)) {
                assert_eq!(self.0.tasks, before);
                let after: Vec<Count> =
                    (0..self.0.store.count()).map(|c| self.0.store.read(c)).collect();
                assert_eq!(after, values);
            }
            answer
        }

        /// Calls that must all be accepted.
        fn accept(&mut self, lines: &[&str]) {
            for line in lines {
                let answer = self.call(line);
                let refused = matches!(answer, Answer::Refused(_) | Answer::Fault(_));
                assert!(!refused, "{line}: {answer:?}");
            }
        }
    }

    #[test]
    fn question_1_was_the_task_created() {
        let mut b = Bench::new(4);
        for line in [
            "n 1 0 0", "s 1", "f 1", "w 1", "c 1", "r 1 0 1", "g 1 0", "p 1 0 1", "u 1 0 1",
            "s 65535",
        ] {
            assert_eq!(b.call(line), no(1), "{line}");
        }
        assert_eq!(b.call("n 0 0 0"), task(1));
        assert_eq!(b.call("s 1"), DONE);
    }

    #[test]
    fn question_2_is_the_state_right() {
        let mut b = Bench::new(4);
        assert_eq!(b.call("s 0"), no(2));
        assert_eq!(b.call("c 0"), no(2));
        b.accept(&["n 0 0 1 0 1 3"]);
        // Created.
        let running = ["n 1 0 0", "f 1", "w 1", "r 1 0 1", "g 1 0", "p 1 0 1", "u 1 0 1"];
        for line in running.iter().chain(&["c 1"]) {
            assert_eq!(b.call(line), no(2), "{line}");
        }
        // Waiting.
        b.accept(&["s 1", "w 1"]);
        for line in running.iter().chain(&["s 1"]) {
            assert_eq!(b.call(line), no(2), "{line}");
        }
        // Finished.
        b.accept(&["c 1", "f 1"]);
        for line in running.iter().chain(&["s 1", "c 1"]) {
            assert_eq!(b.call(line), no(2), "{line}");
        }
        // It comes before every later question.
        assert_eq!(b.call("n 1 0 1 9 3 0"), no(2));
        assert_eq!(b.call("g 1 400"), no(2));
    }

    #[test]
    fn question_3_fewer_than_64_tasks() {
        let mut b = Bench::new(1);
        for number in 1..64 {
            assert_eq!(b.call("n 0 0 0"), task(number));
        }
        assert_eq!(b.call("n 0 0 0"), no(3));
        assert_eq!(b.call("n 0 0 9 0 0 0 0 0 0 0 0 0 0 0 0 0 0 0 0 0 0 0 0 0 0 0 0 0 0 0"), no(3));
        b.accept(&["s 63", "f 63"]);
        // Finished tasks still count.
        assert_eq!(b.call("n 0 0 0"), no(3));
        assert_eq!(b.call("n 64 0 0"), no(1));
    }

    #[test]
    fn question_4_at_most_8_accesses() {
        let mut b = Bench::new(4);
        let line = |count: usize| format!("n 0 0 {count}{}", " 0 1 1".repeat(count));
        assert_eq!(b.call(&line(8)), task(1));
        assert_eq!(b.call(&line(9)), no(4));
        assert_eq!(b.call(&line(255)), no(4));
        assert_eq!(b.call(&format!("n 0 0 9{}", " 3 3 0".repeat(9))), no(4));
    }

    #[test]
    fn question_5_are_the_regions_there() {
        let mut b = Bench::new(4);
        assert_eq!(b.call("n 0 0 1 3 4 1"), task(1));
        assert_eq!(b.call("n 0 0 1 3 3 1"), no(5));
        assert_eq!(b.call("n 0 0 1 3 2 1"), no(5));
        assert_eq!(b.call("n 0 0 1 3 5 1"), no(5));
        assert_eq!(b.call("n 0 0 1 65534 65535 1"), no(5));
        // Whatever its code, and whatever another code.
        assert_eq!(b.call("n 0 0 1 4 4 0"), no(5));
        assert_eq!(b.call("n 0 0 2 0 1 0 4 4 1"), no(5));
        assert_eq!(b.call("r 0 4 4"), no(5));
        assert_eq!(b.call("r 0 4 5"), no(5));
        assert_eq!(b.call("r 0 3 4"), DONE);
        assert_eq!(b.call("r 0 3 4"), no(12));
    }

    #[test]
    fn question_6_are_the_codes_kinds() {
        let mut b = Bench::new(4);
        for code in [0, 9, 10, 255] {
            assert_eq!(b.call(&format!("n 0 0 1 0 1 {code}")), no(6));
            assert_eq!(b.call(&format!("n 0 0 2 0 1 1 0 1 {code}")), no(6));
        }
        for code in 1..=8 {
            assert_eq!(b.call(&format!("n 0 0 1 0 1 {code}")), task(code));
        }
    }

    #[test]
    fn question_7_no_commutative_parent() {
        let mut b = Bench::new(4);
        b.accept(&["n 0 0 2 0 1 5 1 2 3", "s 1"]);
        assert_eq!(b.call("n 1 0 0"), no(7));
        assert_eq!(b.call("n 1 0 1 3 4 1"), no(7));
        assert_eq!(b.call("n 1 0 1 1 2 9"), no(6));
        b.accept(&["r 1 0 1"]);
        assert_eq!(b.call("n 1 0 1 1 2 1"), task(2));
    }

    #[test]
    fn question_8_does_the_parent_cover() {
        let mut b = Bench::new(5);
        // Cell 0 in, 1 out, 2 concurrent, 3 weak inout, 4 nothing.
        b.accept(&["n 0 0 4 0 1 1 1 2 7 2 3 4 3 4 8", "s 1"]);
        let accepted = |cell: usize, code: usize| match cell {
            0 => code == 1 || code == 6,
            1 => code == 2 || code == 7,
            2 => code == 4,
            3 => true,
            _ => false,
        };
        let mut next = 2;
        for cell in 0..5 {
            for code in 1..=8 {
                let line = format!("n 1 0 1 {cell} {} {code}", cell + 1);
                let wanted = if accepted(cell, code) { task(next) } else { no(8) };
                assert_eq!(b.call(&line), wanted, "{line}");
                next += accepted(cell, code) as usize;
            }
        }
        // The combined accesses are asked: in and out together are inout.
        assert_eq!(b.call("n 1 0 2 0 1 1 0 1 6"), task(next));
        assert_eq!(b.call("n 1 0 2 0 1 1 0 1 2"), no(8));
        assert_eq!(b.call("n 1 0 2 3 4 1 3 4 2"), task(next + 1));
        assert_eq!(b.call("n 1 0 1 3 5 1"), no(8));
    }

    #[test]
    fn question_9_no_earlier_conflict() {
        let mut b = Bench::new(4);
        b.accept(&["n 0 0 1 0 2 6", "n 0 0 1 1 3 1", "n 0 0 1 1 2 2", "n 0 0 1 1 2 7"]);
        // in beside in; a strong out against weak and strong in; a weak out asks nothing.
        assert_eq!(b.call("q"), ready(&[1, 2, 4]));
        assert_eq!(b.call("s 3"), no(9));
        b.accept(&["s 2", "f 2"]);
        assert_eq!(b.call("s 3"), no(9));
        b.accept(&["s 1", "f 1"]);
        assert_eq!(b.call("s 3"), DONE);
    }

    #[test]
    fn question_9_a_child_of_task_1_is_earlier_than_task_2() {
        let mut b = Bench::new(2);
        b.accept(&["n 0 0 1 0 1 8", "n 0 0 1 0 1 3", "s 1", "n 1 0 1 0 1 3", "f 1"]);
        // Task 1 holds nothing any more, but its child does.
        assert_eq!(b.call("s 2"), no(9));
        assert_eq!(b.call("q"), ready(&[3]));
        b.accept(&["s 3", "f 3", "s 2"]);
    }

    #[test]
    fn question_9_a_wait_flag_keeps_the_holdings() {
        let mut b = Bench::new(2);
        b.accept(&["n 0 1 1 0 1 8", "n 0 0 1 0 1 3", "s 1", "n 1 0 0", "f 1"]);
        assert_eq!(b.call("s 2"), no(9));
        b.accept(&["s 3"]);
        assert_eq!(b.call("s 2"), no(9));
        // The last descendant finishes: the holdings of task 1 end with it.
        b.accept(&["f 3", "s 2"]);
    }

    #[test]
    fn question_10_no_other_commutative() {
        let mut b = Bench::new(4);
        b.accept(&["n 0 0 1 0 2 5", "n 0 0 1 1 3 5", "n 0 0 1 2 3 5"]);
        assert_eq!(b.call("q"), ready(&[1, 2, 3]));
        // A later task may go first.
        b.accept(&["s 2"]);
        assert_eq!(b.call("s 1"), no(10));
        assert_eq!(b.call("s 3"), no(10));
        b.accept(&["w 2"]);
        assert_eq!(b.call("s 1"), no(10));
        b.accept(&["c 2", "r 2 1 2", "s 1"]);
        assert_eq!(b.call("s 3"), no(10));
        b.accept(&["f 2", "s 3"]);
    }

    #[test]
    fn question_11_are_all_children_deeply_complete() {
        let mut b = Bench::new(4);
        b.accept(&["n 0 0 0", "s 1", "n 1 0 0", "w 0"]);
        assert_eq!(b.call("c 0"), no(11));
        b.accept(&["f 1"]);
        assert_eq!(b.call("c 0"), no(11));
        b.accept(&["s 2"]);
        assert_eq!(b.call("c 0"), no(11));
        b.accept(&["f 2", "c 0", "w 0", "c 0"]);
    }

    #[test]
    fn question_12_is_the_region_held() {
        let mut b = Bench::new(4);
        b.accept(&["n 0 0 2 0 1 6 1 2 3", "s 1"]);
        assert_eq!(b.call("r 1 0 3"), no(12));
        assert_eq!(b.call("r 1 2 3"), no(12));
        assert_eq!(b.call("r 1 0 2"), DONE);
        assert_eq!(b.call("r 1 0 1"), no(12));
    }

    #[test]
    fn question_13_at_most_16_runs() {
        let mut b = Bench::new(40);
        // Each of these cuts one run more from task 0.
        for cut in 0..15 {
            let line = format!("r 0 {} {}", 2 * cut + 1, 2 * cut + 2);
            assert_eq!(b.call(&line), DONE, "{line}");
        }
        assert_eq!(b.call("r 0 35 36"), no(13));
        // At the edge of a run there is no new one.
        assert_eq!(b.call("r 0 39 40"), DONE);
        assert_eq!(b.call("r 0 0 1"), DONE);
        assert_eq!(b.call("r 0 35 36"), DONE);
        assert_eq!(b.call("r 0 33 34"), no(13));
        assert_eq!(b.call("r 0 34 36"), no(12));
    }

    #[test]
    fn question_14_is_there_such_a_cell() {
        let mut b = Bench::new(4);
        for line in ["g 0 4", "p 0 4 1", "u 0 4 1", "l 4", "l 65535"] {
            assert_eq!(b.call(line), no(14), "{line}");
        }
        assert_eq!(b.call("p 0 3 8"), DONE);
        assert_eq!(b.call("u 0 3 1"), DONE);
        assert_eq!(b.call("g 0 3"), value(9));
        assert_eq!(b.call("l 3"), value(9));
        assert_eq!(b.call("l 0"), value(0));
    }

    #[test]
    fn question_15_is_it_held_strongly_with_a_fitting_kind() {
        for (code, fitting) in [
            (1, "g"), (2, "p"), (3, "gpu"), (4, "u"), (5, "u"), (6, ""), (7, ""), (8, ""),
        ] {
            let mut b = Bench::new(2);
            b.accept(&[&format!("n 0 0 1 0 1 {code}"), "s 1"]);
            for (letter, rest) in [("g", "0"), ("p", "0 1"), ("u", "0 1")] {
                let answer = b.call(&format!("{letter} 1 {rest}"));
                assert_eq!(answer != no(15), fitting.contains(letter), "{letter} with {code}");
            }
            assert_eq!(b.call("g 1 1"), no(15));
        }
    }

    #[test]
    fn question_16_no_descendant_conflict() {
        for (code, peaceful) in [
            (1, "g"), (2, ""), (3, ""), (4, "u"), (5, ""), (6, "g"), (7, ""), (8, ""),
        ] {
            let mut b = Bench::new(2);
            // The one that holds is a grandchild, and only Created.
            b.accept(&["n 0 0 1 0 1 8", "s 1", &format!("n 1 0 1 0 1 {code}"), "f 1"]);
            for (letter, rest) in [("g", "0"), ("p", "0 1"), ("u", "0 1")] {
                let answer = b.call(&format!("{letter} 0 {rest}"));
                assert_eq!(answer != no(16), peaceful.contains(letter), "{letter} with {code}");
            }
            b.accept(&["p 0 1 1", "s 2", "f 2", "p 0 0 1"]);
        }
    }

    #[test]
    fn question_17_records_used_up() {
        let mut b = Bench::new(4);
        // The first write is held; each other one writes the one before it below.
        for n in 0..65 {
            assert_eq!(b.call(&format!("p 0 {} {n}", n % 2)), DONE);
        }
        let used_up = Fault { cause: Cause::RecordsUsedUp, depth: 2, cell: 0 };
        assert_eq!(b.call("p 0 1 1"), Answer::Fault(used_up));
        assert_eq!(b.call("u 0 3 1"), Answer::Fault(used_up));
        // The held cell stays open.
        assert_eq!(b.call("p 0 0 9"), DONE);
        assert_eq!(b.call("u 0 0 9"), DONE);
        assert_eq!(b.call("g 0 0"), value(18));
        assert_eq!(b.call("g 0 1"), value(63));
        // It is asked last.
        assert_eq!(b.call("p 0 4 1"), no(14));
        b.accept(&["n 0 0 1 1 2 3"]);
        assert_eq!(b.call("p 0 1 1"), no(16));
    }

    #[test]
    fn question_17_allowance_spent() {
        let mut b = Bench::new(4);
        for _ in 0..999 {
            assert_eq!(b.call("u 0 2 1"), DONE);
        }
        assert_eq!(b.call("p 0 4 1"), no(14));
        assert_eq!(b.call("p 0 3 1"), DONE);
        let spent = |cell| Answer::Fault(Fault { cause: Cause::AllowanceSpent, depth: 0, cell });
        assert_eq!(b.call("p 0 3 1"), spent(3));
        assert_eq!(b.call("u 0 2 1"), spent(2));
        assert_eq!(b.call("g 0 2"), value(999));
    }

    #[test]
    fn question_18_has_the_list_64_places() {
        let mut engine = Engine::new(pile::<Count>(4));
        assert_eq!(engine.perform::<Count>(&Call::Ready { places: 63 }), no(18));
        assert_eq!(engine.perform::<Count>(&Call::Ready { places: 0 }), no(18));
        assert_eq!(engine.perform::<Count>(&Call::Ready { places: 64 }), ready(&[]));
    }

    #[test]
    fn combined_accesses_are_held() {
        let mut b = Bench::new(4);
        b.accept(&["n 0 0 2 0 3 6 1 2 2", "s 1"]);
        // Cell 1 has in weakly and out strongly, so inout strongly.
        assert_eq!(b.call("u 1 1 4"), DONE);
        assert_eq!(b.call("g 1 1"), value(4));
        assert_eq!(b.call("g 1 0"), no(15));
    }

    #[test]
    fn a_call_may_say_anything() {
        let mut engine = Engine::new(pile::<Count>(4));
        let far = usize::MAX;
        let accesses = vec![Access { lo: far, hi: far, code: u64::MAX }];
        for (call, question) in [
            (Call::Create { parent: 0, wait: true, accesses: accesses.clone() }, 5),
            (Call::Create { parent: far, wait: true, accesses }, 1),
            (Call::Release { task: 0, lo: 0, hi: far }, 5),
            (Call::Look { cell: far }, 14),
            (Call::Write { task: 0, cell: far, value: Count(1) }, 14),
        ] {
            assert_eq!(engine.perform(&call), no(question));
        }
    }
}
