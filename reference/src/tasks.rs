//! The table of tasks and the questions that need no store (docs/RULES.md, "Tasks",
//! "What each call asks", "What an accepted call does").
//!
//! Everything is computed from the tree and the cells at the moment of asking.

use crate::kinds::{combine, conflict, counts_as, covers, decode, fits, Hold, Kind, Step};

pub const MOST_TASKS: usize = 64;
const MOST_ACCESSES: usize = 8;
const MOST_RUNS: usize = 16;

#[derive(Clone, Copy, PartialEq, Eq, Debug)]
pub enum State {
    Created,
    Running,
    Waiting,
    Finished,
}

#[derive(Clone, Copy, PartialEq, Eq, Debug)]
pub struct Access {
    pub lo: usize,
    pub hi: usize,
    pub code: u64,
}

#[derive(Clone, PartialEq, Eq, Debug)]
pub enum Call<V> {
    Create { parent: usize, wait: bool, accesses: Vec<Access> },
    Start { task: usize },
    Finish { task: usize },
    Wait { task: usize },
    Resume { task: usize },
    Release { task: usize, lo: usize, hi: usize },
    Read { task: usize, cell: usize },
    Write { task: usize, cell: usize, value: V },
    Update { task: usize, cell: usize, amount: V },
    Look { cell: usize },
    /// `places` is the length of the caller's list.
    Ready { places: usize },
}

impl<V> Call<V> {
    /// The task that the call names (for a create, the parent).
    fn task(&self) -> Option<usize> {
        match *self {
            Call::Create { parent, .. } => Some(parent),
            Call::Start { task }
            | Call::Finish { task }
            | Call::Wait { task }
            | Call::Resume { task }
            | Call::Release { task, .. }
            | Call::Read { task, .. }
            | Call::Write { task, .. }
            | Call::Update { task, .. } => Some(task),
            Call::Look { .. } | Call::Ready { .. } => None,
        }
    }

    /// The state that the named task must have.
    fn right_state(&self) -> State {
        match self {
            Call::Start { .. } => State::Created,
            Call::Resume { .. } => State::Waiting,
            _ => State::Running,
        }
    }

    /// For a read, write or update: its task, cell and step.
    fn step(&self) -> Option<(usize, usize, Step)> {
        match *self {
            Call::Read { task, cell } => Some((task, cell, Step::Read)),
            Call::Write { task, cell, .. } => Some((task, cell, Step::Write)),
            Call::Update { task, cell, .. } => Some((task, cell, Step::Update)),
            _ => None,
        }
    }
}

#[derive(Clone, PartialEq, Eq, Debug)]
pub struct Task {
    pub parent: Option<usize>,
    pub wait: bool,
    pub state: State,
    /// What was given at creation and not released since. Whether it is still held is
    /// for `Tasks::holdings` to say.
    given: Vec<Option<Hold>>,
}

#[derive(Clone, PartialEq, Eq, Debug)]
pub struct Tasks {
    cells: usize,
    list: Vec<Task>,
    /// What a task holds whose holdings have ended.
    nothing: Vec<Option<Hold>>,
}

impl Tasks {
    pub fn new(cells: usize) -> Tasks {
        let root = Task {
            parent: None,
            wait: false,
            state: State::Running,
            given: vec![Some((Kind::Inout, true)); cells],
        };
        Tasks { cells, list: vec![root], nothing: vec![None; cells] }
    }

    pub fn len(&self) -> usize {
        self.list.len()
    }

    pub fn state(&self, task: usize) -> State {
        self.list[task].state
    }

    fn all(&self) -> std::ops::Range<usize> {
        0..self.list.len()
    }

    // The tree.

    /// Whether `a` is an ancestor of `t`; no task is its own ancestor.
    fn is_ancestor(&self, a: usize, t: usize) -> bool {
        let mut at = self.list[t].parent;
        while let Some(up) = at {
            if up == a {
                return true;
            }
            at = self.list[up].parent;
        }
        false
    }

    /// Whether `t` and all its descendants are Finished.
    fn deeply_complete(&self, t: usize) -> bool {
        self.state(t) == State::Finished
            && self.all().all(|d| !self.is_ancestor(t, d) || self.state(d) == State::Finished)
    }

    /// The child of `a` that is `t` or an ancestor of `t`.
    fn child_towards(&self, a: usize, t: usize) -> Option<usize> {
        let mut at = t;
        while self.list[at].parent != Some(a) {
            at = self.list[at].parent?;
        }
        Some(at)
    }

    /// Whether `u` is earlier than `t`.
    fn earlier(&self, u: usize, t: usize) -> bool {
        if u == t || self.is_ancestor(u, t) || self.is_ancestor(t, u) {
            return false;
        }
        // Go up from `u` to the nearest task that is also an ancestor of `t`.
        let mut common = self.list[u].parent;
        while let Some(a) = common {
            if self.is_ancestor(a, t) {
                return self.child_towards(a, u) < self.child_towards(a, t);
            }
            common = self.list[a].parent;
        }
        false
    }

    // Holdings.

    /// What the task holds at this moment, cell by cell.
    pub fn holdings(&self, t: usize) -> &[Option<Hold>] {
        let task = &self.list[t];
        let ended = match task.wait {
            false => task.state == State::Finished,
            true => self.deeply_complete(t),
        };
        if ended {
            &self.nothing
        } else {
            &task.given
        }
    }

    /// The accesses combined, cell by cell. Only regions within the cells may be given.
    fn combined(&self, accesses: &[Access]) -> Vec<Option<Hold>> {
        let mut holds = vec![None; self.cells];
        for access in accesses {
            for hold in &mut holds[access.lo..access.hi] {
                *hold = match (*hold, decode(access.code)) {
                    (Some(a), Some(b)) => Some(combine(a, b)),
                    (a, b) => a.or(b),
                };
            }
        }
        holds
    }

    /// How many runs there are: every held cell that does not go on the run at its left
    /// begins one.
    fn runs(holds: &[Option<Hold>]) -> usize {
        (0..holds.len())
            .filter(|&c| holds[c].is_some() && (c == 0 || holds[c - 1] != holds[c]))
            .count()
    }

    /// The task's holdings without a region.
    fn without(&self, t: usize, lo: usize, hi: usize) -> Vec<Option<Hold>> {
        let mut holds = self.holdings(t).to_vec();
        for hold in &mut holds[lo..hi] {
            *hold = None;
        }
        holds
    }

    fn region_fits(&self, lo: usize, hi: usize) -> bool {
        lo < hi && hi <= self.cells
    }

    // The questions.

    /// The number of the first question that is answered no. Question 17 is not asked here.
    pub fn first_no<V>(&self, call: &Call<V>) -> Option<u8> {
        (1..=18).find(|&question| self.ask(question, call) == Some(false))
    }

    /// The answer to one question; none if the call is not asked it. All questions with a
    /// lower number must have been answered yes.
    fn ask<V>(&self, question: u8, call: &Call<V>) -> Option<bool> {
        match (question, call) {
            (1, _) => call.task().map(|t| t < self.len()),
            (2, _) => call.task().map(|t| self.state(t) == call.right_state()),
            (3, Call::Create { .. }) => Some(self.len() < MOST_TASKS),
            (4, Call::Create { accesses, .. }) => Some(accesses.len() <= MOST_ACCESSES),
            (5, Call::Create { accesses, .. }) => {
                Some(accesses.iter().all(|a| self.region_fits(a.lo, a.hi)))
            }
            (5, Call::Release { lo, hi, .. }) => Some(self.region_fits(*lo, *hi)),
            (6, Call::Create { accesses, .. }) => {
                Some(accesses.iter().all(|a| decode(a.code).is_some()))
            }
            (7, Call::Create { parent, .. }) => Some(self.no_commutative(*parent)),
            (8, Call::Create { parent, accesses, .. }) => Some(self.covered(*parent, accesses)),
            (9, Call::Start { task }) => Some(self.no_earlier_conflict(*task)),
            (10, Call::Start { task }) => Some(self.no_other_commutative(*task)),
            (11, Call::Resume { task }) => Some(self.children_complete(*task)),
            (12, Call::Release { task, lo, hi }) => {
                Some(self.holdings(*task)[*lo..*hi].iter().all(Option::is_some))
            }
            (13, Call::Release { task, lo, hi }) => {
                Some(Tasks::runs(&self.without(*task, *lo, *hi)) <= MOST_RUNS)
            }
            (14, Call::Look { cell }) => Some(*cell < self.cells),
            (14, _) => call.step().map(|(_, cell, _)| cell < self.cells),
            (15, _) => call.step().map(|(task, cell, step)| self.lets(task, cell, step)),
            (16, _) => call
                .step()
                .map(|(task, cell, step)| self.no_descendant_conflict(task, cell, step)),
            (18, Call::Ready { places }) => Some(*places >= MOST_TASKS),
            _ => None,
        }
    }

    /// Question 7.
    fn no_commutative(&self, parent: usize) -> bool {
        self.holdings(parent)
            .iter()
            .all(|hold| !matches!(hold, Some((Kind::Commutative, _))))
    }

    /// Question 8.
    fn covered(&self, parent: usize, accesses: &[Access]) -> bool {
        let parents = self.holdings(parent);
        let childs = self.combined(accesses);
        (0..self.cells).all(|c| match (parents[c], childs[c]) {
            (_, None) => true,
            (None, Some(_)) => false,
            (Some((parent, _)), Some((child, _))) => covers(parent, child),
        })
    }

    /// Question 9.
    fn no_earlier_conflict(&self, t: usize) -> bool {
        let mine = self.holdings(t);
        self.all().filter(|&u| self.earlier(u, t)).all(|u| {
            let theirs = self.holdings(u);
            (0..self.cells).all(|c| match (theirs[c], mine[c]) {
                (Some((their, _)), Some((my, true))) => !conflict(their, my),
                _ => true,
            })
        })
    }

    /// Question 10.
    fn no_other_commutative(&self, t: usize) -> bool {
        let mine = self.holdings(t);
        self.all().filter(|&u| u != t && self.state(u) != State::Created).all(|u| {
            let theirs = self.holdings(u);
            (0..self.cells).all(|c| {
                !matches!(
                    (theirs[c], mine[c]),
                    (Some((Kind::Commutative, _)), Some((Kind::Commutative, _)))
                )
            })
        })
    }

    /// Question 11.
    fn children_complete(&self, t: usize) -> bool {
        self.all()
            .filter(|&c| self.list[c].parent == Some(t))
            .all(|c| self.deeply_complete(c))
    }

    /// Question 15.
    fn lets(&self, t: usize, cell: usize, step: Step) -> bool {
        match self.holdings(t)[cell] {
            Some((kind, strong)) => strong && fits(kind, step),
            None => false,
        }
    }

    /// Question 16.
    fn no_descendant_conflict(&self, t: usize, cell: usize, step: Step) -> bool {
        self.all().filter(|&d| self.is_ancestor(t, d)).all(|d| match self.holdings(d)[cell] {
            Some((kind, _)) => !conflict(kind, counts_as(step)),
            None => true,
        })
    }

    // What accepted calls do. Each asks that the call was accepted.

    pub fn create(&mut self, parent: usize, wait: bool, accesses: &[Access]) -> usize {
        let given = self.combined(accesses);
        self.list.push(Task { parent: Some(parent), wait, state: State::Created, given });
        self.list.len() - 1
    }

    pub fn set_state(&mut self, t: usize, state: State) {
        self.list[t].state = state;
    }

    pub fn release(&mut self, t: usize, lo: usize, hi: usize) {
        self.list[t].given = self.without(t, lo, hi);
    }

    /// The tasks whose start would be accepted, in ascending number.
    pub fn ready(&self) -> Vec<usize> {
        self.all()
            .filter(|&task| self.first_no(&Call::<()>::Start { task }).is_none())
            .collect()
    }
}

#[cfg(test)]
mod tests {
    use super::*;

    /// Task 1 and 2 are children of 0, task 3 and 4 of 1, task 5 of 2.
    fn family() -> Tasks {
        let mut tasks = Tasks::new(2);
        for parent in [0, 0, 1, 1, 2] {
            tasks.create(parent, false, &[]);
        }
        tasks
    }

    #[test]
    fn ancestors_and_earlier() {
        let tasks = family();
        assert!(tasks.is_ancestor(0, 5) && tasks.is_ancestor(2, 5));
        assert!(!tasks.is_ancestor(5, 5) && !tasks.is_ancestor(1, 5) && !tasks.is_ancestor(5, 2));
        let earlier: Vec<(usize, usize)> = (0..6)
            .flat_map(|u| (0..6).map(move |t| (u, t)))
            .filter(|&(u, t)| tasks.earlier(u, t))
            .collect();
        // A child of task 1 is earlier than task 2, whatever its own number.
        let wanted = [(1, 2), (1, 5), (3, 2), (3, 4), (3, 5), (4, 2), (4, 5)];
        assert_eq!(earlier, wanted);
    }

    #[test]
    fn deep_completion() {
        let mut tasks = family();
        tasks.set_state(1, State::Finished);
        tasks.set_state(3, State::Finished);
        assert!(!tasks.deeply_complete(1) && tasks.deeply_complete(3));
        tasks.set_state(4, State::Finished);
        assert!(tasks.deeply_complete(1) && !tasks.deeply_complete(0));
    }

    #[test]
    fn runs_are_counted_by_kind_and_strength() {
        let strong = Some((Kind::In, true));
        let weak = Some((Kind::In, false));
        let out = Some((Kind::Out, true));
        assert_eq!(Tasks::runs(&[]), 0);
        assert_eq!(Tasks::runs(&[None, None]), 0);
        assert_eq!(Tasks::runs(&[strong, strong, weak, out, None, out]), 4);
    }
}
