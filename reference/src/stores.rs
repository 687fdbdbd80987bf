//! Elements and stores (docs/RULES.md, "Elements" and "Stores").

/// A type of cell value.
pub trait Element: Copy + PartialEq + std::fmt::Debug {
    /// How many numbers write a value.
    const WIDTH: usize;
    /// The value of a cell before anything was written to it.
    const REST: Self;
    fn updated_by(self, amount: Self) -> Self;
    fn numbers(self) -> Vec<u64>;
    /// The value that a list of numbers writes; none if the list is not `WIDTH` long.
    fn from_numbers(numbers: &[u64]) -> Option<Self>;
}

#[derive(Clone, Copy, PartialEq, Eq, Debug)]
pub struct Count(pub u64);

impl Element for Count {
    const WIDTH: usize = 1;
    const REST: Count = Count(0);

    fn updated_by(self, amount: Count) -> Count {
        Count(self.0.wrapping_add(amount.0))
    }

    fn numbers(self) -> Vec<u64> {
        vec![self.0]
    }

    fn from_numbers(numbers: &[u64]) -> Option<Count> {
        match numbers {
            [n] => Some(Count(*n)),
            _ => None,
        }
    }
}

#[derive(Clone, Copy, PartialEq, Eq, Debug)]
pub struct Span {
    pub first: u64,
    pub last: u64,
}

impl Element for Span {
    const WIDTH: usize = 2;
    const REST: Span = Span { first: u64::MAX, last: 0 };

    fn updated_by(self, amount: Span) -> Span {
        Span { first: self.first.min(amount.first), last: self.last.max(amount.last) }
    }

    fn numbers(self) -> Vec<u64> {
        vec![self.first, self.last]
    }

    fn from_numbers(numbers: &[u64]) -> Option<Span> {
        match numbers {
            [first, last] => Some(Span { first: *first, last: *last }),
            _ => None,
        }
    }
}

#[derive(Clone, Copy, PartialEq, Eq, Debug)]
pub enum Cause {
    RecordsUsedUp = 1,
    AllowanceSpent = 2,
    NoSuchCell = 3,
}

/// Why a cell could not be written.
#[derive(Clone, Copy, PartialEq, Eq, Debug)]
pub struct Fault {
    pub cause: Cause,
    pub depth: u8,
    pub cell: usize,
}

impl Fault {
    fn new(cause: Cause, cell: usize) -> Fault {
        Fault { cause, depth: 0, cell }
    }

    /// The fault as it passes up through one layer; the depth stays at 255.
    fn up(self) -> Fault {
        Fault { depth: self.depth.saturating_add(1), ..self }
    }
}

/// Open, or a fault.
pub type Verdict = Result<(), Fault>;

pub trait Store<V: Element> {
    fn count(&self) -> usize;
    fn read(&self, cell: usize) -> V;
    fn verdict(&self, cell: usize) -> Verdict;
    /// Sets an open cell; else answers its verdict and changes nothing.
    fn write(&mut self, cell: usize, value: V) -> Verdict;
}

/// The most places that a store takes.
const MOST_PLACES: usize = 65_535;

/// A record: a value and the number of the next record of its chain, 0 at the end.
struct Record<V> {
    value: V,
    /// Nothing in a call asks for older values, so only the tests follow the chain.
    #[cfg_attr(not(test), allow(dead_code))]
    next: usize,
}

/// The chain store. Records are numbered from 1, so record `r` is at place `r - 1`.
pub struct Chain<V> {
    heads: Vec<usize>,
    records: Vec<Record<V>>,
    used: usize,
}

impl<V: Element> Chain<V> {
    pub fn new(cells: usize, records: usize) -> Chain<V> {
        let fresh = || Record { value: V::REST, next: 0 };
        Chain {
            heads: vec![0; cells.min(MOST_PLACES)],
            records: (0..records.min(MOST_PLACES)).map(|_| fresh()).collect(),
            used: 0,
        }
    }

    /// All values that a cell ever got from below, newest first.
    #[cfg(test)]
    fn history(&self, cell: usize) -> Vec<V> {
        let mut values = Vec::new();
        let mut at = self.heads[cell];
        while at != 0 {
            values.push(self.records[at - 1].value);
            at = self.records[at - 1].next;
        }
        values
    }
}

impl<V: Element> Store<V> for Chain<V> {
    fn count(&self) -> usize {
        self.heads.len()
    }

    fn read(&self, cell: usize) -> V {
        match self.heads.get(cell) {
            None | Some(0) => V::REST,
            Some(&head) => self.records[head - 1].value,
        }
    }

    fn verdict(&self, cell: usize) -> Verdict {
        if cell >= self.count() {
            return Err(Fault::new(Cause::NoSuchCell, cell));
        }
        if self.used == self.records.len() {
            return Err(Fault::new(Cause::RecordsUsedUp, cell));
        }
        Ok(())
    }

    fn write(&mut self, cell: usize, value: V) -> Verdict {
        self.verdict(cell)?;
        self.used += 1;
        let next = self.heads[cell];
        self.records[self.used - 1] = Record { value, next };
        self.heads[cell] = self.used;
        Ok(())
    }
}

/// The write-behind: at most one cell is held with a value that is not yet below.
pub struct WriteBehind<V, S> {
    held: Option<(usize, V)>,
    below: S,
}

impl<V: Element, S: Store<V>> WriteBehind<V, S> {
    pub fn new(below: S) -> WriteBehind<V, S> {
        WriteBehind { held: None, below }
    }
}

impl<V: Element, S: Store<V>> Store<V> for WriteBehind<V, S> {
    fn count(&self) -> usize {
        self.below.count()
    }

    fn read(&self, cell: usize) -> V {
        match self.held {
            Some((held, value)) if held == cell => value,
            _ => self.below.read(cell),
        }
    }

    fn verdict(&self, cell: usize) -> Verdict {
        if cell >= self.count() {
            return Err(Fault::new(Cause::NoSuchCell, cell));
        }
        match self.held {
            Some((held, _)) if held != cell => self.below.verdict(held).map_err(Fault::up),
            _ => Ok(()),
        }
    }

    fn write(&mut self, cell: usize, value: V) -> Verdict {
        self.verdict(cell)?;
        if let Some((held, old)) = self.held {
            if held != cell {
                self.below.write(held, old).map_err(Fault::up)?;
            }
        }
        self.held = Some((cell, value));
        Ok(())
    }
}

/// The allowance: a number of writes left.
pub struct Allowance<S> {
    left: u64,
    below: S,
}

impl<S> Allowance<S> {
    pub fn new(left: u64, below: S) -> Allowance<S> {
        Allowance { left, below }
    }
}

impl<V: Element, S: Store<V>> Store<V> for Allowance<S> {
    fn count(&self) -> usize {
        self.below.count()
    }

    fn read(&self, cell: usize) -> V {
        self.below.read(cell)
    }

    fn verdict(&self, cell: usize) -> Verdict {
        if cell >= self.count() {
            return Err(Fault::new(Cause::NoSuchCell, cell));
        }
        if self.left == 0 {
            return Err(Fault::new(Cause::AllowanceSpent, cell));
        }
        self.below.verdict(cell).map_err(Fault::up)
    }

    fn write(&mut self, cell: usize, value: V) -> Verdict {
        self.verdict(cell)?;
        self.below.write(cell, value).map_err(Fault::up)?;
        self.left -= 1;
        Ok(())
    }
}

/// The store that `tasklist` runs on.
pub type Pile<V> = Allowance<WriteBehind<V, Chain<V>>>;

pub fn pile<V: Element>(cells: usize) -> Pile<V> {
    Allowance::new(1_000, WriteBehind::new(Chain::new(cells, 64)))
}

#[cfg(test)]
mod tests {
    use super::*;

    fn fault(cause: Cause, depth: u8, cell: usize) -> Verdict {
        Err(Fault { cause, depth, cell })
    }

    #[test]
    fn elements() {
        assert_eq!(Count(u64::MAX).updated_by(Count(2)), Count(1));
        assert_eq!(Count::from_numbers(&[1, 2]), None);
        assert_eq!(Span::from_numbers(&[1]), None);
        let span = Span { first: 3, last: 9 };
        assert_eq!(Span::REST.updated_by(span), span);
        assert_eq!(span.updated_by(Span { first: 5, last: 11 }), Span { first: 3, last: 11 });
        assert_eq!(Span::REST.numbers(), vec![u64::MAX, 0]);
    }

    #[test]
    fn chain_keeps_old_values_and_ends_with_its_records() {
        let mut chain = Chain::new(3, 3);
        assert_eq!(chain.read(1), Count(0));
        assert_eq!(chain.write(1, Count(5)), Ok(()));
        assert_eq!(chain.write(2, Count(6)), Ok(()));
        assert_eq!(chain.write(1, Count(7)), Ok(()));
        assert_eq!(chain.history(1), vec![Count(7), Count(5)]);
        assert_eq!(chain.history(0), vec![]);
        assert_eq!(chain.write(0, Count(1)), fault(Cause::RecordsUsedUp, 0, 0));
        assert_eq!(chain.write(3, Count(1)), fault(Cause::NoSuchCell, 0, 3));
        assert_eq!(chain.read(3), Count(0));
        assert_eq!([0, 1, 2].map(|c| chain.read(c)), [Count(0), Count(7), Count(6)]);
    }

    #[test]
    fn pile_faults() {
        let mut pile = Allowance::new(4, WriteBehind::new(Chain::new(4, 1)));
        assert_eq!(pile.write(4, Count(1)), fault(Cause::NoSuchCell, 0, 4));
        assert_eq!(pile.write(0, Count(1)), Ok(()));
        assert_eq!(pile.write(2, Count(2)), Ok(()));
        // The one record is used: only the held cell 2 is open.
        assert_eq!(pile.write(0, Count(3)), fault(Cause::RecordsUsedUp, 2, 2));
        assert_eq!(pile.write(2, Count(4)), Ok(()));
        assert_eq!(pile.write(2, Count(5)), Ok(()));
        // Nothing is left of the allowance: the asked cell is named.
        assert_eq!(pile.write(2, Count(6)), fault(Cause::AllowanceSpent, 0, 2));
        assert_eq!(pile.write(0, Count(6)), fault(Cause::AllowanceSpent, 0, 0));
        assert_eq!(pile.write(9, Count(6)), fault(Cause::NoSuchCell, 0, 9));
        assert_eq!([0, 1, 2].map(|c| pile.read(c)), [Count(1), Count(0), Count(5)]);
        // Cell 2's last value never came below.
        assert_eq!(pile.below.below.history(2), vec![]);
    }

    #[test]
    fn depth_stays_at_255() {
        let mut fault = Fault::new(Cause::RecordsUsedUp, 7);
        for _ in 0..300 {
            fault = fault.up();
        }
        assert_eq!((fault.depth, fault.cell), (255, 7));
    }
}
