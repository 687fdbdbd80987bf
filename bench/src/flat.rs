//! The flat store for the reference engine: the cells as they are, every one open (docs/RULES.md, "Stores").

use crate::stores::{Cause, Element, Fault, Store, Verdict};

pub struct Flat<V> {
    cells: Vec<V>,
}

impl<V: Element> Flat<V> {
    /// A store with so many cells at rest; there are at most 65,535.
    pub fn new(cells: u16) -> Flat<V> {
        Flat { cells: vec![V::REST; usize::from(cells)] }
    }
}

impl<V: Element> Store<V> for Flat<V> {
    fn count(&self) -> usize {
        self.cells.len()
    }

    fn read(&self, cell: usize) -> V {
        self.cells.get(cell).copied().unwrap_or(V::REST)
    }

    fn verdict(&self, cell: usize) -> Verdict {
        if cell < self.cells.len() {
            Ok(())
        } else {
            Err(Fault { cause: Cause::NoSuchCell, depth: 0, cell })
        }
    }

    fn write(&mut self, cell: usize, value: V) -> Verdict {
        self.verdict(cell)?;
        self.cells[cell] = value;
        Ok(())
    }
}
