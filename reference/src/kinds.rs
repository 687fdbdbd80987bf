//! Kinds of access (docs/RULES.md, "Kinds of access").

#[derive(Clone, Copy, PartialEq, Eq, Debug)]
pub enum Kind {
    In,
    Out,
    Inout,
    Concurrent,
    Commutative,
}

/// What a task itself can do with a cell.
#[derive(Clone, Copy, PartialEq, Eq, Debug)]
pub enum Step {
    Read,
    Write,
    Update,
}

/// What is held on one cell: a kind, and whether it is held strongly.
pub type Hold = (Kind, bool);

/// The kind and strength that a code stands for.
pub fn decode(code: u64) -> Option<Hold> {
    match code {
        1 => Some((Kind::In, true)),
        2 => Some((Kind::Out, true)),
        3 => Some((Kind::Inout, true)),
        4 => Some((Kind::Concurrent, true)),
        5 => Some((Kind::Commutative, true)),
        6 => Some((Kind::In, false)),
        7 => Some((Kind::Out, false)),
        8 => Some((Kind::Inout, false)),
        _ => None,
    }
}

/// Two accesses of one task on one cell.
pub fn combine(a: Hold, b: Hold) -> Hold {
    let kind = if a.0 == b.0 { a.0 } else { Kind::Inout };
    (kind, a.1 || b.1)
}

/// Whether two kinds conflict.
pub fn conflict(a: Kind, b: Kind) -> bool {
    !matches!(
        (a, b),
        (Kind::In, Kind::In)
            | (Kind::Concurrent, Kind::Concurrent)
            | (Kind::Commutative, Kind::Commutative)
    )
}

/// Whether a parent's kind covers a child's.
pub fn covers(parent: Kind, child: Kind) -> bool {
    match parent {
        Kind::Inout => true,
        Kind::In | Kind::Out | Kind::Concurrent => parent == child,
        Kind::Commutative => false,
    }
}

/// Whether a kind, held strongly, lets the task make the step.
pub fn fits(kind: Kind, step: Step) -> bool {
    match kind {
        Kind::In => step == Step::Read,
        Kind::Out => step == Step::Write,
        Kind::Inout => true,
        Kind::Concurrent | Kind::Commutative => step == Step::Update,
    }
}

/// The kind that a step counts as beside what descendants hold (question 16).
pub fn counts_as(step: Step) -> Kind {
    match step {
        Step::Read => Kind::In,
        Step::Write => Kind::Out,
        Step::Update => Kind::Concurrent,
    }
}

#[cfg(test)]
mod tests {
    use super::*;

    const ALL: [Kind; 5] =
        [Kind::In, Kind::Out, Kind::Inout, Kind::Concurrent, Kind::Commutative];

    #[test]
    fn only_codes_1_to_8_are_kinds() {
        for code in 0..=300 {
            assert_eq!(decode(code).is_some(), (1..=8).contains(&code));
        }
        assert_eq!(decode(3), Some((Kind::Inout, true)));
        assert_eq!(decode(6), Some((Kind::In, false)));
    }

    #[test]
    fn combining_does_not_depend_on_order_or_repetition() {
        let holds: Vec<Hold> = (1..=8).filter_map(decode).collect();
        for &a in &holds {
            assert_eq!(combine(a, a), a);
            for &b in &holds {
                assert_eq!(combine(a, b), combine(b, a));
                assert_eq!(combine(combine(a, b), b), combine(a, b));
                for &c in &holds {
                    assert_eq!(combine(combine(a, b), c), combine(a, combine(b, c)));
                }
            }
        }
        assert_eq!(combine((Kind::In, false), (Kind::In, true)), (Kind::In, true));
        assert_eq!(combine((Kind::In, false), (Kind::Out, false)), (Kind::Inout, false));
    }

    #[test]
    fn conflict_covering_and_fitting() {
        for a in ALL {
            for b in ALL {
                let peace = a == b && a != Kind::Out && a != Kind::Inout;
                assert_eq!(conflict(a, b), !peace);
                let covered = a == Kind::Inout || (a == b && a != Kind::Commutative);
                assert_eq!(covers(a, b), covered);
            }
        }
        let fitting = |k| {
            [Step::Read, Step::Write, Step::Update].map(|s| fits(k, s))
        };
        assert_eq!(fitting(Kind::In), [true, false, false]);
        assert_eq!(fitting(Kind::Out), [false, true, false]);
        assert_eq!(fitting(Kind::Inout), [true, true, true]);
        assert_eq!(fitting(Kind::Concurrent), [false, false, true]);
        assert_eq!(fitting(Kind::Commutative), [false, false, true]);
    }
}
