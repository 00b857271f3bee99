//! The small world and its pattern A, for the tests.

use bahrufaz::{Constraint, Draft, Operator, Pattern, PatternBytes, Store};

pub fn world() -> Draft {
    Draft {
        nodes: vec![(1, 1), (1, 2), (2, 46), (2, 44), (3, 10), (4, 100), (4, 101)],
        edges: vec![(6, 2), (0, 2), (1, 3), (4, 5), (4, 6), (5, 3)],
        constraints: vec![
            Constraint::new(&[], 1, 2),
            Constraint::new(&[1], 2, 1),
            Constraint::new(&[2], 4, 4),
            Constraint::new(&[4], 3, 1),
        ],
    }
}

pub fn store() -> Store<'static> {
    world().build().expect("a store")
}

pub fn pattern_a() -> PatternBytes<'static> {
    let pattern = Pattern::plain(&[1, 2, 4, 3], &[(0, 1), (2, 1), (3, 2)]);
    pattern.with(0, Operator::Equal, 2).and_then(|pattern| pattern.bytes()).expect("a pattern")
}
