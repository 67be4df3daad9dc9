//! The even tree: the root split, then nodes 1 to 8 in order.

use super::{tree_of, Action, Point, Tree, USUAL_ENDS};

pub fn even_tree() -> Tree {
    let action = Action { multiplier: 1.0, increment: 0, delay: 0.0 };
    let splits: Vec<u16> = (0..9).collect();
    tree_of(USUAL_ENDS, action, &splits).expect("a leaf at each split")
}

/// The row that holds a point: row 0 is node 9.
pub fn even_row(point: &Point) -> Option<usize> {
    even_tree().reached(point).map(|node| node - 9)
}
