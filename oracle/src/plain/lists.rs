//! Every small tree in turn: the lists of splits that grow one.

use super::{Action, Point, Refused, Tree, USUAL_ENDS};

/// The tree that a list of splits grows, each of a leaf then.
pub fn tree_of(ends: Point, action: Action, list: &[u16]) -> Result<Tree, Refused> {
    let mut tree = Tree::new(ends, action);
    list.iter().try_for_each(|node| tree.split(usize::from(*node)))?;
    Ok(tree)
}

fn with_each_leaf(list: &[u16]) -> Vec<Vec<u16>> {
    let action = Action { multiplier: 1.0, increment: 0, delay: 0.0 };
    let tree = tree_of(USUAL_ENDS, action, list).expect("a list that grows a tree");
    tree.leaves().map(|(node, ..)| [list, &[node as u16]].concat()).collect()
}

/// All lists of 0 to n splits, shorter first and then by their node numbers in order.
pub fn split_lists(n: u8) -> Vec<Vec<u16>> {
    let mut all = vec![Vec::new()];
    let mut longest = all.clone();
    for _ in 0..n {
        longest = longest.iter().flat_map(|list| with_each_leaf(list)).collect();
        all.extend(longest.iter().cloned());
    }
    all
}

/// The list after one of them; none after the last.
pub fn next_list(n: u8, list: &[u16]) -> Result<Option<Vec<u16>>, Refused> {
    if n > 3 {
        return Err(30);
    }
    let all = split_lists(n);
    let at = all.iter().position(|one| one == list).ok_or(30u32)?;
    Ok(all.get(at + 1).cloned())
}
