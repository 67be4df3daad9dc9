use super::{Action, Cube, Point, Ranges, Refused};

pub const SPLITS: usize = 64;
const TOTAL: u64 = 1 << 53;

#[derive(Clone, Copy, Debug)]
pub enum Kind {
    Leaf {
        action: Action,
        mark: bool,
    },
    /// The number of the first of its eight children, and the action and mark that it had when split.
    Parent {
        child: usize,
        action: Action,
        mark: bool,
    },
}

#[derive(Clone, Copy, Debug)]
pub struct Node {
    pub cube: Cube,
    pub kind: Kind,
}

#[derive(Clone, Debug)]
pub struct Tree {
    pub nodes: Vec<Node>,
    /// The node of each split, in order.
    pub splits: Vec<usize>,
}

impl Tree {
    pub fn new(ends: Point, action: Action) -> Tree {
        Tree {
            nodes: vec![Node { cube: Cube::root(ends), kind: Kind::Leaf { action, mark: false } }],
            splits: Vec::new(),
        }
    }

    pub fn leaf(&self, node: usize) -> Result<(Action, bool), Refused> {
        match self.nodes.get(node).map(|n| n.kind) {
            Some(Kind::Leaf { action, mark }) => Ok((action, mark)),
            _ => Err(3),
        }
    }

    pub fn leaves(&self) -> impl Iterator<Item = (usize, Action, bool)> + '_ {
        self.nodes.iter().enumerate().filter_map(|(i, n)| match n.kind {
            Kind::Leaf { action, mark } => Some((i, action, mark)),
            Kind::Parent { .. } => None,
        })
    }

    pub fn reached(&self, point: &Point) -> Option<usize> {
        if !self.nodes[0].cube.contains(point) {
            return None;
        }
        let mut node = 0;
        while let Kind::Parent { child, .. } = self.nodes[node].kind {
            node = (child..child + 8).find(|&c| self.nodes[c].cube.contains(point))?;
        }
        Some(node)
    }

    /// The cubes that a lookup tests: the root's, then those of children in order up to the one that holds the point.
    pub fn tested(&self, point: &Point) -> usize {
        let mut tested = 1;
        if self.nodes[0].cube.contains(point) {
            let mut node = 0;
            while let Kind::Parent { child, .. } = self.nodes[node].kind {
                let place =
                    (0..8).find(|k| self.nodes[child + k].cube.contains(point)).expect("a child holds it");
                tested += place + 1;
                node = child + place;
            }
        }
        tested
    }

    /// The leaves that some point within the ranges reaches, for a list with so many places. Where there is
    /// such a point, the one of the greater lower ends is one.
    pub fn leaves_within(&self, ranges: &Ranges, places: usize) -> Result<Vec<usize>, Refused> {
        if ranges.iter().any(|[lowest, highest]| lowest.is_nan() || highest.is_nan() || lowest > highest) {
            return Err(28);
        }
        let within = |cube: &Cube| {
            let point: Point = std::array::from_fn(|axis| cube.min[axis].max(ranges[axis][0]));
            cube.contains(&point) && (0..3).all(|axis| point[axis] <= ranges[axis][1])
        };
        let found: Vec<usize> =
            self.leaves().map(|leaf| leaf.0).filter(|&node| within(&self.nodes[node].cube)).collect();
        if found.len() > places {
            return Err(29);
        }
        Ok(found)
    }

    pub fn lookup(&self, point: &Point) -> Option<Action> {
        self.reached(point).map(|node| self.leaf(node).unwrap().0)
    }

    pub fn lookup_replaced(
        &self,
        leaf: usize,
        action: Action,
        point: &Point,
    ) -> Result<Option<Action>, Refused> {
        self.leaf(leaf)?;
        if !action.valid() {
            return Err(1);
        }
        Ok(self.reached(point).map(|node| if node == leaf { action } else { self.leaf(node).unwrap().0 }))
    }

    pub fn split(&mut self, node: usize) -> Result<(), Refused> {
        let (action, mark) = self.leaf(node)?;
        if self.splits.len() == SPLITS {
            return Err(20);
        }
        let child = self.nodes.len();
        for cube in self.nodes[node].cube.split() {
            let kind = Kind::Leaf { action, mark: false };
            self.nodes.push(Node { cube, kind });
        }
        self.nodes[node].kind = Kind::Parent { child, action, mark };
        self.splits.push(node);
        Ok(())
    }

    /// The newest split taken back: its node is the leaf that it was.
    pub fn undo_split(&self) -> Result<Tree, Refused> {
        let mut tree = self.clone();
        let node = tree.splits.pop().ok_or(24u32)?;
        let (action, mark) = tree.held(node);
        tree.nodes.truncate(1 + 8 * tree.splits.len());
        tree.nodes[node].kind = Kind::Leaf { action, mark };
        Ok(tree)
    }

    /// What a node holds, leaf or parent.
    pub fn held(&self, node: usize) -> (Action, bool) {
        match self.nodes[node].kind {
            Kind::Leaf { action, mark } | Kind::Parent { action, mark, .. } => (action, mark),
        }
    }

    /// Sets what a node holds, leaf or parent.
    pub fn hold(&mut self, node: usize, new: (Action, bool)) {
        match &mut self.nodes[node].kind {
            Kind::Leaf { action, mark } | Kind::Parent { action, mark, .. } => (*action, *mark) = new,
        }
    }

    pub fn set_action(&mut self, leaf: usize, new: Action) {
        if let Kind::Leaf { action, .. } = &mut self.nodes[leaf].kind {
            *action = new;
        }
    }

    pub fn mark(&mut self, leaf: usize) {
        if let Kind::Leaf { mark, .. } = &mut self.nodes[leaf].kind {
            *mark = true;
        }
    }

    pub fn clear_marks(&mut self) {
        for node in &mut self.nodes {
            if let Kind::Leaf { mark, .. } = &mut node.kind {
                *mark = false;
            }
        }
    }

    /// One count per node, none above 0 at a parent, at most 2^53 together. Gives the total.
    pub fn check_counts(&self, counts: &[u64]) -> Result<u64, Refused> {
        if counts.len() != self.nodes.len() {
            return Err(4);
        }
        let mut total = 0u64;
        for (node, &count) in self.nodes.iter().zip(counts) {
            if matches!(node.kind, Kind::Parent { .. }) && count > 0 {
                return Err(4);
            }
            total = total.checked_add(count).ok_or(4u32)?;
        }
        if total > TOTAL {
            return Err(4);
        }
        Ok(total)
    }

    pub fn num_used_rules(counts: &[u64]) -> usize {
        counts.iter().filter(|&&count| count > 0).count()
    }

    fn greatest(counts: &[u64], leaves: impl Iterator<Item = usize>) -> Option<usize> {
        let mut best: Option<usize> = None;
        for node in leaves {
            if best.is_none_or(|b| counts[node] >= counts[b]) {
                best = Some(node);
            }
        }
        best
    }

    pub fn most_used(&self, counts: &[u64]) -> usize {
        Self::greatest(counts, self.leaves().map(|l| l.0)).expect("a tree has a leaf")
    }

    pub fn most_used_unmarked(&self, counts: &[u64]) -> Option<usize> {
        Self::greatest(counts, self.leaves().filter(|l| !l.2).map(|l| l.0))
    }

    /// Adds one to the reached leaf's entry. The node, or none outside.
    pub fn tally(&self, counts: &mut [u64], point: &Point) -> Result<Option<usize>, Refused> {
        let total = self.check_counts(counts)?;
        match self.reached(point) {
            Some(_) if total == TOTAL => Err(23),
            Some(node) => {
                counts[node] += 1;
                Ok(Some(node))
            }
            None => Ok(None),
        }
    }

    pub fn equal(&self, other: &Tree) -> bool {
        self.equal_from(0, other, 0)
    }

    fn equal_from(&self, at: usize, other: &Tree, other_at: usize) -> bool {
        let (left, right) = (&self.nodes[at], &other.nodes[other_at]);
        let same_cube = left.cube.min == right.cube.min && left.cube.max == right.cube.max;
        same_cube
            && match (left.kind, right.kind) {
                (Kind::Leaf { action: l, .. }, Kind::Leaf { action: r, .. }) => l.equal(&r),
                (Kind::Parent { child: l, .. }, Kind::Parent { child: r, .. }) => {
                    (0..8).all(|c| self.equal_from(l + c, other, r + c))
                }
                _ => false,
            }
    }
}
