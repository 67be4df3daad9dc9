//! Bytes that a tree holds. Theirs are counted at the allocator, ours are a value without allocations.

use std::{
    alloc::{GlobalAlloc, Layout, System},
    sync::atomic::{AtomicBool, AtomicUsize, Ordering::Relaxed},
};

use flowforge::ccas::remy::rule_tree::{RuleTree, RuleTreeNode};

use crate::{
    rust::{grow, to_action},
    table::{thousands, Table},
    trees::Grown,
};

/// The system's allocator, which counts while it is asked to.
struct Counting;

static COUNTS: AtomicBool = AtomicBool::new(false);
static LIVE: AtomicUsize = AtomicUsize::new(0);

unsafe impl GlobalAlloc for Counting {
    unsafe fn alloc(&self, layout: Layout) -> *mut u8 {
        if COUNTS.load(Relaxed) {
            LIVE.fetch_add(layout.size(), Relaxed);
        }
        System.alloc(layout)
    }

    unsafe fn dealloc(&self, at: *mut u8, layout: Layout) {
        if COUNTS.load(Relaxed) {
            LIVE.fetch_sub(layout.size(), Relaxed);
        }
        System.dealloc(at, layout);
    }

    unsafe fn realloc(&self, at: *mut u8, layout: Layout, size: usize) -> *mut u8 {
        if COUNTS.load(Relaxed) {
            LIVE.fetch_add(size, Relaxed);
            LIVE.fetch_sub(layout.size(), Relaxed);
        }
        System.realloc(at, layout, size)
    }
}

#[global_allocator]
static ALLOCATOR: Counting = Counting;

/// A tree, and the bytes of the value and of what it has allocated and not given back.
fn held(make: impl FnOnce() -> RuleTree) -> (RuleTree, usize) {
    LIVE.store(0, Relaxed);
    COUNTS.store(true, Relaxed);
    let tree = make();
    COUNTS.store(false, Relaxed);
    (tree, LIVE.load(Relaxed) + size_of::<RuleTree>())
}

/// 513 nodes of 24 bytes, the number of splits, which takes 8 with its padding, and three ends of 8.
const OURS: usize = 513 * 24 + 8 + 24;

const NODE: usize = size_of::<RuleTreeNode>();
const NUMBER: usize = size_of::<usize>();

pub fn rows(table: &mut Table, tree: &Grown) {
    let (original, full) = held(|| grow(&tree.trainer.settings, &tree.trainer.tree));
    let nodes = original.field_nodes();
    let room = |node: &RuleTreeNode| match node {
        RuleTreeNode::Node { children, .. } => children.capacity(),
        RuleTreeNode::Leaf { .. } => 0,
    };
    let rooms: usize = nodes.iter().map(room).sum();
    assert_eq!(full, size_of::<RuleTree>() + NODE * nodes.capacity() + NUMBER * rooms);
    let fitted = size_of::<RuleTree>() + NODE * nodes.len() + NUMBER * 8 * 64;
    let note = format!(
        "theirs is a list with room for {} nodes of {NODE} bytes and, in each parent, a list with room for {} \
         numbers of {NUMBER} bytes, of which 8 are used; lists that fit would make it {} bytes. Ours is a value \
         of {} bytes, {} of them fields, at any number of splits",
        thousands(nodes.capacity()),
        rooms / 64,
        thousands(fitted),
        thousands(OURS),
        thousands(513 * 24 + 2 + 24),
    );
    table.bytes("memory of a tree of 64 splits", OURS, full, &note);
    let (_, one) = held(|| RuleTree::default(to_action(&tree.trainer.settings.default)));
    table.bytes("memory of a tree of one leaf", OURS, one, "");
}
