//! The splitting tree of the cubes.

pub const NONE: u32 = u32::MAX;

/// A literal leads here from the parent, 0 at the root. The children are the positive and the
/// negative branch, NONE at a leaf.
pub struct Node {
    pub parent: u32,
    pub literal: u32,
    pub depth: u32,
    pub children: [u32; 2],
}

/// Nodes stand in tree order: a node before its branches, the positive branch first.
pub struct Tree {
    pub nodes: Vec<Node>,
    /// The node of each cube, and of each missing leaf.
    pub cubes: Vec<u32>,
    pub missing: Vec<u32>,
}

impl Tree {
    pub fn is_leaf(&self, node: u32) -> bool {
        self.nodes[node as usize].children[0] == NONE
    }

    /// Writes the literals from the root to this node.
    pub fn path_of(&self, mut node: u32, path: &mut Vec<u32>) {
        path.clear();
        while node != 0 {
            path.push(self.nodes[node as usize].literal);
            node = self.nodes[node as usize].parent;
        }
        path.reverse();
    }

    /// The inner node with this path.
    pub fn node_of(&self, path: &[u32]) -> Option<u32> {
        let mut at = 0;
        for &literal in path {
            at = self.nodes[at as usize].children[side_of(literal)];
            if at == NONE || self.nodes[at as usize].literal != literal {
                return None;
            }
        }
        (!self.is_leaf(at)).then_some(at)
    }

    /// How much of the whole a leaf or an inner node of this depth is: a part of 2^60, and at least
    /// 1.
    pub fn weight(&self, node: u32) -> u64 {
        1 << 60u32.saturating_sub(self.nodes[node as usize].depth)
    }

    /// Adds a node; the root has the parent NONE.
    fn push(&mut self, parent: u32, literal: u32) -> u32 {
        let node = self.nodes.len() as u32;
        let mut depth = 0;
        if let Some(above) = self.nodes.get_mut(parent as usize) {
            above.children[side_of(literal)] = node;
            depth = above.depth + 1;
        }
        self.nodes.push(Node {
            parent,
            literal,
            depth,
            children: [NONE; 2],
        });
        node
    }
}

/// 0 for the positive branch, 1 for the negative one.
fn side_of(literal: u32) -> usize {
    (literal & 1) as usize
}

/// A node while the cubes are read: the literal of its positive branch, 0 before there is one; the
/// first cube that came here; and whether a cube ends here.
struct Fork {
    split: u32,
    children: [u32; 2],
    least: u32,
    ended: bool,
}

impl Fork {
    fn new(cube: usize) -> Self {
        Fork {
            split: 0,
            children: [NONE; 2],
            least: cube as u32,
            ended: false,
        }
    }
}

pub fn build_tree(cubes: &[Vec<u32>]) -> Result<Tree, String> {
    let mut forks = Vec::new();
    for (k, cube) in cubes.iter().enumerate() {
        add_cube(&mut forks, k, cube)?;
    }
    Ok(tree_of(&forks, cubes.len()))
}

/// Adds the cube with this number, counted from 0, or tells the first one that it clashes with.
fn add_cube(forks: &mut Vec<Fork>, k: usize, cube: &[u32]) -> Result<(), String> {
    if forks.is_empty() {
        forks.push(Fork::new(k));
    }
    let mut at = 0;
    for &literal in cube {
        let fork = &forks[at];
        if fork.ended {
            return Err(overlap(fork, k));
        }
        if fork.split != 0 && fork.split != literal & !1 {
            return Err(format!(
                "F8 cubes {} and {} are not of one tree",
                fork.least + 1,
                k + 1
            ));
        }
        let mut next = fork.children[side_of(literal)] as usize;
        if next == NONE as usize {
            next = forks.len();
            forks[at].split = literal & !1;
            forks[at].children[side_of(literal)] = next as u32;
            forks.push(Fork::new(k));
        }
        at = next;
    }
    let fork = &mut forks[at];
    if fork.ended {
        return Err(format!("F7 cube {} repeats", k + 1));
    }
    if fork.split != 0 {
        return Err(overlap(fork, k));
    }
    fork.ended = true;
    Ok(())
}

fn overlap(fork: &Fork, k: usize) -> String {
    format!("F9 cubes {} and {} overlap", fork.least + 1, k + 1)
}

/// The tree in its order: a branch that no cube took is a missing leaf.
fn tree_of(forks: &[Fork], cubes: usize) -> Tree {
    let nodes = Vec::with_capacity(forks.len() * 2 + 1);
    let mut tree = Tree {
        nodes,
        cubes: vec![0; cubes],
        missing: Vec::new(),
    };
    let mut stack = vec![(0, NONE, 0)];
    while let Some((fork, parent, literal)) = stack.pop() {
        let node = tree.push(parent, literal);
        match forks.get(fork as usize) {
            None => tree.missing.push(node),
            Some(fork) if fork.ended => tree.cubes[fork.least as usize] = node,
            Some(fork) => {
                stack.push((fork.children[1], node, fork.split | 1));
                stack.push((fork.children[0], node, fork.split));
            }
        }
    }
    tree
}
