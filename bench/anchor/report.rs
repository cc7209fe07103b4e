//! The report: what is known of each leaf, what of the tree is open, and the answer.
use crate::checker::{Finding, Reason};
use crate::literal::plain;
use crate::tree::{NONE, Tree};
use std::fmt::Write as _;

/// Which nodes are refuted, by the findings.
struct Marks {
    /// The node is refuted itself, or both branches are, or it lies below such a node.
    covered: Vec<bool>,
    /// Nothing above, below or at the node is refuted.
    wholly_open: Vec<bool>,
    /// The root is refuted, or both of its branches are.
    refuted: bool,
}

impl Marks {
    fn new(tree: &Tree, found: &[Finding]) -> Self {
        let nodes = &tree.nodes;
        // Of a node and what is below it: whether it is refuted, and whether anything is.
        let (mut marked, mut touched) = (vec![false; nodes.len()], vec![false; nodes.len()]);
        for n in (0..nodes.len()).rev() {
            let of = |list: &[bool]| nodes[n].children.map(|c| c != NONE && list[c as usize]);
            marked[n] = found[n] == Finding::Refuted || of(&marked) == [true; 2];
            touched[n] = marked[n] || of(&touched) != [false; 2];
        }
        let refuted = marked[0];
        let covered = with_all_below(tree, marked);
        let wholly_open = covered
            .iter()
            .zip(touched)
            .map(|(&above, below)| !above && !below);
        Marks {
            wholly_open: wholly_open.collect(),
            covered,
            refuted,
        }
    }
}

/// The nodes that are marked, or below one that is.
fn with_all_below(tree: &Tree, mut marked: Vec<bool>) -> Vec<bool> {
    for n in 1..marked.len() {
        marked[n] |= marked[tree.nodes[n].parent as usize];
    }
    marked
}

/// The report's text as it grows.
struct Report<'a> {
    tree: &'a Tree,
    text: String,
    path: Vec<u32>,
}

/// The report, and whether it says that all is refuted.
pub fn report(tree: &Tree, found: &[Finding]) -> (String, bool) {
    let marks = Marks::new(tree, found);
    let mut report = Report {
        tree,
        text: String::new(),
        path: Vec::new(),
    };
    report.put_cubes(found);
    report.put_missing_leaves(found);
    report.put_inner(found);
    report.put_open_branches(&marks);
    let open = leaves_of(tree).filter(|&leaf| !marks.covered[leaf as usize]);
    report.put(format_args!(
        "w {}\n",
        open.map(|leaf| tree.weight(leaf)).sum::<u64>()
    ));
    report.put(format_args!(
        "{}\n",
        if marks.refuted { "s REFUTED" } else { "s OPEN" }
    ));
    (report.text, marks.refuted)
}

fn leaves_of(tree: &Tree) -> impl Iterator<Item = u32> {
    tree.cubes.iter().chain(&tree.missing).copied()
}

impl Report<'_> {
    fn put(&mut self, text: std::fmt::Arguments) {
        let _ = self.text.write_fmt(text);
    }

    /// The totals, and the cubes.
    fn put_cubes(&mut self, found: &[Finding]) {
        let tree = self.tree;
        let total: u64 = leaves_of(tree).map(|leaf| tree.weight(leaf)).sum();
        self.put(format_args!(
            "t {} {} {total}\n",
            tree.cubes.len(),
            tree.missing.len()
        ));
        for (&node, k) in tree.cubes.iter().zip(1..) {
            self.put(format_args!("a {k} "));
            self.put_finding(found[node as usize]);
        }
    }

    fn put_missing_leaves(&mut self, found: &[Finding]) {
        for (&node, j) in self.tree.missing.iter().zip(1..) {
            self.put(format_args!("m {j} "));
            self.put_path(node);
            self.put(format_args!(" "));
            self.put_finding(found[node as usize]);
        }
    }

    fn put_inner(&mut self, found: &[Finding]) {
        for (node, &finding) in (0..).zip(found) {
            if finding != Finding::Open && !self.tree.is_leaf(node) {
                self.put(format_args!("n "));
                self.put_path(node);
                self.put(format_args!(" "));
                self.put_finding(finding);
            }
        }
    }

    /// The open branches: the nodes that are wholly open, but for those below another.
    fn put_open_branches(&mut self, marks: &Marks) {
        for (node, at) in (0..).zip(&self.tree.nodes) {
            let open_above = marks
                .wholly_open
                .get(at.parent as usize)
                .is_some_and(|&open| open);
            if marks.wholly_open[node as usize] && !open_above {
                self.put(format_args!("o "));
                self.put_path(node);
                self.put(format_args!("\n"));
            }
        }
    }

    fn put_path(&mut self, node: u32) {
        let mut path = std::mem::take(&mut self.path);
        self.tree.path_of(node, &mut path);
        for &literal in &path {
            self.put(format_args!("{} ", plain(literal)));
        }
        self.put(format_args!("0"));
        self.path = path;
    }

    fn put_finding(&mut self, finding: Finding) {
        match finding {
            Finding::Open => self.put(format_args!("open\n")),
            Finding::Refuted => self.put(format_args!("refuted\n")),
            Finding::Rejected(step, reason) => {
                self.put(format_args!("rejected {step} {}\n", name_of(reason)));
            }
        }
    }
}

fn name_of(reason: Reason) -> &'static str {
    match reason {
        Reason::Unreadable => "unreadable",
        Reason::Id => "id",
        Reason::Hint => "hint",
        Reason::Unit => "unit",
        Reason::Empty => "empty",
        Reason::Group => "group",
        Reason::Candidate => "candidate",
        Reason::End => "end",
    }
}
