//! The findings of all sections, by workers that each take the next one.
use crate::bundle::{Bundle, Section};
use crate::checker::{Checker, Counts, Finding};
use crate::tokens::Tokens;
use std::cmp::Reverse;
use std::sync::Mutex;
use std::sync::atomic::{AtomicUsize, Ordering};

/// The findings by node, and what was counted. The error is that of a worker that couldn't start.
pub fn judge_all(bundle: &Bundle, workers: usize) -> std::io::Result<(Vec<Finding>, Counts)> {
    let next = AtomicUsize::new(0);
    let order = order_of(bundle, workers);
    let all = Mutex::new((
        vec![Finding::Open; bundle.tree.nodes.len()],
        Counts::default(),
    ));
    let work = || {
        let (found, counts) = judge_some(bundle, &order, &next);
        let mut all = all.lock().unwrap_or_else(|poisoned| poisoned.into_inner());
        found
            .into_iter()
            .for_each(|(node, finding)| all.0[node as usize] = finding);
        add(&mut all.1, counts);
    };
    let others = 1..workers.min(bundle.sections.len());
    std::thread::scope(|scope| {
        for _ in others {
            std::thread::Builder::new().spawn_scoped(scope, work)?;
        }
        work();
        Ok::<(), std::io::Error>(())
    })?;
    Ok(all
        .into_inner()
        .unwrap_or_else(|poisoned| poisoned.into_inner()))
}

/// The sections in the order in which they are taken: with several workers the longest first, so
/// that none is left with a long one at the end.
fn order_of<'a>(bundle: &'a Bundle, workers: usize) -> Vec<&'a Section> {
    let mut order: Vec<&Section> = bundle.sections.iter().collect();
    if workers > 1 {
        order.sort_by_key(|section| Reverse(section.proof.len()));
    }
    order
}

/// Judges sections until there is none that nobody has taken.
fn judge_some(
    bundle: &Bundle,
    order: &[&Section],
    next: &AtomicUsize,
) -> (Vec<(u32, Finding)>, Counts) {
    let mut checker = Checker::new(&bundle.formula);
    let mut tokens = Tokens::new(bundle.text, 0..0);
    let (mut found, mut path) = (Vec::new(), Vec::new());
    while let Some(section) = order.get(next.fetch_add(1, Ordering::Relaxed)) {
        bundle.tree.path_of(section.node, &mut path);
        tokens.start(bundle.text, section.proof.clone());
        let finding = checker.judge(&path, &mut tokens, section.proof.len());
        found.push((section.node, finding));
    }
    (found, checker.counts)
}

fn add(all: &mut Counts, more: Counts) {
    all.steps += more.steps;
    all.additions += more.additions;
    all.deleted += more.deleted;
    all.rats += more.rats;
    all.groups += more.groups;
}
