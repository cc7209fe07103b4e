//! A bundle: its formula, its tree, and the sections below its label lines.
use crate::formula::{Formula, read_icnf};
use crate::literal::{code, is_literal_or_end};
use crate::text::{find_byte, is_blank, line_at, line_of, number_of, words_of};
use crate::tree::{Tree, build_tree};
use std::ops::Range;

/// The proof of a node: where its text stands.
pub struct Section {
    pub node: u32,
    pub proof: Range<usize>,
}

pub struct Bundle<'a> {
    pub text: &'a [u8],
    pub formula: Formula,
    pub tree: Tree,
    pub sections: Vec<Section>,
}

impl<'a> Bundle<'a> {
    /// The bundle that the text has, or the first fault.
    pub fn read(text: &'a [u8]) -> Result<Self, String> {
        let mut label = next_label(text, 0);
        let (formula, cubes) = read_icnf(text, start_of(&label, text))?;
        let tree = build_tree(&cubes)?;
        let mut sections: Vec<Section> = Vec::new();
        let mut named = vec![false; tree.nodes.len()];
        while let Some(line) = label {
            let words: Vec<&[u8]> = words_of(&text[line.clone()]).skip(1).collect();
            let node = node_of(&words, &tree).and_then(|node| {
                let again = std::mem::replace(&mut named[node as usize], true);
                if again {
                    Err("F12 second proof")
                } else {
                    Ok(node)
                }
            });
            let at = line.start;
            let node = node.map_err(|fault| format!("{fault}, line {}", line_of(text, at)))?;
            label = next_label(text, line.end);
            sections.push(Section {
                node,
                proof: line.end..start_of(&label, text),
            });
        }
        Ok(Bundle {
            text,
            formula,
            tree,
            sections,
        })
    }

    /// The names of all leaves, as label lines and files of proofs have them.
    pub fn leaves(&self) -> impl Iterator<Item = String> {
        let cubes = (1..=self.tree.cubes.len()).map(|k| k.to_string());
        cubes.chain((1..=self.tree.missing.len()).map(|j| format!("m{j}")))
    }
}

/// Where the label line begins; the text's end without one.
fn start_of(label: &Option<Range<usize>>, text: &[u8]) -> usize {
    label.as_ref().map_or(text.len(), |line| line.start)
}

/// The next line from `from` on, a line's start, whose first word is `l`, with its end.
fn next_label(text: &[u8], mut from: usize) -> Option<Range<usize>> {
    loop {
        let place = from + find_byte(&text[from..], b'l')?;
        let start = text[..place]
            .iter()
            .rposition(|&byte| byte == b'\n')
            .map_or(0, |n| n + 1);
        let end = place + line_at(&text[place..]).len();
        let first = text[start..place].iter().all(|&byte| is_blank(byte));
        let alone = text.get(place + 1).is_none_or(|&byte| is_blank(byte));
        from = (end + 1).min(text.len());
        if first && alone {
            return Some(start..from);
        }
    }
}

/// The node that the words of a label line name, those behind `l`; otherwise the fault, without its
/// line.
fn node_of(words: &[&[u8]], tree: &Tree) -> Result<u32, &'static str> {
    let bad = "F10 bad label";
    match words {
        [b"n", path @ ..] => {
            let path: Option<Vec<i64>> = path.iter().map(|word| number_of(word)).collect();
            inner_node(&path.ok_or(bad)?, tree)
        }
        [name] => {
            let (leaves, digits) = match name.strip_prefix(b"m") {
                Some(digits) => (&tree.missing, digits),
                None => (&tree.cubes, *name),
            };
            let number = number_of(digits).filter(|&number| number >= 0).ok_or(bad)?;
            let place = (number as usize).wrapping_sub(1);
            leaves.get(place).copied().ok_or("F11 no such leaf")
        }
        _ => Err(bad),
    }
}

/// The inner node with this path, behind which a 0 stands.
fn inner_node(numbers: &[i64], tree: &Tree) -> Result<u32, &'static str> {
    match numbers.split_last() {
        Some((0, path)) if !path.contains(&0) => {
            if !path.iter().all(|&number| is_literal_or_end(number)) {
                return Err("F11 no such leaf");
            }
            let path: Vec<u32> = path.iter().map(|&number| code(number)).collect();
            tree.node_of(&path).ok_or("F11 no such leaf")
        }
        _ => Err("F10 bad label"),
    }
}
