//! The anchor: an unverified checker of cube-and-conquer bundles (an iCNF text and text LRAT
//! proofs), written for speed. It takes the words FILE, `--workers`, `--cut` and `--proofs` of the
//! program that it is compared with, and prints the same report; `--stats` prints what was counted
//! on standard error. `--cut` is read and not used.
#![deny(unsafe_code)]
mod assignment;
mod bundle;
mod checker;
mod clauses;
mod crew;
mod formula;
mod index;
mod input;
mod literal;
mod numbers;
mod report;
mod scan;
mod text;
mod tokens;
mod tree;
mod vectors;
mod words;

use bundle::Bundle;
use checker::Counts;
use std::io::Write;
use std::path::Path;
use words::Words;

fn main() {
    if !vectors::are_supported() {
        stop(
            "anchor: a processor without AVX2, BMI, LZCNT or POPCNT",
            127,
        );
    }
    let words = Words::read(std::env::args_os().skip(1)).unwrap_or_else(|| stop(words::USAGE, 2));
    let mut text = input::read(words.file.as_deref()).unwrap_or_else(|_| device());
    if let Some(folder) = &words.proofs {
        let names: Vec<String> = read_bundle(&text).leaves().collect();
        let bytes = input::with_proofs(text.into_owned(), Path::new(folder), &names);
        text = bytes.unwrap_or_else(|_| device()).into();
    }
    let bundle = read_bundle(&text);
    let all = crew::judge_all(&bundle, words.workers).unwrap_or_else(|_| fail("F14 thread", 4));
    let (report, refuted) = report::report(&bundle.tree, &all.0);
    if words.stats {
        print_counts(all.1, bundle.tree.nodes.len());
    }
    std::io::stdout()
        .write_all(report.as_bytes())
        .unwrap_or_else(|_| device());
    std::process::exit(if refuted { 0 } else { 1 });
}

fn read_bundle(text: &[u8]) -> Bundle<'_> {
    Bundle::read(text).unwrap_or_else(|fault| fail(&fault, 3))
}

fn print_counts(counts: Counts, nodes: usize) {
    let Counts {
        steps,
        additions,
        deleted,
        rats,
        groups,
    } = counts;
    eprintln!(
        "steps {steps} additions {additions} deleted {deleted} rats {rats} groups {groups} \
         nodes {nodes}"
    );
}

fn device() -> ! {
    fail("F13 device", 5)
}

fn fail(fault: &str, status: i32) -> ! {
    stop(&format!("cubeboard: {fault}"), status)
}

fn stop(line: &str, status: i32) -> ! {
    let _ = writeln!(std::io::stderr(), "{line}");
    std::process::exit(status)
}
