//! `choose`: writes the cases of the fixed list to standard output, as a batch, and what they
//! show to standard error.
//!
//! From a pool that a fixed seed gives, shortest first, a case is taken if it shows something
//! that fewer than `EACH` cases taken before show. Then some longer ones are added as they come.

mod features;

use features::{Features, features};
use refer::read::{Cursor, Func};
use std::collections::BTreeMap;
use std::io::{self, Write};

const SEED: u64 = 20_250_816;
const EACH: usize = 1;
/// Longer cases of each kind.
const LONG: usize = 8;

/// How many random cases of each kind, and each how many-th of the exhaustive ones, are there to
/// choose from.
const POOL: [(&str, u64); 6] = [
    ("structured", 4000),
    ("unstructured", 6000),
    ("mixed", 4000),
    ("wild", 8000),
    ("imported", 300),
    ("ended", 4000),
];
const SAMPLED: [(&str, usize); 2] = [("skeletons", 7), ("graphs", 101)];

/// Document 01's starred texts that are accepted, with W3, W4 and W7 of document 02; the one with
/// two equal targets is by an instruction, as `bool` may not have them any more.
const STARRED: &str = include_str!("../starred.batch");

/// The cases taken so far, and how often each thing is shown.
#[derive(Default)]
struct Choice {
    cases: Vec<Vec<u8>>,
    seen: BTreeMap<String, usize>,
}

impl Choice {
    fn take(&mut self, case: &[u8]) {
        for feature in found(case) {
            *self.seen.entry(feature).or_default() += 1;
        }
        self.cases.push(case.to_vec());
    }

    fn is_new(&self, case: &[u8]) -> bool {
        found(case).iter().any(|feature| self.seen.get(feature).is_none_or(|count| *count < EACH))
    }
}

fn main() -> io::Result<()> {
    let mut choice = Choice::default();
    STARRED.split_terminator("%%\n").for_each(|case| choice.take(case.as_bytes()));

    let mut pool: Vec<Vec<u8>> = vec![];
    for (kind, count) in POOL {
        pool.extend((0..count).filter_map(|i| generate::random(kind, SEED, i)));
    }
    for (kind, step) in SAMPLED {
        pool.extend(generate::fixed(kind).into_iter().flatten().step_by(step));
    }
    pool.sort_by(|a, b| a.len().cmp(&b.len()).then_with(|| a.cmp(b)));
    pool.dedup();
    // What 13 refuses is not the Rust's to answer.
    pool.retain(|case| !read(case).1.equal_bool_targets());
    for case in &pool {
        if choice.is_new(case) {
            choice.take(case);
        }
    }
    for kind in ["structured", "unstructured", "wild", "ended"] {
        let long = (0..).filter_map(|i| generate::random(kind, SEED + 1, i));
        long.filter(|case| (1_200..2_000).contains(&case.len()))
            .take(LONG)
            .for_each(|case| choice.take(&case));
    }

    let mut out = io::BufWriter::new(io::stdout().lock());
    for case in &choice.cases {
        out.write_all(case)?;
        writeln!(out, "%%")?;
    }
    out.flush()?;
    for (feature, count) in &choice.seen {
        eprintln!("{count} {feature}");
    }
    Ok(())
}

fn found(case: &[u8]) -> Features {
    let (first, func) = read(case);
    features(&func, first)
}

/// The first id and the function.
fn read(case: &[u8]) -> (u32, Func) {
    let mut cursor = Cursor(case);
    (cursor.first().unwrap(), cursor.func().unwrap())
}
