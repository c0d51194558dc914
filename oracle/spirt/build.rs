//! Cuts the Rust's own text out of `docs/src` into `OUT_DIR`, where `src/` includes it.
//!
//! Nothing is copied into the repository and no line is changed. Every file is checked against
//! the SHA-256 digest of the one that this harness was written for, so that a cut can only ever
//! be the text that was meant.

use std::path::{Path, PathBuf};
use std::{env, fs};

/// Where a cut ends.
enum End {
    /// With the item's closing brace, which rustfmt sets in the first column.
    Item,
    /// Right before the line that starts so.
    Before(&'static str),
    /// With the file.
    File,
}
use End::*;

struct Cut {
    /// The start of the first line that is cut, which is unique in the file.
    from: &'static str,
    end: End,
}

struct Source {
    path: &'static str,
    sha256: &'static str,
    /// The file in `OUT_DIR` and the cuts that make it up.
    pieces: &'static [(&'static str, &'static [Cut])],
}

const SOURCES: &[Source] = &[
    Source {
        path: "src/lib.rs",
        sha256: "43cfdca9a8e50bf85a901af491b9d550de2c55abeb859027e69eee0954553b30",
        // Every type of the IR, from the imports on.
        pieces: &[("lib.rs", &[Cut { from: "use smallvec::SmallVec;", end: File }])],
    },
    Source {
        path: "src/func_at.rs",
        sha256: "c4e67dead541e27d5805e8469d87154bc3c47b77306c0e3c286eda47cef4ab5c",
        pieces: &[("func_at.rs", &[Cut { from: "use crate::{", end: File }])],
    },
    Source {
        path: "src/cfg.rs",
        sha256: "f347f4f0589b5121b35a9a4331f0c4b4c9fe5e4d6b90d4cfd87f86f960168db8",
        // The control-flow graph and its traversal; what follows is the structurizer.
        pieces: &[(
            "cfg.rs",
            &[Cut {
                from: "/// The control-flow graph (CFG) of a function, as",
                end: Before("/// Minimal loop analysis"),
            }],
        )],
    },
    Source {
        path: "src/spv/mod.rs",
        sha256: "8adca1e5b3ee768c2e3455e9980898a2a3b964fbe83b2af3c42685c0f643b6c4",
        pieces: &[("spv.rs", &[Cut { from: "use crate::{FxIndexMap, InternedStr};", end: File }])],
    },
    Source {
        path: "src/spv/spec.rs",
        sha256: "cadf68fb2d7398cdb5c9c36e4174c45902e764e191dc3d99939d434238cdc462",
        pieces: &[(
            "spec.rs",
            &[
                Cut { from: "macro_rules! def_well_known {", end: Item },
                Cut { from: "def_well_known! {", end: Item },
            ],
        )],
    },
    Source {
        path: "src/spv/lift.rs",
        sha256: "f1d51dd32b7c2d61e8fcffa93779e7fadb3483a3dfd65e684c73c7aabf4e9c31",
        pieces: &[
            (
                "lift.rs",
                &[
                    Cut { from: "impl FuncDecl {", end: Item },
                    Cut { from: "struct NeedsIdsCollector<'a> {", end: Before("impl Visitor") },
                    // From the allocated ids to the last instruction: `alloc_ids`, the points,
                    // `unique_successor`, the region walk, `from_func_decl`, `to_inst_and_attrs`.
                    Cut { from: "struct AllocatedIds<'a> {", end: Before("impl Module {") },
                ],
            ),
            // The instructions of all functions in order, an expression.
            (
                "insts.rs",
                &[Cut {
                    from: "        let global_and_func_insts = ",
                    end: Before("        let reserved_inst_schema"),
                }],
            ),
        ],
    },
];

fn main() {
    println!("cargo::rerun-if-env-changed=SPIRT_SRC");
    println!("cargo::rerun-if-changed=build.rs");
    let root = source_root();
    let out = PathBuf::from(env::var("OUT_DIR").unwrap());
    for source in SOURCES {
        let path = root.join(source.path);
        println!("cargo::rerun-if-changed={}", path.display());
        let text = fs::read_to_string(&path)
            .unwrap_or_else(|e| panic!("{}: {e} (SPIRT_SRC names docs/src)", path.display()));
        let found = hex(&sha256(text.as_bytes()));
        assert!(
            found == source.sha256,
            "{}: SHA-256 {found}, but this harness was written for {}",
            path.display(),
            source.sha256
        );
        for (name, cuts) in source.pieces {
            let mut piece: String = cuts.iter().map(|cut| cut_out(&text, cut)).collect();
            if *name == "insts.rs" {
                piece = initializer(&piece).to_owned();
            }
            fs::write(out.join(name), piece).unwrap();
        }
    }
}

/// `SPIRT_SRC`, or `shared/docs/src` beside the repository.
fn source_root() -> PathBuf {
    match env::var_os("SPIRT_SRC") {
        Some(path) => PathBuf::from(path),
        None => {
            Path::new(&env::var("CARGO_MANIFEST_DIR").unwrap()).join("../../../shared/docs/src")
        }
    }
}

fn cut_out(text: &str, cut: &Cut) -> String {
    let lines: Vec<&str> = text.lines().collect();
    let starts: Vec<usize> = (0..lines.len()).filter(|&i| lines[i].starts_with(cut.from)).collect();
    let &[mut start] = &starts[..] else { panic!("{:?}: {} places", cut.from, starts.len()) };
    let rest = &lines[start..];
    let length = match cut.end {
        Item => rest.iter().position(|line| *line == "}").unwrap() + 1,
        Before(next) => rest.iter().position(|line| line.starts_with(next)).unwrap(),
        File => rest.len(),
    };
    let end = start + length;
    // An item's attributes and comments belong to it.
    while start > 0 && ["#[", "//"].iter().any(|mark| lines[start - 1].starts_with(mark)) {
        start -= 1;
    }
    lines[start..end].iter().flat_map(|line| [line, "\n"]).collect()
}

/// The expression of a `let` statement.
fn initializer(statement: &str) -> &str {
    let (_, value) = statement.trim().split_once(" = ").unwrap();
    value.strip_suffix(';').unwrap()
}

fn hex(bytes: &[u8]) -> String {
    bytes.iter().map(|byte| format!("{byte:02x}")).collect()
}

/// SHA-256 (FIPS 180-4). The constants are the first bits of the fractional parts of the roots
/// of the first primes, computed here instead of listed.
fn sha256(message: &[u8]) -> [u8; 32] {
    let primes: Vec<u64> = (2..).filter(|n| (2..*n).all(|d| n % d != 0)).take(64).collect();
    let k: Vec<u32> = primes.iter().map(|&p| root_bits(p, 3)).collect();
    let mut state: Vec<u32> = primes[..8].iter().map(|&p| root_bits(p, 2)).collect();

    let mut padded = message.to_vec();
    padded.push(0x80);
    while padded.len() % 64 != 56 {
        padded.push(0);
    }
    padded.extend((message.len() as u64 * 8).to_be_bytes());

    for block in padded.chunks(64) {
        let mut w: Vec<u32> =
            block.chunks(4).map(|b| u32::from_be_bytes(b.try_into().unwrap())).collect();
        for i in 16..64 {
            let s0 = w[i - 15].rotate_right(7) ^ w[i - 15].rotate_right(18) ^ (w[i - 15] >> 3);
            let s1 = w[i - 2].rotate_right(17) ^ w[i - 2].rotate_right(19) ^ (w[i - 2] >> 10);
            w.push(w[i - 16].wrapping_add(s0).wrapping_add(w[i - 7]).wrapping_add(s1));
        }
        let mut v = state.clone();
        for i in 0..64 {
            let s1 = v[4].rotate_right(6) ^ v[4].rotate_right(11) ^ v[4].rotate_right(25);
            let ch = (v[4] & v[5]) ^ (!v[4] & v[6]);
            let t1 = v[7].wrapping_add(s1).wrapping_add(ch).wrapping_add(k[i]).wrapping_add(w[i]);
            let s0 = v[0].rotate_right(2) ^ v[0].rotate_right(13) ^ v[0].rotate_right(22);
            let maj = (v[0] & v[1]) ^ (v[0] & v[2]) ^ (v[1] & v[2]);
            v.rotate_right(1);
            v[4] = v[4].wrapping_add(t1);
            v[0] = t1.wrapping_add(s0).wrapping_add(maj);
        }
        for (s, x) in state.iter_mut().zip(v) {
            *s = s.wrapping_add(x);
        }
    }
    let bytes: Vec<u8> = state.iter().flat_map(|word| word.to_be_bytes()).collect();
    bytes.try_into().unwrap()
}

/// The first 32 bits of the fractional part of the `n`-th root of `p`: the low word of the
/// largest `x` with `xⁿ ≤ p · 2³²ⁿ`.
fn root_bits(p: u64, n: u32) -> u32 {
    let below = |x: u128| match n {
        2 => x * x <= u128::from(p) << 64,
        _ => x * x * x <= u128::from(p) << 96,
    };
    let (mut low, mut high) = (0u128, 1u128 << 37);
    while low + 1 < high {
        let middle = (low + high) / 2;
        if below(middle) { low = middle } else { high = middle }
    }
    low as u32
}
