//! `generate KIND SEED COUNT` or `generate KIND`: writes inputs of `lift`, each ended by a line
//! `%%`. `generate --kinds` names the kinds that have a seed.

use generate::{FIXED_KINDS, RANDOM_KINDS, fixed, random};
use std::io::{self, Write};

fn main() -> io::Result<()> {
    let args: Vec<String> = std::env::args().skip(1).collect();
    let words: Vec<&str> = args.iter().map(|arg| &arg[..]).collect();
    if words == ["--kinds"] {
        println!("{}", RANDOM_KINDS.join("\n"));
        return Ok(());
    }
    let cases: Option<Box<dyn Iterator<Item = Vec<u8>>>> = match words[..] {
        [kind] => fixed(kind),
        [kind, seed, count] if RANDOM_KINDS.contains(&kind) => {
            match (seed.parse(), count.parse::<u64>()) {
                (Ok(seed), Ok(count)) => {
                    let kind = kind.to_owned();
                    Some(Box::new((0..count).filter_map(move |i| random(&kind, seed, i))))
                }
                _ => None,
            }
        }
        _ => None,
    };
    let Some(cases) = cases else {
        eprintln!("usage: generate KIND SEED COUNT, with KIND one of {}", RANDOM_KINDS.join(" "));
        eprintln!("       generate KIND, with KIND one of {}", FIXED_KINDS.join(" "));
        eprintln!("       generate --kinds");
        std::process::exit(2);
    };
    let mut out = io::BufWriter::new(io::stdout().lock());
    for case in cases {
        out.write_all(&case)?;
        writeln!(out, "%%")?;
    }
    out.flush()
}
