//! `refer`: prints what `lift` prints, by the plain reference.
//!
//! With `--batch` standard input is many cases and standard output as many answers, each ended
//! by a line `%%`. With `--totals` a list is followed by `(words N)` and `(next N)`, the word
//! count and the next free id. With `--cleared` the control number of every merge is 0, as the Rust
//! writes it. With `--blocks` an input is a text without a first line, and what is printed are its
//! kept blocks, or the refusal by 1 to 7 or 13. With `--runs` both runs are made of a text with a
//! list, in several worlds, and it is printed how they end or how they differ.

use refer::list::Line;
use refer::run::End;
use refer::{Answer, answer, blocks, runs};
use std::io::{self, Read, Write};

/// The worlds in which `--runs` runs a text.
const WORLDS: u64 = 8;

/// How a list is printed.
#[derive(Clone, Copy, Default)]
struct How {
    totals: bool,
    cleared: bool,
}

type Print = fn(&mut dyn Write, &[u8], How) -> io::Result<()>;

fn main() -> io::Result<()> {
    let mut batch = false;
    let mut how = How::default();
    let mut print: Print = print_list;
    for option in std::env::args().skip(1) {
        match &option[..] {
            "--batch" => batch = true,
            "--totals" => how.totals = true,
            "--cleared" => how.cleared = true,
            "--blocks" => print = print_blocks,
            "--runs" => print = print_runs,
            _ => {
                eprintln!("usage: refer [--batch] [--totals] [--cleared]");
                eprintln!("       refer [--batch] --blocks | --runs");
                std::process::exit(2);
            }
        }
    }
    let mut input = vec![];
    io::stdin().lock().read_to_end(&mut input)?;
    let mut out = io::BufWriter::new(io::stdout().lock());
    if !batch {
        print(&mut out, &input, how)?;
        return out.flush();
    }
    let mut case = vec![];
    for line in input.split_inclusive(|&byte| byte == b'\n') {
        if line == b"%%\n" {
            print(&mut out, &case, how)?;
            writeln!(out, "%%")?;
            case.clear();
        } else {
            case.extend_from_slice(line);
        }
    }
    out.flush()
}

fn print_list(out: &mut dyn Write, input: &[u8], how: How) -> io::Result<()> {
    match answer(input) {
        Answer::List { lines, words, next } => {
            let shown = |line: Line| if how.cleared { line.cleared() } else { line };
            lines.into_iter().map(shown).try_for_each(|line| writeln!(out, "{line}"))?;
            if how.totals {
                writeln!(out, "(words {words})\n(next {next})")?;
            }
            Ok(())
        }
        Answer::Refused(number) => writeln!(out, "(refused {number})"),
    }
}

fn print_blocks(out: &mut dyn Write, text: &[u8], _: How) -> io::Result<()> {
    match blocks(text) {
        Ok(lines) => lines.iter().try_for_each(|line| writeln!(out, "{line}")),
        Err(number) => writeln!(out, "(refused {number})"),
    }
}

/// A line about the text and one for each world.
fn print_runs(out: &mut dyn Write, input: &[u8], _: How) -> io::Result<()> {
    let found = match runs(input, WORLDS) {
        Ok(found) => found,
        Err(number) => return writeln!(out, "(refused {number})"),
    };
    let text = match (found.imported, found.let_off) {
        (true, _) => "no body",
        (_, true) => "a body with a case let off",
        _ => "a body",
    };
    writeln!(out, "(list, {text})")?;
    for run in found.pairs {
        match run {
            Ok(run) => {
                let end = match run.end {
                    Some(End::Return(_)) => "return",
                    Some(End::Unreachable) => "unreachable",
                    Some(End::Exit(..)) if run.let_off => "exit of a case let off",
                    Some(End::Exit(..)) => "exit",
                    Some(End::Unset) => "a value not yet set",
                    None => "no end yet",
                };
                writeln!(out, "(alike, {end})")?;
            }
            Err(difference) => writeln!(out, "(different)\n{difference}")?,
        }
    }
    Ok(())
}
