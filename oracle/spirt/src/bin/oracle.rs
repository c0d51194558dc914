//! `oracle`: reads what `lift` reads and prints what the Rust lists for it.
//!
//! With `--batch` standard input is many cases and standard output as many answers, each ended
//! by a line `%%`. With `--totals` a list is followed by `(words N)` and `(next N)`, the word
//! count and the next free id. With `--why` the messages of panics go to standard error.

use spirt::text::{Answer, answer};
use std::io::{self, Read, Write};

fn main() -> io::Result<()> {
    let mut batch = false;
    let mut totals = false;
    let mut why = false;
    for option in std::env::args().skip(1) {
        match &option[..] {
            "--batch" => batch = true,
            "--totals" => totals = true,
            "--why" => why = true,
            _ => {
                eprintln!("usage: oracle [--batch] [--totals] [--why]");
                std::process::exit(2);
            }
        }
    }
    if !why {
        std::panic::set_hook(Box::new(|_| {}));
    }
    // The region walk calls itself once for each level of the text.
    let run = move || run(batch, totals);
    std::thread::Builder::new().stack_size(1 << 28).spawn(run)?.join().unwrap()
}

fn run(batch: bool, totals: bool) -> io::Result<()> {
    let mut input = vec![];
    io::stdin().lock().read_to_end(&mut input)?;
    let mut out = io::BufWriter::new(io::stdout().lock());
    if !batch {
        print(&mut out, &input, totals)?;
        return out.flush();
    }
    let mut case = vec![];
    for line in input.split_inclusive(|&byte| byte == b'\n') {
        if line == b"%%\n" {
            print(&mut out, &case, totals)?;
            writeln!(out, "%%")?;
            case.clear();
        } else {
            case.extend_from_slice(line);
        }
    }
    out.flush()
}

fn print(out: &mut impl Write, input: &[u8], totals: bool) -> io::Result<()> {
    match answer(input) {
        Answer::List { insts, next } => {
            for inst in &insts {
                writeln!(out, "{inst}")?;
            }
            if totals {
                let words: usize = insts.iter().map(|inst| inst.words()).sum();
                writeln!(out, "(words {words})\n(next {next})")?;
            }
            Ok(())
        }
        Answer::Panicked => writeln!(out, "(panicked)"),
        Answer::Exhausted => writeln!(out, "(exhausted)"),
        Answer::Endless => writeln!(out, "(endless)"),
        Answer::Unreadable => writeln!(out, "(unreadable)"),
    }
}
