//! `drive`: is the static library's answer the Rust's?
//!
//! Reads cases, each ended by a line `%%`, and gives every one to the library, more than once and
//! with slices of several lengths, all filled with noise. Looked at are the refusal or the list,
//! the word count, which after 11 is what the list wants, the next id, and every word of the three
//! slices after the call; of a call that only reads, both scratch slices. The list must be that of
//! the reference `refer`, and with the control numbers of merges cleared (document 02, W4) the
//! Rust's, refusal 10 stand where the Rust panics, and the other refusals, which the Rust does not
//! have, where the reference has them.
//!
//! Prints the counts, also of the lists whose text has a case let off (document 02, W2), and the
//! shortest differences. A first line is the program `lift`'s and not the library's, so cases with
//! a bad one are only counted. Exit status 0 if nothing differs.

mod call;

use call::Library;
use refer::list::Line;
use refer::read::Cursor;
use sighvona::{MAX_WORDS, SCRATCH_WORDS};
use std::collections::BTreeMap;
use std::io::{self, BufRead};

/// What a case's answer must be.
pub enum Expected {
    /// This list, or 11 with its word count where less than that is lent.
    List {
        words: Vec<u32>,
        next: u32,
    },
    Refused(u32),
}

/// How many differences are shown.
const SHOWN: usize = 3;
/// The kind of an answer that is a list.
const LIST: &str = "lists equal";

fn main() -> io::Result<()> {
    std::panic::set_hook(Box::new(|_| {}));
    // The Rust's region walk calls itself once for each level of the text.
    let found = std::thread::Builder::new().stack_size(1 << 28).spawn(run)?.join();
    std::process::exit(found.expect("the comparing itself does not panic")?.into())
}

/// Whether something differs.
fn run() -> io::Result<bool> {
    let mut library = Library::new();
    let mut counts = BTreeMap::new();
    let mut let_off = 0;
    let mut differences = vec![];
    let mut input = io::stdin().lock();
    let (mut case, mut line) = (vec![], vec![]);
    while input.read_until(b'\n', &mut line)? > 0 {
        if line == b"%%\n" {
            match judge(&mut library, &case) {
                Ok(kind) => {
                    let_off += usize::from(kind == LIST && has_case_let_off(&case));
                    *counts.entry(kind).or_insert(0_usize) += 1;
                }
                Err(difference) => differences.push((case.clone(), difference)),
            }
            case.clear();
        } else {
            case.extend_from_slice(&line);
        }
        line.clear();
    }
    for (kind, count) in &counts {
        println!("  {count:8} {kind}");
    }
    println!("  {let_off:8} of the lists equal are of texts with a case let off");
    println!("  {:8} inputs", counts.values().sum::<usize>() + differences.len());
    println!("  {:8} calls", library.calls);
    differences.sort_by_key(|(case, _)| case.len());
    for (case, difference) in differences.iter().take(SHOWN) {
        println!("difference: {difference}, input:\n{}", String::from_utf8_lossy(case));
    }
    println!("  {:8} differences", differences.len());
    Ok(!differences.is_empty() || !case.is_empty())
}

/// The kind of a case's answer, or how an answer differs.
fn judge(library: &mut Library, case: &[u8]) -> Result<String, String> {
    let mut cursor = Cursor(case);
    let Some(first) = cursor.first() else { return Ok("a bad first line".to_owned()) };
    let text = cursor.0;
    let (full, more) = (SCRATCH_WORDS, SCRATCH_WORDS + 1 + case.len() % 300);
    let expected = expected(case, first, text)?;
    // Refusal 8 comes before all else, and 11 after all else.
    for lengths in [[full - 1, full, full], [full, full - 1, full], [0, more, 0]] {
        library.lift(text, first, lengths, &Expected::Refused(8))?;
    }
    library.read(text, full - 1, more, 8)?;
    // Reading meets 1 to 7 and 13, and no refusal that needs the first id or the blocks.
    library.read(text, full, full, refer::parse(text).err().unwrap_or(0))?;
    match &expected {
        Expected::List { words, .. } => {
            let length = words.len();
            if length > MAX_WORDS {
                return Err(format!("a list of {length} words"));
            }
            // With room for any list it may be written without being counted first.
            let any = [full, full, MAX_WORDS];
            for lengths in [[full; 3], any, [more, full, length], [full, more, length - 1]] {
                library.lift(text, first, lengths, &expected)?;
            }
            let longer = "longer lists equal, refused with 11 for 16,384 words";
            Ok(if length > full { longer } else { LIST }.to_owned())
        }
        Expected::Refused(number) => {
            for lengths in [[full; 3], [full, full, MAX_WORDS], [more, full, 0]] {
                library.lift(text, first, lengths, &expected)?;
            }
            Ok(format!("refused {number:2}"))
        }
    }
}

/// Whether a case has no outputs beside a select with outs, as it may if it ends in an exit.
fn has_case_let_off(case: &[u8]) -> bool {
    let mut cursor = Cursor(case);
    cursor.first().is_some() && refer::parse(cursor.0).is_ok_and(|func| !func.let_off().is_empty())
}

/// What the Rust and the reference say, if they agree with each other.
fn expected(case: &[u8], first: u32, text: &[u8]) -> Result<Expected, String> {
    let number = match refer::answer(case) {
        refer::Answer::List { .. } => 0,
        refer::Answer::Refused(number) => number,
    };
    if !matches!(number, 0 | 10 | 11) {
        return Ok(Expected::Refused(number));
    }
    match (number, spirt::text::answer(case)) {
        (10, spirt::text::Answer::Panicked) => Ok(Expected::Refused(10)),
        (0 | 11, spirt::text::Answer::List { insts, next }) => {
            let func = refer::parse(text).expect("only a text that is read has a list");
            let (lines, ours) = refer::list::list(&func, first);
            let words: Vec<u32> = lines.iter().flat_map(words).collect();
            let theirs = insts.into_iter().map(line);
            if lines.into_iter().map(Line::cleared).ne(theirs) || ours != next {
                return Err("the reference and the Rust have other lists or next ids".to_owned());
            }
            let next = u32::try_from(next).map_err(|_| "the Rust's next id has over 32 bits")?;
            match words.len() > SCRATCH_WORDS {
                long if long == (number == 11) => Ok(Expected::List { words, next }),
                _ => Err("the reference refuses a list by its length, or not".to_owned()),
            }
        }
        _ => Err(format!("the reference says {number}, and the Rust something else")),
    }
}

/// An instruction of the Rust as the reference has it.
fn line(inst: spirt::lift::Inst) -> Line {
    let spirt::lift::Inst { opcode, attrs, result_type, result, imms, ids } = inst;
    let imm = |(kind, operand, word): (u32, u16, u32)| [kind, operand.into(), word];
    let imms = imms.into_iter().map(imm).collect();
    Line { opcode: opcode.into(), attrs, result_type, result, imms, ids }
}

/// An instruction's words in document 01's list.
fn words(line: &Line) -> Vec<u32> {
    let mut words = vec![line.opcode, line.attrs, line.result_type, line.result];
    words.push(line.imms.len() as u32);
    words.extend(line.imms.iter().flatten());
    words.push(line.ids.len() as u32);
    words.extend(&line.ids);
    words
}
