//! A plain reference of document 01 with requests W2, W3, W4 and W7 of document 02, written from
//! these papers: what `lift` prints for any input.
//!
//! It shares no code with the oracle. Terminators are what 'Running the regions and the blocks'
//! needs them to be, and the comparison with the oracle tells whether the Rust's are the same.

pub mod list;
pub mod mix;
pub mod read;
pub mod refuse;
pub mod run;

use list::Line;
use read::{Cursor, Func};
use run::{Alike, World};

/// The words that `lift` lends for each slice.
const SLICE_WORDS: usize = 16_384;
/// The highest id that may be given: the universal limit of 4,194,303 is on a module's bound, and
/// every id lies below it (document 02, W3).
pub const HIGHEST_ID: u64 = 4_194_302;

pub enum Answer {
    List { lines: Vec<Line>, words: usize, next: u64 },
    Refused(u32),
}

/// Answers an input of the program `lift`: a first line and a text.
pub fn answer(input: &[u8]) -> Answer {
    let mut cursor = Cursor(input);
    let Some(first) = cursor.first() else { return Answer::Refused(2) };
    match parse(cursor.0) {
        Ok(func) => lift(&func, first),
        Err(number) => Answer::Refused(number),
    }
}

/// The lines of a text's kept blocks, or its refusal.
pub fn blocks(text: &[u8]) -> Result<Vec<String>, u32> {
    Ok(list::block_lines(&parse(text)?))
}

/// Both runs of a text and of its list.
pub struct Runs {
    pub imported: bool,
    /// Whether the text has a case that is let off.
    pub let_off: bool,
    /// For each world; a string tells how they differ. None of an imported function.
    pub pairs: Vec<Result<Alike, String>>,
}

/// Both runs of an input's text in so many worlds, or its refusal.
pub fn runs(input: &[u8], worlds: u64) -> Result<Runs, u32> {
    let lines = match answer(input) {
        Answer::List { lines, .. } => lines,
        Answer::Refused(number) => return Err(number),
    };
    let mut cursor = Cursor(input);
    cursor.first();
    let func = parse(cursor.0)?;
    let worlds = if func.imported { 0 } else { worlds };
    let pair = |place| run::alike(&func, &lines, World::new(input, place));
    Ok(Runs {
        imported: func.imported,
        let_off: !func.let_off().is_empty(),
        pairs: (0..worlds).map(pair).collect(),
    })
}

/// Refusals 1 to 7 and 13, and the function.
pub fn parse(text: &[u8]) -> Result<Func, u32> {
    if text.len() > 32_768 {
        return Err(1);
    }
    let Some(func) = Cursor(text).func() else { return Err(2) };
    func.refusal().map_or(Ok(func), Err)
}

/// Refusals 9 to 11 and the list, for a function that 3 to 7 let pass. 13 is not looked at here, so
/// that the generator can ask what else would refuse.
pub fn lift(func: &Func, first: u32) -> Answer {
    if first == 0 || first <= func.highest_id() {
        return Answer::Refused(9);
    }
    let (lines, next) = list::list(func, first);
    if next - 1 > HIGHEST_ID {
        return Answer::Refused(9);
    }
    if lines.iter().any(|line| line.ids.contains(&0)) {
        return Answer::Refused(10);
    }
    let words = lines.iter().map(|line| 6 + 3 * line.imms.len() + line.ids.len()).sum();
    if words > SLICE_WORDS {
        return Answer::Refused(11);
    }
    Answer::List { lines, words, next }
}
