//! Turns the region text of one function into SPIR-V instructions.
//!
//! This is a safe face of the static library `sighvona`, which is written in Rattle and proved:
//! every text, first id and set of slices gets the whole list that a definition gives, or exactly
//! one [`Refusal`]. Nothing here judges; the library does not allocate and does not panic.
//!
//! ```
//! let text = b"(func 0 2 3 0)\n(region (in) (nodes) (out))\n";
//! let mut scratch = sighvona::Scratch::new();
//! let mut out = vec![0; sighvona::MAX_WORDS];
//! let lifted = sighvona::lift(text, 10, &mut scratch, &mut out)?;
//! let list = &out[..lifted.words];
//! // Function with its control word and its type's id; Label; Return; FunctionEnd.
//! assert_eq!(
//!     list,
//!     [
//!         [54, 0, 2, 10, 1, 0, 1, 0, 1, 3].as_slice(),
//!         &[248, 0, 0, 11, 0, 0],
//!         &[253, 0, 0, 0, 0, 0],
//!         &[56, 0, 0, 0, 0, 0],
//!     ]
//!     .concat()
//! );
//! assert_eq!(lifted.next, 12);
//! let opcodes: Vec<u32> = sighvona::instructions(list).map(|inst| inst.opcode).collect();
//! assert_eq!(opcodes, [54, 248, 253, 56]);
//! # Ok::<(), sighvona::Refusal>(())
//! ```
//!
//! # The list
//!
//! Each instruction is words: opcode, attributes, result type id, result id (0 for none), the count
//! of immediates and three words for each (kind, operand kind, word), the count of ids and the ids.
//! The order is function, parameters, each block (label, phis, instructions, merge, way out),
//! function end. [`instructions`] takes them apart.

#![warn(missing_docs)]

mod list;
pub mod sys;

pub use list::{instructions, Immediate, Instruction, Instructions};

use std::fmt;

/// The version that this crate is for: major * 65,536 + minor * 256 + patch. [`library_version`]
/// tells that of the archive that was linked.
pub const VERSION: u32 = version(0, 6, 0);

const fn version(major: u32, minor: u32, patch: u32) -> u32 {
    major * 65_536 + minor * 256 + patch
}

/// The words that each scratch slice must have at least.
pub const SCRATCH_WORDS: usize = 16_384;

/// The longest text that is not refused.
pub const TEXT_BYTES: usize = 32_768;

/// The highest id that is given: the next free id, a module's bound, is one more at most.
pub const HIGHEST_ID: u32 = 4_194_302;

/// No list has more words, which is proved (crates/lifting_sizes, `list_bound`): with an output
/// slice of so many, [`Refusal::Output`] never comes.
pub const MAX_WORDS: usize = 23_184;

/// What an accepted call gives beside the list.
#[derive(Clone, Copy, Debug, PartialEq, Eq)]
pub struct Lifted {
    /// How many words of the output slice are the list.
    pub words: usize,
    /// The next free id: the new ids run from the first id to one below it.
    pub next: u32,
}

/// Why there is no list. [`number`](Self::number) gives the number in documents 01 and 02.
///
/// They are looked for in the order 8, 1 to 7, 13, 9, 10, 11, each over the whole text before the
/// next, so the first that applies is given.
///
/// ```
/// use sighvona::{lift, Refusal, Scratch};
///
/// let text = b"(func 0 2 3 0)\n(imported)\n";
/// let mut scratch = Scratch::new();
/// let refusal = lift(text, 3, &mut scratch, &mut []).unwrap_err();
/// assert_eq!((refusal, refusal.number()), (Refusal::Ids, 9));
///
/// // Lend what is wanted.
/// let mut out = vec![];
/// if let Err(Refusal::Output { wanted }) = lift(text, 10, &mut scratch, &mut out) {
///     out.resize(wanted, 0);
/// }
/// assert_eq!(lift(text, 10, &mut scratch, &mut out)?.words, out.len());
/// # Ok::<(), Refusal>(())
/// ```
#[derive(Clone, Copy, Debug, PartialEq, Eq, Hash)]
#[non_exhaustive]
pub enum Refusal {
    /// 1: the text has more than [`TEXT_BYTES`] bytes.
    Long,
    /// 2: the text is not of the forms, or is empty.
    Forms,
    /// 3: over 128 regions, 128 nodes, 512 ops, 256 consts, 64 params, 2,048 values, 512 inputs and
    /// outs, 512 immediates or 512 ctrl targets.
    Limits,
    /// 4: a reference names nothing; an id is 0 or a const's id repeats; an opcode, an operand kind
    /// or an immediate's kind is none, or an opcode is one that only lifting may give; a select's or
    /// loop's control number is over 2.
    References,
    /// 5: nodes, ops and regions are no tree: each node, op and child region must stand in one
    /// place.
    Tree,
    /// 6: unequal counts, as of a loop's inits and its body's inputs. A case whose last node is an
    /// exit may have no outputs at all.
    Counts,
    /// 7: something about ctrl lines, as a second one for a region, or a target that is a child.
    Control,
    /// 8: a scratch slice has fewer than [`SCRATCH_WORDS`] words. [`lift`] and [`read`] never give
    /// this, as a [`Scratch`] has enough.
    Scratch,
    /// 9: the first id is 0 or not above every id in the text, or an id over [`HIGHEST_ID`] would
    /// be given.
    Ids,
    /// 10: a kept instruction uses a value that no kept block sets and that is neither a constant
    /// nor a parameter.
    Values,
    /// 11: the output slice is shorter than the list.
    Output {
        /// How many words the list has. The same call with so many gives it.
        wanted: usize,
    },
    /// 13: the two targets of a `bool` ctrl are equal, whether it is reached or not.
    Targets,
}

impl Refusal {
    /// Its number, 1 to 11 or 13.
    pub const fn number(self) -> u32 {
        match self {
            Self::Long => 1,
            Self::Forms => 2,
            Self::Limits => 3,
            Self::References => 4,
            Self::Tree => 5,
            Self::Counts => 6,
            Self::Control => 7,
            Self::Scratch => 8,
            Self::Ids => 9,
            Self::Values => 10,
            Self::Output { .. } => 11,
            Self::Targets => 13,
        }
    }

    fn cause(self) -> &'static str {
        match self {
            Self::Long => "the text is over 32,768 bytes",
            Self::Forms => "the text is not of the forms",
            Self::Limits => "the text has too many parts of a kind",
            Self::References => "a reference, an id, an opcode or a kind does not fit",
            Self::Tree => "nodes, ops and regions are no tree",
            Self::Counts => "counts that must be equal are not",
            Self::Control => "a ctrl line is wrong or missing",
            Self::Scratch => "a scratch slice is under 16,384 words",
            Self::Ids => "the first id is too low or too high",
            Self::Values => "an instruction uses a value that is not set",
            Self::Output { .. } => "the output slice is shorter than the list",
            Self::Targets => "the two targets of a bool ctrl are equal",
        }
    }
}

impl fmt::Display for Refusal {
    fn fmt(&self, f: &mut fmt::Formatter<'_>) -> fmt::Result {
        write!(f, "refusal {}: {}", self.number(), self.cause())?;
        match self {
            Self::Output { wanted } => write!(f, ", which has {wanted} words"),
            _ => Ok(()),
        }
    }
}

impl std::error::Error for Refusal {}

/// The two scratch slices that [`lift`] and [`read`] are lent, [`SCRATCH_WORDS`] words each. What
/// they hold before a call does not matter; after it they are zeros. One can serve any number of
/// calls.
#[derive(Clone)]
pub struct Scratch {
    func: Box<[u32]>,
    work: Box<[u32]>,
}

impl Scratch {
    /// Allocates both.
    pub fn new() -> Self {
        let slice = || vec![0; SCRATCH_WORDS].into_boxed_slice();
        Self { func: slice(), work: slice() }
    }
}

impl Default for Scratch {
    fn default() -> Self {
        Self::new()
    }
}

impl fmt::Debug for Scratch {
    fn fmt(&self, f: &mut fmt::Formatter<'_>) -> fmt::Result {
        f.debug_struct("Scratch").finish_non_exhaustive()
    }
}

/// The version of the library that was linked, a number as [`VERSION`]. If the two differ, the
/// archive is not the one that this crate is for.
pub fn library_version() -> u32 {
    // SAFETY: it takes nothing and gives a number.
    unsafe { sys::sighvona_version() }
}

/// Lifts a text, with new ids from `first` on. The list's words come first in `out`, and the words
/// beyond it are left as they are; so is all of `out` on a refusal. With [`MAX_WORDS`] words in
/// `out` there is always room.
///
/// # Panics
///
/// If the library gives a number that this crate does not know, so is of another version.
pub fn lift(
    text: &[u8],
    first: u32,
    scratch: &mut Scratch,
    out: &mut [u32],
) -> Result<Lifted, Refusal> {
    lift_in(text, first, &mut scratch.func, &mut scratch.work, out)
}

/// [`lift`] with scratch slices of the caller's. Both end as zeros, except after
/// [`Refusal::Scratch`], when they keep their words.
pub fn lift_in(
    text: &[u8],
    first: u32,
    func: &mut [u32],
    work: &mut [u32],
    out: &mut [u32],
) -> Result<Lifted, Refusal> {
    let (mut words, mut next) = (0, 0);
    // SAFETY: each pointer and count is that of a slice that is borrowed for the call, and what is
    // written to is borrowed by nobody else. The library asks for no more.
    let number = unsafe {
        sys::sighvona_lift(
            text.as_ptr(),
            text.len(),
            first,
            func.as_mut_ptr(),
            func.len(),
            work.as_mut_ptr(),
            work.len(),
            out.as_mut_ptr(),
            out.len(),
            &mut words,
            &mut next,
        )
    };
    told(number, words).map(|()| Lifted { words, next })
}

/// Reads a text and lifts nothing: whether refusals 1 to 7 and 13 let it pass.
///
/// # Panics
///
/// As [`lift`].
pub fn read(text: &[u8], scratch: &mut Scratch) -> Result<(), Refusal> {
    read_in(text, &mut scratch.func, &mut scratch.work)
}

/// [`read`] with scratch slices of the caller's. They end as after [`lift_in`]: as zeros, except
/// after [`Refusal::Scratch`].
pub fn read_in(text: &[u8], func: &mut [u32], work: &mut [u32]) -> Result<(), Refusal> {
    // SAFETY: as above.
    let number = unsafe {
        sys::sighvona_read(
            text.as_ptr(),
            text.len(),
            func.as_mut_ptr(),
            func.len(),
            work.as_mut_ptr(),
            work.len(),
        )
    };
    told(number, 0)
}

/// What a call's number tells, where `wanted` are the words that it counted.
fn told(number: u32, wanted: usize) -> Result<(), Refusal> {
    Err(match number {
        0 => return Ok(()),
        1 => Refusal::Long,
        2 => Refusal::Forms,
        3 => Refusal::Limits,
        4 => Refusal::References,
        5 => Refusal::Tree,
        6 => Refusal::Counts,
        7 => Refusal::Control,
        8 => Refusal::Scratch,
        9 => Refusal::Ids,
        10 => Refusal::Values,
        11 => Refusal::Output { wanted },
        13 => Refusal::Targets,
        _ => panic!("answer {number} of version {}, for {VERSION}", library_version()),
    })
}
