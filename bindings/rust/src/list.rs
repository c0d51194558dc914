//! A list's words taken apart.

use std::iter::FusedIterator;

/// The instructions of a list: of its words, as [`lift`](crate::lift) writes them.
///
/// Any words are taken: the iterator ends where no whole instruction stands, and
/// [`Instructions::rest`] tells whether words are left over. Of a list none are.
///
/// ```
/// let list = [54, 0, 2, 10, 1, 0, 1, 0, 1, 3, 56, 0, 0, 0, 0, 0];
/// let mut instructions = sighvona::instructions(&list);
/// let function = instructions.next().unwrap();
/// assert_eq!((function.opcode, function.result_type, function.result), (54, 2, 10));
/// assert_eq!(function.immediates().next().unwrap().word, 0);
/// assert_eq!(function.ids, [3]);
/// assert_eq!(instructions.next().unwrap().opcode, 56);
/// assert!(instructions.next().is_none() && instructions.rest().is_empty());
/// ```
pub fn instructions(list: &[u32]) -> Instructions<'_> {
    Instructions { rest: list }
}

/// An instruction of a list.
#[derive(Clone, Copy, Debug, PartialEq, Eq, Hash)]
pub struct Instruction<'a> {
    /// The SPIR-V opcode.
    pub opcode: u32,
    /// The attributes, where 0 is the default set.
    pub attributes: u32,
    /// The id of the result's type, or 0 for none.
    pub result_type: u32,
    /// The id of the result, or 0 for none.
    pub result: u32,
    /// The ids.
    pub ids: &'a [u32],
    /// Three words for each immediate.
    immediates: &'a [u32],
}

impl<'a> Instruction<'a> {
    /// The immediates.
    pub fn immediates(
        &self,
    ) -> impl DoubleEndedIterator<Item = Immediate> + ExactSizeIterator + 'a {
        self.immediates.chunks_exact(3).map(|words| Immediate {
            kind: words[0],
            operand_kind: words[1],
            word: words[2],
        })
    }
}

/// An immediate of an instruction.
#[derive(Clone, Copy, Debug, PartialEq, Eq, Hash)]
pub struct Immediate {
    /// 0 short, 1 long start, 2 long continued.
    pub kind: u32,
    /// 1 FunctionControl, 2 SelectionControl, 3 LoopControl, 4 LiteralExtInstInteger, or what the
    /// text has.
    pub operand_kind: u32,
    /// The word itself.
    pub word: u32,
}

/// An iterator over the instructions of a list, by [`instructions`].
#[derive(Clone, Debug)]
pub struct Instructions<'a> {
    rest: &'a [u32],
}

impl<'a> Instructions<'a> {
    /// The words behind the instruction that was given last. Once the iterator has ended, these are
    /// no whole instruction.
    pub fn rest(&self) -> &'a [u32] {
        self.rest
    }
}

impl<'a> Iterator for Instructions<'a> {
    type Item = Instruction<'a>;

    fn next(&mut self) -> Option<Instruction<'a>> {
        let (instruction, rest) = split(self.rest)?;
        self.rest = rest;
        Some(instruction)
    }

    fn size_hint(&self) -> (usize, Option<usize>) {
        // An instruction has six words or more.
        (0, Some(self.rest.len() / 6))
    }
}

impl FusedIterator for Instructions<'_> {}

/// The first instruction and the words behind it, if it is whole.
fn split(list: &[u32]) -> Option<(Instruction<'_>, &[u32])> {
    let [opcode, attributes, result_type, result, ref rest @ ..] = *list else { return None };
    let (immediates, rest) = counted(3, rest)?;
    let (ids, rest) = counted(1, rest)?;
    Some((Instruction { opcode, attributes, result_type, result, ids, immediates }, rest))
}

/// The words of what a count, the first word, counts, with so many words each; and those behind.
fn counted(each: usize, words: &[u32]) -> Option<(&[u32], &[u32])> {
    let (&count, rest) = words.split_first()?;
    let length = usize::try_from(count).ok()?.checked_mul(each)?;
    (length <= rest.len()).then(|| rest.split_at(length))
}
