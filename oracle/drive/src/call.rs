//! Calls of the library with slices full of noise, and what they leave.

use crate::Expected;
use sighvona::sys;

pub struct Library {
    noise: Vec<u32>,
    zeros: Vec<u32>,
    pub calls: u64,
}

/// Words of noise; a slice's noise starts somewhere in the first half.
const NOISE: usize = 1 << 18;

impl Library {
    pub fn new() -> Self {
        let mut state = 0x9e37_79b9_7f4a_7c15_u64;
        let draw = || {
            state ^= state << 13;
            state ^= state >> 7;
            state ^= state << 17;
            (state >> 16) as u32
        };
        let noise = std::iter::repeat_with(draw).take(NOISE).collect();
        Self { noise, zeros: vec![0; NOISE], calls: 0 }
    }

    /// Noise of a length, another for each call and slice.
    fn noise(&self, length: usize, slice: u64) -> &[u32] {
        let start = (self.calls * 3 + slice).wrapping_mul(7919) as usize % (NOISE / 2);
        &self.noise[start..start + length]
    }

    /// Lifts, with a function slice, a work slice and an output slice of these lengths, and compares
    /// all that the call gives and leaves.
    pub fn lift(
        &mut self,
        text: &[u8],
        first: u32,
        [func_len, work_len, out_len]: [usize; 3],
        expected: &Expected,
    ) -> Result<(), String> {
        self.calls += 1;
        let before = [(func_len, 0), (work_len, 1), (out_len, 2)].map(|(n, s)| self.noise(n, s));
        let [mut func, mut work, mut out] = before.map(<[u32]>::to_vec);
        let (old_words, old_next) = (out_len ^ 0x5a5a, first ^ 0x5a5a_5a5a);
        let (mut words, mut next) = (old_words, old_next);
        // SAFETY: the pointers and counts are of slices and places that only this call uses.
        let number = unsafe {
            sys::sighvona_lift(
                text.as_ptr(),
                text.len(),
                first,
                func.as_mut_ptr(),
                func.len(),
                work.as_mut_ptr(),
                work.len(),
                out.as_mut_ptr(),
                out.len(),
                &mut words,
                &mut next,
            )
        };
        let told = |what: &str| {
            format!("{what}, answer {number}, with {func_len}, {work_len}, {out_len} words")
        };
        let (refusal, list, word_count, next_id) = match expected {
            Expected::List { words, .. } if out_len < words.len() => {
                (11, &[][..], words.len(), old_next)
            }
            Expected::List { words, next } => (0, &words[..], words.len(), *next),
            Expected::Refused(number) => (*number, &[][..], old_words, old_next),
        };
        if number != refusal {
            return Err(told(&format!("answer {refusal} expected")));
        }
        if words != word_count || next != next_id {
            return Err(told("word count or next id"));
        }
        if out[..list.len()] != *list {
            return Err(told("list"));
        }
        if out[list.len()..] != before[2][list.len()..] {
            return Err(told("output beyond the list"));
        }
        if !self.left(&func, before[0], refusal) || !self.left(&work, before[1], refusal) {
            return Err(told("scratch"));
        }
        Ok(())
    }

    /// Reads alone and compares the answer and both slices.
    pub fn read(
        &mut self,
        text: &[u8],
        func_len: usize,
        work_len: usize,
        refusal: u32,
    ) -> Result<(), String> {
        self.calls += 1;
        let before = [(func_len, 0), (work_len, 1)].map(|(n, s)| self.noise(n, s));
        let [mut func, mut work] = before.map(<[u32]>::to_vec);
        // SAFETY: as above.
        let number = unsafe {
            sys::sighvona_read(
                text.as_ptr(),
                text.len(),
                func.as_mut_ptr(),
                func.len(),
                work.as_mut_ptr(),
                work.len(),
            )
        };
        if number != refusal {
            return Err(format!("reading gives {number}, and {refusal} was expected"));
        }
        if !self.left(&func, before[0], refusal) || !self.left(&work, before[1], refusal) {
            return Err(format!("scratch after reading, answer {number}"));
        }
        Ok(())
    }

    /// Whether a scratch slice is what a call must leave: zeros, or after 8 the words before.
    fn left(&self, after: &[u32], before: &[u32], refusal: u32) -> bool {
        after == if refusal == 8 { before } else { &self.zeros[..after.len()] }
    }
}
