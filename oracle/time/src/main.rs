//! `time CASE..`: a line of numbers for each case, a file with an input of `lift`: the bytes of its
//! text, its blocks, instructions and words, and the nanoseconds that a call takes, in this order:
//! of the library's reader, when it refuses at the first byte and so only clears its slices; of
//! the reader; of the whole call, from text to words; of the Rust's `from_func_decl`; of the Rust's
//! ids, `from_func_decl` and `to_inst_and_attrs`, which make its list; and of these with the
//! reading of the text by the oracle.
//!
//! The first three are functions of the static library, on the case's text and slices that stay
//! the same. The next two start from the Rust's own data, which are made before, and the Rust drops
//! what it makes. All take turns, and the least of `ROUNDS` rounds counts.
//!
//! `time --only NAME CASE` calls one of them for ten seconds, for a profiler to look at.

use refer::read::Cursor;
use sighvona::{MAX_WORDS, SCRATCH_WORDS, lift_in, read_in};
use spirt::text::Ready;
use std::hint::black_box;
use std::time::{Duration, Instant};

const ROUNDS: usize = 15;
const ROUND: Duration = Duration::from_millis(20);
const ALONE: Duration = Duration::from_secs(10);

/// What is timed: its name, and a call.
type Timed<'a> = (&'a str, Box<dyn FnMut() + 'a>);

/// Nanoseconds for a call, over the calls of some time.
fn round(call: &mut dyn FnMut(), lasts: Duration) -> f64 {
    let mut calls = 0;
    let begun = Instant::now();
    while begun.elapsed() < lasts {
        (0..20).for_each(|_| call());
        calls += 20;
    }
    begun.elapsed().as_secs_f64() * 1e9 / f64::from(calls)
}

/// The function slice, the work slice and an output slice that is never too short.
fn slices() -> [Vec<u32>; 3] {
    [SCRATCH_WORDS, SCRATCH_WORDS, MAX_WORDS].map(|words| vec![0; words])
}

/// Three slices for as long as the function is called.
fn lent<R>(called: impl Fn([&mut [u32]; 3]) -> R) -> impl FnMut() {
    let mut slices = slices();
    move || {
        black_box(called(slices.each_mut().map(|slice| &mut slice[..])));
    }
}

fn time(path: &str, only: Option<&str>) {
    let case = std::fs::read(path).expect("a case can be read");
    let mut cursor = Cursor(&case);
    let first = cursor.first().expect("a case has a first line");
    let text = cursor.0;
    let ready = Ready::new(&case).expect("the Rust has such a function");
    let named = ready.named();
    let mut slices = slices();
    let [func, work, out] = slices.each_mut();
    let lifted = lift_in(text, first, &mut func[..], &mut work[..], &mut out[..]);
    let words = lifted.unwrap_or_else(|refusal| panic!("{path}: {refusal}")).words;
    let (blocks, insts) = (ready.blocks(), ready.lift(&named));
    let from_text = |case: &[u8]| {
        let ready = Ready::new(case).expect("the Rust has such a function");
        ready.lift(&ready.named())
    };
    let mut timed: [Timed<'_>; 6] = [
        ("clearing", Box::new(lent(|[f, w, _]| read_in(black_box(b"x"), f, w)))),
        ("read", Box::new(lent(|[f, w, _]| read_in(black_box(text), f, w)))),
        ("lift", Box::new(lent(|[f, w, o]| lift_in(black_box(text), first, f, w, o)))),
        ("from_func_decl", Box::new(|| _ = black_box(black_box(&ready).blocks()))),
        ("rust", Box::new(|| _ = black_box(black_box(&ready).lift(&named)))),
        ("rust from text", Box::new(|| _ = black_box(from_text(black_box(&case))))),
    ];
    if let Some(only) = only {
        let (_, call) = timed.iter_mut().find(|(name, _)| *name == only).expect("a known name");
        println!("{only}: {:.0} ns", round(call, ALONE));
        return;
    }
    let mut least = [f64::INFINITY; 6];
    for _ in 0..ROUNDS {
        for ((_, call), least) in timed.iter_mut().zip(&mut least) {
            *least = least.min(round(call, ROUND));
        }
    }
    print!("{} {blocks} {insts} {words}", text.len());
    least.iter().for_each(|took| print!(" {took:.0}"));
    println!();
}

fn main() {
    let args: Vec<String> = std::env::args().skip(1).collect();
    match &args[..] {
        [option, name, path] if option == "--only" => time(path, Some(name)),
        paths => paths.iter().for_each(|path| time(path, None)),
    }
}
