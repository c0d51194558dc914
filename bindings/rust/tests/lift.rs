//! The listing of document 01 with what stands in every slice, each refusal, the steps through a
//! list, and the version.

use sighvona::{instructions, lift, lift_in, read, read_in, sys};
use sighvona::{Immediate, Lifted, Refusal, Scratch};
use sighvona::{HIGHEST_ID, MAX_WORDS, SCRATCH_WORDS, TEXT_BYTES};

const LISTING: &[u8] = b"(func 0 2 3 0)\n(const 5 43)\n(region (in) (nodes 0) (out))\n(block 0)\n\
    (op 0 4 (inst 128) (c 0) (c 0))\n";

const LIST: [u32; 36] = [
    54, 0, 2, 10, 1, 0, 1, 0, 1, 3, // function 10, of type 3
    248, 0, 0, 12, 0, 0, // label 12
    128, 0, 4, 11, 0, 2, 5, 5, // op 11
    253, 0, 0, 0, 0, 0, // return
    56, 0, 0, 0, 0, 0, // function end
];

const NOISE: u32 = 0xdead_beef;

/// Whether all words are one.
fn all(slice: &[u32], word: u32) -> bool {
    slice.iter().all(|&found| found == word)
}

#[test]
fn listing() {
    let mut scratch = Scratch::new();
    for length in [LIST.len(), 40, MAX_WORDS] {
        let mut out = vec![NOISE; length];
        assert_eq!(
            lift(LISTING, 10, &mut scratch, &mut out),
            Ok(Lifted { words: LIST.len(), next: 13 })
        );
        assert_eq!(out[..LIST.len()], LIST);
        assert!(all(&out[LIST.len()..], NOISE));
    }
}

#[test]
fn output() {
    let mut scratch = Scratch::new();
    for length in 0..LIST.len() {
        let mut out = vec![NOISE; length];
        let refusal = lift(LISTING, 10, &mut scratch, &mut out).unwrap_err();
        assert_eq!(refusal, Refusal::Output { wanted: LIST.len() });
        assert!(all(&out, NOISE));
    }
    // Behind the wrapper: the next id stays.
    let (mut func, mut work) = ([NOISE; SCRATCH_WORDS], [NOISE; SCRATCH_WORDS]);
    let (mut words, mut next) = (1, NOISE);
    // SAFETY: the slices and places are this function's, and the output slice has no words.
    let number = unsafe {
        sys::sighvona_lift(
            LISTING.as_ptr(),
            LISTING.len(),
            10,
            func.as_mut_ptr(),
            func.len(),
            work.as_mut_ptr(),
            work.len(),
            [].as_mut_ptr(),
            0,
            &mut words,
            &mut next,
        )
    };
    assert_eq!((number, words, next), (11, LIST.len(), NOISE));
    assert!(all(&func, 0) && all(&work, 0));
}

#[test]
fn scratch() {
    let mut long = [NOISE; SCRATCH_WORDS + 1];
    let mut short = [NOISE; SCRATCH_WORDS - 1];
    let mut out = [NOISE; 40];
    assert_eq!(lift_in(LISTING, 10, &mut long, &mut short, &mut out), Err(Refusal::Scratch));
    assert_eq!(lift_in(LISTING, 10, &mut short, &mut long, &mut out), Err(Refusal::Scratch));
    assert_eq!(lift_in(b"", 0, &mut [], &mut [], &mut []), Err(Refusal::Scratch));
    assert_eq!(read_in(LISTING, &mut short, &mut long), Err(Refusal::Scratch));
    assert_eq!(read_in(LISTING, &mut long, &mut short), Err(Refusal::Scratch));
    assert!(all(&long, NOISE) && all(&short, NOISE) && all(&out, NOISE));
    let mut other = [NOISE; SCRATCH_WORDS];
    assert_eq!(lift_in(b"x", 10, &mut long, &mut other, &mut out), Err(Refusal::Forms));
    assert!(all(&long, 0) && all(&other, 0) && all(&out, NOISE));
    let (mut long, mut other) = ([NOISE; SCRATCH_WORDS + 1], [NOISE; SCRATCH_WORDS]);
    assert!(lift_in(LISTING, 10, &mut other, &mut long, &mut out).is_ok());
    assert!(all(&long, 0) && all(&other, 0));
}

#[test]
fn reading() {
    for (text, answer) in [(LISTING, Ok(())), (b"", Err(Refusal::Forms))] {
        let (mut func, mut work) = ([NOISE; SCRATCH_WORDS], [NOISE; SCRATCH_WORDS + 1]);
        assert_eq!(read_in(text, &mut func, &mut work), answer);
        assert!(all(&func, 0) && all(&work, 0));
        assert_eq!(read(text, &mut Scratch::new()), answer);
    }
}

/// Of a text: a function without parameters, and what follows its first line. No slice of output is
/// lent, as 11 comes last; and reading alone refuses by 1 to 7 and 13.
fn refusal(first: u32, rest: &str) -> (u32, Refusal) {
    let text = format!("(func 0 2 3 0)\n{rest}");
    let mut scratch = Scratch::new();
    let refusal = lift(text.as_bytes(), first, &mut scratch, &mut []).expect_err(rest);
    let judged = read(text.as_bytes(), &mut scratch);
    let by_text = matches!(refusal.number(), 1..=7 | 13);
    assert_eq!(judged, if by_text { Err(refusal) } else { Ok(()) });
    (refusal.number(), refusal)
}

#[test]
fn refusals() {
    let empty = "(region (in) (nodes) (out))\n";
    let twice = "(ctrl 0 0 return (ins) (to) (vals))\n".repeat(2);
    // Region 1 is not reached, so nothing sets its input.
    let input = "(region (in (0 4)) (nodes) (out))\n(ctrl 0 0 return (ins (r 1 0)) (to) (vals))\n";
    assert_eq!(refusal(10, &" ".repeat(TEXT_BYTES)), (1, Refusal::Long));
    assert_eq!(refusal(10, "(region (in) (nodes) (out))"), (2, Refusal::Forms));
    assert_eq!(refusal(10, &empty.repeat(129)), (3, Refusal::Limits));
    assert_eq!(refusal(10, "(region (in) (nodes) (out (c 0)))\n"), (4, Refusal::References));
    assert_eq!(refusal(10, &empty.repeat(2)), (5, Refusal::Tree));
    assert_eq!(refusal(10, "(region (in (0 4)) (nodes) (out))\n"), (6, Refusal::Counts));
    assert_eq!(refusal(10, &format!("{empty}{twice}")), (7, Refusal::Control));
    // The targets 1 and 1, reached and not; before 9; and 0 and 0, which are wrong by themselves.
    let equal = |r, to| {
        let other = format!("(ctrl {} 0 return (ins) (to) (vals))\n", 1 - r);
        let by = format!("(ctrl {r} 0 bool (ins (c 0)) (to {to} {to}) (vals))\n");
        let lines = if r == 0 { by + &other } else { other + &by };
        format!("(const 5 43)\n{}{lines}", empty.repeat(2))
    };
    assert_eq!(refusal(10, &equal(0, 1)), (13, Refusal::Targets));
    assert_eq!(refusal(10, &equal(1, 1)), (13, Refusal::Targets));
    assert_eq!(refusal(5, &equal(0, 1)), (13, Refusal::Targets));
    assert_eq!(refusal(10, &equal(0, 0)), (7, Refusal::Control));
    assert_eq!(refusal(10, &equal(0, 1).replace("bool", "(inst 251)")).0, 11);
    assert_eq!(refusal(0, empty), (9, Refusal::Ids));
    assert_eq!(refusal(3, empty), (9, Refusal::Ids));
    assert_eq!(refusal(10, &format!("{empty}{input}")), (10, Refusal::Values));
    assert_eq!(refusal(10, empty), (11, Refusal::Output { wanted: 28 }));
}

/// A select by `bool` with one out, whose two cases have these nodes and outputs; node 1 is an exit,
/// and `node` is the line of node 2, if there is one.
fn select(cases: [(&str, &str); 2], node: &str) -> String {
    let [first, second] =
        cases.map(|(nodes, out)| format!("(region (in) (nodes{nodes}) (out{out}))\n"));
    format!(
        "(const 5 43)\n(region (in) (nodes 0) (out (n 0 0)))\n{first}{second}\
        (select bool (c 0) (cases 1 2) (outs (0 4)) 0)\n(exit (inst 252))\n{node}"
    )
}

/// A case that ends in an exit may have no outputs, and gives no pair to the select's phi.
#[test]
fn killed_case() {
    let exit = "(exit (inst 252))\n";
    let gives = ("", " (c 0)");
    let texts = [
        (select([(" 1", ""), gives], ""), 2),
        (select([gives, (" 1", "")], ""), 2),
        (select([(" 1", ""), (" 2", "")], exit), 0),
        (select([(" 1", " (c 0)"), (" 2", "")], exit), 0),
    ];
    for (rest, ids) in texts {
        let text = format!("(func 0 2 3 0)\n{rest}");
        let mut out = vec![0; MAX_WORDS];
        let lifted = lift(text.as_bytes(), 10, &mut Scratch::new(), &mut out).expect(&rest);
        let phis = instructions(&out[..lifted.words]).filter(|i| i.opcode == 245);
        assert_eq!(phis.map(|i| i.ids.len()).collect::<Vec<_>>(), [ids]);
        assert_eq!(read(text.as_bytes(), &mut Scratch::new()), Ok(()));
    }
    let refused = [
        select([(" 1 2", ""), gives], "(block)\n"),
        select([(" 2 1", " (c 0) (c 0)"), gives], "(block)\n"),
        select([("", ""), (" 1", "")], ""),
    ];
    for rest in refused {
        assert_eq!(refusal(10, &rest), (6, Refusal::Counts));
    }
}

/// A loop and a select in it, each with its control number and the space before it.
fn numbered(of_loop: &str, of_select: &str) -> String {
    let [outer, inner, case] =
        [" 0", " 1", ""].map(|nodes| format!("(region (in) (nodes{nodes}) (out))\n"));
    format!(
        "(const 5 43)\n{outer}{inner}{case}{case}(loop 1 (c 0) (init){of_loop})\n\
        (select bool (c 0) (cases 2 3) (outs){of_select})\n"
    )
}

/// Control numbers are the immediates of merges; from 3 on they are refused by 4, and without one a
/// form is no form.
#[test]
fn control_numbers() {
    for [of_loop, of_select] in [[0, 0], [1, 2], [2, 1]] {
        let rest = numbered(&format!(" {of_loop}"), &format!(" {of_select}"));
        let text = format!("(func 0 2 3 0)\n{rest}");
        let mut out = vec![0; MAX_WORDS];
        let lifted = lift(text.as_bytes(), 10, &mut Scratch::new(), &mut out).expect(&rest);
        let merges = instructions(&out[..lifted.words]).filter(|i| [246, 247].contains(&i.opcode));
        let found: Vec<_> = merges.flat_map(|merge| merge.immediates()).collect();
        let immediate = |operand_kind, word| Immediate { kind: 0, operand_kind, word };
        assert_eq!(found, [immediate(3, of_loop), immediate(2, of_select)]);
        assert_eq!(read(text.as_bytes(), &mut Scratch::new()), Ok(()));
    }
    for (of_loop, of_select) in [(" 3", " 0"), (" 0", " 3"), (" 4294967295", " 1")] {
        assert_eq!(refusal(10, &numbered(of_loop, of_select)), (4, Refusal::References));
    }
    for (of_loop, of_select) in [("", " 0"), (" 0", ""), (" 1 1", " 0"), (" 0", " 4294967296")] {
        assert_eq!(refusal(10, &numbered(of_loop, of_select)), (2, Refusal::Forms));
    }
}

/// Texts that give so many ids: the last one may be the highest, and is refused beyond it.
#[test]
fn highest_id() {
    let params = "(param 0 4)\n(param 0 4)\n(imported)\n";
    assert_eq!(HIGHEST_ID, 4_194_302);
    for (rest, ids) in [("(region (in) (nodes) (out))\n", 2), ("(imported)\n", 1), (params, 3)] {
        let text = format!("(func 0 2 3 0)\n{rest}");
        let first = HIGHEST_ID + 1 - ids;
        let lifted = lift(text.as_bytes(), first, &mut Scratch::new(), &mut vec![0; MAX_WORDS]);
        assert_eq!(lifted.map(|list| list.next), Ok(HIGHEST_ID + 1));
        assert_eq!(refusal(first + 1, rest), (9, Refusal::Ids));
    }
}

#[test]
fn errors() {
    let refusals = [
        Refusal::Long,
        Refusal::Forms,
        Refusal::Limits,
        Refusal::References,
        Refusal::Tree,
        Refusal::Counts,
        Refusal::Control,
        Refusal::Scratch,
        Refusal::Ids,
        Refusal::Values,
        Refusal::Output { wanted: 36 },
        Refusal::Targets,
    ];
    for (number, refusal) in (1..=11).chain([13]).zip(refusals) {
        assert_eq!(refusal.number(), number);
        let error: Box<dyn std::error::Error + Send + Sync> = refusal.into();
        assert!(error.to_string().starts_with(&format!("refusal {number}: ")));
    }
    assert!(refusals[10].to_string().ends_with(" 36 words"));
}

#[test]
fn steps() {
    let found: Vec<_> = instructions(&LIST)
        .map(|i| ([i.opcode, i.attributes, i.result_type, i.result], i.immediates().len(), i.ids))
        .collect();
    let expected: [([u32; 4], usize, &[u32]); 5] = [
        ([54, 0, 2, 10], 1, &[3]),
        ([248, 0, 0, 12], 0, &[]),
        ([128, 0, 4, 11], 0, &[5, 5]),
        ([253, 0, 0, 0], 0, &[]),
        ([56, 0, 0, 0], 0, &[]),
    ];
    assert_eq!(found, expected);
    let function = instructions(&LIST).next().unwrap();
    let control = Immediate { kind: 0, operand_kind: 1, word: 0 };
    assert_eq!(function.immediates().collect::<Vec<_>>(), [control]);
    assert_eq!(instructions(&LIST).size_hint(), (0, Some(6)));
}

#[test]
fn steps_through_any_words() {
    // Cut short, a list gives the instructions before the cut and leaves the rest.
    let ends = [0, 10, 16, 24, 30, 36];
    for length in 0..=LIST.len() {
        let mut steps = instructions(&LIST[..length]);
        let whole = ends.iter().filter(|&&end| 0 < end && end <= length).count();
        assert_eq!(steps.by_ref().count(), whole);
        assert_eq!(steps.rest(), &LIST[ends[whole]..length]);
        assert!(steps.next().is_none());
    }
    // Counts that no slice has.
    for count in [1, 2, 0x5555_5555, 0x5555_5556, 0x8000_0000, u32::MAX] {
        for words in [&[9, 0, 0, 0, count, 0, 0][..], &[9, 0, 0, 0, 0, count]] {
            let mut steps = instructions(words);
            assert!(steps.next().is_none());
            assert_eq!(steps.rest(), words);
        }
    }
}

#[test]
fn version() {
    assert_eq!(sighvona::library_version(), sighvona::VERSION);
    assert_eq!(sighvona::VERSION, 1536);
    let [major, minor, patch] = [16, 8, 0].map(|bits| sighvona::VERSION >> bits & 255);
    assert_eq!(format!("{major}.{minor}.{patch}"), env!("CARGO_PKG_VERSION"));
}
