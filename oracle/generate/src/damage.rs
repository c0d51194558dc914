//! Damaged copies of inputs, at byte, number and form level.

use crate::rng::Rng;
use refer::HIGHEST_ID;
use std::ops::Range;

/// The input with one to three changes. It still ends its last line, so that a batch can hold it.
pub fn damage(rng: &mut Rng, input: &str) -> Vec<u8> {
    loop {
        let mut bytes = input.as_bytes().to_vec();
        for _ in 0..rng.pick(&[1, 1, 1, 2, 3]) {
            match rng.below(10) {
                0 | 1 => byte_level(rng, &mut bytes),
                2..6 => number_level(rng, &mut bytes),
                _ => form_level(rng, &mut bytes),
            }
        }
        let holds_mark = bytes.split(|byte| *byte == b'\n').any(|line| line == b"%%");
        if bytes.last() == Some(&b'\n') && !holds_mark {
            return bytes;
        }
    }
}

fn byte_level(rng: &mut Rng, bytes: &mut Vec<u8>) {
    let at = rng.below(bytes.len());
    let byte = rng.pick(b"()()0123456789  \n\nacdinrx-+.\t\r\0\x80\xff");
    match rng.below(4) {
        0 => bytes[at] = byte,
        1 => bytes.insert(at, byte),
        2 if bytes.len() > 1 => drop(bytes.remove(at)),
        _ => bytes.insert(at, bytes[at]),
    }
}

/// Where numbers stand.
fn numbers(bytes: &[u8]) -> Vec<Range<usize>> {
    let mut found: Vec<Range<usize>> = vec![];
    for (i, _) in bytes.iter().enumerate().filter(|(_, byte)| byte.is_ascii_digit()) {
        match found.last_mut() {
            Some(last) if last.end == i => last.end += 1,
            _ => found.push(i..i + 1),
        }
    }
    found
}

fn number_level(rng: &mut Rng, bytes: &mut Vec<u8>) {
    let places = numbers(bytes);
    if places.is_empty() {
        return;
    }
    let place = rng.pick(&places);
    let old: u64 = std::str::from_utf8(&bytes[place.clone()]).unwrap().parse().unwrap_or(0);
    let new = match rng.below(14) {
        0 => "0".to_owned(),
        1 | 2 => (old + 1).to_string(),
        3 | 4 => old.saturating_sub(1).to_string(),
        5 | 6 => rng.below(8).to_string(),
        7 => rng.pick(&[12, 41, 54, 57, 245, 248, 249, 250, 253, 255]).to_string(),
        8 => rng.pick(&[65_535, 65_536, HIGHEST_ID, HIGHEST_ID + 1, HIGHEST_ID + 2]).to_string(),
        9 => rng.pick(&[u64::from(u32::MAX), 1 << 32, u64::MAX]).to_string(),
        10 => format!("0{old}"),
        11 => format!("{old} {old}"),
        12 => {
            // A number goes with the space before it.
            bytes.splice(place.start.saturating_sub(1)..place.end, []);
            return;
        }
        _ => {
            let other = rng.pick(&places);
            String::from_utf8_lossy(&bytes[other]).into_owned()
        }
    };
    bytes.splice(place, new.into_bytes());
}

/// Where bracketed forms stand, inner ones too.
fn forms(bytes: &[u8]) -> Vec<Range<usize>> {
    let mut open = vec![];
    let mut found = vec![];
    for (i, byte) in bytes.iter().enumerate() {
        match byte {
            b'(' => open.push(i),
            b')' => found.extend(open.pop().map(|start| start..i + 1)),
            _ => {}
        }
    }
    found
}

fn form_level(rng: &mut Rng, bytes: &mut Vec<u8>) {
    let places = forms(bytes);
    if places.is_empty() {
        return;
    }
    let place = rng.pick(&places);
    // A form goes with the space or line's end before it.
    let with_mark = place.start.saturating_sub(1)..place.end;
    match rng.below(7) {
        0 => drop(bytes.splice(with_mark, [])),
        1 => {
            let copy = bytes[with_mark.clone()].to_vec();
            bytes.splice(place.end..place.end, copy);
        }
        2 | 3 => {
            // Another form in its place, of the same kind where there is one.
            let head = |range: &Range<usize>| bytes.get(range.start + 1).copied();
            let any = rng.chance(30);
            let alike: Vec<_> =
                places.iter().filter(|p| any || head(p) == head(&place)).cloned().collect();
            let copy = bytes[rng.pick(&alike)].to_vec();
            bytes.splice(place, copy);
        }
        4 => {
            let mut lines: Vec<Vec<u8>> =
                bytes.split_inclusive(|byte| *byte == b'\n').map(<[u8]>::to_vec).collect();
            let (a, b) = (rng.below(lines.len()), rng.below(lines.len()));
            match rng.below(3) {
                0 => lines.swap(a, b),
                1 => drop(lines.remove(a)),
                _ => lines.insert(a, lines[b].clone()),
            }
            *bytes = lines.concat();
        }
        5 => equal_targets(rng, bytes),
        _ => {
            let words = ["return", "branch", "bool", "unreachable", "(exit (inst 252))"];
            let text = String::from_utf8_lossy(bytes).into_owned();
            let (old, new) = (rng.pick(&words), rng.pick(&words));
            *bytes = text.replacen(old, new, 1).into_bytes();
        }
    }
}

/// Where the two targets of each `bool` ctrl line stand.
fn bool_targets(text: &str) -> Vec<[Range<usize>; 2]> {
    let lines = text.match_indices(" bool (ins").filter_map(|(line, _)| {
        let start = line + text[line..].find(" (to ")? + " (to ".len();
        let middle = start + text[start..].find(' ')?;
        let end = start + text[start..].find(')')?;
        // One target, or three and more, if the middle is not between two.
        (middle < end && !text[middle + 1..end].contains(' '))
            .then(|| [start..middle, middle + 1..end])
    });
    lines.collect()
}

/// Makes the two targets of a `bool` ctrl line equal, if there is one.
fn equal_targets(rng: &mut Rng, bytes: &mut Vec<u8>) {
    let mut text = String::from_utf8_lossy(bytes).into_owned();
    let places = bool_targets(&text);
    if places.is_empty() {
        return;
    }
    let mut pair = rng.pick(&places);
    rng.shuffle(&mut pair);
    let [from, to] = pair;
    let target = text[from].to_owned();
    text.replace_range(to, &target);
    *bytes = text.into_bytes();
}
