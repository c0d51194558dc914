//! Inputs of `lift` for comparing: at random by a seed, exhaustive where small, at the limits,
//! and damaged.

pub mod damage;
pub mod exhaust;
pub mod limits;
pub mod near;
pub mod numbers;
pub mod print;
pub mod random;
pub mod rng;

use random::Shape;
use rng::Rng;

pub const RANDOM_KINDS: [&str; 12] = [
    "structured",
    "unstructured",
    "mixed",
    "wild",
    "big",
    "imported",
    "equal",
    "ended",
    "near-ended",
    "numbered",
    "near-numbered",
    "damaged",
];
pub const FIXED_KINDS: [&str; 3] = ["skeletons", "graphs", "limits"];

/// The input of a random kind that belongs to a seed and a place in its row.
pub fn random(kind: &str, seed: u64, place: u64) -> Option<Vec<u8>> {
    // Each place has its own numbers, so that any case can be made alone.
    let mut own = Rng::new(seed ^ place.wrapping_mul(0x2545_f491_4f6c_dd1d));
    // Control numbers have theirs, so that all else stays as it is whatever they are.
    let [mut rng, mut numbers] = [own.draw(), own.draw()].map(Rng::new);
    let rng = &mut rng;
    let calm = Shape { roots: 0, nodes: 14, exits: 4, wild: 0, unset: false, equal: 0, ended: 0 };
    let graph = Shape { roots: 6, nodes: 4, ..calm };
    let mut case = match kind {
        "structured" => random::body(rng, calm),
        "unstructured" => random::body(rng, graph),
        // Values at random, but seldom one that is not set.
        "mixed" => match rng.below(20) {
            0 => random::imported(rng),
            1..10 => random::body(rng, Shape { wild: 15, ..calm }),
            _ => random::body(rng, Shape { wild: 15, ..graph }),
        },
        // Values and exits anywhere.
        "wild" => {
            let roots = if rng.chance(50) { 0 } else { 8 };
            let nodes = if roots == 0 { 20 } else { 5 };
            random::body(rng, Shape { roots, nodes, exits: 15, wild: 25, unset: true, ..calm })
        }
        "big" => {
            let roots = rng.pick(&[0, 0, 20, 60]);
            let nodes = if roots == 0 { 100 } else { 6 };
            random::body(rng, Shape { roots, nodes, exits: 1, wild: 5, ..calm })
        }
        "imported" => random::imported(rng),
        "equal" => random::equal(rng, graph),
        "ended" | "near-ended" => {
            let shape = if rng.chance(60) { calm } else { graph };
            let make = if kind == "ended" { random::ended } else { random::near_ended };
            make(rng, shape)
        }
        "numbered" | "near-numbered" => {
            let shape = if rng.chance(60) { calm } else { graph };
            random::nested(rng, shape)
        }
        "damaged" => {
            let kinds = ["mixed", "wild", "structured", "unstructured", "ended", "numbered"];
            let kind = rng.pick(&kinds);
            let input = random(kind, rng.draw(), 0)?;
            return Some(damage::damage(rng, std::str::from_utf8(&input).unwrap()));
        }
        _ => return None,
    };
    let one_of: &[u32] = if kind.ends_with("numbered") { &[1, 2] } else { &[0, 0, 1, 2] };
    numbers::assign(&mut numbers, &mut case.func, one_of);
    let is_near = kind == "near-numbered" && rng.chance(50);
    let input = if is_near { numbers::near_miss(rng, case) } else { case.to_string() };
    Some(input.into_bytes())
}

/// Every input of a kind that has no seed.
pub fn fixed(kind: &str) -> Option<Box<dyn Iterator<Item = Vec<u8>>>> {
    let bytes = |case: print::Case| case.to_string().into_bytes();
    match kind {
        "skeletons" => Some(Box::new(exhaust::all_skeletons().map(bytes))),
        "graphs" => Some(Box::new(exhaust::all_graphs().map(bytes))),
        "limits" => Some(Box::new(limits::limits().into_iter().map(String::into_bytes))),
        _ => None,
    }
}

#[cfg(test)]
mod tests {
    use super::numbers::is_nested;
    use super::random;
    use refer::read::{Cursor, Func, Node};

    /// How many texts of a kind are looked at.
    const COUNT: u64 = 5_000;

    /// Each text without its first line.
    fn texts(kind: &str) -> impl Iterator<Item = Vec<u8>> {
        (0..COUNT).map(move |place| {
            let input = random(kind, 1, place).unwrap();
            let mut cursor = Cursor(&input);
            cursor.first().unwrap();
            cursor.0.to_vec()
        })
    }

    /// Of each text the refusal by 1 to 7 or 13, or whether it has what it should.
    fn read(kind: &str, has: fn(&Func) -> bool) -> Vec<Result<bool, u32>> {
        texts(kind).map(|text| refer::parse(&text).map(|func| has(&func))).collect()
    }

    fn has_case_let_off(func: &Func) -> bool {
        !func.let_off().is_empty()
    }

    /// A select or loop in another, and on each 1 or 2.
    fn is_numbered(func: &Func) -> bool {
        let mut numbers = func.nodes.iter().filter_map(Node::control);
        is_nested(func) && numbers.all(|number| [1, 2].contains(&number))
    }

    fn count(found: &[Result<bool, u32>], refusal: u32) -> usize {
        found.iter().filter(|found| **found == Err(refusal)).count()
    }

    #[test]
    fn ended_has_a_case_let_off() {
        assert!(read("ended", has_case_let_off).iter().all(|found| *found == Ok(true)));
    }

    #[test]
    fn near_ended_is_refused_one_time_in_five() {
        let found = read("near-ended", has_case_let_off);
        assert!(found.iter().all(|found| [Ok(true), Err(6)].contains(found)));
        let refused = count(&found, 6);
        assert!((900..1_100).contains(&refused), "{refused} of {COUNT} are refused");
    }

    #[test]
    fn numbered_is_nested() {
        assert!(read("numbered", is_numbered).iter().all(|found| *found == Ok(true)));
    }

    #[test]
    fn near_numbered_is_refused_every_second_time() {
        let found = read("near-numbered", is_numbered);
        assert!(found.iter().all(|found| [Ok(true), Err(2), Err(4), Err(5)].contains(found)));
        let refused = found.iter().filter(|found| found.is_err()).count();
        assert!((2_400..2_600).contains(&refused), "{refused} of {COUNT} are refused");
        for refusal in [2, 4] {
            let refused = count(&found, refusal);
            assert!(refused > 1_000, "{refused} of {COUNT} are refused by {refusal}");
        }
    }

    /// Of the other kinds every second number is 0.
    #[test]
    fn every_number_is_drawn() {
        let numbers = |text: Vec<u8>| {
            let func = refer::parse(&text).unwrap();
            func.nodes.iter().filter_map(Node::control).collect::<Vec<_>>()
        };
        let drawn: Vec<u32> = texts("structured").flat_map(numbers).collect();
        let times = [0, 1, 2].map(|number| drawn.iter().filter(|n| **n == number).count());
        assert!(times[0] > times[1] && times[0] > times[2] && times[1].min(times[2]) > 1_000);
        assert_eq!(times.iter().sum::<usize>(), drawn.len());
    }
}
