//! Control numbers of selects and loops (document 02, W4): at random, and near misses.

use crate::print::Case;
use crate::rng::Rng;
use refer::read::*;
use refer::refuse::HIGHEST_CONTROL;

/// Gives every select and loop one of these numbers.
pub fn assign(rng: &mut Rng, func: &mut Func, numbers: &[u32]) {
    for control in func.nodes.iter_mut().filter_map(Node::control_mut) {
        *control = rng.pick(numbers);
    }
}

/// The selects and loops of a region's list.
fn held(func: &Func, region: u32) -> impl Iterator<Item = (u32, &Node)> {
    let nodes = func.regions[region as usize].nodes.iter();
    nodes.map(|n| (*n, &func.nodes[*n as usize])).filter(|(_, node)| node.control().is_some())
}

/// Whether a select or loop stands in another.
pub fn is_nested(func: &Func) -> bool {
    let children = func.nodes.iter().flat_map(|node| node.children());
    children.into_iter().any(|region| held(func, *region).next().is_some())
}

/// The selects and loops below these regions.
fn below(func: &Func, mut regions: Vec<u32>) -> Vec<u32> {
    let mut found = vec![];
    while let Some(region) = regions.pop() {
        for (number, node) in held(func, region) {
            found.push(number);
            regions.extend(node.children());
        }
    }
    found
}

/// An input that is refused for a number: for one that is too high by 4, every second time in a root
/// that is not reached, if one there has a number; for its form or place by 2; and for one on a
/// block, where it names an op, by 4 or 5. Some have a first id that is too low as well. The text
/// must have a select or loop.
pub fn near_miss(rng: &mut Rng, mut case: Case) -> String {
    if rng.chance(10) {
        case.first = rng.below(case.func.highest_id() as usize + 1) as u32;
    }
    if rng.chance(50) { too_high(rng, case).to_string() } else { misformed(rng, &case.to_string()) }
}

fn too_high(rng: &mut Rng, mut case: Case) -> Case {
    let func = &mut case.func;
    let all = (0..).zip(&func.nodes).filter(|(_, node)| node.control().is_some());
    let mut nodes: Vec<u32> = all.map(|(number, _)| number).collect();
    if rng.chance(50) {
        let walked = below(func, func.reached());
        let lost: Vec<u32> = nodes.iter().copied().filter(|n| !walked.contains(n)).collect();
        nodes = if lost.is_empty() { nodes } else { lost };
    }
    let more = rng.pick(&[1, 1, 2, 8, 253, 65_534, u32::MAX - HIGHEST_CONTROL]);
    *func.nodes[rng.pick(&nodes) as usize].control_mut().unwrap() = HIGHEST_CONTROL + more;
    case
}

/// One line with its number missing, twice, in another form or in another place, or with a number
/// where none belongs.
fn misformed(rng: &mut Rng, input: &str) -> String {
    let mut lines: Vec<String> = input.lines().map(str::to_owned).collect();
    let places = |heads: [&str; 2]| -> Vec<usize> {
        let starts = |i: &usize| heads.iter().any(|head| lines[*i].starts_with(head));
        (0..lines.len()).filter(starts).collect()
    };
    let (with, without) = (places(["(select ", "(loop "]), places(["(block", "(exit "]));
    if !without.is_empty() && rng.chance(20) {
        let line = &mut lines[rng.pick(&without)];
        line.insert_str(line.len() - 1, &format!(" {}", rng.below(3)));
    } else {
        let line = &mut lines[rng.pick(&with)];
        let (rest, number) = line.trim_end_matches(')').rsplit_once(' ').unwrap();
        let (before, last) = rest.split_at(rest.rfind(" (outs").or(rest.rfind(" (init")).unwrap());
        let (head, after) = before.split_once(' ').unwrap();
        *line = match rng.below(12) {
            0 | 1 => format!("{rest})"),
            2 => format!("{rest} {number} {number})"),
            3 => format!("{rest} {number} 0)"),
            4 => format!("{rest} 0{number})"),
            5 => format!("{rest} {})", u64::from(u32::MAX) + 1),
            6 => format!("{rest} ({number}))"),
            7 => format!("{rest} -{number})"),
            8 => format!("{before} {number}{last})"),
            9 => format!("{head} {number} {after}{last})"),
            10 => format!("{rest}) {number}"),
            _ => rng.pick(&[format!("{rest}  {number})"), format!("{rest}{number})")]),
        };
    }
    lines.join("\n") + "\n"
}
