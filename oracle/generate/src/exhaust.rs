//! Every small tree and every small graph.

use crate::print::{Case, ctrl, func, inst, region};
use refer::read::*;
use refer::refuse::HIGHEST_CONTROL;

/// What a skeleton's blocks hold and what its conditions are.
#[derive(Clone, Copy)]
pub struct Filling {
    /// The opcode of constant 0, the condition of every loop and select.
    pub opcode: u32,
    /// Whether each block holds an op.
    pub ops: bool,
}

#[derive(Clone)]
enum Tree {
    Block,
    Exit,
    Loop(Vec<Tree>),
    Select(Vec<Tree>, Vec<Tree>),
}

/// Every list of trees with `count` nodes in all.
fn forests(count: usize) -> Vec<Vec<Tree>> {
    if count == 0 {
        return vec![vec![]];
    }
    let mut all = vec![];
    for first in 1..=count {
        for tree in trees(first) {
            for rest in forests(count - first) {
                all.push([&[tree.clone()][..], &rest].concat());
            }
        }
    }
    all
}

fn trees(count: usize) -> Vec<Tree> {
    let mut all = vec![];
    if count == 1 {
        all.extend([Tree::Block, Tree::Exit]);
    }
    all.extend(forests(count - 1).into_iter().map(Tree::Loop));
    for left in 0..count {
        for a in forests(left) {
            for b in forests(count - 1 - left) {
                all.push(Tree::Select(a.clone(), b));
            }
        }
    }
    all
}

/// Every text of exactly `count` nodes made of blocks, exits, loops and two-case `bool` selects,
/// numbered as the walk first meets them.
pub fn skeletons(count: usize, filling: Filling) -> impl Iterator<Item = Case> {
    forests(count).into_iter().map(move |forest| {
        let mut func = func();
        func.consts[0].1 = filling.opcode;
        plant(&mut func, &forest, filling);
        Case { first: 10, func }
    })
}

fn plant(func: &mut Func, forest: &[Tree], filling: Filling) -> u32 {
    let number = func.regions.len();
    func.regions.push(region(&[]));
    for tree in forest {
        let node = func.nodes.len();
        func.regions[number].nodes.push(node as u32);
        func.nodes.push(Node::Block { ops: vec![] });
        let c = Value::Const(0);
        func.nodes[node] = match tree {
            Tree::Block if filling.ops => {
                let op = func.ops.len() as u32;
                let kind = OpKind::Inst(inst(128));
                func.ops.push(Op { attrs: 0, ty: 4, kind, operands: vec![c] });
                Node::Block { ops: vec![op] }
            }
            Tree::Block => Node::Block { ops: vec![] },
            Tree::Exit => Node::Exit { inst: inst(252), values: vec![] },
            Tree::Loop(inner) => {
                let body = plant(func, inner, filling);
                Node::Loop { body, repeat: c, inits: vec![], control: 0 }
            }
            Tree::Select(a, b) => {
                let cases = vec![plant(func, a, filling), plant(func, b, filling)];
                let (kind, outs) = (Selection::Bool, vec![]);
                Node::Select { kind, scrutinee: c, cases, outs, control: 0 }
            }
        };
    }
    number as u32
}

/// Which ways out a family of graphs has.
#[derive(Clone, Copy)]
struct Ways {
    /// Also `unreachable`, empty entries and attributes.
    full: bool,
    /// Targets of a selection by instruction at most.
    targets: usize,
}

/// Every graph of region 0 and `roots` further roots, each with an op, whose inputs are one or
/// none by the bits of `inputs`.
fn graphs(roots: usize, inputs: usize, ways: Ways) -> impl Iterator<Item = Case> {
    let has_input = move |r: u32| r > 0 && inputs >> (r - 1) & 1 == 1;
    let options: Vec<Vec<Option<Ctrl>>> =
        (0..=roots as u32).map(|r| ways_out(r, roots as u32, ways, &has_input)).collect();
    let total: usize = options.iter().map(|list| list.len()).product();
    (0..total).filter_map(move |mut choice| {
        let mut func = func();
        for (r, list) in (0..).zip(&options) {
            let mut region = region(&[r]);
            if has_input(r) {
                region.inputs.push(Decl { attrs: 0, ty: 6 });
            }
            func.regions.push(region);
            func.nodes.push(Node::Block { ops: vec![r] });
            let kind = OpKind::Inst(inst(128 + r));
            func.ops.push(Op { attrs: 0, ty: 4, kind, operands: vec![] });
            func.ctrls.extend(list[choice % list.len()].clone());
            choice /= list.len();
        }
        // A ctrl line may be missing only where the root is not reached.
        let has_ctrl = |r: &u32| func.ctrls.iter().any(|ctrl| ctrl.region == *r);
        func.reached().iter().all(has_ctrl).then_some(Case { first: 10, func })
    })
}

fn ways_out(r: u32, roots: u32, ways: Ways, has_input: &dyn Fn(u32) -> bool) -> Vec<Option<Ctrl>> {
    let mut all = vec![ctrl(r, CtrlKind::Return, &[]), ctrl(r, CtrlKind::Exit(inst(252)), &[])];
    if ways.full {
        all.push(ctrl(r, CtrlKind::Unreachable, &[]));
    }
    // The value that goes along an edge tells where it comes from.
    let brought = if has_input(r) { Value::Input(r, 0) } else { Value::Const(0) };
    let entries = |targets: &[u32]| {
        let mut values: Vec<(u32, Vec<Value>)> = vec![];
        for &target in targets {
            if has_input(target) && !values.iter().any(|(named, _)| *named == target) {
                values.push((target, vec![brought]));
            }
        }
        values
    };
    for target in 1..=roots {
        let plain = || Ctrl { values: entries(&[target]), ..ctrl(r, CtrlKind::Branch, &[target]) };
        all.push(plain());
        if ways.full {
            all.push(Ctrl { attrs: 7, ..plain() });
            if !has_input(target) {
                all.push(Ctrl { values: vec![(target, vec![])], ..plain() });
            }
        }
    }
    let mut tuples: Vec<Vec<u32>> = vec![vec![]];
    for length in 1..=ways.targets.max(2) {
        tuples = tuples
            .iter()
            .flat_map(|tuple| (1..=roots).map(move |r| [&tuple[..], &[r]].concat()))
            .collect();
        for targets in &tuples {
            let inputs = vec![Value::Const(0)];
            let values = entries(targets);
            if length == 2 {
                let kind = CtrlKind::Select(Selection::Bool);
                let (inputs, values) = (inputs.clone(), values.clone());
                all.push(Ctrl { inputs, values, ..ctrl(r, kind, targets) });
            }
            if length <= ways.targets {
                let kind = CtrlKind::Select(Selection::Inst(inst(251)));
                all.push(Ctrl { inputs, values, ..ctrl(r, kind, targets) });
            }
        }
    }
    let missing = (r > 0).then_some(None);
    missing.into_iter().chain(all.into_iter().map(Some)).collect()
}

/// Every graph up to 3 roots beyond region 0; with 3, ways out of at most two targets.
pub fn all_graphs() -> impl Iterator<Item = Case> {
    let full = Ways { full: true, targets: 3 };
    let few = Ways { full: false, targets: 0 };
    (0..3)
        .flat_map(move |roots| (0..1 << roots).map(move |inputs| (roots, inputs, full)))
        .chain([(3, 0, few), (3, 0b101, few)])
        .flat_map(|(roots, inputs, ways)| graphs(roots, inputs, ways))
}

/// The case with each other choice of control numbers than 0 for all.
fn numbered(case: Case) -> impl Iterator<Item = Case> {
    let choices = HIGHEST_CONTROL + 1;
    let count = case.func.nodes.iter().filter_map(Node::control).count();
    (1..choices.pow(count as u32)).map(move |mut choice| {
        let mut func = case.func.clone();
        for control in func.nodes.iter_mut().filter_map(Node::control_mut) {
            *control = choice % choices;
            choice /= choices;
        }
        Case { first: case.first, func }
    })
}

/// Every skeleton up to 4 nodes, without control numbers: as it is, with loops that never end, and
/// with ops. Then every one up to 3 nodes with every other choice of control numbers.
pub fn all_skeletons() -> impl Iterator<Item = Case> {
    let plain = Filling { opcode: 43, ops: false };
    [plain, Filling { opcode: 41, ..plain }, Filling { ops: true, ..plain }]
        .into_iter()
        .flat_map(|filling| (0..5).map(move |count| (count, filling)))
        .flat_map(|(count, filling)| skeletons(count, filling))
        .chain((0..4).flat_map(move |count| skeletons(count, plain)).flat_map(numbered))
}
