//! Document 01, 'Blocks and their order' and 'The instruction list'.

use crate::read::*;
use std::collections::HashMap;

#[derive(Clone, Copy, Debug, PartialEq, Eq, Hash)]
pub enum Point {
    RegionEntry(u32),
    RegionExit(u32),
    NodeEntry(u32),
    NodeExit(u32),
}
use Point::*;

#[derive(Clone, Debug)]
pub struct Merge {
    pub kind: MergeKind,
    /// The node's number.
    pub control: u32,
}

#[derive(Clone, Debug)]
pub enum MergeKind {
    Selection(Point),
    Loop(Point, Point),
}

/// The way out of a block.
#[derive(Clone, Debug)]
pub struct Terminator {
    pub attrs: u32,
    pub inst: Inst,
    pub inputs: Vec<Value>,
    pub targets: Vec<Point>,
    /// The edge-value entries.
    pub values: Vec<(Point, Vec<Value>)>,
    pub merge: Option<Merge>,
}

impl Terminator {
    /// None, a selection's end, or where a loop is left and where its way back begins.
    fn merge_labels(&self) -> Vec<Point> {
        match self.merge.as_ref().map(|merge| &merge.kind) {
            Some(MergeKind::Selection(exit)) => vec![*exit],
            Some(MergeKind::Loop(exit, again)) => vec![*exit, *again],
            None => vec![],
        }
    }
}

#[derive(Debug)]
pub struct Phi {
    pub decl: Decl,
    /// The value that it sets.
    pub sets: Value,
    /// A loop's init, which every edge without an entry brings.
    pub init: Option<Value>,
}

#[derive(Debug)]
pub struct Block {
    pub point: Point,
    /// The points whose ops and way out it holds: its own, then each that was absorbed.
    pub chain: Vec<Point>,
    pub phis: Vec<Phi>,
    pub ops: Vec<u32>,
    pub terminator: Terminator,
}

/// `OpLoopMerge` and `OpSelectionMerge`.
pub const MERGES: [u32; 2] = [246, 247];

/// One instruction of the list.
#[derive(Debug, PartialEq, Eq)]
pub struct Line {
    pub opcode: u32,
    pub attrs: u32,
    pub result_type: u32,
    pub result: u32,
    pub imms: Vec<[u32; 3]>,
    pub ids: Vec<u32>,
}

fn plain(opcode: u32) -> Inst {
    Inst { opcode, imms: vec![] }
}

fn branch(to: Point) -> Terminator {
    let inst = plain(249);
    Terminator { attrs: 0, inst, inputs: vec![], targets: vec![to], values: vec![], merge: None }
}

fn selection(kind: &Selection) -> Inst {
    match kind {
        Selection::Bool => plain(250),
        Selection::Inst(inst) => inst.clone(),
    }
}

fn entry(to: Point, values: &[Value]) -> Vec<(Point, Vec<Value>)> {
    if values.is_empty() { vec![] } else { vec![(to, values.to_vec())] }
}

/// Every visited point with its block before absorption, in order.
pub fn visits(func: &Func) -> Vec<Block> {
    let mut walk = Walk { func, blocks: vec![] };
    if func.ctrls.is_empty() {
        let outputs = &func.regions[0].outputs;
        let inst = plain(if outputs.is_empty() { 253 } else { 254 });
        let inputs = outputs.clone();
        let end = Terminator { inst, inputs, targets: vec![], ..branch(RegionExit(0)) };
        walk.region(0, vec![], end);
    } else {
        for root in roots(func) {
            let phis = if root == 0 { vec![] } else { walk.input_phis(root, &[]) };
            walk.region(root, phis, ctrl_terminator(func.ctrl_of(root)));
        }
    }
    walk.blocks
}

/// Reverse post-order of a depth-first walk from the body, targets last to first.
fn roots(func: &Func) -> Vec<u32> {
    fn visit(func: &Func, region: u32, met: &mut Vec<u32>, post: &mut Vec<u32>) {
        if met.contains(&region) {
            return;
        }
        met.push(region);
        for &target in func.ctrl_of(region).targets.iter().rev() {
            visit(func, target, met, post);
        }
        post.push(region);
    }
    let mut post = vec![];
    visit(func, 0, &mut vec![], &mut post);
    post.reverse();
    post
}

fn ctrl_terminator(ctrl: &Ctrl) -> Terminator {
    let inst = match &ctrl.kind {
        CtrlKind::Unreachable => plain(255),
        CtrlKind::Return => plain(if ctrl.inputs.is_empty() { 253 } else { 254 }),
        CtrlKind::Branch => plain(249),
        CtrlKind::Select(kind) => selection(kind),
        CtrlKind::Exit(inst) => inst.clone(),
    };
    Terminator {
        attrs: ctrl.attrs,
        inst,
        inputs: ctrl.inputs.clone(),
        targets: ctrl.targets.iter().map(|r| RegionEntry(*r)).collect(),
        values: ctrl.values.iter().map(|(r, values)| (RegionEntry(*r), values.clone())).collect(),
        merge: None,
    }
}

impl Func {
    fn ctrl_of(&self, region: u32) -> &Ctrl {
        self.ctrls.iter().find(|ctrl| ctrl.region == region).unwrap()
    }
}

struct Walk<'a> {
    func: &'a Func,
    blocks: Vec<Block>,
}

impl<'a> Walk<'a> {
    fn visit(&mut self, point: Point, phis: Vec<Phi>, ops: &[u32], terminator: Terminator) {
        self.blocks.push(Block { point, chain: vec![point], phis, ops: ops.to_vec(), terminator });
    }

    fn input_phis(&self, region: u32, inits: &[Value]) -> Vec<Phi> {
        let inputs = self.func.regions[region as usize].inputs.iter().zip(0..);
        inputs
            .map(|(decl, i)| Phi {
                decl: *decl,
                sets: Value::Input(region, i),
                init: inits.get(i as usize).copied(),
            })
            .collect()
    }

    fn region(&mut self, region: u32, phis: Vec<Phi>, way_out: Terminator) {
        let nodes = &self.func.regions[region as usize].nodes;
        // From each place in the region the way goes on to the next node or the region's exit.
        let next = |i: usize| nodes.get(i).map_or(RegionExit(region), |node| NodeEntry(*node));
        self.visit(RegionEntry(region), phis, &[], branch(next(0)));
        for (i, &node) in nodes.iter().enumerate() {
            self.node(node, next(i + 1));
        }
        self.visit(RegionExit(region), vec![], &[], way_out);
    }

    fn node(&mut self, node: u32, next: Point) {
        let func = self.func;
        let exit = NodeExit(node);
        let mut out_phis = vec![];
        match &func.nodes[node as usize] {
            Node::Block { ops } => self.visit(NodeEntry(node), vec![], ops, branch(exit)),
            Node::Select { kind, scrutinee, cases, outs, control } => {
                let merge = Merge { kind: MergeKind::Selection(exit), control: *control };
                let terminator = Terminator {
                    inst: selection(kind),
                    inputs: vec![*scrutinee],
                    targets: cases.iter().map(|case| RegionEntry(*case)).collect(),
                    merge: Some(merge),
                    ..branch(exit)
                };
                self.visit(NodeEntry(node), vec![], &[], terminator);
                for &case in cases {
                    let values = entry(exit, &func.regions[case as usize].outputs);
                    self.region(case, vec![], Terminator { values, ..branch(exit) });
                }
                out_phis = (0..)
                    .zip(outs)
                    .map(|(i, decl)| Phi { decl: *decl, sets: Value::Out(node, i), init: None })
                    .collect();
            }
            Node::Loop { body, repeat, inits, control } => {
                let back = NodeEntry(node);
                let kind = MergeKind::Loop(exit, RegionExit(*body));
                let merge = Some(Merge { kind, control: *control });
                let terminator = Terminator { merge, ..branch(RegionEntry(*body)) };
                self.visit(back, self.input_phis(*body, inits), &[], terminator);
                let values = entry(back, &func.regions[*body as usize].outputs);
                let mut way_out = Terminator { values, ..branch(back) };
                let always = matches!(repeat, Value::Const(n) if func.consts[*n as usize].1 == 41);
                if !always {
                    way_out.inst = plain(250);
                    way_out.inputs = vec![*repeat];
                    way_out.targets.push(exit);
                }
                self.region(*body, vec![], way_out);
            }
            Node::Exit { inst, values } => {
                let terminator = Terminator {
                    inst: inst.clone(),
                    inputs: values.clone(),
                    targets: vec![],
                    ..branch(exit)
                };
                self.visit(NodeEntry(node), vec![], &[], terminator);
            }
        }
        self.visit(exit, out_phis, &[], branch(next));
    }
}

/// Uses of each point: one for the first point, one per target, one per merge label.
pub fn use_counts(blocks: &[Block]) -> HashMap<Point, usize> {
    let mut counts = HashMap::new();
    let mut count = |point: Point| *counts.entry(point).or_insert(0) += 1;
    count(blocks[0].point);
    for block in blocks {
        block.terminator.targets.iter().for_each(|target| count(*target));
        block.terminator.merge_labels().into_iter().for_each(&mut count);
    }
    counts
}

/// Absorption over the points in reverse order; then points of count 0 are dropped.
pub fn kept(mut blocks: Vec<Block>) -> Vec<Block> {
    let mut counts = use_counts(&blocks);
    let places: HashMap<Point, usize> =
        blocks.iter().enumerate().map(|(i, block)| (block.point, i)).collect();
    for i in (0..blocks.len()).rev() {
        let Terminator { attrs: 0, inst, inputs, targets, values, merge: None } =
            &blocks[i].terminator
        else {
            continue;
        };
        let &[target] = &targets[..] else { continue };
        let place = places[&target];
        if inst.opcode == 249
            && inputs.is_empty()
            && values.is_empty()
            && counts[&target] == 1
            && blocks[place].phis.is_empty()
        {
            counts.insert(target, 0);
            let chain = std::mem::take(&mut blocks[place].chain);
            blocks[i].chain.extend(chain);
            let ops = std::mem::take(&mut blocks[place].ops);
            blocks[i].ops.extend(ops);
            blocks[i].terminator = blocks[place].terminator.clone();
        }
    }
    blocks.retain(|block| counts.get(&block.point).is_some_and(|count| *count > 0));
    blocks
}

/// A line for each kept block. An imported function has none.
pub fn block_lines(func: &Func) -> Vec<String> {
    if func.imported {
        return vec![];
    }
    let visited = visits(func);
    // Absorption changes no kept point's count.
    let counts = use_counts(&visited);
    let points = |word: &str, points: &[Point]| {
        points.iter().fold(word.to_owned(), |line, point| format!("{line} {point}"))
    };
    let line = |Block { point, chain, terminator, .. }: &Block| {
        let (chain, uses) = (points("chain", chain), counts[point]);
        let to = points("to", &terminator.targets);
        let merge = points("merge", &terminator.merge_labels());
        format!("(block {point} ({chain}) (uses {uses}) ({to}) ({merge}))")
    };
    kept(visited).iter().map(line).collect()
}

/// The list and the next free id. A name that no kept block gives is id 0 there.
pub fn list(func: &Func, first: u32) -> (Vec<Line>, u64) {
    let mut next = u64::from(first);
    // Ids over 32 bits are refused later, whatever stands in the list.
    let mut fresh = || {
        next += 1;
        (next - 1) as u32
    };
    let mut lines = vec![Line {
        opcode: 54,
        attrs: func.attrs,
        result_type: func.ret,
        result: fresh(),
        imms: vec![[0, 1, func.control]],
        ids: vec![func.ty],
    }];
    let line = |opcode, decl: Decl, result, ids| Line {
        opcode,
        attrs: decl.attrs,
        result_type: decl.ty,
        result,
        imms: vec![],
        ids,
    };
    let none = Decl { attrs: 0, ty: 0 };
    let mut names: HashMap<Value, u32> = HashMap::new();
    for (i, (id, _)) in (0..).zip(&func.consts) {
        names.insert(Value::Const(i), *id);
    }
    for (i, param) in (0..).zip(&func.params) {
        let id = fresh();
        names.insert(Value::Input(0, i), id);
        lines.push(line(55, *param, id, vec![]));
    }
    let visited = if func.imported { vec![] } else { visits(func) };
    // Phis get ids as points are visited, dropped ones too.
    let phi_ids: HashMap<Value, u32> =
        visited.iter().flat_map(|block| &block.phis).map(|phi| (phi.sets, fresh())).collect();
    let blocks = if visited.is_empty() { vec![] } else { kept(visited) };
    for phi in blocks.iter().flat_map(|block| &block.phis) {
        names.insert(phi.sets, phi_ids[&phi.sets]);
    }
    for &op in blocks.iter().flat_map(|block| &block.ops) {
        if func.ops[op as usize].ty != 0 {
            names.insert(Value::Result(op), fresh());
        }
    }
    let labels: HashMap<Point, u32> = blocks.iter().map(|block| (block.point, fresh())).collect();
    let id = |value: &Value| names.get(value).copied().unwrap_or(0);
    let label = |point: &Point| labels[point];

    for block in &blocks {
        lines.push(line(248, none, label(&block.point), vec![]));
        for (i, phi) in block.phis.iter().enumerate() {
            let mut ids = vec![];
            for source in blocks.iter().filter(|b| b.terminator.targets.contains(&block.point)) {
                let mut entries = source.terminator.values.iter();
                let value = match entries.find(|(target, _)| *target == block.point) {
                    Some((_, values)) => values[i],
                    None => phi.init.unwrap(),
                };
                ids.extend([id(&value), label(&source.point)]);
            }
            lines.push(line(245, phi.decl, id(&phi.sets), ids));
        }
        for &op in &block.ops {
            let Op { attrs, ty, kind, operands } = &func.ops[op as usize];
            let (inst, callee) = match kind {
                OpKind::Inst(inst) => (inst.clone(), None),
                OpKind::Call(id) => (plain(57), Some(*id)),
                OpKind::Ext(id, n) => (Inst { opcode: 12, imms: vec![[0, 4, *n]] }, Some(*id)),
            };
            lines.push(Line {
                opcode: inst.opcode,
                attrs: *attrs,
                result_type: *ty,
                result: if *ty == 0 { 0 } else { id(&Value::Result(op)) },
                imms: inst.imms,
                ids: callee.into_iter().chain(operands.iter().map(id)).collect(),
            });
        }
        let Terminator { attrs, inst, inputs, targets, merge, .. } = &block.terminator;
        if let Some(Merge { kind, control }) = merge {
            let (opcode, operand, ids) = match kind {
                MergeKind::Selection(exit) => (247, 2, vec![label(exit)]),
                MergeKind::Loop(exit, again) => (246, 3, vec![label(exit), label(again)]),
            };
            lines.push(Line { imms: vec![[0, operand, *control]], ..line(opcode, none, 0, ids) });
        }
        lines.push(Line {
            imms: inst.imms.clone(),
            ..line(
                inst.opcode,
                Decl { attrs: *attrs, ty: 0 },
                0,
                inputs.iter().map(id).chain(targets.iter().map(label)).collect(),
            )
        });
    }
    lines.push(line(56, none, 0, vec![]));
    (lines, next)
}

impl std::fmt::Display for Point {
    fn fmt(&self, f: &mut std::fmt::Formatter<'_>) -> std::fmt::Result {
        match self {
            RegionEntry(region) => write!(f, "r{region}+"),
            RegionExit(region) => write!(f, "r{region}-"),
            NodeEntry(node) => write!(f, "n{node}+"),
            NodeExit(node) => write!(f, "n{node}-"),
        }
    }
}

impl Line {
    /// As the Rust has it, which writes 0 for a merge's control number.
    pub fn cleared(mut self) -> Self {
        if MERGES.contains(&self.opcode) {
            self.imms[0][2] = 0;
        }
        self
    }
}

impl std::fmt::Display for Line {
    fn fmt(&self, f: &mut std::fmt::Formatter<'_>) -> std::fmt::Result {
        write!(f, "({} {} {} {} (imms", self.opcode, self.attrs, self.result_type, self.result)?;
        for [kind, operand_kind, word] in &self.imms {
            write!(f, " ({kind} {operand_kind} {word})")?;
        }
        write!(f, ") (ids")?;
        for id in &self.ids {
            write!(f, " {id}")?;
        }
        write!(f, "))")
    }
}
