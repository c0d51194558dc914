//! Texts at random that refusals 1 to 9 and 13 let pass, such that 13 refuses, and near misses that
//! 6 refuses.
//!
//! First the tree and the graph are made, each value slot with a value that is visible there;
//! then some values are replaced by any that the text has, and all numbers are shuffled.

use crate::near::near_miss;
use crate::numbers::is_nested;
use crate::print::{self, Case};
use crate::rng::Rng;
use refer::Answer;
use refer::read::*;

/// What to make.
#[derive(Clone, Copy)]
pub struct Shape {
    /// Roots beyond region 0 at most; none means no ctrl lines.
    pub roots: usize,
    /// Nodes at most, for each root.
    pub nodes: usize,
    /// In a hundred nodes, exits.
    pub exits: usize,
    /// In a hundred value slots, those that take any value.
    pub wild: usize,
    /// Whether such a value may come from behind an exit or from a root that is not reached,
    /// which mostly is refusal 10.
    pub unset: bool,
    /// In a hundred `bool` ctrl lines, those with equal targets; if any may have them, one has.
    pub equal: usize,
    /// In a hundred cases of selects with outs, those that get an exit at their end and no outputs;
    /// if any may get it, one does. Of those that end in one by chance, half have no outputs.
    pub ended: usize,
}

pub fn imported(rng: &mut Rng) -> Case {
    let mut func = header(rng);
    func.imported = true;
    finish(rng, func)
}

pub fn body(rng: &mut Rng, shape: Shape) -> Case {
    changed_body(rng, shape, |_, _| {})
}

/// A body that is changed before its numbers are shuffled.
fn changed_body(rng: &mut Rng, shape: Shape, change: fn(&mut Rng, &mut Func)) -> Case {
    loop {
        let func = header(rng);
        let mut maker = Maker { rng, func, shape, lost: false, safe: vec![], any: vec![] };
        maker.roots();
        maker.disturb();
        let mut func = maker.func;
        if shape.ended > 0 && func.let_off().is_empty() {
            continue;
        }
        change(rng, &mut func);
        renumber(rng, &mut func);
        let case = finish(rng, func);
        if case.to_string().len() <= 32_000
            && !case.func.over_limits()
            && case.func.equal_bool_targets() == (shape.equal > 0)
        {
            return case;
        }
    }
}

/// A text with equal `bool` targets, which nothing else refuses; one in four would be refused by 9
/// too, for a first id that is too low, or by 10.
pub fn equal(rng: &mut Rng, shape: Shape) -> Case {
    let shape = Shape { equal: 50, ..shape };
    match rng.below(8) {
        0 => {
            let case = body(rng, shape);
            let highest = case.func.highest_id() as usize;
            Case { first: rng.below(highest + 1) as u32, ..case }
        }
        1 => loop {
            let case = body(rng, Shape { wild: 25, unset: true, ..shape });
            if let Answer::Refused(10) = refer::lift(&case.func, case.first) {
                return case;
            }
        },
        _ => loop {
            let case = body(rng, shape);
            if let Answer::List { .. } = refer::lift(&case.func, case.first) {
                return case;
            }
        },
    }
}

/// A text with a case that ends in an exit and has no outputs beside a select with outs; some have
/// values at random, and some of these one that is not set.
pub fn ended(rng: &mut Rng, shape: Shape) -> Case {
    let shape = ended_shape(rng, shape);
    let case = body(rng, shape);
    assert!(case.func.refusal().is_none() && !case.func.let_off().is_empty());
    case
}

/// As `ended`, but one in five nearly has such a case, which is refusal 6; of these some have a
/// first id that is too low as well.
pub fn near_ended(rng: &mut Rng, shape: Shape) -> Case {
    if !rng.chance(20) {
        return ended(rng, shape);
    }
    let shape = ended_shape(rng, shape);
    let case = changed_body(rng, shape, near_miss);
    assert_eq!(case.func.refusal(), Some(6));
    let highest = case.func.highest_id() as usize;
    let first = if rng.chance(10) { rng.below(highest + 1) as u32 } else { case.first };
    Case { first, ..case }
}

fn ended_shape(rng: &mut Rng, shape: Shape) -> Shape {
    let (wild, unset) = rng.pick(&[(0, false), (0, false), (0, false), (15, false), (25, true)]);
    Shape { exits: 8, wild, unset, ended: 45, ..shape }
}

/// A text with a select or loop that stands in another.
pub fn nested(rng: &mut Rng, shape: Shape) -> Case {
    loop {
        let case = body(rng, shape);
        if is_nested(&case.func) {
            return case;
        }
    }
}

/// `OpKill`.
pub const KILL: u32 = 252;
const OPCODES: [u32; 14] = [0, 1, 43, 48, 59, 61, 62, 81, 128, 199, 251, 252, 4416, 65_535];
const CONST_OPCODES: [u32; 12] = [41, 41, 42, 43, 43, 44, 48, 0, 65_535, 12, 249, 250];

fn header(rng: &mut Rng) -> Func {
    let mut ids: Vec<u32> = (1..40).collect();
    rng.shuffle(&mut ids);
    let consts = 1 + rng.below(5);
    let params = if rng.chance(50) { 0 } else { rng.below(4) };
    Func {
        attrs: attrs(rng),
        ret: ty(rng),
        ty: ty(rng),
        control: rng.pick(&[0, 0, 1, 2, 4, u32::MAX]),
        consts: ids[..consts].iter().map(|id| (*id, rng.pick(&CONST_OPCODES))).collect(),
        params: (0..params).map(|_| decl(rng)).collect(),
        imported: false,
        regions: vec![],
        nodes: vec![],
        ops: vec![],
        ctrls: vec![],
    }
}

fn attrs(rng: &mut Rng) -> u32 {
    if rng.chance(70) { 0 } else { rng.pick(&[1, 2, 7, 300, u32::MAX]) }
}

fn ty(rng: &mut Rng) -> u32 {
    1 + rng.below(9) as u32
}

pub fn decl(rng: &mut Rng) -> Decl {
    Decl { attrs: attrs(rng), ty: ty(rng) }
}

pub fn inst(rng: &mut Rng) -> Inst {
    let imms = if rng.chance(70) { 0 } else { 1 + rng.below(3) };
    Inst {
        opcode: rng.pick(&OPCODES),
        imms: (0..imms)
            .map(|_| {
                let operand_kind = rng.pick(&[1, 2, 3, 4, 5, 9, 255, 256, 65_535]);
                [rng.below(3) as u32, operand_kind, rng.pick(&[0, 1, 77, u32::MAX])]
            })
            .collect(),
    }
}

/// The first id, mostly close above the text's.
fn finish(rng: &mut Rng, func: Func) -> Case {
    let above = rng.pick(&[1, 1, 1, 2, 5, 100, 100_000]);
    Case { first: func.highest_id() + above, func }
}

struct Maker<'a> {
    rng: &'a mut Rng,
    func: Func,
    shape: Shape,
    /// Whether what is made now stands behind an exit or in a root that is not reached.
    lost: bool,
    /// Values that some kept block surely sets, and all values.
    safe: Vec<Value>,
    any: Vec<Value>,
}

impl Maker<'_> {
    fn give(&mut self, visible: &mut Vec<Value>, value: Value) {
        visible.push(value);
        self.any.push(value);
        if !self.lost {
            self.safe.push(value);
        }
    }

    /// A visible value, the latest ones more often.
    fn value(&mut self, visible: &[Value]) -> Value {
        let recent = visible.len().min(4);
        if self.rng.chance(50) {
            visible[visible.len() - 1 - self.rng.below(recent)]
        } else {
            self.rng.pick(visible)
        }
    }

    fn values(&mut self, visible: &[Value], count: usize) -> Vec<Value> {
        (0..count).map(|_| self.value(visible)).collect()
    }

    /// A count that is mostly 0.
    fn few(&mut self, most: usize) -> usize {
        if self.rng.chance(55) { 0 } else { 1 + self.rng.below(most) }
    }

    fn decls(&mut self, count: usize) -> Vec<Decl> {
        (0..count).map(|_| decl(self.rng)).collect()
    }

    fn new_region(&mut self, inputs: Vec<Decl>) -> u32 {
        self.func.regions.push(Region { inputs, nodes: vec![], outputs: vec![] });
        self.func.regions.len() as u32 - 1
    }

    /// Fills a region with nodes and gives the values visible at its end.
    fn fill(
        &mut self,
        region: u32,
        outer: &[Value],
        budget: &mut usize,
        depth: usize,
    ) -> Vec<Value> {
        let lost = self.lost;
        let mut visible = outer.to_vec();
        for i in 0..self.func.regions[region as usize].inputs.len() as u32 {
            self.give(&mut visible, Value::Input(region, i));
        }
        while *budget > 0 && !self.rng.chance(if depth == 0 { 15 } else { 45 }) {
            *budget -= 1;
            let node = self.node(&mut visible, budget, depth);
            self.func.regions[region as usize].nodes.push(node);
        }
        self.lost = lost;
        visible
    }

    fn node(&mut self, visible: &mut Vec<Value>, budget: &mut usize, depth: usize) -> u32 {
        // The number is taken first, so that children have higher ones until all are shuffled.
        let number = self.func.nodes.len();
        self.func.nodes.push(Node::Block { ops: vec![] });
        let node = if self.rng.chance(self.shape.exits) {
            self.lost = true;
            self.exit(visible)
        } else {
            match self.rng.below(10) {
                0..5 => self.block(visible),
                5..8 => self.select(number as u32, visible, budget, depth),
                _ => self.repeat(visible, budget, depth),
            }
        };
        self.func.nodes[number] = node;
        number as u32
    }

    fn exit(&mut self, visible: &[Value]) -> Node {
        let count = self.few(2);
        let values = self.values(visible, count);
        Node::Exit { inst: inst(self.rng), values }
    }

    fn block(&mut self, visible: &mut Vec<Value>) -> Node {
        let count = self.rng.below(5);
        let mut ops = vec![];
        for _ in 0..count {
            let count = self.rng.below(4);
            let operands = self.values(visible, count);
            let op = self.func.ops.len() as u32;
            let ty = if self.rng.chance(25) { 0 } else { ty(self.rng) };
            let id = 1 + self.rng.below(30) as u32;
            let kind = match self.rng.below(10) {
                0 => OpKind::Call(id),
                1 => OpKind::Ext(id, self.rng.pick(&[0, 1, 99, u32::MAX])),
                _ => OpKind::Inst(inst(self.rng)),
            };
            self.func.ops.push(Op { attrs: attrs(self.rng), ty, kind, operands });
            if ty != 0 {
                self.give(visible, Value::Result(op));
            }
            ops.push(op);
        }
        Node::Block { ops }
    }

    fn select(
        &mut self,
        number: u32,
        visible: &mut Vec<Value>,
        budget: &mut usize,
        depth: usize,
    ) -> Node {
        let scrutinee = self.value(visible);
        let kind = self.selection();
        let count = match kind {
            Selection::Bool => 2,
            Selection::Inst(_) => 1 + self.rng.below(4),
        };
        let outs = self.few(3);
        let mut cases = vec![];
        for _ in 0..count {
            let case = self.new_region(vec![]);
            let inner = self.fill(case, visible, budget, depth + 1);
            if !(outs > 0 && self.ends(case, &inner)) {
                self.func.regions[case as usize].outputs = self.values(&inner, outs);
            }
            cases.push(case);
        }
        for i in 0..outs as u32 {
            self.give(visible, Value::Out(number, i));
        }
        Node::Select { kind, scrutinee, cases, outs: self.decls(outs), control: 0 }
    }

    /// Whether a case ends in an exit and is to have no outputs; some get the exit here.
    fn ends(&mut self, case: u32, inner: &[Value]) -> bool {
        if self.shape.ended > 0 && self.rng.chance(self.shape.ended) {
            let mut exit = self.exit(inner);
            if let Node::Exit { inst, .. } = &mut exit
                && self.rng.chance(50)
            {
                *inst = print::inst(KILL);
            }
            self.func.regions[case as usize].nodes.push(self.func.nodes.len() as u32);
            self.func.nodes.push(exit);
            return true;
        }
        self.func.is_ended(case) && self.rng.chance(50)
    }

    fn selection(&mut self) -> Selection {
        if self.rng.chance(60) { Selection::Bool } else { Selection::Inst(inst(self.rng)) }
    }

    fn repeat(&mut self, visible: &[Value], budget: &mut usize, depth: usize) -> Node {
        let count = self.few(3);
        let inits = self.values(visible, count);
        let decls = self.decls(count);
        let body = self.new_region(decls);
        let inner = self.fill(body, visible, budget, depth + 1);
        let mut outputs = self.values(&inner, count);
        if self.rng.chance(35) {
            // The inputs come back in another order: swapped, rotated or as they were.
            outputs = (0..count as u32).map(|i| Value::Input(body, i)).collect();
            self.rng.shuffle(&mut outputs);
        }
        self.func.regions[body as usize].outputs = outputs;
        let repeat = if self.rng.chance(40) {
            Value::Const(self.rng.below(self.func.consts.len()) as u32)
        } else {
            self.value(&inner)
        };
        Node::Loop { body, repeat, inits, control: 0 }
    }

    fn roots(&mut self) {
        let mut visible = vec![];
        for i in 0..self.func.consts.len() as u32 {
            self.give(&mut visible, Value::Const(i));
        }
        let inputs = self.func.params.clone();
        let body = self.new_region(inputs);
        if self.shape.roots == 0 {
            let mut budget = self.rng.below(self.shape.nodes + 1);
            let visible = self.fill(body, &visible, &mut budget, 0);
            let count = self.few(1);
            self.func.regions[0].outputs = self.values(&visible, count);
            return;
        }

        // The graph first, so that it is known which roots are reached.
        let count = self.rng.below(self.shape.roots + 1);
        let mut roots = vec![body];
        for _ in 0..count {
            let inputs = self.few(3);
            let inputs = self.decls(inputs);
            roots.push(self.new_region(inputs));
        }
        let forward = self.rng.chance(40);
        let kinds: Vec<(CtrlKind, Vec<u32>)> =
            (0..roots.len()).map(|i| self.way_out(&roots, i, forward)).collect();
        let mut reached = vec![0];
        let mut done = 0;
        while let Some(&at) = reached.get(done) {
            done += 1;
            for target in &kinds[at].1 {
                let place = roots.iter().position(|root| root == target).unwrap();
                if !reached.contains(&place) {
                    reached.push(place);
                }
            }
        }
        let mut from_body = visible.clone();
        for (i, (kind, targets)) in kinds.into_iter().enumerate() {
            self.lost = !reached.contains(&i);
            let mut budget = self.rng.below(self.shape.nodes + 1);
            let inner = self.fill(roots[i], &from_body, &mut budget, 1);
            if i == 0 {
                from_body = inner.clone();
            }
            if i != 0 && self.rng.chance(10) {
                // Outputs of a root are never read.
                self.func.regions[roots[i] as usize].outputs = self.values(&inner, 1);
            }
            if !self.lost || self.rng.chance(60) {
                self.ctrl(roots[i], kind, targets, &inner);
            }
        }
        let mut ctrls = std::mem::take(&mut self.func.ctrls);
        self.rng.shuffle(&mut ctrls);
        self.func.ctrls = ctrls;
    }

    /// A kind and its targets for the root at place `i`; where `forward`, mostly the next root.
    fn way_out(&mut self, roots: &[u32], i: usize, forward: bool) -> (CtrlKind, Vec<u32>) {
        let others = &roots[1..];
        let targets = |rng: &mut Rng, count: usize| -> Vec<u32> {
            let next = roots.get(i + 1).filter(|_| forward && rng.chance(80)).copied();
            let mut targets: Vec<u32> = (0..count).map(|_| rng.pick(others)).collect();
            targets.splice(..next.map_or(0, |_| 1), next);
            targets
        };
        if !others.is_empty() && self.rng.chance(if i == 0 { 95 } else { 70 }) {
            match self.rng.below(4) {
                0 | 1 => (CtrlKind::Branch, targets(self.rng, 1)),
                2 if self.rng.chance(self.shape.equal) => {
                    let target = targets(self.rng, 1)[0];
                    (CtrlKind::Select(Selection::Bool), vec![target; 2])
                }
                2 if others.len() > 1 => {
                    let first = targets(self.rng, 1)[0];
                    let rest: Vec<u32> = others.iter().copied().filter(|r| *r != first).collect();
                    (CtrlKind::Select(Selection::Bool), vec![first, self.rng.pick(&rest)])
                }
                // An instruction may name one target twice, so it does for a `bool` where there is
                // only one.
                _ => {
                    let count = 1 + self.rng.below(4);
                    let kind = CtrlKind::Select(Selection::Inst(inst(self.rng)));
                    (kind, targets(self.rng, count))
                }
            }
        } else {
            match self.rng.below(4) {
                0 => (CtrlKind::Unreachable, vec![]),
                1 => (CtrlKind::Exit(inst(self.rng)), vec![]),
                _ => (CtrlKind::Return, vec![]),
            }
        }
    }

    fn ctrl(&mut self, region: u32, kind: CtrlKind, targets: Vec<u32>, visible: &[Value]) {
        let count = match kind {
            CtrlKind::Unreachable | CtrlKind::Branch => 0,
            CtrlKind::Return => self.rng.below(2),
            CtrlKind::Select(Selection::Bool) => 1,
            CtrlKind::Select(Selection::Inst(_)) => 1 + self.few(2),
            CtrlKind::Exit(_) => self.few(2),
        };
        let inputs = self.values(visible, count);
        let mut named = targets.clone();
        named.sort_unstable();
        named.dedup();
        self.rng.shuffle(&mut named);
        let mut values = vec![];
        for target in named {
            let count = self.func.regions[target as usize].inputs.len();
            // An entry without values prevents absorption.
            if count > 0 || self.rng.chance(20) {
                values.push((target, self.values(visible, count)));
            }
        }
        let attrs = if self.rng.chance(80) { 0 } else { attrs(self.rng) };
        self.func.ctrls.push(Ctrl { region, attrs, kind, inputs, targets, values });
    }

    /// Puts any value in some slots.
    fn disturb(&mut self) {
        let Shape { wild, unset, .. } = self.shape;
        let values = if unset { self.any.clone() } else { self.safe.clone() };
        let rng = &mut *self.rng;
        let mut change = |slot: &mut Value| {
            if rng.chance(wild) {
                *slot = rng.pick(&values);
            }
        };
        let func = &mut self.func;
        func.regions.iter_mut().flat_map(|region| &mut region.outputs).for_each(&mut change);
        for node in &mut func.nodes {
            match node {
                Node::Block { .. } => {}
                Node::Select { scrutinee, .. } => change(scrutinee),
                Node::Loop { repeat, inits, .. } => {
                    change(repeat);
                    inits.iter_mut().for_each(&mut change);
                }
                Node::Exit { values, .. } => values.iter_mut().for_each(&mut change),
            }
        }
        func.ops.iter_mut().flat_map(|op| &mut op.operands).for_each(&mut change);
        for ctrl in &mut func.ctrls {
            ctrl.inputs.iter_mut().for_each(&mut change);
            ctrl.values.iter_mut().flat_map(|(_, list)| list).for_each(&mut change);
        }
    }
}

/// Gives regions (but region 0), nodes and ops other numbers.
fn renumber(rng: &mut Rng, func: &mut Func) {
    let mut permutation = |count: usize, fixed: usize| {
        let mut numbers: Vec<u32> = (0..count as u32).collect();
        rng.shuffle(&mut numbers[fixed..]);
        numbers
    };
    let regions = permutation(func.regions.len(), 1);
    let nodes = permutation(func.nodes.len(), 0);
    let ops = permutation(func.ops.len(), 0);
    let map = |numbers: &[u32], n: &mut u32| *n = numbers[*n as usize];
    let value = |value: &mut Value| match value {
        Value::Const(_) => {}
        Value::Input(r, _) => map(&regions, r),
        Value::Out(n, _) => map(&nodes, n),
        Value::Result(op) => map(&ops, op),
    };
    for region in &mut func.regions {
        region.nodes.iter_mut().for_each(|n| map(&nodes, n));
        region.outputs.iter_mut().for_each(value);
    }
    for node in &mut func.nodes {
        match node {
            Node::Block { ops: list } => list.iter_mut().for_each(|op| map(&ops, op)),
            Node::Select { scrutinee, cases, .. } => {
                value(scrutinee);
                cases.iter_mut().for_each(|r| map(&regions, r));
            }
            Node::Loop { body, repeat, inits, .. } => {
                map(&regions, body);
                value(repeat);
                inits.iter_mut().for_each(value);
            }
            Node::Exit { values, .. } => values.iter_mut().for_each(value),
        }
    }
    func.ops.iter_mut().flat_map(|op| &mut op.operands).for_each(value);
    for ctrl in &mut func.ctrls {
        map(&regions, &mut ctrl.region);
        ctrl.inputs.iter_mut().for_each(value);
        ctrl.targets.iter_mut().for_each(|r| map(&regions, r));
        for (r, list) in &mut ctrl.values {
            map(&regions, r);
            list.iter_mut().for_each(value);
        }
    }
    func.regions = placed(std::mem::take(&mut func.regions), &regions);
    func.nodes = placed(std::mem::take(&mut func.nodes), &nodes);
    func.ops = placed(std::mem::take(&mut func.ops), &ops);
}

/// The items at their new places.
fn placed<T>(items: Vec<T>, places: &[u32]) -> Vec<T> {
    let mut pairs: Vec<(u32, T)> = places.iter().copied().zip(items).collect();
    pairs.sort_by_key(|(place, _)| *place);
    pairs.into_iter().map(|(_, item)| item).collect()
}
