//! Document 01, 'When there is no list', refusals 3 to 7 and the ids of 9; 4 with the numbers of
//! document 02's W4, 6 with what W2 lets off, and 13 of W7.

use crate::read::*;

/// The opcodes that no INST may have.
pub const TABLE: [u32; 15] = [12, 41, 54, 55, 56, 57, 245, 246, 247, 248, 249, 250, 253, 254, 255];
/// The highest control number: 0 is none, 1 unroll or flatten, 2 don't (document 02, W4).
pub const HIGHEST_CONTROL: u32 = 2;

impl Func {
    /// The first of refusals 3 to 7 and 13 that holds.
    pub fn refusal(&self) -> Option<u32> {
        let tests = [
            (3, self.over_limits()),
            (4, !self.references_hold()),
            // What follows may use every number as a place.
            (5, self.references_hold() && !self.is_tree()),
            (6, self.references_hold() && self.counts_differ()),
            (7, self.references_hold() && self.ctrl_wrong()),
            (13, self.equal_bool_targets()),
        ];
        tests.into_iter().find(|(_, holds)| *holds).map(|(number, _)| number)
    }

    /// Every V form of the text.
    fn values(&self) -> Vec<Value> {
        let mut all: Vec<Value> = self.regions.iter().flat_map(|r| r.outputs.clone()).collect();
        for node in &self.nodes {
            match node {
                Node::Block { .. } => {}
                Node::Select { scrutinee, .. } => all.push(*scrutinee),
                Node::Loop { repeat, inits, .. } => {
                    all.push(*repeat);
                    all.extend(inits);
                }
                Node::Exit { values, .. } => all.extend(values),
            }
        }
        all.extend(self.ops.iter().flat_map(|op| &op.operands));
        for ctrl in &self.ctrls {
            all.extend(&ctrl.inputs);
            all.extend(ctrl.values.iter().flat_map(|(_, values)| values));
        }
        all
    }

    /// Every INST.
    fn insts(&self) -> Vec<&Inst> {
        let nodes = self.nodes.iter().filter_map(|node| match node {
            Node::Select { kind: Selection::Inst(inst), .. } | Node::Exit { inst, .. } => {
                Some(inst)
            }
            _ => None,
        });
        let ops = self.ops.iter().filter_map(|op| match &op.kind {
            OpKind::Inst(inst) => Some(inst),
            _ => None,
        });
        let ctrls = self.ctrls.iter().filter_map(|ctrl| match &ctrl.kind {
            CtrlKind::Select(Selection::Inst(inst)) | CtrlKind::Exit(inst) => Some(inst),
            _ => None,
        });
        nodes.chain(ops).chain(ctrls).collect()
    }

    /// Inputs of regions and outs of selects.
    fn decls(&self) -> impl Iterator<Item = &Decl> {
        let inputs = self.regions.iter().flat_map(|region| &region.inputs);
        inputs.chain(self.nodes.iter().flat_map(|node| node.outs()))
    }

    pub fn over_limits(&self) -> bool {
        let imms: usize = self.insts().iter().map(|inst| inst.imms.len()).sum();
        let targets: usize = self.ctrls.iter().map(|ctrl| ctrl.targets.len()).sum();
        [
            (self.regions.len(), 128),
            (self.nodes.len(), 128),
            (self.ops.len(), 512),
            (self.consts.len(), 256),
            (self.params.len(), 64),
            (self.values().len(), 2048),
            (self.decls().count(), 512),
            (imms, 512),
            (targets, 512),
        ]
        .iter()
        .any(|(count, limit)| count > limit)
    }

    /// The ids where 0 has no meaning.
    fn ids(&self) -> Vec<u32> {
        let mut ids = vec![self.ret, self.ty];
        ids.extend(self.consts.iter().map(|(id, _)| id));
        ids.extend(self.params.iter().chain(self.decls()).map(|decl| decl.ty));
        ids.extend(self.ops.iter().filter_map(|op| match op.kind {
            OpKind::Call(id) | OpKind::Ext(id, _) => Some(id),
            OpKind::Inst(_) => None,
        }));
        ids
    }

    /// The highest id in the text.
    pub fn highest_id(&self) -> u32 {
        self.ids().into_iter().chain(self.ops.iter().map(|op| op.ty)).max().unwrap()
    }

    fn names_something(&self, value: Value) -> bool {
        match value {
            Value::Const(n) => (n as usize) < self.consts.len(),
            Value::Input(r, i) => {
                self.regions.get(r as usize).is_some_and(|r| (i as usize) < r.inputs.len())
            }
            Value::Out(n, i) => {
                self.nodes.get(n as usize).is_some_and(|n| (i as usize) < n.outs().len())
            }
            Value::Result(op) => self.ops.get(op as usize).is_some_and(|op| op.ty != 0),
        }
    }

    fn references_hold(&self) -> bool {
        let below = |numbers: &[u32], count: usize| numbers.iter().all(|n| (*n as usize) < count);
        let regions = self.regions.len();
        let places = self.regions.iter().all(|r| below(&r.nodes, self.nodes.len()))
            && self.nodes.iter().all(|node| match node {
                Node::Block { ops } => below(ops, self.ops.len()),
                _ => below(node.children(), regions),
            })
            && self.ctrls.iter().all(|ctrl| {
                below(&[ctrl.region], regions)
                    && below(&ctrl.targets, regions)
                    && ctrl.values.iter().all(|(r, _)| below(&[*r], regions))
            });
        let repeats = |i: usize| self.consts[..i].iter().any(|c| c.0 == self.consts[i].0);
        let inst = |inst: &&Inst| {
            inst.opcode <= 65_535
                && !TABLE.contains(&inst.opcode)
                && inst
                    .imms
                    .iter()
                    .all(|[kind, operand, _]| *kind <= 2 && (1..=65_535).contains(operand))
        };
        places
            && self.values().into_iter().all(|value| self.names_something(value))
            && self.ids().iter().all(|id| *id != 0)
            && !(0..self.consts.len()).any(repeats)
            && self.consts.iter().all(|(_, opcode)| *opcode <= 65_535)
            && self.insts().iter().all(inst)
            && self.nodes.iter().filter_map(Node::control).all(|number| number <= HIGHEST_CONTROL)
    }

    /// How often each of `count` numbers stands in the lists.
    fn times<'a>(count: usize, lists: impl Iterator<Item = &'a [u32]>) -> Vec<usize> {
        let mut times = vec![0; count];
        for number in lists.flatten() {
            times[*number as usize] += 1;
        }
        times
    }

    fn child_times(&self) -> Vec<usize> {
        Self::times(self.regions.len(), self.nodes.iter().map(|node| node.children()))
    }

    fn is_tree(&self) -> bool {
        let nodes =
            Self::times(self.nodes.len(), self.regions.iter().map(|region| &region.nodes[..]));
        let blocks = self.nodes.iter().filter_map(|node| match node {
            Node::Block { ops } => Some(&ops[..]),
            _ => None,
        });
        let ops = Self::times(self.ops.len(), blocks);
        let children = self.child_times();
        if self.imported {
            return true;
        }
        nodes.iter().chain(&ops).all(|times| *times == 1)
            && children.iter().all(|times| *times <= 1)
            && children[0] == 0
            && (!self.ctrls.is_empty() || children[1..].iter().all(|times| *times == 1))
            && self.all_below_roots(&children)
    }

    /// Whether every region is met on the way down from those that are no child, which is
    /// that none is a child of itself, directly or through others.
    fn all_below_roots(&self, children: &[usize]) -> bool {
        let mut met: Vec<u32> =
            (0..children.len() as u32).filter(|r| children[*r as usize] == 0).collect();
        let mut done = 0;
        while let Some(&region) = met.get(done) {
            done += 1;
            for &node in &self.regions[region as usize].nodes {
                met.extend(self.nodes[node as usize].children());
            }
        }
        met.len() == children.len()
    }

    fn counts_differ(&self) -> bool {
        if self.imported {
            return false;
        }
        let region = |r: u32| &self.regions[r as usize];
        let body = region(0);
        let node_differs = |node: &Node| match node {
            Node::Select { kind, cases, outs, .. } => {
                let fits = match kind {
                    Selection::Bool => cases.len() == 2,
                    Selection::Inst(_) => !cases.is_empty(),
                };
                !fits
                    || cases.iter().any(|case| {
                        !region(*case).inputs.is_empty()
                            || region(*case).outputs.len() != outs.len() && !self.is_ended(*case)
                    })
            }
            Node::Loop { body, inits, .. } => {
                let body = region(*body);
                inits.len() != body.inputs.len() || body.inputs.len() != body.outputs.len()
            }
            Node::Block { .. } | Node::Exit { .. } => false,
        };
        let edge_differs = |ctrl: &Ctrl| {
            ctrl.values.iter().any(|(r, values)| values.len() != region(*r).inputs.len())
                || ctrl.targets.iter().any(|r| {
                    !ctrl.values.iter().any(|(named, _)| named == r)
                        && !region(*r).inputs.is_empty()
                })
        };
        body.inputs.len() != self.params.len()
            || body.outputs.len() > usize::from(self.ctrls.is_empty())
            || self.nodes.iter().any(node_differs)
            || self.ctrls.iter().any(edge_differs)
    }

    /// Document 02, W2: 'A case whose last node is an exit may now have no outputs at all beside a
    /// select with outs.' The last node is the last of the region's list, and it is itself an exit:
    /// one that holds exits is none.
    pub fn is_ended(&self, case: u32) -> bool {
        let Region { nodes, outputs, .. } = &self.regions[case as usize];
        let is_exit = |node: &u32| matches!(self.nodes[*node as usize], Node::Exit { .. });
        outputs.is_empty() && nodes.last().is_some_and(is_exit)
    }

    /// Each case that has no outputs beside a select with outs, as it may: its select and itself.
    /// For a function whose references hold.
    pub fn let_off(&self) -> Vec<(u32, u32)> {
        let selects = (0..).zip(&self.nodes).filter(|(_, node)| !node.outs().is_empty());
        selects
            .flat_map(|(number, node)| node.children().iter().map(move |case| (number, *case)))
            .filter(|(_, case)| self.is_ended(*case))
            .collect()
    }

    fn ctrl_wrong(&self) -> bool {
        let children = self.child_times();
        let is_child = |r: u32| children[r as usize] > 0;
        let repeats =
            |numbers: &[u32]| (0..numbers.len()).any(|i| numbers[..i].contains(&numbers[i]));
        let sources: Vec<u32> = self.ctrls.iter().map(|ctrl| ctrl.region).collect();
        let line_wrong = |ctrl: &Ctrl| {
            let (inputs, targets) = (ctrl.inputs.len(), ctrl.targets.len());
            let kind_fits = match ctrl.kind {
                CtrlKind::Unreachable => inputs == 0 && targets == 0,
                CtrlKind::Return => inputs <= 1 && targets == 0,
                CtrlKind::Exit(_) => targets == 0,
                CtrlKind::Branch => inputs == 0 && targets == 1,
                CtrlKind::Select(Selection::Bool) => inputs == 1 && targets == 2,
                CtrlKind::Select(Selection::Inst(_)) => inputs >= 1 && targets >= 1,
            };
            let named: Vec<u32> = ctrl.values.iter().map(|(r, _)| *r).collect();
            !kind_fits
                || is_child(ctrl.region)
                || ctrl.targets.iter().any(|r| *r == 0 || is_child(*r))
                || repeats(&named)
                || named.iter().any(|r| !ctrl.targets.contains(r))
        };
        let missing = || !self.reached().iter().all(|r| sources.contains(r));
        !self.ctrls.is_empty()
            && (repeats(&sources) || self.ctrls.iter().any(line_wrong) || missing())
    }

    /// Whether a `bool` ctrl line, reached or not, has two equal targets: SPIR-V 1.6 has no
    /// conditional branch with one label twice. A selection by instruction may name one twice.
    pub fn equal_bool_targets(&self) -> bool {
        self.ctrls.iter().any(|ctrl| {
            matches!(ctrl.kind, CtrlKind::Select(Selection::Bool))
                && matches!(ctrl.targets[..], [one, other] if one == other)
        })
    }

    /// Region 0 and what ctrl targets reach from it.
    pub fn reached(&self) -> Vec<u32> {
        let mut reached = vec![0];
        let mut done = 0;
        while let Some(&region) = reached.get(done) {
            done += 1;
            for ctrl in self.ctrls.iter().filter(|ctrl| ctrl.region == region) {
                for target in &ctrl.targets {
                    if !reached.contains(target) {
                        reached.push(*target);
                    }
                }
            }
        }
        reached
    }
}
