//! Document 01, 'Running the regions and the blocks': both runs of an accepted text, compared.

use crate::list::{Line, MERGES};
use crate::mix::mixed;
use crate::read::*;
use std::collections::{HashMap, HashSet};

/// The value that is true; every other is false.
const TRUE: u64 = 1;
/// Steps of the regions' run: a node, an op, a lap or a way out each. The blocks' run, which may
/// take another number of steps, is followed further, and where it ends the regions' run further
/// still. Where that does not do, as with laps over a hundred empty nodes, runs are called different
/// that are not; none that differ are called alike.
const STEPS: usize = 300;
const FURTHER: usize = 6;

/// The arguments, the constants' values, the results and the rule, all by one number.
#[derive(Clone, Copy)]
pub struct World(u64);

impl World {
    /// One of an input's worlds.
    pub fn new(input: &[u8], place: u64) -> Self {
        Self(input.iter().fold(place, |state, byte| mixed(state ^ u64::from(*byte))))
    }

    fn draw(self, what: u64, words: impl IntoIterator<Item = u64>) -> u64 {
        words.into_iter().fold(mixed(self.0 ^ mixed(what)), |state, word| mixed(state ^ word))
    }

    /// True about every second time, else a value that hardly another has.
    fn value(self, what: u64, place: usize) -> u64 {
        let word = self.draw(what, [place as u64]);
        if word.is_multiple_of(2) { TRUE } else { word & !TRUE }
    }

    fn argument(self, place: usize) -> u64 {
        self.value(1, place)
    }

    fn constant(self, place: usize, opcode: u32) -> u64 {
        if opcode == 41 { TRUE } else { self.value(2, place) }
    }

    fn result(self, place: usize) -> u64 {
        self.value(3, place)
    }

    /// The rule: the position of the target taken. The opcode stands for the selection's kind.
    fn pick(self, opcode: u32, imms: &[[u32; 3]], inputs: &[u64], targets: usize) -> usize {
        if opcode == 250 {
            return usize::from(inputs[0] != TRUE);
        }
        let words = imms.iter().flatten().map(|word| u64::from(*word));
        let words = words.chain(inputs.iter().copied()).chain([u64::from(opcode), targets as u64]);
        (self.draw(4, words) % targets as u64) as usize
    }
}

/// An executed instruction.
#[derive(Debug, PartialEq, Eq)]
struct Executed {
    opcode: u32,
    attrs: u32,
    result_type: u32,
    imms: Vec<[u32; 3]>,
    /// The call's or ext's ID.
    callee: Option<u32>,
    operands: Vec<u64>,
}

#[derive(Clone, Debug, PartialEq, Eq)]
pub enum End {
    Return(Vec<u64>),
    Unreachable,
    Exit(Inst, Vec<u64>),
    /// A value was read that was not yet set.
    Unset,
}

/// Why a run goes no further: it ends, or all steps are taken.
enum Stop {
    End(End),
    Steps,
}

/// What a run has come to.
#[derive(Debug, PartialEq, Eq)]
struct Reached {
    executed: Vec<Executed>,
    end: Option<End>,
}

/// What both runs share; `K` names a value.
struct Run<K> {
    world: World,
    values: HashMap<K, u64>,
    executed: Vec<Executed>,
    steps: usize,
}

impl<K: Copy + Eq + std::hash::Hash> Run<K> {
    fn new(world: World, steps: usize) -> Self {
        Self { world, values: HashMap::new(), executed: vec![], steps }
    }

    fn step(&mut self) -> Result<(), Stop> {
        self.steps = self.steps.checked_sub(1).ok_or(Stop::Steps)?;
        Ok(())
    }

    fn read(&self, names: &[K]) -> Result<Vec<u64>, Stop> {
        let value = |name| self.values.get(name).copied().ok_or(Stop::End(End::Unset));
        names.iter().map(value).collect()
    }

    fn execute(&mut self, executed: Executed, result: Option<K>) {
        let value = self.world.result(self.executed.len());
        self.executed.push(executed);
        self.values.extend(result.map(|name| (name, value)));
    }

    fn reached(self, stop: Stop) -> Reached {
        let end = if let Stop::End(end) = stop { Some(end) } else { None };
        Reached { executed: self.executed, end }
    }
}

struct Regions<'a> {
    func: &'a Func,
    run: Run<Value>,
    /// The region whose exit ended the run.
    left: Option<u32>,
}

impl Regions<'_> {
    /// The whole run; it has no other end than a stop.
    fn whole(&mut self) -> Stop {
        let func = self.func;
        let mut region = 0;
        loop {
            if let Err(stop) = self.region(region) {
                return stop;
            }
            match self.way_out(func, region) {
                Ok(next) => region = next,
                Err(stop) => return stop,
            }
        }
    }

    fn way_out(&mut self, func: &Func, region: u32) -> Result<u32, Stop> {
        self.run.step()?;
        if func.ctrls.is_empty() {
            return Err(Stop::End(End::Return(self.run.read(&func.regions[0].outputs)?)));
        }
        let ctrl = func.ctrls.iter().find(|ctrl| ctrl.region == region).unwrap();
        let inputs = self.run.read(&ctrl.inputs)?;
        let target = match &ctrl.kind {
            CtrlKind::Unreachable => return Err(Stop::End(End::Unreachable)),
            CtrlKind::Return => return Err(Stop::End(End::Return(inputs))),
            CtrlKind::Exit(inst) => return Err(Stop::End(End::Exit(inst.clone(), inputs))),
            CtrlKind::Branch => ctrl.targets[0],
            CtrlKind::Select(kind) => ctrl.targets[self.pick(kind, &inputs, ctrl.targets.len())],
        };
        let entry = ctrl.values.iter().find(|(named, _)| *named == target);
        self.enter(target, entry.map_or(&[], |(_, values)| values))?;
        Ok(target)
    }

    fn pick(&self, kind: &Selection, inputs: &[u64], targets: usize) -> usize {
        match kind {
            Selection::Bool => self.run.world.pick(250, &[], inputs, targets),
            Selection::Inst(inst) => self.run.world.pick(inst.opcode, &inst.imms, inputs, targets),
        }
    }

    /// Sets a region's inputs from values that are read together.
    fn enter(&mut self, region: u32, values: &[Value]) -> Result<(), Stop> {
        let values = self.run.read(values)?;
        assert_eq!(values.len(), self.func.regions[region as usize].inputs.len());
        let inputs = (0..).map(|i| Value::Input(region, i));
        self.run.values.extend(inputs.zip(values));
        Ok(())
    }

    fn region(&mut self, region: u32) -> Result<(), Stop> {
        let func = self.func;
        func.regions[region as usize].nodes.iter().try_for_each(|node| self.node(region, *node))
    }

    fn node(&mut self, region: u32, node: u32) -> Result<(), Stop> {
        self.run.step()?;
        let func = self.func;
        match &func.nodes[node as usize] {
            Node::Block { ops } => ops.iter().try_for_each(|op| self.op(*op)),
            Node::Exit { inst, values } => {
                let values = self.run.read(values)?;
                self.left = Some(region);
                Err(Stop::End(End::Exit(inst.clone(), values)))
            }
            // No run reads a control number.
            Node::Select { kind, scrutinee, cases, outs, control: _ } => {
                let inputs = self.run.read(&[*scrutinee])?;
                let case = cases[self.pick(kind, &inputs, cases.len())];
                self.region(case)?;
                let values = self.run.read(&func.regions[case as usize].outputs)?;
                // A case without them never comes to its end.
                assert_eq!(values.len(), outs.len());
                self.run.values.extend((0..).map(|i| Value::Out(node, i)).zip(values));
                Ok(())
            }
            Node::Loop { body, repeat, inits, control: _ } => {
                self.enter(*body, inits)?;
                loop {
                    self.run.step()?;
                    self.region(*body)?;
                    if self.run.read(&[*repeat])? != [TRUE] {
                        return Ok(());
                    }
                    self.enter(*body, &func.regions[*body as usize].outputs)?;
                }
            }
        }
    }

    fn op(&mut self, op: u32) -> Result<(), Stop> {
        self.run.step()?;
        let Op { attrs, ty, kind, operands } = &self.func.ops[op as usize];
        let (opcode, imms, callee) = match kind {
            OpKind::Inst(inst) => (inst.opcode, inst.imms.clone(), None),
            OpKind::Call(id) => (57, vec![], Some(*id)),
            OpKind::Ext(id, n) => (12, vec![[0, 4, *n]], Some(*id)),
        };
        let operands = self.run.read(operands)?;
        let (attrs, result_type) = (*attrs, *ty);
        let executed = Executed { opcode, attrs, result_type, imms, callee, operands };
        self.run.execute(executed, (*ty != 0).then_some(Value::Result(op)));
        Ok(())
    }
}

/// The regions' run, and the region whose exit ended it.
fn regions(func: &Func, world: World, steps: usize) -> (Reached, Option<u32>) {
    let mut run = Run::new(world, steps);
    let consts = func.consts.iter().enumerate();
    let consts = consts.map(|(i, (_, op))| (Value::Const(i as u32), world.constant(i, *op)));
    run.values.extend(consts);
    let params = 0..func.params.len();
    run.values.extend(params.map(|i| (Value::Input(0, i as u32), world.argument(i))));
    let mut regions = Regions { func, run, left: None };
    let stop = regions.whole();
    (regions.run.reached(stop), regions.left)
}

struct Blocks<'a> {
    /// The lines of each label's block behind the label, in order.
    blocks: HashMap<u32, &'a [Line]>,
    run: Run<u32>,
}

impl Blocks<'_> {
    /// From the block of a label, which was entered from another's, if it is not the first.
    fn whole(&mut self, mut label: u32) -> Stop {
        let mut from = None;
        loop {
            match self.block(label, from) {
                Ok(next) => from = Some(std::mem::replace(&mut label, next)),
                Err(stop) => return stop,
            }
        }
    }

    fn block(&mut self, label: u32, from: Option<u32>) -> Result<u32, Stop> {
        self.run.step()?;
        let (way_out, lines) = self.blocks[&label].split_last().unwrap();
        let (phis, lines) = lines.split_at(lines.iter().take_while(|l| l.opcode == 245).count());
        // All together, each by the one pair of the block that is left.
        let paired = |phi: &Line| {
            let mut pairs = phi.ids.chunks(2).filter(|pair| Some(pair[1]) == from);
            let pair = pairs.next().unwrap();
            assert!(pairs.next().is_none());
            pair[0]
        };
        let values = self.run.read(&phis.iter().map(paired).collect::<Vec<_>>())?;
        self.run.values.extend(phis.iter().map(|phi| phi.result).zip(values));
        for line in lines.iter().filter(|line| !MERGES.contains(&line.opcode)) {
            self.run.step()?;
            let called = usize::from([12, 57].contains(&line.opcode));
            let (callee, operands) = line.ids.split_at(called);
            let executed = Executed {
                opcode: line.opcode,
                attrs: line.attrs,
                result_type: line.result_type,
                imms: line.imms.clone(),
                callee: callee.first().copied(),
                operands: self.run.read(operands)?,
            };
            self.run.execute(executed, (line.result != 0).then_some(line.result));
        }
        let Line { opcode, imms, ids, .. } = way_out;
        let is_label = |id: &u32| self.blocks.contains_key(id);
        let (targets, inputs): (Vec<u32>, Vec<u32>) = ids.iter().partition(|id| is_label(id));
        let inputs = self.run.read(&inputs)?;
        Err(Stop::End(match opcode {
            253 | 254 => End::Return(inputs),
            255 => End::Unreachable,
            249 => return Ok(targets[0]),
            _ if targets.is_empty() => {
                End::Exit(Inst { opcode: *opcode, imms: imms.clone() }, inputs)
            }
            _ => return Ok(targets[self.run.world.pick(*opcode, imms, &inputs, targets.len())]),
        }))
    }
}

/// The blocks' run, by the list alone but for the constants' opcodes.
fn blocks(func: &Func, lines: &[Line], world: World, steps: usize) -> Reached {
    let mut run = Run::new(world, steps);
    let consts = func.consts.iter().enumerate();
    run.values.extend(consts.map(|(i, (id, op))| (*id, world.constant(i, *op))));
    let params = lines.iter().filter(|line| line.opcode == 55).enumerate();
    run.values.extend(params.map(|(i, line)| (line.result, world.argument(i))));
    let starts: Vec<usize> = (0..lines.len()).filter(|i| lines[*i].opcode == 248).collect();
    // Up to the next label, or to the function's end.
    let ends = starts.iter().skip(1).copied().chain([lines.len() - 1]);
    let held = starts.iter().zip(ends).map(|(start, end)| &lines[*start..end]);
    let blocks: HashMap<u32, &[Line]> = held.map(|block| (block[0].result, &block[1..])).collect();
    let mut blocks = Blocks { blocks, run };
    let stop = blocks.whole(lines[starts[0]].result);
    blocks.run.reached(stop)
}

/// How two runs that are alike end, if they do within their steps.
pub struct Alike {
    pub end: Option<End>,
    /// Whether an exit ended them whose case has no outputs beside a select with outs.
    pub let_off: bool,
}

/// Whether both runs of an accepted text with a body, with its list, execute the same and end alike
/// in this world, as far as they are followed. Otherwise what they came to.
pub fn alike(func: &Func, lines: &[Line], world: World) -> Result<Alike, String> {
    let (mut ours, mut left) = regions(func, world, STEPS);
    let theirs = blocks(func, lines, world, STEPS * FURTHER);
    if ours.end.is_none() && theirs.end.is_some() {
        (ours, left) = regions(func, world, STEPS * FURTHER * FURTHER);
    }
    let equal = match ours.end {
        Some(_) => ours == theirs,
        // Neither has ended: the one that came further has executed what the other has.
        None => {
            let count = ours.executed.len().min(theirs.executed.len());
            theirs.end.is_none() && ours.executed[..count] == theirs.executed[..count]
        }
    };
    if !equal {
        return Err(format!("regions: {ours:?}\nblocks: {theirs:?}"));
    }
    let cases: HashSet<u32> = func.let_off().into_iter().map(|(_, case)| case).collect();
    Ok(Alike { end: ours.end, let_off: left.is_some_and(|region| cases.contains(&region)) })
}
