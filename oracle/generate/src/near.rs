//! Changes of a text with a case that ends in an exit and has no outputs beside a select with outs
//! (document 02, W2), by which such a case is nearly but not quite there: refusal 6.

use crate::print::{inst, region};
use crate::random::{self, KILL};
use crate::rng::Rng;
use refer::read::*;

struct Change<'a> {
    rng: &'a mut Rng,
    func: &'a mut Func,
}

impl Change<'_> {
    fn node(&mut self, node: Node) -> u32 {
        self.func.nodes.push(node);
        self.func.nodes.len() as u32 - 1
    }

    fn region(&mut self, region: Region) -> u32 {
        self.func.regions.push(region);
        self.func.regions.len() as u32 - 1
    }

    fn constants(&mut self, count: usize) -> Vec<Value> {
        let consts = self.func.consts.len();
        (0..count).map(|_| Value::Const(self.rng.below(consts) as u32)).collect()
    }

    fn exit(&mut self) -> u32 {
        let inst = if self.rng.chance(50) { inst(KILL) } else { random::inst(self.rng) };
        let count = self.rng.below(2);
        let values = self.constants(count);
        self.node(Node::Exit { inst, values })
    }

    /// A select over these cases, without outs.
    fn select(&mut self, cases: Vec<u32>) -> u32 {
        let by_bool = cases.len() == 2 && self.rng.chance(50);
        let kind = if by_bool { Selection::Bool } else { Selection::Inst(inst(251)) };
        let scrutinee = self.constants(1)[0];
        self.node(Node::Select { kind, scrutinee, cases, outs: vec![], control: 0 })
    }

    fn repeat(&mut self, body: u32, inits: Vec<Value>) -> u32 {
        let repeat = self.constants(1)[0];
        self.node(Node::Loop { body, repeat, inits, control: 0 })
    }

    /// Puts a node first in one of so many regions, so that what stands last in it stays there.
    fn put_first(&mut self, node: u32, regions: usize) {
        let place = self.rng.below(regions);
        self.func.regions[place].nodes.insert(0, node);
    }

    /// A further out, and an output for it of each case that has outputs.
    fn one_more_out(&mut self, select: u32) {
        let decl = random::decl(self.rng);
        let Node::Select { cases, outs, .. } = &mut self.func.nodes[select as usize] else {
            unreachable!("a case that is let off is a select's");
        };
        outs.push(decl);
        for case in cases.clone() {
            if !self.func.regions[case as usize].outputs.is_empty() {
                let value = self.constants(1)[0];
                self.func.regions[case as usize].outputs.push(value);
            }
        }
    }
}

/// One change. The text must have a case that is let off.
pub fn near_miss(rng: &mut Rng, func: &mut Func) {
    let (select, case) = rng.pick(&func.let_off());
    let outs = func.nodes[select as usize].outs().len();
    let regions = func.regions.len();
    let mut change = Change { rng, func };
    match change.rng.below(8) {
        // The exit is not last.
        0 => {
            let node = match change.rng.below(4) {
                0 | 1 => change.node(Node::Block { ops: vec![] }),
                2 => {
                    let inner = change.region(region(&[]));
                    change.select(vec![inner])
                }
                _ => {
                    let body = change.region(region(&[]));
                    change.repeat(body, vec![])
                }
            };
            change.func.regions[case as usize].nodes.push(node);
        }
        // Fewer outputs but not none.
        1 => {
            if outs == 1 {
                change.one_more_out(select);
            }
            let count = 1 + change.rng.below(outs.max(2) - 1);
            change.func.regions[case as usize].outputs = change.constants(count);
        }
        // More outputs than outs.
        2 => {
            let count = outs + 1 + change.rng.below(2);
            change.func.regions[case as usize].outputs = change.constants(count);
        }
        // Outputs beside a select without outs.
        3 => {
            let cases = 1 + change.rng.below(2);
            let mut cases: Vec<u32> = (0..cases)
                .map(|_| {
                    let exit = change.exit();
                    change.region(region(&[exit]))
                })
                .collect();
            let count = 1 + change.rng.below(2);
            change.func.regions[cases[0] as usize].outputs = change.constants(count);
            change.rng.shuffle(&mut cases);
            let node = change.select(cases);
            change.put_first(node, regions);
        }
        // The last node is a select whose cases all exit.
        4 => {
            let exit = change.func.regions[case as usize].nodes.pop().unwrap();
            let mut cases = vec![change.region(region(&[exit]))];
            for _ in 0..change.rng.below(3) {
                let exit = change.exit();
                cases.push(change.region(region(&[exit])));
            }
            let node = change.select(cases);
            change.func.regions[case as usize].nodes.push(node);
        }
        // The last node is a loop whose body exits.
        5 => {
            let exit = change.func.regions[case as usize].nodes.pop().unwrap();
            let body = change.region(region(&[exit]));
            let node = change.repeat(body, vec![]);
            change.func.regions[case as usize].nodes.push(node);
        }
        // A loop's body that ends in an exit has inputs and no outputs.
        6 => {
            let count = 1 + change.rng.below(2);
            let exit = change.exit();
            let inputs = (0..count).map(|_| random::decl(change.rng)).collect();
            let body = change.region(Region { inputs, ..region(&[exit]) });
            let inits = change.constants(count);
            let node = change.repeat(body, inits);
            change.put_first(node, regions);
        }
        // The case has an input.
        _ => {
            let decl = random::decl(change.rng);
            change.func.regions[case as usize].inputs.push(decl);
        }
    }
}
