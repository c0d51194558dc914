//! What a case shows: a name for each kind of thing that stands in its text, its blocks or its
//! list. The reference tells; the answers themselves are the oracle's.

use refer::list::{Block, Merge, MergeKind, Point, kept, use_counts, visits};
use refer::read::*;
use std::collections::{BTreeSet, HashMap};

pub type Features = BTreeSet<String>;

/// Up to three as it is, then in doublings.
fn size(count: usize) -> String {
    match count {
        0..4 => count.to_string(),
        _ => format!("{}+", 1 << count.ilog2()),
    }
}

fn some(number: u32) -> &'static str {
    if number == 0 { "none" } else { "some" }
}

fn node_name(node: &Node) -> &'static str {
    match node {
        Node::Block { ops } if ops.is_empty() => "empty block",
        Node::Block { .. } => "block",
        Node::Select { kind: Selection::Bool, .. } => "bool select",
        Node::Select { .. } => "inst select",
        Node::Loop { .. } => "loop",
        Node::Exit { .. } => "exit",
    }
}

fn ctrl_name(kind: &CtrlKind) -> &'static str {
    match kind {
        CtrlKind::Unreachable => "unreachable",
        CtrlKind::Return => "return",
        CtrlKind::Branch => "branch",
        CtrlKind::Select(Selection::Bool) => "bool",
        CtrlKind::Select(Selection::Inst(_)) => "inst",
        CtrlKind::Exit(_) => "exit",
    }
}

fn point_name(point: Point) -> &'static str {
    match point {
        Point::RegionEntry(_) => "region entry",
        Point::RegionExit(_) => "region exit",
        Point::NodeEntry(_) => "node entry",
        Point::NodeExit(_) => "node exit",
    }
}

pub fn features(func: &Func, first: u32) -> Features {
    let mut found = Found { func, features: Features::new() };
    found.header(first);
    found.nodes();
    found.let_off();
    found.ops();
    found.ctrls();
    if !func.imported {
        found.blocks();
    }
    found.features
}

struct Found<'a> {
    func: &'a Func,
    features: Features,
}

impl Found<'_> {
    fn add(&mut self, feature: impl Into<String>) {
        self.features.insert(feature.into());
    }

    fn value_name(&self, value: Value) -> &'static str {
        match value {
            Value::Const(_) => "constant",
            Value::Input(0, _) => "parameter",
            Value::Input(r, _) => {
                let is_body = |node: &Node| matches!(node, Node::Loop { body, .. } if *body == r);
                if self.func.nodes.iter().any(is_body) { "loop input" } else { "root input" }
            }
            Value::Out(..) => "out",
            Value::Result(_) => "result",
        }
    }

    /// What a region belongs to.
    fn parent_name(&self, region: u32) -> &'static str {
        let parent = self.func.nodes.iter().find(|node| node.children().contains(&region));
        parent.map_or(if region == 0 { "body" } else { "root" }, node_name)
    }

    fn uses(&mut self, place: &str, values: &[Value]) {
        for value in values {
            self.add(format!("{place} is a {}", self.value_name(*value)));
            if let Value::Out(node, _) = value
                && self.func.let_off().iter().any(|(select, _)| select == node)
            {
                self.add(format!("{place} is a out with a case let off"));
            }
        }
    }

    fn header(&mut self, first: u32) {
        let func = self.func;
        let what = if func.imported { "imported" } else { "body" };
        self.add(format!("{what} with {} params", size(func.params.len())));
        self.add(format!("func attributes {}, control {}", some(func.attrs), some(func.control)));
        for (_, opcode) in &func.consts {
            self.add(format!("const of opcode {opcode}"));
        }
        for param in &func.params {
            self.add(format!("param attributes {}", some(param.attrs)));
        }
        let above = first - func.highest_id();
        self.add(if above == 1 { "first id right above" } else { "first id further above" });
    }

    fn nodes(&mut self) {
        let func = self.func;
        for (place, region) in (0..).zip(&func.regions) {
            let parent = self.parent_name(place);
            self.add(format!("{parent} holds {} nodes", size(region.nodes.len())));
            self.uses(&format!("output of a {parent} region"), &region.outputs);
            let names: Vec<&str> =
                region.nodes.iter().map(|n| node_name(&func.nodes[*n as usize])).collect();
            for name in &names {
                self.add(format!("{name} in {parent}"));
            }
            for pair in names.windows(2) {
                self.add(format!("{} after {}", pair[1], pair[0]));
            }
            if names.last() == Some(&"exit") && !region.outputs.is_empty() {
                self.add(format!("{parent} region that ends in an exit and has outputs"));
            }
        }
        for node in &func.nodes {
            self.control(node);
            match node {
                Node::Block { ops } => self.add(format!("block of {} ops", size(ops.len()))),
                Node::Select { kind, scrutinee, cases, outs, .. } => {
                    let name = node_name(node);
                    self.add(format!("{name}, {} cases", size(cases.len())));
                    self.add(format!("{name}, {} outs", size(outs.len())));
                    self.uses("scrutinee", &[*scrutinee]);
                    if let Selection::Inst(inst) = kind {
                        self.inst("select", inst);
                    }
                }
                Node::Loop { body, repeat, inits, .. } => {
                    self.add(format!("loop, {} inputs", size(inits.len())));
                    self.uses("repeat condition", &[*repeat]);
                    self.uses("init", inits);
                    if let Value::Const(n) = repeat {
                        let opcode = func.consts[*n as usize].1;
                        self.add(format!("repeat condition of opcode {opcode}"));
                    }
                    let outputs = &func.regions[*body as usize].outputs;
                    // An output that is another input of the same body.
                    let moves = |(i, output): &(u32, &Value)| match output {
                        Value::Input(r, k) => r == body && k != i,
                        _ => false,
                    };
                    if (0..).zip(outputs).filter(moves).count() > 1 {
                        self.add("loop that swaps its inputs");
                    }
                }
                Node::Exit { inst, values } => {
                    self.add(format!("exit of {} values", size(values.len())));
                    self.uses("exit's value", values);
                    self.inst("exit", inst);
                }
            }
        }
    }

    /// The number of a select or loop, and those of its children beside it.
    fn control(&mut self, node: &Node) {
        let func = self.func;
        let Some(outer) = node.control() else { return };
        self.add(format!("{} of control {outer}", node_name(node)));
        let held = node.children().iter().flat_map(|r| &func.regions[*r as usize].nodes);
        for inner in held.filter_map(|n| func.nodes[*n as usize].control()) {
            self.add(format!("control {inner} in control {outer}"));
        }
    }

    /// Cases without outputs beside outs, which end in an exit.
    fn let_off(&mut self) {
        let func = self.func;
        let let_off = func.let_off();
        for (number, node) in (0..).zip(&func.nodes) {
            let (name, all) = (node_name(node), node.children());
            let of_node = |(select, case): &(u32, u32)| (*select == number).then_some(*case);
            let cases: Vec<u32> = let_off.iter().filter_map(of_node).collect();
            if cases.is_empty() {
                continue;
            }
            if cases.len() == all.len() {
                self.add(format!("{name}, all {} cases let off", size(cases.len())));
            } else {
                self.add(format!("{name}, {} cases let off, not all", size(cases.len())));
                for (place, case) in [("first", all[0]), ("last", all[all.len() - 1])] {
                    if cases.contains(&case) {
                        self.add(format!("{name}, the {place} case let off, not all"));
                    }
                }
            }
            let holder = func.regions.iter().position(|region| region.nodes.contains(&number));
            let holder = holder.unwrap() as u32;
            self.add(format!("{name} with a case let off in {}", self.parent_name(holder)));
            if let_off.iter().any(|(_, case)| *case == holder) {
                self.add(format!("{name} with a case let off in a case let off"));
            }
            for case in cases {
                let nodes = &func.regions[case as usize].nodes;
                self.add(format!("case let off of {} nodes", size(nodes.len())));
                if let [.., before, _] = nodes[..] {
                    let before = node_name(&func.nodes[before as usize]);
                    self.add(format!("case let off that ends in an exit after {before}"));
                }
            }
        }
    }

    fn inst(&mut self, place: &str, inst: &Inst) {
        self.add(format!("{place} with {} immediates", size(inst.imms.len())));
        for [kind, operand_kind, _] in &inst.imms {
            self.add(format!("immediate of kind {kind}"));
            self.add(format!("immediate of operand kind {operand_kind}"));
        }
    }

    fn ops(&mut self) {
        for Op { attrs, ty, kind, operands } in &self.func.ops {
            let name = match kind {
                OpKind::Inst(inst) => {
                    self.inst("op", inst);
                    "inst"
                }
                OpKind::Call(_) => "call",
                OpKind::Ext(..) => "ext",
            };
            self.add(format!("{name} op, result {}, attributes {}", some(*ty), some(*attrs)));
            self.add(format!("{name} op of {} operands", size(operands.len())));
            self.uses("operand", operands);
        }
    }

    fn ctrls(&mut self) {
        let func = self.func;
        let reached = if func.ctrls.is_empty() { vec![] } else { func.reached() };
        for Ctrl { region, attrs, kind, inputs, targets, values } in &func.ctrls {
            let name = ctrl_name(kind);
            let where_ = if reached.contains(region) { "" } else { ", not reached" };
            self.add(format!("ctrl {name}, {} targets{where_}", size(targets.len())));
            self.add(format!(
                "ctrl {name}, {} inputs, attributes {}",
                size(inputs.len()),
                some(*attrs)
            ));
            self.uses(&format!("ctrl {name} input"), inputs);
            if targets.contains(region) {
                self.add(format!("ctrl {name} to itself"));
            }
            let repeated = (0..targets.len()).any(|i| targets[..i].contains(&targets[i]));
            if repeated {
                self.add(format!("ctrl {name} with a repeated target"));
            }
            for (_, list) in values {
                self.add(format!("ctrl {name} with an entry of {} values", size(list.len())));
                self.uses("edge value", list);
            }
        }
        let children: Vec<u32> =
            func.nodes.iter().flat_map(|node| node.children()).copied().collect();
        for r in (0..func.regions.len() as u32).filter(|r| !children.contains(r)) {
            if !func.ctrls.is_empty() && !reached.contains(&r) {
                let line = func.ctrls.iter().any(|ctrl| ctrl.region == r);
                self.add(format!("root not reached, {} ctrl line", if line { "a" } else { "no" }));
            }
        }
    }

    fn blocks(&mut self) {
        let func = self.func;
        let all = visits(func);
        let counts = use_counts(&all);
        let places: HashMap<Point, &Block> = all.iter().map(|b| (b.point, b)).collect();
        // Why a branch with one target is or is not absorbed.
        for block in all.iter().filter(|b| b.terminator.targets.len() == 1) {
            let out = &block.terminator;
            let target = places[&out.targets[0]];
            let verdict = if out.inst.opcode != 249 {
                "kind"
            } else if out.merge.is_some() {
                "merge"
            } else if out.attrs != 0 {
                "attributes"
            } else if out.values.iter().any(|(_, list)| list.is_empty()) {
                "an empty entry"
            } else if !out.values.is_empty() {
                "values"
            } else if counts[&target.point] != 1 {
                "the use count"
            } else if !target.phis.is_empty() {
                "phis"
            } else {
                "nothing"
            };
            let (from, to) = (point_name(block.point), point_name(target.point));
            self.add(format!("{from} to {to}: absorption prevented by {verdict}"));
        }
        for count in counts.values() {
            self.add(format!("use count {}", size(*count)));
        }
        let visited: Vec<Point> = all.iter().map(|block| block.point).collect();
        let blocks = kept(visits(func));
        let is_kept = |point: &Point| blocks.iter().any(|block| block.point == *point);
        // A run of points without a kept one in it belongs to the one before, or is dropped.
        let mut length = 0;
        for point in &visited {
            length = if is_kept(point) { 1 } else { length + 1 };
            self.add(format!("run of {} points", size(length)));
            if !is_kept(point) && !counts.contains_key(point) {
                self.add("points dropped behind an exit");
            }
        }
        let ops: Vec<u32> = blocks.iter().flat_map(|block| block.ops.clone()).collect();
        let walked: Vec<u32> = visits(func).into_iter().flat_map(|block| block.ops).collect();
        for op in 0..func.ops.len() as u32 {
            match (ops.contains(&op), walked.contains(&op)) {
                (true, _) => {}
                (false, true) => self.add("op dropped behind an exit"),
                (false, false) => self.add("op in a root not reached"),
            }
        }
        self.add(format!("{} blocks", size(blocks.len())));
        for block in &blocks {
            let kind = point_name(block.point);
            self.add(format!("kept {kind} of {} phis", size(block.phis.len())));
            self.add(format!("kept {kind} of {} ops", size(block.ops.len())));
            self.add(match &block.terminator.merge {
                Some(Merge { kind: merge, control }) => {
                    let name = match merge {
                        MergeKind::Selection(_) => "selection",
                        MergeKind::Loop(..) => "loop",
                    };
                    format!("{name} merge of control {control} in a {kind}")
                }
                None => format!("{kind} ends in {}", ending(block)),
            });
            let edges: Vec<&Block> =
                blocks.iter().filter(|b| b.terminator.targets.contains(&block.point)).collect();
            self.add(format!("kept {kind} with {} edges in", size(edges.len())));
            for phi in &block.phis {
                let name = self.value_name(phi.sets);
                self.add(format!("phi of a {name}, {} pairs", size(edges.len())));
                self.add(format!("phi attributes {}", some(phi.decl.attrs)));
            }
            let twice = |b: &&&Block| {
                b.terminator.targets.iter().filter(|target| **target == block.point).count() > 1
            };
            if !block.phis.is_empty() && edges.iter().any(|b| twice(&b)) {
                self.add("phi with one pair for two equal targets");
            }
        }
        self.unset(&blocks, &ops);
    }

    /// What refusal 10 is about, if it is.
    fn unset(&mut self, blocks: &[Block], ops: &[u32]) {
        let func = self.func;
        let phis: Vec<Value> = blocks.iter().flat_map(|b| &b.phis).map(|phi| phi.sets).collect();
        let unset = |value: &Value| match value {
            Value::Const(_) | Value::Input(0, _) => false,
            Value::Result(op) => !ops.contains(op),
            _ => !phis.contains(value),
        };
        for block in blocks {
            let operands = block.ops.iter().flat_map(|op| func.ops[*op as usize].operands.clone());
            let edges = block.terminator.values.iter().flat_map(|(_, list)| list.clone());
            for (place, values) in [
                ("an op", operands.collect::<Vec<_>>()),
                ("a phi", edges.collect()),
                ("a terminator", block.terminator.inputs.clone()),
            ] {
                for value in values.iter().filter(|value| unset(value)) {
                    let name = self.value_name(*value);
                    self.add(format!("refusal 10: a {name} that is not set, in {place}"));
                }
            }
        }
    }
}

fn ending(block: &Block) -> &'static str {
    let out = &block.terminator;
    match (out.inst.opcode, out.targets.len()) {
        (249, _) => "a branch",
        (250, _) => "a conditional branch",
        (253, _) => "a return",
        (254, _) => "a return of a value",
        (255, _) => "unreachable",
        (_, 0) => "an exit",
        _ => "a selection",
    }
}
