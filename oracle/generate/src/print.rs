//! Functions as texts.

use refer::read::*;
use std::fmt::{self, Display};

/// An input of `lift`: the first id and the text.
pub struct Case {
    pub first: u32,
    pub func: Func,
}

/// An empty body, to be filled.
pub fn func() -> Func {
    Func {
        attrs: 0,
        ret: 2,
        ty: 3,
        control: 0,
        consts: vec![(5, 43)],
        params: vec![],
        imported: false,
        regions: vec![],
        nodes: vec![],
        ops: vec![],
        ctrls: vec![],
    }
}

pub fn region(nodes: &[u32]) -> Region {
    Region { inputs: vec![], nodes: nodes.to_vec(), outputs: vec![] }
}

pub fn inst(opcode: u32) -> Inst {
    Inst { opcode, imms: vec![] }
}

pub fn ctrl(region: u32, kind: CtrlKind, targets: &[u32]) -> Ctrl {
    Ctrl { region, attrs: 0, kind, inputs: vec![], targets: targets.to_vec(), values: vec![] }
}

struct Shown<T>(T);

impl Display for Shown<Value> {
    fn fmt(&self, f: &mut fmt::Formatter<'_>) -> fmt::Result {
        match self.0 {
            Value::Const(n) => write!(f, "(c {n})"),
            Value::Input(r, i) => write!(f, "(r {r} {i})"),
            Value::Out(n, i) => write!(f, "(n {n} {i})"),
            Value::Result(op) => write!(f, "(d {op})"),
        }
    }
}

impl Display for Shown<Decl> {
    fn fmt(&self, f: &mut fmt::Formatter<'_>) -> fmt::Result {
        write!(f, "({} {})", self.0.attrs, self.0.ty)
    }
}

impl Display for Shown<&Inst> {
    fn fmt(&self, f: &mut fmt::Formatter<'_>) -> fmt::Result {
        write!(f, "(inst {}", self.0.opcode)?;
        for [kind, operand_kind, word] in &self.0.imms {
            write!(f, " ({kind} {operand_kind} {word})")?;
        }
        write!(f, ")")
    }
}

impl Display for Shown<&Selection> {
    fn fmt(&self, f: &mut fmt::Formatter<'_>) -> fmt::Result {
        match self.0 {
            Selection::Bool => write!(f, "bool"),
            Selection::Inst(inst) => Shown(inst).fmt(f),
        }
    }
}

/// Items, each after a space.
fn items<T: Display>(items: impl IntoIterator<Item = T>) -> String {
    items.into_iter().map(|item| format!(" {item}")).collect()
}

fn values(list: &[Value]) -> String {
    items(list.iter().map(|value| Shown(*value)))
}

fn decls(list: &[Decl]) -> String {
    items(list.iter().map(|decl| Shown(*decl)))
}

impl Display for Case {
    fn fmt(&self, f: &mut fmt::Formatter<'_>) -> fmt::Result {
        let func = &self.func;
        writeln!(f, "(first {})", self.first)?;
        writeln!(f, "(func {} {} {} {})", func.attrs, func.ret, func.ty, func.control)?;
        for (id, opcode) in &func.consts {
            writeln!(f, "(const {id} {opcode})")?;
        }
        for param in &func.params {
            writeln!(f, "(param {} {})", param.attrs, param.ty)?;
        }
        if func.imported {
            writeln!(f, "(imported)")?;
        }
        for Region { inputs, nodes, outputs } in &func.regions {
            let (inputs, nodes, outputs) = (decls(inputs), items(nodes), values(outputs));
            writeln!(f, "(region (in{inputs}) (nodes{nodes}) (out{outputs}))")?;
        }
        for node in &func.nodes {
            match node {
                Node::Block { ops } => writeln!(f, "(block{})", items(ops))?,
                Node::Select { kind, scrutinee, cases, outs, control } => {
                    let (kind, scrutinee) = (Shown(kind), Shown(*scrutinee));
                    let (cases, outs) = (items(cases), decls(outs));
                    writeln!(
                        f,
                        "(select {kind} {scrutinee} (cases{cases}) (outs{outs}) {control})"
                    )?;
                }
                Node::Loop { body, repeat, inits, control } => {
                    let (repeat, inits) = (Shown(*repeat), values(inits));
                    writeln!(f, "(loop {body} {repeat} (init{inits}) {control})")?;
                }
                Node::Exit { inst, values: list } => {
                    writeln!(f, "(exit {}{})", Shown(inst), values(list))?;
                }
            }
        }
        for Op { attrs, ty, kind, operands } in &func.ops {
            let kind = match kind {
                OpKind::Inst(inst) => Shown(inst).to_string(),
                OpKind::Call(id) => format!("(call {id})"),
                OpKind::Ext(id, n) => format!("(ext {id} {n})"),
            };
            writeln!(f, "(op {attrs} {ty} {kind}{})", values(operands))?;
        }
        for Ctrl { region, attrs, kind, inputs, targets, values: entries } in &func.ctrls {
            let kind = match kind {
                CtrlKind::Unreachable => "unreachable".to_owned(),
                CtrlKind::Return => "return".to_owned(),
                CtrlKind::Branch => "branch".to_owned(),
                CtrlKind::Select(kind) => Shown(kind).to_string(),
                CtrlKind::Exit(inst) => format!("(exit {})", Shown(inst)),
            };
            let entries = items(entries.iter().map(|(r, list)| format!("({r}{})", values(list))));
            let (inputs, targets) = (values(inputs), items(targets));
            writeln!(
                f,
                "(ctrl {region} {attrs} {kind} (ins{inputs}) (to{targets}) (vals{entries}))"
            )?;
        }
        Ok(())
    }
}
