//! Document 01's text as a function of the Rust.
//!
//! Brackets and words are all that is asked of the text's form, and of its meaning only what
//! makes a value of the Rust's types: a number that fits its field, a handle to something that
//! exists, a list that an intrusive list can be. All else is for the Rust to judge.

#![warn(dead_code, unused_imports)]

use crate::context::{Entity, EntityDefs, EntityListNode};
use crate::lift::Named;
use crate::smallvec::SmallVec;
use crate::spv::{self, spec};
use crate::{
    Attr, AttrSet, AttrSetDef, Const, ConstDef, ConstKind, Context, DataInst, DataInstDef,
    DataInstKind, DeclDef, EntityList, Func, FuncDecl, FuncDefBody, FuncParam, GlobalVar, Import,
    InternedStr, Module, ModuleDebugInfo, ModuleDialect, Node, NodeDef, NodeKind, NodeOutputDecl,
    Region, RegionDef, RegionInputDecl, SelectionKind, Type, Value, cfg,
};
use std::collections::{BTreeMap, BTreeSet};
use std::rc::Rc;

/// What the oracle says of a case.
pub enum Answer {
    List {
        insts: Vec<crate::lift::Inst>,
        next: u64,
    },
    /// The Rust panics on this function.
    Panicked,
    /// An id would not fit 32 bits, which is an error in the Rust.
    Exhausted,
    /// A region holds itself, so the Rust's walk never ends.
    Endless,
    /// This is no function of the Rust.
    Unreadable,
}

/// Answers an input of the program `lift`.
pub fn answer(input: &[u8]) -> Answer {
    let Some((module, function)) = read(input) else { return Answer::Unreadable };
    if function.endless {
        return Answer::Endless;
    }
    let lifted = std::panic::catch_unwind(std::panic::AssertUnwindSafe(|| {
        crate::lift::lift(&module, &function.named(&module), function.first)
    }));
    match lifted {
        Ok(Some((insts, next))) => Answer::List { insts, next },
        Ok(None) => Answer::Exhausted,
        Err(_) => Answer::Panicked,
    }
}

/// A function of the Rust, to be lifted any number of times.
pub struct Ready(Module, Function);

impl Ready {
    /// The function of an input of the program `lift`, if it is one whose walk ends.
    pub fn new(input: &[u8]) -> Option<Self> {
        let (module, function) = read(input)?;
        (!function.endless).then_some(Self(module, function))
    }

    /// How many blocks the Rust's `from_func_decl` keeps.
    pub fn blocks(&self) -> usize {
        crate::lift::blocks(&self.0, self.1.func, self.1.first)
    }

    /// The ids that the text names.
    pub fn named(&self) -> Named<'_> {
        self.1.named(&self.0)
    }

    /// How many instructions the Rust lists: `alloc_ids`, which calls `from_func_decl`, and
    /// `to_inst_and_attrs` for each.
    pub fn lift(&self, named: &Named<'_>) -> usize {
        let (insts, _) = crate::lift::insts(&self.0, named, self.1.first).expect("ids fit 32 bits");
        std::hint::black_box(insts).len()
    }
}

/// The first id and every id that the text names.
struct Function {
    first: spv::Id,
    ext_sets: BTreeMap<u32, InternedStr>,
    types: BTreeSet<u32>,
    consts: Vec<u32>,
    callees: BTreeMap<u32, Func>,
    func: Func,
    endless: bool,
}

impl Function {
    fn named<'a>(&self, module: &'a Module) -> Named<'a> {
        // Every id was found not to be 0 when it was read.
        let id = |id: u32| spv::Id::new(id).unwrap();
        let cx = module.cx_ref();
        Named {
            ext_inst_imports: self.ext_sets.iter().map(|(&n, &name)| (&cx[name], id(n))).collect(),
            types: self.types.iter().map(|&n| (Type(n), id(n))).collect(),
            consts: (0..).map(Const).zip(self.consts.iter().map(|&n| id(n))).collect(),
            callees: self.callees.iter().map(|(&n, &func)| (func, id(n))).collect(),
            func: self.func,
        }
    }
}

enum Form<'a> {
    Word(&'a str),
    List(Vec<Form<'a>>),
}
use Form::{List, Word};

fn forms(input: &str) -> Option<Vec<Form<'_>>> {
    let mut open = vec![vec![]];
    let mut rest = input;
    loop {
        rest = rest.trim_start_matches([' ', '\n']);
        let Some(first) = rest.chars().next() else { break };
        match first {
            '(' => open.push(vec![]),
            ')' => {
                let list = open.pop()?;
                open.last_mut()?.push(List(list));
            }
            _ => {
                let end = rest.find([' ', '\n', '(', ')']).unwrap_or(rest.len());
                open.last_mut()?.push(Word(&rest[..end]));
                rest = &rest[end..];
                continue;
            }
        }
        rest = &rest[1..];
    }
    let [top] = <[_; 1]>::try_from(open).ok()?;
    Some(top)
}

fn number<T: std::str::FromStr>(form: &Form<'_>) -> Option<T> {
    match form {
        Word(word) => word.parse().ok(),
        List(_) => None,
    }
}

/// A list that starts with the word given, without it.
fn named<'f, 'a>(form: &'f Form<'a>, name: &str) -> Option<&'f [Form<'a>]> {
    match form {
        List(list) => match &list[..] {
            [Word(head), rest @ ..] if *head == name => Some(rest),
            _ => None,
        },
        Word(_) => None,
    }
}

fn each<T, C: FromIterator<T>>(
    forms: &[Form<'_>],
    read: impl FnMut(&Form<'_>) -> Option<T>,
) -> Option<C> {
    forms.iter().map(read).collect()
}

/// The lines, parted by kind, and the ids met.
struct Reader<'f, 'a> {
    consts: Vec<&'f [Form<'a>]>,
    params: Vec<&'f [Form<'a>]>,
    regions: Vec<&'f [Form<'a>]>,
    nodes: Vec<&'f Form<'a>>,
    ops: Vec<&'f [Form<'a>]>,
    ctrls: Vec<&'f [Form<'a>]>,
    ext_sets: BTreeMap<u32, InternedStr>,
    types: BTreeSet<u32>,
    callees: BTreeMap<u32, Func>,
}

fn read(input: &[u8]) -> Option<(Module, Function)> {
    let forms = forms(std::str::from_utf8(input).ok()?)?;
    let [first, func, lines @ ..] = &forms[..] else { return None };
    let [first] = named(first, "first")? else { return None };
    let first: u32 = number(first)?;
    let [attrs, ret, func_type, control] = named(func, "func")? else { return None };

    let mut reader = Reader {
        consts: vec![],
        params: vec![],
        regions: vec![],
        nodes: vec![],
        ops: vec![],
        ctrls: vec![],
        ext_sets: BTreeMap::new(),
        types: BTreeSet::new(),
        callees: BTreeMap::new(),
    };
    let mut imported = false;
    for line in lines {
        let List(list) = line else { return None };
        let [Word(head), rest @ ..] = &list[..] else { return None };
        match *head {
            "const" => reader.consts.push(rest),
            "param" => reader.params.push(rest),
            "imported" => imported = true,
            "region" => reader.regions.push(rest),
            "block" | "select" | "loop" | "exit" => reader.nodes.push(line),
            "op" => reader.ops.push(rest),
            "ctrl" => reader.ctrls.push(rest),
            _ => return None,
        }
    }
    if !imported && reader.regions.is_empty() {
        return None;
    }

    let attrs = AttrSet(number(attrs)?);
    let ret_type = reader.ty(ret)?;
    let func_type = reader.ty(func_type)?;
    let control = spv::Imm::Short(spec::Spec::get().well_known.FunctionControl, number(control)?);
    let mut const_ids = vec![];
    let mut consts = vec![];
    for line in reader.consts.iter() {
        let [id, opcode] = line else { return None };
        const_ids.push(number(id).filter(|id| *id != 0)?);
        consts.push(ConstDef {
            attrs: AttrSet::default(),
            ty: func_type,
            kind: match number(opcode)? {
                // The text's "no instruction".
                0 => ConstKind::PtrToGlobalVar(GlobalVar(0)),
                opcode => ConstKind::SpvInst {
                    spv_inst_and_const_inputs: Rc::new((
                        spec::Opcode(opcode).into(),
                        SmallVec::new(),
                    )),
                },
            },
        });
    }
    let mut params = SmallVec::new();
    for line in reader.params.clone() {
        let (attrs, ty) = reader.declared(line)?;
        params.push(FuncParam { attrs, ty });
    }
    let mut endless = false;
    let def = if imported {
        DeclDef::Imported(Import::LinkName(InternedStr(0)))
    } else {
        let body = reader.body()?;
        endless = holds_itself(&body);
        DeclDef::Present(body)
    };

    let Reader { ext_sets, types, callees, .. } = reader;
    let mut strings: Vec<(u32, InternedStr)> = ext_sets.iter().map(|(&n, &s)| (n, s)).collect();
    strings.sort_by_key(|(_, s)| s.0);
    let cx = Context {
        consts,
        // In order of names, as the Rust goes through them, the ids ascend.
        strings: strings.iter().map(|(n, _)| format!("{n:010}")).collect(),
        func_attrs: (attrs, AttrSetDef { attrs: [Attr::SpvBitflagsOperand(control)].into() }),
        func_type,
    };
    let dialect = ModuleDialect::Spv(spv::Dialect {
        version_major: 1,
        version_minor: 0,
        capabilities: BTreeSet::new(),
        extensions: BTreeSet::new(),
        addressing_model: 0,
        memory_model: 0,
    });
    let debug_info = ModuleDebugInfo::Spv(spv::ModuleDebugInfo {
        original_generator_magic: None,
        source_languages: BTreeMap::new(),
        source_extensions: vec![],
        module_processes: vec![],
    });
    let mut module = Module::new(Rc::new(cx), dialect, debug_info);
    // A callee is an imported function without parameters: lifted, it takes its own id only.
    let callee = FuncDecl {
        attrs: AttrSet::default(),
        ret_type,
        params: SmallVec::new(),
        def: DeclDef::Imported(Import::LinkName(InternedStr(0))),
    };
    let func = Func(callees.len() as u32);
    module.funcs = std::iter::repeat_n(callee, callees.len())
        .chain([FuncDecl { attrs, ret_type, params, def }])
        .collect();
    let function = Function {
        first: spv::Id::new(first)?,
        ext_sets,
        types,
        consts: const_ids,
        callees,
        func,
        endless,
    };
    Some((module, function))
}

impl Reader<'_, '_> {
    /// An id of a type; `NonZeroU32` in the Rust.
    fn ty(&mut self, form: &Form<'_>) -> Option<Type> {
        let id = number(form).filter(|id| *id != 0)?;
        self.types.insert(id);
        Some(Type(id))
    }

    fn declared(&mut self, form: &[Form<'_>]) -> Option<(AttrSet, Type)> {
        let [attrs, ty] = form else { return None };
        Some((AttrSet(number(attrs)?), self.ty(ty)?))
    }

    fn region(&self, form: &Form<'_>) -> Option<Region> {
        number(form).filter(|n| (*n as usize) < self.regions.len()).map(Region)
    }

    fn node(&self, form: &Form<'_>) -> Option<Node> {
        number(form).filter(|n| (*n as usize) < self.nodes.len()).map(Node)
    }

    fn op(&self, form: &Form<'_>) -> Option<DataInst> {
        number(form).filter(|n| (*n as usize) < self.ops.len()).map(DataInst)
    }

    fn value(&self, form: &Form<'_>) -> Option<Value> {
        let List(list) = form else { return None };
        match &list[..] {
            [Word("c"), n] => {
                number(n).filter(|n| (*n as usize) < self.consts.len()).map(Const).map(Value::Const)
            }
            [Word("r"), region, i] => {
                Some(Value::RegionInput { region: self.region(region)?, input_idx: number(i)? })
            }
            [Word("n"), node, i] => {
                Some(Value::NodeOutput { node: self.node(node)?, output_idx: number(i)? })
            }
            [Word("d"), op] => Some(Value::DataInstOutput(self.op(op)?)),
            _ => None,
        }
    }

    fn values(&self, forms: &[Form<'_>]) -> Option<SmallVec<[Value; 2]>> {
        each(forms, |form| self.value(form))
    }

    fn inst(&self, form: &Form<'_>) -> Option<spv::Inst> {
        let [opcode, imms @ ..] = named(form, "inst")? else { return None };
        let imms = each(imms, |imm| {
            let List(imm) = imm else { return None };
            let [kind, operand_kind, word] = &imm[..] else { return None };
            let (operand_kind, word) = (spec::OperandKind(number(operand_kind)?), number(word)?);
            match number(kind)? {
                0 => Some(spv::Imm::Short(operand_kind, word)),
                1 => Some(spv::Imm::LongStart(operand_kind, word)),
                2 => Some(spv::Imm::LongCont(operand_kind, word)),
                _ => None,
            }
        })?;
        Some(spv::Inst { opcode: spec::Opcode(number(opcode)?), imms })
    }

    fn selection(&self, form: &Form<'_>) -> Option<SelectionKind> {
        match form {
            Word("bool") => Some(SelectionKind::BoolCond),
            _ => Some(SelectionKind::SpvInst(self.inst(form)?)),
        }
    }

    fn body(&mut self) -> Option<FuncDefBody> {
        let lines = self.ops.clone();
        let data_insts: Option<EntityDefs<DataInst>> =
            lines.iter().map(|line| self.data_inst(line).map(EntityListNode::new)).collect();
        let mut data_insts = data_insts?;
        let lines = self.nodes.clone();
        let nodes: Option<EntityDefs<Node>> = lines
            .iter()
            .map(|line| self.node_def(line, &mut data_insts).map(EntityListNode::new))
            .collect();
        let mut nodes = nodes?;
        let lines = self.regions.clone();
        let regions: Option<EntityDefs<Region>> =
            lines.iter().map(|line| self.region_def(line, &mut nodes)).collect();

        let mut cfg = cfg::ControlFlowGraph::default();
        for line in &self.ctrls {
            let [region, attrs, kind, inputs, targets, target_inputs] = line else { return None };
            let kind = match kind {
                Word("unreachable") => cfg::ControlInstKind::Unreachable,
                Word("return") => cfg::ControlInstKind::Return,
                Word("branch") => cfg::ControlInstKind::Branch,
                _ => match named(kind, "exit") {
                    Some([inst]) => cfg::ControlInstKind::ExitInvocation(
                        cfg::ExitInvocationKind::SpvInst(self.inst(inst)?),
                    ),
                    Some(_) => return None,
                    None => cfg::ControlInstKind::SelectBranch(self.selection(kind)?),
                },
            };
            let control_inst = cfg::ControlInst {
                attrs: AttrSet(number(attrs)?),
                kind,
                inputs: self.values(named(inputs, "ins")?)?,
                targets: each(named(targets, "to")?, |region| self.region(region))?,
                target_inputs: each(named(target_inputs, "vals")?, |entry| {
                    let List(entry) = entry else { return None };
                    let [region, values @ ..] = &entry[..] else { return None };
                    Some((self.region(region)?, self.values(values)?))
                })?,
            };
            cfg.control_inst_on_exit_from.insert(self.region(region)?, control_inst);
        }
        Some(FuncDefBody {
            regions: regions?,
            nodes,
            data_insts,
            body: Region(0),
            unstructured_cfg: (!self.ctrls.is_empty()).then_some(cfg),
        })
    }

    fn region_def(&mut self, line: &[Form<'_>], nodes: &mut EntityDefs<Node>) -> Option<RegionDef> {
        let [inputs, children, outputs] = line else { return None };
        let inputs = each(named(inputs, "in")?, |input| {
            let List(input) = input else { return None };
            let (attrs, ty) = self.declared(input)?;
            Some(RegionInputDecl { attrs, ty })
        })?;
        let children: Vec<_> = each(named(children, "nodes")?, |node| self.node(node))?;
        let children = linked(&children, nodes)?;
        let outputs = self.values(named(outputs, "out")?)?;
        Some(RegionDef { inputs, children, outputs })
    }

    fn data_inst(&mut self, line: &[Form<'_>]) -> Option<DataInstDef> {
        let [attrs, ty, kind, inputs @ ..] = line else { return None };
        let output_type = match ty {
            Word("0") => None,
            _ => Some(self.ty(ty)?),
        };
        let kind = if let Some(call) = named(kind, "call") {
            let [id] = call else { return None };
            let count = self.callees.len() as u32;
            let id = number(id).filter(|id| *id != 0)?;
            DataInstKind::FuncCall(*self.callees.entry(id).or_insert(Func(count)))
        } else if let Some(ext) = named(kind, "ext") {
            let [id, inst] = ext else { return None };
            let count = self.ext_sets.len() as u32;
            let id = number(id).filter(|id| *id != 0)?;
            DataInstKind::SpvExtInst {
                ext_set: *self.ext_sets.entry(id).or_insert(InternedStr(count)),
                inst: number(inst)?,
            }
        } else {
            DataInstKind::SpvInst(self.inst(kind)?)
        };
        Some(DataInstDef {
            attrs: AttrSet(number(attrs)?),
            kind,
            inputs: self.values(inputs)?,
            output_type,
        })
    }

    fn node_def(
        &mut self,
        line: &Form<'_>,
        data_insts: &mut EntityDefs<DataInst>,
    ) -> Option<NodeDef> {
        let List(line) = line else { return None };
        let mut outputs = SmallVec::new();
        let kind = match &line[..] {
            [Word("block"), insts @ ..] => {
                let insts: Vec<_> = each(insts, |op| self.op(op))?;
                NodeKind::Block { insts: linked(&insts, data_insts)? }
            }
            // The Rust has no place for a control number, so whatever it is it goes no further.
            [Word("select"), kind, scrutinee, cases, outs, control] => {
                number::<u32>(control)?;
                outputs = each(named(outs, "outs")?, |out| {
                    let List(out) = out else { return None };
                    let (attrs, ty) = self.declared(out)?;
                    Some(NodeOutputDecl { attrs, ty })
                })?;
                NodeKind::Select {
                    kind: self.selection(kind)?,
                    scrutinee: self.value(scrutinee)?,
                    cases: each(named(cases, "cases")?, |region| self.region(region))?,
                }
            }
            [Word("loop"), body, repeat_condition, inits, control] => {
                number::<u32>(control)?;
                NodeKind::Loop {
                    initial_inputs: self.values(named(inits, "init")?)?,
                    body: self.region(body)?,
                    repeat_condition: self.value(repeat_condition)?,
                }
            }
            [Word("exit"), inst, inputs @ ..] => NodeKind::ExitInvocation {
                kind: cfg::ExitInvocationKind::SpvInst(self.inst(inst)?),
                inputs: self.values(inputs)?,
            },
            _ => return None,
        };
        Some(NodeDef { kind, outputs })
    }
}

/// Links entities into a list; one that stands in a list already cannot stand in another.
fn linked<D, E: Entity<Def = EntityListNode<E, D>>>(
    items: &[E],
    defs: &mut EntityDefs<E>,
) -> Option<EntityList<E>> {
    for (i, &item) in items.iter().enumerate() {
        let def = &mut defs[item];
        if std::mem::replace(&mut def.listed, true) {
            return None;
        }
        def.prev = i.checked_sub(1).map(|before| items[before]);
        def.next = items.get(i + 1).copied();
    }
    Some(EntityList(items.first().copied().zip(items.last().copied())))
}

/// Whether some region is reached from itself through its nodes, within what the Rust walks:
/// the regions below the body and below every other root with a way in.
fn holds_itself(body: &FuncDefBody) -> bool {
    fn walk(body: &FuncDefBody, region: Region, above: &mut Vec<Region>) -> bool {
        if above.contains(&region) {
            return true;
        }
        above.push(region);
        let found = body.at(region).at_children().into_iter().any(|node| match &node.def().kind {
            NodeKind::Block { .. } | NodeKind::ExitInvocation { .. } => false,
            NodeKind::Select { cases, .. } => cases.iter().any(|&case| walk(body, case, above)),
            NodeKind::Loop { body: inner, .. } => walk(body, *inner, above),
        });
        above.pop();
        found
    }
    let mut roots = vec![body.body];
    let mut done = 0;
    while let Some(&root) = roots.get(done) {
        done += 1;
        if walk(body, root, &mut vec![]) {
            return true;
        }
        let targets = body
            .unstructured_cfg
            .as_ref()
            .and_then(|cfg| cfg.control_inst_on_exit_from.get(root))
            .map_or(&[][..], |control_inst| &control_inst.targets);
        for &target in targets {
            if !roots.contains(&target) {
                roots.push(target);
            }
        }
    }
    false
}
