//! Lifting one function: the Rust's `alloc_ids`, `from_func_decl`, its order of instructions and
//! `to_inst_and_attrs`, given the ids that the text names.

use crate::func_at::FuncAt;
use crate::indexmap;
use crate::rustc_hash::FxHashMap;
use crate::smallvec::SmallVec;
use crate::spv::{self, spec};
use crate::{
    AddrSpace, Attr, AttrSet, Const, ConstKind, Context, DataInst, DataInstDef, DataInstKind,
    DeclDef, EntityList, Func, FuncDecl, FuncParam, FxIndexMap, FxIndexSet, GlobalVar,
    GlobalVarDefBody, Import, Module, Node, NodeKind, NodeOutputDecl, Region, RegionInputDecl,
    SelectionKind, Type, TypeDef, TypeKind, TypeOrConst, Value, cfg,
};
use std::borrow::Cow;
use std::collections::{BTreeMap, BTreeSet};
use std::{iter, mem, slice};

include!(concat!(env!("OUT_DIR"), "/lift.rs"));

/// What a module names beside the function: the ids that the Rust would give to imports of
/// extended instruction sets, types, constants and other functions are given by the text.
pub struct Named<'a> {
    /// In ascending order of names, as `alloc_ids` goes.
    pub ext_inst_imports: BTreeMap<&'a str, spv::Id>,
    pub types: Vec<(Type, spv::Id)>,
    pub consts: Vec<(Const, spv::Id)>,
    /// Functions before the last, which is the one to lift.
    pub callees: Vec<(Func, spv::Id)>,
    pub func: Func,
}

/// An instruction as document 01 lists it.
pub struct Inst {
    pub opcode: u16,
    pub attrs: u32,
    pub result_type: u32,
    pub result: u32,
    /// Kind, operand kind, word.
    pub imms: Vec<(u32, u16, u32)>,
    pub ids: Vec<u32>,
}

/// No further id fits 32 bits.
struct IdsRanOut;

/// The instructions of the function and the next free id, or nothing where ids exceed 32 bits.
/// It panics where the Rust does.
pub fn lift(module: &Module, named: &Named<'_>, first: spv::Id) -> Option<(Vec<Inst>, u64)> {
    let (insts, next) = insts(module, named, first)?;
    Some((insts.into_iter().map(|(inst, attrs)| Inst::new(inst, attrs)).collect(), next))
}

/// The same as the Rust's own instructions.
pub(crate) fn insts(
    module: &Module,
    named: &Named<'_>,
    first: spv::Id,
) -> Option<(Vec<(spv::InstWithIds, AttrSet)>, u64)> {
    let mut collector = NeedsIdsCollector {
        cx: module.cx_ref(),
        module,
        ext_inst_imports: named.ext_inst_imports.keys().copied().collect(),
        debug_strings: BTreeSet::new(),
        globals: FxIndexSet::default(),
        global_vars_seen: FxIndexSet::default(),
        funcs: FxIndexSet::default(),
    };
    let mut given: Vec<spv::Id> = named.ext_inst_imports.values().copied().collect();
    for &(ty, id) in &named.types {
        collector.globals.insert(Global::Type(ty));
        given.push(id);
    }
    for &(ct, id) in &named.consts {
        collector.globals.insert(Global::Const(ct));
        given.push(id);
    }
    for &(callee, id) in &named.callees {
        collector.funcs.insert(callee);
        given.push(id);
    }
    collector.funcs.insert(named.func);

    let mut next = u64::from(first.get());
    let mut given = given.into_iter();
    let ids = collector
        .alloc_ids(|| -> Result<spv::Id, IdsRanOut> {
            if let Some(id) = given.next() {
                return Ok(id);
            }
            let id = u32::try_from(next).ok().and_then(spv::Id::new).ok_or(IdsRanOut)?;
            next += 1;
            Ok(id)
        })
        .ok()?;
    assert!(given.next().is_none());
    Some((module.insts_of(&ids, named.func), next))
}

/// How many blocks `from_func_decl` keeps of the function, with ids from the first on.
pub fn blocks(module: &Module, func: Func, first: spv::Id) -> usize {
    let mut next = first;
    let lifting = FuncLifting::from_func_decl(module.cx_ref(), &module.funcs[func], || {
        let id = next;
        next = next.checked_add(1).ok_or(IdsRanOut)?;
        Ok::<_, IdsRanOut>(id)
    });
    lifting.ok().expect("ids fit 32 bits").blocks.len()
}

impl Module {
    fn insts_of<'a>(
        &'a self,
        ids: &'a AllocatedIds<'a>,
        func: Func,
    ) -> Vec<(spv::InstWithIds, AttrSet)> {
        let lifted = ids.funcs[&func].func_id;
        let starts = |inst: &LazyInst<'_, '_>| match inst {
            LazyInst::OpFunction { func_id, func_decl } => {
                *func_id == lifted && std::ptr::eq(*func_decl, &self.funcs[func])
            }
            _ => false,
        };
        let global_and_func_insts = include!(concat!(env!("OUT_DIR"), "/insts.rs"));
        // The function is the last of all, so its instructions run to the end.
        global_and_func_insts
            .skip_while(|inst| !starts(inst))
            .map(|inst| inst.to_inst_and_attrs(self, ids))
            .collect()
    }
}

impl Inst {
    fn new(inst: spv::InstWithIds, attrs: AttrSet) -> Self {
        Self {
            opcode: inst.opcode.0,
            attrs: attrs.0,
            result_type: inst.result_type_id.map_or(0, spv::Id::get),
            result: inst.result_id.map_or(0, spv::Id::get),
            imms: inst
                .imms
                .iter()
                .map(|imm| match *imm {
                    spv::Imm::Short(kind, word) => (0, kind.0, word),
                    spv::Imm::LongStart(kind, word) => (1, kind.0, word),
                    spv::Imm::LongCont(kind, word) => (2, kind.0, word),
                })
                .collect(),
            ids: inst.ids.iter().map(|id| id.get()).collect(),
        }
    }

    /// How many words it takes in document 01's list.
    pub fn words(&self) -> usize {
        6 + 3 * self.imms.len() + self.ids.len()
    }
}

impl std::fmt::Display for Inst {
    fn fmt(&self, f: &mut std::fmt::Formatter<'_>) -> std::fmt::Result {
        write!(f, "({} {} {} {} (imms", self.opcode, self.attrs, self.result_type, self.result)?;
        for (kind, operand_kind, word) in &self.imms {
            write!(f, " ({kind} {operand_kind} {word})")?;
        }
        write!(f, ") (ids")?;
        for id in &self.ids {
            write!(f, " {id}")?;
        }
        write!(f, "))")
    }
}
