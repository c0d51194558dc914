//! Stands in for the module `qptr`, which docs/src lacks: pointers that must be legalized away
//! before lifting. Types without values, so that no text can hold one.

#[derive(Clone, PartialEq, Eq, PartialOrd, Ord, Hash)]
pub enum QPtrAttr {}

#[derive(Clone, PartialEq, Eq, Hash)]
pub enum QPtrOp {}

#[derive(Clone, PartialEq, Eq, Hash)]
pub enum QPtrUsage {}

pub mod shapes {
    #[derive(Clone)]
    pub enum GlobalVarShape {}
}
