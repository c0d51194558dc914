//! The Rust's own lifting of a function, compiled over stand-ins for the crates and modules that
//! docs/src lacks. `README.md` lists what is cut and what stands in.

// Of the cut text much is for other uses, and its style is its own.
#![allow(dead_code, unused_imports, clippy::all)]

#[path = "standins/context.rs"]
mod context;
#[path = "standins/indexmap.rs"]
mod indexmap;
#[path = "standins/itertools.rs"]
mod itertools;
#[path = "standins/qptr.rs"]
mod qptr;
#[path = "standins/rustc_hash.rs"]
mod rustc_hash;
#[path = "standins/smallvec.rs"]
mod smallvec;

pub mod lift;
pub mod text;

include!(concat!(env!("OUT_DIR"), "/lib.rs"));

mod func_at {
    include!(concat!(env!("OUT_DIR"), "/func_at.rs"));
}

mod cfg {
    use crate::itertools::Either;
    use crate::smallvec::SmallVec;
    use crate::{
        AttrSet, EntityOrientedDenseMap, FuncDefBody, FxIndexMap, Region, SelectionKind, Value, spv,
    };

    include!(concat!(env!("OUT_DIR"), "/cfg.rs"));
}

mod spv {
    use crate::smallvec;

    include!(concat!(env!("OUT_DIR"), "/spv.rs"));

    pub mod spec;
}
