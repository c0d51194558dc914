//! Stands in for `context.rs`, which docs/src lacks: interned things and entities.
//!
//! A handle is the number that the text gives: types and attribute sets by their ids, constants,
//! regions, nodes and ops by their places. The context holds only what the cut bodies read of
//! it; the rest is `unimplemented!`, so that a use that was overlooked shows.

use crate::{
    AttrSetDef, ConstDef, DataInstDef, FuncDecl, GlobalVarDecl, NodeDef, RegionDef, TypeDef,
};
use std::ops::{Deref, DerefMut, Index, IndexMut};

#[derive(Copy, Clone, PartialEq, Eq, Hash, Default)]
pub struct AttrSet(pub u32);

#[derive(Copy, Clone, PartialEq, Eq, Hash)]
pub struct Type(pub u32);

#[derive(Copy, Clone, PartialEq, Eq, Hash)]
pub struct Const(pub u32);

#[derive(Copy, Clone, PartialEq, Eq, Hash)]
pub struct InternedStr(pub u32);

pub struct Context {
    pub consts: Vec<ConstDef>,
    pub strings: Vec<String>,
    /// What the function's attribute set holds: its control word.
    pub func_attrs: (AttrSet, AttrSetDef),
    /// The function type that the text names.
    pub func_type: Type,
}

impl Context {
    pub fn intern<T: InternInCx<I>, I>(&self, value: T) -> I {
        value.intern_in_cx(self)
    }
}

pub trait InternInCx<I> {
    fn intern_in_cx(self, cx: &Context) -> I;
}

/// Only the function type is interned while lifting. The text names its id, so that its
/// definition does not matter.
impl InternInCx<Type> for TypeDef {
    fn intern_in_cx(self, cx: &Context) -> Type {
        cx.func_type
    }
}

impl InternInCx<AttrSet> for AttrSetDef {
    fn intern_in_cx(self, _: &Context) -> AttrSet {
        unimplemented!("lifting makes no attribute set")
    }
}

/// Only the function's attribute set is looked into while lifting.
impl Index<AttrSet> for Context {
    type Output = AttrSetDef;
    fn index(&self, attrs: AttrSet) -> &AttrSetDef {
        assert!(attrs == self.func_attrs.0, "lifting reads the function's attributes only");
        &self.func_attrs.1
    }
}

impl Index<Type> for Context {
    type Output = TypeDef;
    fn index(&self, _: Type) -> &TypeDef {
        unimplemented!("lifting a function reads no type's definition")
    }
}

impl Index<Const> for Context {
    type Output = ConstDef;
    fn index(&self, ct: Const) -> &ConstDef {
        &self.consts[ct.0 as usize]
    }
}

impl Index<InternedStr> for Context {
    type Output = str;
    fn index(&self, s: InternedStr) -> &str {
        &self.strings[s.0 as usize]
    }
}

pub trait Entity: Copy + Eq {
    type Def;
    fn place(self) -> usize;
}

macro_rules! entities {
    ($($entity:ident => $def:ty),+ $(,)?) => {
        $(
            #[derive(Copy, Clone, PartialEq, Eq, Hash)]
            pub struct $entity(pub u32);

            impl Entity for $entity {
                type Def = $def;
                fn place(self) -> usize {
                    self.0 as usize
                }
            }

            impl EntityOrientedMapKey for $entity {}
        )+
    };
}

entities! {
    GlobalVar => GlobalVarDecl,
    Func => FuncDecl,
    Region => RegionDef,
    Node => EntityListNode<Node, NodeDef>,
    DataInst => EntityListNode<DataInst, DataInstDef>,
}

pub struct EntityDefs<E: Entity>(Vec<E::Def>);

impl<E: Entity> Default for EntityDefs<E> {
    fn default() -> Self {
        Self(Vec::new())
    }
}

impl<E: Entity<Def: Clone>> Clone for EntityDefs<E> {
    fn clone(&self) -> Self {
        Self(self.0.clone())
    }
}

impl<E: Entity> FromIterator<E::Def> for EntityDefs<E> {
    fn from_iter<I: IntoIterator<Item = E::Def>>(defs: I) -> Self {
        Self(Vec::from_iter(defs))
    }
}

impl<E: Entity> Index<E> for EntityDefs<E> {
    type Output = E::Def;
    fn index(&self, entity: E) -> &E::Def {
        &self.0[entity.place()]
    }
}

impl<E: Entity> IndexMut<E> for EntityDefs<E> {
    fn index_mut(&mut self, entity: E) -> &mut E::Def {
        &mut self.0[entity.place()]
    }
}

/// A definition with its neighbours in the one list that it may stand in.
#[derive(Clone)]
pub struct EntityListNode<E, D> {
    pub prev: Option<E>,
    pub next: Option<E>,
    pub listed: bool,
    pub def: D,
}

impl<E: Copy, D> EntityListNode<E, D> {
    pub fn new(def: D) -> Self {
        Self { prev: None, next: None, listed: false, def }
    }

    pub fn next_in_list(&self) -> Option<E> {
        self.next
    }
}

impl<E, D> Deref for EntityListNode<E, D> {
    type Target = D;
    fn deref(&self) -> &D {
        &self.def
    }
}

impl<E, D> DerefMut for EntityListNode<E, D> {
    fn deref_mut(&mut self) -> &mut D {
        &mut self.def
    }
}

/// The first and the last of a linked list, if it is not empty.
#[derive(Copy, Clone)]
pub struct EntityList<E>(pub Option<(E, E)>);

impl<E> Default for EntityList<E> {
    fn default() -> Self {
        Self(None)
    }
}

impl<E: Copy> EntityList<E> {
    pub fn iter(self) -> EntityListIter<E> {
        EntityListIter { first: self.0.map(|(first, _)| first), last: self.0.map(|(_, last)| last) }
    }
}

#[derive(Copy, Clone)]
pub struct EntityListIter<E> {
    pub first: Option<E>,
    pub last: Option<E>,
}

impl<D, E: Entity<Def = EntityListNode<E, D>>> EntityListIter<E> {
    const EMPTY: Self = Self { first: None, last: None };

    pub fn split_first(self, defs: &EntityDefs<E>) -> Option<(E, Self)> {
        let first = self.first?;
        let rest = if self.last == Some(first) {
            Self::EMPTY
        } else {
            Self { first: defs[first].next, ..self }
        };
        Some((first, rest))
    }

    pub fn split_last(self, defs: &EntityDefs<E>) -> Option<(E, Self)> {
        let last = self.last?;
        let rest = if self.first == Some(last) {
            Self::EMPTY
        } else {
            Self { last: defs[last].prev, ..self }
        };
        Some((last, rest))
    }
}

pub trait EntityOrientedMapKey: Entity {}

#[derive(Clone)]
pub struct EntityOrientedDenseMap<K, V> {
    values: Vec<Option<V>>,
    key: std::marker::PhantomData<K>,
}

impl<K, V> Default for EntityOrientedDenseMap<K, V> {
    fn default() -> Self {
        Self { values: Vec::new(), key: std::marker::PhantomData }
    }
}

impl<K: EntityOrientedMapKey, V> EntityOrientedDenseMap<K, V> {
    pub fn new() -> Self {
        Self::default()
    }

    pub fn get(&self, key: K) -> Option<&V> {
        self.values.get(key.place())?.as_ref()
    }

    pub fn get_mut(&mut self, key: K) -> Option<&mut V> {
        self.values.get_mut(key.place())?.as_mut()
    }

    pub fn insert(&mut self, key: K, value: V) -> Option<V> {
        let place = key.place();
        if self.values.len() <= place {
            self.values.resize_with(place + 1, || None);
        }
        self.values[place].replace(value)
    }
}
