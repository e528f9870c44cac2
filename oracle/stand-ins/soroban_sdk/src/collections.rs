//! Lists, and maps whose keys rise.

use crate::{Env, Stored, Val};
use std::collections::BTreeMap;
use std::marker::PhantomData;
use std::rc::Rc;

#[derive(Clone, Debug, PartialEq, Eq)]
pub struct Vec<T>(std::vec::Vec<T>);

impl<T: Clone> Vec<T> {
    pub fn new(_env: &Env) -> Self {
        Vec(std::vec::Vec::new())
    }

    pub fn push_back(&mut self, item: T) {
        self.0.push(item);
    }

    pub fn get(&self, index: u32) -> Option<T> {
        self.0.get(index as usize).cloned()
    }

    pub fn len(&self) -> u32 {
        self.0.len() as u32
    }

    pub fn is_empty(&self) -> bool {
        self.0.is_empty()
    }

    pub fn iter(&self) -> impl Iterator<Item = T> + '_ {
        self.0.iter().cloned()
    }
}

impl<T: Stored> Stored for Vec<T> {
    fn store(&self) -> Val {
        Val::Fields(self.0.iter().map(Stored::store).collect())
    }

    fn load(value: &Val) -> Self {
        Vec(value.fields().iter().map(Stored::load).collect())
    }
}

/// Entries are held as stored values, shared until one copy is written to.
#[derive(Clone, Debug)]
pub struct Map<K, V> {
    entries: Rc<BTreeMap<Val, Val>>,
    kinds: PhantomData<(K, V)>,
}

impl<K: Stored + Clone, V: Stored> Map<K, V> {
    pub fn new(_env: &Env) -> Self {
        Map { entries: Rc::default(), kinds: PhantomData }
    }

    pub fn get(&self, key: K) -> Option<V> {
        self.entries.get(&key.store()).map(V::load)
    }

    pub fn set(&mut self, key: K, value: V) {
        Rc::make_mut(&mut self.entries).insert(key.store(), value.store());
    }

    pub fn remove(&mut self, key: K) -> Option<()> {
        Rc::make_mut(&mut self.entries).remove(&key.store()).map(|_| ())
    }

    pub fn keys(&self) -> Vec<K> {
        Vec(self.entries.keys().map(K::load).collect())
    }

    pub fn iter(&self) -> impl Iterator<Item = (K, V)> + '_ {
        self.entries.iter().map(|(key, value)| (K::load(key), V::load(value)))
    }

    pub fn len(&self) -> u32 {
        self.entries.len() as u32
    }

    pub fn is_empty(&self) -> bool {
        self.entries.is_empty()
    }
}

impl<K, V> Stored for Map<K, V> {
    fn store(&self) -> Val {
        Val::Map(self.entries.clone())
    }

    fn load(value: &Val) -> Self {
        match value {
            Val::Map(entries) => Map { entries: entries.clone(), kinds: PhantomData },
            other => panic!("not a map: {other:?}"),
        }
    }
}
