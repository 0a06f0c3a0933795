//! Stand-in for vec_map: a map from small numbers. Like the original it keeps a `Vec` of options; keys too
//! large for that go into a tree, so that a client number near the largest takes little memory.

use std::collections::BTreeMap;

const DENSE: usize = 4096;

pub struct VecMap<V> {
    dense: Vec<Option<V>>,
    sparse: BTreeMap<usize, V>,
}

impl<V> VecMap<V> {
    pub fn new() -> VecMap<V> {
        VecMap {
            dense: Vec::new(),
            sparse: BTreeMap::new(),
        }
    }
    pub fn get(&self, key: usize) -> Option<&V> {
        if key < DENSE {
            return self.dense.get(key)?.as_ref();
        }
        self.sparse.get(&key)
    }
    pub fn get_mut(&mut self, key: usize) -> Option<&mut V> {
        if key < DENSE {
            return self.dense.get_mut(key)?.as_mut();
        }
        self.sparse.get_mut(&key)
    }
    pub fn insert(&mut self, key: usize, value: V) -> Option<V> {
        if key >= DENSE {
            return self.sparse.insert(key, value);
        }
        while self.dense.len() <= key {
            self.dense.push(None);
        }
        self.dense[key].replace(value)
    }
    pub fn remove(&mut self, key: usize) -> Option<V> {
        if key < DENSE {
            return self.dense.get_mut(key)?.take();
        }
        self.sparse.remove(&key)
    }
}
