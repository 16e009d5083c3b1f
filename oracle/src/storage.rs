//! Stand-in for the original's storage: one ordered map, and a journal of what was written to it.

use std::cell::RefCell;
use std::collections::BTreeMap;
use std::rc::Rc;

pub mod mvcc;

pub type Bytes = Vec<u8>;

pub trait Engine: Clone + 'static {
    fn get(&self, key: &[u8]) -> Option<Bytes>;
    fn set(&self, key: &[u8], value: Bytes);
    fn delete(&self, key: &[u8]);
    fn scan_prefix(&self, prefix: &[u8]) -> Vec<(Bytes, Bytes)>;
}

/// The map. Clones share it, as transactions share a database.
#[derive(Clone, Default)]
pub struct Memory {
    inner: Rc<RefCell<Inner>>,
}

#[derive(Default)]
struct Inner {
    map: BTreeMap<Bytes, Bytes>,
    journal: Vec<Write>,
}

/// One call of `set` (a new value) or of `delete` (none).
#[derive(Clone, Debug, PartialEq)]
pub struct Write {
    pub key: Bytes,
    pub old: Option<Bytes>,
    pub new: Option<Bytes>,
}

impl Memory {
    /// A place in the journal: its end as it is now.
    pub fn mark(&self) -> usize {
        self.inner.borrow().journal.len()
    }

    /// The writes since a place in the journal.
    pub fn writes_since(&self, mark: usize) -> Vec<Write> {
        self.inner.borrow().journal[mark..].to_vec()
    }

    /// Makes as if the writes since a place in the journal had not been.
    pub fn take_back_to(&self, mark: usize) {
        let inner = &mut *self.inner.borrow_mut();
        for write in inner.journal.split_off(mark).into_iter().rev() {
            inner.put(&write.key, write.old);
        }
    }

    /// Empties the journal: what was written stays.
    pub fn keep(&self) {
        self.inner.borrow_mut().journal.clear();
    }

    pub fn contains(&self, key: &[u8]) -> bool {
        self.inner.borrow().map.contains_key(key)
    }

    /// All pairs, by key.
    pub fn pairs(&self) -> Vec<(Bytes, Bytes)> {
        self.scan_prefix(&[])
    }
}

impl Inner {
    fn put(&mut self, key: &[u8], value: Option<Bytes>) -> Option<Bytes> {
        match value {
            Some(value) => self.map.insert(key.to_vec(), value),
            None => self.map.remove(key),
        }
    }

    fn write(&mut self, key: &[u8], new: Option<Bytes>) {
        let old = self.put(key, new.clone());
        self.journal.push(Write { key: key.to_vec(), old, new });
    }
}

impl Engine for Memory {
    fn get(&self, key: &[u8]) -> Option<Bytes> {
        self.inner.borrow().map.get(key).cloned()
    }

    fn set(&self, key: &[u8], value: Bytes) {
        self.inner.borrow_mut().write(key, Some(value));
    }

    fn delete(&self, key: &[u8]) {
        self.inner.borrow_mut().write(key, None);
    }

    fn scan_prefix(&self, prefix: &[u8]) -> Vec<(Bytes, Bytes)> {
        let inner = self.inner.borrow();
        let from_prefix = inner.map.range(prefix.to_vec()..);
        let pairs = from_prefix.take_while(|(key, _)| key.starts_with(prefix));
        pairs.map(|(key, value)| (key.clone(), value.clone())).collect()
    }
}
