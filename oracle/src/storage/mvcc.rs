//! Stand-in for the original's transactions: every write goes straight to the map and stays, so
//! each request is committed, a refused one too. There are no versions.

use std::vec;

use super::{Bytes, Engine};
use crate::error::{Error, Result};

pub type Version = u64;

#[derive(Clone, Debug)]
pub struct TransactionState;

#[allow(clippy::upper_case_acronyms)] // the original's name
pub struct MVCC<E: Engine> {
    engine: E,
}

impl<E: Engine> MVCC<E> {
    pub fn new(engine: E) -> Self {
        Self { engine }
    }

    pub fn begin(&self) -> Result<Transaction<E>> {
        Ok(Transaction { engine: self.engine.clone(), state: TransactionState })
    }

    pub fn begin_read_only(&self) -> Result<Transaction<E>> {
        self.begin()
    }

    pub fn begin_as_of(&self, _version: Version) -> Result<Transaction<E>> {
        Err(Error::NotHere("versions".into()))
    }

    pub fn resume(&self, _state: TransactionState) -> Result<Transaction<E>> {
        self.begin()
    }

    pub fn get_unversioned(&self, _key: &[u8]) -> Result<Option<Bytes>> {
        Err(Error::NotHere("unversioned keys".into()))
    }

    pub fn set_unversioned(&self, _key: &[u8], _value: Bytes) -> Result<()> {
        Err(Error::NotHere("unversioned keys".into()))
    }
}

pub struct Transaction<E: Engine> {
    engine: E,
    state: TransactionState,
}

impl<E: Engine> Transaction<E> {
    pub fn state(&self) -> &TransactionState {
        &self.state
    }

    pub fn commit(self) -> Result<()> {
        Ok(())
    }

    pub fn rollback(self) -> Result<()> {
        Err(Error::NotHere("rollback".into()))
    }

    pub fn get(&self, key: &[u8]) -> Result<Option<Bytes>> {
        Ok(self.engine.get(key))
    }

    pub fn set(&self, key: &[u8], value: Bytes) -> Result<()> {
        self.engine.set(key, value);
        Ok(())
    }

    pub fn delete(&self, key: &[u8]) -> Result<()> {
        self.engine.delete(key);
        Ok(())
    }

    /// The pairs as they are now, by key; later writes don't show in it.
    pub fn scan_prefix(&self, prefix: &[u8]) -> vec::IntoIter<Result<(Bytes, Bytes)>> {
        let pairs: Vec<_> = self.engine.scan_prefix(prefix).into_iter().map(Ok).collect();
        pairs.into_iter()
    }
}
