//! Storage: typed values behind keys, and what to put back if the call is refused.

use std::any::Any;
use std::cell::RefCell;
use std::collections::HashMap;
use std::hash::{BuildHasherDefault, Hash, Hasher};

use crate::env::{refuse, By};
use crate::{Address, Env, Map, String, Symbol, Vec};

/// Whose rows a key names. The token's and the registry's rows stand in the same store, so that a
/// refused call puts all of them back together.
#[derive(Clone, Copy, PartialEq, Eq)]
pub enum Space {
    Instance,
    Persistent,
    Token,
    Registry,
}

#[derive(Clone, Copy, PartialEq, Eq)]
pub struct Key {
    space: Space,
    name: u128,
    of: u128,
}

/// The forms of key that the text uses.
pub trait KeyParts {
    fn parts(&self) -> (u128, u128);
}

impl KeyParts for Symbol {
    fn parts(&self) -> (u128, u128) {
        (self.packed(), 0)
    }
}

impl KeyParts for (Symbol, Symbol) {
    fn parts(&self) -> (u128, u128) {
        (self.0.packed(), self.1.packed())
    }
}

impl KeyParts for (Symbol, Address) {
    fn parts(&self) -> (u128, u128) {
        (self.0.packed(), self.1.packed())
    }
}

/// A value that may be stored. The port holds every stored number to a range and every table to a
/// number of rows, so a value says here which of document 01's refusals its storing would be.
pub trait Stored: Clone + 'static {
    /// How many rows a table of these may hold.
    const ROWS: u32 = u32::MAX;

    fn refusal(&self) -> Option<u32> {
        None
    }
}

impl Stored for bool {}
impl Stored for u32 {}
impl Stored for u64 {}
impl Stored for Address {}
impl Stored for String {}

const NO_ROOM: u32 = 12;

impl<V: Stored> Stored for Map<Symbol, V> {
    fn refusal(&self) -> Option<u32> {
        (self.len() > V::ROWS).then_some(NO_ROOM)
    }
}

impl<V: Stored> Stored for Vec<V> {}

impl Hash for Key {
    fn hash<H: Hasher>(&self, hasher: &mut H) {
        hasher.write_u64(self.space as u64);
        for part in [self.name, self.of] {
            hasher.write_u64(part as u64);
            hasher.write_u64((part >> 64) as u64);
        }
    }
}

#[derive(Default)]
struct Mixer(u64);

impl Hasher for Mixer {
    fn write(&mut self, _bytes: &[u8]) {
        unreachable!("keys are hashed as numbers");
    }

    fn write_u64(&mut self, number: u64) {
        self.0 = (self.0.rotate_left(26) ^ number).wrapping_mul(0x9E37_79B9_7F4A_7C15);
    }

    fn finish(&self) -> u64 {
        self.0 ^ (self.0 >> 32)
    }
}

type Value = Box<dyn Any>;

#[derive(Default)]
pub(crate) struct Store {
    values: HashMap<Key, Value, BuildHasherDefault<Mixer>>,
    // What stood behind each key that the present call wrote, oldest first.
    before: std::vec::Vec<(Key, Option<Value>)>,
}

impl Store {
    pub(crate) fn keep(&mut self) {
        self.before.clear();
    }

    pub(crate) fn put_back(&mut self) {
        while let Some((key, value)) = self.before.pop() {
            match value {
                Some(value) => self.values.insert(key, value),
                None => self.values.remove(&key),
            };
        }
    }
}

pub struct Storage<'a> {
    pub(crate) env: &'a Env,
}

impl<'a> Storage<'a> {
    pub fn instance(&self) -> Shelf<'a> {
        self.shelf(Space::Instance)
    }

    pub fn persistent(&self) -> Shelf<'a> {
        self.shelf(Space::Persistent)
    }

    pub fn shelf(&self, space: Space) -> Shelf<'a> {
        Shelf { env: self.env, space }
    }
}

pub struct Shelf<'a> {
    env: &'a Env,
    space: Space,
}

impl Shelf<'_> {
    fn key<K: KeyParts>(&self, key: &K) -> Key {
        let (name, of) = key.parts();
        Key { space: self.space, name, of }
    }

    fn store(&self) -> &RefCell<Store> {
        self.env.store()
    }

    pub fn get<K: KeyParts, V: Stored>(&self, key: &K) -> Option<V> {
        let store = self.store().borrow();
        let value = store.values.get(&self.key(key))?;
        let typed = value.downcast_ref::<V>();
        Some(typed.expect("a value is read as the type that it was stored as").clone())
    }

    pub fn set<K: KeyParts, V: Stored>(&self, key: &K, value: &V) {
        if self.env.keeps_ranges() {
            if let Some(number) = value.refusal() {
                refuse(By::Port, number);
            }
        }
        let key = self.key(key);
        let mut store = self.store().borrow_mut();
        let before = store.values.insert(key, Box::new(value.clone()));
        store.before.push((key, before));
    }

    pub fn remove<K: KeyParts>(&self, key: &K) {
        let key = self.key(key);
        let mut store = self.store().borrow_mut();
        let before = store.values.remove(&key);
        store.before.push((key, before));
    }
}
