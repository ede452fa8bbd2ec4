//! Maps and vectors as handles: a clone shares the rows, a write copies them if they are shared.

use std::rc::Rc;

use crate::Env;

#[derive(Clone, Debug, PartialEq)]
pub struct Vec<T>(Rc<std::vec::Vec<T>>);

impl<T: Clone> Vec<T> {
    pub fn new(_env: &Env) -> Vec<T> {
        Vec(Rc::default())
    }

    pub fn from_rows(rows: std::vec::Vec<T>) -> Vec<T> {
        Vec(Rc::new(rows))
    }

    pub fn len(&self) -> u32 {
        self.0.len() as u32
    }

    pub fn is_empty(&self) -> bool {
        self.0.is_empty()
    }

    pub fn get(&self, index: u32) -> Option<T> {
        self.0.get(index as usize).cloned()
    }

    pub fn push_back(&mut self, value: T) {
        Rc::make_mut(&mut self.0).push(value);
    }

    pub fn contains(&self, value: &T) -> bool
    where
        T: PartialEq,
    {
        self.0.contains(value)
    }

    pub fn iter(&self) -> impl Iterator<Item = T> + '_ {
        self.0.iter().cloned()
    }
}

/// Rows in ascending order of their keys.
#[derive(Clone, Debug, PartialEq)]
pub struct Map<K, V>(Rc<std::vec::Vec<(K, V)>>);

impl<K: Ord + Clone, V: Clone> Map<K, V> {
    pub fn new(_env: &Env) -> Map<K, V> {
        Map(Rc::default())
    }

    pub fn len(&self) -> u32 {
        self.0.len() as u32
    }

    pub fn is_empty(&self) -> bool {
        self.0.is_empty()
    }

    fn place(&self, key: &K) -> Result<usize, usize> {
        self.0.binary_search_by(|(present, _)| present.cmp(key))
    }

    pub fn contains_key(&self, key: K) -> bool {
        self.place(&key).is_ok()
    }

    pub fn get(&self, key: K) -> Option<V> {
        self.place(&key).ok().map(|index| self.0[index].1.clone())
    }

    pub fn set(&mut self, key: K, value: V) {
        let place = self.place(&key);
        let rows = Rc::make_mut(&mut self.0);
        match place {
            Ok(index) => rows[index].1 = value,
            Err(index) => rows.insert(index, (key, value)),
        }
    }

    pub fn iter(&self) -> impl Iterator<Item = (K, V)> + '_ {
        self.0.iter().cloned()
    }
}

#[cfg(test)]
mod test {
    use super::*;

    #[test]
    fn a_written_clone_leaves_the_first() {
        let env = Env::fresh();
        let mut first: Map<u64, u64> = Map::new(&env);
        first.set(5, 50);
        first.set(3, 30);
        let mut second = first.clone();
        second.set(3, 31);
        second.set(4, 40);
        assert_eq!(first.iter().collect::<std::vec::Vec<_>>(), [(3, 30), (5, 50)]);
        assert_eq!(second.iter().collect::<std::vec::Vec<_>>(), [(3, 31), (4, 40), (5, 50)]);
        assert_eq!((second.get(4), second.get(6), second.len()), (Some(40), None, 3));
    }
}
