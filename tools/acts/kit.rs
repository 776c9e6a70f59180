//! What stands for the kit's memory, `Vec`, `VecDeque`, `Slab`, `SmallVec`, `IndexMap`, `HashMap` and texts in crates that were
//! translated to plain Rust, as far as they use these.

use std::cell::Cell;
use std::collections;
use std::fmt::Display;
use std::hash::{BuildHasher, Hash};
use std::ops::{Deref, DerefMut, Index};

#[derive(Clone, Copy, Debug, PartialEq, Eq)]
pub struct Global;

#[derive(Clone, Copy, Debug, PartialEq, Eq)]
pub struct AllocError;

thread_local! {
    static LEFT: Cell<u64> = const { Cell::new(u64::MAX) };
    static REFUSED: Cell<bool> = const { Cell::new(false) };
}

/// Memory is found so many times from here on, and then no more.
pub fn allow(times: u64) {
    LEFT.set(times);
    REFUSED.set(false);
}

/// Whether memory was asked for since, and not found.
pub fn was_refused() -> bool {
    REFUSED.get()
}

fn take_memory() -> Result<(), AllocError> {
    let Some(left) = LEFT.get().checked_sub(1) else {
        REFUSED.set(true);
        return Err(AllocError);
    };
    LEFT.set(left);
    Ok(())
}

/// So many of one value.
pub fn filled<T: Clone>(alloc: Global, value: T, count: usize) -> Result<Vec<T>, AllocError> {
    let mut all = Vec::with_capacity(alloc, count)?;
    all.resize(count, value)?;
    Ok(all)
}

/// A value in a box.
pub fn boxed<T>(_: Global, value: T) -> Result<Box<T>, AllocError> {
    take_memory()?;
    Ok(Box::new(value))
}

/// The values of an iterator, in order.
pub trait CollectIn: Iterator + Sized {
    fn collect_in(self, alloc: Global) -> Result<Vec<Self::Item>, AllocError> {
        let mut all = Vec::new(alloc);
        for value in self {
            all.push(value)?;
        }
        Ok(all)
    }
}

impl<I: Iterator> CollectIn for I {}

/// The same values again.
pub trait ToVecIn<T> {
    fn to_vec_in(&self, alloc: Global) -> Result<Vec<T>, AllocError>;
}

impl<T: Clone> ToVecIn<T> for [T] {
    fn to_vec_in(&self, alloc: Global) -> Result<Vec<T>, AllocError> {
        Vec::from_slice(alloc, self)
    }
}

/// A text that was put together.
pub struct Said(String);

impl Said {
    pub fn new(text: String) -> Result<Said, AllocError> {
        take_memory()?;
        Ok(Said(text))
    }

    pub fn as_bytes(&self) -> &[u8] {
        self.0.as_bytes()
    }

    pub fn into_bytes(self) -> Vec<u8> {
        Vec(self.0.into_bytes())
    }
}

#[macro_export]
macro_rules! said {
    ($($part:tt)*) => { $crate::Said::new(format!($($part)*)) };
}

/// What has digits.
pub use std::fmt::Display as Integer;

/// A number in digits.
#[derive(Default)]
pub struct Buffer(String);

impl Buffer {
    pub fn new() -> Buffer {
        Buffer::default()
    }

    pub fn format<T: Display>(&mut self, number: T) -> &str {
        self.0 = number.to_string();
        &self.0
    }
}

#[derive(Debug, PartialEq, Eq, Hash)]
pub struct Vec<T>(std::vec::Vec<T>);

impl<T> Vec<T> {
    pub fn from_slice(alloc: Global, values: &[T]) -> Result<Vec<T>, AllocError>
    where
        T: Clone,
    {
        let mut all = Vec::new(alloc);
        all.extend_from_slice(values)?;
        Ok(all)
    }


    pub fn new(_: Global) -> Vec<T> {
        Vec(std::vec::Vec::new())
    }

    pub fn with_capacity(alloc: Global, count: usize) -> Result<Vec<T>, AllocError> {
        let mut all = Vec::new(alloc);
        all.reserve(count)?;
        Ok(all)
    }

    pub fn reserve(&mut self, more: usize) -> Result<(), AllocError> {
        if self.0.capacity() - self.0.len() < more {
            take_memory()?;
            self.0.reserve(more);
        }
        Ok(())
    }

    pub fn capacity(&self) -> usize {
        self.0.capacity()
    }

    pub fn allocator(&self) -> &Global {
        &Global
    }

    pub fn push(&mut self, value: T) -> Result<(), AllocError> {
        self.reserve(1)?;
        self.0.push(value);
        Ok(())
    }

    pub fn push_reserved(&mut self, value: T) {
        assert!(self.0.len() < self.0.capacity(), "no room was made");
        self.0.push(value);
    }

    pub fn extend_from_slice(&mut self, values: &[T]) -> Result<(), AllocError>
    where
        T: Clone,
    {
        self.reserve(values.len())?;
        self.0.extend_from_slice(values);
        Ok(())
    }

    pub fn resize(&mut self, count: usize, value: T) -> Result<(), AllocError>
    where
        T: Clone,
    {
        self.reserve(count.saturating_sub(self.0.len()))?;
        self.0.resize(count, value);
        Ok(())
    }

    pub fn pop(&mut self) -> Option<T> {
        self.0.pop()
    }

    pub fn swap_remove(&mut self, place: usize) -> T {
        self.0.swap_remove(place)
    }

    pub fn truncate(&mut self, count: usize) {
        self.0.truncate(count);
    }

    pub fn clear(&mut self) {
        self.0.clear();
    }

    pub fn retain(&mut self, keeps: impl FnMut(&T) -> bool) {
        self.0.retain(keeps);
    }

    pub fn as_slice(&self) -> &[T] {
        &self.0
    }

    pub fn as_mut_slice(&mut self) -> &mut [T] {
        &mut self.0
    }
}

impl<T> Deref for Vec<T> {
    type Target = [T];

    fn deref(&self) -> &[T] {
        &self.0
    }
}

impl<T> DerefMut for Vec<T> {
    fn deref_mut(&mut self) -> &mut [T] {
        &mut self.0
    }
}

impl<'a, T> IntoIterator for &'a Vec<T> {
    type Item = &'a T;
    type IntoIter = std::slice::Iter<'a, T>;

    fn into_iter(self) -> std::slice::Iter<'a, T> {
        self.0.iter()
    }
}

impl<T> IntoIterator for Vec<T> {
    type Item = T;
    type IntoIter = std::vec::IntoIter<T>;

    fn into_iter(self) -> std::vec::IntoIter<T> {
        self.0.into_iter()
    }
}

/// Values of which the first is taken off first.
pub struct VecDeque<T>(collections::VecDeque<T>);

impl<T> VecDeque<T> {
    pub fn with_capacity(_: Global, count: usize) -> Result<VecDeque<T>, AllocError> {
        let mut all = VecDeque(collections::VecDeque::new());
        all.reserve(count)?;
        Ok(all)
    }

    pub fn reserve(&mut self, more: usize) -> Result<(), AllocError> {
        if self.0.capacity() - self.0.len() < more {
            take_memory()?;
            self.0.reserve(more);
        }
        Ok(())
    }

    pub fn push_back_reserved(&mut self, value: T) {
        assert!(self.0.len() < self.0.capacity(), "no room was made");
        self.0.push_back(value);
    }

    pub fn pop_front(&mut self) -> Option<T> {
        self.0.pop_front()
    }

    pub fn is_empty(&self) -> bool {
        self.0.is_empty()
    }
}

/// Values by keys of bytes, in the order in which these came; the last key takes the place of one that is taken off.
pub struct IndexMap<K, V> {
    entries: std::vec::Vec<(K, V)>,
    places: collections::HashMap<std::vec::Vec<u8>, usize>,
}

impl<V> IndexMap<Vec<u8>, V> {
    pub fn new(_: Global) -> IndexMap<Vec<u8>, V> {
        IndexMap { entries: std::vec::Vec::new(), places: collections::HashMap::new() }
    }

    pub fn len(&self) -> usize {
        self.entries.len()
    }

    pub fn get_index_of(&self, key: &[u8]) -> Option<usize> {
        self.places.get(key).copied()
    }

    pub fn get_index(&self, place: usize) -> Option<(&Vec<u8>, &V)> {
        self.entries.get(place).map(|entry| (&entry.0, &entry.1))
    }

    pub fn insert(&mut self, key: Vec<u8>, value: V) -> Result<Option<V>, AllocError> {
        if let Some(place) = self.get_index_of(&key) {
            return Ok(Some(std::mem::replace(&mut self.entries[place].1, value)));
        }
        take_memory()?;
        self.places.insert(key.0.clone(), self.entries.len());
        self.entries.push((key, value));
        Ok(None)
    }

    pub fn swap_remove(&mut self, key: &[u8]) -> Option<V> {
        let place = self.places.remove(key)?;
        let (_, value) = self.entries.swap_remove(place);
        if let Some((moved, _)) = self.entries.get(place) {
            self.places.insert(moved.0.clone(), place);
        }
        Some(value)
    }

    pub fn pop(&mut self) -> Option<(Vec<u8>, V)> {
        let (key, value) = self.entries.pop()?;
        self.places.remove(&key.0);
        Some((key, value))
    }
}

impl<V> Index<usize> for IndexMap<Vec<u8>, V> {
    type Output = V;

    fn index(&self, place: usize) -> &V {
        &self.entries[place].1
    }
}

/// Values by key, in no order.
pub struct HashMap<K, V, S>(collections::HashMap<K, V, S>);

impl<K: Eq + Hash, V, S: BuildHasher> HashMap<K, V, S> {
    pub fn with_hasher(_: Global, hasher: S) -> HashMap<K, V, S> {
        HashMap(collections::HashMap::with_hasher(hasher))
    }

    pub fn reserve(&mut self, more: usize) -> Result<(), AllocError> {
        if more > self.0.capacity() - self.0.len() {
            take_memory()?;
        }
        self.0.reserve(more);
        Ok(())
    }

    pub fn get(&self, key: &K) -> Option<&V> {
        self.0.get(key)
    }

    pub fn insert(&mut self, key: K, value: V) -> Result<Option<V>, AllocError> {
        if !self.0.contains_key(&key) {
            self.reserve(1)?;
        }
        Ok(self.0.insert(key, value))
    }

    pub fn remove(&mut self, key: &K) -> Option<V> {
        self.0.remove(key)
    }
}

/// Keys of bytes, in order as in a map of them.
pub struct IndexSet<K>(IndexMap<K, ()>);

impl IndexSet<Vec<u8>> {
    pub fn new(alloc: Global) -> IndexSet<Vec<u8>> {
        IndexSet(IndexMap::new(alloc))
    }

    pub fn len(&self) -> usize {
        self.0.len()
    }

    pub fn get_index_of(&self, key: &[u8]) -> Option<usize> {
        self.0.get_index_of(key)
    }

    pub fn contains(&self, key: &[u8]) -> bool {
        self.get_index_of(key).is_some()
    }

    pub fn get_index(&self, place: usize) -> Option<&Vec<u8>> {
        self.0.get_index(place).map(|entry| entry.0)
    }

    pub fn insert(&mut self, key: Vec<u8>) -> Result<bool, AllocError> {
        Ok(self.0.insert(key, ())?.is_none())
    }

    pub fn swap_remove(&mut self, key: &[u8]) -> bool {
        self.0.swap_remove(key).is_some()
    }
}

/// Values at places. A place that was left is the next to be taken.
pub struct Slab<T> {
    places: std::vec::Vec<Option<T>>,
    left: std::vec::Vec<usize>,
    room: usize,
}

impl<T> Slab<T> {
    pub fn new(_: Global) -> Slab<T> {
        Slab { places: std::vec::Vec::new(), left: std::vec::Vec::new(), room: 0 }
    }

    pub fn with_capacity(alloc: Global, count: usize) -> Result<Slab<T>, AllocError> {
        let mut slab = Slab::new(alloc);
        slab.reserve(count)?;
        Ok(slab)
    }

    pub fn reserve(&mut self, more: usize) -> Result<(), AllocError> {
        if self.room - self.len() < more {
            take_memory()?;
            self.room = (self.len() + more).max(2 * self.room);
            self.places.reserve_exact(self.room - self.places.len());
        }
        Ok(())
    }

    pub fn len(&self) -> usize {
        self.places.len() - self.left.len()
    }

    pub fn capacity(&self) -> usize {
        self.room
    }

    pub fn contains(&self, place: usize) -> bool {
        self.get(place).is_some()
    }

    pub fn vacant_key(&self) -> usize {
        self.left.last().copied().unwrap_or(self.places.len())
    }

    pub fn get(&self, place: usize) -> Option<&T> {
        self.places.get(place)?.as_ref()
    }

    pub fn get_mut(&mut self, place: usize) -> Option<&mut T> {
        self.places.get_mut(place)?.as_mut()
    }

    pub fn insert(&mut self, value: T) -> Result<usize, AllocError> {
        self.reserve(1)?;
        Ok(self.insert_reserved(value))
    }

    pub fn insert_reserved(&mut self, value: T) -> usize {
        assert!(self.len() < self.room, "no room was made");
        let Some(place) = self.left.pop() else {
            self.places.push(Some(value));
            return self.places.len() - 1;
        };
        self.places[place] = Some(value);
        place
    }

    pub fn try_remove(&mut self, place: usize) -> Option<T> {
        let value = self.places.get_mut(place)?.take()?;
        self.left.push(place);
        Some(value)
    }

    pub fn remove(&mut self, place: usize) -> T {
        self.try_remove(place).expect("a value stands there")
    }
}

/// Values of which the first N take no memory.
#[derive(Debug)]
pub struct SmallVec<T, const N: usize> {
    values: std::vec::Vec<T>,
    room: usize,
}

impl<T, const N: usize> SmallVec<T, N> {
    pub fn new(_: Global) -> SmallVec<T, N> {
        SmallVec { values: std::vec::Vec::new(), room: N }
    }

    pub fn from_slice(alloc: Global, values: &[T]) -> Result<SmallVec<T, N>, AllocError>
    where
        T: Clone,
    {
        let mut all = SmallVec::new(alloc);
        all.reserve_exact(values.len())?;
        all.values.extend_from_slice(values);
        Ok(all)
    }

    pub fn reserve(&mut self, more: usize) -> Result<(), AllocError> {
        let room = self.values.len() + more;
        if room > self.room {
            take_memory()?;
            self.room = room.next_power_of_two();
        }
        Ok(())
    }

    pub fn reserve_exact(&mut self, more: usize) -> Result<(), AllocError> {
        let room = self.values.len() + more;
        if room > self.room {
            take_memory()?;
            self.room = room;
        }
        Ok(())
    }

    pub fn capacity(&self) -> usize {
        self.room
    }

    pub fn allocator(&self) -> &Global {
        &Global
    }

    pub fn truncate(&mut self, count: usize) {
        self.values.truncate(count);
    }

    pub fn clear(&mut self) {
        self.values.clear();
    }

    /// Moves all values of another behind these.
    pub fn append(&mut self, other: &mut SmallVec<T, N>) -> Result<(), AllocError> {
        self.reserve(other.values.len())?;
        self.values.append(&mut other.values);
        Ok(())
    }

    pub fn push(&mut self, value: T) -> Result<(), AllocError> {
        if self.values.len() == self.room {
            take_memory()?;
            self.room *= 2;
        }
        self.values.push(value);
        Ok(())
    }

    pub fn push_reserved(&mut self, value: T) {
        assert!(self.values.len() < self.room, "no room was made");
        self.values.push(value);
    }

    pub fn pop(&mut self) -> Option<T> {
        self.values.pop()
    }

    pub fn swap_remove(&mut self, place: usize) -> T {
        self.values.swap_remove(place)
    }

    pub fn as_slice(&self) -> &[T] {
        &self.values
    }

    pub fn as_mut_slice(&mut self) -> &mut [T] {
        &mut self.values
    }
}

impl<T, const N: usize> Deref for SmallVec<T, N> {
    type Target = [T];

    fn deref(&self) -> &[T] {
        &self.values
    }
}

impl<T, const N: usize> DerefMut for SmallVec<T, N> {
    fn deref_mut(&mut self) -> &mut [T] {
        &mut self.values
    }
}
