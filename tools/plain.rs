//! What stands for the standard library of Rattle, and for the libraries of the kit that the crates
//! use, in the plain Rust that tools/plain makes. Allocation never fails, and an index into a `Vec`
//! is not tested, as where it is proved.

pub use std::{cmp, io, mem, process, str};

pub mod prelude {
    pub use crate::rt::HostRuntime;
    pub use crate::vec::Vec;

    /// The greatest whole number whose square is at most this one, which the library of Rattle
    /// finds by bisection, so that it takes long there too.
    pub trait Root {
        fn root(self) -> u64;
    }

    impl Root for u64 {
        fn root(self) -> u64 {
            let (mut low, mut high) = (0, 1 << 32);
            while low + 1 < high {
                let middle: u64 = (low + high) / 2;
                if middle * middle <= self {
                    low = middle;
                } else {
                    high = middle;
                }
            }
            low
        }
    }

    /// Every type may be let go.
    pub trait Drop {}
    impl<T: ?Sized> Drop for T {}
}

#[macro_export]
macro_rules! prove {
    ($($condition:tt)*) => {};
}

#[macro_export]
macro_rules! unreachable {
    () => {
        unsafe { ::std::hint::unreachable_unchecked() }
    };
}

pub mod alloc {
    use std::marker::PhantomData;

    #[derive(Clone, Copy, Debug)]
    pub struct Global;

    #[derive(Clone, Copy, Debug)]
    pub struct AllocError;

    #[derive(Clone, Copy, Debug)]
    pub struct AllocFailed<T>(PhantomData<T>);
}

pub mod marker {
    pub use std::marker::PhantomData;

    /// What contracts see of a value: nothing here.
    pub trait Model {}

    #[derive(Debug)]
    pub struct Brand;
}

pub mod sync {
    /// Ghost counters.
    pub mod ledger {
        use std::marker::PhantomData;

        pub trait Ledger {}
        impl Ledger for crate::marker::Brand {}

        pub struct Blank;
        pub struct Book<L>(PhantomData<L>);
        pub struct Share<L>(PhantomData<L>);

        impl Blank {
            pub fn new(_parts: u64) -> Self {
                Blank
            }

            pub fn open<L: Ledger>(self) -> (Book<L>, Share<L>) {
                (Book(PhantomData), Share(PhantomData))
            }
        }

        impl<L> Book<L> {
            pub fn add(&mut self, _share: &mut Share<L>, _count: u64) {}
        }
    }
}

pub mod rt {
    use crate::alloc::Global;
    use std::io;

    pub trait Files {}
    impl Files for HostRuntime {}

    #[derive(Debug)]
    pub struct HostRuntime;

    impl HostRuntime {
        pub fn alloc(&self) -> Global {
            Global
        }

        pub fn stdout(&self) -> io::Stdout {
            io::stdout()
        }

        pub fn stderr(&self) -> io::Stderr {
            io::stderr()
        }
    }
}

pub mod env {
    use crate::rt::HostRuntime;
    use std::{env, io};

    pub fn args(_rt: &HostRuntime) -> io::Result<env::Args> {
        Ok(env::args())
    }
}

pub mod fs {
    use crate::rt::Files;
    use std::{fs, io};

    pub fn open<R: Files>(_rt: &R, path: &str) -> io::Result<fs::File> {
        fs::File::open(path)
    }

    pub fn create<R: Files>(_rt: &R, path: &str) -> io::Result<fs::File> {
        fs::File::create(path)
    }
}

pub mod vec {
    use crate::alloc::{AllocError, AllocFailed, Global};
    use std::ops::{Deref, DerefMut, Index, IndexMut};
    use std::slice::{Iter, IterMut, SliceIndex};
    use std::vec::{IntoIter, Vec as Std};

    #[derive(Clone, Debug, PartialEq, Eq, PartialOrd, Ord)]
    pub struct Vec<T>(Std<T>);

    impl<T> Vec<T> {
        #[inline(always)]
        pub fn new(_alloc: Global) -> Self {
            Vec(Std::new())
        }

        pub fn with_capacity(_alloc: Global, count: usize) -> Result<Self, AllocError> {
            Ok(Vec(Std::with_capacity(count)))
        }

        pub fn from_slice(_alloc: Global, items: &[T]) -> Result<Self, AllocError>
        where
            T: Clone,
        {
            Ok(Vec(items.to_vec()))
        }

        pub fn filled(_alloc: Global, item: T, count: usize) -> Result<Self, AllocError>
        where
            T: Clone,
        {
            Ok(Vec(std::vec![item; count]))
        }

        #[inline(always)]
        pub fn push(&mut self, item: T) -> Result<(), AllocFailed<T>> {
            self.0.push(item);
            Ok(())
        }

        #[inline(always)]
        pub fn push_reserved(&mut self, item: T) {
            self.0.push(item);
        }

        #[inline(always)]
        pub fn pop(&mut self) -> Option<T> {
            self.0.pop()
        }

        #[inline(always)]
        pub fn swap_remove(&mut self, place: usize) -> T {
            self.0.swap_remove(place)
        }

        pub fn reserve(&mut self, count: usize) -> Result<(), AllocError> {
            self.0.reserve(count);
            Ok(())
        }

        #[inline(always)]
        pub fn truncate(&mut self, count: usize) {
            self.0.truncate(count);
        }

        #[inline(always)]
        pub fn clear(&mut self) {
            self.0.clear();
        }

        pub fn shrink_to(&mut self, count: usize) {
            self.0.shrink_to(count);
        }

        pub fn capacity(&self) -> usize {
            self.0.capacity()
        }

        #[inline(always)]
        pub fn as_slice(&self) -> &[T] {
            &self.0
        }

        #[inline(always)]
        pub fn as_mut_slice(&mut self) -> &mut [T] {
            &mut self.0
        }

        pub fn sort(&mut self) -> Result<(), AllocError>
        where
            T: Ord,
        {
            self.0.sort();
            Ok(())
        }

        pub fn dedup(&mut self)
        where
            T: PartialEq,
        {
            self.0.dedup();
        }

        pub fn resize(&mut self, count: usize, item: T) -> Result<(), AllocError>
        where
            T: Clone,
        {
            self.0.resize(count, item);
            Ok(())
        }

        pub fn append(&mut self, other: &mut Self) -> Result<(), AllocError> {
            self.0.append(&mut other.0);
            Ok(())
        }

        #[inline]
        pub fn extend_from_slice(&mut self, items: &[T]) -> Result<(), AllocError>
        where
            T: Clone,
        {
            self.0.extend_from_slice(items);
            Ok(())
        }
    }

    impl<T> Deref for Vec<T> {
        type Target = [T];

        #[inline(always)]
        fn deref(&self) -> &[T] {
            &self.0
        }
    }

    impl<T> DerefMut for Vec<T> {
        #[inline(always)]
        fn deref_mut(&mut self) -> &mut [T] {
            &mut self.0
        }
    }

    impl<T, I: SliceIndex<[T]>> Index<I> for Vec<T> {
        type Output = I::Output;

        #[inline(always)]
        fn index(&self, place: I) -> &I::Output {
            unsafe { self.0.get_unchecked(place) }
        }
    }

    impl<T, I: SliceIndex<[T]>> IndexMut<I> for Vec<T> {
        #[inline(always)]
        fn index_mut(&mut self, place: I) -> &mut I::Output {
            unsafe { self.0.get_unchecked_mut(place) }
        }
    }

    impl<T> IntoIterator for Vec<T> {
        type Item = T;
        type IntoIter = IntoIter<T>;

        fn into_iter(self) -> IntoIter<T> {
            self.0.into_iter()
        }
    }

    impl<'a, T> IntoIterator for &'a Vec<T> {
        type Item = &'a T;
        type IntoIter = Iter<'a, T>;

        fn into_iter(self) -> Iter<'a, T> {
            self.0.iter()
        }
    }

    impl<'a, T> IntoIterator for &'a mut Vec<T> {
        type Item = &'a mut T;
        type IntoIter = IterMut<'a, T>;

        fn into_iter(self) -> IterMut<'a, T> {
            self.0.iter_mut()
        }
    }
}

pub mod hash {
    pub use std::hash::{Hash, Hasher};

    const MULTIPLIER: u64 = 0x9e37_79b9_7f4a_7c15;

    /// The hasher of maps.
    pub(crate) struct FoldHasher(pub(crate) u64);

    fn folded(a: u64, b: u64) -> u64 {
        let product = u128::from(a) * u128::from(b);
        product as u64 ^ (product >> 64) as u64
    }

    fn short(bytes: &[u8]) -> u64 {
        let word = |at: usize| u32::from_le_bytes(bytes[at..at + 4].try_into().unwrap()) as u64;
        match bytes.len() {
            0 => 0,
            n @ 1..=3 => {
                bytes[0] as u64 | (bytes[n / 2] as u64) << 8 | (bytes[n - 1] as u64) << 16
            }
            n => word(0) | word(n - 4) << 32,
        }
    }

    impl Hasher for FoldHasher {
        fn finish(&self) -> u64 {
            self.0
        }

        #[inline]
        fn write(&mut self, bytes: &[u8]) {
            for part in bytes.chunks(8) {
                let factor = MULTIPLIER ^ (2 * part.len() as u64);
                self.0 = folded(self.0 ^ short(part), factor);
            }
        }
    }
}

pub mod collections {
    use crate::alloc::{AllocError, Global};

    pub use crate::indexmap::{IndexMap as HashMap, IndexSet as HashSet};

    #[derive(Debug)]
    pub struct VecDeque<T>(std::collections::VecDeque<T>);

    impl<T> VecDeque<T> {
        pub fn new(_alloc: Global) -> Self {
            VecDeque(std::collections::VecDeque::new())
        }

        pub fn push_front(&mut self, item: T) -> Result<(), AllocError> {
            self.0.push_front(item);
            Ok(())
        }
    }

    impl<'a, T> IntoIterator for &'a VecDeque<T> {
        type Item = &'a T;
        type IntoIter = std::collections::vec_deque::Iter<'a, T>;

        fn into_iter(self) -> Self::IntoIter {
            self.0.iter()
        }
    }
}

/// Maps and sets that keep the order in which their keys were first inserted.
pub mod indexmap {
    use crate::alloc::{AllocError, Global};
    use crate::hash::{FoldHasher, Hash, Hasher};

    /// The keys and their values in their order, and at each place of an open table the half hash
    /// of a key, and its place from 1, or 0 where there is none. At most half of the table is full.
    #[derive(Debug)]
    pub struct IndexMap<K, V> {
        keys: Vec<K>,
        values: Vec<V>,
        table: Vec<(u32, u32)>,
    }

    fn hash_of<K: Hash>(key: &K) -> u32 {
        let mut hasher = FoldHasher(0x243f_6a88_85a3_08d3);
        key.hash(&mut hasher);
        let hash = hasher.finish();
        (hash ^ (hash >> 32)) as u32
    }

    impl<K: Hash + Eq, V> IndexMap<K, V> {
        pub fn new(_alloc: Global) -> Self {
            IndexMap {
                keys: Vec::new(),
                values: Vec::new(),
                table: Vec::new(),
            }
        }

        pub fn with_capacity(alloc: Global, count: usize) -> Result<Self, AllocError> {
            let mut map = IndexMap::new(alloc);
            map.keys.reserve(count);
            map.values.reserve(count);
            map.enter_all((count * 2).next_power_of_two().max(16));
            Ok(map)
        }

        pub fn len(&self) -> usize {
            self.keys.len()
        }

        pub fn is_empty(&self) -> bool {
            self.keys.is_empty()
        }

        fn enter_all(&mut self, size: usize) {
            self.table = vec![(0, 0); size];
            for (place, key) in self.keys.iter().enumerate() {
                let hash = hash_of(key);
                let mut at = hash as usize & (size - 1);
                while self.table[at].1 != 0 {
                    at = (at + 1) & (size - 1);
                }
                self.table[at] = (hash, place as u32 + 1);
            }
        }

        /// The place in the table at which the key stands, or else is to be put, and its place
        /// among the keys.
        fn find(&self, hash: u32, key: &K) -> (usize, Option<usize>) {
            let mask = self.table.len() - 1;
            let mut at = hash as usize & mask;
            loop {
                let (kept, place) = self.table[at];
                if place == 0 {
                    return (at, None);
                }
                let place = place as usize - 1;
                if kept == hash && self.keys[place] == *key {
                    return (at, Some(place));
                }
                at = (at + 1) & mask;
            }
        }

        pub fn get_index_of(&self, key: &K) -> Option<usize> {
            if self.table.is_empty() {
                return None;
            }
            self.find(hash_of(key), key).1
        }

        pub fn get(&self, key: &K) -> Option<&V> {
            self.get_index_of(key).map(|place| &self.values[place])
        }

        pub fn insert(&mut self, key: K, value: V) -> Result<Option<V>, AllocError> {
            if 2 * self.keys.len() >= self.table.len() {
                self.enter_all((self.table.len() * 2).max(16));
            }
            let hash = hash_of(&key);
            let (at, found) = self.find(hash, &key);
            if let Some(place) = found {
                return Ok(Some(std::mem::replace(&mut self.values[place], value)));
            }
            self.keys.push(key);
            self.values.push(value);
            self.table[at] = (hash, self.keys.len() as u32);
            Ok(None)
        }
    }

    #[derive(Debug)]
    pub struct IndexSet<K>(IndexMap<K, ()>);

    impl<K: Hash + Eq> IndexSet<K> {
        pub fn new(alloc: Global) -> Self {
            IndexSet(IndexMap::new(alloc))
        }

        pub fn with_capacity(alloc: Global, count: usize) -> Result<Self, AllocError> {
            Ok(IndexSet(IndexMap::with_capacity(alloc, count)?))
        }

        pub fn len(&self) -> usize {
            self.0.len()
        }

        pub fn as_slice(&self) -> &[K] {
            &self.0.keys
        }

        pub fn contains(&self, key: &K) -> bool {
            self.0.get_index_of(key).is_some()
        }

        pub fn get_index_of(&self, key: &K) -> Option<usize> {
            self.0.get_index_of(key)
        }

        pub fn insert(&mut self, key: K) -> Result<bool, AllocError> {
            Ok(self.insert_full(key)?.1)
        }

        /// The place of the key, and whether it was not there.
        pub fn insert_full(&mut self, key: K) -> Result<(usize, bool), AllocError> {
            if let Some(place) = self.0.get_index_of(&key) {
                return Ok((place, false));
            }
            self.0.insert(key, ())?;
            Ok((self.0.len() - 1, true))
        }
    }
}

/// Decimal texts of numbers.
pub mod itoa {
    pub struct Buffer(String);

    impl Buffer {
        pub fn new() -> Self {
            Buffer(String::new())
        }

        pub fn format<N: std::fmt::Display>(&mut self, number: N) -> &str {
            self.0 = number.to_string();
            &self.0
        }
    }

    /// Writes the digits so that they end at `end`, and answers where they start.
    #[inline]
    pub fn write_digits(number: u64, buffer: &mut [u8], end: usize) -> usize {
        let (mut rest, mut at) = (number, end);
        loop {
            at -= 1;
            buffer[at] = b'0' + (rest % 10) as u8;
            rest /= 10;
            if rest == 0 {
                return at;
            }
        }
    }
}
