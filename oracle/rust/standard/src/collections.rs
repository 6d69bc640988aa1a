//! A table of hashed entries, chained by bucket, and the map and the set over it.
use alloc::vec::{self, Vec};
use core::borrow::Borrow;
use core::hash::{Hash, Hasher};
use core::iter::Flatten;
use core::ops::Index;
use core::slice;

struct Fnv(u64);

impl Hasher for Fnv {
    fn finish(&self) -> u64 {
        self.0 ^ self.0 >> 32
    }

    fn write(&mut self, bytes: &[u8]) {
        for byte in bytes {
            self.0 = (self.0 ^ *byte as u64).wrapping_mul(0x100_0000_01B3);
        }
    }
}

pub struct HashMap<K, V> {
    buckets: Vec<Vec<(K, V)>>,
    entries: usize,
}

impl<K: Hash + Eq, V> HashMap<K, V> {
    pub const fn new() -> HashMap<K, V> {
        HashMap { buckets: Vec::new(), entries: 0 }
    }

    fn bucket<Q: Hash + ?Sized>(&self, key: &Q) -> usize {
        let mut hasher = Fnv(0xCBF2_9CE4_8422_2325);
        key.hash(&mut hasher);
        hasher.finish() as usize % self.buckets.len()
    }

    fn entry<Q: Hash + Eq + ?Sized>(&self, key: &Q) -> Option<&(K, V)>
    where
        K: Borrow<Q>,
    {
        if self.buckets.is_empty() {
            return None;
        }
        self.buckets[self.bucket(key)].iter().find(|entry| entry.0.borrow() == key)
    }

    fn grow(&mut self) {
        let count = 2 * self.buckets.len() + 4;
        let old = core::mem::take(&mut self.buckets);
        self.buckets.resize_with(count, Vec::new);
        for entry in old.into_iter().flatten() {
            let at = self.bucket(&entry.0);
            self.buckets[at].push(entry);
        }
    }

    pub fn insert(&mut self, key: K, value: V) -> Option<V> {
        if self.entries >= self.buckets.len() {
            self.grow();
        }
        let at = self.bucket(&key);
        for entry in &mut self.buckets[at] {
            if entry.0 == key {
                return Some(core::mem::replace(&mut entry.1, value));
            }
        }
        self.buckets[at].push((key, value));
        self.entries += 1;
        None
    }
}

impl<K: Hash + Eq + Borrow<Q>, Q: Hash + Eq + ?Sized, V> Index<&Q> for HashMap<K, V> {
    type Output = V;

    fn index(&self, key: &Q) -> &V {
        &self.entry(key).expect("an entry with this key").1
    }
}

type Entries<'a, K, V> = Flatten<slice::Iter<'a, Vec<(K, V)>>>;

impl<'a, K, V> IntoIterator for &'a HashMap<K, V> {
    type Item = (&'a K, &'a V);
    type IntoIter = core::iter::Map<Entries<'a, K, V>, fn(&'a (K, V)) -> (&'a K, &'a V)>;

    fn into_iter(self) -> Self::IntoIter {
        self.buckets.iter().flatten().map(|entry| (&entry.0, &entry.1))
    }
}

pub struct HashSet<K> {
    map: HashMap<K, ()>,
}

impl<K: Hash + Eq> HashSet<K> {
    pub const fn new() -> HashSet<K> {
        HashSet { map: HashMap::new() }
    }

    pub fn insert(&mut self, key: K) -> bool {
        self.map.insert(key, ()).is_none()
    }

    pub fn get<Q: Hash + Eq + ?Sized>(&self, key: &Q) -> Option<&K>
    where
        K: Borrow<Q>,
    {
        self.map.entry(key).map(|entry| &entry.0)
    }

    pub fn drain(&mut self) -> core::iter::Map<Flatten<vec::IntoIter<Vec<(K, ())>>>, fn((K, ())) -> K> {
        self.map.entries = 0;
        core::mem::take(&mut self.map.buckets).into_iter().flatten().map(|entry| entry.0)
    }
}
