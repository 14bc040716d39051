//! The units in memory: those that were used last, of all films of the process, within a limit.

use std::collections::HashMap;
use std::sync::{Arc, Condvar, Mutex, MutexGuard, PoisonError, RwLock};

use crate::unit::Unit;

/// The usual limit in bytes.
pub const LIMIT: u64 = 32 << 20;
/// So many of the largest units are kept whatever the limit is: one is played, the next is loaded.
const LEAST: u64 = 2;
/// No more units are kept, however small they are: each has some memory beside its cells.
const MOST: usize = 1024;

/// A unit of a film.
#[derive(Clone, Copy, Debug, PartialEq, Eq, Hash)]
pub struct Key {
    pub film: u64,
    pub unit: u64,
}

struct Slot {
    unit: Arc<RwLock<Unit>>,
    bytes: u64,
    used: u64,
    leases: u32,
}

#[derive(Default)]
struct CacheState {
    slots: HashMap<Key, Slot>,
    bytes: u64,
    largest: u64,
    clock: u64,
    waiting: u32,
}

pub struct Cache {
    limit: u64,
    state: Mutex<CacheState>,
    freed: Condvar,
}

/// A unit that is in use and stays in memory meanwhile.
pub struct Lease<'a> {
    cache: &'a Cache,
    key: Key,
    pub unit: Arc<RwLock<Unit>>,
}

impl Cache {
    pub fn new(limit: u64) -> Cache {
        Cache { limit, state: Mutex::default(), freed: Condvar::new() }
    }

    /// The bytes that are kept at most, but for two units of the largest that are larger.
    pub fn limit(&self) -> u64 {
        self.limit
    }

    fn lock(&self) -> MutexGuard<'_, CacheState> {
        self.state.lock().unwrap_or_else(PoisonError::into_inner)
    }

    /// A unit of so many bytes, in memory or to be loaded; waits while all memory is in use.
    pub fn lease(&self, key: Key, bytes: u64) -> Lease<'_> {
        let mut state = self.lock();
        state.largest = state.largest.max(bytes);
        let mut spare = None;
        loop {
            state.clock += 1;
            let clock = state.clock;
            if let Some(slot) = state.slots.get_mut(&key) {
                (slot.used, slot.leases) = (clock, slot.leases + 1);
                return Lease { cache: self, key, unit: slot.unit.clone() };
            }
            if state.has_room(self.limit, bytes) {
                let unit: Arc<RwLock<Unit>> = spare.unwrap_or_default();
                state.bytes += bytes;
                let slot = Slot { unit: unit.clone(), bytes, used: clock, leases: 1 };
                state.slots.insert(key, slot);
                return Lease { cache: self, key, unit };
            }
            match state.oldest() {
                // The memory of a unit of the same film is taken over.
                Some(old) => {
                    spare = state.remove(old).filter(|_| old.film == key.film);
                }
                None => {
                    state.waiting += 1;
                    state = self.freed.wait(state).unwrap_or_else(PoisonError::into_inner);
                    state.waiting -= 1;
                }
            }
        }
    }

    /// Lets go of all units of a film.
    pub fn forget(&self, film: u64) {
        let mut state = self.lock();
        let keys: Vec<Key> = state.slots.keys().filter(|key| key.film == film).copied().collect();
        let units: Vec<_> = keys.into_iter().map(|key| state.remove(key)).collect();
        drop(state);
        drop(units); // closes files, which may take a while
        self.freed.notify_all();
    }
}

impl CacheState {
    fn has_room(&self, limit: u64, bytes: u64) -> bool {
        self.slots.len() < MOST && self.bytes + bytes <= limit.max(LEAST * self.largest)
    }

    /// The unit that was not used for the longest time and is not in use.
    fn oldest(&self) -> Option<Key> {
        let idle = self.slots.iter().filter(|(_, slot)| slot.leases == 0);
        idle.min_by_key(|(_, slot)| slot.used).map(|(key, _)| *key)
    }

    fn remove(&mut self, key: Key) -> Option<Arc<RwLock<Unit>>> {
        let slot = self.slots.remove(&key)?;
        self.bytes -= slot.bytes;
        Some(slot.unit)
    }
}

impl Drop for Lease<'_> {
    fn drop(&mut self) {
        let mut state = self.cache.lock();
        if let Some(slot) = state.slots.get_mut(&self.key) {
            slot.leases -= 1;
        }
        if state.waiting > 0 {
            self.cache.freed.notify_all();
        }
    }
}

#[cfg(test)]
mod tests {
    use super::*;

    fn key(unit: u64) -> Key {
        Key { film: 1, unit }
    }

    fn kept(cache: &Cache) -> Vec<u64> {
        let mut units: Vec<u64> = cache.lock().slots.keys().map(|key| key.unit).collect();
        units.sort();
        units
    }

    #[test]
    fn the_oldest_goes_first_and_the_limit_holds() {
        let cache = Cache::new(300);
        for unit in [0, 1, 2, 0, 3] {
            cache.lease(key(unit), 100);
        }
        assert_eq!(kept(&cache), [0, 2, 3]);
        assert_eq!(cache.lock().bytes, 300);
        cache.forget(1);
        assert_eq!((kept(&cache).len(), cache.lock().bytes), (0, 0));
    }

    #[test]
    fn two_units_are_kept_whatever_the_limit_is() {
        let cache = Cache::new(1);
        (0..4).for_each(|unit| drop(cache.lease(key(unit), 100)));
        assert_eq!(kept(&cache), [2, 3]);
    }

    #[test]
    fn a_unit_in_use_is_waited_for() {
        let cache = Cache::new(1);
        let (first, second) = (cache.lease(key(0), 100), cache.lease(key(1), 100));
        std::thread::scope(|scope| {
            let waiter = scope.spawn(|| drop(cache.lease(key(2), 100)));
            while cache.lock().waiting == 0 {
                std::thread::yield_now();
            }
            assert_eq!(kept(&cache), [0, 1]);
            drop(second);
            waiter.join().unwrap();
        });
        assert_eq!(kept(&cache), [0, 2]);
        drop(first);
    }
}
