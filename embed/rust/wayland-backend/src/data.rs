//! User data by number: a session keeps the number.

/// Values by key. A key is never 0, and names its value alone: once that is removed, the key finds nothing for ever.
#[derive(Debug)]
pub(crate) struct Slab<T> {
    places: Vec<Place<T>>,
    free: Vec<u32>,
}

#[derive(Debug)]
struct Place<T> {
    /// How many values the place has had before.
    generation: u32,
    value: Option<T>,
}

/// The key of a value: its place counted from 1, and above it the place's generation.
fn key(at: usize, generation: u32) -> u64 {
    u64::from(generation) << 32 | (at as u64 + 1)
}

/// The place and the generation that a key names. No key is 0, which names no place.
fn parts(key: u64) -> (usize, u32) {
    ((key as u32).wrapping_sub(1) as usize, (key >> 32) as u32)
}

impl<T> Slab<T> {
    pub(crate) fn new() -> Slab<T> {
        Slab {
            places: Vec::new(),
            free: Vec::new(),
        }
    }

    /// Keeps a value, and answers its key.
    pub(crate) fn insert(&mut self, value: T) -> u64 {
        if let Some(at) = self.free.pop() {
            let place = &mut self.places[at as usize];
            place.value = Some(value);
            return key(at as usize, place.generation);
        }
        let at = self.places.len();
        assert!(at < u32::MAX as usize, "no key is left for user data");
        self.places.push(Place {
            generation: 0,
            value: Some(value),
        });
        key(at, 0)
    }

    /// The value of a key.
    #[inline]
    pub(crate) fn get(&self, key: u64) -> Option<&T> {
        let (at, generation) = parts(key);
        self.places
            .get(at)
            .filter(|place| place.generation == generation)?
            .value
            .as_ref()
    }

    /// The value of a key, to change it.
    #[inline]
    pub(crate) fn get_mut(&mut self, key: u64) -> Option<&mut T> {
        let (at, generation) = parts(key);
        self.places
            .get_mut(at)
            .filter(|place| place.generation == generation)?
            .value
            .as_mut()
    }

    /// Takes a value out. A place that has used up its generations is not used again.
    #[inline]
    pub(crate) fn remove(&mut self, key: u64) -> Option<T> {
        let (at, generation) = parts(key);
        let place = self
            .places
            .get_mut(at)
            .filter(|place| place.generation == generation)?;
        let value = place.value.take()?;
        if let Some(next) = generation.checked_add(1) {
            place.generation = next;
            self.free.push(at as u32);
        }
        Some(value)
    }
}

#[cfg(test)]
mod tests {
    use super::*;

    #[test]
    fn a_key_finds_its_value() {
        let mut slab = Slab::new();
        let (one, two) = (slab.insert('a'), slab.insert('b'));
        assert_eq!((slab.get(one), slab.get(two)), (Some(&'a'), Some(&'b')));
        *slab.get_mut(one).unwrap() = 'c';
        assert_eq!(slab.remove(one), Some('c'));
        assert_eq!((slab.get(one), slab.get(two)), (None, Some(&'b')));
    }

    #[test]
    fn a_removed_key_finds_nothing_in_its_place() {
        let mut slab = Slab::new();
        let old = slab.insert('a');
        slab.remove(old);
        let new = slab.insert('b');
        assert_eq!(new as u32, old as u32);
        assert_eq!(slab.get(old), None);
        assert_eq!(slab.get_mut(old), None);
        assert_eq!(slab.remove(old), None);
        assert_eq!(slab.get(new), Some(&'b'));
    }

    #[test]
    fn no_key_is_zero() {
        let mut slab = Slab::new();
        assert_ne!(slab.insert(()), 0);
        assert_eq!(slab.get(0), None);
    }

    #[test]
    fn a_place_ends_with_its_generations() {
        let mut slab = Slab::new();
        slab.insert('a');
        slab.places[0].generation = u32::MAX;
        let last = key(0, u32::MAX);
        assert_eq!(slab.remove(last), Some('a'));
        assert_eq!(slab.insert('b') as u32, 2);
        assert_eq!(slab.get(last), None);
    }
}
