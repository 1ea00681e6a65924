//! Objects that were destroyed, and whose numbers the server has not given up.

/// The least number of an object that an event made.
const FIRST_OF_SERVER: u32 = 0xff00_0000;

/// An object that was destroyed.
#[derive(Clone, Copy, Debug)]
pub(super) struct Leaving {
    pub(super) serial: u64,
    /// The key of its data.
    pub(super) key: u64,
}

/// Objects by number: one for each. Numbers are dense, since a session gives the least one that is free, and a server no one
/// beyond the next.
#[derive(Debug, Default)]
pub(super) struct ByNumber {
    own: Vec<Option<Leaving>>,
    of_server: Vec<Option<Leaving>>,
}

impl ByNumber {
    #[inline]
    fn list(&mut self, number: u32) -> (&mut Vec<Option<Leaving>>, usize) {
        match number.checked_sub(FIRST_OF_SERVER) {
            None => (&mut self.own, number as usize),
            Some(number) => (&mut self.of_server, number as usize),
        }
    }

    /// The object of this number. A server may ask for any number.
    #[inline]
    pub(super) fn get(&mut self, number: u32) -> Option<Leaving> {
        let (list, at) = self.list(number);
        *list.get(at)?
    }

    /// Puts an object here, and answers the one of its number that was here before.
    #[inline]
    pub(super) fn put(&mut self, number: u32, object: Leaving) -> Option<Leaving> {
        let (list, at) = self.list(number);
        if list.len() <= at {
            list.resize(at + 1, None);
        }
        list[at].replace(object)
    }

    #[inline]
    pub(super) fn remove(&mut self, number: u32) {
        let (list, at) = self.list(number);
        if let Some(place) = list.get_mut(at) {
            *place = None;
        }
    }
}

#[cfg(test)]
mod tests {
    use super::*;

    #[test]
    fn each_number_has_one_object() {
        let mut objects = ByNumber::default();
        let object = |serial| Leaving { serial, key: 7 };
        for number in [2, 1, FIRST_OF_SERVER, FIRST_OF_SERVER + 1] {
            assert!(objects.put(number, object(number.into())).is_none());
        }
        for number in [2, 1, FIRST_OF_SERVER, FIRST_OF_SERVER + 1] {
            assert_eq!(objects.get(number).unwrap().serial, number.into());
        }
        assert_eq!(objects.put(2, object(9)).unwrap().serial, 2);
        assert_eq!(objects.get(2).unwrap().serial, 9);
        objects.remove(2);
        assert!(objects.get(2).is_none());
    }

    #[test]
    fn a_number_that_a_server_makes_up_takes_no_memory() {
        let mut objects = ByNumber::default();
        for number in [0, u32::MAX, FIRST_OF_SERVER - 1] {
            assert!(objects.get(number).is_none());
            objects.remove(number);
        }
        assert_eq!(objects.own.capacity() + objects.of_server.capacity(), 0);
    }
}
