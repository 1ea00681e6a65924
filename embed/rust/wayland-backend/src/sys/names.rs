//! Which address stands for which connection, server or object.

use std::collections::HashMap;
use std::hash::Hash;
use std::ptr;
use std::sync::atomic::{AtomicU64, Ordering};
use std::sync::{Mutex, MutexGuard, PoisonError};

/// The first address. All from 0xffff_8000_0000_0000 on are the kernel's, on x86-64 and on aarch64: no process can have memory
/// there. So who follows a pointer, or goes somewhat on or back from it, ends by SIGSEGV; and no pointer to something is equal
/// to one of these. A range of the process's own would have to be reserved, which can fail, counts against a limit of its
/// addresses, and could be unmapped.
const FIRST: u64 = 0xffff_9000_0000_0000;

/// How far addresses are apart, in bytes. Those of malloc are so aligned.
const STEP: u64 = 16;

/// How many there are. Far above them x86-64 has a page that processes may read.
const COUNT: u64 = 1 << 42;

#[cfg(not(any(target_arch = "x86_64", target_arch = "aarch64")))]
compile_error!("It is known of x86-64 and aarch64 alone that a process has no memory in the upper half of the addresses.");

/// What stands for a connection, a server or an object as long as the program runs.
#[derive(Clone, Copy, Debug, PartialEq, Eq, Hash)]
pub(crate) struct Address(usize);

impl Address {
    /// The null pointer, which stands for nothing.
    pub(crate) const NONE: Address = Address(0);

    /// An address that was never used.
    ///
    /// # Panics
    ///
    /// None is left. That takes some weeks of doing nothing else.
    pub(crate) fn next() -> Address {
        static USED: AtomicU64 = AtomicU64::new(0);
        let used = USED.fetch_add(1, Ordering::Relaxed);
        assert!(used < COUNT, "no address is left for an object");
        // A library that the program has loaded may have a copy of this crate, which knows other objects. Where its copy of
        // this static is tells both apart: they begin at places that have nothing to do with each other.
        let place = (ptr::from_ref(&USED) as u64).wrapping_mul(0x9e37_79b9_7f4a_7c15);
        let number = (place >> 22).wrapping_add(used) % COUNT;
        Address((FIRST + STEP * number) as usize)
    }

    pub(crate) fn of<T>(pointer: *mut T) -> Address {
        Address(pointer as usize)
    }

    pub(crate) fn pointer<T>(self) -> *mut T {
        self.0 as *mut T
    }
}

/// Who knows which objects are there: a handle of a connection or a server, which does not keep it open.
pub(super) trait Owner: Clone {
    type Id: Clone + Eq + Hash;

    /// Whether the object is there.
    fn has(&self, id: &Self::Id) -> bool;

    /// The address of the connection or server that the object is of.
    fn address_of(id: &Self::Id) -> Address;
}

/// The connections or servers that are open, and which of their objects have addresses.
///
/// An owner is never asked while the names are locked, so it may be locked itself, or even end by that.
pub(super) struct Names<O: Owner>(Mutex<Table<O>>);

struct Table<O: Owner> {
    owners: HashMap<Address, Owned<O>>,
    objects: HashMap<Address, O::Id>,
}

/// An owner with its objects. Some of them may be gone.
struct Owned<O: Owner> {
    owner: O,
    addresses: HashMap<O::Id, Address>,
    /// When there are more objects than this, those that are gone are taken out.
    most: usize,
}

/// So many objects, at least, are no reason to look which are gone.
const FEW: usize = 64;

impl<O: Owner> Default for Names<O> {
    fn default() -> Self {
        Names(Mutex::new(Table {
            owners: HashMap::new(),
            objects: HashMap::new(),
        }))
    }
}

impl<O: Owner> Names<O> {
    /// No code of a program runs while they are locked.
    fn lock(&self) -> MutexGuard<'_, Table<O>> {
        self.0.lock().unwrap_or_else(PoisonError::into_inner)
    }

    /// A connection or server is open. Its address may stand for an object of it, too.
    pub(super) fn open(&self, address: Address, owner: O, object: Option<O::Id>) {
        let owned = Owned {
            owner,
            addresses: object.clone().map(|id| (id, address)).into_iter().collect(),
            most: FEW,
        };
        let mut table = self.lock();
        table.owners.insert(address, owned);
        table.objects.extend(object.map(|id| (address, id)));
    }

    /// It is closed: no address stands for it or its objects any more.
    pub(super) fn close(&self, address: Address) {
        let mut table = self.lock();
        if let Some(owned) = table.owners.remove(&address) {
            for address in owned.addresses.values() {
                table.objects.remove(address);
            }
            table.give_back();
        }
    }

    /// The connection or server that an address stands for.
    pub(super) fn owner(&self, address: Address) -> Option<O> {
        let table = self.lock();
        table.owners.get(&address).map(|owned| owned.owner.clone())
    }

    /// The address that stands for an object. It is none if the object is gone.
    pub(super) fn address(&self, id: &O::Id) -> Address {
        let Some(owner) = self.owner(O::address_of(id)).filter(|owner| owner.has(id)) else {
            return Address::NONE;
        };
        let (address, crowd) = self.lock().address(id);
        if !crowd.is_empty() {
            let gone = crowd.into_iter().filter(|id| !owner.has(id)).collect();
            self.lock().forget(O::address_of(id), gone);
        }
        address
    }

    /// The object that an address stands for, if it is there.
    pub(super) fn object(&self, address: Address) -> Option<O::Id> {
        let id = self.lock().objects.get(&address).cloned()?;
        let owner = self.owner(O::address_of(&id))?;
        owner.has(&id).then_some(id)
    }
}

impl<O: Owner> Table<O> {
    /// The address of an object, a new one if it had none. It is none if the owner is closed. If so many have one that some
    /// are to be taken out, all are answered besides.
    fn address(&mut self, id: &O::Id) -> (Address, Vec<O::Id>) {
        let Some(owned) = self.owners.get_mut(&O::address_of(id)) else {
            return (Address::NONE, Vec::new());
        };
        if let Some(address) = owned.addresses.get(id) {
            return (*address, Vec::new());
        }
        let address = Address::next();
        owned.addresses.insert(id.clone(), address);
        self.objects.insert(address, id.clone());
        if owned.addresses.len() <= owned.most {
            return (address, Vec::new());
        }
        owned.most = 2 * owned.addresses.len();
        (address, owned.addresses.keys().cloned().collect())
    }

    /// Takes objects of an owner out that are gone.
    fn forget(&mut self, owner: Address, gone: Vec<O::Id>) {
        let Some(owned) = self.owners.get_mut(&owner) else {
            return;
        };
        for id in gone {
            if let Some(address) = owned.addresses.remove(&id) {
                self.objects.remove(&address);
            }
        }
        owned.most = FEW.max(2 * owned.addresses.len());
        owned.addresses.shrink_to(owned.most);
        self.give_back();
    }

    /// Gives memory of objects back that were taken out. The others have to double before the map grows again.
    fn give_back(&mut self) {
        self.objects.shrink_to(2 * self.objects.len());
    }
}
