mod callbacks;
mod descriptors;
mod ends;
mod hostile;
mod load;
#[cfg(feature = "since_0_3_17")]
mod newer;
mod panics;
mod queues;
mod sizes;
mod threads;
mod wakeups;

use crate::Checks;

/// A topic: its name, and its checks.
type Topic = (&'static str, fn(&mut Checks));

pub const ALL: &[Topic] = &[
    ("callbacks", callbacks::run),
    ("panics", panics::run),
    ("descriptors", descriptors::run),
    ("ends", ends::run),
    ("sizes", sizes::run),
    ("load", load::run),
    ("threads", threads::run),
    ("queues", queues::run),
    ("wakeups", wakeups::run),
    ("hostile", hostile::run),
    #[cfg(feature = "since_0_3_17")]
    ("newer", newer::run),
];
