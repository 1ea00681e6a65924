//! What the programs share.

pub mod arguments;
pub mod by_hand;
#[path = "../../checks/src/counted.rs"]
pub mod counted;
pub mod process;

/// The interfaces of all protocol files.
#[allow(non_upper_case_globals, unused_imports)]
pub mod protocols {
    include!(concat!(env!("OUT_DIR"), "/protocols.rs"));
}
