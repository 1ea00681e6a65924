//! The scenarios, by topic.

mod descriptors;
mod ends;
mod events_by_hand;
mod found;
mod generated;
mod globals;
mod misuse;
mod objects;
mod printed;
mod requests_by_hand;
mod sizes;
mod threads;
mod versions;

use crate::Case;

pub fn all() -> Vec<Case> {
    [
        objects::CASES,
        misuse::CASES,
        globals::CASES,
        ends::CASES,
        found::CASES,
        generated::CASES,
        requests_by_hand::CASES,
        events_by_hand::CASES,
        descriptors::CASES,
        sizes::CASES,
        threads::CASES,
        versions::CASES,
        printed::CASES,
    ]
    .concat()
}
