//! What is sent, in order. Both sides know it.

use trials::arguments::ROUNDS;
use trials::protocols::ALL;
use wayland_backend::protocol::{Interface, MessageDesc};

/// Of each interface, but for those that each connection has.
pub fn interfaces() -> Vec<&'static Interface> {
    let is_core = |it: &Interface| ["wl_display", "wl_registry", "wl_callback"].contains(&it.name);
    ALL.iter().copied().filter(|it| !is_core(it)).collect()
}

/// A message to an object of an interface. The first object of each gets all that does not end it; each destructor has one of its own.
#[derive(Clone, Copy)]
pub struct Step {
    pub interface: usize,
    pub object: usize,
    pub opcode: u16,
    pub round: usize,
}

fn destructors(messages: &[MessageDesc]) -> usize {
    messages.iter().filter(|it| it.is_destructor).count()
}

/// How many objects of an interface are bound.
pub fn objects(interface: &Interface) -> usize {
    1 + destructors(interface.requests) + destructors(interface.events)
}

pub fn requests() -> Vec<Step> {
    steps(|it| (it.requests, 1))
}

pub fn events() -> Vec<Step> {
    steps(|it| (it.events, 1 + destructors(it.requests)))
}

/// `of` answers the messages, and which object the first destructor ends.
fn steps(of: impl Fn(&Interface) -> (&'static [MessageDesc], usize)) -> Vec<Step> {
    let all = interfaces();
    let mut steps = Vec::new();
    for round in 0..ROUNDS {
        for (interface, it) in all.iter().enumerate() {
            let (messages, mut object) = of(it);
            for (opcode, message) in messages.iter().enumerate() {
                let opcode = opcode as u16;
                if !message.is_destructor {
                    steps.push(Step { interface, object: 0, opcode, round });
                } else {
                    // Once is all that its object can get.
                    if round == ROUNDS - 1 {
                        steps.push(Step { interface, object, opcode, round });
                    }
                    object += 1;
                }
            }
        }
    }
    steps
}
