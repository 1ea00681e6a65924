//! What the program is told of clients. One thread tells at a time, so the news come in their order.

use std::{
    collections::VecDeque,
    sync::{Arc, Condvar, Mutex, MutexGuard, PoisonError},
    thread::{self, ThreadId},
};

use super::{ClientData, ClientId, DisconnectReason};
use crate::panics::Panics;

/// A client that is gone, which the program is to be told when the state is not locked.
pub(super) struct Told {
    pub(super) data: Arc<dyn ClientData>,
    pub(super) client: ClientId,
    pub(super) reason: DisconnectReason,
}

#[derive(Default)]
struct Queue {
    waiting: VecDeque<Told>,
    /// How many have been told.
    told: u64,
    /// The client of what is told now.
    current: Option<ClientId>,
    /// The thread that tells.
    teller: Option<ThreadId>,
}

/// The news of a server. Their lock is taken after the state's, or without that.
#[derive(Default)]
pub(super) struct News {
    queue: Mutex<Queue>,
    /// Something was told, or a thread tells no more.
    changed: Condvar,
}

impl News {
    fn lock(&self) -> MutexGuard<'_, Queue> {
        self.queue.lock().unwrap_or_else(PoisonError::into_inner)
    }

    pub(super) fn put(&self, told: Told) {
        self.lock().waiting.push_back(told);
    }

    /// Whether so many have been told.
    pub(super) fn are_told(&self, until: u64) -> bool {
        self.lock().told >= until
    }

    /// How many have to be told until the program knows all of the client.
    pub(super) fn until_known(&self, client: &ClientId) -> u64 {
        let queue = self.lock();
        let at = queue
            .waiting
            .iter()
            .rposition(|told| told.client == *client);
        let is_in_hand = queue.current.is_some();
        match at {
            Some(at) => queue.told + u64::from(is_in_hand) + at as u64 + 1,
            None if queue.current.as_ref() == Some(client) => queue.told + 1,
            None => 0,
        }
    }

    /// Tells the program until so many have been told. If another thread tells, this waits for it. If this thread tells
    /// already, it is a callback that calls, and the rest is told when that has returned.
    pub(super) fn tell(&self, until: u64) {
        if let Some(telling) = self.begin(until) {
            telling.end();
        }
    }

    /// From now on this thread tells. The answer is `None` if it does so already, or if another one has told so many.
    pub(super) fn begin(&self, until: u64) -> Option<Telling<'_>> {
        let thread = thread::current().id();
        let mut queue = self.lock();
        while let Some(teller) = queue.teller {
            if teller == thread || queue.told >= until {
                return None;
            }
            queue = self
                .changed
                .wait(queue)
                .unwrap_or_else(PoisonError::into_inner);
        }
        queue.teller = Some(thread);
        Some(Telling {
            news: self,
            is_over: false,
        })
    }
}

/// A thread that tells. When it ends, all is told that waits.
pub(super) struct Telling<'a> {
    news: &'a News,
    is_over: bool,
}

impl Telling<'_> {
    /// Tells what waits. If a callback panics, the panic goes on when all was told.
    pub(super) fn end(mut self) {
        self.tell_all().go_on();
    }

    fn tell_all(&mut self) -> Panics {
        self.is_over = true;
        let mut panics = Panics::default();
        let mut queue = self.news.lock();
        while let Some(told) = queue.waiting.pop_front() {
            queue.current = Some(told.client.clone());
            drop(queue);
            panics.catch(|| told.data.disconnected(told.client, told.reason));
            queue = self.news.lock();
            queue.current = None;
            queue.told += 1;
            self.news.changed.notify_all();
        }
        queue.teller = None;
        self.news.changed.notify_all();
        panics
    }
}

impl Drop for Telling<'_> {
    /// By a panic of what this thread has called meanwhile.
    fn drop(&mut self) {
        if !self.is_over {
            self.tell_all();
        }
    }
}
