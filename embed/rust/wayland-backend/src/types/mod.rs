//! Types of the API that stand for themselves.

pub mod client;
pub mod server;
