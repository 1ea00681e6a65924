//! Every request and every event of all protocols, in three rounds of arguments, between a client and a server.
//!
//! ```text
//! messages serve SOCKET
//! messages ask SOCKET
//! ```
//!
//! Each prints what it did and what came, and how many messages it could not send.

mod client;
mod plan;
mod server;

fn main() {
    let words: Vec<String> = std::env::args().skip(1).collect();
    match words.iter().map(String::as_str).collect::<Vec<_>>()[..] {
        ["serve", path] => server::serve(path),
        ["ask", path] => client::ask(path),
        _ => panic!("usage: messages serve|ask SOCKET"),
    }
}
