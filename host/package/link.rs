//! The same in Rust, over host/cendrulas.
use cendrulas::{Client, Keys, CONTENT_ROOM, PACKET_ROOM, SERVER_KEYS};

fn main() {
    let mut client = Client::new(1, 9);
    let begun = client.begin_read().is_ok() && client.make(1, &mut [0; PACKET_ROOM]).is_ok();
    let keys = Keys { writers: [0; 32], servers: [0; SERVER_KEYS] };
    let refusal = client.take(&keys, &[], &mut [0; CONTENT_ROOM]).expect_err("no packet");
    println!("{} {} {}", cendrulas::version(), begun as u8, refusal.name());
}
