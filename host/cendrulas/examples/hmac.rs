//! The whole HMAC and the shelf's tag of one message, case 5 of RFC 4231; host/c/hmac.c prints the same.

use cendrulas::{hmac, tag, DIGEST, TAG};

fn print(name: &str, bytes: &[u8]) {
    let digits: String = bytes.iter().map(|b| format!("{b:02x}")).collect();
    println!("{name}: {digits}");
}

fn main() {
    let mut key = [0; 32]; // the RFC's key has 20 bytes, which is the same as with 00h behind them
    key[..20].fill(0x0c);
    let message = b"Test With Truncation";
    let (mut whole, mut front) = ([0; DIGEST], [0; TAG]);
    assert_eq!(hmac(&key, message, &mut whole).refusal, 0, "key and output have their lengths");
    assert_eq!(tag(&key, message, &mut front).refusal, 0, "key and output have their lengths");
    print("HMAC", &whole);
    print("tag", &front);
}
