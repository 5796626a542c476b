//! A box at work: packets come in, its memory changes, and once that is kept the reply goes out.

use crate::card::{Card, Durable};
use crate::keys::BoxKeys;
use crate::link::{self, DATAGRAM};
use crate::{packet, servers, words};
use cendrulas::{server_blank, server_take, Refusal, PACKET_ROOM, SERVER_MEMORY};
use std::io;
use std::net::{SocketAddr, UdpSocket};
use std::path::Path;
use std::time::{Duration, Instant};

/// The memory of a box that was never used.
pub fn blank(keys: &BoxKeys) -> Vec<u8> {
    let mut memory = vec![0; SERVER_MEMORY];
    let answer = server_blank(&mut memory, keys.t, keys.number);
    assert_eq!(answer.refusal, 0, "a key file has t and box in range");
    memory
}

/// A sealed reply, and whether the memory must be kept before it goes out.
pub struct Reply {
    pub datagram: Vec<u8>,
    pub changed: bool,
}

/// What the box does with a datagram: its reply, or none where nothing is to be sent.
pub fn answer(keys: &BoxKeys, memory: &mut [u8], datagram: &[u8]) -> Result<Option<Reply>, String> {
    let key_of = |scope, server| if server == keys.number { keys.link(scope) } else { None };
    let Some(packet) = link::open(datagram, key_of) else { return Ok(None) };
    let mut reply = [0; PACKET_ROOM];
    match server_take(memory, &keys.key, packet, &mut reply).accepted() {
        Ok(answer) => {
            let key = packet::parties(packet).and_then(|(scope, _)| keys.link(scope));
            Ok(key.map(|key| Reply { datagram: link::seal(&key, &reply[..answer.count]), changed: answer.result == 1 }))
        }
        Err(Refusal::NoServer) => Err("the card does not hold a box's memory: this box is lost, and does not reply".to_owned()),
        Err(Refusal::NoPacket | Refusal::NotMine | Refusal::NotAllowed) => Ok(None),
        Err(other) => Err(format!("a packet was refused: {other}")),
    }
}

/// Starts a box: reads keys and card, says where it listens, and serves until the time is over, or for ever.
/// `durable` makes of the card what the box keeps its memory in: the card itself.
pub fn run<D: Durable>(card: &Path, key: &Path, address: &str, time: Option<Duration>, durable: fn(Card) -> D) -> Result<(), String> {
    let keys = BoxKeys::read(key)?;
    let locked = Card::lock(card)?;
    let memory = locked.read()?;
    // The card says whose it is. The library would drop every packet of a shelf or a box that is not the memory's own.
    if memory.len() != SERVER_MEMORY || memory[..2] != [keys.t as u8, keys.number as u8] {
        return Err(format!("{}: it is not the card of box {} of {}", card.display(), keys.number, servers(keys.t)));
    }
    let socket = UdpSocket::bind(words::address(address)?).map_err(|e| format!("{address}: {e}"))?;
    let at = socket.local_addr().map_err(|e| e.to_string())?;
    println!("box {} of {} listens on {at}", keys.number, servers(keys.t));
    serve(&socket, &keys, memory, &durable(locked), time)
}

/// First the card, then the reply: whatever was acknowledged is on the card.
fn serve(socket: &UdpSocket, keys: &BoxKeys, mut memory: Vec<u8>, card: &dyn Durable, time: Option<Duration>) -> Result<(), String> {
    let end = time.map(|time| Instant::now() + time);
    let mut datagram = [0; DATAGRAM + 1];
    loop {
        let left = end.map(|end| end.saturating_duration_since(Instant::now()));
        if left == Some(Duration::ZERO) {
            return Ok(());
        }
        socket.set_read_timeout(left).map_err(|e| e.to_string())?;
        let Some((n, from)) = received(socket.recv_from(&mut datagram))? else { continue };
        let Some(reply) = answer(keys, &mut memory, &datagram[..n])? else { continue };
        if reply.changed {
            card.replace(&memory)?;
        }
        if let Err(e) = socket.send_to(&reply.datagram, from) {
            eprintln!("box: a reply can't be sent: {e}");
        }
    }
}

/// A datagram that came in; none where the wait was over, or where an earlier datagram found nobody at its address.
pub fn received(got: io::Result<(usize, SocketAddr)>) -> Result<Option<(usize, SocketAddr)>, String> {
    use io::ErrorKind::{ConnectionRefused, ConnectionReset, HostUnreachable, Interrupted, NetworkUnreachable, TimedOut, WouldBlock};
    match got {
        Ok(got) => Ok(Some(got)),
        Err(e) => match e.kind() {
            ConnectionRefused | ConnectionReset | HostUnreachable | Interrupted | NetworkUnreachable | TimedOut | WouldBlock => Ok(None),
            _ => Err(format!("nothing can be received: {e}")),
        },
    }
}
