//! The test of cuts: a scope is killed with SIGKILL at random moments of its calls. No packet may have gone out of which its state on the
//! card does not know: else a scope that comes back could use a call's number twice.
//!
//! How it is seen. All packets of the scope come to this test, which answers them as four boxes. After the kill it reads the card: the call and round
//! there must be those of the last packet, or later ones. A scope whose card is replaced a little later fails (`Hasty` in card.rs).

use crate::call;
use crate::card;
use crate::keys::BoxKeys;
use crate::link::{self, DATAGRAM};
use crate::packet;
use crate::random::Seeded;
use crate::serve::{answer, blank};
use crate::servers;
use crate::story::shelf::{program, Shelf};
use cendrulas::{Client, Round, PACKET_ROOM};
use std::net::UdpSocket;
use std::time::{Duration, Instant};

const T: usize = 1;
const SCOPE: usize = 1;
/// A kill comes within so many microseconds after a scope's start.
const MOMENT: u64 = 40_000;
/// Saves of a life: boxes keep 32.
const SAVES: u64 = 30;
/// Later than every kind of packet.
const ENDED: u8 = 255;

/// How far a scope is: its call, and the kind of its round's packets.
type Place = (u32, u8);

struct Test {
    shelf: Shelf,
    boxes: Vec<(BoxKeys, Vec<u8>)>,
    socket: UdpSocket,
    hasty: bool,
    /// The last place that a packet showed.
    shown: Place,
    packets: usize,
}

/// Cuts a scope off so often. How many packets it had sent until then.
pub fn cuts(times: u64, seed: u64, hasty: bool) -> Result<usize, String> {
    let mut random = Seeded::new(seed);
    let mut packets = 0;
    let mut test = Test::new(hasty)?;
    for cut in 1..=times {
        let record: Option<&[u8]> = if cut % 2 == 1 { Some(b"a record") } else { None };
        test.call(record, Duration::from_micros(random.below(MOMENT)))?;
        test.check().map_err(|e| format!("cut {cut}: {e}"))?;
        if cut % (2 * SAVES) == 0 || cut == times {
            packets += test.packets;
            test = Test::new(hasty)?;
        }
    }
    Ok(packets)
}

/// How far a packet shows its scope to be.
fn place(packet: &[u8]) -> Option<Place> {
    Some((packet::call(packet)?, packet[0]))
}

impl Test {
    fn new(hasty: bool) -> Result<Self, String> {
        let shelf = Shelf::new(T)?;
        shelf.new_scope(SCOPE)?;
        let keys = (1..=servers(T)).map(|server| BoxKeys::read(&shelf.box_key(server))).collect::<Result<Vec<_>, _>>()?;
        let memories: Vec<_> = keys.iter().map(blank).collect();
        let boxes = keys.into_iter().zip(memories).collect();
        Ok(Test { shelf, boxes, socket: call::socket(&[])?, hasty, shown: (0, 0), packets: 0 })
    }

    /// A scope's call, killed after this time. A call that an earlier kill has cut off is given up first.
    fn call(&mut self, record: Option<&[u8]>, time: Duration) -> Result<(), String> {
        self.shelf.give_up(SCOPE)?;
        let here = self.socket.local_addr().map_err(|e| e.to_string())?.to_string();
        let boxes = vec![here; servers(T)].join(",");
        let mut command = program(if self.hasty { "incident" } else { "scope" })?;
        if self.hasty {
            command.arg("hasty-scope");
        }
        let mut running = self.shelf.start_call_of(command, SCOPE, &boxes, 20, record)?;
        let end = Instant::now() + time;
        while Instant::now() < end {
            self.one(end.saturating_duration_since(Instant::now()))?;
        }
        running.kill()?;
        self.drain()
    }

    /// What the scope had sent before it was killed counts too.
    fn drain(&mut self) -> Result<(), String> {
        while self.one(Duration::ZERO)? {}
        Ok(())
    }

    /// Takes a packet, if one comes within this time, and answers it as the box that it names.
    fn one(&mut self, wait: Duration) -> Result<bool, String> {
        let mut datagram = [0; DATAGRAM];
        self.socket.set_read_timeout(Some(wait.max(Duration::from_micros(1)))).map_err(|e| e.to_string())?;
        let Ok((n, from)) = self.socket.recv_from(&mut datagram) else { return Ok(false) };
        let packet = link::packet(&datagram[..n]).ok_or("a datagram is too short")?;
        let (_, server) = packet::parties(packet).ok_or("a packet is too short")?;
        self.shown = self.shown.max(place(packet).ok_or("a packet is too short")?);
        self.packets += 1;
        let (keys, memory) = self.boxes.get_mut(server - 1).ok_or("a packet to no box")?;
        if let Some(reply) = answer(keys, memory, &datagram[..n])? {
            self.socket.send_to(&reply.datagram, from).map_err(|e| e.to_string())?;
        }
        Ok(true)
    }

    /// The card knows of every packet.
    fn check(&self) -> Result<(), String> {
        let content = card::read(&self.shelf.state(SCOPE))?;
        let mut client = Client::from_state(T, SCOPE, &content[2..]).ok_or("no state")?;
        let ended = client.round() == Round::None;
        if ended {
            client.begin_read().map_err(|e| e.to_string())?;
        }
        let mut packet = [0; PACKET_ROOM];
        let made = client.make(1, &mut packet).map_err(|e| e.to_string())?;
        let (call, kind) = place(&packet[..made]).ok_or("no packet")?;
        let kept = if ended { (call - 1, ENDED) } else { (call, kind) };
        match self.shown <= kept {
            true => Ok(()),
            false => Err(format!("a packet of call {}, kind {} went out, and the card is at {}, {}", self.shown.0, self.shown.1, kept.0, kept.1)),
        }
    }
}
