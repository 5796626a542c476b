//! The test of kills: a box is killed with SIGKILL at random moments of its work and started again from its card, over and over. Nothing that
//! it acknowledged may be missing.
//!
//! How a loss is seen. The test knows every reply that the box sent, those of its last moment too: they wait in the test's socket. After each
//! kill it reads the card, and there every store that was acknowledged must be held (stored again it answers 10), and the latest candidate
//! must be at least the last one whose complete was acknowledged. Then the box is started again and asked the same. A box that replies before the
//! card is replaced fails (`Hasty` in card.rs; host/incident/test tries it). What a kill cannot show is a missing sync: the system keeps
//! what a dead process had written; only a power cut could tell.

use crate::call;
use crate::card;
use crate::keys::{BoxKeys, ScopeKeys};
use crate::link::{self, DATAGRAM};
use crate::packet;
use crate::random::{unguessable, Seeded};
use crate::serve::{answer, blank};
use crate::story::shelf::{program, Running, Shelf};
use cendrulas::{stored, Client, Stored, CONTENT_ROOM, PACKET_ROOM};
use std::net::{SocketAddr, UdpSocket};
use std::time::{Duration, Instant};

const T: usize = 1;
const WRITER: usize = 1;
/// The box that is killed; the others are in this process and only help the writer along.
const KILLED: usize = 1;
/// What a box can keep in its life.
const SAVES: usize = 32;
/// A kill comes within so many microseconds of the box's work.
const MOMENT: u64 = 20_000;
const PATIENCE: Duration = Duration::from_secs(5);

/// The packets of a box's life, sealed: store and complete of each save, by turns.
fn life(shelf: &Shelf) -> Result<Vec<Vec<u8>>, String> {
    let keys = ScopeKeys::read(&shelf.scope_key(WRITER))?;
    let boxes = (2..=4).map(|server| BoxKeys::read(&shelf.box_key(server))).collect::<Result<Vec<_>, _>>()?;
    let mut memories: Vec<Vec<u8>> = boxes.iter().map(blank).collect();
    let mut client = Client::new(T, WRITER);
    let mut packets = Vec::new();
    for save in 1..=SAVES {
        let record = format!("record {save}").repeat(20);
        client.begin_write(record.as_bytes(), &unguessable()?).map_err(|e| e.to_string())?;
        for round in 1..=3 {
            if round > 1 {
                packets.push(sealed(&client, &keys, KILLED)?);
            }
            for (keys_of_box, memory) in boxes.iter().zip(&mut memories) {
                let reply = answer(keys_of_box, memory, &sealed(&client, &keys, keys_of_box.number)?)?.ok_or("no reply")?;
                let packet = link::packet(&reply.datagram).ok_or("no packet")?;
                client.take(&keys.lent, packet, &mut [0; CONTENT_ROOM]).map_err(|e| e.to_string())?;
            }
        }
    }
    Ok(packets)
}

fn sealed(client: &Client, keys: &ScopeKeys, server: usize) -> Result<Vec<u8>, String> {
    let mut packet = [0; PACKET_ROOM];
    let made = client.make(server, &mut packet).map_err(|e| e.to_string())?;
    Ok(link::seal(&keys.link(server).ok_or("no such box")?, &packet[..made]))
}

struct Test {
    shelf: Shelf,
    packets: Vec<Vec<u8>>,
    collect: Vec<u8>,
    socket: UdpSocket,
    running: Option<(Running, SocketAddr)>,
    hasty: bool,
    /// How many packets of this life the box has acknowledged.
    acknowledged: usize,
}

/// Kills a box so often. How many replies it had acknowledged until then.
pub fn kills(times: u64, seed: u64, hasty: bool) -> Result<usize, String> {
    let mut test = Test::new(hasty)?;
    let mut random = Seeded::new(seed);
    let mut sum = 0;
    for kill in 1..=times {
        let before = test.acknowledged;
        test.work(Duration::from_micros(random.below(MOMENT)))?;
        sum += test.acknowledged - before;
        test.check().map_err(|e| format!("kill {kill}: {e}"))?;
        if test.acknowledged == test.packets.len() {
            test.new_life()?;
        }
    }
    Ok(sum)
}

impl Test {
    fn new(hasty: bool) -> Result<Self, String> {
        let shelf = Shelf::new(T)?;
        let packets = life(&shelf)?;
        let mut reader = Client::new(T, WRITER);
        reader.begin_read().map_err(|e| e.to_string())?;
        let collect = sealed(&reader, &ScopeKeys::read(&shelf.scope_key(WRITER))?, KILLED)?;
        let socket = call::socket(&[])?;
        let mut test = Test { shelf, packets, collect, socket, running: None, hasty, acknowledged: 0 };
        test.start()?;
        Ok(test)
    }

    fn start(&mut self) -> Result<(), String> {
        let started = match self.hasty {
            false => self.shelf.start_box(KILLED)?,
            true => self.shelf.start(program("incident")?, "hasty-box", KILLED)?,
        };
        self.running = Some(started);
        Ok(())
    }

    fn new_life(&mut self) -> Result<(), String> {
        self.running = None;
        self.shelf.blank_box(KILLED)?;
        self.acknowledged = 0;
        self.start()
    }

    fn send(&self, datagram: &[u8]) -> Result<(), String> {
        let (_, at) = self.running.as_ref().ok_or("no box runs")?;
        self.socket.send_to(datagram, at).map(|_| ()).map_err(|e| e.to_string())
    }

    /// The next reply's packet, if one comes within this time.
    fn reply(&self, wait: Duration) -> Option<Vec<u8>> {
        let mut datagram = [0; DATAGRAM];
        self.socket.set_read_timeout(Some(wait.max(Duration::from_micros(1)))).ok()?;
        let n = self.socket.recv(&mut datagram).ok()?;
        link::packet(&datagram[..n]).map(<[u8]>::to_vec)
    }

    /// Gives the box its packets one after the other, and kills it after this time. What it had sent by then still counts.
    fn work(&mut self, time: Duration) -> Result<(), String> {
        let end = Instant::now() + time;
        let mut asked = self.acknowledged;
        while Instant::now() < end && asked < self.packets.len() {
            self.send(&self.packets[asked])?;
            asked += 1;
            if self.reply(end.saturating_duration_since(Instant::now())).is_none() {
                break;
            }
            self.acknowledged = asked;
        }
        std::thread::sleep(end.saturating_duration_since(Instant::now()));
        if let Some((mut running, _)) = self.running.take() {
            running.kill()?;
        }
        if asked > self.acknowledged && self.reply(Duration::ZERO).is_some() {
            self.acknowledged = asked;
        }
        Ok(())
    }

    /// The card has all that was acknowledged, and so has the box when it is started again.
    fn check(&mut self) -> Result<(), String> {
        let keys = BoxKeys::read(&self.shelf.box_key(KILLED))?;
        let mut memory = card::read(&self.shelf.card(KILLED))?;
        self.has_all(|datagram| {
            let reply = answer(&keys, &mut memory, datagram)?.ok_or("the card refuses a packet")?;
            Ok(link::packet(&reply.datagram).unwrap_or_default().to_vec())
        })?;
        self.start()?;
        self.has_all(|datagram| {
            self.send(datagram)?;
            self.reply(PATIENCE).ok_or("the box does not reply".to_owned())
        })
    }

    fn has_all(&self, mut ask: impl FnMut(&[u8]) -> Result<Vec<u8>, String>) -> Result<(), String> {
        for (k, store) in self.packets[..self.acknowledged].iter().enumerate().step_by(2) {
            if stored(&ask(store)?) != Some(Stored::Held) {
                return Err(format!("save {} was acknowledged and is lost", k / 2 + 1));
            }
        }
        let completed = self.acknowledged / 2;
        let latest = packet::stamp_number(&ask(&self.collect)?).unwrap_or(0);
        match latest as usize >= completed {
            true => Ok(()),
            false => Err(format!("save {completed} was completed, and the latest is {latest}")),
        }
    }
}
