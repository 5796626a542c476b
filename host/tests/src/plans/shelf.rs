//! A shelf of the library's own servers and clients, whose packets are noted as they are made. Each round goes to all servers, and all of them reply.

use crate::vectors::drill_keys;
use cendrulas::{Client, Server, Taken, Traffic, CONTENT_ROOM, PACKET_ROOM};
use shelf::packet::HEAD;
use shelf::stamp::TAGS_AT;

/// What a call did: how it ended, and the packets that went to the servers and came back.
pub struct Called {
    pub ended: Taken,
    pub requests: Vec<Vec<u8>>,
    pub replies: Vec<Vec<u8>>,
}

impl Called {
    pub fn traffic(&self) -> Traffic {
        Traffic { requests: self.requests.len(), replies: self.replies.len() }
    }
}

pub struct Shelf {
    t: usize,
    pub servers: Vec<Server>,
    writes: u8,
}

impl Shelf {
    pub fn new(t: usize) -> Self {
        let servers = (1..=3 * t + 1).map(|i| Server::blank(t, i, [i as u8; 32]).expect("a legal server")).collect();
        Shelf { t, servers, writes: 0 }
    }

    /// The same servers, apart from these from now on.
    pub fn copy(&self) -> Self {
        let server = |(i, server): (usize, &Server)| Server::from_memory([i as u8 + 1; 32], server.memory()).expect("a memory");
        Shelf { t: self.t, servers: self.servers.iter().enumerate().map(server).collect(), writes: self.writes }
    }

    /// A write by a client that was never used. Of its last round only the packets for the servers in `completed` arrive: with fewer than end a
    /// round it stays open. A lying writer spoils the tags in them.
    pub fn write(&mut self, writer: usize, content: &[u8], completed: &[usize], spoilt: bool) -> Called {
        self.writes += 1;
        let mut client = Client::new(self.t, writer);
        client.begin_write(content, &[self.writes; 32]).expect("a legal write");
        self.finish(client, |packet| {
            if packet[0] == 5 && spoilt {
                packet[HEAD + TAGS_AT..].fill(7);
            }
            packet[0] != 5 || completed.contains(&packet[2].into())
        })
    }

    pub fn read(&mut self, reader: usize) -> Called {
        let mut client = Client::new(self.t, reader);
        client.begin_read().expect("a legal read");
        self.finish(client, |_| true)
    }

    /// Rounds until the call ends, or a round does not. `arrives` may change a packet, and says whether it gets to its server.
    fn finish(&mut self, mut client: Client, mut arrives: impl FnMut(&mut Vec<u8>) -> bool) -> Called {
        let mut called = Called { ended: Taken::GoesOn, requests: Vec::new(), replies: Vec::new() };
        while called.ended == Taken::GoesOn {
            let mut packets: Vec<Vec<u8>> = (1..=self.servers.len()).map(|server| made(&client, server)).collect();
            packets.retain_mut(|packet| arrives(packet));
            let replies: Vec<Vec<u8>> = packets.iter().map(|packet| served(&mut self.servers[usize::from(packet[2]) - 1], packet)).collect();
            let round = client.round();
            for reply in &replies {
                // replies that come after the round's end are refused
                if let Ok(taken @ (Taken::Written(_) | Taken::Read(..) | Taken::Blank)) = client.take(&drill_keys(), reply, &mut [0; CONTENT_ROOM]) {
                    called.ended = taken;
                }
            }
            called.requests.extend(packets);
            called.replies.extend(replies);
            if client.round() == round {
                break;
            }
        }
        called
    }
}

fn made(client: &Client, server: usize) -> Vec<u8> {
    let mut packet = vec![0; PACKET_ROOM];
    let count = client.make(server, &mut packet).expect("a packet");
    packet.truncate(count);
    packet
}

fn served(server: &mut Server, packet: &[u8]) -> Vec<u8> {
    let mut reply = vec![0; PACKET_ROOM];
    let served = server.take(packet, &mut reply).expect("a reply");
    reply.truncate(served.count);
    reply
}
