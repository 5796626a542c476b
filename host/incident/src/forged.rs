//! A test of links: datagrams that bear a party's number falsely, or were changed on their way, do nothing.

use crate::call::opened;
use crate::keys::{BoxKeys, ScopeKeys};
use crate::link::{self, Key};
use crate::serve::{answer, blank};
use crate::story::shelf::Shelf;
use crate::{servers, CLIENTS};
use cendrulas::{Client, PACKET_ROOM};

const T: usize = 1;

struct Test {
    boxes: Vec<BoxKeys>,
    scopes: Vec<ScopeKeys>,
    dropped: usize,
}

/// Tries every pair of box and scope. How many datagrams were dropped.
pub fn forged() -> Result<usize, String> {
    let shelf = Shelf::new(T)?;
    let boxes = (1..=servers(T)).map(|server| BoxKeys::read(&shelf.box_key(server))).collect::<Result<Vec<_>, _>>()?;
    let scopes = (1..=CLIENTS).map(|scope| ScopeKeys::read(&shelf.scope_key(scope))).collect::<Result<Vec<_>, _>>()?;
    let mut test = Test { boxes, scopes, dropped: 0 };
    for (scope, server) in (0..CLIENTS).flat_map(|scope| (0..servers(T)).map(move |server| (scope, server))) {
        test.pair(scope, server)?;
    }
    Ok(test.dropped)
}

impl Test {
    fn pair(&mut self, scope: usize, server: usize) -> Result<(), String> {
        let link = self.scopes[scope].link(server + 1).ok_or("no link key")?;
        let mut client = Client::new(T, scope + 1);
        client.begin_read().map_err(|e| e.to_string())?;
        let mut packet = [0; PACKET_ROOM];
        let made = client.make(server + 1, &mut packet).map_err(|e| e.to_string())?;
        let question = link::seal(&link, &packet[..made]);
        let answered = answer(&self.boxes[server], &mut blank(&self.boxes[server]), &question)?;
        let reply = answered.ok_or("a right packet is not answered")?.datagram;
        if opened(&self.scopes[scope], &reply).is_none() {
            return Err("a right reply is not taken".to_owned());
        }
        for key in self.other_keys(scope, server) {
            self.at_box(server, &link::seal(&key, &packet[..made]))?;
            self.at_scope(scope, &link::seal(&key, link::packet(&reply).unwrap_or_default()))?;
        }
        for byte in 0..question.len() {
            self.at_box(server, &changed(&question, byte))?;
        }
        for byte in 0..reply.len() {
            self.at_scope(scope, &changed(&reply, byte))?;
        }
        self.at_box(server, &reply)?;
        (0..question.len()).try_for_each(|n| self.at_box(server, &question[..n]))
    }

    /// The link keys that another box or another scope holds, and this pair does not share.
    fn other_keys(&self, scope: usize, server: usize) -> Vec<Key> {
        let of_boxes = self.boxes.iter().filter(|keys| keys.number != server + 1).filter_map(|keys| keys.link(scope + 1));
        let of_scopes = self.scopes.iter().filter(|keys| keys.number != scope + 1).filter_map(|keys| keys.link(server + 1));
        of_boxes.chain(of_scopes).collect()
    }

    fn at_box(&mut self, server: usize, datagram: &[u8]) -> Result<(), String> {
        let keys = &self.boxes[server];
        let before = blank(keys);
        let mut memory = before.clone();
        self.dropped += 1;
        match answer(keys, &mut memory, datagram)? {
            None if memory == before => Ok(()),
            _ => Err(format!("box {} takes a forged datagram", keys.number)),
        }
    }

    fn at_scope(&mut self, scope: usize, datagram: &[u8]) -> Result<(), String> {
        let keys = &self.scopes[scope];
        self.dropped += 1;
        match opened(keys, datagram) {
            None => Ok(()),
            Some(_) => Err(format!("scope {} takes a forged datagram", keys.number)),
        }
    }
}

/// A datagram with one bit changed.
fn changed(datagram: &[u8], byte: usize) -> Vec<u8> {
    let mut datagram = datagram.to_vec();
    datagram[byte] ^= 1;
    datagram
}
