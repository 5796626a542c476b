//! A scope at work: one call over the network, from its beginning to its end.
//!
//! What the scope has taken in is durable before a packet goes out and before a result is shown. Steps that are lost with the power in between
//! have been seen by nobody: it is as if their packets had been late.

use crate::card::{Card, Durable};
use crate::keys::ScopeKeys;
use crate::link::{self, DATAGRAM};
use crate::serve::received;
use crate::{quorum, random, servers};
use cendrulas::{stored, Client, GivenUp, Label, Refusal, Round, Stored, Taken, CONTENT_ROOM, PACKET_ROOM};
use std::net::{IpAddr, Ipv4Addr, Ipv6Addr, SocketAddr, UdpSocket};
use std::time::{Duration, Instant};

/// After so long without the end of a round, boxes that have not replied are asked again.
pub const AGAIN: Duration = Duration::from_millis(200);

/// How a call ended.
#[derive(Debug, PartialEq, Eq)]
pub enum Outcome {
    Saved(Label),
    Shown(Label, Vec<u8>),
    Blank,
    /// `full`: how many boxes have said that they keep no more records.
    GivenUp { round: Round, replies: usize, how: GivenUp, full: usize },
}

pub struct Scope<D = Card> {
    client: Client,
    keys: ScopeKeys,
    card: D,
    /// Whether the client's state is newer than the card.
    ahead: bool,
    /// The boxes that have said, in this call, that they are full.
    full: Vec<u8>,
}

impl Scope {
    /// A scope that was never used.
    pub fn create(card: Card, keys: ScopeKeys) -> Result<Self, String> {
        let client = Client::new(keys.t, keys.number);
        card.create(&content(&client, &keys))?;
        Ok(Scope { client, keys, card, ahead: false, full: Vec::new() })
    }
}

impl<D: Durable> Scope<D> {
    /// A scope as its card has it. `durable` makes of the card what the scope keeps its state in: the card itself.
    pub fn restore(card: Card, keys: ScopeKeys, durable: fn(Card) -> D) -> Result<Self, String> {
        let content = card.read()?;
        let own = content.strip_prefix(&[keys.t as u8, keys.number as u8][..]);
        let client = own.and_then(|state| Client::from_state(keys.t, keys.number, state));
        let client = client.ok_or_else(|| format!("the state is not that of scope {} with t = {}", keys.number, keys.t))?;
        Ok(Scope { client, keys, card: durable(card), ahead: false, full: Vec::new() })
    }

    pub fn begin_save(&mut self, record: &[u8]) -> Result<(), String> {
        let begun = self.client.begin_write(record, &random::unguessable()?);
        self.accepted(begun, "the save")
    }

    pub fn begin_load(&mut self) -> Result<(), String> {
        let begun = self.client.begin_read();
        self.accepted(begun, "the load")
    }

    pub fn in_hand(&self) -> bool {
        self.client.round() != Round::None
    }

    pub fn give_up(&mut self) -> Result<Outcome, String> {
        let (round, replies) = (self.client.round(), self.client.replies());
        let given_up = self.client.give_up();
        let how = self.accepted(given_up, "giving up")?;
        self.keep()?;
        Ok(Outcome::GivenUp { round, replies, how, full: self.full.len() })
    }

    fn accepted<A>(&mut self, answer: Result<A, Refusal>, what: &str) -> Result<A, String> {
        self.ahead |= answer.is_ok();
        answer.map_err(|refusal| match refusal {
            Refusal::Client => format!("scope {} only loads", self.keys.number),
            Refusal::ContentLength => format!("a record has at most {CONTENT_ROOM} bytes"),
            Refusal::WrongMoment => "a call is in hand: `scope finish` goes on with it, `scope give-up` gives it up".to_owned(),
            other => format!("{what} was refused: {other}"),
        })
    }

    /// Makes the state durable.
    fn keep(&mut self) -> Result<(), String> {
        if self.ahead {
            self.card.replace(&content(&self.client, &self.keys))?;
            self.ahead = false;
        }
        Ok(())
    }

    /// Carries the call in hand to its end, or gives it up when the time is over, or when so many boxes are full that it cannot end. Box i is
    /// at `boxes[i-1]`.
    pub fn finish(&mut self, socket: &UdpSocket, boxes: &[SocketAddr], time: Duration) -> Result<Outcome, String> {
        let end = Instant::now() + time;
        let mut datagram = [0; DATAGRAM + 1];
        self.full.clear();
        while Instant::now() < end && self.full.len() <= self.keys.t {
            self.ask(socket, boxes)?;
            let again = end.min(Instant::now() + AGAIN);
            let round = self.client.round();
            while self.client.round() == round && self.full.len() <= self.keys.t && Instant::now() < again {
                let left = again.saturating_duration_since(Instant::now()).max(Duration::from_millis(1));
                socket.set_read_timeout(Some(left)).map_err(|e| e.to_string())?;
                let Some((n, _)) = received(socket.recv_from(&mut datagram))? else { continue };
                if let Some(outcome) = self.take(&datagram[..n])? {
                    return Ok(outcome);
                }
            }
        }
        self.give_up()
    }

    /// The round's packet to every box that has not replied in it.
    fn ask(&mut self, socket: &UdpSocket, boxes: &[SocketAddr]) -> Result<(), String> {
        self.keep()?;
        let mut packet = [0; PACKET_ROOM];
        for (server, address) in (1..).zip(boxes) {
            if self.client.has_replied(server) {
                continue;
            }
            let made = self.client.make(server, &mut packet).map_err(|e| format!("no packet can be made for a box: {e}"))?;
            let key = self.keys.link(server).ok_or("a box without a link")?;
            // A box that can't be reached now is asked again later, like one that is slow.
            let _ = socket.send_to(&link::seal(&key, &packet[..made]), address);
        }
        Ok(())
    }

    /// Takes a reply. What is refused is dropped: it changes nothing.
    fn take(&mut self, datagram: &[u8]) -> Result<Option<Outcome>, String> {
        let Some(packet) = opened(&self.keys, datagram) else { return Ok(None) };
        let mut record = vec![0; CONTENT_ROOM];
        let taken = match self.client.take(&self.keys.lent, packet, &mut record) {
            Ok(taken) => taken,
            Err(Refusal::NumbersUsedUp) => return Err("the stamps' numbers are used up: give up this save".to_owned()),
            Err(_) => return Ok(None),
        };
        self.ahead = true;
        if stored(packet) == Some(Stored::Full) && !self.full.contains(&packet[2]) {
            self.full.push(packet[2]);
        }
        let outcome = match taken {
            Taken::GoesOn => return Ok(None),
            Taken::Written(label) => Outcome::Saved(label),
            Taken::Read(label, count) => {
                record.truncate(count);
                Outcome::Shown(label, record)
            }
            Taken::Blank => Outcome::Blank,
        };
        self.keep()?;
        Ok(Some(outcome))
    }

    /// How many replies end a round, to be shown with an outcome.
    pub fn quorum(&self) -> usize {
        quorum(self.keys.t)
    }

    pub fn boxes(&self) -> usize {
        servers(self.keys.t)
    }
}

/// The packet in a datagram, if it is one for this scope and really from the box that it names.
pub fn opened<'a>(keys: &ScopeKeys, datagram: &'a [u8]) -> Option<&'a [u8]> {
    link::open(datagram, |scope, server| if scope == keys.number { keys.link(server) } else { None })
}

/// A scope's card: t, its number, and the client's state.
fn content(client: &Client, keys: &ScopeKeys) -> Vec<u8> {
    [&[keys.t as u8, keys.number as u8], client.state()].concat()
}

/// A socket from which these boxes can be reached; where all are on this machine, one that nobody else can reach.
pub fn socket(boxes: &[SocketAddr]) -> Result<UdpSocket, String> {
    let local = boxes.iter().all(|address| address.ip().is_loopback());
    let ip: IpAddr = match (boxes.iter().all(SocketAddr::is_ipv4), local) {
        (true, true) => Ipv4Addr::LOCALHOST.into(),
        (true, false) => Ipv4Addr::UNSPECIFIED.into(),
        (false, true) => Ipv6Addr::LOCALHOST.into(),
        (false, false) => Ipv6Addr::UNSPECIFIED.into(),
    };
    UdpSocket::bind((ip, 0)).map_err(|e| format!("no socket: {e}"))
}
