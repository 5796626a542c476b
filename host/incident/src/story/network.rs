//! The network of the story: every packet of a scope comes here first and goes on when the story says so, or never. It holds no key; it
//! can lose, delay and repeat, as networks do.

use crate::link::{self, DATAGRAM};
use crate::packet;
use std::io;
use std::net::{SocketAddr, UdpSocket};
use std::time::{Duration, Instant};

/// How long anything is waited for.
const PATIENCE: Duration = Duration::from_secs(10);

struct Question {
    from: SocketAddr,
    server: usize,
    datagram: Vec<u8>,
}

pub struct Network {
    /// Where scopes find box i: `fronts[i-1]`.
    fronts: Vec<UdpSocket>,
    /// Where this network talks to the boxes.
    back: UdpSocket,
    pub boxes: Vec<SocketAddr>,
    held: Vec<Question>,
    /// Packets that arrived, to boxes and to scopes.
    pub carried: usize,
}

fn local() -> Result<UdpSocket, String> {
    UdpSocket::bind("127.0.0.1:0").map_err(|e| format!("no socket: {e}"))
}

impl Network {
    pub fn new(boxes: Vec<SocketAddr>) -> Result<Self, String> {
        let fronts = boxes.iter().map(|_| local()).collect::<Result<Vec<_>, _>>()?;
        fronts.iter().try_for_each(|front| front.set_nonblocking(true)).map_err(|e| e.to_string())?;
        let back = local()?;
        back.set_read_timeout(Some(PATIENCE)).map_err(|e| e.to_string())?;
        Ok(Network { fronts, back, boxes, held: Vec::new(), carried: 0 })
    }

    /// The boxes' addresses as scopes get them.
    pub fn addresses(&self) -> Result<String, String> {
        let addresses = self.fronts.iter().map(|front| front.local_addr().map(|at| at.to_string())).collect::<io::Result<Vec<_>>>();
        Ok(addresses.map_err(|e| e.to_string())?.join(","))
    }

    /// Takes in what the scopes have sent so far.
    fn gather(&mut self) {
        let mut datagram = [0; DATAGRAM];
        for (k, front) in self.fronts.iter().enumerate() {
            while let Ok((n, from)) = front.recv_from(&mut datagram) {
                self.held.push(Question { from, server: k + 1, datagram: datagram[..n].to_vec() });
            }
        }
    }

    fn find(&self, scope: usize, kind: u8, server: usize) -> impl Iterator<Item = usize> + '_ {
        let wanted = move |question: &Question| {
            let packet = link::packet(&question.datagram).unwrap_or_default();
            question.server == server && packet.first() == Some(&kind) && packet::parties(packet) == Some((scope, server))
        };
        self.held.iter().enumerate().filter(move |(_, question)| wanted(question)).map(|(k, _)| k)
    }

    /// Waits until so many copies of a round's question to every box are here.
    pub fn wait_for(&mut self, scope: usize, kind: u8, copies: usize) -> Result<(), String> {
        let end = Instant::now() + PATIENCE;
        while Instant::now() < end {
            self.gather();
            if (1..=self.fronts.len()).all(|server| self.find(scope, kind, server).count() >= copies) {
                return Ok(());
            }
            std::thread::sleep(Duration::from_millis(1));
        }
        Err(format!("scope {scope} did not send its packets of kind {kind}"))
    }

    /// A question goes on to its box, and the reply back to the scope. The reply's packet.
    pub fn visit(&mut self, scope: usize, kind: u8, server: usize) -> Result<Vec<u8>, String> {
        let at = self.find(scope, kind, server).next().ok_or("a packet is not here")?;
        let question = self.held.remove(at);
        let mut reply = [0; DATAGRAM];
        self.back.send_to(&question.datagram, self.boxes[server - 1]).map_err(|e| e.to_string())?;
        let n = self.back.recv(&mut reply).map_err(|e| format!("box {server} does not reply: {e}"))?;
        self.fronts[server - 1].send_to(&reply[..n], question.from).map_err(|e| e.to_string())?;
        self.carried += 2;
        Ok(link::packet(&reply[..n]).ok_or("a reply is too short")?.to_vec())
    }

    /// What is still here is lost.
    pub fn lose_all(&mut self) {
        self.gather();
        self.held.clear();
    }
}
