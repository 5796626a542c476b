//! A shelf of four servers of which one may fail in any way (t = 1), all in one process. A scope reads the blank shelf, and then a record of no bytes,
//! which is another answer. One of some bytes is written, a server loses everything, and the record is still read. Then the writer goes on until the
//! shelf is full. Servers write their flash only where their memory changed; the scope keeps its state in flash with a checksum. docs/EMBEDDING.md
//! has this file; host/test runs it.

use cendrulas::{stored, Client, Keys, Refusal, Server, Stored, Taken, CONTENT_ROOM, PACKET_ROOM, SERVER_KEYS};
use std::collections::BTreeSet;
use std::io::Read;

const T: usize = 1;
const SERVERS: usize = 3 * T + 1;
const PASSES: usize = 8;

/// Bytes that nobody can guess. On a device: its random number generator.
fn unguessable<const N: usize>() -> [u8; N] {
    let mut bytes = [0; N];
    let source = std::fs::File::open("/dev/urandom").and_then(|mut source| source.read_exact(&mut bytes));
    source.expect("random numbers");
    bytes
}

/// CRC-32. A damaged state would go on unnoticed, with numbers that it has used before.
fn checksum(state: &[u8]) -> u32 {
    !state.iter().fold(!0, |crc, &byte| (0..8).fold(crc ^ u32::from(byte), |crc, _| crc >> 1 ^ (0xEDB8_8320 & (crc & 1).wrapping_neg())))
}

struct Scope {
    number: usize,
    client: Client,
    keys: Keys,
    /// State and checksum.
    flash: (Vec<u8>, u32),
}

impl Scope {
    fn new(number: usize, keys: Keys) -> Self {
        Scope { number, client: Client::new(T, number), keys, flash: (Vec::new(), 0) }
    }

    /// What the scope has taken in is durable before its next packet goes out. A refused step has changed nothing.
    fn kept<A>(&mut self, answer: Result<A, Refusal>) -> Result<A, Refusal> {
        if answer.is_ok() {
            self.flash = (self.client.state().to_vec(), checksum(self.client.state()));
        }
        answer
    }

    /// After a power cut. None: the flash is damaged, and this client never comes back under its number.
    fn restore(&mut self) -> Option<()> {
        let (state, kept) = &self.flash;
        self.client = Client::from_state(T, self.number, state).filter(|_| checksum(state) == *kept)?;
        Some(())
    }
}

struct Shelf {
    servers: Vec<Server>,
    flash: Vec<Vec<u8>>,
    packets: usize,
    flash_writes: usize,
}

/// How a call ended.
enum Ended {
    By(Taken),
    /// Given up, with so many servers that keep no more.
    Full(usize),
}

impl Shelf {
    /// What a server does with a packet that came in: act, make a changed memory durable, and send the reply.
    fn serve(&mut self, server: usize, packet: &[u8], reply: &mut [u8]) -> Result<usize, Refusal> {
        let served = self.servers[server - 1].take(packet, reply)?;
        self.packets += 1;
        if served.changed {
            self.flash[server - 1] = self.servers[server - 1].memory().to_vec();
            self.flash_writes += 1;
        }
        Ok(served.count)
    }

    /// Visits the servers by turns until the call in hand ends: the round's packet to each that has not replied in it, its reply back. A refused
    /// reply changes nothing. A write does not end while more than t servers are full: it is given up.
    fn finish(&mut self, scope: &mut Scope, content: &mut [u8]) -> Result<Ended, Refusal> {
        let (mut packet, mut reply) = (vec![0; PACKET_ROOM], vec![0; PACKET_ROOM]);
        let mut full = BTreeSet::new();
        for server in (1..=SERVERS).cycle().take(PASSES * SERVERS) {
            if scope.client.has_replied(server) {
                continue;
            }
            let made = scope.client.make(server, &mut packet)?;
            let Ok(count) = self.serve(server, &packet[..made], &mut reply) else { continue };
            let taken = scope.client.take(&scope.keys, &reply[..count], content);
            match scope.kept(taken) {
                Ok(Taken::GoesOn) => {}
                Ok(ended) => return Ok(Ended::By(ended)),
                Err(_) => continue,
            }
            if stored(&reply[..count]) == Some(Stored::Full) {
                full.insert(server); // it is asked again, and counts once
            }
            if full.len() > T {
                break;
            }
        }
        let given_up = scope.client.give_up();
        scope.kept(given_up).map(|_| Ended::Full(full.len()))
    }

    fn write(&mut self, scope: &mut Scope, record: &[u8]) -> Result<Ended, Refusal> {
        let begun = scope.client.begin_write(record, &unguessable());
        scope.kept(begun)?;
        self.finish(scope, &mut [0; CONTENT_ROOM])
    }

    fn read(&mut self, scope: &mut Scope, content: &mut [u8]) -> Result<Ended, Refusal> {
        let begun = scope.client.begin_read();
        scope.kept(begun)?;
        self.finish(scope, content)
    }
}

/// What a call has led to. A record of no bytes is told from a blank shelf by the answer, never by its length.
fn show(ended: &Ended) {
    match ended {
        Ended::By(Taken::Written(label)) => println!("written: number {} of scope {}", label.number, label.writer),
        Ended::By(Taken::Read(label, length)) => println!("read: number {} of scope {}, {length} bytes", label.number, label.writer),
        Ended::By(Taken::Blank) => println!("read: blank, nothing was written before"),
        _ => println!("given up"),
    }
}

fn main() -> Result<(), Refusal> {
    let keys = Keys { writers: unguessable(), servers: unguessable() };
    let key = |server: usize| keys.servers[32 * (server - 1)..32 * server].try_into().expect("32 bytes");
    let servers = (1..=SERVERS).map(|server| Server::blank(T, server, key(server))).collect::<Result<Vec<_>, _>>()?;
    let mut shelf = Shelf { servers, flash: vec![Vec::new(); SERVERS], packets: 0, flash_writes: 0 };
    let mut writer = Scope::new(1, keys.clone());
    let mut reader = Scope::new(9, Keys { writers: [0; 32], servers: [0; SERVER_KEYS] }); // clients 9 to 16 hold no keys
    let record = b"CH1 500 mV/div 20 us/div";
    let mut content = [0; CONTENT_ROOM];

    show(&shelf.read(&mut reader, &mut content)?);
    show(&shelf.write(&mut writer, b"")?); // a channel that is off
    show(&shelf.read(&mut reader, &mut content)?);
    show(&shelf.write(&mut writer, record)?);
    shelf.servers[1] = Server::blank(T, 2, key(2))?; // server 2 loses everything
    let read = shelf.read(&mut reader, &mut content)?;
    show(&read);
    let Ended::By(Taken::Read(_, length)) = read else { panic!("not read") };
    println!("{}", String::from_utf8_lossy(&content[..length]));
    assert_eq!(&content[..length], record);

    writer.flash.0[7] ^= 1;
    println!("a damaged state is {}", if writer.restore().is_some() { "taken" } else { "refused" });
    writer.flash.0[7] ^= 1;
    writer.restore().expect("a state that is whole");
    let mut writes = 2;
    let full = loop {
        match shelf.write(&mut writer, record)? {
            Ended::By(_) => writes += 1,
            Ended::Full(full) => break full,
        }
    };
    println!("the shelf is full after {writes} writes: {full} servers keep no more");
    println!("{} packets changed the memory of a server {} times", shelf.packets, shelf.flash_writes);
    Ok(())
}
