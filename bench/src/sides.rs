//! One client that writes, one that reads and S servers, of the proved library or of the plain shelf.

use cendrulas::Taken;
use shelf::client::{Client, Keys, Outcome};
use shelf::{boxes, boxes_of, BOX_MEMORY, MAX_BOXES};
use std::hint::black_box;

pub trait Side {
    fn new(t: u8) -> Self;
    /// All servers blank again.
    fn blank(&mut self);
    fn begin_write(&mut self, content: &[u8], nonce: &[u8; 32]);
    fn begin_read(&mut self);
    fn make(&mut self, writer: bool, server: usize, out: &mut [u8]) -> usize;
    fn serve(&mut self, server: usize, packet: &[u8], out: &mut [u8]) -> usize;
    /// The call's result, 0 while it goes on; late replies are turned down with 0 too.
    fn take(&mut self, writer: bool, reply: &[u8], out: &mut [u8]) -> u8;
}

pub struct Proved {
    t: u8,
    keys: cendrulas::Keys,
    memories: Vec<Vec<u8>>,
    writer: cendrulas::Client,
    reader: cendrulas::Client,
}

impl Proved {
    fn client(&mut self, writer: bool) -> &mut cendrulas::Client {
        if writer {
            &mut self.writer
        } else {
            &mut self.reader
        }
    }
}

impl Side for Proved {
    fn new(t: u8) -> Self {
        Proved {
            t,
            keys: cendrulas::Keys { writers: [0xFF; 32], servers: std::array::from_fn(|i| (i / 32) as u8 + 1) },
            memories: vec![vec![0; BOX_MEMORY]; boxes_of(t)],
            writer: cendrulas::Client::new(t.into(), 1),
            reader: cendrulas::Client::new(t.into(), 9),
        }
    }

    fn blank(&mut self) {
        for (i, memory) in self.memories.iter_mut().enumerate() {
            cendrulas::server_blank(memory, self.t.into(), i + 1);
        }
    }

    fn begin_write(&mut self, content: &[u8], nonce: &[u8; 32]) {
        self.writer.begin_write(content, nonce).expect("legal");
    }

    fn begin_read(&mut self) {
        self.reader.begin_read().expect("legal");
    }

    fn make(&mut self, writer: bool, server: usize, out: &mut [u8]) -> usize {
        self.client(writer).make(server, out).expect("legal")
    }

    fn serve(&mut self, server: usize, packet: &[u8], out: &mut [u8]) -> usize {
        cendrulas::server_take(&mut self.memories[server - 1], &[server as u8; 32], packet, out).count
    }

    fn take(&mut self, writer: bool, reply: &[u8], out: &mut [u8]) -> u8 {
        let client = if writer { &mut self.writer } else { &mut self.reader };
        match client.take(&self.keys, reply, out) {
            Ok(Taken::Written(_)) => 1,
            Ok(Taken::Read(..)) => 2,
            Ok(Taken::Blank) => 3,
            Ok(Taken::GoesOn) | Err(_) => 0,
        }
    }
}

pub struct Plain {
    t: u8,
    memories: Vec<Vec<u8>>,
    writer: Client,
    reader: Client,
}

impl Plain {
    fn client(&mut self, writer: bool) -> &mut Client {
        if writer {
            &mut self.writer
        } else {
            &mut self.reader
        }
    }
}

const WRITERS: [u8; 32] = [0xFF; 32];

fn box_keys() -> [[u8; 32]; MAX_BOXES] {
    std::array::from_fn(|i| [i as u8 + 1; 32])
}

impl Side for Plain {
    fn new(t: u8) -> Self {
        Plain {
            t,
            memories: vec![vec![0; BOX_MEMORY]; boxes_of(t)],
            writer: Client::new(t, 1, Some(Keys::new(&WRITERS, &box_keys()))).expect("legal"),
            reader: Client::new(t, 9, None).expect("legal"),
        }
    }

    fn blank(&mut self) {
        for (i, memory) in self.memories.iter_mut().enumerate() {
            boxes::make_blank(memory, self.t, i as u8 + 1).expect("legal");
        }
    }

    fn begin_write(&mut self, content: &[u8], nonce: &[u8; 32]) {
        self.writer.begin_write(content, nonce).expect("legal");
    }

    fn begin_read(&mut self) {
        self.reader.begin_read().expect("legal");
    }

    fn make(&mut self, writer: bool, server: usize, out: &mut [u8]) -> usize {
        self.client(writer).packet(server as u8, out).expect("legal")
    }

    fn serve(&mut self, server: usize, packet: &[u8], out: &mut [u8]) -> usize {
        boxes::take(&mut self.memories[server - 1], &[server as u8; 32], packet, out).expect("legal")
    }

    fn take(&mut self, writer: bool, reply: &[u8], out: &mut [u8]) -> u8 {
        match self.client(writer).take(reply, out) {
            Ok(Outcome::Written { .. }) => 1,
            Ok(Outcome::Read { .. }) => 2,
            Ok(Outcome::Blank) => 3,
            Ok(Outcome::GoesOn) | Err(_) => 0,
        }
    }
}

/// The plain shelf with a writer that prepares its keys for each write, as the proved library does: it gets them raw with each call.
pub struct RawKeys {
    plain: Plain,
    keys: [[u8; 32]; MAX_BOXES],
}

impl Side for RawKeys {
    fn new(t: u8) -> Self {
        RawKeys { plain: Plain::new(t), keys: box_keys() }
    }

    fn blank(&mut self) {
        self.plain.blank();
    }

    fn begin_write(&mut self, content: &[u8], nonce: &[u8; 32]) {
        self.plain.writer.set_keys(Keys::of_shelf(self.plain.t, black_box(&WRITERS), black_box(&self.keys)));
        self.plain.begin_write(content, nonce);
    }

    fn begin_read(&mut self) {
        self.plain.begin_read();
    }

    fn make(&mut self, writer: bool, server: usize, out: &mut [u8]) -> usize {
        self.plain.make(writer, server, out)
    }

    fn serve(&mut self, server: usize, packet: &[u8], out: &mut [u8]) -> usize {
        self.plain.serve(server, packet, out)
    }

    fn take(&mut self, writer: bool, reply: &[u8], out: &mut [u8]) -> u8 {
        self.plain.take(writer, reply, out)
    }
}
