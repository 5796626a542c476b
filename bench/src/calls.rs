//! Whole writes and reads: a client and all S servers in memory, packets go over as bytes.

use crate::{content, grouped};
use crate::sides::{Plain, Proved, RawKeys, Side};
use crate::table::{timed, Table};
use shelf::{boxes_of, PACKET_OUTPUT, RECORD_OUTPUT};
use std::hint::black_box;
use std::time::Duration;

/// As many writes as a history holds.
const WRITES: usize = 32;
/// What stands in an output where nothing was written.
const UNWRITTEN: u8 = 0xA5;

pub fn rows(table: &mut Table) {
    for length in [1_024, 0] {
        for t in [1, 4] {
            write(table, t, length);
            write_raw(table, t, length);
            read(table, t, length);
        }
    }
}

pub fn write(table: &mut Table, t: u8, length: usize) {
    let data = content(length);
    let (mut ours, mut plain) = (Shelf::<Proved>::new(t), Shelf::<Plain>::new(t));
    let name = format!("whole write of {}, 0 to 31 held, t = {t}", bytes(length));
    table.batches(&name, WRITES, || ours.writes(&data), || plain.writes(&data));
}

/// The same write against a plain client that keeps no prepared keys either.
fn write_raw(table: &mut Table, t: u8, length: usize) {
    let data = content(length);
    let (mut ours, mut plain) = (Shelf::<Proved>::new(t), Shelf::<RawKeys>::new(t));
    let name = format!("the same with raw keys on both sides, {}, t = {t}", bytes(length));
    table.batches(&name, WRITES, || ours.writes(&data), || plain.writes(&data));
}

pub fn read(table: &mut Table, t: u8, length: usize) {
    let data = content(length);
    let (mut ours, mut plain) = (Shelf::<Proved>::new(t), Shelf::<Plain>::new(t));
    ours.writes(&data);
    plain.writes(&data);
    let name = format!("whole read of {}, 32 held, t = {t}", bytes(length));
    table.row(&name, || ours.read(), || plain.read());
    let mut due = vec![UNWRITTEN; RECORD_OUTPUT];
    due[..length].copy_from_slice(&data);
    assert!(ours.out == due && plain.out == due, "{name}: not what was written");
}

/// A length in words.
fn bytes(length: usize) -> String {
    match length {
        0 => "no bytes".to_owned(),
        1 => "1 byte".to_owned(),
        _ => format!("{} bytes", grouped(length)),
    }
}

/// The packets on their way: one buffer for each server and direction.
struct Shelf<S: Side> {
    side: S,
    packets: Vec<(Vec<u8>, usize)>,
    replies: Vec<(Vec<u8>, usize)>,
    out: Vec<u8>,
}

impl<S: Side> Shelf<S> {
    fn new(t: u8) -> Self {
        let buffers = vec![(vec![0; PACKET_OUTPUT], 0); boxes_of(t)];
        Shelf { side: S::new(t), packets: buffers.clone(), replies: buffers, out: vec![UNWRITTEN; RECORD_OUTPUT] }
    }

    /// Writes to a blank shelf until it is full.
    fn writes(&mut self, data: &[u8]) -> Duration {
        self.side.blank();
        timed(|| {
            for k in 0..WRITES {
                self.side.begin_write(black_box(data), &[k as u8; 32]);
                assert_eq!(self.finish(true), 1);
            }
        })
    }

    fn read(&mut self) {
        self.side.begin_read();
        assert_eq!(self.finish(false), 2);
    }

    /// Rounds until the call gives its result.
    fn finish(&mut self, writer: bool) -> u8 {
        loop {
            let result = self.round(writer);
            if result != 0 {
                return result;
            }
        }
    }

    /// A packet to every server, every server acts, all replies go back; the client turns late ones down.
    fn round(&mut self, writer: bool) -> u8 {
        for (i, (packet, n)) in self.packets.iter_mut().enumerate() {
            *n = self.side.make(writer, i + 1, packet);
        }
        for (i, ((packet, n), (reply, count))) in self.packets.iter().zip(&mut self.replies).enumerate() {
            *count = self.side.serve(i + 1, &packet[..*n], reply);
        }
        let mut result = 0;
        for (reply, n) in &self.replies {
            result = result.max(self.side.take(writer, &reply[..*n], &mut self.out));
        }
        result
    }
}
