//! Steps of servers whose memory grows, is full, or is damaged.

use super::damage::{change, damage};
use super::packets::World;
use super::source::Source;
use crate::check::{Run, Seen, FILLER};
use crate::kinds::{plainly, reply};
use crate::plain;
use crate::text::hex;
use shelf::stamp::STAMP;

const MEMORY: usize = 40_960;
/// Steps before a server is made anew: enough to fill its history.
const LIFE: usize = 250;

pub fn all(run: &mut Run, source: &mut Source, inputs: usize) {
    for life in 0..inputs / LIFE {
        let t = 1 + (life % 4) as u8;
        let server = source.within(1, 3 * t as usize + 1);
        let world = World::new(source, t);
        let mut memory = vec![FILLER; MEMORY];
        blank(run, &mut memory, t.into(), server);
        for _ in 0..LIFE {
            one(run, source, &world, server as u8, &mut memory);
        }
        refused_blank(run, source, &memory);
    }
}

fn one(run: &mut Run, source: &mut Source, world: &World, server: u8, memory: &mut Vec<u8>) {
    let mut packet = world.packet(source, server);
    if source.once_in(6) {
        damage(source, &mut packet);
    }
    let room = if source.once_in(20) { *source.pick(&[0, 6_399, 7_000]) } else { 6_400 };
    let key = &[server; 33][..if source.once_in(100) { *source.pick(&[0, 31, 33]) } else { 32 }];
    if source.once_in(8) {
        let mut injured = memory.clone();
        injure(source, &mut injured);
        step(run, &mut injured, key, &packet, room);
    } else {
        step(run, memory, key, &packet, room);
    }
}

/// Damage to a memory: of its fields, of a stored stamp (so that it may be held twice), of its zero tail or of its length.
fn injure(source: &mut Source, memory: &mut Vec<u8>) {
    match source.below(8) {
        0 => memory.truncate(MEMORY - 1),
        1 => memory.push(0),
        2 => {
            let at = source.within(MEMORY - 5_000, MEMORY - 1);
            memory[at] = source.byte();
        }
        3 | 4 => change(source, memory, 3),
        5 => {
            let (from, to) = (source.below(3_000), source.within(40, 6_000));
            memory.copy_within(from..from + STAMP, to);
        }
        _ => change(source, memory, 12_000),
    }
}

fn step(run: &mut Run, memory: &mut Vec<u8>, key: &[u8], packet: &[u8], room: usize) {
    let before = memory.clone();
    let mut plain_memory = before.clone();
    let (mut got, mut want) = (vec![FILLER; room], vec![FILLER; room]);
    let answer = cendrulas::server_take(memory, key, packet, &mut got);
    let plain = plain::server_take(&mut plain_memory, key, packet, &mut want);
    run.same(
        || format!("server with key {} takes {}, room {room}, memory {}", hex(key), hex(packet), hex(&before)),
        Seen { answer, buffers: &[memory, &got] },
        Seen { answer: plain, buffers: &[&plain_memory, &want] },
    );
    run.kinds.saw("server takes", reply(&answer, packet, &got));
}

fn blank(run: &mut Run, memory: &mut [u8], t: usize, server: usize) {
    let mut plain_memory = memory.to_vec();
    let answer = cendrulas::server_blank(memory, t, server);
    let plain = plain::server_blank(&mut plain_memory, t, server);
    run.same(
        || format!("blank t {t} server {server}, memory of {} bytes", memory.len()),
        Seen { answer, buffers: &[memory] },
        Seen { answer: plain, buffers: &[&plain_memory] },
    );
    run.kinds.saw("server is made blank", plainly(&answer));
}

fn refused_blank(run: &mut Run, source: &mut Source, memory: &[u8]) {
    let length = if source.once_in(3) { MEMORY - 1 } else { MEMORY };
    let (t, server) = (*source.pick(&[0, 1, 4, 5, 257]), *source.pick(&[0, 1, 5, 13, 14, 256 + 1]));
    blank(run, &mut memory[..length].to_vec(), t, server);
}
