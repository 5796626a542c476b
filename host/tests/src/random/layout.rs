//! Packets of every kind, whole and damaged, and bytes that were never a packet.

use super::damage::damage;
use super::packets::World;
use super::source::Source;
use crate::check::{Run, Seen};
use crate::kinds::{carries_none, emptied, kind};
use crate::text::hex;
use cendrulas::Answer;
use shelf::packet::{decode, Body};

/// Packets of one world of stamps.
const LIFE: usize = 500;

pub fn all(run: &mut Run, source: &mut Source, inputs: usize) {
    for life in 0..inputs / LIFE {
        let t = 1 + (life % 4) as u8;
        let world = World::new(source, t);
        for _ in 0..LIFE {
            let packet = packet(source, &world, 3 * t + 1);
            let answer = cendrulas::packet_check(&packet);
            let due = decode(&packet).map_or(Answer::refused(7), |_| Answer::wrote(0));
            run.same(
                || format!("layout of {}", hex(&packet)),
                Seen { answer, buffers: &[] },
                Seen { answer: due, buffers: &[] },
            );
            run.kinds.saw("packet check", kind(&answer, || emptied(format!("kind {}", packet[0]), carries_none(&packet))));
            code(run, &packet);
        }
    }
}

/// What a reply to a store says, and that other packets say nothing.
fn code(run: &mut Run, packet: &[u8]) {
    let answer = cendrulas::store_code(packet);
    let due = match decode(packet).map(|packet| packet.body) {
        None => Answer::refused(7),
        Some(Body::StoreReply(code)) => Answer { result: 1, ..Answer::wrote(code.into()) },
        Some(_) => Answer::wrote(0),
    };
    run.also(
        || format!("code of {}", hex(packet)),
        Seen { answer, buffers: &[] },
        Seen { answer: due, buffers: &[] },
    );
    run.kinds.saw("store code", kind(&answer, || if answer.result == 1 { format!("code {}", answer.count) } else { "none".into() }));
}

fn packet(source: &mut Source, world: &World, servers: u8) -> Vec<u8> {
    if source.once_in(10) {
        let length = source.below(60);
        let mut bytes = source.bytes(length);
        bytes.iter_mut().take(8).for_each(|byte| *byte %= 14);
        return bytes;
    }
    let (server, kind) = (source.within(1, servers as usize) as u8, source.within(1, 12) as u8);
    let mut packet = world.of_kind(source, server, kind);
    if source.once_in(2) {
        damage(source, &mut packet);
    }
    packet
}
