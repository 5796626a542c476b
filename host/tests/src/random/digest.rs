//! Messages of every short length and some long ones; short outputs and keys of wrong sizes.

use super::source::Source;
use crate::check::{Run, Seen, FILLER};
use crate::kinds::plainly;
use crate::plain;
use crate::text::hex;
use cendrulas::{Answer, DIGEST, TAG};

/// What makes bytes of a key and a message.
type Keyed = fn(&[u8], &[u8], &mut [u8]) -> Answer;

pub fn all(run: &mut Run, source: &mut Source, inputs: usize) {
    for k in 0..inputs {
        let length = match k % 50 {
            0 => source.within(0, 5_000),
            _ => source.within(0, 200),
        };
        let message = source.bytes(length);
        let size = if source.once_in(20) { source.below(70) } else { 32 };
        let key = source.bytes(size);
        match k % 3 {
            0 => digest(run, &message, room(source, DIGEST)),
            1 => keyed(run, "hmac", cendrulas::hmac, plain::hmac, &key, &message, room(source, DIGEST)),
            _ => keyed(run, "tag", cendrulas::tag, plain::tag, &key, &message, room(source, TAG)),
        }
    }
}

/// The length of an output for so many bytes, at times too short.
fn room(source: &mut Source, bytes: usize) -> usize {
    if source.once_in(20) {
        source.below(bytes)
    } else {
        source.within(bytes, bytes + 8)
    }
}

fn digest(run: &mut Run, message: &[u8], room: usize) {
    let (mut got, mut want) = (vec![FILLER; room], vec![FILLER; room]);
    let answers = (cendrulas::digest(message, &mut got), plain::digest(message, &mut want));
    run.same(
        || format!("digest of {}, room {room}", hex(message)),
        Seen { answer: answers.0, buffers: &[&got] },
        Seen { answer: answers.1, buffers: &[&want] },
    );
    run.kinds.saw("digest", plainly(&answers.0));
}

fn keyed(run: &mut Run, name: &'static str, ours: Keyed, plain: Keyed, key: &[u8], message: &[u8], room: usize) {
    let (mut got, mut want) = (vec![FILLER; room], vec![FILLER; room]);
    let answers = (ours(key, message, &mut got), plain(key, message, &mut want));
    run.same(
        || format!("{name} of {} under {}, room {room}", hex(message), hex(key)),
        Seen { answer: answers.0, buffers: &[&got] },
        Seen { answer: answers.1, buffers: &[&want] },
    );
    run.kinds.saw(name, plainly(&answers.0));
}
