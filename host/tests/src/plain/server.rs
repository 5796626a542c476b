use super::{answer, narrow, WRONG_SIZE};
use cendrulas::Answer;
use shelf::boxes;

pub fn server_blank(memory: &mut [u8], t: usize, server: usize) -> Answer {
    answer(boxes::make_blank(memory, narrow(t), narrow(server)).map(|()| 0))
}

pub fn server_take(memory: &mut [u8], key: &[u8], packet: &[u8], out: &mut [u8]) -> Answer {
    let Ok(key) = key.try_into() else { return Answer::refused(WRONG_SIZE) };
    let before = memory.to_vec();
    let taken = answer(boxes::take(memory, key, packet, out));
    Answer { result: (memory != before) as u8, ..taken }
}
