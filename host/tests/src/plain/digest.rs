use super::WRONG_SIZE;
use cendrulas::Answer;
use shelf::{hmac, sha256};

pub fn digest(message: &[u8], out: &mut [u8]) -> Answer {
    put(sha256::digest(message), out)
}

pub fn hmac(key: &[u8], message: &[u8], out: &mut [u8]) -> Answer {
    match key.try_into() {
        Ok(key) => put(hmac::hmac(key, message), out),
        Err(_) => Answer::refused(WRONG_SIZE),
    }
}

pub fn tag(key: &[u8], message: &[u8], out: &mut [u8]) -> Answer {
    match key.try_into() {
        Ok(key) => put(hmac::tag(key, message), out),
        Err(_) => Answer::refused(WRONG_SIZE),
    }
}

fn put<const N: usize>(bytes: [u8; N], out: &mut [u8]) -> Answer {
    match out.first_chunk_mut() {
        Some(front) => {
            *front = bytes;
            Answer::wrote(N)
        }
        None => Answer::refused(WRONG_SIZE),
    }
}
