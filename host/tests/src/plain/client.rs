use super::{answer, narrow};
use cendrulas::{Answer, Keys};
use shelf::client::{self, Outcome};
use shelf::Refusal;

/// A client of the plain shelf, for a legal t and number.
pub struct Client(client::Client);

impl Client {
    /// It has begun as many calls, and has none in hand.
    pub fn new(t: usize, number: usize, keys: &Keys, calls: u32) -> Self {
        let servers = std::array::from_fn(|i| keys.servers[32 * i..32 * (i + 1)].try_into().expect("32 bytes"));
        let keys = client::Keys::new(&keys.writers, &servers);
        Client(client::Client::new(narrow(t), narrow(number), Some(keys)).expect("legal").after(calls))
    }

    pub fn begin_write(&mut self, content: &[u8], nonce: &[u8; 32]) -> Answer {
        answer(self.0.begin_write(content, nonce).map(|()| 0))
    }

    pub fn begin_read(&mut self) -> Answer {
        answer(self.0.begin_read().map(|()| 0))
    }

    pub fn make(&self, server: usize, out: &mut [u8]) -> Answer {
        answer(self.0.packet(narrow(server), out))
    }

    pub fn take(&mut self, packet: &[u8], out: &mut [u8]) -> Answer {
        match self.0.take(packet, out) {
            Ok(Outcome::GoesOn) => Answer::wrote(0),
            Ok(Outcome::Written { number, writer }) => Answer { result: 1, number, writer, ..Answer::wrote(0) },
            Ok(Outcome::Read { number, writer, count }) => Answer { result: 2, number, writer, ..Answer::wrote(count) },
            Ok(Outcome::Blank) => Answer { result: 3, ..Answer::wrote(0) },
            Err(refusal) => Answer::refused(refusal as u8),
        }
    }

    pub fn give_up(&mut self) -> Answer {
        let given_up: Result<bool, Refusal> = self.0.give_up();
        match given_up {
            Ok(in_complete) => Answer { result: 4 + in_complete as u8, ..Answer::wrote(0) },
            Err(refusal) => Answer::refused(refusal as u8),
        }
    }
}
