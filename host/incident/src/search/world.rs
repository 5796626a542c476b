//! The library's steps on numbers: every memory, packet and state of a client that comes up is kept once and named by a number, and each step
//! is computed once. So a search can go over millions of orders, and every step in it is still the library's own.

use cendrulas::{server_blank, server_take, Client, Keys, Refusal, Taken as Step, CONTENT_ROOM, PACKET_ROOM, SERVER_KEYS, SERVER_MEMORY};
use super::RECORDS;
use std::collections::HashMap;

pub const T: usize = 1;
pub const BOXES: usize = 3 * T + 1;
pub type Id = u16;

/// Contents, each named by its place.
#[derive(Default)]
struct Table {
    contents: Vec<Vec<u8>>,
    ids: HashMap<Vec<u8>, Id>,
}

impl Table {
    fn id(&mut self, content: &[u8]) -> Id {
        if let Some(&id) = self.ids.get(content) {
            return id;
        }
        let id = Id::try_from(self.contents.len()).expect("few contents come up");
        self.contents.push(content.to_vec());
        self.ids.insert(content.to_vec(), id);
        id
    }
}

/// What is known of pairs of numbers.
struct Grid<T>(Vec<Vec<Option<T>>>);

impl<T: Copy> Grid<T> {
    fn get(&self, a: Id, b: Id) -> Option<T> {
        *self.0.get(usize::from(a))?.get(usize::from(b))?
    }

    fn set(&mut self, a: Id, b: Id, value: T) {
        let (a, b) = (usize::from(a), usize::from(b));
        self.0.resize_with(self.0.len().max(a + 1), Vec::new);
        let row = &mut self.0[a];
        row.resize(row.len().max(b + 1), None);
        row[b] = Some(value);
    }
}

/// What a client's step led to.
#[derive(Clone, Copy)]
pub struct Taken {
    pub client: Id,
    pub refused: bool,
    pub ended: Option<u32>,
    /// Whether another round began.
    pub next_round: bool,
}

pub struct World {
    keys: Keys,
    memories: Table,
    packets: Table,
    clients: Table,
    served: Grid<(Id, Id)>,
    taken: Grid<Taken>,
    made: Grid<Id>,
    loads: HashMap<u8, Id>,
}

/// A world with the drill's keys: box i's is 32 bytes of i, the writers' 32 bytes FFh.
impl Default for World {
    fn default() -> Self {
        let servers: [u8; SERVER_KEYS] = std::array::from_fn(|k| (k / 32) as u8 + 1);
        let keys = Keys { writers: [0xFF; 32], servers };
        let (memories, packets, clients) = Default::default();
        World { keys, memories, packets, clients, served: Grid(vec![]), taken: Grid(vec![]), made: Grid(vec![]), loads: HashMap::new() }
    }
}

impl World {
    pub fn blank(&mut self, server: usize) -> Id {
        let mut memory = vec![0; SERVER_MEMORY];
        assert_eq!(server_blank(&mut memory, T, server).refusal, 0);
        self.memories.id(&memory)
    }

    pub fn packet(&self, id: Id) -> &[u8] {
        &self.packets.contents[usize::from(id)]
    }

    /// A client by its number and state, as bytes: its number stands ahead of the state.
    fn client(&self, id: Id) -> Client {
        let bytes = &self.clients.contents[usize::from(id)];
        Client::from_state(T, usize::from(bytes[0]), &bytes[1..]).expect("a state has its length")
    }

    fn client_id(&mut self, number: u8, client: &Client) -> Id {
        self.clients.id(&[&[number], client.state()].concat())
    }

    /// A client begins a save of a record with a nonce of this byte. `from` is its state; none for one that was never used.
    pub fn begin_save(&mut self, number: u8, from: Option<Id>, record: &[u8], nonce: u8) -> Id {
        let mut client = from.map_or_else(|| Client::new(T, usize::from(number)), |id| self.client(id));
        client.begin_write(record, &[nonce; 32]).expect("a right save begins");
        self.client_id(number, &client)
    }

    /// A client that was never used begins a load.
    pub fn begin_load(&mut self, number: u8) -> Id {
        if let Some(&begun) = self.loads.get(&number) {
            return begun;
        }
        let mut client = Client::new(T, usize::from(number));
        client.begin_read().expect("a load begins");
        let begun = self.client_id(number, &client);
        self.loads.insert(number, begun);
        begun
    }

    pub fn round(&self, client: Id) -> u8 {
        self.client(client).round() as u8
    }

    /// A box takes a question: its memory afterwards, and the reply.
    pub fn serve(&mut self, memory: Id, packet: Id) -> (Id, Id) {
        if let Some(done) = self.served.get(memory, packet) {
            return done;
        }
        let mut bytes = self.memories.contents[usize::from(memory)].clone();
        let mut reply = vec![0; PACKET_ROOM];
        let question = &self.packets.contents[usize::from(packet)];
        let key = [question[2]; 32];
        let answer = server_take(&mut bytes, &key, question, &mut reply);
        assert_eq!(answer.refusal, 0, "right scopes' packets are accepted");
        let done = (self.memories.id(&bytes), self.packets.id(&reply[..answer.count]));
        self.served.set(memory, packet, done);
        done
    }

    /// A client takes a reply. The same reply once more is refused and changes nothing, so one copy of a reply is as good as many.
    pub fn take(&mut self, client: Id, packet: Id) -> Taken {
        if let Some(done) = self.taken.get(client, packet) {
            return done;
        }
        let mut after = self.client(client);
        let reply = &self.packets.contents[usize::from(packet)];
        let number = reply[1];
        let (round, (answer, record)) = (after.round(), step(&mut after, &self.keys, reply));
        if let Ok(Step::Read(label, _)) = answer {
            assert_eq!(record, RECORDS[label.number as usize - 1], "a load gives the record of its number, whole");
        }
        let kept = after.state().to_vec();
        assert!(step(&mut after, &self.keys, reply).0.is_err() && after.state() == kept, "a reply counts once");
        let ended = match answer {
            Ok(Step::Written(label) | Step::Read(label, _)) => Some(label.number),
            Ok(Step::Blank) => Some(0),
            Ok(Step::GoesOn) | Err(_) => None,
        };
        let next_round = after.round() != round && ended.is_none();
        let done = Taken { client: self.client_id(number, &after), refused: answer.is_err(), ended, next_round };
        self.taken.set(client, packet, done);
        done
    }

    /// The present round's packet for a box.
    pub fn make(&mut self, client: Id, server: usize) -> Id {
        if let Some(made) = self.made.get(client, server as Id) {
            return made;
        }
        let mut packet = vec![0; PACKET_ROOM];
        let length = self.client(client).make(server, &mut packet).expect("a call is in hand");
        let made = self.packets.id(&packet[..length]);
        self.made.set(client, server as Id, made);
        made
    }
}

fn step(client: &mut Client, keys: &Keys, reply: &[u8]) -> (Result<Step, Refusal>, Vec<u8>) {
    let mut record = vec![0; CONTENT_ROOM];
    let answer = client.take(keys, reply, &mut record);
    record.truncate(if let Ok(Step::Read(_, count)) = answer { count } else { 0 });
    (answer, record)
}
