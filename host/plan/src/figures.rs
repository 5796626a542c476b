//! The figures of a lab. Each length and each number of packets is one of the library's plans; here they are only named and added up.

use cendrulas::{plan, Plan, Refusal, Traffic, SERVER_MEMORY};
use std::ops::RangeInclusive;

/// What the buyer asks: boxes that may lie, bytes of a record, scopes that read together, and records that each box has kept.
#[derive(Clone, Copy)]
pub struct Lab {
    pub t: usize,
    pub length: usize,
    pub readers: usize,
    pub stores: usize,
}

pub struct Figures {
    pub lab: Lab,
    /// S, and k, the boxes whose fragments give a record back.
    pub boxes: usize,
    pub threshold: usize,
    /// The plans for one reader and for all of them.
    one: Plan,
    together: Plan,
    /// How many writes a box keeps in its life, and what they take.
    pub capacity: usize,
    pub memory_when_full: usize,
}

/// A packet: its name, its words, its kind and its bytes.
pub struct Packet {
    pub item: String,
    pub words: String,
    pub kind: usize,
    pub bytes: usize,
}

/// What a call moves: its name, its words, and bytes of requests and replies together, for one call and for one by each reader.
pub struct Moved {
    pub item: &'static str,
    pub words: &'static str,
    pub one: usize,
    pub together: Option<usize>,
}

/// The rounds in the order of their kinds: a request is of an odd kind, and its reply of the next one.
const ROUNDS: [&str; 6] = ["clock", "store", "complete", "collect", "filter", "repair"];

impl Figures {
    pub fn of(lab: Lab) -> Result<Self, Refusal> {
        let Lab { t, length, readers, stores } = lab;
        let together = plan(t, length, readers, stores)?;
        let one = plan(t, length, 1, stores)?;
        // a plan with one store more than a box keeps is refused
        let mut full = together;
        let mut capacity = stores;
        while let Ok(more) = plan(t, length, readers, capacity + 1) {
            (full, capacity) = (more, capacity + 1);
        }
        // a filter has at most as many candidates as there are boxes
        let boxes = (1..).take_while(|&count| one.filter(count).is_some()).count();
        Ok(Figures { lab, boxes, threshold: t + 1, one, together, capacity, memory_when_full: full.memory() })
    }

    /// The most candidates that a right reader's filter has: it has heard S - t boxes.
    pub fn most_candidates(&self) -> usize {
        self.boxes - self.lab.t
    }

    /// Every packet, by kind; a filter for each count of candidates and its reply for each form.
    pub fn packets(&self) -> Vec<Packet> {
        (1..=2 * ROUNDS.len())
            .flat_map(|kind| match (self.one.kind(kind), ROUNDS[(kind - 1) / 2]) {
                (None, _) => self.forms(kind),
                (Some(bytes), round) if kind % 2 == 1 => vec![Packet { item: round.into(), words: round.into(), kind, bytes }],
                (Some(bytes), round) => vec![Packet { item: format!("{round}_reply"), words: format!("{round} reply"), kind, bytes }],
            })
            .collect()
    }

    /// The packets of kind 9 or 10, which have no one length.
    fn forms(&self, kind: usize) -> Vec<Packet> {
        if kind == 9 {
            let words = |count: usize| format!("filter, {count} candidate{}", if count == 1 { "" } else { "s" });
            let filters = (0..).map_while(|count| self.one.filter(count).map(|bytes| (count, bytes)));
            return filters.map(|(count, bytes)| Packet { item: format!("filter.{count}"), words: words(count), kind, bytes }).collect();
        }
        let form = |with: &str, share: bool| Packet {
            item: format!("filter_reply.{with}_fragment"),
            words: format!("filter reply {with} a fragment"),
            kind,
            bytes: self.one.held(share),
        };
        vec![form("without", false), form("with", true)]
    }

    /// Numbers of packets: of a write, of one read and of a read by each reader, without and with repair.
    pub fn calls(&self) -> [(&'static str, &'static str, Traffic); 5] {
        [
            ("write", "a write", self.one.write()),
            ("read", "a read", self.one.reads()),
            ("repaired_read", "a repaired read", self.one.repaired()),
            ("reads", "reads by all readers", self.together.reads()),
            ("repaired_reads", "repaired reads by all readers", self.together.repaired()),
        ]
    }

    /// Bytes of a write and of reads. A read's depend on what it finds: the least, what is usual, and the most.
    pub fn moved(&self) -> Vec<Moved> {
        let read = |candidates: usize, share: bool| {
            let filter = self.one.filter(candidates).expect("at most S candidates");
            self.rounds(7..=8) + self.boxes * (filter + self.one.held(share))
        };
        let repair = self.rounds(11..=12);
        let (settled, most) = (read(1, true), read(self.most_candidates(), true));
        let row = |item, words, one| Moved { item, words, one, together: Some(self.lab.readers * one) };
        vec![
            Moved { item: "write", words: "write", one: self.rounds(1..=6), together: None },
            row("read.least", "read, least", read(0, false)),
            row("read.settled", "read, settled", settled),
            row("read.most", "read, most", most),
            row("repaired_read.settled", "repaired read, settled", settled + repair),
            row("repaired_read.most", "repaired read, most", most + repair),
        ]
    }

    /// Bytes of one packet of each of these kinds for every box.
    fn rounds(&self, kinds: RangeInclusive<usize>) -> usize {
        let each = |kind| self.one.kind(kind).expect("a kind with one length");
        self.boxes * kinds.map(each).sum::<usize>()
    }

    /// Bytes that the fields of a box's memory take.
    pub fn memory(&self) -> usize {
        self.together.memory()
    }

    pub fn more_writes(&self) -> usize {
        self.capacity - self.lab.stores
    }
}

/// Tenths of a percent of a box's memory, to the nearest.
pub fn tenths(bytes: usize) -> usize {
    (1_000 * bytes + SERVER_MEMORY / 2) / SERVER_MEMORY
}
