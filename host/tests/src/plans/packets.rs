//! The packets of real calls have the lengths and numbers of the plan: of writes, of reads by up to 16 clients, and of reads with repair.

use super::shelf::{Called, Shelf};
use super::shelves;
use crate::check::{Run, Seen};
use cendrulas::{packet_check, plan, Answer, Plan, Taken, Traffic};
use shelf::packet::HEAD;
use shelf::stamp::STAMP;

const ROUNDS: [&str; 6] = ["clock", "store", "complete", "collect", "filter", "repair"];
const READERS: usize = 16;
const NO_PACKETS: Traffic = Traffic { requests: 0, replies: 0 };

pub fn all(run: &mut Run) {
    for (t, length) in shelves() {
        let lab = Lab { t, length, servers: 3 * t + 1, plan: plan(t, length, 1, 0).expect("a legal plan") };
        lab.blank(run);
        lab.settled(run);
        lab.apart(run);
        lab.repaired(run);
        lab.layout(run);
    }
}

/// A shelf, a length, and their plan for one reader.
struct Lab {
    t: usize,
    length: usize,
    servers: usize,
    plan: Plan,
}

impl Lab {
    fn say(&self) -> String {
        format!("plan of t {} and {} bytes", self.t, self.length)
    }

    fn content(&self) -> Vec<u8> {
        (0..self.length).map(|i| (i * 37 % 251) as u8).collect()
    }

    fn everywhere(&self) -> Vec<usize> {
        (1..=self.servers).collect()
    }

    fn same<A: PartialEq + std::fmt::Debug>(&self, run: &mut Run, what: &str, got: A, want: A) {
        run.same(|| format!("{}: {what}", self.say()), Seen { answer: got, buffers: &[] }, Seen { answer: want, buffers: &[] });
    }

    /// Every packet of a call has its planned length; of each filter, the list has so many candidates.
    fn lengths(&self, run: &mut Run, called: &Called, candidates: usize) {
        for packet in called.requests.iter().chain(&called.replies) {
            let kind = usize::from(packet[0]);
            let (round, reply) = (ROUNDS[(kind - 1) / 2], if kind % 2 == 0 { " reply" } else { "" });
            let (form, due) = match kind {
                9 => ("", self.plan.filter(candidates)),
                10 if packet[HEAD + STAMP] == 1 => (" with a share", Some(self.plan.held(true))),
                10 => (" without a share", Some(self.plan.held(false))),
                _ => ("", self.plan.kind(kind)),
            };
            let name = format!("{round}{reply}{form}");
            self.same(run, &name, Some(packet.len()), due);
            run.kinds.saw("packet as planned", name);
        }
    }

    /// Nothing was ever written: no candidate, and no share.
    fn blank(&self, run: &mut Run) {
        let called = Shelf::new(self.t).read(9);
        self.same(run, "a blank read", called.ended, Taken::Blank);
        self.same(run, "packets of a blank read", called.traffic(), self.plan.reads());
        self.lengths(run, &called, 0);
    }

    /// One whole write, then reads by 1 to 16 clients: one candidate, and a share in every reply.
    fn settled(&self, run: &mut Run) {
        let mut shelf = Shelf::new(self.t);
        let write = shelf.write(1, &self.content(), &self.everywhere(), false);
        self.same(run, "a write ends", matches!(write.ended, Taken::Written(_)), true);
        self.same(run, "packets of a write", write.traffic(), self.plan.write());
        self.lengths(run, &write, 0);
        let mut sum = NO_PACKETS;
        for readers in 1..=READERS {
            let read = shelf.read(readers);
            self.same(run, "a read ends", self.was_read(&read), true);
            sum = added(sum, read.traffic());
            let due = plan(self.t, self.length, readers, 1).expect("a legal plan");
            self.same(run, "packets of reads", (sum, read.traffic()), (due.reads(), self.plan.reads()));
            self.lengths(run, &read, 1);
        }
    }

    /// Writes that complete at one server each, from the first to the last that a read hears: as many candidates as there are such writes.
    fn apart(&self, run: &mut Run) {
        let mut shelf = Shelf::new(self.t);
        for count in 1..=self.servers - self.t {
            shelf.write(count % 8 + 1, &self.content(), &[count], false);
            let read = shelf.copy().read(16);
            self.same(run, "a read ends", self.was_read(&read), true);
            self.lengths(run, &read, count);
        }
    }

    /// A writer that spoils its tags, then a read with repair by each of 1 to 16 clients. A repair mends the tags, so that each begins from the
    /// same memories.
    fn repaired(&self, run: &mut Run) {
        let mut shelf = Shelf::new(self.t);
        shelf.write(2, &self.content(), &self.everywhere(), true);
        let mut sum = NO_PACKETS;
        for readers in 1..=READERS {
            let read = shelf.copy().read(readers);
            self.same(run, "a repaired read ends", self.was_read(&read), true);
            sum = added(sum, read.traffic());
            let due = plan(self.t, self.length, readers, 1).expect("a legal plan");
            self.same(run, "packets of repaired reads", (sum, read.traffic()), (due.repaired(), self.plan.repaired()));
            self.lengths(run, &read, 1);
        }
    }

    fn was_read(&self, called: &Called) -> bool {
        matches!(called.ended, Taken::Read(_, count) if count == self.length)
    }

    /// A filter with any count of candidates up to S is a packet at its planned length, and one byte shorter or longer none; above S there is
    /// no plan.
    fn layout(&self, run: &mut Run) {
        let mut shelf = Shelf::new(self.t);
        let complete = shelf.write(1, &self.content(), &self.everywhere(), false).requests.pop().expect("a packet");
        for count in 0..=self.servers + 1 {
            let head = [9, 9, 1, self.t as u8, 0, 0, 0, 1, count as u8];
            let mut packet = [&head[..], &complete[HEAD..].repeat(count)].concat();
            let legal = count <= self.servers;
            let due = if legal { Answer::wrote(0) } else { Answer::refused(7) };
            self.same(run, "a filter's layout", (packet_check(&packet), self.plan.filter(count)), (due, legal.then_some(packet.len())));
            self.same(run, "a filter one byte too short", packet_check(&packet[..packet.len() - 1]), Answer::refused(7));
            packet.push(0);
            self.same(run, "a filter one byte too long", packet_check(&packet), Answer::refused(7));
        }
    }
}

fn added(sum: Traffic, more: Traffic) -> Traffic {
    Traffic { requests: sum.requests + more.requests, replies: sum.replies + more.replies }
}
