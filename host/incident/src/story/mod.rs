//! The teacher's case, on processes: four boxes, a desk that saves and two tables that load. The network carries packets in a fixed order. Beside
//! each table's client the old rule looks at the same replies.

mod frame;
pub mod listing;
pub mod network;
pub mod picture;
pub mod shelf;
mod svg;

use crate::old_rule::{self, OldLoad};
use crate::packet::{self, CLOCK, COLLECT, COMPLETE, FILTER, STORE};
use network::Network;
use shelf::{Running, Shelf};
use std::fs;

const T: usize = 1;
pub const BOXES: usize = 3 * T + 1;
pub const DESK: usize = 1;
pub const FOUR: usize = 4;
pub const SIX: usize = 6;
/// The box with the worn card.
pub const WORN: usize = 4;
/// The box that the new save does not reach.
pub const MISSED: usize = 3;
const SECONDS: u64 = 20;

pub const OLD_RECORD: &[u8] = b"RC filter, reference trace of last week";
pub const NEW_RECORD: &[u8] = b"RC filter, reference trace of today";

/// What happened, in order.
#[derive(Clone, Debug, PartialEq, Eq)]
pub enum Happening {
    /// A chapter of the story.
    Chapter(&'static str),
    /// A scope's round begins: its question goes out to all boxes, so often.
    Asks { scope: usize, kind: u8, copies: usize, lost: Option<usize> },
    /// A box answers a question, and the reply arrives.
    Visit { scope: usize, kind: u8, server: usize, again: bool, says: Says },
    GoesBack { server: usize },
    Shows { scope: usize, whose: Whose, record: Record },
}

#[derive(Clone, Copy, Debug, PartialEq, Eq)]
pub enum Whose {
    Saved,
    Ours,
    OldRule,
}

#[derive(Clone, Copy, Debug, PartialEq, Eq)]
pub enum Record {
    Blank,
    Old,
    New,
}

/// What a reply says.
#[derive(Clone, Copy, Debug, PartialEq, Eq)]
pub enum Says {
    /// Its latest record.
    Latest(Record),
    /// The highest record of the list that is right, and whether its fragment comes along.
    Filtered(Record, bool),
    /// That it has done so.
    Done,
}

impl Record {
    /// The desk saves last week's record as number 1 and today's as number 2.
    fn of(number: u32) -> Record {
        [Record::Blank, Record::Old].get(number as usize).copied().unwrap_or(Record::New)
    }
}

fn says(kind: u8, reply: &[u8]) -> Says {
    let record = Record::of(packet::stamp_number(reply).unwrap_or(0));
    match kind {
        CLOCK | COLLECT => Says::Latest(record),
        FILTER => Says::Filtered(record, packet::has_fragment(reply)),
        _ => Says::Done,
    }
}

struct Play {
    shelf: Shelf,
    network: Network,
    boxes: Vec<Option<Running>>,
    told: Vec<Happening>,
}

/// Plays the story. An error where a screen shows something else than it must.
pub fn play() -> Result<(Vec<Happening>, usize), String> {
    let mut play = Play::new()?;
    let copy = play.last_week()?;
    play.partial_save()?;
    play.told.push(Happening::Chapter("Box 4's card is worn: it goes back to last week's state."));
    play.goes_back(&copy)?;
    play.table_four()?;
    play.told.push(Happening::Chapter("A worn card keeps nothing: box 4 is switched off and on, and has last week's state again."));
    play.goes_back(&copy)?;
    play.table_six()?;
    Ok((play.told, play.network.carried))
}

impl Play {
    fn new() -> Result<Self, String> {
        let shelf = Shelf::new(T)?;
        [DESK, FOUR, SIX].iter().try_for_each(|&scope| shelf.new_scope(scope))?;
        let started = (1..=BOXES).map(|server| shelf.start_box(server)).collect::<Result<Vec<_>, _>>()?;
        let (boxes, addresses) = started.into_iter().map(|(process, at)| (Some(process), at)).unzip();
        Ok(Play { shelf, network: Network::new(addresses)?, boxes, told: Vec::new() })
    }

    /// A round of a call: its questions go out, and the boxes are visited in this order.
    fn round(&mut self, scope: usize, kind: u8, visits: &[usize]) -> Result<(), String> {
        self.network.wait_for(scope, kind, 1)?;
        let lost = (1..=BOXES).find(|server| !visits.contains(server));
        self.told.push(Happening::Asks { scope, kind, copies: 1, lost });
        visits.iter().try_for_each(|&server| self.visit(scope, kind, server, false).map(|_| ()))
    }

    fn visit(&mut self, scope: usize, kind: u8, server: usize, again: bool) -> Result<Vec<u8>, String> {
        let reply = self.network.visit(scope, kind, server)?;
        self.told.push(Happening::Visit { scope, kind, server, again, says: says(kind, &reply) });
        Ok(reply)
    }

    fn save(&mut self, record: &[u8], as_record: Record, rounds: [&[usize]; 3]) -> Result<(), String> {
        let mut call = self.shelf.start_call(DESK, &self.network.addresses()?, SECONDS, Some(record))?;
        for (kind, visits) in [CLOCK, STORE, COMPLETE].into_iter().zip(rounds) {
            self.round(DESK, kind, visits)?;
        }
        let (out, said, fine) = call.ended()?;
        if !fine || !out.starts_with(b"saved on the shelf") {
            return Err(format!("the save did not end: {said}"));
        }
        self.told.push(Happening::Shows { scope: DESK, whose: Whose::Saved, record: as_record });
        self.network.lose_all();
        Ok(())
    }

    /// Last week's record reaches all boxes. A copy of the worn card as it is then.
    fn last_week(&mut self) -> Result<Vec<u8>, String> {
        self.told.push(Happening::Chapter("Last week the desk (scope 1) saves the old trace. It reaches every box."));
        self.save(OLD_RECORD, Record::Old, [&[1, 2, 3, 4], &[1, 2, 3, 4], &[1, 2, 3, 4]])?;
        fs::read(self.shelf.card(WORN)).map_err(|e| e.to_string())
    }

    fn partial_save(&mut self) -> Result<(), String> {
        self.told.push(Happening::Chapter("Today the desk saves the new trace. Its packets to box 3 are lost; three boxes are enough."));
        self.save(NEW_RECORD, Record::New, [&[1, 2, 4], &[1, 2, 4], &[1, 2, 4]])
    }

    /// The box is killed, its card file is last week's, and it is started again.
    fn goes_back(&mut self, copy: &[u8]) -> Result<(), String> {
        if let Some(mut process) = self.boxes[WORN - 1].take() {
            process.kill()?;
        }
        fs::write(self.shelf.card(WORN), copy).map_err(|e| e.to_string())?;
        let (process, at) = self.shelf.start_box(WORN)?;
        self.boxes[WORN - 1] = Some(process);
        self.network.boxes[WORN - 1] = at;
        self.told.push(Happening::GoesBack { server: WORN });
        Ok(())
    }

    fn table_four(&mut self) -> Result<(), String> {
        self.told.push(Happening::Chapter("Table four (scope 4) loads. The network is slow, so it asks every box twice."));
        self.load(FOUR, [(1, false), (2, false), (1, true)], Record::New, 4, &[1, 2, 4])
    }

    fn table_six(&mut self) -> Result<(), String> {
        self.told.push(Happening::Chapter("Table six (scope 6) loads, after table four's screen has shown the new trace. It too asks twice."));
        self.load(SIX, [(3, false), (4, false), (4, true)], Record::Old, 1, &[3, 4, 1, 2])
    }

    /// A load: three replies that match, by which the old rule decides; then the reply that ends our client's first round, and its second round.
    fn load(&mut self, scope: usize, matching: [(usize, bool); 3], old_shows: Record, next: usize, filter: &[usize]) -> Result<(), String> {
        let mut call = self.shelf.start_call(scope, &self.network.addresses()?, SECONDS, None)?;
        self.network.wait_for(scope, COLLECT, old_rule::ASKS)?;
        self.told.push(Happening::Asks { scope, kind: COLLECT, copies: old_rule::ASKS, lost: None });
        let mut old_load = OldLoad::default();
        let mut shown = None;
        for (server, again) in matching {
            let reply = self.visit(scope, COLLECT, server, again)?;
            shown = shown.or(old_load.take(&reply));
        }
        let record = Record::of(shown.ok_or("no three replies match")?);
        self.told.push(Happening::Shows { scope, whose: Whose::OldRule, record });
        self.visit(scope, COLLECT, next, false)?;
        self.round(scope, FILTER, filter)?;
        let (out, said, fine) = call.ended()?;
        if !fine || out != NEW_RECORD || record != old_shows {
            return Err(format!("scope {scope} did not show what it must: {said}"));
        }
        self.told.push(Happening::Shows { scope, whose: Whose::Ours, record: Record::New });
        self.network.lose_all();
        Ok(())
    }
}
