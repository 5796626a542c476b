//! What the search says, as text.

use super::orders::Orders;
use super::state::{Event, Rule, Story, TABLE_FOUR, TABLE_SIX};
use super::world::{World, BOXES, T};
use super::{all, first_state, shortest, Found};
use crate::old_rule;
use crate::story::listing::round_name;
use std::sync::Mutex;

/// A row of the table: which story is gone through.
#[derive(Clone, Copy)]
struct Row {
    rule: Rule,
    bad: &'static [usize],
    save_first: bool,
}

impl Row {
    fn words(&self) -> [String; 3] {
        let rule = if self.rule == Rule::Ours { "ours" } else { "old" };
        let bad = match self.bad {
            [] => "none".to_owned(),
            bad => bad.iter().map(usize::to_string).collect::<Vec<_>>().join(", "),
        };
        let begins = if self.save_first { "after the save" } else { "at any time" };
        [rule.to_owned(), bad, begins.to_owned()]
    }

    /// Whether a search found what it must. Our client never shows an older record, no old one after a save that has ended, and never waits for ever.
    /// The old rule fails with a bad box, and our client with more bad boxes than the shelf bears.
    fn as_due(&self, found: &Found) -> bool {
        if self.bad.len() > T {
            return found.older > 0;
        }
        match self.rule {
            Rule::Old => (found.older > 0) == (!self.bad.is_empty() || !self.save_first),
            Rule::Ours => found.older == 0 && found.waiting == 0 && !(self.save_first && found.old_at_four > 0),
        }
    }
}

/// The rows. The first ones are the teacher's story, where the save has ended; the others let it go on while tables load. The last one shows that
/// the search would find an order in which our client fails.
fn rows() -> Vec<Row> {
    let bad: [&[usize]; 5] = [&[], &[1], &[2], &[3], &[4]];
    let each = |rule, save_first| bad.map(|bad| Row { rule, bad, save_first });
    let mut rows = [each(Rule::Old, true), each(Rule::Ours, true)].concat();
    rows.push(Row { rule: Rule::Old, bad: &[], save_first: false });
    rows.extend(each(Rule::Ours, false));
    rows.push(Row { rule: Rule::Ours, bad: &[3, 4], save_first: true });
    rows
}

/// A story, with the boxes' memories of last week as they are before the first step.
fn story(world: &mut World, row: Row) -> Story {
    let filters = if row.save_first && row.bad.len() <= T { 2 } else { 1 };
    let honest = Story { rule: row.rule, bad: [false; BOXES], last_week: [0; BOXES], save_first: row.save_first, filters };
    let last_week = first_state(&mut Orders { world, story: honest }).boxes;
    Story { bad: std::array::from_fn(|k| row.bad.contains(&(k + 1))), last_week, ..honest }
}

/// The rows' results, computed by as many threads as the machine has cores. Long ones are begun first.
fn results(rows: &[Row]) -> Vec<Found> {
    let left = Mutex::new((0..rows.len()).collect::<Vec<_>>());
    let done = Mutex::new(Vec::new());
    let cores = std::thread::available_parallelism().map_or(1, usize::from);
    let next = || left.lock().ok()?.pop();
    let work = || {
        while let Some(k) = next() {
            let mut world = World::default();
            let story = story(&mut world, rows[k]);
            let found = all(&mut world, story);
            done.lock().expect("no thread has stopped").push((k, found));
        }
    };
    std::thread::scope(|threads| (0..cores).for_each(|_| drop(threads.spawn(work))));
    let mut done = done.into_inner().expect("no thread has stopped");
    done.sort_by_key(|&(k, _)| k);
    done.into_iter().map(|(_, found)| found).collect()
}

/// The table, and whether it says what it must.
pub fn table() -> (Vec<String>, bool) {
    let rows = rows();
    let heads = ["rule", "bad box", "table four begins", "states", "orders", "old at table four", "older at table six"];
    let mut lines = vec![line(heads.map(str::to_owned))];
    let mut fine = true;
    for (row, found) in rows.iter().zip(results(&rows)) {
        let [rule, bad, begins] = row.words();
        let numbers = [found.states as u128, found.orders, found.old_at_four, found.older].map(grouped);
        let [states, orders, old_at_four, older] = numbers;
        lines.push(line([rule, bad, begins, states, orders, old_at_four, older]));
        fine &= row.as_due(&found);
    }
    (lines, fine)
}

fn line([rule, bad, begins, states, orders, old_at_four, older]: [String; 7]) -> String {
    format!("{rule:<5} {bad:<8} {begins:<17} {states:>8} {orders:>26} {old_at_four:>25} {older:>25}")
}

/// A number with a comma after every three digits.
fn grouped(n: u128) -> String {
    let digits = n.to_string();
    let mut text = String::new();
    for (k, digit) in digits.chars().enumerate() {
        if k > 0 && (digits.len() - k) % 3 == 0 {
            text.push(',');
        }
        text.push(digit);
    }
    text
}

/// The shortest order in which the old rule fails, for each bad box, and in full for the last.
pub fn shortest_order() -> Option<Vec<String>> {
    let mut lines = Vec::new();
    for bad in [[1], [2], [3], [4]].iter() {
        let mut world = World::default();
        let story = story(&mut world, Row { rule: Rule::Old, bad, save_first: true });
        let steps = shortest(&mut world, story)?;
        lines.push(format!("The old rule's shortest order with box {} bad has {} steps.", bad[0], steps.len()));
        if bad[0] == BOXES {
            let events = steps.iter().map(|(events, _)| events);
            lines.extend(events.enumerate().map(|(k, events)| format!("{:>4}  {}", k + 1, text(&world, events))));
        }
    }
    Some(lines)
}

/// A step in words.
fn text(world: &World, events: &[Event]) -> String {
    let words: Vec<String> = events.iter().filter_map(|event| event_text(world, event)).collect();
    words.join("; then ")
}

fn event_text(world: &World, event: &Event) -> Option<String> {
    match *event {
        Event::GoesBack { server } => Some(format!("box {server} goes back to last week's state")),
        Event::Acts { question, reply } => {
            let (kind, server) = (world.packet(question)[0], world.packet(question)[2]);
            let to = match world.packet(question)[1] {
                TABLE_FOUR => "table four",
                TABLE_SIX => "table six",
                _ => return Some(format!("the desk's {} packet reaches box {server}, which acknowledges it", round_name(kind))),
            };
            let record = match old_rule::named(world.packet(reply)) {
                Some(super::OLD) => "old",
                Some(super::NEW) => "new",
                _ => "blank",
            };
            Some(format!("box {server} answers {to}: {record}"))
        }
        Event::Arrives { .. } => None,
    }
}
