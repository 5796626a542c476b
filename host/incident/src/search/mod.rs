//! Every order of the packets of the teacher's story, with each box in turn as the bad one, under our client and under the old rule.

mod flight;
pub mod orders;
mod quick;
pub mod report;
pub mod state;
pub mod world;

use flight::Flight;
use orders::Orders;
use quick::QuickMap;
use state::{Load, State, Step, Story};
use std::collections::VecDeque;
use world::{Id, World, BOXES};

pub const OLD: u32 = 1;
pub const NEW: u32 = 2;
const WRITER: u8 = 1;
/// Records 1 and 2: last week's and today's.
const RECORDS: [&[u8]; 2] = [b"last week's trace", b"today's trace"];

/// What a search found.
#[derive(Default)]
pub struct Found {
    /// Different states that were reached.
    pub states: usize,
    /// Ways through these states from the first to a last one.
    pub orders: u128,
    /// Ways in which table four shows the old record.
    pub old_at_four: u128,
    /// Ways that end with an older record at table six than table four had shown.
    pub older: u128,
    /// Ways that end with a load that waits for ever.
    pub waiting: u128,
}

/// Last week: the old record is saved on every box, and the new save has its number. Then its store packets are under way.
pub fn first_state(orders: &mut Orders) -> State {
    let world = &mut *orders.world;
    let mut boxes: [Id; BOXES] = std::array::from_fn(|k| world.blank(k + 1));
    let old = world.begin_save(WRITER, None, RECORDS[0], 1);
    let saved = play(world, &mut boxes, old, 0);
    let new = world.begin_save(WRITER, Some(saved), RECORDS[1], 2);
    let writer = play(world, &mut boxes, new, 2);
    let mut state = State { boxes, writer: Some(writer), loads: [Load::NotBegun; 2], flight: Flight::default() };
    orders.send(&mut state, writer, 1);
    orders.begin_next(&mut state);
    state
}

/// Visits all boxes round by round until the call is in the given round (0: has ended).
fn play(world: &mut World, boxes: &mut [Id; BOXES], mut client: Id, until: u8) -> Id {
    for _round in 1..=3 {
        let questions: Vec<Id> = (1..=BOXES).map(|server| world.make(client, server)).collect();
        for (server, question) in questions.into_iter().enumerate() {
            let (memory, reply) = world.serve(boxes[server], question);
            boxes[server] = memory;
            client = world.take(client, reply).client;
        }
        if world.round(client) == until {
            return client;
        }
    }
    unreachable!("a save has three rounds")
}

fn older(state: &State) -> bool {
    matches!(state.loads, [Load::Shown(four), Load::Shown(six)] if six < four)
}

/// A story is over when table six shows a record, or when table four showed the old one: then there is none older.
fn over(state: &State) -> bool {
    matches!(state.loads, [Load::Shown(OLD), _] | [_, Load::Shown(_)])
}

/// Goes through every order.
pub fn all(world: &mut World, story: Story) -> Found {
    let mut orders = Orders { world, story };
    let first = first_state(&mut orders);
    let mut known = QuickMap::default();
    let counted = count(&mut orders, first, &mut known);
    Found { states: known.len(), orders: counted[0], old_at_four: counted[1], older: counted[2], waiting: counted[3] }
}

/// The ways from a state to an end: all, those with the old record at table four, those with an older one at table six, those that wait for ever.
fn count(orders: &mut Orders, state: State, known: &mut QuickMap<State, [u128; 4]>) -> [u128; 4] {
    if let Some(&counted) = known.get(&state) {
        return counted;
    }
    let mut sum = [0; 4];
    if over(&state) {
        let old_at_four = state.loads[0] == Load::Shown(OLD);
        sum = [1, u128::from(old_at_four), u128::from(older(&state)), 0];
    } else {
        let steps = orders.steps(&state);
        if steps.is_empty() {
            sum = [1, 0, 0, 1];
        }
        for (_, after) in steps {
            let counted = count(orders, after, known);
            sum.iter_mut().zip(counted).for_each(|(sum, more)| *sum += more);
        }
    }
    known.insert(state, sum);
    sum
}

/// The fewest steps after which table six shows an older record than table four had shown.
pub fn shortest(world: &mut World, story: Story) -> Option<Vec<Step>> {
    let mut orders = Orders { world, story };
    let first = first_state(&mut orders);
    let mut came_from: QuickMap<State, Option<(State, Step)>> = QuickMap::default();
    came_from.insert(first, None);
    let mut next = VecDeque::from([first]);
    while let Some(state) = next.pop_front() {
        if older(&state) {
            return Some(way(&came_from, state));
        }
        if over(&state) {
            continue;
        }
        for (events, after) in orders.steps(&state) {
            if !came_from.contains_key(&after) {
                came_from.insert(after, Some((state, (events, after))));
                next.push_back(after);
            }
        }
    }
    None
}

fn way(came_from: &QuickMap<State, Option<(State, Step)>>, mut state: State) -> Vec<Step> {
    let mut steps = Vec::new();
    while let Some((before, step)) = &came_from[&state] {
        steps.push(step.clone());
        state = *before;
    }
    steps.reverse();
    steps
}
