//! What an order of the story is made of: states, and what happens between them.

use super::flight::Flight;
use super::world::{Id, BOXES};
use crate::old_rule::OldLoad;

/// Who decides what a load shows.
#[derive(Clone, Copy, PartialEq, Eq)]
pub enum Rule {
    Ours,
    Old,
}

#[derive(Clone, Copy, Debug, PartialEq, Eq, Hash)]
pub enum Load {
    NotBegun,
    Ours(Id),
    Old(OldLoad),
    Shown(u32),
}

pub const TABLE_FOUR: u8 = 4;
pub const TABLE_SIX: u8 = 6;
pub const TABLES: [u8; 2] = [TABLE_FOUR, TABLE_SIX];

#[derive(Clone, Copy, PartialEq, Eq, Hash)]
pub struct State {
    pub boxes: [Id; BOXES],
    /// None when its save has ended.
    pub writer: Option<Id>,
    pub loads: [Load; 2],
    /// Questions and replies.
    pub flight: Flight,
}

/// What happens in a step.
#[derive(Clone, Copy, Debug, PartialEq, Eq)]
pub enum Event {
    /// A question arrives at its box, and the reply is under way.
    Acts { question: Id, reply: Id },
    /// A reply that was under way arrives.
    Arrives { reply: Id },
    /// A bad box goes back to last week's state.
    GoesBack { server: usize },
}

/// What the orders are those of.
#[derive(Clone, Copy)]
pub struct Story {
    pub rule: Rule,
    /// Which boxes can go back to last week's state, at any moments and as often as they like.
    pub bad: [bool; BOXES],
    pub last_week: [Id; BOXES],
    /// Whether table four begins its load only when the save has ended.
    pub save_first: bool,
    /// How often our client sends a question of its second round; the boxes act on each. (Of other questions a second copy adds nothing.)
    pub filters: usize,
}

/// A step: what happens in it, one after the other, and the state afterwards.
pub type Step = (Vec<Event>, State);

pub fn without(mut state: State, packet: Id) -> State {
    state.flight.remove(packet);
    state
}

pub fn with(mut state: State, packet: Id) -> State {
    state.flight.add(packet);
    state
}
