//! The story as a set of orders: what can happen next, after everything that has happened.
//!
//! A state is the boxes' memories, the clients' states and the packets under way. A packet under way can arrive at any time, or never.
//! Four things make the search smaller, and none leaves out an order that a load could tell apart:
//! - A question that changes nothing in its box is answered only when its reply arrives, or just before the box's memory changes. (In
//!   between nothing could have made the answer another one.)
//! - The writer gets replies at once: it can then send its next packets, and these may still be late.
//! - A load of table six begins at once when table four's has shown its record: its questions may be late.
//! - Packets that can have no effect any more are dropped: replies that their client refuses from now on, and questions whose reply nobody wants
//!   and that cannot change their box.

use super::state::{with, without, Event, Load, Rule, State, Step, Story, TABLES};
use super::world::{Id, World, BOXES};
use crate::old_rule::{OldLoad, ASKS};
use crate::packet::{is_reply, CLOCK, COLLECT};

/// No client's number.
const NOBODY: u8 = 0;

pub struct Orders<'a> {
    pub world: &'a mut World,
    pub story: Story,
}

impl Orders<'_> {
    fn party(&self, packet: Id) -> u8 {
        self.world.packet(packet)[1]
    }

    fn server(&self, packet: Id) -> usize {
        usize::from(self.world.packet(packet)[2])
    }

    fn kind(&self, packet: Id) -> u8 {
        self.world.packet(packet)[0]
    }

    /// Every step that can be next.
    pub fn steps(&mut self, state: &State) -> Vec<Step> {
        let mut steps = Vec::new();
        let mut packets = state.flight.packets().to_vec();
        packets.dedup();
        for packet in packets {
            if is_reply(self.world.packet(packet)) {
                let after = self.arrive(without(*state, packet), packet);
                steps.push((vec![Event::Arrives { reply: packet }], after));
            } else {
                self.question(state, packet, &mut steps);
            }
        }
        for server in 1..=BOXES {
            self.going_back(state, server, &mut steps);
        }
        steps
    }

    fn going_back(&mut self, state: &State, server: usize, steps: &mut Vec<Step>) {
        let last_week = self.story.last_week[server - 1];
        if !self.story.bad[server - 1] || state.boxes[server - 1] == last_week {
            return;
        }
        for (mut events, mut after) in self.answered_before(state, server) {
            events.push(Event::GoesBack { server });
            after.boxes[server - 1] = last_week;
            steps.push((events, self.pruned(after, server, NOBODY)));
        }
    }

    fn question(&mut self, state: &State, question: Id, steps: &mut Vec<Step>) {
        let server = self.server(question);
        let memory = state.boxes[server - 1];
        let (changed, reply) = self.world.serve(memory, question);
        let acts = Event::Acts { question, reply };
        if changed == memory {
            let after = self.arrive(without(*state, question), reply);
            return steps.push((vec![acts, Event::Arrives { reply }], after));
        }
        for (mut events, mut after) in self.answered_before(&without(*state, question), server) {
            events.push(acts);
            after.boxes[server - 1] = changed;
            let after = if self.writes(reply) { self.arrive(after, reply) } else { self.pruned(with(after, reply), server, NOBODY) };
            steps.push((events, after));
        }
    }

    fn writes(&self, packet: Id) -> bool {
        !TABLES.contains(&self.party(packet))
    }

    /// Which of the questions that change nothing at a box it has answered before its memory changes: each choice. Copies of one question are
    /// answered in any number.
    fn answered_before(&mut self, state: &State, server: usize) -> Vec<Step> {
        let mut choices = vec![(Vec::new(), *state)];
        let memory = state.boxes[server - 1];
        for &question in state.flight.packets() {
            if is_reply(self.world.packet(question)) || self.server(question) != server || self.writes(question) {
                continue;
            }
            let (changed, reply) = self.world.serve(memory, question);
            if changed != memory {
                continue;
            }
            for k in 0..choices.len() {
                let (mut events, before): Step = choices[k].clone();
                events.push(Event::Acts { question, reply });
                let choice = (events, with(without(before, question), reply));
                if !choices.iter().any(|(_, state)| *state == choice.1) {
                    choices.push(choice);
                }
            }
        }
        choices
    }

    /// A client takes a reply and sends what it has to send then.
    fn arrive(&mut self, mut state: State, reply: Id) -> State {
        let party = self.party(reply);
        let Some(table) = TABLES.iter().position(|&table| table == party) else { return self.write_on(state, reply) };
        match state.loads[table] {
            Load::Ours(client) => {
                let taken = self.world.take(client, reply);
                state.loads[table] = taken.ended.map_or(Load::Ours(taken.client), Load::Shown);
                if taken.next_round {
                    self.send(&mut state, taken.client, self.story.filters);
                }
            }
            Load::Old(mut load) => {
                let shown = load.take(self.world.packet(reply));
                state.loads[table] = shown.map_or(Load::Old(load), Load::Shown);
            }
            Load::NotBegun | Load::Shown(_) => {}
        }
        self.begin_next(&mut state);
        let server = self.server(reply);
        self.pruned(state, server, party)
    }

    fn write_on(&mut self, mut state: State, reply: Id) -> State {
        if let Some(writer) = state.writer {
            let taken = self.world.take(writer, reply);
            state.writer = if taken.ended.is_some() { None } else { Some(taken.client) };
            if taken.next_round {
                self.send(&mut state, taken.client, 1);
            }
        }
        self.begin_next(&mut state);
        let (server, party) = (self.server(reply), self.party(reply));
        self.pruned(state, server, party)
    }

    /// The next table begins where it is its turn.
    pub fn begin_next(&mut self, state: &mut State) {
        let next = match state.loads {
            [Load::NotBegun, _] if state.writer.is_none() || !self.story.save_first => 0,
            [Load::Shown(_), Load::NotBegun] => 1,
            _ => return,
        };
        let client = self.world.begin_load(TABLES[next]);
        let (load, copies) = match self.story.rule {
            Rule::Ours => (Load::Ours(client), 1),
            Rule::Old => (Load::Old(OldLoad::default()), ASKS),
        };
        state.loads[next] = load;
        self.send(state, client, copies);
    }

    pub fn send(&mut self, state: &mut State, client: Id, copies: usize) {
        for server in 1..=BOXES {
            let packet = self.world.make(client, server);
            (0..copies).for_each(|_| state.flight.add(packet));
        }
    }

    /// Without the packets that can have no effect any more, after a step of this box and this client. It can only have touched their packets.
    fn pruned(&mut self, mut state: State, server: usize, party: u8) -> State {
        let touched = |orders: &Self, packet| orders.server(packet) == server || orders.party(packet) == party;
        state.flight = state.flight.filtered(|packet| !touched(self, packet) || self.matters(&state, packet));
        state
    }

    fn matters(&mut self, state: &State, packet: Id) -> bool {
        if is_reply(self.world.packet(packet)) {
            return self.wanted(state, packet);
        }
        let server = self.server(packet);
        let (changed, reply) = self.world.serve(state.boxes[server - 1], packet);
        // Complete and filter only raise a box's latest candidate, and clock and collect change nothing: of an honest box what does not change it
        // now never will.
        let may_change = changed != state.boxes[server - 1] || self.story.bad[server - 1] && ![CLOCK, COLLECT].contains(&self.kind(packet));
        may_change || self.wanted(state, reply)
    }

    /// Whether a client would still take a reply.
    fn wanted(&mut self, state: &State, reply: Id) -> bool {
        let party = self.party(reply);
        let client = match TABLES.iter().position(|&table| table == party) {
            None => state.writer,
            Some(table) => match state.loads[table] {
                Load::Ours(client) => Some(client),
                Load::Old(_) => return true,
                Load::NotBegun | Load::Shown(_) => None,
            },
        };
        client.is_some_and(|client| !self.world.take(client, reply).refused)
    }
}
