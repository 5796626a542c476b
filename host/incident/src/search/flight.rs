//! Packets under way. They stand in a state itself and not beside it, since states are copied and compared by the million.

use super::world::Id;

/// No order of the story has more.
const MOST: usize = 27;

/// Packets, sorted; places that are not in use hold 0.
#[derive(Clone, Copy, Default, PartialEq, Eq, Hash)]
pub struct Flight {
    count: usize,
    places: [Id; MOST],
}

impl Flight {
    pub fn packets(&self) -> &[Id] {
        &self.places[..self.count]
    }

    pub fn add(&mut self, packet: Id) {
        let at = self.packets().partition_point(|&other| other < packet);
        self.places.copy_within(at..self.count, at + 1);
        self.places[at] = packet;
        self.count += 1;
    }

    /// Takes one copy of a packet out.
    pub fn remove(&mut self, packet: Id) {
        let at = self.packets().binary_search(&packet).expect("the packet is under way");
        self.places.copy_within(at + 1..self.count, at);
        self.count -= 1;
        self.places[self.count] = 0;
    }

    /// Those that pass a test.
    pub fn filtered(&self, mut passes: impl FnMut(Id) -> bool) -> Flight {
        let mut passed = Flight::default();
        for &packet in self.packets().iter().filter(|&&packet| passes(packet)) {
            passed.places[passed.count] = packet;
            passed.count += 1;
        }
        passed
    }
}
