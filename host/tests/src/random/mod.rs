//! Random and damaged inputs, the same ones in every run: each call is made on the proved library and
//! on the plain shelf, and answers and all lent bytes are compared.

use crate::check::Run;

mod digest;
mod source;
mod client;
mod coding;
mod damage;
mod drill;
mod layout;
mod packets;
mod server;
mod states;
mod steps;
mod weights;

use source::Source;

pub fn all(run: &mut Run) {
    run.group("random digests and tags", |run| digest::all(run, &mut Source::new(1), 30_000));
    run.group("random fragments", |run| coding::all(run, &mut Source::new(2), 20_000));
    run.group("random weights", |run| weights::all(run, &mut Source::new(7), 30_000));
    run.group("random packets", |run| layout::all(run, &mut Source::new(6), 40_000));
    run.group("random server steps", |run| server::all(run, &mut Source::new(3), 100_000));
    run.group("clients out of range", states::out_of_range);
    run.group("random client steps", |run| client::all(run, &mut Source::new(4), 200_000));
    run.group("random sheets", |run| drill::all(run, &mut Source::new(5), 3_000));
}
