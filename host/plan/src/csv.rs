//! The figures for other programs: a line each, with a name that stays as it is from version to version.

use crate::figures::{tenths, Figures};
use cendrulas::SERVER_MEMORY;
use std::fmt::Display;

pub fn rows(figures: &Figures) -> String {
    let mut text = String::from("item,unit,value\n");
    let mut row = |item: &dyn Display, unit: &str, value: usize| text.push_str(&format!("{item},{unit},{value}\n"));
    row(&"t", "boxes", figures.lab.t);
    row(&"boxes", "boxes", figures.boxes);
    row(&"threshold", "boxes", figures.threshold);
    row(&"record", "bytes", figures.lab.length);
    row(&"readers", "scopes", figures.lab.readers);
    row(&"stores", "records", figures.lab.stores);
    for packet in figures.packets() {
        row(&format_args!("packet.{}", packet.item), "bytes", packet.bytes);
    }
    for (item, _, traffic) in figures.calls() {
        row(&format_args!("packets.{item}.requests"), "packets", traffic.requests);
        row(&format_args!("packets.{item}.replies"), "packets", traffic.replies);
    }
    for moved in figures.moved() {
        row(&format_args!("wire.one.{}", moved.item), "bytes", moved.one);
    }
    for moved in figures.moved() {
        if let Some(together) = moved.together {
            row(&format_args!("wire.all.{}", moved.item), "bytes", together);
        }
    }
    row(&"memory.size", "bytes", SERVER_MEMORY);
    row(&"memory.used", "bytes", figures.memory());
    row(&"memory.used_share", "tenths of a percent", tenths(figures.memory()));
    row(&"memory.more_writes", "writes", figures.more_writes());
    row(&"memory.capacity", "writes", figures.capacity);
    row(&"memory.used_when_full", "bytes", figures.memory_when_full);
    text
}
