//! The figures for a buyer, with their units and in document 01's words.

use crate::figures::{tenths, Figures};
use cendrulas::SERVER_MEMORY;

pub fn table(figures: &Figures) -> String {
    let parts = [shelf(figures), packets(figures), calls(figures), moved(figures), memory(figures)];
    parts.map(|lines| lines.iter().map(|line| format!("{}\n", line.trim_end())).collect::<String>()).join("\n")
}

/// Words and up to two columns of figures.
fn line(words: &str, first: &str, second: &str) -> String {
    format!("  {words:<42}{first:>14}{second:>14}")
}

fn title(words: &str, first: &str, second: &str) -> String {
    format!("{words:<44}{first:>14}{second:>14}")
}

/// A number with a comma before each three digits.
fn grouped(number: usize) -> String {
    let digits = number.to_string();
    let mut text = String::new();
    for (at, digit) in digits.chars().enumerate() {
        if at > 0 && (digits.len() - at) % 3 == 0 {
            text.push(',');
        }
        text.push(digit);
    }
    text
}

fn shelf(figures: &Figures) -> Vec<String> {
    let count = |words: &str, number: usize, unit: &str| format!("  {words:<42}{:>14} {unit}", grouped(number));
    vec![
        "The lab".to_owned(),
        count("boxes that may lie (t)", figures.lab.t, ""),
        count("boxes of the shelf (S)", figures.boxes, ""),
        count("boxes whose fragments give a record (k)", figures.threshold, ""),
        count("record", figures.lab.length, "bytes"),
        count("scopes that read together (readers)", figures.lab.readers, ""),
        count("records that each box has kept", figures.lab.stores, ""),
    ]
}

fn packets(figures: &Figures) -> Vec<String> {
    let mut lines = vec![title("One packet", "kind", "bytes")];
    lines.extend(figures.packets().iter().map(|packet| line(&packet.words, &packet.kind.to_string(), &grouped(packet.bytes))));
    lines.push(format!("  A right reader's filter has at most {} candidates; a box takes {}.", figures.most_candidates(), figures.boxes));
    lines
}

fn calls(figures: &Figures) -> Vec<String> {
    let mut lines = vec![title(&format!("Packets, each round to all {} boxes", figures.boxes), "requests", "replies")];
    for (_, words, traffic) in figures.calls() {
        lines.push(line(words, &grouped(traffic.requests), &grouped(traffic.replies)));
    }
    lines
}

fn moved(figures: &Figures) -> Vec<String> {
    let mut lines = vec![title("Bytes on the wire, requests and replies", "one call", "all readers")];
    for moved in figures.moved() {
        lines.push(line(moved.words, &grouped(moved.one), &moved.together.map_or("-".to_owned(), grouped)));
    }
    lines.extend([
        "  least: nothing was ever saved; no candidate, and no reply to filter has a fragment.".to_owned(),
        "  settled: every box knows the last record; 1 candidate, and every reply has a fragment.".to_owned(),
        format!("  most: {} different candidates, and every reply has a fragment.", figures.most_candidates()),
        "  A read is repaired where a liar has spoiled the tags of the record's candidate.".to_owned(),
        "  All records have this length, and no box sends more than it should. What a network".to_owned(),
        "  adds to a packet, and packets that are sent again, are not counted.".to_owned(),
    ]);
    lines
}

fn memory(figures: &Figures) -> Vec<String> {
    let after = |stores: usize| format!("fields after {stores} store{}", if stores == 1 { "" } else { "s" });
    let used = |words: &str, bytes: usize| {
        let share = tenths(bytes);
        line(words, &grouped(bytes), &format!("{}.{} %", share / 10, share % 10))
    };
    vec![
        title(&format!("Memory of a box, of {} bytes", grouped(SERVER_MEMORY)), "bytes", "of all"),
        used(&after(figures.lab.stores), figures.memory()),
        used(&format!("{}, the most", after(figures.capacity)), figures.memory_when_full),
        title("Writes of this length that still fit", &grouped(figures.more_writes()), ""),
        format!("  A box keeps {} writes in its life, given-up ones too. Their bytes always fit: it is", figures.capacity),
        "  the number of writes that ends, not the memory.".to_owned(),
    ]
}
