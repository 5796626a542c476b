//! Which kinds of answers came how often, so that a test which reaches nothing is seen: at the end of a run every kind of the
//! table must have come, and no other.

use cendrulas::Answer;
use shelf::packet::HEAD;
use shelf::stamp::STAMP;
use std::collections::BTreeMap;

#[derive(Default)]
pub struct Kinds(BTreeMap<&'static str, BTreeMap<String, u64>>);

/// Operations with their kinds of answers.
const DUE: &[(&str, &str)] = &[
    ("digest", "accepted,refused 255"),
    ("hmac", "accepted,refused 255"),
    ("tag", "accepted,refused 255"),
    ("fragment", FRAGMENT),
    ("restore", RESTORE),
    ("weights", WEIGHTS),
    ("restore by weights", WEIGHED),
    ("restore in two calls", IN_TWO_CALLS),
    ("packet check", PACKETS),
    ("store code", "code 0,code 10,code 11,none,refused 7"),
    ("round in hand", "round 0,round 1,round 2,round 3,round 4,round 5,round 6,refused 255"),
    ("server is made blank", "accepted,refused 1,refused 3,refused 4"),
    ("server takes", SERVER),
    ("client begins to write", BEGIN_WRITE),
    ("client begins to read", BEGIN_READ),
    ("client makes", MAKE),
    ("client takes", TAKE),
    ("client gives up", GIVE_UP),
    ("any state begins to write", BEGIN_WRITE),
    ("any state begins to read", BEGIN_READ),
    ("any state makes", MAKE),
    ("any state takes", TAKE),
    ("any state gives up", GIVE_UP),
    ("plan", "accepted,accepted of no bytes,refused 3,refused 5,refused 6,refused 18,refused 255"),
    ("packet as planned", PLANNED),
    ("drill", "accepted,refused 1,refused 15"),
    ("line of a listing", LISTING),
];

const FRAGMENT: &str = "accepted,refused 3,refused 4,refused 6,refused 255,\
    accepted of no bytes,refused 3 of no bytes,refused 4 of no bytes,refused 255 of no bytes";
const RESTORE: &str = "accepted,refused 3,refused 4,refused 6,refused 15,refused 16,\
    accepted of no bytes,refused 3 of no bytes,refused 4 of no bytes,refused 15 of no bytes,refused 16 of no bytes";
const WEIGHTS: &str = "accepted,accepted after a repetition,refused 3,refused 4,refused 16,refused 255";
const WEIGHED: &str = "accepted,accepted with other rows,refused 3,refused 6,refused 15,refused 16,refused 255,\
    accepted of no bytes,accepted with other rows of no bytes,refused 3 of no bytes,refused 15 of no bytes,refused 16 of no bytes,\
    refused 255 of no bytes";
const IN_TWO_CALLS: &str = "accepted,refused 3,refused 4,refused 16,\
    accepted of no bytes,refused 3 of no bytes,refused 4 of no bytes,refused 16 of no bytes";
const PACKETS: &str = "kind 1,kind 2,kind 3,kind 4,kind 5,kind 6,kind 7,kind 8,kind 9,kind 10,kind 11,kind 12,\
    kind 3 of no bytes,kind 10 of no bytes,refused 7";
const PLANNED: &str = "clock,clock reply,store,store reply,complete,complete reply,collect,collect reply,filter,filter reply without a share,\
    filter reply with a share,repair,repair reply";
const SERVER: &str = "clock,store: kept,store: held,store: full,store: kept of no bytes,store: held of no bytes,store: full of no bytes,\
    complete,complete: raised,collect,filter: blank,filter: not held,filter: not held: raised,filter: held,filter: held: raised,\
    filter: held of no bytes,filter: held: raised of no bytes,repair,repair: raised,\
    refused 1,refused 2,refused 7,refused 8,refused 9,refused 15,refused 255";
const BEGIN_WRITE: &str = "accepted,accepted of no bytes,refused 3,refused 5,refused 6,refused 13,refused 14,refused 255";
const BEGIN_READ: &str = "accepted,refused 3,refused 5,refused 13,refused 14,refused 255";
const MAKE: &str = "clock,store,store of no bytes,complete,collect,filter,repair,refused 3,refused 4,refused 5,refused 13,refused 15,refused 255";
const TAKE: &str = "clock goes on,store goes on,complete goes on,collect goes on,filter goes on,repair goes on,server is full,written,\
    read by filter,read by repair,read by filter of no bytes,read by repair of no bytes,blank,\
    refused 3,refused 5,refused 7,refused 8,refused 12,refused 13,refused 14,refused 15,refused 255";
const GIVE_UP: &str = "before complete,in complete,refused 3,refused 5,refused 13,refused 255";
const LISTING: &str = "0,1,2,2 of no bytes,3,4,5,103,104,105,106,112,113,117";

const ROUNDS: [&str; 6] = ["clock", "store", "complete", "collect", "filter", "repair"];

/// Where a packet's stamp ends; the byte there says whether a filter's reply has a share, and a reply without one ends after it.
const STAMPED: usize = HEAD + STAMP;

/// A refusal, or what the accepted call did.
pub fn kind(answer: &Answer, accepted: impl FnOnce() -> String) -> String {
    match answer.refusal {
        0 => accepted(),
        refusal => format!("refused {refusal}"),
    }
}

pub fn plainly(answer: &Answer) -> String {
    kind(answer, || "accepted".into())
}

/// A kind of its own where the content has no bytes.
pub fn emptied(kind: String, none: bool) -> String {
    if none {
        format!("{kind} of no bytes")
    } else {
        kind
    }
}

/// Whether a packet that keeps the layout carries a fragment of no bytes.
pub fn carries_none(packet: &[u8]) -> bool {
    let length = match packet[0] {
        3 => STAMPED,
        10 => STAMPED + 1,
        _ => return false,
    };
    packet[length..].starts_with(&[0, 0])
}

/// The kind of a server's reply to a packet, and whether it has raised its latest candidate.
pub fn reply(answer: &Answer, packet: &[u8], reply: &[u8]) -> String {
    kind(answer, || {
        let reply = &reply[..answer.count];
        let round = ROUNDS[reply[0] as usize / 2 - 1];
        let raised = if answer.result == 1 { ": raised" } else { "" };
        let kind = match (reply[0], answer.count) {
            (4, _) => format!("store: {}", ["kept", "held", "full"][reply[8].saturating_sub(9) as usize]),
            (10, _) if reply[HEAD..STAMPED] == [0; STAMP] => format!("filter: blank{raised}"),
            (10, n) if n == STAMPED + 1 => format!("filter: not held{raised}"),
            (10, _) => format!("filter: held{raised}"),
            _ => format!("{round}{raised}"),
        };
        emptied(kind, carries_none(packet) || carries_none(reply))
    })
}

/// The round of the packet that a client made.
pub fn made(answer: &Answer, packet: &[u8]) -> String {
    kind(answer, || emptied(ROUNDS[packet[0] as usize / 2].into(), carries_none(packet)))
}

/// What a taken reply led to.
pub fn taken(answer: &Answer, packet: &[u8]) -> String {
    kind(answer, || match (answer.result, packet[0]) {
        (0, 4) if packet[8] == 11 => "server is full".into(),
        (0, kind) => format!("{} goes on", ROUNDS[kind as usize / 2 - 1]),
        (1, _) => "written".into(),
        (2, kind) => emptied(format!("read by {}", ROUNDS[kind as usize / 2 - 1]), answer.count == 0),
        _ => "blank".into(),
    })
}

pub fn given_up(answer: &Answer) -> String {
    kind(answer, || if answer.result == 5 { "in complete".into() } else { "before complete".into() })
}

impl Kinds {
    pub fn saw(&mut self, operation: &'static str, kind: String) {
        *self.0.entry(operation).or_default().entry(kind).or_default() += 1;
    }

    /// Prints what came; says what is missing and what has no place in the table.
    pub fn end(&self) -> Result<(), String> {
        for (operation, kinds) in &self.0 {
            let each: Vec<String> = kinds.iter().map(|(kind, count)| format!("{kind} ({count})")).collect();
            println!("{operation}: {}", each.join(", "));
        }
        let none = BTreeMap::new();
        for (operation, due) in DUE {
            let seen = self.0.get(operation).unwrap_or(&none);
            if let Some(kind) = due.split(',').find(|&kind| !seen.contains_key(kind)) {
                return Err(format!("{operation}: {kind} was never seen"));
            }
            if let Some(kind) = seen.keys().find(|&kind| !due.split(',').any(|d| d == kind)) {
                return Err(format!("{operation}: {kind} was not expected"));
            }
        }
        Ok(())
    }
}
