//! The story as text: a line for each round, with the replies in the order in which they arrived.

use super::{Happening, Record, Says, Whose, DESK, FOUR};

pub fn scope_name(scope: usize) -> &'static str {
    match scope {
        DESK => "the desk",
        FOUR => "table four",
        _ => "table six",
    }
}

pub fn round_name(kind: u8) -> &'static str {
    ["clock", "store", "complete", "collect", "filter", "repair"][usize::from(kind / 2)]
}

pub fn record_name(record: Record) -> &'static str {
    match record {
        Record::Blank => "blank",
        Record::Old => "old",
        Record::New => "new",
    }
}

pub fn says_text(says: Says) -> String {
    match says {
        Says::Latest(record) => record_name(record).to_owned(),
        Says::Filtered(record, true) => format!("{} + part", record_name(record)),
        Says::Filtered(record, false) => record_name(record).to_owned(),
        Says::Done => "done".to_owned(),
    }
}

/// Lines of a story; replies of one round that follow each other stand in one line.
pub fn lines(told: &[Happening]) -> Vec<String> {
    let mut lines: Vec<String> = Vec::new();
    let mut open = None;
    for happening in told {
        if let Happening::Visit { scope, kind, server, again, says } = happening {
            let reply = format!("box {server}{}: {}", if *again { " again" } else { "" }, says_text(*says));
            match lines.last_mut().filter(|_| open == Some((scope, kind))) {
                Some(line) => *line = format!("{line}  {reply:<17}"),
                None => lines.push(format!("  {:<9} {reply:<17}", round_name(*kind))),
            }
            open = Some((scope, kind));
        } else {
            open = None;
            lines.extend(other(happening));
        }
    }
    lines.into_iter().map(|line| line.trim_end().to_owned()).collect()
}

fn other(happening: &Happening) -> Option<String> {
    match happening {
        Happening::Chapter(text) => Some((*text).to_owned()),
        Happening::Shows { scope, whose: Whose::Saved, record } => {
            Some(format!("  screen    {} shows: Saved on the shelf ({})", scope_name(*scope), record_name(*record)))
        }
        Happening::Shows { scope, whose: Whose::Ours, record } => {
            Some(format!("  ours      {} shows the {} trace", scope_name(*scope), record_name(*record)))
        }
        Happening::Shows { scope, whose: Whose::OldRule, record } => {
            Some(format!("  old rule  three replies match: {} shows the {} trace", scope_name(*scope), record_name(*record)))
        }
        Happening::Asks { .. } | Happening::GoesBack { .. } | Happening::Visit { .. } => None,
    }
}
