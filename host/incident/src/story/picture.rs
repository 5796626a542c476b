//! The story as a picture: a lane for every box and scope, time going down, packets as arrows, and what each screen shows. A box's lane has the
//! colour of the record that it names as its latest.

use super::listing::{record_name, round_name};
use super::svg::{at, Drawing, Layer, Point, BAD, GREY, INK, NEW, OLD};
use super::{Happening, Record, Says, Whose, BOXES, DESK, FOUR};
use crate::packet::{COMPLETE, FILTER};

pub const WIDTH: f64 = 1180.0;
pub const TOP: f64 = 122.0;
const ROW: f64 = 25.0;
/// A reply arrives so much lower than its box sent it.
const FALL: f64 = 11.0;

pub fn box_lane(server: usize) -> f64 {
    150.0 + 125.0 * server as f64
}

pub fn scope_lane(scope: usize) -> f64 {
    match scope {
        DESK => 120.0,
        FOUR => 780.0,
        _ => 985.0,
    }
}

fn colour(record: Record) -> &'static str {
    match record {
        Record::Blank => GREY,
        Record::Old => OLD,
        Record::New => NEW,
    }
}

/// What has been drawn so far.
pub struct Picture {
    pub drawing: Drawing,
    pub y: f64,
    /// Of every box: the record that it names, and from which height on.
    pub named: [(Record, f64); BOXES],
    pub worn_from: Option<f64>,
    /// Where the present round's questions left, in the order of the copies, and what is counted of its replies.
    asked: Vec<Point>,
    boxes: Vec<usize>,
    matching: usize,
    parts: usize,
}

/// The picture of a story. Last week's packets are left out: what they led to is where it begins.
pub fn picture(told: &[Happening]) -> String {
    let today = told.iter().enumerate().filter(|(_, what)| matches!(what, Happening::Chapter(_))).nth(1).map_or(0, |(k, _)| k);
    let mut picture = Picture {
        drawing: Drawing::default(),
        y: TOP,
        named: [(Record::Old, TOP); BOXES],
        worn_from: None,
        asked: Vec::new(),
        boxes: Vec::new(),
        matching: 0,
        parts: 0,
    };
    picture.last_week();
    told[today..].iter().for_each(|happening| picture.draw(happening));
    picture.end()
}

impl Picture {
    fn last_week(&mut self) {
        self.chapter("Last week the old trace was saved on every box.");
        self.y += 4.0;
    }

    fn draw(&mut self, happening: &Happening) {
        match *happening {
            Happening::Chapter(text) => self.chapter(text),
            Happening::Asks { scope, kind, copies, lost } => self.asks(scope, kind, copies, lost),
            Happening::Visit { scope, kind, server, again, says } => self.visit(scope, kind, (server, again), says),
            Happening::GoesBack { server } => self.goes_back(server),
            Happening::Shows { scope, whose, record } => self.shows(scope, whose, record),
        }
    }

    fn chapter(&mut self, text: &str) {
        self.y += 16.0;
        self.drawing.rect(Layer::Front, at(20.0, self.y), WIDTH - 40.0, 26.0, r##"rx="4" fill="#eef2f5""##);
        let style = format!(r#"font-size="14" font-weight="bold" fill="{INK}""#);
        // Upon the band the rim would be seen, so it has the band's colour.
        self.drawing.text(at(34.0, self.y + 18.0), "start", &format!(r##"{style} style="stroke:#eef2f5""##), text);
        self.y += 30.0;
    }

    fn asks(&mut self, scope: usize, kind: u8, copies: usize, lost: Option<usize>) {
        let lane = scope_lane(scope);
        self.y += FALL + 19.0;
        self.asked = (0..copies).map(|copy| at(lane, self.y + 13.0 * copy as f64)).collect();
        self.boxes.clear();
        (self.matching, self.parts) = (0, 0);
        let name = format!("{}{}", round_name(kind), if copies > 1 { ", asked twice" } else { "" });
        let (x, anchor) = beside(scope);
        self.drawing.text(at(x, self.y + 4.0), anchor, &format!(r#"font-size="12.5" font-weight="bold" fill="{INK}""#), &name);
        for k in 0..self.asked.len() {
            self.drawing.dot(self.asked[k], 3.2, INK);
        }
        if let Some(server) = lost {
            self.lost(server, scope != DESK);
        }
        self.y += 13.0 * copies as f64;
    }

    /// A question that does not arrive in this story.
    fn lost(&mut self, server: usize, late: bool) {
        let from = self.asked[0];
        let side = if from.x < box_lane(server) { -1.0 } else { 1.0 };
        let to = at(box_lane(server) + 24.0 * side, from.y + 3.0);
        self.drawing.line(Layer::Lines, from, to, &format!(r#"stroke="{GREY}" stroke-width="1.2" stroke-dasharray="5 4""#));
        self.drawing.cross(to, 4.5);
        let word = if late { "late" } else { "lost" };
        self.drawing.text(at(to.x + 9.0 * side, to.y - 6.0), "middle", &format!(r#"font-size="11" fill="{BAD}""#), word);
    }

    fn visit(&mut self, scope: usize, kind: u8, (server, again): (usize, bool), says: Says) {
        self.y += ROW;
        let (lane, here) = (scope_lane(scope), at(box_lane(server), self.y));
        let from = if again { self.asked[self.asked.len() - 1] } else { self.asked[0] };
        self.drawing.arrow(from, here, GREY, 0.9);
        let (record, part) = match says {
            Says::Latest(record) => (Some(record), false),
            Says::Filtered(record, part) => (Some(record), part),
            Says::Done => (None, false),
        };
        self.changes(server, kind, record);
        let reply = record.map_or(INK, colour);
        self.drawing.arrow(here, at(lane, self.y + FALL), reply, 1.9);
        let side = if lane < here.x { -1.0 } else { 1.0 };
        let word = record.map_or("done".to_owned(), |record| record_name(record).to_owned() + if part { " + part" } else { "" });
        let anchor = if side < 0.0 { "end" } else { "start" };
        let style = format!(r#"font-size="12" font-weight="bold" fill="{reply}""#);
        self.drawing.text(at(here.x + 12.0 * side, self.y + 12.0), anchor, &style, &word);
        if scope != DESK {
            self.counted(scope, server, kind, part);
        }
    }

    /// What our client and the old rule count when a reply has arrived.
    fn counted(&mut self, scope: usize, server: usize, kind: u8, part: bool) {
        let again = self.boxes.contains(&server);
        if !again {
            self.boxes.push(server);
        }
        self.matching += 1;
        self.parts += usize::from(part);
        let ours = if again { "ours: refused".to_owned() } else { format!("ours: {} of 3", self.boxes.len().min(3)) };
        let words = match (kind, self.boxes.len()) {
            (FILTER, n) if n < 3 => ours,
            (FILTER, _) => format!("ours: {} of 2 parts", self.parts),
            _ if self.matching > 3 => ours,
            _ => format!("{ours}, old rule: {} of 3", self.matching),
        };
        let (x, anchor) = beside(scope);
        self.drawing.text(at(x, self.y + FALL + 4.0), anchor, &format!(r#"font-size="11" fill="{INK}""#), &words);
    }

    /// A box's lane takes another colour where its latest record becomes another one.
    fn changes(&mut self, server: usize, kind: u8, record: Option<Record>) {
        if kind == COMPLETE {
            self.name(server, Record::New);
        }
        if let (FILTER, Some(record)) = (kind, record) {
            self.name(server, record);
        }
    }

    fn name(&mut self, server: usize, record: Record) {
        let (now, from) = self.named[server - 1];
        if now != record {
            self.lane(server, now, from);
            self.named[server - 1] = (record, self.y);
        }
    }

    pub fn lane(&mut self, server: usize, record: Record, from: f64) {
        let x = box_lane(server);
        self.drawing.line(Layer::Back, at(x, from), at(x, self.y), &format!(r#"stroke="{}" stroke-width="7""#, colour(record)));
    }

    fn goes_back(&mut self, server: usize) {
        self.y += 14.0;
        self.worn_from = self.worn_from.or(Some(self.y));
        self.name(server, Record::Old);
        self.drawing.cross(at(box_lane(server), self.y), 8.0);
        let style = format!(r#"font-size="12" font-weight="bold" fill="{BAD}""#);
        self.drawing.text(at(box_lane(server) + 18.0, self.y + 4.0), "start", &style, "goes back");
        self.y += 12.0;
    }

    fn shows(&mut self, scope: usize, whose: Whose, record: Record) {
        self.y += FALL + 14.0;
        let wrong = whose == Whose::OldRule && record == Record::Old;
        let (lane, rim) = (scope_lane(scope), if wrong { BAD } else { INK });
        let dashes = if whose == Whose::OldRule { r#" stroke-dasharray="6 3""# } else { "" };
        let fill = if record == Record::Old { "#fdf1e4" } else { "#e7f1fa" };
        let style = format!(r#"rx="7" fill="{fill}" stroke="{rim}" stroke-width="2"{dashes}"#);
        self.drawing.rect(Layer::Front, at(lane - 84.0, self.y), 168.0, 44.0, &style);
        let name = record_name(record);
        let words = match whose {
            Whose::Saved => format!("{name} trace saved"),
            Whose::Ours => format!("our client: {name} trace"),
            Whose::OldRule => format!("old rule: {name} trace"),
        };
        // Upon the screen the rim of letters has the screen's colour.
        let plain = format!(r#"style="stroke:{fill}""#);
        let bold = format!(r#"font-size="13" font-weight="bold" fill="{}" {plain}"#, colour(record));
        self.drawing.text(at(lane, self.y + 18.0), "middle", &bold, &words);
        self.drawing.dot(at(lane - 64.0, self.y + 32.0), 4.0, "#3fa34d");
        self.drawing.text(at(lane - 55.0, self.y + 36.0), "start", &format!(r#"font-size="11" fill="{INK}" {plain}"#), "Saved on the shelf");
        if wrong {
            let style = format!(r#"font-size="13" font-weight="bold" fill="{BAD}""#);
            self.drawing.text(at(lane - 96.0, self.y + 26.0), "end", &style, "older than at table four");
        }
        self.y += 44.0;
    }
}

/// Where words beside a scope's lane stand.
fn beside(scope: usize) -> (f64, &'static str) {
    if scope == DESK { (scope_lane(scope) - 11.0, "end") } else { (scope_lane(scope) + 9.0, "start") }
}
