//! What stands around the picture: the lanes with their heads, the title and the legend. It is drawn last, when the picture's height is known.

use super::picture::{box_lane, scope_lane, Picture, TOP, WIDTH};
use super::svg::{at, Drawing, Layer, BAD, GREY, INK, NEW, OLD};
use super::{BOXES, DESK, FOUR, SIX, WORN};

const TITLE: &str = "The teacher's case: the old rule shows the new trace at table four and then the old one at table six; our client shows the \
                     new one at both.";

impl Picture {
    pub fn end(mut self) -> String {
        self.y += 14.0;
        let bottom = self.y;
        let from = self.worn_from.unwrap_or(bottom);
        let mut worn = Drawing::default();
        worn.rect(Layer::Back, at(box_lane(WORN) - 15.0, from), 30.0, bottom - from, r#"fill="url(#worn)""#);
        self.drawing = std::mem::take(&mut self.drawing).upon(worn);
        for server in 1..=BOXES {
            let (record, from) = self.named[server - 1];
            self.lane(server, record, from);
            let name = format!("box {server}");
            let (ink, under) = if server == WORN { (BAD, "worn card") } else { (INK, "") };
            self.head(box_lane(server), &name, under, ink);
        }
        for (scope, name, under) in [(DESK, "desk", "scope 1"), (FOUR, "table four", "scope 4"), (SIX, "table six", "scope 6")] {
            let lane = scope_lane(scope);
            self.drawing.line(Layer::Back, at(lane, TOP), at(lane, bottom), &format!(r#"stroke="{INK}" stroke-width="1.5""#));
            self.head(lane, name, under, INK);
        }
        self.legend();
        self.drawing.file(WIDTH, self.y, TITLE)
    }

    fn head(&mut self, x: f64, name: &str, under: &str, ink: &str) {
        self.drawing.text(at(x, TOP - 22.0), "middle", &format!(r#"font-size="15" font-weight="bold" fill="{ink}""#), name);
        self.drawing.text(at(x, TOP - 6.0), "middle", &format!(r#"font-size="11.5" fill="{ink}""#), under);
    }

    fn legend(&mut self) {
        let title = format!(r#"font-size="21" font-weight="bold" fill="{INK}""#);
        self.drawing.text(at(20.0, 36.0), "start", &title, "The teacher's case");
        let small = format!(r#"font-size="12.5" fill="{INK}""#);
        let below = "Four boxes, of which one may fail (t = 1). Time goes down. Both rules get the same packets.";
        self.drawing.text(at(20.0, 60.0), "start", &small, below);
        let y = self.y + 24.0;
        self.drawing.line(Layer::Front, at(20.0, y - 14.0), at(WIDTH - 20.0, y - 14.0), &format!(r#"stroke="{GREY}""#));
        for (x, colour, words) in [(24.0, OLD, "the box names the old trace as its latest"), (360.0, NEW, "the box names the new one")] {
            self.drawing.line(Layer::Front, at(x, y + 10.0), at(x + 34.0, y + 10.0), &format!(r#"stroke="{colour}" stroke-width="7""#));
            self.drawing.text(at(x + 44.0, y + 14.0), "start", &small, words);
        }
        self.drawing.cross(at(640.0, y + 10.0), 5.0);
        self.drawing.text(at(656.0, y + 14.0), "start", &small, "a packet is lost or late; a card goes back");
        self.drawing.arrow(at(20.0, y + 36.0), at(66.0, y + 36.0), GREY, 0.9);
        self.drawing.text(at(68.0, y + 40.0), "start", &small, "a scope's question");
        self.drawing.arrow(at(220.0, y + 36.0), at(266.0, y + 36.0), NEW, 1.9);
        self.drawing.text(at(268.0, y + 40.0), "start", &small, "a box's reply, in the colour of the record that it names");
        self.drawing.text(at(640.0, y + 40.0), "start", &small, "+ part: with a fragment; two parts prove a record");
        self.y = y + 62.0;
    }
}
