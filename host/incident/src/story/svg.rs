//! A drawing as SVG: the few shapes that the picture needs, in layers that lie on each other.

use std::fmt::Write;

pub const INK: &str = "#22303c";
pub const GREY: &str = "#8a97a3";
pub const OLD: &str = "#d9822b";
pub const NEW: &str = "#1f6fb2";
pub const BAD: &str = "#c0272d";

/// The pattern behind a box that has gone bad.
const WORN: &str = r##"<defs><pattern id="worn" width="8" height="8" patternUnits="userSpaceOnUse" patternTransform="rotate(45)">
<rect width="8" height="8" fill="#fbecec"/><line x1="0" y1="0" x2="0" y2="8" stroke="#f0c9c9" stroke-width="3"/>
</pattern></defs>"##;

/// What lies lower is drawn first.
#[derive(Clone, Copy)]
pub enum Layer {
    Back,
    Lines,
    Front,
}

#[derive(Default)]
pub struct Drawing {
    layers: [String; 3],
}

#[derive(Clone, Copy)]
pub struct Point {
    pub x: f64,
    pub y: f64,
}

pub fn at(x: f64, y: f64) -> Point {
    Point { x, y }
}

impl Drawing {
    fn add(&mut self, layer: Layer, shape: String) {
        writeln!(self.layers[layer as usize], "{shape}").expect("a string takes all");
    }

    pub fn line(&mut self, layer: Layer, from: Point, to: Point, style: &str) {
        self.add(layer, format!(r#"<line x1="{:.1}" y1="{:.1}" x2="{:.1}" y2="{:.1}" {style}/>"#, from.x, from.y, to.x, to.y));
    }

    /// A line that ends in an arrow's head, a little short of its goal.
    pub fn arrow(&mut self, from: Point, to: Point, colour: &str, width: f64) {
        let (dx, dy) = (to.x - from.x, to.y - from.y);
        let length = (dx * dx + dy * dy).sqrt().max(1.0);
        let (ux, uy) = (dx / length, dy / length);
        let tip = at(to.x - 5.0 * ux, to.y - 5.0 * uy);
        let head = 5.0 + 2.0 * width;
        let back = at(tip.x - head * ux, tip.y - head * uy);
        let (wx, wy) = (-uy * head * 0.42, ux * head * 0.42);
        self.line(Layer::Lines, from, back, &format!(r#"stroke="{colour}" stroke-width="{width}""#));
        let corners = [(tip.x, tip.y), (back.x + wx, back.y + wy), (back.x - wx, back.y - wy)];
        let points: Vec<String> = corners.iter().map(|(x, y)| format!("{x:.1},{y:.1}")).collect();
        self.add(Layer::Lines, format!(r#"<polygon points="{}" fill="{colour}"/>"#, points.join(" ")));
    }

    /// A cross where something is lost or breaks.
    pub fn cross(&mut self, centre: Point, size: f64) {
        let style = format!(r#"stroke="{BAD}" stroke-width="2.4" stroke-linecap="round""#);
        for slope in [-1.0, 1.0] {
            let (from, to) = (at(centre.x - size, centre.y - slope * size), at(centre.x + size, centre.y + slope * size));
            self.line(Layer::Front, from, to, &style);
        }
    }

    pub fn rect(&mut self, layer: Layer, corner: Point, width: f64, height: f64, style: &str) {
        self.add(layer, format!(r#"<rect x="{:.1}" y="{:.1}" width="{width:.1}" height="{height:.1}" {style}/>"#, corner.x, corner.y));
    }

    pub fn dot(&mut self, centre: Point, radius: f64, colour: &str) {
        self.add(Layer::Front, format!(r#"<circle cx="{:.1}" cy="{:.1}" r="{radius:.1}" fill="{colour}"/>"#, centre.x, centre.y));
    }

    /// Text with a white rim, so that lines below do not cut it. `anchor` is start, middle or end.
    pub fn text(&mut self, place: Point, anchor: &str, style: &str, words: &str) {
        let words = words.replace('&', "&amp;").replace('<', "&lt;");
        let rim = r##"stroke="#fff" stroke-width="3.5" stroke-linejoin="round" paint-order="stroke""##;
        self.add(Layer::Front, format!(r#"<text x="{:.1}" y="{:.1}" text-anchor="{anchor}" {rim} {style}>{words}</text>"#, place.x, place.y));
    }

    /// Lays this drawing upon another one.
    pub fn upon(self, mut below: Drawing) -> Drawing {
        below.layers.iter_mut().zip(self.layers).for_each(|(below, above)| below.push_str(&above));
        below
    }

    /// The file, with the given title for readers that do not see it.
    pub fn file(&self, width: f64, height: f64, title: &str) -> String {
        let size = format!(r#"viewBox="0 0 {width:.0} {height:.0}" width="{width:.0}" height="{height:.0}""#);
        let font = r#"font-family="DejaVu Sans, Verdana, sans-serif""#;
        let paper = format!(r##"<rect width="{width:.0}" height="{height:.0}" fill="#fff"/>"##);
        let shapes = self.layers.concat();
        format!(
            r#"<svg xmlns="http://www.w3.org/2000/svg" {size} {font} role="img">
<title>{title}</title>
{WORN}
{paper}
{shapes}</svg>
"#
        )
    }
}
