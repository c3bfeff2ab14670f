//! A picture as plain SVG 1.1: black on white, every text escaped, coordinates in whole pixels.

use std::fmt::Write;

/// A rectangle.
#[derive(Clone, Copy, Debug, PartialEq, Eq)]
pub struct Frame {
    pub x: i32,
    pub y: i32,
    pub width: i32,
    pub height: i32,
}

impl Frame {
    pub fn right(&self) -> i32 {
        self.x + self.width
    }

    pub fn bottom(&self) -> i32 {
        self.y + self.height
    }

    pub fn overlaps(&self, other: &Frame) -> bool {
        self.x < other.right() && other.x < self.right() && self.y < other.bottom() && other.y < self.bottom()
    }
}

pub type Point = (i32, i32);

/// How a line is drawn; on paper the dash tells what colour cannot.
#[derive(Clone, Copy, Debug, PartialEq, Eq)]
pub enum Pen {
    Solid,
    Thick,
    Dashed,
    Dotted,
    /// A guide for the eye.
    Faint,
}

impl Pen {
    fn attributes(self) -> &'static str {
        match self {
            Pen::Solid => r#"stroke="black""#,
            Pen::Thick => r#"stroke="black" stroke-width="2""#,
            Pen::Dashed => r#"stroke="black" stroke-dasharray="6 4""#,
            Pen::Dotted => r#"stroke="black" stroke-dasharray="1 4" stroke-width="2""#,
            Pen::Faint => r##"stroke="#dddddd""##,
        }
    }
}

/// How a text is set: what stands in the script in the picture's monospace font, other words in another.
#[derive(Clone, Copy, Debug, PartialEq, Eq)]
pub enum Face {
    Code,
    Strong,
    Words,
    Small,
    Heading,
}

impl Face {
    fn attributes(self) -> &'static str {
        match self {
            Face::Code => "",
            Face::Strong => r#" font-weight="bold""#,
            Face::Words => r#" font-family="sans-serif""#,
            Face::Small => r##" font-family="sans-serif" font-size="10" fill="#444444""##,
            Face::Heading => r#" font-family="sans-serif" font-size="14""#,
        }
    }
}

/// Where a text stands to its point.
#[derive(Clone, Copy, Debug, PartialEq, Eq)]
pub enum Anchor {
    Start,
    Middle,
    End,
}

impl Anchor {
    fn attributes(self) -> &'static str {
        match self {
            Anchor::Start => "",
            Anchor::Middle => r#" text-anchor="middle""#,
            Anchor::End => r#" text-anchor="end""#,
        }
    }
}

/// How wide a text is at 12 px in a monospace font; other words are not wider, but for a heading.
pub fn width(text: &str) -> i32 {
    (text.len() as i32 * 72 + 9) / 10
}

/// How wide a heading is, at most.
pub fn heading_width(text: &str) -> i32 {
    text.len() as i32 * 9
}

/// How wide a small text is, at most.
pub fn small_width(text: &str) -> i32 {
    text.len() as i32 * 6
}

#[derive(Default)]
pub struct Svg {
    body: String,
}

impl Svg {
    pub fn new() -> Svg {
        Svg::default()
    }

    /// What follows until it is closed belongs together, and shows this title to who points at it.
    pub fn open(&mut self, class: &str, title: &str) {
        self.put(&format!("<g class=\"{class}\"><title>{}</title>", escaped(title)));
    }

    pub fn close(&mut self) {
        self.put("</g>");
    }

    /// A box with round corners, filled.
    pub fn rect(&mut self, frame: Frame, corner: i32, fill: &str, pen: Option<Pen>) {
        let Frame { x, y, width, height } = frame;
        let pen = pen.map_or(String::new(), |pen| format!(" {}", pen.attributes()));
        self.put(&format!("<rect x=\"{x}\" y=\"{y}\" width=\"{width}\" height=\"{height}\" rx=\"{corner}\" fill=\"{fill}\"{pen}/>"));
    }

    pub fn circle(&mut self, (x, y): Point, radius: i32, fill: &str) {
        self.put(&format!("<circle cx=\"{x}\" cy=\"{y}\" r=\"{radius}\" fill=\"{fill}\" stroke=\"black\"/>"));
    }

    /// A line through all points.
    pub fn line(&mut self, points: &[Point], pen: Pen) {
        let points: Vec<String> = points.iter().map(|(x, y)| format!("{x},{y}")).collect();
        self.put(&format!("<polyline points=\"{}\" fill=\"none\" {}/>", points.join(" "), pen.attributes()));
    }

    /// The head of an arrow that goes to the right (1) or to the left (-1), full or open.
    pub fn head(&mut self, (x, y): Point, way: i32, full: bool) {
        let back = x - 8 * way;
        match full {
            true => self.put(&format!("<polygon points=\"{x},{y} {back},{} {back},{}\"/>", y - 4, y + 4)),
            false => self.line(&[(back, y - 4), (x, y), (back, y + 4)], Pen::Solid),
        }
    }

    pub fn cross(&mut self, (x, y): Point) {
        self.line(&[(x - 5, y - 5), (x + 5, y + 5)], Pen::Thick);
        self.line(&[(x - 5, y + 5), (x + 5, y - 5)], Pen::Thick);
    }

    /// A text, unless it is empty.
    pub fn text(&mut self, (x, y): Point, anchor: Anchor, face: Face, text: &str) {
        if !text.is_empty() {
            self.put(&format!("<text x=\"{x}\" y=\"{y}\"{}{}>{}</text>", anchor.attributes(), face.attributes(), escaped(text)));
        }
    }

    /// What the picture is of, and what its signs mean: where all pictures begin. Gives its width.
    pub fn legend(&mut self, x: i32, heading: &str, key: &[&str]) -> i32 {
        self.text((x, 28), Anchor::Start, Face::Heading, heading);
        for (line, text) in (0..).zip(key) {
            self.text((x, 46 + 14 * line), Anchor::Start, Face::Small, text);
        }
        key.iter().map(|text| small_width(text)).fold(heading_width(heading), i32::max)
    }

    fn put(&mut self, element: &str) {
        self.body.push_str(element);
        self.body.push('\n');
    }

    /// The whole picture, on white.
    pub fn finished(self, width: i32, height: i32) -> String {
        let mut whole = String::new();
        // Writing into a string does not fail.
        let _ = writeln!(
            whole,
            "<svg xmlns=\"http://www.w3.org/2000/svg\" version=\"1.1\" width=\"{width}\" height=\"{height}\" viewBox=\"0 0 {width} {height}\" \
             font-family=\"monospace\" font-size=\"12\">"
        );
        let _ = writeln!(whole, "<rect width=\"{width}\" height=\"{height}\" fill=\"white\"/>");
        whole.push_str(&self.body);
        whole.push_str("</svg>\n");
        whole
    }
}

/// A text as XML has it.
fn escaped(text: &str) -> String {
    text.replace('&', "&amp;").replace('<', "&lt;").replace('>', "&gt;").replace('"', "&quot;")
}

#[cfg(test)]
mod tests {
    use super::*;

    #[test]
    fn texts_are_escaped() {
        assert_eq!(escaped("&{'a : 1 -o 1} -> \"<"), "&amp;{'a : 1 -o 1} -&gt; &quot;&lt;");
    }

    #[test]
    fn frames_that_touch_do_not_overlap() {
        let frame = |x, y| Frame { x, y, width: 10, height: 10 };
        assert!(frame(0, 0).overlaps(&frame(9, 9)));
        assert!(!frame(0, 0).overlaps(&frame(10, 0)));
        assert!(!frame(0, 0).overlaps(&frame(0, 10)));
    }
}
