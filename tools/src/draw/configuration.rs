//! The picture of a configuration: a card for each process, a line for each channel and each link.

use super::cards::{Card, PortKind, Port, MARGIN};
use super::ground::Tip;
use super::plan::{Line, Plan, EDGE, LIFT};
use super::svg::{Anchor, Face, Frame, Pen, Point, Svg};
use super::Snapshot;
use crate::program::Program;
use crate::state::Doing;

const KEY: [&str; 2] = [
    "Arrow: from a channel's user to its provider; dashed: from a process to its waiting handler. Cross: the other end was given up. #n: the outside.",
    "In a box, at the left what the process provides, at the right what it uses. Box dashed: waits as a handler; dotted: folds up.",
];
const NOBODY: &str = "no process is left";

/// The picture, with a legend above it.
pub fn picture(program: &Program<'_>, snapshot: &Snapshot, legend: &str) -> String {
    let plan = Plan::of(program, snapshot);
    let mut svg = Svg::new();
    let wide = svg.legend(EDGE, legend, if plan.cards.is_empty() { &[] } else { &KEY });
    if plan.cards.is_empty() {
        svg.text((EDGE, 50), Anchor::Start, Face::Words, NOBODY);
    }
    plan.lines.iter().for_each(|line| draw_line(&mut svg, line));
    plan.cards.iter().zip(&plan.frames).for_each(|(card, frame)| draw_card(&mut svg, card, *frame));
    svg.finished(plan.width.max(wide + 2 * EDGE), plan.height)
}

fn draw_line(svg: &mut Svg, line: &Line) {
    svg.open("line", &line.title);
    svg.line(&line.points, if line.dashed { Pen::Dashed } else { Pen::Solid });
    if let (true, Some(end)) = (line.arrives, line.points.last()) {
        svg.head(*end, 1, !line.dashed);
    }
    for label in &line.labels {
        svg.text((label.frame.x, label.frame.bottom() - LIFT + 1), Anchor::Start, Face::Code, &label.text);
    }
    if let Some((tip, frame)) = &line.tip {
        draw_tip(svg, tip, *frame);
    }
    svg.close();
}

fn draw_tip(svg: &mut Svg, tip: &Tip, frame: Frame) {
    let middle = (frame.x + frame.width / 2, frame.y + frame.height / 2);
    let beneath = |(x, y): Point| (x, y + 4);
    match tip {
        Tip::Cross => svg.cross(middle),
        Tip::Outside(number) => {
            svg.circle(middle, frame.width / 2, "white");
            svg.text(beneath(middle), Anchor::Middle, Face::Small, &format!("#{number}"));
        }
        Tip::Flag(text) => {
            svg.rect(frame, 11, "white", Some(Pen::Solid));
            svg.text(beneath(middle), Anchor::Middle, Face::Code, text);
        }
    }
}

fn draw_card(svg: &mut Svg, card: &Card, frame: Frame) {
    svg.open("process", &title(card));
    let pen = match card.doing {
        Doing::Runs(_) | Doing::Empty => Pen::Solid,
        Doing::Waits(_) => Pen::Dashed,
        Doing::FoldsUp => Pen::Dotted,
    };
    svg.rect(frame, 4, "white", Some(pen));
    let (left, right) = (frame.x + MARGIN, frame.right() - MARGIN);
    svg.text((left, frame.y + 18), Anchor::Start, Face::Strong, &card.name);
    svg.text((right, frame.y + 18), Anchor::End, Face::Small, &card.place_note());
    svg.text((left, frame.y + 36), Anchor::Start, Face::Code, &card.next);
    svg.text((right, frame.y + 36), Anchor::End, Face::Small, &card.line_note());
    draw_ports(svg, &card.left, (left, frame.y), Anchor::Start);
    draw_ports(svg, &card.right, (right, frame.y), Anchor::End);
    svg.close();
}

fn draw_ports(svg: &mut Svg, ports: &[Port], (x, top): Point, anchor: Anchor) {
    for (row, port) in ports.iter().enumerate() {
        svg.text((x, top + Card::depth(row) + 4), anchor, Face::Code, port.kind.name());
    }
}

/// What who points at a card is told: what it holds, the types in full.
fn title(card: &Card) -> String {
    let channels = |ports: &[Port], verb: &str| -> String {
        let held = ports.iter().filter(|port| port.kind != PortKind::Link);
        held.map(|port| format!("\n{verb} {}", port.kind.title())).collect()
    };
    format!("{}, {}: {}{}{}", card.name, card.place_note(), card.next, channels(&card.left, "provides"), channels(&card.right, "uses"))
}
