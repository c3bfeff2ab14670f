//! The picture of a run's messages: a lifeline for the outside and for each process, a row for each step.

use super::lifelines::{Change, Lifeline, Phase};
use super::sheet::{Names, Row, Sheet, BESIDE, EDGE, NUMBERS};
use super::strokes::{Sign, Stroke, Way};
use super::svg::{width, Anchor, Face, Frame, Pen, Svg};
use super::Scene;

const KEY: [&str; 2] = [
    "Arrow: a message, with its channel; open: a new process; dashed: no message, but a channel is given up, or a handler starts or folds up.",
    "Lifeline: runs; dashed: waits as a handler; dotted: folds up; bar: leaves. At the left who takes the step, in bold what the outside sees.",
];
/// Below the steps.
const FOOT: i32 = 60;

pub fn picture(scene: &Scene<'_>) -> String {
    let sheet = Sheet::of(scene);
    let (legend, ending) = (legend(scene), ending(scene));
    let mut svg = Svg::new();
    let wide = sheet.width.max(svg.legend(EDGE, &legend, &KEY).max(width(&ending)) + 2 * EDGE);
    for row in &sheet.rows {
        svg.line(&[(EDGE, row.bottom()), (wide - EDGE, row.bottom())], Pen::Faint);
    }
    (0..sheet.lifelines.len()).for_each(|index| draw_lifeline(&mut svg, &sheet, index));
    sheet.names.iter().for_each(|names| draw_names(&mut svg, &sheet, names));
    sheet.rows.iter().for_each(|row| draw_row(&mut svg, &sheet, row));
    svg.text((EDGE, sheet.bottom + FOOT - 18), Anchor::Start, Face::Words, &ending);
    svg.finished(wide, sheet.bottom + FOOT)
}

fn legend(scene: &Scene<'_>) -> String {
    let steps = match scene.told.len() {
        0 => "no step".to_owned(),
        1 => "step 1".to_owned(),
        last => format!("steps 1 to {last}"),
    };
    format!("exec {}, {steps}{}", scene.exec, scene.seeded())
}

fn ending(scene: &Scene<'_>) -> String {
    let ended = scene.ending.map(|ending| format!("{} after {} steps", ending.word(), scene.steps));
    match ended {
        None => "the run goes on".to_owned(),
        Some(ended) if (scene.told.len() as u32) < scene.steps => format!("the run goes on: {ended}"),
        Some(ended) => ended,
    }
}

fn draw_lifeline(svg: &mut Svg, sheet: &Sheet, index: usize) {
    let (line, x, head) = (&sheet.lifelines[index], sheet.xs[index], sheet.head(index));
    svg.open("lifeline", &line.name);
    let mut from = head.bottom();
    let mut phase = line.first;
    for Change { row, phase: next } in &line.changes {
        let to = sheet.rows[*row].change(*next);
        draw_phase(svg, x, (from, to), phase);
        (from, phase) = (to, *next);
    }
    draw_phase(svg, x, (from, sheet.bottom + 4), phase);
    draw_head(svg, line, head);
    svg.close();
}

fn draw_phase(svg: &mut Svg, x: i32, (from, to): (i32, i32), phase: Phase) {
    let pen = match phase {
        Phase::Runs => Pen::Solid,
        Phase::Waits => Pen::Dashed,
        Phase::FoldsUp => Pen::Dotted,
        Phase::Left => return,
    };
    if from < to {
        svg.line(&[(x, from), (x, to)], pen);
    }
}

fn draw_head(svg: &mut Svg, line: &Lifeline, frame: Frame) {
    let pen = if line.first == Phase::Waits { Pen::Dashed } else { Pen::Solid };
    svg.rect(frame, 4, "white", Some(pen));
    svg.text((frame.x + frame.width / 2, frame.y + 14), Anchor::Middle, Face::Strong, &line.name);
}

fn draw_names(svg: &mut Svg, sheet: &Sheet, names: &Names) {
    for (x, name) in sheet.named(names) {
        let wide = width(&name);
        svg.rect(Frame { x: x - wide / 2, y: names.line - 7, width: wide, height: 14 }, 0, "white", None);
        svg.text((x, names.line + 4), Anchor::Middle, Face::Small, &name);
    }
}

fn draw_row(svg: &mut Svg, sheet: &Sheet, row: &Row) {
    svg.open("step", &row.title);
    let base = row.line(0) + 4;
    svg.text((NUMBERS, base), Anchor::End, Face::Words, &row.number.to_string());
    svg.text((NUMBERS + BESIDE, base), Anchor::Start, Face::Code, &row.name);
    svg.text((sheet.seen, base), Anchor::End, Face::Strong, &row.seen);
    for (number, stroke) in row.strokes.iter().enumerate() {
        draw_stroke(svg, sheet, stroke, row.line(number));
    }
    svg.close();
}

fn draw_stroke(svg: &mut Svg, sheet: &Sheet, stroke: &Stroke, line: i32) {
    let from = sheet.x(stroke.from);
    let (x, y) = sheet.text(stroke, line);
    // Lifelines that pass behind a text would strike it out.
    svg.rect(Frame { x: x - 2, y: y - 11, width: width(&stroke.text) + 4, height: 14 }, 0, "white", None);
    svg.text((x, y), Anchor::Start, if stroke.mark == Sign::Halt { Face::Strong } else { Face::Code }, &stroke.text);
    if let Some(to) = sheet.target(stroke) {
        draw_arrow(svg, stroke.way, (from, to), line);
    }
    draw_mark(svg, stroke.mark, from, line);
}

fn draw_arrow(svg: &mut Svg, way: Way, (from, to): (i32, i32), line: i32) {
    let dash = if matches!(way, Way::Tells(_)) { Pen::Dashed } else { Pen::Solid };
    svg.line(&[(from, line), (to, line)], dash);
    match way {
        Way::Lost => svg.cross((to, line)),
        _ => svg.head((to, line), (to - from).signum(), matches!(way, Way::Message(_))),
    }
}

fn draw_mark(svg: &mut Svg, mark: Sign, x: i32, line: i32) {
    match mark {
        Sign::None => {}
        Sign::Dot => svg.circle((x, line), 3, "black"),
        Sign::Cross => svg.cross((x, line)),
        Sign::Bar => svg.line(&[(x - 8, line), (x + 8, line)], Pen::Thick),
        Sign::Halt => svg.circle((x, line), 6, "black"),
    }
}
