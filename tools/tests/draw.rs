//! Pictures: those that were looked over are drawn as they were; in the picture of any configuration stands all that is in it, and nothing covers anything.

mod common;

use common::{accepted, all_texts, root, texts};
use epass_tools::draw::ground::Tip;
use epass_tools::draw::plan::{Line, Plan};
use epass_tools::draw::sheet::Sheet;
use epass_tools::draw::strokes::Way;
use epass_tools::draw::svg::{width, Frame, Point};
use epass_tools::draw::{draw, Scene, MOST_MESSAGES};
use epass_tools::program::Program;
use epass_tools::state::{Far, Side};
use std::fs;
use std::sync::OnceLock;

/// How far each exec line of each script is drawn, and by which seed.
const RUNS: [(u32, Option<u64>); 7] = [(0, None), (1, Some(1)), (6, Some(2)), (13, None), (30, Some(3)), (120, Some(24)), (260, None)];

/// A run as it is drawn.
struct Case {
    what: String,
    program: &'static Program<'static>,
    scene: Scene<'static>,
}

/// The runs of every text, and of those that are here for their pictures: carried out once, and kept for all tests.
fn cases() -> &'static [Case] {
    static CASES: OnceLock<Vec<Case>> = OnceLock::new();
    CASES.get_or_init(|| {
        let all = all_texts().into_iter().chain(texts("tools/tests/pictures"));
        all.flat_map(|(name, text)| cases_of(&name, text.leak())).collect()
    })
}

fn cases_of(name: &str, text: &'static [u8]) -> Vec<Case> {
    let Some(program) = accepted(text) else { return Vec::new() };
    let program: &Program<'_> = Box::leak(Box::new(program));
    let runs = (0..program.execs.len() as u32).flat_map(|line| RUNS.map(|(steps, seed)| (line, steps, seed)));
    let case = |(line, steps, seed)| Case {
        what: format!("{name}, exec {line}, {steps} steps, seed {seed:?}"),
        program,
        scene: Scene::of(program, line, Some(steps), seed).unwrap(),
    };
    runs.map(case).collect()
}

/// `./epass --draw --to tools/tests/pictures FILE` draws them anew, to be looked over.
#[test]
fn pictures_are_as_they_were() {
    for (file, steps, stored) in [
        ("examples/knitting.ep", None, "knitting"),
        ("examples/knitting.ep", Some(12), "knitting-12"),
        ("tools/tests/pictures/handler.ep", None, "handler"),
        ("tools/tests/pictures/users.ep", None, "users"),
    ] {
        let text = fs::read(root().join(file)).unwrap();
        let pictures = draw(&accepted(&text).unwrap(), 0, steps, None).unwrap();
        for (what, picture) in [("configuration", pictures.configuration), ("messages", pictures.messages)] {
            let path = root().join(format!("tools/tests/pictures/{stored}.{what}.svg"));
            assert!(fs::read_to_string(&path).is_ok_and(|stored| stored == picture), "{} is another picture", path.display());
        }
    }
}

#[test]
fn a_process_is_a_box_and_an_end_is_at_a_line() {
    let mut largest = 0;
    for Case { what, program, scene } in cases() {
        let (state, plan) = (&scene.snapshot.state, Plan::of(program, &scene.snapshot));
        assert_eq!(plan.frames.len(), state.processes.len(), "{what}");
        let links = state.processes.iter().filter(|process| process.link.is_some()).count();
        let dashed = plan.lines.iter().filter(|line| line.dashed);
        assert_eq!(dashed.map(ends_at_cards).sum::<usize>(), 2 * links, "{what}: the links");
        let held: usize = state.processes.iter().map(|process| process.held.len()).sum();
        let solid = plan.lines.iter().filter(|line| !line.dashed);
        assert_eq!(solid.map(ends_at_cards).sum::<usize>(), held, "{what}: the ends");
        largest = largest.max(plan.frames.len());
    }
    assert_eq!(largest, epass::PROCESS_PLACES);
}

fn ends_at_cards(line: &Line) -> usize {
    if line.tip.is_some() { 1 } else { 2 }
}

/// Each line ends where the two ends of its channel are, or at the sign for who has the other.
#[test]
fn a_line_goes_from_the_user_to_the_provider() {
    for Case { what, program, scene } in cases() {
        let (state, plan) = (&scene.snapshot.state, Plan::of(program, &scene.snapshot));
        let joined = |from: usize, to: usize| plan.lines.iter().any(|line| line.tip.is_none() && touches(line, &plan.frames, from, to));
        let stub = |wanted: &Tip| plan.lines.iter().any(|line| line.tip.as_ref().is_some_and(|(tip, _)| tip == wanted));
        for (place, process) in state.processes.iter().enumerate() {
            for end in &process.held {
                let fine = match (state.far(*end), end.side) {
                    (Far::Process(other, _), Side::Used) => joined(place, other) || stub(&Tip::Flag(format!("to {}", scene.snapshot.names[other]))),
                    (Far::Process(other, _), Side::Provided) => joined(other, place) || stub(&Tip::Flag(format!("from {}", scene.snapshot.names[other]))),
                    (Far::Outside(number), _) => stub(&Tip::Outside(number)),
                    (Far::Nobody, _) => stub(&Tip::Cross),
                };
                assert!(fine, "{what}: {} of {}", program.name(end.name), scene.snapshot.names[place]);
            }
        }
    }
}

fn touches(line: &Line, frames: &[Frame], from: usize, to: usize) -> bool {
    let (Some(first), Some(last)) = (line.points.first(), line.points.last()) else { return false };
    let beside = |(x, y): Point, edge: i32, frame: &Frame| x == edge && frame.y < y && y < frame.bottom();
    beside(*first, frames[from].right(), &frames[from]) && beside(*last, frames[to].x, &frames[to])
}

/// What stands in a picture, with its frame.
fn things(plan: &Plan) -> Vec<(String, Frame)> {
    let cards = plan.cards.iter().zip(&plan.frames).map(|(card, frame)| (card.name.clone(), *frame));
    let labels = plan.lines.iter().flat_map(|line| line.labels.iter().map(|label| (label.text.clone(), label.frame)));
    let tips = plan.lines.iter().filter_map(|line| line.tip.as_ref().map(|(tip, frame)| (format!("{tip:?}"), *frame)));
    cards.chain(labels).chain(tips).collect()
}

#[test]
fn nothing_covers_anything() {
    for Case { what, program, scene } in cases() {
        let plan = Plan::of(program, &scene.snapshot);
        let things = things(&plan);
        for (i, (name, frame)) in things.iter().enumerate() {
            assert!(frame.x >= 0 && frame.y >= 0 && frame.right() <= plan.width && frame.bottom() <= plan.height, "{what}: {name} stands outside");
            let covered = things[i + 1..].iter().find(|(_, other)| frame.overlaps(other));
            assert!(covered.is_none(), "{what}: {name} and {covered:?}");
        }
    }
}

/// Lines of one height that are nearer than this could be taken for one.
const NEAR: i32 = 20;

/// The straight parts of a line, as frames without a width or without a height.
fn parts(line: &Line) -> impl Iterator<Item = Frame> + '_ {
    line.points.windows(2).map(|pair| {
        let ((a, b), (c, d)) = (pair[0], pair[1]);
        Frame { x: a.min(c), y: b.min(d), width: (a - c).abs(), height: (b - d).abs() }
    })
}

/// Whether two parts run along each other, or one seems to go on as the other; that they cross is no fault.
fn along(one: &Frame, other: &Frame) -> bool {
    let level = one.height == 0 && other.height == 0 && one.y == other.y && one.x < other.right() + NEAR && other.x < one.right() + NEAR;
    let upright = one.width == 0 && other.width == 0 && one.x == other.x && one.y < other.bottom() && other.y < one.bottom();
    level || upright
}

#[test]
fn a_line_crosses_no_box_and_no_label_and_runs_along_no_other() {
    for Case { what, program, scene } in cases() {
        let plan = Plan::of(program, &scene.snapshot);
        let things = things(&plan);
        for (i, line) in plan.lines.iter().enumerate() {
            for part in parts(line) {
                let crossed = things.iter().find(|(name, frame)| part.overlaps(frame) && !name.starts_with("Cross"));
                assert!(crossed.is_none(), "{what}: {} and {crossed:?}", line.title);
                let other = plan.lines[i + 1..].iter().find(|other| parts(other).any(|theirs| along(&part, &theirs)));
                assert!(other.is_none(), "{what}: {} and {}", line.title, other.unwrap().title);
            }
        }
    }
}

#[test]
fn lifelines_stand_apart_and_texts_stand_between_them() {
    for Case { what, scene, .. } in cases() {
        let sheet = Sheet::of(scene);
        assert!(sheet.xs.windows(2).all(|pair| pair[0] < pair[1]), "{what}");
        for index in 0..sheet.lifelines.len() {
            let head = sheet.head(index);
            let (before, after) = (index.checked_sub(1).map_or(0, |before| sheet.xs[before]), sheet.xs.get(index + 1).copied().unwrap_or(sheet.width));
            assert!(before < head.x && head.right() < after, "{what}: {}", sheet.lifelines[index].name);
        }
        for (row, number) in sheet.rows.iter().flat_map(|row| (0..row.strokes.len()).map(move |number| (row, number))) {
            let stroke = &row.strokes[number];
            let (x, y) = sheet.text(stroke, row.line(number));
            let end = x + width(&stroke.text);
            assert!(sheet.seen < x && end < sheet.width && row.top < y && y < row.bottom(), "{what}: {}", stroke.text);
            if let (Some(to), false) = (sheet.target(stroke), stroke.way == Way::Lost) {
                let from = sheet.x(stroke.from);
                assert!(from.min(to) < x && end < from.max(to), "{what}: {} is longer than its arrow", stroke.text);
            }
        }
    }
}

/// The elements of a picture, each closed where it must be, attributes in quotes and texts escaped.
fn elements(picture: &str) -> Result<Vec<&str>, String> {
    let (mut found, mut open) = (Vec::new(), Vec::new());
    let mut rest = picture;
    while let Some((text, tail)) = rest.split_once('<') {
        let (tag, after) = tail.split_once('>').ok_or("a tag without an end")?;
        let name = tag.trim_start_matches('/').split([' ', '/']).next().unwrap_or_default();
        if !is_escaped(text) || !is_escaped(tag) || tag.matches('"').count() % 2 != 0 || text.contains('>') {
            return Err(format!("{text}<{tag}>"));
        }
        match (tag.starts_with('/'), tag.ends_with('/')) {
            (true, _) if open.pop() != Some(name) => return Err(format!("</{name}> closes another")),
            (false, false) => open.push(name),
            _ => {}
        }
        if !tag.starts_with('/') {
            found.push(tag);
        }
        rest = after;
    }
    if open.is_empty() { Ok(found) } else { Err(format!("{open:?} are left open")) }
}

fn is_escaped(text: &str) -> bool {
    let entities = ["amp;", "lt;", "gt;", "quot;"];
    text.split('&').skip(1).all(|after| entities.iter().any(|entity| after.starts_with(entity)))
}

/// The texts that are shown, as they are meant; titles are none.
fn shown(picture: &str) -> Vec<String> {
    let texts = picture.split("<text ").skip(1).filter_map(|part| part.split_once('>')?.1.split_once("</text>"));
    texts.map(|(text, _)| text.replace("&lt;", "<").replace("&gt;", ">").replace("&quot;", "\"").replace("&amp;", "&")).collect()
}

fn count(elements: &[&str], class: &str) -> usize {
    elements.iter().filter(|tag| tag.contains(&format!("class=\"{class}\""))).count()
}

#[test]
fn all_that_is_in_a_run_is_in_its_pictures() {
    for Case { what, program, scene } in cases() {
        let pictures = scene.pictures(program);
        assert_eq!(pictures.steps, scene.snapshot.steps, "{what}");
        configuration_shows(what, &pictures.configuration, scene);
        messages_show(what, &pictures.messages, scene);
    }
}

fn configuration_shows(what: &str, picture: &str, scene: &Scene<'_>) {
    let found = elements(picture).unwrap_or_else(|fault| panic!("{what}: {fault}"));
    let texts = shown(picture);
    let state = &scene.snapshot.state;
    assert_eq!(count(&found, "process"), state.processes.len(), "{what}");
    for name in scene.snapshot.names.iter().cloned().chain(state.outside.iter().map(|out| format!("#{}", out.number))) {
        assert_eq!(texts.iter().filter(|text| **text == name).count().min(1), 1, "{what}: {name} is missing");
    }
    let legend = &texts[0];
    assert!(legend.contains(scene.exec) && legend.contains(&format!("after {} steps", scene.snapshot.steps)), "{what}: {legend}");
    assert_eq!(legend.contains(", seed "), scene.seed.is_some(), "{what}: {legend}");
    assert_eq!(legend.ends_with(", halted"), state.halted, "{what}: {legend}");
    assert_eq!(texts.iter().any(|text| text == "no process is left"), state.processes.is_empty(), "{what}");
}

fn messages_show(what: &str, picture: &str, scene: &Scene<'_>) {
    let found = elements(picture).unwrap_or_else(|fault| panic!("{what}: {fault}"));
    let texts = shown(picture);
    assert_eq!(count(&found, "step"), scene.told.len(), "{what}");
    for told in &scene.told {
        let event = told;
        assert!(texts.contains(&event.number.to_string()), "{what}: step {}", event.number);
        for seen in event.seen().into_iter().flat_map(epass_tools::telling::sightings) {
            assert!(texts.iter().any(|text| text.contains(&seen)), "{what}: {seen}");
        }
    }
    let goes_on = texts.iter().any(|text| text.starts_with("the run goes on"));
    assert_eq!(goes_on, scene.ending.is_none(), "{what}");
}

/// Without a number of steps: the first of the largest configurations, and at most so many messages.
#[test]
fn a_whole_run() {
    let knitting = fs::read(root().join("examples/knitting.ep")).unwrap();
    let program = accepted(&knitting).unwrap();
    assert_eq!(draw(&program, 0, None, None).unwrap().steps, 2);
    assert_eq!(draw(&program, 0, Some(1000), None).unwrap().steps, 46);
    for (file, ending) in [("s-loop.ep", "the run goes on: stopped after 10000 steps"), ("s-spawn-forever.ep", "the run goes on: full after 254 steps")] {
        let text = fs::read(root().join("crates/cases/data").join(file)).unwrap();
        let program = accepted(&text).unwrap();
        let pictures = draw(&program, 0, None, None).unwrap();
        assert_eq!(count(&elements(&pictures.messages).unwrap(), "step"), MOST_MESSAGES);
        assert!(shown(&pictures.messages).iter().any(|text| text == ending), "{file}");
        let told = draw(&program, 0, Some(250), None).unwrap().messages;
        assert_eq!(count(&elements(&told).unwrap(), "step"), 250, "{file}");
    }
}

/// The configuration that is drawn of a whole run is the first that has the most processes.
#[test]
fn the_first_of_the_largest_configurations() {
    for (name, text) in texts("crates/cases/data").into_iter().filter(|(name, _)| name.starts_with("thesis") || name.starts_with("s-")) {
        let Some(program) = accepted(&text) else { continue };
        let whole = Scene::of(&program, 0, None, Some(5)).unwrap();
        let sizes: Vec<usize> = (0..=whole.steps.min(40)).map(|steps| Scene::of(&program, 0, Some(steps), Some(5)).unwrap().snapshot.names.len()).collect();
        let most = whole.snapshot.names.len();
        assert!(sizes.iter().all(|size| *size <= most), "{name}");
        let first = sizes.iter().position(|size| *size == most).map_or(whole.snapshot.steps > 40, |first| first as u32 == whole.snapshot.steps);
        assert!(first, "{name}: after {} steps", whole.snapshot.steps);
    }
}

#[test]
fn what_cannot_be_run_is_refused() {
    let text = b"proc m (x : 1) [] = send x ()\nexec m\n";
    assert_eq!(draw(&Program::read(text).unwrap(), 1, None, None).err().map(|refusal| refusal.number), Some(17));
    let text = b"proc m (x : 1) [] =\nexec m\n";
    assert_eq!(draw(&Program::read(text).unwrap(), 0, None, None).err().map(|refusal| refusal.number), Some(13));
}
