//! The parts of a drawing as SVG, and all of them in one file.

use std::fmt::Write;

use lomkhvide::{AuthorityIndex, Owners, Stake};

use super::super::records::{includes, said};
use super::super::run::{Block, Run, Voice, Vote};
use super::scene::{AXIS, LABELS, Scene};
use super::{Bar, View};

pub const STYLE: &str = include_str!("drawing.css");

/// The height of the bars, and the size of one of them.
const BARS_HEIGHT: usize = 84;
const BAR_WIDTH: usize = 700;
pub const BAR_HUNDREDTHS: usize = 100 * BAR_WIDTH;
const BAR_HEIGHT: usize = 22;

/// The narrowest part of a bar that has room for its owner's number, in hundredths.
const ROOM_FOR_NAME: usize = 2200;

/// The longest text about the statements of a block.
const MOST_STATEMENTS: usize = 12;

/// Width and height of the line that explains the signs.
const LEGEND_WIDTH: usize = 1_080;
const LEGEND_HEIGHT: usize = 44;

/// The whole drawing.
pub fn drawing(run: &Run, scene: &Scene, view: Option<&View>) -> String {
    let width = (LABELS + scene.width).max(LABELS + LEGEND_WIDTH - 60) + 16;
    let refused = run.refused_line().map(|line| refused_of(&line));
    let top = if refused.is_some() { 44 } else { 0 };
    let (graph, bars) = (top + 92, top + 92 + scene.height + 12);
    let legend = bars + BARS_HEIGHT;
    let height = legend + LEGEND_HEIGHT;
    let (title, says) = view.map_or(("No share is stored".into(), String::new()), |view| (view.title(), view.says.clone()));
    let mut out = String::new();
    let _ = write!(
        out,
        "<svg xmlns=\"http://www.w3.org/2000/svg\" viewBox=\"0 0 {width} {height}\" width=\"{width}\" height=\"{height}\" role=\"img\" aria-labelledby=\"drawn\">\n\
         <title id=\"drawn\">{title}</title>\n<style>\n{STYLE}</style>\n\
         <rect width=\"{width}\" height=\"{height}\" fill=\"#fff\"/>\n\
         {}<text class=\"title\" x=\"12\" y=\"{}\">{title}</text>\n<text class=\"says\" x=\"12\" y=\"{}\">{says}</text>\n\
         <text class=\"sum\" x=\"12\" y=\"{}\">{}</text>\n\
         <g id=\"labels\" transform=\"translate(0,{graph})\">\n{}</g>\n\
         <g id=\"axis\" transform=\"translate({LABELS},{graph})\">\n{}</g>\n\
         <g id=\"graph\" transform=\"translate({LABELS},{graph})\">\n{}</g>\n\
         <g id=\"bars\" transform=\"translate(0,{bars})\">\n{}</g>\n\
         <g id=\"legend\" transform=\"translate(12,{legend})\">\n{}</g>\n</svg>\n",
        refused.unwrap_or_default(),
        top + 32,
        top + 56,
        top + 78,
        text(&run.members.line()),
        labels_of(run, scene),
        axis_of(scene),
        graph_of(run, scene, view),
        bars_of(run, view),
        legend_of(scene, view.is_some_and(|view| !view.ways.is_empty())),
    );
    out
}

/// The line about refused records, which is longer than a drawing is wide, in two; whole for whoever reads the file.
fn refused_of(line: &str) -> String {
    let (count, first) = line.split_once("; ").unwrap_or((line, ""));
    format!(
        "<desc>{}</desc>\n<text class=\"refused\" x=\"12\" y=\"20\">{};</text>\n<text class=\"refused\" x=\"12\" y=\"40\">{}</text>\n",
        text(line),
        text(count),
        text(first)
    )
}

/// The owners' names and stakes.
pub fn labels_of(run: &Run, scene: &Scene) -> String {
    let mut out = String::new();
    for lane in &scene.lanes {
        let name = run.members.name(lane.owner).map(shortened);
        let middle = lane.top + lane.height / 2 - if name.is_some() { 7 } else { 0 };
        let _ = write!(
            out,
            "<text class=\"owner\" x=\"12\" y=\"{}\">owner {}</text><text class=\"stake\" x=\"12\" y=\"{}\">stake {}</text>",
            middle - 3,
            lane.owner,
            middle + 13,
            run.members.stake(lane.owner)
        );
        if let Some(name) = name {
            let _ = write!(out, "<text class=\"name\" x=\"12\" y=\"{}\">{name}</text>", middle + 27);
        }
        out.push('\n');
    }
    out
}

/// As much of a name as there is room for.
fn shortened(name: &str) -> String {
    let most = 13;
    let cut: String =
        if name.chars().count() > most { name.chars().take(most - 1).chain(['.']).collect() } else { name.into() };
    text(&cut)
}

/// As the text of an element.
pub fn text(text: &str) -> String {
    text.replace('&', "&amp;").replace('<', "&lt;").replace('>', "&gt;")
}

/// The rounds' numbers.
pub fn axis_of(scene: &Scene) -> String {
    let mut out = String::new();
    for (i, round) in scene.rounds.iter().enumerate() {
        let middle = i * scene.column + scene.column / 2;
        let _ = writeln!(out, "<text class=\"round\" x=\"{middle}\" y=\"{}\">round {round}</text>", AXIS - 10);
    }
    out
}

/// Every other lane is grey.
pub fn lanes_of(scene: &Scene) -> String {
    let mut out = String::new();
    for (i, lane) in scene.lanes.iter().enumerate() {
        if i % 2 == 0 {
            let _ = writeln!(
                out,
                "<rect class=\"lane\" x=\"0\" y=\"{}\" width=\"{}\" height=\"{}\"/>",
                lane.top, scene.width, lane.height
            );
        }
    }
    out
}

/// Lanes, includes, ways and blocks.
fn graph_of(run: &Run, scene: &Scene, view: Option<&View>) -> String {
    let mut out = lanes_of(scene);
    let thin = if scene.small { " thin" } else { "" };
    out.push_str("<g id=\"includes\">\n");
    for (i, block) in run.blocks.iter().enumerate().filter(|(_, block)| !block.includes.is_empty()) {
        let lines: String = block.includes.iter().map(|include| scene.line(i, *include)).collect();
        let _ = writeln!(out, "<path id=\"i{i}\" class=\"include{thin}\" d=\"{lines}\"/>");
    }
    out.push_str("</g>\n");
    let _ = writeln!(out, "<path id=\"ways\" class=\"ways\" d=\"{}\"/>", view.map_or("", |view| &view.ways));
    for i in 0..run.blocks.len() {
        out.push_str(&block_of(run, scene, i, view));
    }
    out
}

pub fn block_of(run: &Run, scene: &Scene, i: usize, view: Option<&View>) -> String {
    let (block, (x, y)) = (&run.blocks[i], scene.corners[i]);
    let voice = view.and_then(|view| view.voices.iter().find(|(at, _, _)| *at == i));
    let certifies = view.is_some_and(|view| view.certifying.contains(&i));
    let class = class(block.record.is_marked(), voice.map(|(_, voice, _)| *voice), certifies);
    let role = voice.map_or("", |(_, _, words)| words);
    format!(
        "<g id=\"b{i}\" class=\"{class}\" transform=\"translate({x},{y})\"><title>{}</title>{}{}</g>\n",
        text(&about(run, block, if scene.small { 3 } else { MOST_STATEMENTS })),
        shapes(scene, block.record.is_marked()),
        texts(scene, &block.number.to_string(), role),
    )
}

/// The classes of a block, in a fixed order.
fn class(marked: bool, voice: Option<Voice>, certifies: bool) -> String {
    let mut class = String::from(if marked { "block marked" } else { "block" });
    if voice.is_some_and(|voice| voice.vote.is_some()) {
        class.push_str(" votes");
    }
    if voice.is_some_and(|voice| voice.rejects) {
        class.push_str(" rejects");
    }
    if certifies {
        class.push_str(" certifies");
    }
    class
}

/// The outline of a block, the second one of a certifying block, and its tick.
fn shapes(scene: &Scene, marked: bool) -> String {
    let (w, h) = (scene.box_width as i64, scene.box_height as i64);
    format!(
        "<path class=\"face\" d=\"{}\"/><path class=\"ring\" d=\"{}\"/><path class=\"tick\" d=\"M{} {}l4 5l9 -12\"/>",
        outline(0, 0, w, h, marked),
        outline(-4, -4, w + 8, h + 8, marked),
        w - 12,
        3,
    )
}

/// A rectangle; a marked block's has its corners cut.
fn outline(x: i64, y: i64, w: i64, h: i64, marked: bool) -> String {
    let cut = 9;
    match marked {
        true => format!(
            "M{} {y}h{}l{cut} {cut}v{}l-{cut} {cut}h-{}l-{cut} -{cut}v-{}z",
            x + cut,
            w - 2 * cut,
            h - 2 * cut,
            w - 2 * cut,
            h - 2 * cut
        ),
        false => format!("M{x} {y}h{w}v{h}h-{w}z"),
    }
}

fn texts(scene: &Scene, number: &str, role: &str) -> String {
    let (middle, size) = (scene.box_width / 2, if scene.small { " small" } else { "" });
    let (upper, lower) = if scene.small { (13, 25) } else { (19, 36) };
    format!(
        "<text class=\"number{size}\" x=\"{middle}\" y=\"{upper}\">{number}</text>\
         <text class=\"role{size}\" x=\"{middle}\" y=\"{lower}\">{role}</text>"
    )
}

/// A block in words.
fn about(run: &Run, block: &Block, most: usize) -> String {
    let record = &block.record;
    let mut text = format!("record {}: {:#}", block.number, record.reference());
    if record.is_marked() {
        text.push_str(", with an epoch mark");
    }
    if let Some(includes) = includes(run, record, MOST_STATEMENTS) {
        let _ = write!(text, "\n{includes}");
    }
    for (i, statement) in record.statements().enumerate().take(most) {
        let _ = write!(text, "\n{i}: {}", said(run, &statement));
    }
    if record.statements().len() > most {
        let _ = write!(text, "\nand {} more", record.statements().len() - most);
    }
    text
}

/// The owners who vote and those who certify, by stake, and where quorum begins.
fn bars_of(run: &Run, view: Option<&View>) -> String {
    let (total, quorum) = (run.members.total(), run.members.quorum());
    let none = || Bar { owners: Owners::default(), says: format!("0 of {total}") };
    let empty = (none(), none());
    let (votes, certificates) = view.map_or((&empty.0, &empty.1), |view| (&view.votes, &view.certificates));
    let mut out = String::from(
        "<defs><pattern id=\"hatch\" width=\"6\" height=\"6\" patternUnits=\"userSpaceOnUse\">\
         <rect width=\"6\" height=\"6\" fill=\"#c9d6f5\"/><path d=\"M-1 7L7 -1\" stroke=\"#7f9ada\"/></pattern></defs>\n",
    );
    for (id, name, y, bar) in [("v", "votes", 0, votes), ("c", "certify", BAR_HEIGHT + 8, certificates)] {
        let _ = writeln!(out, "<text class=\"owner\" x=\"12\" y=\"{}\">{name}</text>", y + 16);
        out.push_str(&parts(run, id, y, bar));
        let (x, y) = (LABELS + BAR_WIDTH + 10, y + 16);
        let _ = writeln!(out, "<text id=\"{id}-says\" class=\"sum\" x=\"{x}\" y=\"{y}\">{}</text>", bar.says);
    }
    let (at, bottom) = (100 * LABELS + along(total, quorum), 2 * BAR_HEIGHT + 14);
    let _ = writeln!(out, "<path class=\"quorum\" d=\"M{} -5V{bottom}\"/>", hundredths(at));
    let _ = writeln!(
        out,
        "<text class=\"sum end\" x=\"{}\" y=\"{}\">quorum from {quorum} of {total}</text>",
        hundredths(at),
        bottom + 15
    );
    out
}

/// The parts of a bar, those of the bar's owners in front.
fn parts(run: &Run, id: &str, y: usize, bar: &Bar) -> String {
    let widths = widths(run);
    let (front, rest): (Vec<usize>, Vec<usize>) =
        (0..widths.len()).partition(|owner| bar.owners.contains(AuthorityIndex(*owner as u64)));
    let mut starts = vec![0; widths.len()];
    let mut start = 100 * LABELS;
    for owner in front.into_iter().chain(rest) {
        starts[owner] = start;
        start += widths[owner];
    }
    let mut out = String::new();
    for (owner, (start, width)) in starts.iter().zip(&widths).enumerate() {
        let on = if bar.owners.contains(AuthorityIndex(owner as u64)) { " on" } else { "" };
        let name = if *width >= ROOM_FOR_NAME { owner.to_string() } else { String::new() };
        let _ = writeln!(
            out,
            "<g id=\"{id}{owner}\" class=\"part{on}\" transform=\"translate({},{y})\">\
             <rect width=\"{}\" height=\"{BAR_HEIGHT}\"/><text x=\"{}\" y=\"16\">{name}</text></g>",
            hundredths(*start),
            hundredths(*width),
            hundredths(width / 2),
        );
    }
    out
}

/// The width of each owner's part of a bar, in hundredths.
pub fn widths(run: &Run) -> Vec<usize> {
    let total = run.members.total();
    let mut before = Stake::default();
    let part = |owner: AuthorityIndex| {
        let start = along(total, before);
        before = before + run.members.stake(owner);
        along(total, before) - start
    };
    run.members.committee.authorities().map(part).collect()
}

/// How far along a bar an amount of stake reaches, in hundredths.
pub fn along(total: Stake, amount: Stake) -> usize {
    (amount.0 as u128 * 100 * BAR_WIDTH as u128 / total.0 as u128) as usize
}

fn hundredths(number: usize) -> String {
    format!("{}.{:02}", number / 100, number % 100)
}

/// The signs with their meaning; a way to a vote where there is one.
pub fn signs(scene: &Scene, has_ways: bool) -> Vec<(String, &'static str)> {
    let sample = Scene {
        small: true,
        box_width: 46,
        box_height: 24,
        column: 0,
        rounds: vec![],
        lanes: vec![],
        corners: vec![],
        ..*scene
    };
    let block = |marked: bool, voice: Option<Voice>, certifies: bool, role: &str| {
        format!(
            "<g class=\"{}\">{}<text class=\"role\" x=\"23\" y=\"17\">{role}</text></g>",
            class(marked, voice, certifies),
            shapes(&sample, marked)
        )
    };
    let votes = Voice { vote: Some(Vote::Accepts), rejects: false };
    let rejects = Voice { vote: None, rejects: true };
    let mut signs = vec![
        (block(false, Some(votes), false, "+2"), "votes, with its stake"),
        (block(false, Some(rejects), false, ""), "rejects"),
        (block(false, None, true, ""), "certifies"),
        (block(true, None, false, ""), "marked: passes votes on, never certifies"),
        ("<path class=\"include\" d=\"M0 12h44\"/>".into(), "includes"),
    ];
    if has_ways {
        signs.push(("<path class=\"ways\" d=\"M0 12h44\"/>".into(), "way to a vote"));
    }
    signs
}

/// What the signs mean, in a line.
fn legend_of(scene: &Scene, has_ways: bool) -> String {
    let mut out = String::new();
    let mut x = 0;
    for (sign, words) in signs(scene, has_ways) {
        let _ = writeln!(
            out,
            "<g transform=\"translate({x},6)\">{sign}</g><text class=\"sum\" x=\"{}\" y=\"22\">{words}</text>",
            x + 54
        );
        x += 54 + 7 * words.len() + 22;
    }
    out
}
