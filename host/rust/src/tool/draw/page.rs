//! A page for a browser, on which the records are stepped through and another locator can be chosen.

use std::fmt::Write;

use lomkhvide::AuthorityIndex;

use super::super::Fault;
use super::super::asked::Asked;
use super::super::json::{Json, object};
use super::super::run::Run;
use super::beside::Beside;
use super::scene::{AXIS, LABELS, Scene};
use super::spans;
use super::story::{Story, number};
use super::svg::{self, text};

const PAGE_STYLE: &str = include_str!("page.css");
const SCRIPT: &str = include_str!("page.js");

/// Width and height of a sign of the legend.
const SIGN: (usize, usize) = (58, 34);

pub fn page(
    run: &Run,
    scene: &Scene,
    story: &Story,
    shown: Option<usize>,
    left_out: usize,
    asked: &Asked,
) -> Result<String, Fault> {
    let beside = asked.beside.as_ref().map(|file| Beside::new(run, file)).transpose()?;
    let title = shown.map_or("No change is stored".to_string(), |shown| story.changes[shown].name.clone());
    let (width, height, labels) = (scene.width, scene.height - AXIS, LABELS);
    let count = run.count;
    Ok(format!(
        "<!DOCTYPE html>\n<html lang=\"en\">\n<head>\n<meta charset=\"utf-8\">\n\
         <meta name=\"viewport\" content=\"width=device-width, initial-scale=1\">\n<title>{title}</title>\n\
         <style>\n{}{PAGE_STYLE}</style>\n</head>\n<body>\n<header>\n{}\
         <div id=\"verdict\"><h1 id=\"title\" aria-live=\"polite\">{title}</h1><p id=\"says\"></p></div>\n\
         <div id=\"bars\" role=\"group\" aria-label=\"stake\">\n\
         <div class=\"bar\"><span class=\"bar-name\">votes</span><div class=\"track\" id=\"v\" role=\"img\"></div>\
         <span class=\"bar-sum\" id=\"v-says\"></span></div>\n\
         <div class=\"bar\"><span class=\"bar-name\">certify</span><div class=\"track\" id=\"c\" role=\"img\"></div>\
         <span class=\"bar-sum\" id=\"c-says\"></span></div>\n</div>\n\
         <nav id=\"walk\" aria-label=\"records\">\
         <button id=\"first\" title=\"before the first record (Home)\" aria-label=\"before the first record\">|&lt;</button>\
         <button id=\"back\" title=\"one record back (left arrow)\" aria-label=\"one record back\">&lt;</button>\
         <button id=\"play\" title=\"play and pause (space)\">play</button>\
         <button id=\"on\" title=\"one record on (right arrow)\" aria-label=\"one record on\">&gt;</button>\
         <button id=\"last\" title=\"the last record (End)\" aria-label=\"the last record\">&gt;|</button>\
         <input id=\"slider\" type=\"range\" min=\"0\" max=\"{count}\" value=\"{count}\" step=\"1\" aria-label=\"records fed\">\
         <output id=\"at\" for=\"slider\"></output></nav>\n\
         <nav id=\"choose\" aria-label=\"changes\"><label>change <select id=\"choice\">\n{}</select></label>\n\
         <button id=\"before\" title=\"the change before in the menu\" aria-label=\"the change before in the menu\">&lt;</button>\
         <button id=\"next\" title=\"the next change in the menu\" aria-label=\"the next change in the menu\">&gt;</button>\
         <span class=\"zoom\"><button id=\"smaller\" title=\"smaller\" aria-label=\"smaller\">&minus;</button>\
         <button id=\"larger\" title=\"larger\" aria-label=\"larger\">+</button><button id=\"fit\">whole</button></span>{}</nav>\n\
         <div id=\"did\" aria-live=\"polite\"></div>\n\
         </header>\n<div id=\"body\">\n<main id=\"scroll\" tabindex=\"-1\">\n<div id=\"corner\"></div>\n\
         <svg id=\"axis\" aria-hidden=\"true\" viewBox=\"0 0 {width} {AXIS}\" width=\"{width}\" height=\"{AXIS}\">\n{}</svg>\n\
         <svg id=\"labels\" role=\"img\" aria-label=\"the owners, with their stakes\" viewBox=\"0 {AXIS} {labels} {height}\" \
         width=\"{labels}\" height=\"{height}\">\n<title>The owners, with their stakes</title>\n{}</svg>\n\
         <svg id=\"graph\" role=\"group\" aria-labelledby=\"graph-title\" viewBox=\"0 {AXIS} {width} {height}\" width=\"{width}\" \
         height=\"{height}\">\n<title id=\"graph-title\">The blocks: rounds from left to right, owners from top to bottom. The arrow keys go from \
         block to block.</title>\n{}</svg>\n\
         </main>\n<aside id=\"why\" aria-label=\"why\" tabindex=\"0\"></aside>\n</div>\n<footer>\n{}\
         <p id=\"committee\">{} Keys: left and right arrow go from record to record, Home and End to the first and last, space plays; \
         from block to block with Tab and the arrows, Enter chooses.</p>\n</footer>\n\
         <script type=\"application/json\" id=\"data\">{}</script>\n<script>\n{SCRIPT}</script>\n</body>\n</html>\n",
        svg::STYLE,
        run.refused_line().map_or(String::new(), |line| format!("<p id=\"refused\">{}</p>\n", text(&line))),
        options(story, shown),
        if left_out == 0 { String::new() } else { format!("<span id=\"left-out\">{left_out} more are left out</span>") },
        svg::axis_of(scene),
        svg::labels_of(run, scene),
        graph_of(run, scene),
        legend(scene, story),
        text(&run.members.line()),
        data(run, scene, story, shown, beside.as_ref()),
    ))
}

/// The locators to choose from, those of each sort together.
fn options(story: &Story, shown: Option<usize>) -> String {
    let mut out = String::new();
    let sort = |i: usize| match &story.changes[i] {
        change if change.final_from.is_some() => "final",
        change if change.is_pending => "pending",
        _ => "neither",
    };
    for name in ["final", "pending", "neither"] {
        let options: Vec<usize> = (0..story.changes.len()).filter(|i| sort(*i) == name).collect();
        if options.is_empty() {
            continue;
        }
        let _ = writeln!(out, "<optgroup label=\"{name}\">");
        for i in options {
            let (change, chosen) = (&story.changes[i], if shown == Some(i) { " selected" } else { "" });
            let _ = writeln!(out, "<option value=\"{i}\"{chosen}>{} ({:#})</option>", change.name, change.locator);
        }
        out.push_str("</optgroup>\n");
    }
    out
}

/// Lanes and blocks; the script draws the lines.
fn graph_of(run: &Run, scene: &Scene) -> String {
    let mut out = svg::lanes_of(scene);
    let thin = if scene.small { " thin" } else { "" };
    for (id, class) in [("includes", "include"), ("picked", "include picked"), ("ways", "ways")] {
        let _ = writeln!(out, "<path id=\"{id}\" class=\"{class}{thin}\" d=\"\"/>");
    }
    for i in 0..run.blocks.len() {
        out.push_str(&svg::block_of(run, scene, i, None));
    }
    out
}

/// What the signs mean.
fn legend(scene: &Scene, story: &Story) -> String {
    let has_ways = story.changes.iter().any(|change| change.has_ways());
    let mut out = String::from("<ul id=\"legend\" aria-label=\"signs\">");
    for (sign, words) in svg::signs(scene, has_ways) {
        let (width, height) = SIGN;
        let _ = write!(
            out,
            "<li><svg width=\"{width}\" height=\"{height}\" viewBox=\"-6 -5 {width} {height}\" aria-hidden=\"true\">{sign}</svg>{words}</li>"
        );
    }
    out + "</ul>\n"
}

/// What the script needs: where the blocks stand, the owners, the steps and the changes.
fn data(run: &Run, scene: &Scene, story: &Story, shown: Option<usize>, beside: Option<&Beside>) -> Json {
    let block = |(i, block): (usize, &super::super::run::Block)| {
        let (x, y) = scene.corners[i];
        let marked = block.record.is_marked() as usize;
        Json::List(vec![block.number.into(), block.owner.into(), x.into(), y.into(), marked.into(), spans(&block.includes)])
    };
    let widths = svg::widths(run);
    let owner = |owner: AuthorityIndex| {
        let (stake, width) = (run.members.stake(owner), widths[owner.0 as usize]);
        Json::List(vec![run.members.owner(owner).into(), number(stake), width.into()])
    };
    object([
        ("shown", shown.into()),
        ("withdrawing", run.withdrawing().into()),
        ("box", [scene.box_width, scene.box_height].into_iter().collect()),
        ("small", scene.small.into()),
        ("total", number(run.members.total())),
        ("quorum", number(run.members.quorum())),
        ("quorumAt", svg::along(run.members.total(), run.members.quorum()).into()),
        ("barWidth", svg::BAR_HUNDREDTHS.into()),
        ("owners", run.members.committee.authorities().map(owner).collect()),
        ("blocks", run.blocks.iter().enumerate().map(block).collect()),
        ("beside", beside.map(Beside::json).into()),
        ("story", story.json(run)),
    ])
}
