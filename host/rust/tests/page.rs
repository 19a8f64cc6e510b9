//! Drawings, and pages in a real browser where there is one.

mod common;

use std::fs;
use std::path::{Path, PathBuf};
use std::process::{Child, Command, Stdio};
use std::thread::sleep;
use std::time::Duration;

use common::{Json, folder, graph, input, runs};
use lomkhvide::{AuthorityIndex, Record, RoundNumber};

/// What the program writes.
fn told(words: &[&str]) -> String {
    let output = Command::new(env!("CARGO_BIN_EXE_lomkhvide")).args(words).output().unwrap();
    assert!(output.status.success(), "{words:?}: {}", String::from_utf8_lossy(&output.stderr));
    String::from_utf8(output.stdout).unwrap()
}

/// The answer of a command with `--json`.
fn facts(words: &[&str]) -> Json {
    let text = told(&[words, &["--json"]].concat());
    Json::read(text.trim()).unwrap_or_else(|| panic!("{words:?}: {text}")).of("answer").clone()
}

/// The page after its script has run; none where no browser runs here, which is said.
fn in_browser(folder: &Path, page: &Path, address: &str, size: &str) -> Option<String> {
    let url = format!("file://{}#{address}", page.display());
    let data = format!("--user-data-dir={}", folder.join("profile").display());
    let size = format!("--window-size={size}");
    let flags = [
        "--headless",
        "--no-sandbox",
        "--disable-gpu",
        "--disable-dev-shm-usage",
        "--disable-background-networking",
        "--no-first-run",
        "--hide-scrollbars",
        "--dump-dom",
    ];
    let shown = folder.join("shown");
    let out = fs::File::create(&shown).unwrap();
    let started = Command::new("chromium").args(flags).args([&data, &size, &url]).stdout(out).stderr(Stdio::null()).spawn();
    if started.is_ok_and(ended_well) {
        return Some(fs::read_to_string(shown).unwrap());
    }
    println!("no chromium runs here: a page was not tried in a browser");
    None
}

/// Waits for a browser, at most two minutes.
fn ended_well(mut child: Child) -> bool {
    for _ in 0..1200 {
        if let Some(status) = child.try_wait().unwrap() {
            return status.success();
        }
        sleep(Duration::from_millis(100));
    }
    child.kill().unwrap();
    child.wait().unwrap();
    false
}

/// The text of the element with that id, without the tags inside it.
fn text_of(page: &str, id: &str) -> String {
    let from = page.find(&format!(" id=\"{id}\"")).unwrap_or_else(|| panic!("no element {id}"));
    let tag = page[..from].rsplit('<').next().unwrap().split(' ').next().unwrap().to_string();
    let start = from + page[from..].find('>').unwrap() + 1;
    let end = start + page[start..].find(&format!("</{tag}>")).unwrap();
    let mut text = String::new();
    for piece in page[start..end].split('<') {
        text += piece.split_once('>').map_or(piece, |(_, text)| text);
    }
    text.replace("&gt;", ">").replace("&lt;", "<").replace("&amp;", "&")
}

fn write(path: &Path, page: &str) -> PathBuf {
    fs::write(path, page).unwrap();
    path.to_path_buf()
}

/// The course's inputs, and one in which votes come before the share and an owner rejects.
fn inputs(folder: &Path) -> Vec<String> {
    let mut files: Vec<String> = ["course_run", "owner_twice", "empty_range", "marked_block", "mistyped_vote"]
        .map(|name| runs().join(format!("data/{name}.bin")).to_str().unwrap().to_string())
        .into();
    let block = |round: u64, author: u64, number: u8| Record::builder(RoundNumber(round), AuthorityIndex(author), [number; 32]);
    let mut records: Vec<Record> = (0..4).map(|i| block(0, i, 1 + i as u8).finish().unwrap()).collect();
    let below: Vec<_> = records.iter().map(Record::reference).collect();
    let over =
        |builder, below: &[lomkhvide::Reference]| below.iter().fold(builder, |b: lomkhvide::RecordBuilder, r| b.include(*r));
    let share = over(block(1, 0, 5), &below).share(b"gain").share(b"filter").finish().unwrap();
    let (one, two) = (share.reference().at(0), share.reference().at(1));
    records.push(over(block(1, 1, 6), &below).accept(one).finish().unwrap());
    records.push(share);
    records.push(over(block(1, 2, 7), &below).range(one, 2).reject(two, None).finish().unwrap());
    records.push(over(block(1, 3, 8), &below).reject(one, None).finish().unwrap());
    let below: Vec<_> = records[4..8].iter().map(Record::reference).collect();
    for i in 0..4 {
        records.push(over(block(2, i, 9 + i as u8), &below).finish().unwrap());
    }
    let path = folder.join("before.bin");
    fs::write(&path, input(4, &records)).unwrap();
    files.push(path.to_str().unwrap().to_string());
    let path = folder.join("graph.bin");
    fs::write(&path, input(4, &graph(4, 5))).unwrap();
    files.push(path.to_str().unwrap().to_string());
    files
}

/// The last of the moments up to a step: its stake and whether it is quorum.
fn at(moments: &Json, step: u64) -> (u64, bool) {
    let last = moments.list().iter().rfind(|moment| moment.list()[0].number() <= step);
    last.map_or((0, false), |last| {
        let parts = last.list();
        (parts[1].number(), parts.get(2).is_some_and(|quorum| quorum.number() == 1))
    })
}

/// After every record the page has what the engine says of the records up to it: votes, pending stake, certificates, finality, whom to ring.
#[test]
fn every_step_is_what_the_engine_says() {
    let folder = folder("steps");
    let mut compared = 0;
    for (file, reading) in inputs(&folder).iter().flat_map(|file| [(file, &[][..]), (file, &["--withdrawing"][..])]) {
        let story = facts(&[reading, &["draw", file]].concat());
        for change in story.of("changes").list() {
            let id = change.of("id").text();
            for step in 1..story.of("steps").list().len() as u64 {
                let first = step.to_string();
                let engine = facts(&[reading, &["explain", "--first", &first, file, &whole(id)]].concat());
                let engine = engine.of("change");
                let place = format!("{file} {reading:?} {id} after record {step}");
                let is_final = matches!(change.of("finalFrom"), Json::Number(from) if *from <= step);
                assert_eq!(engine.of("final"), &Json::Bool(is_final), "{place}");
                for (moments, tally) in [("votes", "voted"), ("certified", "certified")] {
                    let quorum = engine.of(tally).of("quorum") == &Json::Bool(true);
                    assert_eq!(
                        at(change.of(moments), step),
                        (engine.of(tally).of("stake").number(), quorum),
                        "{place}: {moments}"
                    );
                }
                let left = matches!(change.of("left"), Json::Number(left) if *left <= step);
                match engine.of("pending") {
                    Json::Null => assert!(left || at(change.of("counted"), step).0 == 0, "{place}"),
                    item => assert_eq!((left, at(change.of("counted"), step).0), (false, item.of("stake").number()), "{place}"),
                }
                let ring = change.of("rings").list().iter().rfind(|ring| ring.list()[0].number() <= step);
                if let Some(ring) = ring.filter(|_| !is_final) {
                    compare_ring(ring.list(), engine.of("ring"), &place);
                }
                compared += 1;
            }
        }
    }
    assert!(compared > 500, "{compared} steps");
}

/// A locator that may name a block that has not come: with all digits.
fn whole(id: &str) -> String {
    let parts: Vec<&str> = id.split('/').collect();
    format!("{}/{}/{:0<64}/{}", parts[0], parts[1], parts[2], parts[3])
}

fn compare_ring(page: &[Json], engine: &Json, place: &str) {
    match engine {
        Json::Text(text) if text == "out of reach" => assert_eq!(page[2].text(), "out", "{place}"),
        engine => {
            assert_eq!(page[3].number(), engine.of("stake").number(), "{place}");
            let spans: Vec<u64> = page[2].list().iter().map(Json::number).collect();
            let owners: Vec<u64> = spans.chunks(2).flat_map(|span| span[0]..=span[1]).collect();
            let rung: Vec<u64> = engine.of("owners").list().iter().map(Json::number).collect();
            assert_eq!(owners, rung, "{place}");
        }
    }
}

/// In a browser: the verdict, both bars, why and the step in words, at several steps; the address keeps change and step.
#[test]
fn stepped_in_a_browser() {
    let folder = folder("pages");
    let file = runs().join("data/heads_for_stake.bin");
    let file = file.to_str().unwrap();
    let page = write(&folder.join("page.html"), &told(&["draw", file]));
    for (address, title, votes, certify, did, why) in [
        (
            "1/0/00000008/0",
            "Share 0 of record 8: final",
            "12 of 17, quorum",
            "17 of 17, quorum",
            "Record 28: round 3",
            "Nobody has to be rung: it is final.",
        ),
        (
            "1/0/00000008/0@24",
            "Share 0 of record 8: not final",
            "12 of 17, quorum",
            "11 of 17",
            "Record 24: round 3",
            "Certificates, 3 blocks",
        ),
        (
            "1/6/0000000e/0@18",
            "Share 0 of record 14: not final",
            "6 of 17",
            "0 of 17",
            "Record 18: round 2",
            "owner 3, stake 2: record 18 accepts it",
        ),
        ("1/6/0000000e/0@0", "Share 0 of record 14: not final", "0 of 17", "0 of 17", "Nothing is fed yet.", "Votes, 0 blocks"),
    ] {
        let Some(shown) = in_browser(&folder, &page, address, "1280,800") else { return };
        assert_eq!(text_of(&shown, "title"), title, "{address}");
        assert_eq!((&text_of(&shown, "v-says")[..], &text_of(&shown, "c-says")[..]), (votes, certify), "{address}");
        assert!(text_of(&shown, "did").starts_with(did), "{address}: {}", text_of(&shown, "did"));
        assert!(text_of(&shown, "why").contains(why), "{address}: {}", text_of(&shown, "why"));
    }
    let Some(phone) = in_browser(&folder, &page, "1/0/00000008/0@24", "400,800") else { return };
    assert_eq!(text_of(&phone, "v-says"), "12 of 17, quorum");
}

/// Keys, play, the menu's order and the address, tried by a script at the end of the page.
#[test]
fn keys_in_a_browser() {
    let folder = folder("keys");
    let file = runs().join("data/owner_twice.bin");
    let script = r#"<script>
const told = [];
const press = (key, at = document.body) => at.dispatchEvent(new KeyboardEvent("keydown", { key, bubbles: true, cancelable: true }));
const note = () => told.push(`${step} ${decodeURIComponent(location.hash)}`);
press("ArrowLeft"); note();
press("ArrowLeft"); note();
press("Home"); note();
press("ArrowRight"); note();
press("End"); note();
byId("slider").value = 7; byId("slider").dispatchEvent(new Event("input")); note();
press(" "); told.push(byId("play").textContent);
press(" "); told.push(byId("play").textContent);
const order = [...choice.options].map((option) => option.value);
byId("next").click(); told.push(`menu ${choice.value === order[1]} ${shown}`);
byId("before").click(); told.push(`menu ${choice.value === order[0]} ${shown}`);
byId("b0").focus(); press("ArrowRight", byId("b0")); told.push(document.activeElement.id);
press("ArrowDown", document.activeElement); told.push(document.activeElement.id);
press("Enter", document.activeElement); note();
location.hash = "1/0/00000005/0@3"; fromAddress(); note();
const p = document.createElement("p"); p.id = "told"; p.textContent = told.join("; "); document.body.append(p);
</script>
</body>"#;
    let page = told(&["draw", file.to_str().unwrap()]).replace("</body>", script);
    let page = write(&folder.join("page.html"), &page);
    let Some(shown) = in_browser(&folder, &page, "", "1280,800") else { return };
    assert_eq!(
        text_of(&shown, "told"),
        "15 #1/0/00000005/0@15; 14 #1/0/00000005/0@14; 0 #1/0/00000005/0@0; 1 #1/0/00000005/0@1; 16 #1/0/00000005/0; \
         7 #1/0/00000005/0@7; pause; play; menu true 1; menu true 0; b4; b5; 6 #1/0/00000005/0@6; 3 #1/0/00000005/0@3"
    );
    for (id, words) in [("graph-title", "The blocks: rounds from left to right"), ("legend", "rejects")] {
        assert!(text_of(&shown, id).contains(words), "{id}");
    }
    assert!(!text_of(&shown, "legend").contains("way to a vote"), "nothing is final, so no way is drawn");
    assert!(shown.contains("role=\"button\" aria-label=\"record 1: "), "blocks have names");
}

/// A thousand blocks: the page is made, opens, and another change and step can be chosen; lines are drawn for one block only.
#[test]
fn a_thousand_blocks() {
    let folder = folder("thousand");
    let file = folder.join("thousand.bin");
    let records = graph(10, 100);
    fs::write(&file, input(10, &records)).unwrap();
    let page = told(&["draw", file.to_str().unwrap()]);
    assert_eq!(page.matches("<g id=\"b").count(), 1000);
    assert!(page.len() < 3_000_000, "{} bytes", page.len());
    let path = write(&folder.join("thousand.html"), &page);
    let address = format!("{}@700", records[500].reference().at(0));
    let Some(shown) = in_browser(&folder, &path, &address, "1280,800") else { return };
    assert_eq!(text_of(&shown, "title"), "Share 0 of record 501: final");
    assert_eq!(text_of(&shown, "at"), "record 700 of 1000");
    assert!(text_of(&shown, "did").starts_with("Record 700: round 69"));
    assert!(shown.contains("<path id=\"includes\" class=\"include thin\" d=\"\""), "not all lines are drawn");
    let picked = shown.split("<path id=\"picked\"").nth(1).unwrap().split("</path>").next().unwrap();
    assert_eq!(picked.matches('M').count(), 10, "those of record 700 are: {picked}");
}

/// The largest committee: every owner has a lane and a name, which stay while the blocks are scrolled.
#[test]
fn a_hundred_and_twenty_eight_owners() {
    let folder = folder("owners");
    let file = folder.join("owners.bin");
    fs::write(&file, input(128, &graph(128, 2))).unwrap();
    let page = told(&["draw", file.to_str().unwrap()]);
    assert_eq!(page.matches("<text class=\"owner\"").count(), 128);
    let path = write(&folder.join("owners.html"), &page);
    let Some(shown) = in_browser(&folder, &path, "", "1280,800") else { return };
    assert_eq!(text_of(&shown, "title"), "Share 0 of record 129: not final");
    assert_eq!(shown.matches("<span class=\"part on\"").count(), 1);
    assert_eq!(shown.matches("<span class=\"part\"").count(), 255);
}

/// The mistaken lines stand beside the engine's, as far as the records have come, and where they differ it shows.
#[test]
fn mistaken_lines_beside() {
    let folder = folder("beside");
    let lines = folder.join("a vote on the item that starts at 3");
    fs::write(&lines, "processed 11 0 3\nprocessed 11 0 4\nlate 16 0 3\nend 16 0 2 6 0\n").unwrap();
    let file = runs().join("data/empty_range.bin");
    let page = told(&["draw", "--beside", lines.to_str().unwrap(), file.to_str().unwrap()]);
    let path = write(&folder.join("page.html"), &page);
    for (address, cells, differing) in [
        ("@10", "the enginea vote on the item that starts at 3", 0),
        ("@11", "the enginea vote on the item that starts at 3processed 11 0 3processed 11 0 4", 2),
        (
            "@16",
            "the enginea vote on the item that starts at 3processed 11 0 3processed 11 0 4processed 16 0 3late 16 0 3\
             end 16 0 1 7 0end 16 0 2 6 0",
            4,
        ),
    ] {
        let Some(shown) = in_browser(&folder, &path, address, "1280,800") else { return };
        assert_eq!(text_of(&shown, "beside"), cells, "{address}");
        assert_eq!(shown.matches("<tr class=\"differs").count(), differing, "{address}");
    }
}

/// Lines that are none of `listing`'s are refused.
#[test]
fn lines_of_another_sort() {
    let lines = folder("no-lines").join("lines");
    fs::write(&lines, "processed 11 0 3\nnonsense\n").unwrap();
    let file = runs().join("data/empty_range.bin");
    let words = ["draw", "--beside", lines.to_str().unwrap(), file.to_str().unwrap()];
    let output = Command::new(env!("CARGO_BIN_EXE_lomkhvide")).args(words).output().unwrap();
    assert_eq!(output.status.code(), Some(2));
    assert!(String::from_utf8_lossy(&output.stderr).ends_with("'nonsense' is no line of listing\n"));
}

/// English: one owner holds, one byte.
#[test]
fn one_of_a_kind() {
    let folder = folder("one");
    let file = folder.join("one.bin");
    let first = Record::builder(RoundNumber(0), AuthorityIndex(0), [1; 32]).finish().unwrap();
    let second =
        Record::builder(RoundNumber(1), AuthorityIndex(0), [2; 32]).include(first.reference()).share(b"g").finish().unwrap();
    fs::write(&file, input(1, &[first, second])).unwrap();
    let page = told(&["draw", file.to_str().unwrap()]);
    assert!(page.contains("shares 1 byte") && !page.contains("1 bytes"), "{page}");
    assert!(page.contains("Committee: 1 owner, stake 1 in all"));
    let drawing = told(&["draw", "--svg", file.to_str().unwrap()]);
    assert!(drawing.contains("1 block certifies it, and its owner holds stake 1; quorum begins at 1 of 1"), "{drawing}");
    assert!(
        drawing.contains("role=\"img\" aria-labelledby=\"drawn\"")
            && drawing.contains("<title id=\"drawn\">Share 0 of record 2: final")
    );
}
