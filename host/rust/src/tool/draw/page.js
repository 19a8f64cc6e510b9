"use strict";
// Shows the chosen change after the chosen record. What the engine said after each record stands in the data; nothing is counted here.
const byId = (id) => document.getElementById(id);
const data = JSON.parse(byId("data").textContent);
const { steps, changes } = data.story;
const blocks = data.blocks.map(([number, owner, x, y, marked, includes]) => ({ number, owner, x, y, marked, includes }));
const owners = data.owners.map(([name, stake, width]) => ({ name, stake, width }));
const last = steps.length - 1;
const choice = byId("choice");
const scroll = byId("scroll");
const slider = byId("slider");
const [boxWidth, boxHeight] = data.box;
// Above some hundred lines they cover everything: then only those of one block are drawn.
const lines = blocks.reduce((sum, block) => sum + expand(block.includes).length, 0);
const allLines = lines <= 700;
let shown = data.shown;
let step = last;
let pointed = null;
let scale = 1;
let whole = false;
let playing = null;

// Spans as first and last, one after the other.
function expand(spans) {
    const numbers = [];
    for (let i = 0; i < spans.length; i += 2) for (let n = spans[i]; n <= spans[i + 1]; n++) numbers.push(n);
    return numbers;
}

function spansText(spans) {
    const parts = [];
    for (let i = 0; i < spans.length; i += 2) parts.push(spans[i] === spans[i + 1] ? `${spans[i]}` : `${spans[i]} to ${spans[i + 1]}`);
    return parts.join(", ");
}

function line(from, to) {
    const [a, b] = [blocks[from], blocks[to]];
    const [x, y, right, level] = [a.x, a.y + boxHeight / 2, b.x + boxWidth, b.y + boxHeight / 2];
    if (data.small || y === level) return `M${x} ${y}L${right} ${level}`;
    const bend = Math.floor(Math.abs(x - right) / 2);
    return `M${x} ${y}C${x - bend} ${y} ${right + bend} ${level} ${right} ${level}`;
}

const linesOf = (block) => expand(blocks[block].includes).map((include) => line(block, include)).join("");
const arrived = (block) => blocks[block].number <= step;
const upper = (text) => text[0].toUpperCase() + text.slice(1);
const until = (moments) => moments.filter((moment) => moment[0] <= step);
const ownerOf = (record) => blocks[steps[record][0]].owner;

// The owners of a set after this step, with the engine's sum.
function held(moments) {
    const set = new Set();
    let [stake, quorum] = [0, false];
    for (const [record, sum, isQuorum, leaves] of until(moments)) {
        if (leaves) set.delete(ownerOf(record));
        else set.add(ownerOf(record));
        [stake, quorum] = [sum, Boolean(isQuorum)];
    }
    return { set, stake, quorum };
}

const LABELS = {
    "shares it": (stake) => `shares +${stake}`,
    "accepts it": (stake) => `accepts +${stake}`,
    "accepts it by a range": (stake) => `range +${stake}`,
    "rejects it": () => "rejects",
};
const label = (verb, stake) => (LABELS[verb] ? LABELS[verb](stake) : `+${stake}, rejects`);

// What each block that has come says of the change.
function voicesOf(change) {
    const voices = new Map();
    for (const [verb, spans] of change ? change.voices : []) for (const block of expand(spans)) if (arrived(block)) voices.set(block, verb);
    return voices;
}

function paint(voices, certifies) {
    const now = steps[step][0];
    blocks.forEach((block, i) => {
        const words = ["block"];
        const verb = voices.get(i);
        if (block.marked) words.push("marked");
        if (verb && verb !== "rejects it") words.push("votes");
        if (verb && verb.includes("rejects")) words.push("rejects");
        if (certifies.has(i)) words.push("certifies");
        if (!arrived(i)) words.push("later");
        if (i === now) words.push("now");
        const group = byId("b" + i);
        const name = words.join(" ");
        if (group.getAttribute("class") !== name) group.setAttribute("class", name);
        const role = group.querySelector(".role");
        const text = verb ? label(verb, owners[block.owner].stake) : "";
        if (role.textContent !== text) role.textContent = text;
    });
}

function drawLines(change, isFinal) {
    const come = blocks.map((_, i) => i).filter(arrived);
    byId("includes").setAttribute("d", allLines ? come.map(linesOf).join("") : "");
    drawPicked();
    const ways = new Set();
    if (change && isFinal) {
        for (const [block, paths] of change.ways.filter(([block]) => arrived(block))) {
            for (const path of paths) for (let i = 1; i < path.length; i++) ways.add(line(path[i - 1], path[i]));
        }
    }
    byId("ways").setAttribute("d", [...ways].join(""));
}

// The lines of the block that is pointed at; else of the record of this step, else of the chosen change.
function drawPicked() {
    const home = shown !== null && changes[shown] ? changes[shown].home : null;
    const block = pointed !== null ? pointed : step < last || allLines ? steps[step][0] : home;
    byId("picked").setAttribute("d", block !== null && block !== undefined && arrived(block) ? linesOf(block) : "");
}

// The owners of a set in front, each as wide as its stake; the line is where quorum begins.
function fill(bar, { set, stake, quorum }) {
    const track = byId(bar);
    track.textContent = "";
    const order = owners.map((_, owner) => owner);
    for (const owner of [...order.filter((n) => set.has(n)), ...order.filter((n) => !set.has(n))]) {
        const part = document.createElement("span");
        part.className = set.has(owner) ? "part on" : "part";
        part.style.width = `${(100 * owners[owner].width) / data.barWidth}%`;
        part.title = `${owners[owner].name}, stake ${owners[owner].stake}`;
        if (owners[owner].width * 14 > data.barWidth) part.textContent = owner;
        track.append(part);
    }
    const mark = document.createElement("span");
    mark.className = "quorum-mark";
    mark.style.left = `${(100 * data.quorumAt) / data.barWidth}%`;
    track.append(mark);
    const text = `${stake} of ${data.total}${quorum ? ", quorum" : ""}`;
    byId(bar + "-says").textContent = text;
    const names = { v: "votes", c: "certificates" };
    track.setAttribute("aria-label", `${names[bar]}: stake ${text}; quorum from ${data.quorum}`);
}

const reading = data.withdrawing ? ", where owners may withdraw" : "";

function heading(change, isFinal, votes, certified) {
    const home = change.home;
    const came = home === null || arrived(home);
    byId("title").textContent = document.title = `${upper(change.name)}: ${isFinal ? "final" : "not final"}${reading}`;
    byId("title").className = isFinal ? "yes" : "no";
    const holds = certified.set.size === 1 ? "its owner holds" : "their owners hold";
    const certify = `stake ${certified.stake} of ${data.total}, quorum begins at ${data.quorum}`;
    byId("says").textContent = isFinal
        ? `Final since record ${change.finalFrom}: blocks certify it, and ${holds} ${certify}.`
        : !came && !votes.set.size
          ? `Record ${blocks[home].number}, which shares it, has not come.`
          : certified.set.size
            ? `Not final: blocks certify it, and ${holds} ${certify}.`
            : `Not final: its votes hold stake ${votes.stake} of ${data.total}, quorum begins at ${data.quorum}; no block certifies it.`;
}

function element(tag, text, name) {
    const made = document.createElement(tag);
    made.textContent = text;
    if (name) made.className = name;
    return made;
}

// Long lists are cut.
function list(title, items, most = 40) {
    const made = document.createElement("ul");
    for (const item of items.slice(0, most)) made.append(element("li", item));
    if (items.length > most) made.append(element("li", `and ${items.length - most} more`));
    return [element("h2", title), ...(items.length ? [made] : [])];
}

const count = (number) => (number === 1 ? "1 block" : `${number} blocks`);
const verbHold = (count) => (count === 1 ? "holds" : "hold");
const names = (numbers) => numbers.map((n) => owners[n].name.slice("owner ".length)).join(", ");
const ownersText = (numbers) => (numbers.length === 1 ? owners[numbers[0]].name : `owners ${names(numbers)}`);

function ringText(change, isFinal) {
    if (isFinal) return "Nobody has to be rung: it is final.";
    if (data.story.lastRingsOnly && step < last) return "Whom to ring: in a graph of this size known after the last record alone.";
    const answer = until(change.rings).at(-1);
    if (!answer) return "Nobody has voted yet.";
    const [, forBlocks, found, stake] = answer;
    const what = forBlocks ? " for an unmarked block above the votes" : "";
    if (found === "out") return "Nobody can bring it to quorum: all who can be rung hold too little.";
    const numbers = expand(found);
    const brings = forBlocks ? "its certificates" : "it";
    return `Ring${what}: ${ownersText(numbers)} ${verbHold(numbers.length)} stake ${stake}, the fewest who bring ${brings} to quorum.`;
}

function pendingText(change) {
    if (change.left && change.left <= step) return `Pending no longer: record ${change.left} brought its counted votes to quorum.`;
    const counted = held(change.counted);
    if (!counted.set.size) return "";
    const numbers = [...counted.set].sort((a, b) => a - b);
    return `Pending: ${ownersText(numbers)} ${verbHold(numbers.length)} counted votes of stake ${counted.stake} of ${data.total}.`;
}

function why(change, isFinal, voices, certifies) {
    const panel = byId("why");
    panel.textContent = "";
    panel.append(...besideTable());
    if (!change) return;
    panel.append(element("p", ringText(change, isFinal), "ring-line"));
    const pending = pendingText(change);
    if (pending) panel.append(element("p", pending));
    const says = [...voices].sort((a, b) => a[0] - b[0]);
    const spoken = says.map(([block, verb]) => {
        const { number, owner } = blocks[block];
        return `${owners[owner].name}, stake ${owners[owner].stake}: record ${number} ${verb}`;
    });
    const against = says.filter(([, verb]) => verb === "rejects it").length;
    const rejects = against ? `, and ${against} that only ${against === 1 ? "rejects" : "reject"}` : "";
    panel.append(...list(`Votes, ${count(spoken.length - against)}${rejects}`, spoken));
    const ways = new Map(change.ways);
    const certificates = [...certifies].sort((a, b) => a - b);
    const certified = certificates.map((block) => {
        const { number, owner } = blocks[block];
        const paths = isFinal && ways.has(block) ? ways.get(block).map((path) => path.map((i) => blocks[i].number).join(" > ")) : [];
        return `record ${number} of ${owners[owner].name}${paths.length ? `, by ${paths.join("; ")}` : ""}`;
    });
    panel.append(...list(`Certificates, ${count(certified.length)}`, certified));
}

// The lines of another count beside the engine's, as far as the records have come.
function besideTable() {
    if (!data.beside) return [];
    const table = document.createElement("table");
    table.id = "beside";
    const head = table.createTHead().insertRow();
    head.append(element("th", "the engine"), element("th", data.beside.name));
    const body = table.createTBody();
    for (const [record, own, other] of data.beside.rows.filter(([record]) => (record === null ? step === last : record <= step))) {
        const row = body.insertRow();
        row.className = [own === other ? "" : "differs", record === step ? "this-step" : ""].join(" ").trim();
        row.append(element("td", own || ""), element("td", other || ""));
    }
    return [table];
}

function render() {
    const change = shown === null ? null : changes[shown];
    const voices = voicesOf(change);
    const certifies = new Set(change ? expand(change.certifying).filter(arrived) : []);
    const isFinal = Boolean(change && change.finalFrom !== null && change.finalFrom <= step);
    paint(voices, certifies);
    drawLines(change, isFinal);
    const none = { set: new Set(), stake: 0, quorum: false };
    const [votes, certified] = change ? [held(change.votes), held(change.certified)] : [none, none];
    fill("v", votes);
    fill("c", certified);
    if (change) heading(change, isFinal, votes, certified);
    why(change, isFinal, voices, certifies);
    slider.value = step;
    byId("at").textContent = step === 0 ? `none of ${last}` : `record ${step} of ${last}`;
    slider.setAttribute("aria-valuetext", byId("at").textContent);
    const did = byId("did");
    did.textContent = "";
    const says = step === 0 ? ["Nothing is fed yet."] : steps[step][1];
    for (const sentence of says) did.append(element("span", sentence), " ");
    byId("back").disabled = byId("first").disabled = step === 0;
    byId("on").disabled = byId("last").disabled = step === last;
}

// Brings a block into view, to the middle where it is not.
function look(block) {
    const group = block === null ? null : byId("b" + block);
    if (!group) return;
    const box = group.getBoundingClientRect();
    const view = scroll.getBoundingClientRect();
    const left = view.left + byId("labels").getBoundingClientRect().width + 8;
    const top = view.top + byId("axis").getBoundingClientRect().height + 8;
    if (box.left < left || box.right > view.right) scroll.scrollLeft += (box.left + box.right - left - view.right) / 2;
    if (box.top < top || box.bottom > view.bottom) scroll.scrollTop += (box.top + box.bottom - top - view.bottom) / 2;
}

function keepAddress() {
    const change = shown === null ? null : changes[shown];
    const at = step === last ? "" : `@${step}`;
    history.replaceState(null, "", `#${change ? change.id : ""}${at}`);
}

function goTo(number) {
    const to = Math.min(last, Math.max(0, number));
    if (to === step) return;
    step = to;
    render();
    look(steps[step][0]);
    keepAddress();
}

function choose(number) {
    if (!changes[number]) return;
    shown = number;
    choice.value = number;
    render();
    look(changes[shown].home);
    keepAddress();
}

// The change after or before this one in the menu.
function beside(by) {
    const option = choice.options[choice.selectedIndex + by];
    if (option) choose(Number(option.value));
}

function pause() {
    clearInterval(playing);
    playing = null;
    byId("play").textContent = "play";
}

function play() {
    if (playing !== null) return pause();
    if (step === last) goTo(0);
    byId("play").textContent = "pause";
    playing = setInterval(() => (step === last ? pause() : goTo(step + 1)), 1000);
}

function zoom(to) {
    whole = false;
    scale = Math.min(4, Math.max(0.05, to));
    for (const id of ["axis", "labels", "graph"]) {
        const box = byId(id).viewBox.baseVal;
        byId(id).setAttribute("width", box.width * scale);
        byId(id).setAttribute("height", box.height * scale);
    }
}

// The whole graph; at the start not smaller than can be read.
const narrow = window.matchMedia("(max-width: 760px)");
const readable = () => (narrow.matches ? 0.85 : 0.6);
function fit(least) {
    const width = byId("graph").viewBox.baseVal.width + byId("labels").viewBox.baseVal.width;
    const height = byId("graph").viewBox.baseVal.height + byId("axis").viewBox.baseVal.height;
    const room = (scroll.clientWidth - 4) / width;
    zoom(Math.max(least, Math.min(1.6, narrow.matches ? room : Math.min(room, (scroll.clientHeight - 6) / height))));
    whole = true;
}

// From block to block by arrow keys: the nearest one in that direction.
function neighbour(from, key) {
    const along = { ArrowLeft: [-1, 0], ArrowRight: [1, 0], ArrowUp: [0, -1], ArrowDown: [0, 1] }[key];
    if (!along) return null;
    const here = blocks[from];
    let [best, least] = [null, Infinity];
    blocks.forEach((block, i) => {
        const [dx, dy] = [block.x - here.x, block.y - here.y];
        const ahead = dx * along[0] + dy * along[1];
        const aside = Math.abs(dx * along[1]) + Math.abs(dy * along[0]);
        const far = ahead + 4 * aside;
        if (ahead > 0 && far < least) [best, least] = [i, far];
    });
    return best;
}

let stop = 0;
function focusBlock(block) {
    byId("b" + stop).setAttribute("tabindex", "-1");
    stop = block;
    const group = byId("b" + block);
    group.setAttribute("tabindex", "0");
    group.focus({ preventScroll: true });
    look(block);
}

const blockOf = (event) => {
    const group = event.target.closest(".block");
    return group && group.id ? Number(group.id.slice(1)) : null;
};

function pointAt(block) {
    pointed = block;
    drawPicked();
}

// A block that is chosen goes to its record's step, or where that is shown already to its first change.
function pick(block) {
    const number = changes.findIndex((change) => change.home === block);
    if (number >= 0) choose(number);
    else goTo(blocks[block].number);
}

function prepareBlocks() {
    blocks.forEach((_, i) => {
        const group = byId("b" + i);
        group.setAttribute("tabindex", i === stop ? "0" : "-1");
        group.setAttribute("role", "button");
        group.setAttribute("aria-label", group.querySelector("title").textContent.split("\n").join("; "));
    });
    const graph = byId("graph");
    graph.addEventListener("mouseover", (event) => pointAt(blockOf(event)));
    graph.addEventListener("mouseleave", () => pointAt(null));
    graph.addEventListener("focusin", (event) => pointAt(blockOf(event)));
    graph.addEventListener("focusout", () => pointAt(null));
    graph.addEventListener("click", (event) => blockOf(event) !== null && pick(blockOf(event)));
    graph.addEventListener("keydown", (event) => {
        const block = blockOf(event);
        if (block === null) return;
        const to = neighbour(block, event.key);
        if (to !== null) focusBlock(to);
        else if (event.key === "Enter" || event.key === " ") pick(block);
        else if (!event.key.startsWith("Arrow")) return;
        event.preventDefault();
        event.stopPropagation();
    });
}

function pressed(event) {
    const tag = event.target.tagName;
    if (event.ctrlKey || event.altKey || event.metaKey || tag === "SELECT" || tag === "INPUT") return;
    const act = { ArrowRight: () => goTo(step + 1), ArrowLeft: () => goTo(step - 1), Home: () => goTo(0), End: () => goTo(last), " ": play }[event.key];
    if (!act || (event.key === " " && tag === "BUTTON")) return;
    act();
    event.preventDefault();
}

// "#LOCATOR@STEP": either part may be missing.
function fromAddress() {
    const [id, at] = decodeURIComponent(location.hash.slice(1)).split("@");
    const number = changes.findIndex((change) => change.id === id);
    step = at !== undefined && /^[0-9]+$/.test(at) ? Math.min(last, Number(at)) : last;
    if (number >= 0) shown = number;
    if (shown !== null) choice.value = shown;
    render();
    look(step < last ? steps[step][0] : shown === null ? null : changes[shown].home);
}

choice.addEventListener("change", () => choose(Number(choice.value)));
byId("before").addEventListener("click", () => beside(-1));
byId("next").addEventListener("click", () => beside(1));
byId("smaller").addEventListener("click", () => zoom(scale / 1.25));
byId("larger").addEventListener("click", () => zoom(scale * 1.25));
byId("fit").addEventListener("click", () => fit(0));
byId("first").addEventListener("click", () => goTo(0));
byId("back").addEventListener("click", () => goTo(step - 1));
byId("on").addEventListener("click", () => goTo(step + 1));
byId("last").addEventListener("click", () => goTo(last));
byId("play").addEventListener("click", play);
slider.addEventListener("input", () => goTo(Number(slider.value)));
document.addEventListener("keydown", pressed);
window.addEventListener("hashchange", fromAddress);
window.addEventListener("resize", () => whole && fit(readable()));
if (blocks.length) prepareBlocks();
fromAddress();
// A drawing for a slide fills the window; a large one begins at its full size, with the chosen block in view.
if (blocks.length <= 60) fit(readable());
look(step < last ? steps[step][0] : shown === null ? null : changes[shown].home);
