// The screen: what is shown of a verdict and of a song. Texts of a chart are only ever set as text.
"use strict";

const byId = (id) => document.getElementById(id);

function element(kind, className, text) {
    const made = document.createElement(kind);
    if (className) made.className = className;
    if (text !== undefined) made.textContent = text;
    return made;
}

// Marks the place in the chart, in a layer under it: the text before, what is to change, the rest. Without a place there is no layer to lay.
function showPlace(text, place) {
    byId("marks").hidden = !place;
    if (!place) return;
    byId("before").textContent = text.slice(0, place.start);
    byId("place").textContent = text.slice(place.start, place.end);
    // A last line end has no line of its own in the layer unless something follows it.
    byId("behind").textContent = text.slice(place.end) + "\u200b";
    byId("marks").scrollTop = byId("chart").scrollTop;
}

const count = (number, one, many) => `${number.toLocaleString("en")} ${number === 1 ? one : many}`;

function acceptedSentence(tables) {
    return "Fine: " + [
        count(tables.sections.length, "section", "sections"),
        count(tables.measures.length, "measure", "measures"),
        count(tables.beats.length, "beat", "beats"),
        count(tables.items.length, "prompter line", "prompter lines"),
    ].join(", ") + ".";
}

// What is wrong, what to write, and another line worth a look.
function adviceParts(advice, sentence) {
    const where = advice.line ? `Line ${advice.line}, place ${advice.column}: ` : "";
    const parts = [element("p", "bad", where + sentence)];
    if (advice.repair) parts.push(element("p", "repair", advice.repair));
    if (advice.noteLine) parts.push(element("p", "note", `Line ${advice.noteLine}: ${advice.note}`));
    return parts;
}

// The verdict: fine with its counts, or the advice and a way to the place.
function showVerdict(tables, advice, goTo) {
    if (tables.refusal === 0) {
        byId("verdict").replaceChildren(element("p", "good", acceptedSentence(tables)));
        return;
    }
    const parts = adviceParts(advice, `refused ${tables.refusal}: ${advice.sentence}`);
    if (advice.line) {
        const button = element("button", "", "Show the place");
        button.type = "button";
        button.id = "go";
        button.addEventListener("click", goTo);
        parts.push(button);
    }
    byId("verdict").replaceChildren(...parts);
}

function showWarnings(warnings) {
    byId("warnings").replaceChildren(...warnings.map((warning) => {
        const item = element("li");
        item.append(...adviceParts(warning, `warning: ${warning.sentence}`));
        return item;
    }));
}

// The copy for paper, a piece for each block, so that pages break between them; where it is too long, what is said of that.
function showCopy(copy, advice) {
    const parts = advice ? adviceParts(advice, `refused 20: ${advice.sentence}`) : copy.slice(0, -1).split("\n\n").map((block) => element("pre", "", block));
    byId("copy").replaceChildren(...parts);
    byId("print-copy").disabled = Boolean(advice);
    byId("save-copy").disabled = Boolean(advice);
}

const STYLES = ["plain", "info", "crew"];

function promptRow(prompt) {
    const row = element("li", `words ${STYLES[prompt.style]}`, prompt.text + " ");
    row.append(element("small", "", count(prompt.measures, "measure", "measures")));
    return row;
}

function measureCell(measure) {
    const cell = element("li", "measure");
    const spoken = measure.beats.map((beat) => (beat === "." ? "held" : beat === "_" ? "silence" : beat)).join(", ");
    cell.setAttribute("aria-label", `Measure ${measure.number}: ${spoken}`);
    cell.append(...measure.beats.map((beat) => element("span", beat === "." ? "held" : "", beat)));
    return cell;
}

function sectionPart(section, place) {
    const part = element("section", "part");
    const title = element("h3", "", section.name + " ");
    title.id = `part-${place}`;
    const tempo = section.bpm === null ? "" : `, ${section.bpm} bpm`;
    const comment = section.comment ? ` (${section.comment})` : "";
    title.append(element("small", "", `${section.time}/4${tempo}, ${count(section.count, "measure", "measures")}${comment}`));
    const list = element("ol", "measures");
    for (const measure of section.measures) list.append(...measure.prompts.map(promptRow), measureCell(measure));
    part.setAttribute("aria-labelledby", title.id);
    part.append(title, list);
    return part;
}

// The grid, and a button for the rest where a song is long.
function showSong(sections, shown, all) {
    byId("played").hidden = sections.length === 0;
    byId("grid").replaceChildren(...sections.map(sectionPart));
    byId("more").hidden = shown >= all;
    byId("more").textContent = `Show all ${all.toLocaleString("en")} measures`;
}
