// Typing, opening, saving, printing: what happens when.
"use strict";

const FIRST_MEASURES = 400; // written out at once; the rest when it is asked for, or printed
const LONG_TEXT = 8192; // bytes from which on the verdict waits until the typing rests
const REST = 150; // milliseconds
const LEAST_MOVE = -11; // semitones, to concert pitch
const MOST_MOVE = 20;
const KEPT = "turnipcart.chart"; // what was typed last, in the browser's own store
const LIGHT = "turnipcart.light";

const chart = byId("chart");
let reader = null;
let latest = null; // bytes, tables and place of what was judged last
let waiting = 0;

// The browser's store may be shut (private windows): then nothing is kept, and all else works.
function keep(name, value) {
    try {
        localStorage.setItem(name, value);
    } catch {}
}

function kept(name) {
    try {
        return localStorage.getItem(name);
    } catch {
        return null;
    }
}

// The module as it stands in the page: compressed, and in letters.
async function moduleBytes() {
    const compressed = Uint8Array.from(atob(byId("module").textContent.trim()), (letter) => letter.charCodeAt(0));
    const stream = new Blob([compressed]).stream().pipeThrough(new DecompressionStream("gzip"));
    return new Response(stream).arrayBuffer();
}

// Bytes into places of the text field, whose places count units of 16 bits.
const placeIn = (bytes, offset) => decoder.decode(bytes.subarray(0, offset)).length;

// What the chords are moved by: nothing, the song's capo, or so many semitones, as horns want them.
function chosenMove(bytes, tables) {
    const chosen = byId("move").value;
    if (chosen === "capo") return capoOf(bytes, tables) || null;
    return chosen === "" ? null : Number(chosen);
}

function showGrid(most) {
    const { bytes, tables } = latest;
    const all = tables.measures.length;
    const move = chosenMove(bytes, tables);
    const shown = move === null ? tables : reader.atConcertPitch(tables, move);
    showSong(songOf(bytes, shown, most), Math.min(most, all), all);
}

// The copy is made while it is shown, and not before.
function showPaper() {
    const { bytes, tables } = latest;
    if (!byId("paper").open || tables.refusal !== 0) return;
    const { refusal, copy } = reader.flat(bytes);
    latest.copy = letters(copy, 0, copy.length);
    showCopy(latest.copy, refusal === 0 ? null : adviceOnCopy(reader, bytes));
}

// Every move that concert pitch allows, beside "as written" and the capo.
function offerMoves() {
    for (let move = LEAST_MOVE; move <= MOST_MOVE; move++) {
        const option = element("option", "", `moved by ${move > 0 ? "+" : ""}${move}`);
        option.value = String(move);
        byId("move").append(option);
    }
}

function judge() {
    waiting = 0;
    const text = chart.value;
    const bytes = new TextEncoder().encode(text);
    const tables = reader.read(bytes);
    const advice = adviceOn(reader, bytes, tables);
    const place = advice.line ? { start: placeIn(bytes, advice.offset), end: placeIn(bytes, advice.offset + advice.length) } : null;
    latest = { bytes, tables, place };
    showPlace(text, place);
    showVerdict(tables, advice, goToPlace);
    showWarnings(tables.refusal === 0 ? warningsOn(reader, bytes, tables) : []);
    showGrid(FIRST_MEASURES);
    showPaper();
    keep(KEPT, text);
}

function judgeSoon() {
    clearTimeout(waiting);
    showPlace("", null);
    waiting = setTimeout(judge, chart.value.length < LONG_TEXT ? 0 : REST);
}

function goToPlace() {
    const { place } = latest;
    if (!place) return;
    chart.focus();
    chart.setSelectionRange(place.start, place.end);
    byId("place").scrollIntoView({ block: "nearest" });
    chart.scrollTop = Math.max(0, byId("place").offsetTop - chart.clientHeight / 2);
    byId("marks").scrollTop = chart.scrollTop;
}

// A file as it stands: bytes that are no UTF-8 are judged as they are, and shown with signs in their places.
async function openFile(file) {
    if (!file) return;
    const bytes = new Uint8Array(await file.arrayBuffer());
    const tables = reader.read(bytes);
    chart.value = decoder.decode(bytes);
    judge();
    if (tables.refusal === 2 || tables.refusal === 1) {
        showVerdict(tables, adviceOn(reader, bytes, tables), goToPlace);
        showWarnings([]);
    }
    chart.scrollTop = 0;
}

function songName() {
    const named = /^[ \t]*@name[ \t]+(.+?)[ \t]*$/m.exec(chart.value);
    const name = named ? named[1].replace(/[^\p{L}\p{N} _-]/gu, "").trim().slice(0, 60) : "";
    return name || "chart";
}

function save(text, name) {
    const link = element("a");
    link.href = URL.createObjectURL(new Blob([text], { type: "text/plain;charset=utf-8" }));
    link.download = `${name}.sc`;
    link.click();
    setTimeout(() => URL.revokeObjectURL(link.href), 1000);
}

// What is printed is the grid, or between these two the copy.
const printsCopy = () => document.documentElement.classList.contains("on-paper");

function printCopy() {
    document.documentElement.classList.add("on-paper");
    window.print();
}

function setLight(light) {
    document.documentElement.classList.toggle("light", light);
    byId("light").setAttribute("aria-pressed", String(light));
    keep(LIGHT, light ? "1" : "");
}

function listen() {
    chart.addEventListener("input", judgeSoon);
    chart.addEventListener("scroll", () => (byId("marks").scrollTop = chart.scrollTop));
    byId("open").addEventListener("click", () => byId("file").click());
    byId("file").addEventListener("change", () => {
        openFile(byId("file").files[0]);
        byId("file").value = "";
    });
    byId("save").addEventListener("click", () => save(chart.value, songName()));
    byId("paper").addEventListener("toggle", showPaper);
    byId("print-copy").addEventListener("click", printCopy);
    byId("save-copy").addEventListener("click", () => save(latest.copy, `${songName()} copy`));
    byId("print").addEventListener("click", () => window.print());
    byId("more").addEventListener("click", () => showGrid(Infinity));
    byId("move").addEventListener("change", () => showGrid(FIRST_MEASURES));
    byId("light").addEventListener("click", () => setLight(byId("light").getAttribute("aria-pressed") === "false"));
    window.addEventListener("beforeprint", () => printsCopy() || showGrid(Infinity));
    window.addEventListener("afterprint", () => document.documentElement.classList.remove("on-paper"));
    const desk = byId("desk");
    desk.addEventListener("dragover", (event) => {
        event.preventDefault();
        desk.classList.add("over");
    });
    desk.addEventListener("dragleave", () => desk.classList.remove("over"));
    desk.addEventListener("drop", (event) => {
        desk.classList.remove("over");
        if (event.dataTransfer.files.length === 0) return;
        event.preventDefault();
        openFile(event.dataTransfer.files[0]);
    });
}

const FIRST_CHART = "@name A first chart\n@bpm 96\n@time 4/4\n\nVerse\nC;Am;F;G\n_repeat 2\n--\nWords of four measures _4\nand of four more _4\n";

async function start() {
    try {
        reader = await openReader(await moduleBytes());
    } catch {
        byId("verdict").replaceChildren(element("p", "bad", "This browser is too old for the reader in this page: use one of 2023 or later."));
        return;
    }
    setLight(kept(LIGHT) === "1");
    chart.value = kept(KEPT) ?? FIRST_CHART;
    offerMoves();
    listen();
    judge();
    document.documentElement.dataset.ready = "yes";
}

start();
