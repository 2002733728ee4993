// look.mjs PAGE FOLDER: the page in a real browser, as an arranger uses it. Screenshots, a print and the saved chart are left in FOLDER.
import assert from "node:assert/strict";
import fs from "node:fs";
import path from "node:path";
import { openBrowser, valueOf, until, typeChart } from "./browser.mjs";

const [page, folder] = process.argv.slice(2).map((word) => path.resolve(word));
const RIGHT = "@name Blue Moon\n@bpm 92\n\nVerse\nC;Am;F;G\n--\nBlue moon _2\nyou saw me _2\n";
const SLIP = RIGHT.replace("C;Am", "C;am");
const text = (id) => `document.getElementById(${JSON.stringify(id)}).textContent`;

async function screen(browser, width, height, name) {
    await browser.inPage("Emulation.setDeviceMetricsOverride", { width, height, deviceScaleFactor: 1, mobile: width < 600 });
    const { data } = await browser.inPage("Page.captureScreenshot", { format: "png" });
    fs.writeFileSync(path.join(folder, name), Buffer.from(data, "base64"));
    assert(await valueOf(browser, "document.documentElement.scrollWidth <= window.innerWidth"), `${name}: the page is wider than the screen`);
}

async function open(browser) {
    await browser.inPage("Page.navigate", { url: `file://${page}` });
    await until(browser, `document.documentElement?.dataset.ready === "yes"`);
}

// A slip is marked at its place, with a sentence; mended, the grid stands there.
async function slipAndMend(browser) {
    await typeChart(browser, SLIP);
    await until(browser, `${text("verdict")}.includes("refused 7")`);
    assert.equal(await valueOf(browser, text("place")), "am");
    assert((await valueOf(browser, text("verdict"))).includes("Line 5, place 3"));
    assert((await valueOf(browser, text("verdict"))).includes("write `Am`"));
    await screen(browser, 360, 800, "slip-360.png");
    await screen(browser, 1200, 800, "slip-1200.png");
    await valueOf(browser, `document.getElementById("go").click()`);
    assert.equal(await valueOf(browser, `chart.value.slice(chart.selectionStart, chart.selectionEnd)`), "am");
    await browser.inPage("Input.insertText", { text: "Am" });
    await until(browser, `${text("verdict")}.startsWith("Fine: 1 section, 4 measures")`);
    assert.equal(await valueOf(browser, `document.querySelectorAll("li.measure").length`), 4);
    assert.equal(await valueOf(browser, `document.querySelectorAll("li.words").length`), 2);
    await screen(browser, 360, 800, "grid-360.png");
    await screen(browser, 1200, 800, "grid-1200.png");
}

// Horns see the chords as they sound: with capo 3 an Am is a Cm, and moved by 2 a Bm.
async function concertPitch(browser) {
    const chords = `[...document.querySelectorAll("li.measure")].map((cell) => cell.firstChild.textContent).join(" ")`;
    const choose = (move) => valueOf(browser, `(() => { const move = document.getElementById("move"); move.value = ${JSON.stringify(move)};
        move.dispatchEvent(new Event("change")); })()`);
    await typeChart(browser, RIGHT.replace("@bpm 92", "@bpm 92\n@capo 3"));
    await until(browser, `${text("verdict")}.startsWith("Fine")`);
    for (const [move, expected] of [["capo", "D# Cm G# A#"], ["2", "D Bm G A"], ["", "C Am F G"]]) {
        await choose(move);
        assert.equal(await valueOf(browser, chords), expected);
    }
}

// A chart that is accepted and still not what was meant gets a warning, which goes when it is mended.
async function warned(browser) {
    await typeChart(browser, RIGHT.replace("C;Am", "C,Am;C"));
    await until(browser, `${text("warnings")}.includes("C,Am")`);
    await typeChart(browser, RIGHT);
    await until(browser, `document.getElementById("warnings").children.length === 0`);
}

// A chart is opened from a file, or dropped on the desk.
async function opened(browser) {
    const file = path.join(folder, "opened.sc");
    fs.writeFileSync(file, RIGHT.replace("Verse", "Opened"));
    const { root } = await browser.inPage("DOM.getDocument");
    const { nodeId } = await browser.inPage("DOM.querySelector", { nodeId: root.nodeId, selector: "#file" });
    await browser.inPage("DOM.setFileInputFiles", { nodeId, files: [file] });
    await until(browser, `chart.value === ${JSON.stringify(fs.readFileSync(file, "utf8"))}`);
    await valueOf(browser, `(() => { const carried = new DataTransfer(); carried.items.add(new File([${JSON.stringify(SLIP)}], "dropped.sc"));
        document.getElementById("desk").dispatchEvent(new DragEvent("drop", { dataTransfer: carried, bubbles: true, cancelable: true })); })()`);
    await until(browser, `chart.value === ${JSON.stringify(SLIP)} && ${text("verdict")}.includes("refused 7")`);
}

// Every control is reached by the keyboard, and has a name that a screen reader speaks.
async function reached(browser) {
    const controls = `[...document.querySelectorAll("button, select, textarea, summary")].filter((one) => one.offsetParent !== null)`;
    assert(await valueOf(browser, `${controls}.every((one) => one.tabIndex === 0)`), "each control is reached by the keyboard");
    assert(await valueOf(browser, `${controls}.every((one) => (one.labels?.[0] ?? one).textContent.trim() !== "")`), "each control has a name");
}

// Markup in a chart is text.
async function markup(browser) {
    await typeChart(browser, RIGHT.replace("Blue moon", "<img src=x onerror=alert(1)><b>Blue</b>"));
    await until(browser, `document.querySelector("li.words").textContent.startsWith("<img")`);
    assert.equal(await valueOf(browser, `document.querySelectorAll("#grid img, #grid b").length`), 0);
}

async function printed(browser, name) {
    const { data } = await browser.inPage("Page.printToPDF", { paperWidth: 8.27, paperHeight: 11.69 });
    const pdf = Buffer.from(data, "base64");
    fs.writeFileSync(path.join(folder, name), pdf);
    return (pdf.toString("latin1").match(/\/Type\s*\/Page[^s]/g) ?? []).length;
}

// What a button that saves leaves in the folder.
async function savedBy(browser, button, name) {
    await browser.call("Browser.setDownloadBehavior", { behavior: "allow", downloadPath: folder });
    await valueOf(browser, `document.getElementById(${JSON.stringify(button)}).click()`);
    const file = path.join(folder, name);
    for (let tries = 0; tries < 100 && !fs.existsSync(file); tries++) await new Promise((resolve) => setTimeout(resolve, 50));
    return fs.readFileSync(file, "utf8");
}

// The saved file is what was typed.
async function saved(browser) {
    await typeChart(browser, RIGHT);
    await until(browser, `${text("verdict")}.startsWith("Fine")`);
    assert.equal(await savedBy(browser, "save", "Blue Moon.sc"), RIGHT);
}

// Which parts of the page are on paper.
async function onPaper(browser, id) {
    await browser.inPage("Emulation.setEmulatedMedia", { media: "print" });
    const shown = await valueOf(browser, `document.getElementById(${JSON.stringify(id)}).checkVisibility()`);
    await browser.inPage("Emulation.setEmulatedMedia", { media: "" });
    return shown;
}

// The paper copy: every measure written out, shown when it is opened, kept up while typing, printed in place of the grid, and saved.
async function paperCopy(browser) {
    const blocks = `[...document.querySelectorAll("#copy pre")].map((block) => block.textContent).join("\\n\\n") + "\\n"`;
    const folded = RIGHT.replace("C;Am;F;G", "[C;Am]2\n_cutEnd -1").replace("@bpm 92", "@bpm 92\n@time 3/4");
    const copy = "@name Blue Moon\n@bpm 92\n@time 3/4\n\nVerse\nC C C\nAm Am Am\nC C C\nAm Am =\n--\nBlue moon _2\nyou saw me _2\n";
    await typeChart(browser, folded);
    await until(browser, `${text("verdict")}.startsWith("Fine")`);
    assert.equal(await valueOf(browser, text("copy")), "", "nothing is copied before it is asked for");
    await valueOf(browser, `document.querySelector("#paper summary").click()`);
    await until(browser, `${blocks} === ${JSON.stringify(copy)}`);
    await screen(browser, 360, 800, "copy-360.png");
    await screen(browser, 1200, 800, "copy-1200.png");
    assert(!(await onPaper(browser, "copy")) && (await onPaper(browser, "grid")), "the grid is printed");
    await valueOf(browser, `window.print = () => {}, document.getElementById("print-copy").click()`);
    assert((await onPaper(browser, "copy")) && !(await onPaper(browser, "grid")), "the copy is printed");
    assert((await printed(browser, "copy.pdf")) >= 1, "printing the copy gives pages");
    await valueOf(browser, `window.dispatchEvent(new Event("afterprint"))`);
    assert(!(await onPaper(browser, "copy")), "then the grid again");
    assert.equal(await savedBy(browser, "save-copy", "Blue Moon copy.sc"), copy);
    await typeChart(browser, "Song\n[C]8192\n");
    await until(browser, `${text("copy")}.includes("refused 20") && ${text("copy")}.includes("split the song")`);
    assert(await valueOf(browser, `document.getElementById("save-copy").disabled`), "what is not there is not saved");
    await typeChart(browser, copy);
    await until(browser, `${blocks} === ${JSON.stringify(copy)}`);
    await valueOf(browser, `document.querySelector("#paper summary").click()`);
}

// The longest chart: a letter typed into it is on the screen, and judged, at once.
async function longest(browser) {
    const head = "Verse\n";
    const chart = head + "A".padEnd(65536 - head.length, ";A").replace(/;$/, " ");
    await typeChart(browser, chart);
    await until(browser, `${text("verdict")}.includes("measures")`, 20);
    const took = await valueOf(browser, `(() => { const start = performance.now(); judge(); return performance.now() - start; })()`);
    assert(!(await valueOf(browser, `document.getElementById("more").hidden`)), "the long song is shown in parts");
    return took;
}

const browser = await openBrowser(process.env.BROWSER_PROGRAM ?? "chromium", path.join(folder, "profile"));
try {
    await open(browser);
    await slipAndMend(browser);
    await warned(browser);
    await opened(browser);
    await reached(browser);
    await concertPitch(browser);
    await markup(browser);
    assert((await printed(browser, "print.pdf")) >= 1, "printing gives pages");
    await paperCopy(browser);
    await saved(browser);
    await open(browser);
    assert.equal(await valueOf(browser, "chart.value"), RIGHT, "what was typed last is there again");
    const took = await longest(browser);
    console.log(`page: in the browser all as it should be; the longest chart judged and drawn in ${took.toFixed(0)} ms`);
} finally {
    browser.close();
}
