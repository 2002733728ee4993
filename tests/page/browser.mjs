// Drives a real browser (Chromium, headless) over its debugging pipe: open a page, type, look, print, save. No package is needed.
import { spawn } from "node:child_process";

export async function openBrowser(program, folder) {
    const words = ["--headless", "--no-sandbox", "--disable-gpu", "--no-first-run", "--remote-debugging-pipe", `--user-data-dir=${folder}`, "about:blank"];
    const child = spawn(program, words, { stdio: ["ignore", "ignore", "ignore", "pipe", "pipe"] });
    const [to, from] = [child.stdio[3], child.stdio[4]];
    const answers = new Map();
    const listeners = [];
    let number = 0;
    let rest = "";
    from.on("data", (piece) => {
        const messages = (rest + piece).split("\0");
        rest = messages.pop();
        for (const message of messages.map((text) => JSON.parse(text))) {
            if (message.id) answers.get(message.id)(message);
            else for (const listener of listeners) listener(message);
        }
    });
    const call = (method, params = {}, sessionId = undefined) => new Promise((resolve, reject) => {
        const id = ++number;
        answers.set(id, (message) => {
            answers.delete(id);
            if (message.error) reject(new Error(`${method}: ${message.error.message}`));
            else resolve(message.result);
        });
        to.write(JSON.stringify({ id, method, params, sessionId }) + "\0");
    });
    const { targetId } = await call("Target.createTarget", { url: "about:blank" });
    const { sessionId } = await call("Target.attachToTarget", { targetId, flatten: true });
    const inPage = (method, params) => call(method, params, sessionId);
    await inPage("Page.enable");
    return { call, inPage, listeners, close: () => child.kill() };
}

// What an expression is in the page; a promise is waited for.
export async function valueOf(browser, expression) {
    const answer = await browser.inPage("Runtime.evaluate", { expression, awaitPromise: true, returnByValue: true });
    if (answer.exceptionDetails) throw new Error(`${expression}: ${JSON.stringify(answer.exceptionDetails.exception)}`);
    return answer.result.value;
}

export async function until(browser, expression, seconds = 10) {
    const end = Date.now() + 1000 * seconds;
    while (Date.now() < end) {
        if (await valueOf(browser, expression)) return;
        await new Promise((resolve) => setTimeout(resolve, 30));
    }
    throw new Error(`never true: ${expression}`);
}

// Another chart in the place of the one that stands there, typed as a keyboard or a paste would put it.
export async function typeChart(browser, text) {
    await valueOf(browser, `document.getElementById("chart").focus(), document.getElementById("chart").select()`);
    await browser.inPage("Input.insertText", { text });
}
