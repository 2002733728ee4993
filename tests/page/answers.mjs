// answers.mjs PAGE < LIST: the page's reader on a packed list of charts to be read or copied, in the driver's lines (tests/driver/README.md).
import fs from "node:fs";
import { openPage } from "./reader.mjs";

const { reader } = await openPage(process.argv[2]);

function readLine(chart) {
    const answer = reader.read(chart);
    const tables = [answer.keys, answer.sections, answer.measures, answer.beats, answer.items];
    const counts = tables.slice(1).map((table) => table.length);
    return [answer.refusal, answer.line, ...counts].join(" ") + tables.map((table) => [" |", ...table].join(" ")).join("");
}

function copyLine(chart) {
    const { refusal, line, copy } = reader.flat(chart);
    return [refusal, line, copy.length, "|", ...copy].join(" ");
}

const list = fs.readFileSync(0);
const out = [];
for (let at = 0, number = 0; at < list.length; number++) {
    const end = list.indexOf(10, at);
    const header = list.subarray(at, end).toString().split(" ");
    const copied = header[0] === "flat";
    const length = Number(header[copied ? 1 : 0]);
    const chart = list.subarray(end + 1, end + 1 + length);
    out.push(`${number} ${copied ? copyLine(chart) : readLine(chart)}`);
    at = end + 1 + length;
}
fs.writeSync(1, out.join("\n") + "\n");
