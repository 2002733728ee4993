// too_long.mjs PAGE < CHART: what the page says of a song whose copy is too long, in the lines of `turnipcart flat -`.
import fs from "node:fs";
import { openPage } from "./reader.mjs";

const { reader, adviceOnCopy } = await openPage(process.argv[2]);
const chart = fs.readFileSync(0);
const { refusal } = reader.flat(chart);
const { sentence, repair } = adviceOnCopy(reader, chart);
console.log(`standard input: refused ${refusal}: ${sentence}\n    = ${repair}`);
