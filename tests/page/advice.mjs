// advice.mjs PAGE FILE...: what the page says of each chart, a line of JSON each, with the fields that `turnipcart check --json` prints too.
import fs from "node:fs";
import path from "node:path";
import { openPage } from "./reader.mjs";

const [page, ...files] = process.argv.slice(2);
const { reader, adviceOn, warningsOn } = await openPage(page);
const said = (advice) => ({
    place_line: advice.line,
    column: advice.column,
    offset: advice.offset,
    length: advice.length,
    sentence: advice.sentence,
    repair: advice.repair,
    note_line: advice.noteLine,
    note: advice.note,
});
for (const file of files) {
    const bytes = fs.readFileSync(file);
    const tables = reader.read(bytes);
    const rest = tables.refusal === 0 ? { warnings: warningsOn(reader, bytes, tables).map(said) } : said(adviceOn(reader, bytes, tables));
    console.log(JSON.stringify({ file: path.basename(file), refusal: tables.refusal, line: tables.line, ...rest }));
}
