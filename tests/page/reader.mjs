// The page's own scripts outside a browser: the module out of the page, and the functions that read with it.
import fs from "node:fs";
import vm from "node:vm";
import zlib from "node:zlib";

// openPage FILE: the reader of a page, with the functions of its scripts that touch no screen.
export async function openPage(file) {
    const page = fs.readFileSync(file, "utf8");
    const module = /<script type="application\/wasm" id="module">([^<]*)<\/script>/.exec(page)[1];
    const script = /<script>\n([\s\S]*)<\/script>/.exec(page)[1];
    const context = vm.createContext({ TextDecoder, TextEncoder, WebAssembly });
    // What stands before the first line about the screen needs no document.
    const quiet = script.slice(0, script.indexOf("// The screen: what is shown"));
    vm.runInContext(`${quiet}\nthis.page = { openReader, adviceOn, adviceOnCopy, warningsOn, songOf };`, context);
    const reader = await context.page.openReader(zlib.gunzipSync(Buffer.from(module.trim(), "base64")));
    return { reader, ...context.page };
}
