// What is said to the arranger, in the words that `turnipcart check` has: the same files in C, compiled beside the reader.
"use strict";

// The numbers of C's struct advice: line, column, place, sentence, repair, note line, note; places and words as start and length.
function adviceIn(reader) {
    const [line, column, offset, length, ...rest] = reader.view(Uint32Array, 7, 11);
    const words = (start, size) => letters(new Uint8Array(reader.module.memory.buffer, start, size), 0, size);
    return {
        line,
        column,
        offset,
        length,
        sentence: words(rest[0], rest[1]),
        repair: words(rest[2], rest[3]),
        noteLine: rest[4],
        note: words(rest[5], rest[6]),
    };
}

// For a chart that is refused; the text is the one that was lent last.
function adviceOn(reader, bytes, tables) {
    if (tables.refusal === 0) return { line: 0 };
    reader.module.page_advise(reader.lend(bytes), bytes.length);
    return adviceIn(reader);
}

// For a song whose copy is too long.
function adviceOnCopy(reader, bytes) {
    reader.module.page_advise_copy(reader.lend(bytes));
    return adviceIn(reader);
}

// For a chart that is accepted: at most so many, since a wrong habit repeats itself.
const MOST_WARNINGS = 20;

function warningsOn(reader, bytes, tables) {
    const warnings = [];
    reader.module.page_begin_warnings(reader.lend(bytes), tables.items.length);
    while (warnings.length < MOST_WARNINGS && reader.module.page_next_warning()) warnings.push(adviceIn(reader));
    return warnings;
}
