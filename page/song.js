// What a player sees of a song: its sections by name, their measures beat by beat, the prompter's lines over them. No part of a screen yet.
"use strict";

// The bytes as characters, one for one with what the text field holds; a mark of byte order is a character like any other.
const decoder = new TextDecoder("utf-8", { ignoreBOM: true });
const letters = (bytes, offset, length) => decoder.decode(bytes.subarray(offset, offset + length));

// Where each line of a text begins and ends: CR LF, CR and LF each end one.
function linesOf(bytes) {
    const lines = [];
    let start = 0;
    for (let at = 0; at < bytes.length; at++) {
        if (bytes[at] !== 10 && bytes[at] !== 13) continue;
        lines.push({ start, end: at });
        if (bytes[at] === 13 && bytes[at + 1] === 10) at++;
        start = at + 1;
    }
    lines.push({ start, end: bytes.length });
    return lines;
}

// The line with a number from 1, without the blanks at its ends.
function lineText(bytes, lines, number) {
    const line = lines[number - 1];
    return line ? letters(bytes, line.start, line.end - line.start).replace(/^[ \t]+|[ \t]+$/g, "") : "";
}

// A beat as a player reads it: a chord or `_` where it begins, `.` while it is held.
function beatText(bytes, word) {
    const beat = Words.beat(word);
    if (!beat.head) return ".";
    if (beat.base === SILENCE) return "_";
    return BASES[beat.base] + letters(bytes, beat.offset, beat.length);
}

function measureOf(bytes, tables, place) {
    const { first, beats } = Words.measure(tables.measures[place]);
    return Array.from(tables.beats.subarray(first, first + beats), (word) => beatText(bytes, word));
}

// The song's capo, 0 where it has none.
const CAPO = 3;

function capoOf(bytes, tables) {
    const { offset, length } = Words.key(tables.keys[CAPO] ?? 0);
    return Number(letters(bytes, offset, length));
}

// The prompter's lines by the measure over which each begins.
function promptsOf(bytes, tables) {
    const prompts = new Map();
    for (const word of tables.items) {
        const item = Words.item(word);
        const shown = { text: letters(bytes, item.offset, item.length), measures: item.measures, style: item.style };
        prompts.set(item.first, [...(prompts.get(item.first) ?? []), shown]);
    }
    return prompts;
}

// The sections in order, at most so many measures of the song written out.
function songOf(bytes, tables, mostMeasures) {
    const lines = linesOf(bytes);
    const prompts = promptsOf(bytes, tables);
    let left = mostMeasures;
    return Array.from(tables.sections, (word) => {
        const section = Words.section(word);
        const [name, ...comment] = lineText(bytes, lines, section.line).split("!");
        const shown = Math.min(left, section.measures);
        left -= shown;
        const measures = Array.from({ length: shown }, (_, k) => ({
            number: k + 1,
            beats: measureOf(bytes, tables, section.first + k),
            prompts: prompts.get(section.first + k) ?? [],
        }));
        return {
            name,
            comment: comment.join("!"),
            time: section.time,
            bpm: section.bpm === NO_BPM ? null : section.bpm,
            count: section.measures,
            measures,
        };
    });
}
