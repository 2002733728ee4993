// The proved reader as a script calls it: bytes in, the answer and its table words out.
"use strict";

const TEXT_LIMIT = 65536;

// The fields of the table words, most significant first, as document 01 lists them.
const Words = {
    key: (word) => ({ present: word >>> 31, offset: (word >>> 15) & 0xffff, length: (word >>> 6) & 0x1ff }),
    section: (word) => ({
        line: Number(word >> 47n),
        first: Number((word >> 31n) & 0xffffn),
        measures: Number((word >> 15n) & 0xffffn),
        time: Number((word >> 9n) & 0x3fn),
        bpm: Number(word & 0x1ffn),
    }),
    measure: (word) => ({ first: word >>> 11, beats: (word >>> 5) & 0x3f }),
    beat: (word) => ({
        base: word >>> 26,
        offset: (word >>> 10) & 0xffff,
        length: (word >>> 5) & 0x1f,
        head: ((word >>> 4) & 1) === 1,
    }),
    item: (word) => ({
        offset: Number(word >> 48n),
        length: Number((word >> 32n) & 0xffffn),
        first: Number((word >> 16n) & 0xffffn),
        measures: Number((word >> 2n) & 0x3fffn),
        style: Number(word & 3n),
    }),
};

const BASES = ("A A# Ab Am A#m Abm B Bb Bm Bbm C C# Cm C#m D Db D# Dm Dbm D#m E Eb Em Ebm F F# Fm F#m " +
    "G Gb G# Gm Gbm G#m").split(" ");
const SILENCE = 63;
const NO_BPM = 511;

// Makes a reader of the module's bytes.
async function openReader(moduleBytes) {
    const { instance } = await WebAssembly.instantiate(moduleBytes, {});
    const module = instance.exports;
    const places = Array.from({ length: 11 }, (_, which) => module.page_memory(which));
    const view = (Kind, which, count) => new Kind(module.memory.buffer, places[which], count);

    // Lends the text; a longer one is cut behind the limit, where one byte more tells that it is too long.
    function lend(bytes) {
        const length = Math.min(bytes.length, TEXT_LIMIT + 1);
        view(Uint8Array, 0, length).set(bytes.subarray(0, length));
        return length;
    }

    function read(bytes) {
        module.page_read(lend(bytes));
        const [refusal, line, sections, measures, beats, items] = Array.from(view(BigUint64Array, 6, 6), Number);
        return {
            refusal,
            line,
            keys: refusal === 0 ? view(Uint32Array, 1, 8).slice() : new Uint32Array(0),
            sections: view(BigUint64Array, 2, sections).slice(),
            measures: view(Uint32Array, 3, measures).slice(),
            beats: view(Uint32Array, 4, beats).slice(),
            items: view(BigUint64Array, 5, items).slice(),
        };
    }

    // The tables of the song that was read last, its beats moved to concert pitch; as they are where the move is out of range.
    function atConcertPitch(tables, move) {
        const count = tables.beats.length;
        if (module.page_concert(count, move) !== 0) return tables;
        return { ...tables, beats: view(Uint32Array, 8, count).slice() };
    }

    // The song with nothing folded, for paper: its refusal and line, and the bytes of the copy.
    function flat(bytes) {
        module.page_flat(lend(bytes));
        const [refusal, line, length] = Array.from(view(BigUint64Array, 10, 3), Number);
        return { refusal, line, copy: view(Uint8Array, 9, length).slice() };
    }

    return { read, atConcertPitch, flat, lend, module, view };
}
