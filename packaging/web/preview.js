// What of a file is looked at before it is sent, and how a text is shown: its telling lines, with marks. No DOM.

// How much is looked at to choose a label, how much once one is chosen, and what is read at once to find it.
const SAMPLE = 1 << 17;
const WIDER = 1 << 20;
// How much is shown before the first character that isn't ASCII.
const LEAD = 1 << 10;
// How many lines a preview has: the first ones, and then those that have more than ASCII.
const FIRST = 3;
const TELLING = 6;
const FEW = 2;
const COLUMNS = 120;
const RUNS = /\ufffd+|[\0-\x08\x0b-\x1f\x7f-\x9f\u202a-\u202e\u2066-\u2069\ufeff]+/g;

/**
 * Some bytes of a file, from a bit before the first that is more than plain ASCII: which label is right shows only
 * there, and before it every byte begins a character. `moves` is told how far it is looked for, of 1.
 */
export async function sampleOf(file, moves) {
    for (let from = 0; from < file.size; from += WIDER) {
        const place = tellingIn(await bytesOf(file, from, WIDER));
        if (place >= 0) {
            return sampleAt(file, from + place < SAMPLE / 2 ? 0 : from + place - LEAD, SAMPLE);
        }
        moves?.(Math.min(1, (from + WIDER) / file.size));
    }
    return sampleAt(file, 0, SAMPLE);
}

/** More of a file, from where a sample begins. */
export async function widerOf(file, sample) {
    return sample.end ? sample : sampleAt(file, sample.from, WIDER);
}

async function sampleAt(file, from, size) {
    const bytes = await bytesOf(file, from, size);
    return { bytes, from, start: from === 0, end: from + bytes.length === file.size };
}

async function bytesOf(file, from, size) {
    return new Uint8Array(await file.slice(from, from + size).arrayBuffer());
}

/** Where the first byte is that isn't plain ASCII, or -1. */
function tellingIn(bytes) {
    for (let place = 0; place < bytes.length; place += 1) {
        const byte = bytes[place];
        if (byte > 0x7e || (byte < 0x20 && byte !== 0x09 && byte !== 0x0a && byte !== 0x0d)) {
            return place;
        }
    }
    return -1;
}

/** The lines of a preview that say most: those that tell, or else the first ones. */
export function fewOf(lines) {
    const some = lines.filter((line) => line !== null && line.length > 0);
    const telling = some.filter((line) => line.some((it) => /[^\t\x20-\x7e]/.test(it.text)));
    return (telling.length > 0 ? telling : some).slice(0, FEW);
}

/**
 * The lines of a preview: each a list of runs, `{kind, text}` with kind `plain`, `lost` or `control`, and null where
 * lines were left out.
 */
export function linesOf(text) {
    const lines = text.split(/\r\n|\n|\r/);
    const shown = [];
    let [telling, left] = [0, false];
    for (const [place, line] of lines.entries()) {
        const tells = /[^\t\x20-\x7e]/.test(line);
        if (place >= FIRST && (!tells || telling === TELLING)) {
            left = left || place < lines.length - 1 || line !== "";
            continue;
        }
        shown.push(...(left ? [null] : []), runsOf(clipped(line)));
        [telling, left] = [telling + (place >= FIRST ? 1 : 0), false];
    }
    return left ? [...shown, null] : shown;
}

/** A part of a long line, around its first character that isn't ASCII. */
function clipped(line) {
    if (line.length <= COLUMNS) {
        return line;
    }
    const tells = Math.max(0, line.search(/[^\t\x20-\x7e]/));
    const from = tells < COLUMNS / 2 ? 0 : tells - COLUMNS / 4;
    const part = line.slice(from, from + COLUMNS).replace(/^[\udc00-\udfff]|[\ud800-\udbff]$/g, "");
    return `${from > 0 ? "…" : ""}${part}${from + COLUMNS < line.length ? "…" : ""}`;
}

/** A line with what can't be seen made visible: controls as the gateway's log writes them. */
function runsOf(line) {
    const runs = [];
    let end = 0;
    for (const found of line.matchAll(RUNS)) {
        runs.push({ kind: "plain", text: line.slice(end, found.index) });
        const lost = found[0][0] === "\ufffd";
        runs.push({ kind: lost ? "lost" : "control", text: lost ? found[0] : Array.from(found[0], escaped).join("") });
        end = found.index + found[0].length;
    }
    return [...runs, { kind: "plain", text: line.slice(end) }].filter((it) => it.text !== "");
}

function escaped(char) {
    const code = char.codePointAt(0).toString(16);
    return code.length > 2 ? `\\u{${code}}` : `\\x${code.padStart(2, "0")}`;
}

/** How many controls a text has that no line of a text has. Many of them say that it is none. */
export function controlsOf(text) {
    return (text.match(/[\0-\x08\x0e-\x1a\x1c-\x1f]/g) ?? []).length;
}
