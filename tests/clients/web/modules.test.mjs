// The parts of the page that need no page: `node --test tests/clients/web/`.

import assert from "node:assert/strict";
import { test } from "node:test";
import { ENCODINGS, decoded, losses, rank } from "../../../packaging/web/labels.js";
import { controlsOf, linesOf, sampleOf } from "../../../packaging/web/preview.js";
import { isSame, printOf } from "../../../packaging/web/prints.js";
import { Queue } from "../../../packaging/web/queue.js";
import { lacking } from "../../../packaging/web/repertoire.js";
import { Store, hasChanged, isFileOf } from "../../../packaging/web/store.js";
import { readStored } from "../../../packaging/web/stored.js";

const RUSSIAN = "Съешь ещё этих мягких французских булок, да выпей чаю.\nШирокая электрификация южных губерний.\n";

/** The bytes of a text in an encoding of one byte, found by decoding each of them. */
function bytesOf(name, text) {
    const table = decoded(name, Uint8Array.from({ length: 256 }, (_, byte) => byte));
    return Uint8Array.from(text, (char) => table.indexOf(char));
}

function plain(lines) {
    return lines.map((line) => (line === null ? "…" : line.map((it) => it.text).join("")));
}

test("labels: the right one is the first of a text's", () => {
    const texts = {
        "KOI8-R": RUSSIAN, "windows-1251": RUSSIAN, "IBM866": RUSSIAN,
        "windows-1252": "Größe über alle Maßen, «déjà vu».\n",
        "windows-1253": "Η γλώσσα μου είναι ελληνική.\n", "ISO-8859-2": "Zażółć gęślą jaźń, proszę bardzo.\n",
    };
    for (const [name, text] of Object.entries(texts)) {
        const [first] = rank(bytesOf(name, text));
        assert.ok(first.names.includes(name), `${name}: ${first.names}`);
        assert.equal(first.text, text);
    }
});

test("labels: a mark names the encoding, ASCII is one choice beside UTF-16, each encoding is in one choice", () => {
    const marked = rank(Uint8Array.of(0xff, 0xfe, 0x41, 0x04));
    assert.deepEqual(marked.map((it) => [it.names, it.text, it.marked]), [[["UTF-16LE"], "с", true]]);
    const ascii = rank(new TextEncoder().encode("A.\n"));
    assert.equal(ascii.length, 3);
    assert.deepEqual(ascii.flatMap((it) => it.names).sort(), [...ENCODINGS].sort());
});

test("labels: what is lost is counted, and a character that the end cuts isn't", () => {
    const bytes = new TextEncoder().encode("añ").subarray(0, 2);
    assert.equal(losses(decoded("UTF-8", bytes)), 1);
    assert.equal(losses(decoded("UTF-8", bytes, { end: false })), 0);
});

test("preview: the first lines, those that tell, and where some were left out", () => {
    const text = `${"plain\n".repeat(10)}é 1\n${"plain\n".repeat(3)}é 2\n`;
    assert.deepEqual(plain(linesOf(text)), ["plain", "plain", "plain", "…", "é 1", "…", "é 2"]);
});

test("preview: losses and controls are runs of their own, and a long line is cut around what tells", () => {
    const [line] = linesOf("a\ufffd\ufffdb\x07\u202ec");
    assert.deepEqual(line.map((it) => it.kind), ["plain", "lost", "plain", "control", "plain"]);
    assert.equal(line[3].text, "\\x07\\u{202e}");
    const [long] = plain(linesOf(`${"x".repeat(500)}é${"y".repeat(500)}`));
    assert.ok(long.length <= 122 && long.includes("é") && long.startsWith("…") && long.endsWith("…"));
    assert.equal(controlsOf("a\0b\tc\n\x1b"), 1);
});

test("preview: of a file that begins with ASCII the part is looked at that doesn't", async () => {
    const sample = await sampleOf(new Blob(["plain\n".repeat(300_000), "é"]));
    assert.ok(decoded("UTF-8", sample.bytes, sample).includes("é"));
    assert.deepEqual([sample.start, sample.end], [false, true]);
    const ascii = await sampleOf(new Blob(["plain\n"]));
    assert.deepEqual([ascii.start, ascii.end, ascii.bytes.length], [true, true, 6]);
});

test("repertoire: how many characters an encoding lacks", () => {
    const text = "Grüße 5 € Ł";
    const wanted = { "UTF-8": 0, "windows-1250": 0, "ISO-8859-15": 1, "ISO-8859-2": 1, "KOI8-R": 4, "Shift_JIS": 4 };
    const found = Object.keys(wanted).map((name) => [name, lacking(name, text)]);
    assert.deepEqual(Object.fromEntries(found), wanted);
});

test("stored: what is counted doesn't depend on how the text comes", async () => {
    const bytes = new TextEncoder().encode("a&#8364;é\ufffd😀&#65533;&#x&#12");
    for (const size of [1, 2, 3, 7, 100]) {
        const parts = Array.from({ length: Math.ceil(bytes.length / size) }, (_, it) =>
            bytes.subarray(it * size, (it + 1) * size));
        const came = [];
        const { head, ...counts } = await readStored(parts, "UTF-8", (it) => came.push(it));
        assert.equal(head, new TextDecoder().decode(bytes));
        assert.deepEqual(counts, { chars: 26, lost: 2, references: 2 });
        assert.equal(came.at(-1), bytes.length);
    }
});

test("prints: another file of the same name, size and time is told, wherever it differs", async () => {
    const bytes = new Uint8Array(300_000).map((_, place) => place % 253);
    const file = new Blob([bytes]);
    for (const offset of [1, 65_536, 200_000, 299_999]) {
        const print = await printOf(file, offset);
        assert.equal(await isSame(file, print), true);
        for (const [place, wanted] of [[0, false], [offset - 1, false], [offset, true]]) {
            const other = bytes.slice();
            other[place] ^= 1;
            assert.equal(await isSame(new Blob([other]), print), wanted, `${offset} ${place}`);
        }
    }
    assert.equal(await isSame(file, null), null);
    assert.equal(await printOf(file, 0), null);
});

test("prints: what was sent is remembered, not what the file has since, and not by pieces", async () => {
    const bytes = new Uint8Array(300_000).fill(65);
    const file = new Blob([bytes]);
    const changed = new Blob([new Uint8Array(300_000).fill(66)]);
    const sent = { from: 0, bytes: bytes.slice(0, 100_000).buffer };
    const print = await printOf(changed, 100_000, sent);
    assert.deepEqual(print, await printOf(file, 100_000));
    // A piece that was cut: its part counts, and the next print has the same beginning.
    assert.deepEqual(await printOf(changed, 70_000, sent), await printOf(file, 70_000));
    assert.equal((await printOf(changed, 200_000, null, print)).first, print.first);
});

test("queue: two at once, in order, each told how many are before it, and a pause leaves it", async () => {
    const queue = new Queue(2);
    const { signal } = new AbortController();
    const [began, ends, told] = [[], [], {}];
    const one = (name, stop = signal) => queue.turn(stop, (before) => (told[name] = before), () => {
        began.push(name);
        return new Promise((resolve) => ends.push(resolve));
    });
    const gives = new AbortController();
    const all = [one("a"), one("b"), one("c"), one("d", gives.signal), one("e")];
    await new Promise(setImmediate);
    assert.deepEqual([began, told], [["a", "b"], { c: 0, d: 1, e: 2 }]);
    gives.abort();
    await assert.rejects(all[3], { name: "AbortError" });
    assert.equal(told.e, 1);
    for (let turn = 0; turn < 4; turn += 1) {
        ends.shift()();
        await new Promise(setImmediate);
    }
    await Promise.all([all[0], all[1], all[2], all[4]]);
    assert.deepEqual([began, queue.free], [["a", "b", "c", "e"], 2]);
});

test("queue: who fails leaves its place", async () => {
    const queue = new Queue(1);
    const { signal } = new AbortController();
    const fails = () => Promise.reject(new Error("failed"));
    await assert.rejects(queue.turn(signal, () => {}, fails), { message: "failed" });
    assert.equal(await queue.turn(signal, () => {}, () => 7), 7);
});

test("store: an entry that can't be read hides no other one, and each endpoint has its own", () => {
    const entries = new Map();
    globalThis.localStorage = Object.defineProperties({}, {
        setItem: { value: (key, value) => { entries.set(key, value); localStorage[key] = value; } },
        getItem: { value: (key) => entries.get(key) ?? null },
        removeItem: { value: (key) => { entries.delete(key); delete localStorage[key]; } },
    });
    const upload = { url: "u/1", metadata: "m", from: "a", to: "b", file: "f", size: 1, time: 2, begun: 3, offset: 0 };
    const [here, there] = [new Store("here"), new Store("there")];
    here.keep(upload);
    here.keep({ ...upload, url: "u/2", begun: 4 });
    there.keep({ ...upload, url: "u/3" });
    for (const [place, entry] of ["{not json", "null", "7", "{}", '{"url": 1}'].entries()) {
        localStorage.setItem(`wovelatsa here ${place}`, entry);
    }
    assert.deepEqual(here.uploads().map((it) => it.url), ["u/2", "u/1"]);
    here.forget(upload);
    assert.deepEqual(here.uploads().map((it) => it.url), ["u/2"]);
    here.forgetAll();
    assert.deepEqual([here.uploads(), there.uploads().length], [[], 1]);
});

test("store: a file is told by name, size and time", () => {
    const upload = { file: "a", size: 1, time: 2 };
    const file = { name: "a", size: 1, lastModified: 2 };
    assert.ok(isFileOf(upload, file) && !hasChanged(upload, file));
    assert.ok(!isFileOf(upload, { ...file, size: 2 }) && hasChanged(upload, { ...file, lastModified: 3 }));
    assert.ok(!hasChanged(upload, { ...file, name: "b" }));
});
