// A worker that looks at files, one after the other, so that the page never stands still. Nothing is sent.

import { decoded, rank } from "./labels.js";
import { controlsOf, linesOf, sampleOf } from "./preview.js";

let last = Promise.resolve();

onmessage = ({ data }) => {
    last = last.then(() => look(data)).catch((error) => postMessage({ number: data.number, error }));
};

/** Finds the choices for a file, or its lines under the label that it was sent with. */
async function look({ number, file, label }) {
    const sample = await sampleOf(file, (share) => postMessage({ number, share }));
    const lines = label ? linesOf(decoded(label, sample.bytes, sample)) : null;
    const choices = label ? null : rank(sample.bytes, sample).map(shown);
    postMessage({ number, found: { sample, lines, choices } });
}

/** What is shown of a choice. Its text isn't kept: many files, each with twenty of them, would fill the memory. */
function shown({ names, text, lost, marked }) {
    const isPlain = /^[\t\n\r\x20-\x7e]*$/.test(text);
    return { names, lost, marked, isPlain, isEmpty: text === "", controls: controlsOf(text), lines: linesOf(text) };
}
