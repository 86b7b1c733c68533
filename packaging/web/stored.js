// What is known of a stored text once it was read back. No DOM.

import { losses } from "./labels.js";

// How many characters are kept for the lines that are shown.
const KEPT = 1 << 20;

/**
 * Reads the parts of a reply to their end: the first characters of the text, how many characters there are, how many of
 * them are signs of a loss (U+FFFD, or its reference where the encoding lacks it), and how many references there are.
 * `moves` is told how many bytes came.
 */
export async function readStored(parts, name, moves) {
    const decoder = new TextDecoder(name, { ignoreBOM: true });
    const found = { head: "", chars: 0, lost: 0, references: 0 };
    let [rest, bytes] = ["", 0];
    for await (const part of parts) {
        const text = rest + decoder.decode(part, { stream: true });
        // A reference may go over two parts.
        const cut = text.search(/&(#\d{0,7})?$/);
        rest = cut < 0 ? "" : text.slice(cut);
        count(found, cut < 0 ? text : text.slice(0, cut));
        bytes += part.length;
        moves?.(bytes);
    }
    count(found, rest + decoder.decode());
    return found;
}

function count(found, text) {
    found.head += text.slice(0, KEPT - found.head.length);
    found.chars += text.length - (text.match(/[\ud800-\udbff]/g) ?? []).length;
    found.lost += losses(text) + (text.match(/&#65533;/g) ?? []).length;
    found.references += (text.match(/&#\d+;/g) ?? []).length;
}
