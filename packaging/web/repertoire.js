// Which characters an encoding can write, found by decoding every code that it has. No DOM.

import { decoded } from "./labels.js";

const repertoires = new Map();
// What the standard's encoders for Japanese write beside the codes of JIS X 0208: yen, overline and minus.
const JAPANESE_TOO = "\u00a5\u203e\u2212";

/** How many characters of a text an encoding lacks, each of which is stored as a reference (`&#NUMBER;`). */
export function lacking(name, text) {
    if (name.startsWith("UTF-")) {
        return 0;
    }
    if (!repertoires.has(name)) {
        repertoires.set(name, repertoireOf(name));
    }
    const has = repertoires.get(name);
    return Array.from(text).filter((char) => !has.has(char)).length;
}

function repertoireOf(name) {
    const japanese = ["Shift_JIS", "EUC-JP", "ISO-2022-JP"].includes(name);
    const text = japanese ? decoded("Shift_JIS", japaneseCodes()) + JAPANESE_TOO : decoded(name, singleBytes());
    const has = new Set(text);
    has.delete("\ufffd");
    if (name === "ISO-2022-JP") {
        ["\u000e", "\u000f", "\u001b"].forEach((it) => has.delete(it));
    }
    return has;
}

function singleBytes() {
    return Uint8Array.from({ length: 256 }, (_, byte) => byte);
}

/** ASCII, half-width katakana, and each two bytes for a code of JIS X 0208 and its extensions. */
function japaneseCodes() {
    const codes = [...singleBytes().subarray(0, 0x80), ...singleBytes().subarray(0xa1, 0xe0)];
    for (let lead = 0x81; lead <= 0xfc; lead += 1) {
        // 80 to 9F and E0 to FC lead two bytes; F0 to F9 are for private use, which no encoder writes.
        const leads = lead <= 0x9f || (lead >= 0xe0 && lead < 0xf0) || lead > 0xf9;
        for (let trail = 0x40; leads && trail <= 0xfc; trail += 1) {
            codes.push(...(trail === 0x7f ? [] : [lead, trail]));
        }
    }
    return Uint8Array.from(codes);
}

/** About how many bytes a text has in an encoding, with a byte for each reference. */
export function storedSize(name, text) {
    if (name === "UTF-8") {
        return new TextEncoder().encode(text).length;
    }
    const isJapanese = ["Shift_JIS", "EUC-JP", "ISO-2022-JP"].includes(name);
    return text.length + (isJapanese ? (text.match(/[^\0-\x7f]/g) ?? []).length : 0);
}
