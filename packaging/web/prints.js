// Whether a file is the one that an upload was begun with: by SHA-256 of the first 64 KiB that were acknowledged and of
// the last 64 KiB before the offset. Pieces aren't compared: their size changes, and what came of a cut one is kept.

const PART = 65_536;

/** Whether digests can be made here. Browsers don't over plain http, but for 127.0.0.1. */
export const canCompare = Boolean(globalThis.crypto?.subtle);

/**
 * What is remembered of a file up to an offset: by the bytes that were `sent`, where these are at hand, and with what
 * is known of its beginning.
 */
export async function printOf(file, offset, sent = null, known = null) {
    if (!canCompare || offset === 0) {
        return null;
    }
    const begun = known?.offset >= PART ? known.first : null;
    const first = begun ?? (await digestOf(file, 0, Math.min(PART, offset), sent));
    const last = await digestOf(file, Math.max(0, offset - PART), offset, sent);
    return { offset, first, last };
}

/** Whether a file has what is remembered: null if that can't be told. */
export async function isSame(file, print) {
    if (!canCompare || !print) {
        return null;
    }
    const { first, last } = await printOf(file, print.offset);
    return first === print.first && last === print.last;
}

async function digestOf(file, from, end, sent) {
    const isSent = sent && sent.from <= from && end <= sent.from + sent.bytes.byteLength;
    const bytes = isSent ? sent.bytes.slice(from - sent.from, end - sent.from)
        : await file.slice(from, end).arrayBuffer();
    const digest = new Uint8Array(await crypto.subtle.digest("SHA-256", bytes));
    return Array.from(digest, (it) => it.toString(16).padStart(2, "0")).join("");
}
