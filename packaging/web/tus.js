// The protocol part: tus 1.0.0 as the gateway speaks it (docs/PROTOCOL.md). It knows nothing of a page, so it may be
// taken as an example of a client.

import { Lost, Stranger, ask, patch, watched } from "./requests.js";

export { Lost, Refusal, Stranger } from "./requests.js";

/**
 * How many bytes one PATCH has: at first the most, less after one whose reply didn't come, more after one that took
 * less than `quick` milliseconds. What is acknowledged is on the gateway's disk, and a PATCH is at its end.
 */
export const pieces = { most: 1_000_000, least: 64_000, quick: 10_000 };

const TUS = { "Tus-Resumable": "1.0.0" };
const LONGEST_WAIT = 30_000;
// After so many refusals with 409, and nothing stored in between, somebody else sends the same upload.
const OVERTAKEN = 5;

/** Under this URL is another upload than the one that was begun. */
export class Another extends Error {}

/** The file can't be read any more, or it is shorter than it was. */
export class Unreadable extends Error {}

/** `Upload-Metadata` of some keys and values. */
export function metadataOf(values) {
    const pair = ([key, value]) => (value === "" ? key : `${key} ${inBase64(value)}`);
    return Object.entries(values).map(pair).join(",");
}

function inBase64(text) {
    return btoa(String.fromCharCode(...new TextEncoder().encode(text)));
}

/**
 * Creates an upload of so many bytes: its URL. It asks again while the gateway is away. An upload whose reply is lost
 * is one that nobody knows, and the operator's to delete.
 */
export async function create(endpoint, size, metadata, signal, waits) {
    const headers = { ...TUS, "Upload-Length": String(size), "Upload-Metadata": metadata };
    for (let failures = 0; ; failures += 1) {
        try {
            const reply = await ask("POST", endpoint, { headers, signal });
            const place = reply.headers.get("Location");
            if (place === null) {
                throw new Stranger("no Location");
            }
            return new URL(place, endpoint).href;
        } catch (error) {
            if (!passes(error)) {
                throw error;
            }
            await waits(waitAfter(failures), error, failures);
            signal.throwIfAborted();
        }
    }
}

/** What is there of an upload: how many bytes count, how many were declared, and its metadata. */
export async function stateOf(url, signal) {
    const { headers } = await ask("HEAD", url, { headers: TUS, signal });
    return {
        offset: Number(headers.get("Upload-Offset")),
        size: Number(headers.get("Upload-Length")),
        metadata: headers.get("Upload-Metadata"),
    };
}

/** Deletes an upload. That the gateway has none is as good. */
export async function remove(url) {
    try {
        await ask("DELETE", url, { headers: TUS });
    } catch (error) {
        if (error.number !== 8) {
            throw error;
        }
    }
}

/** Asks for the stored text: a reply, and the parts of its body, each of which has to come before a silence. */
export async function textOf(url, signal) {
    const watch = watched(signal);
    const reply = await ask("GET", url, { watch });
    return { reply, parts: partsOf(reply, watch) };
}

async function* partsOf(reply, watch) {
    const reader = reply.body.getReader();
    try {
        for (;;) {
            const { done, value } = await reader.read();
            watch.moved();
            if (done) {
                return;
            }
            yield value;
        }
    } catch (error) {
        throw watch.why(error);
    } finally {
        watch.stop();
        reader.cancel().catch(() => {});
    }
}

/**
 * Sends a file's bytes to an upload, from where it is to its end, and goes on after each cut until `signal` ends it.
 * Returns `complete`, or `perhaps` if the last byte was sent and the upload is gone since: it was taken out, or it
 * never came whole, and nobody can tell here which.
 *
 * `upload` has the `url`, the `metadata` that it was made with, and `last`, which is to be remembered: null, `sent`
 * once the last byte may have left, and `acknowledged` once the gateway said that it has it. `told.stored` is called
 * with each offset that was acknowledged and the piece sent last (`from`, `bytes`), and is awaited; `told.changed` when
 * `last` has changed; `told.reads` between the reading of a piece and its sending, and is awaited; `told.moves` with
 * how many bytes have left of those behind the offset; and `told.waits` with a number of milliseconds, why, and how
 * many failures there were before: its promise is kept when it is time.
 */
export async function send(upload, file, signal, told) {
    const course = { offset: null, piece: pieces.most, sent: null };
    for (let [failures, overtaken] = [0, 0]; ;) {
        try {
            course.offset ??= await goingOn(upload, file, signal);
            upload.last = course.offset === file.size ? "acknowledged" : upload.last;
            await told.stored(course.offset, course.sent);
            if (course.offset === file.size) {
                return "complete";
            }
            course.offset = await sendPiece(upload, file, course, signal, told);
            [failures, overtaken] = [0, 0];
        } catch (error) {
            if (error.number === 8 && upload.last) {
                return "perhaps";
            }
            overtaken += error.status === 409 ? 1 : 0;
            if (!passes(error) || overtaken === OVERTAKEN) {
                throw error;
            }
            course.offset = null;
            await told.waits(waitAfter(failures), error, failures);
            signal.throwIfAborted();
            failures += 1;
        }
    }
}

/** Whether a failure passes by itself. By 409 the offset is another: bytes under way came, or somebody was faster. */
export function passes(error) {
    return error instanceof Lost || error.status === 409;
}

/** How long to wait after so many failures, in milliseconds: longer each time, and not all clients at once. */
export function waitAfter(failures) {
    return Math.min(LONGEST_WAIT, 1000 * 2 ** failures) * (0.75 + Math.random() / 2);
}

/** The offset to go on at, of the upload that was begun and of no other one that has its number now. */
async function goingOn(upload, file, signal) {
    const { offset, size, metadata } = await stateOf(upload.url, signal);
    if (size !== file.size || metadata !== upload.metadata || offset > size) {
        throw new Another(upload.url);
    }
    return offset;
}

/** Sends the next piece: the offset behind it. */
async function sendPiece(upload, file, course, signal, told) {
    const { offset } = course;
    const end = Math.min(offset + course.piece, file.size);
    course.sent = { from: offset, bytes: await pieceOf(file, offset, end) };
    await told.reads?.();
    const before = upload.last;
    setLast(upload, end === file.size ? "sent" : before, told);
    const began = performance.now();
    try {
        const headers = { ...TUS, "Content-Type": "application/offset+octet-stream", "Upload-Offset": String(offset) };
        const reply = await patch(upload.url, headers, course.sent.bytes, signal, told.moves);
        const reached = Number(reply.headers.get("Upload-Offset"));
        if (reached > offset) {
            course.piece = performance.now() - began < pieces.quick ? bounded(2 * course.piece) : course.piece;
            return reached;
        }
        // Something on the way took the body off.
        throw new Lost(`${reached} after ${offset}`);
    } catch (error) {
        // A refusal of the gateway's changes nothing, so this piece's last byte doesn't count.
        if (error.number > 0) {
            setLast(upload, before, told);
        }
        course.piece = error instanceof Lost && error.status === null ? bounded(course.piece / 2) : course.piece;
        throw error;
    }
}

function bounded(size) {
    return Math.max(pieces.least, Math.min(pieces.most, Math.ceil(size)));
}

function setLast(upload, last, told) {
    if (upload.last !== last) {
        upload.last = last;
        told.changed();
    }
}

/** A file's bytes. They are read first: a body that can't be read looks like a lost line. */
async function pieceOf(file, from, end) {
    let bytes;
    try {
        bytes = await file.slice(from, end).arrayBuffer();
    } catch (error) {
        throw new Unreadable(error.message);
    }
    if (bytes.byteLength !== end - from) {
        throw new Unreadable(`${bytes.byteLength} bytes at ${from}`);
    }
    return bytes;
}
