// Why something stopped, and what to do.

import { texts } from "./texts.js";
import { Another, Lost, Refusal, Stranger, Unreadable } from "./tus.js";

// The gateway's numbers after which an upload can't be gone on with.
const ENDING = [6, 8, 10, 12, 27, 28, 34];

/** Another window of this browser sends the same upload. */
export class Elsewhere extends Error {}

/** The file isn't the one that the upload was begun with. */
export class Other extends Error {}

/** Why something stopped, for the user. */
export function whyOf(error) {
    const kinds = [
        [Lost, texts.lostLine], [Stranger, texts.stranger], [Another, texts.another], [Unreadable, texts.changedFile],
        [Elsewhere, texts.elsewhere], [Other, texts.otherFile],
    ];
    const known = kinds.find(([kind]) => error instanceof kind);
    if (known || !(error instanceof Refusal)) {
        return known ? known[1] : String(error);
    }
    const { status, number } = error;
    return texts.refusals[number] ?? texts.statuses[status] ?? texts.unknown(status, number);
}

/** Whether the upload can't be there any more. */
export function isGone(error) {
    return error instanceof Another || error.number === 8;
}

/** Whether nothing but another upload helps. */
export function isEnding(error) {
    return ENDING.includes(error.number);
}

/** Whether the server lets nobody do this here. */
export function isForbidden(status) {
    return status === 403 || status === 405;
}
