// A file's way to the server: its turn, a place, its pieces, what it waits for, and why it stopped.

import { put } from "./dom.js";
import { isSame, printOf } from "./prints.js";
import { Elsewhere, Other, isEnding, isGone, whyOf } from "./reasons.js";
import { patience } from "./requests.js";
import { texts } from "./texts.js";
import { Refusal, Unreadable, create, metadataOf, send } from "./tus.js";

const QUARTERS = 4;
// After so many failures it is said that the page's set-up may be wrong.
const MANY = 3;

export class Course {
    constructor(card) {
        this.card = card;
        this.running = null;
        this.timer = null;
        this.quarter = 0;
        // An upload that is gone, until there is another one.
        this.old = null;
    }

    pause() {
        clearTimeout(this.timer);
        this.running?.abort();
    }

    /** Begins a new upload with what was chosen. */
    begin() {
        this.quarter = 0;
        this.old = this.card.upload;
        this.card.upload = null;
        return this.goOn();
    }

    /** Sends the file at its turn, from where it is, until it is there, is paused, or can't go on by itself. */
    async goOn() {
        if (this.running) {
            return;
        }
        clearTimeout(this.timer);
        this.running = new AbortController();
        const { card } = this;
        const { signal } = this.running;
        const from = card.upload?.from ?? card.made.from;
        put(card.parts["course-label"], texts.begun(from, card.upload?.to ?? card.made.to));
        card.view.moves(this.share(0));
        let outcome = null;
        try {
            const waits = (before) => card.turn("queued", { text: texts.queued(before) });
            outcome = await card.page.queue.turn(signal, waits, () => this.sends(signal));
        } catch (error) {
            this.stops(error, signal.aborted);
        } finally {
            this.running = null;
        }
        if (outcome === "complete") {
            card.end.begin();
        } else if (outcome === "perhaps") {
            card.goes(new Refusal(404, 8));
        }
    }

    async sends(signal) {
        const { card } = this;
        if (!card.upload) {
            await this.creates(signal);
        }
        return alone(card.upload.url, () => send(card.upload, card.file, signal, {
            reads: () => this.compares(),
            stored: (offset, sent) => this.stored(offset, sent),
            changed: () => card.keep(),
            moves: (bytes) => card.view.moves(this.share(bytes)),
            waits: (time, error, failures) => this.waits(time, error, failures, signal),
        }));
    }

    async creates(signal) {
        const { card } = this;
        card.turn("creating", { text: texts.creating });
        const { from, to, mode, name } = card.made;
        const { size, name: file, lastModified: time } = card.file;
        const labels = { from: from.toLowerCase(), to: to.toLowerCase(), mode };
        // By `key` an upload is told from another that was given its number, after a restored copy of a spool.
        const metadata = metadataOf({ ...labels, filename: name || file, key: randomKey() });
        const waits = (wait, error, failures) => this.waits(wait, error, failures, signal);
        const url = await create(card.page.endpoint, size, metadata, signal, waits);
        const begun = Date.now();
        card.upload = { url, metadata, from, to, file, size, time, begun, offset: 0, last: null, print: null };
        card.keep();
        if (this.old) {
            card.page.store.forget(this.old);
            this.old = null;
        }
    }

    /** What was stored of the file has to be what the file still has: else two texts would become one. */
    async compares() {
        const { upload, file } = this.card;
        if ((await isSame(file, upload.print).catch(unreadable)) === false) {
            throw new Other();
        }
    }

    async stored(offset, sent) {
        const { upload, file } = this.card;
        // At the end every piece was compared before it left, and the file may be another one by now.
        if (offset < upload.size) {
            await this.compares();
            upload.print = await printOf(file, offset, sent, upload.print).catch(unreadable);
        }
        upload.offset = offset;
        this.card.keep();
        this.card.turn("sending", { text: texts.sending(offset, upload.size) });
        this.card.view.moves(this.share(0));
        this.saysQuarter();
    }

    saysQuarter() {
        const { offset, size } = this.card.upload;
        const quarter = Math.floor((QUARTERS * offset) / Math.max(1, size));
        if (quarter > this.quarter && quarter < QUARTERS) {
            this.card.says(texts.saysPart((100 * quarter) / QUARTERS));
        }
        this.quarter = quarter;
    }

    /** How much is stored, with some bytes that are on their way. */
    share(bytes) {
        const { upload } = this.card;
        return upload ? Math.min(1, (upload.offset + bytes) / Math.max(1, upload.size)) : 0;
    }

    /** Waits, at most until the browser is online again or a pause. A screen reader is told once. */
    waits(time, error, failures, signal) {
        const seconds = Math.ceil(time / 1000);
        // A proxy that says that the gateway is away has a status.
        const isStrange = failures >= MANY && error.status === null && navigator.onLine;
        const away = texts.waiting(seconds) + (isStrange ? texts.setUp : "");
        const text = error.status === 409 ? texts.overtaken(seconds) : away;
        this.card.turn("waiting", { text });
        if (failures === 0) {
            this.card.says(text);
        }
        return new Promise((resolve) => {
            const timer = setTimeout(resolve, time);
            const ends = () => {
                clearTimeout(timer);
                resolve();
            };
            addEventListener("online", ends, { once: true, signal });
            signal.addEventListener("abort", ends, { once: true });
        });
    }

    /** Tries again where there was no room, unless something else was done since, or is being asked. */
    waitForRoom() {
        this.timer = setTimeout(() => {
            const { state, view } = this.card;
            if (state === "full" && view.isAsking) {
                this.waitForRoom();
            } else if (state === "full") {
                this.goOn();
            }
        }, patience.room);
    }

    stops(error, paused) {
        const { card } = this;
        const { upload } = card;
        const text = upload ? texts.stopped(upload.offset, upload.size) : "";
        card.view.moves(this.share(0));
        if (paused) {
            const told = upload ? texts.paused(upload.offset, upload.size) : texts.pausedEarly;
            card.turn("paused", { text: told });
            return card.says(told);
        }
        if (error.status === 507) {
            this.waitForRoom();
            return card.turn("full", { text: `${text} ${texts.full}`, alert: whyOf(error) });
        }
        if (upload && isGone(error)) {
            return card.goes(error);
        }
        if (error instanceof Other) {
            card.file = null;
            return card.turn("other", { text, alert: texts.otherFile });
        }
        if (error instanceof Unreadable) {
            card.file = null;
            return card.turn("unreadable", { text, alert: whyOf(error) });
        }
        return card.turn(isEnding(error) ? "refused" : "stopped", { text, alert: whyOf(error) });
    }
}

/** Does something while no other window of this browser does it with the same upload. */
function alone(url, does) {
    if (!navigator.locks) {
        return does();
    }
    const within = (lock) => (lock ? does() : Promise.reject(new Elsewhere()));
    return navigator.locks.request(`wovelatsa ${url}`, { ifAvailable: true }, within);
}

function unreadable(error) {
    throw new Unreadable(error.message);
}

function randomKey() {
    return Array.from(crypto.getRandomValues(new Uint8Array(12)), (it) => it.toString(16).padStart(2, "0")).join("");
}
