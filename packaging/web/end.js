// The end of a file's way: the stored text is read back, and what is known of it is shown.

import { put, showLines } from "./dom.js";
import { linesOf } from "./preview.js";
import { isForbidden, isGone, whyOf } from "./reasons.js";
import { readStored } from "./stored.js";
import { texts } from "./texts.js";
import { Lost, textOf } from "./tus.js";

// A larger file's text is read back only if somebody wants it.
const LARGE = 10_000_000;

export class End {
    constructor(card) {
        this.card = card;
        this.reading = null;
        // The lines as they were chosen, and those that were read back.
        this.lines = null;
        this.stored = null;
        this.why = "";
    }

    /** Whether all of it is on the server, as far as is known. */
    get isReached() {
        return ["offered", "checking", "done"].includes(this.card.state);
    }

    /** The button that asks for the text once more, where that is worth it. */
    get reads() {
        return this.stored || isForbidden(this.card.upload.unread) ? [] : ["read-back"];
    }

    /** The last byte was acknowledged. */
    begin() {
        const { card } = this;
        this.stored = null;
        this.lines = card.made?.lines ?? this.lines;
        card.page.sent(card);
        if (card.upload.size > LARGE) {
            card.view.moves(1);
            card.turn("offered", { text: texts.offered(card.upload.size) });
            return card.says(texts.complete);
        }
        return this.read();
    }

    /** Reads the stored text back, as far as the server lets. */
    async read() {
        const { card } = this;
        const { upload } = card;
        this.reading = new AbortController();
        const { signal } = this.reading;
        card.view.moves(null);
        card.turn("checking", { text: texts.reads(0, 0) });
        try {
            const { reply, parts } = await textOf(upload.url, signal);
            const size = Number(reply.headers.get("Content-Length"));
            const { head, ...counts } = await readStored(parts, upload.to, (bytes) => this.moves(bytes, size));
            upload.counts = counts;
            delete upload.unread;
            this.stored = linesOf(head);
        } catch (error) {
            if (isGone(error)) {
                return card.goes(error);
            }
            upload.unread = error.status ?? 0;
            this.why = signal.aborted ? texts.skipped : texts.noText(error instanceof Lost ? texts.cut : whyOf(error));
        }
        return this.show();
    }

    moves(bytes, size) {
        this.card.view.moves(size > 0 ? Math.min(1, bytes / size) : null);
        put(this.card.parts["state-text"], texts.reads(bytes, size));
    }

    /** Ends the reading, or leaves it out. */
    skip() {
        if (this.card.state === "checking") {
            return this.reading.abort();
        }
        this.why = texts.skipped;
        return this.show();
    }

    show() {
        const { card } = this;
        const { parts, upload } = card;
        const lines = this.stored ?? this.lines;
        card.keep();
        parts.verdict.textContent = isForbidden(upload.unread) ? texts.completeUnseen : texts.complete;
        put(parts.counts, this.told());
        put(parts["end-note"], upload.counts ? texts.noCount : "");
        put(parts["stored-title"], lines ? (this.stored ? texts.stored : texts.previewed) : "");
        parts.stored.hidden = !lines;
        showLines(parts.stored, lines ?? [], upload.from);
        put(parts.link, isForbidden(upload.unread) ? "" : texts.link(card.name));
        parts.link.href = upload.url;
        card.turn("done");
        card.says(texts.complete);
    }

    told() {
        const { counts, unread, to } = this.card.upload;
        if (!counts) {
            return isForbidden(unread) ? texts.forbidden : this.why || texts.skipped;
        }
        const references = to === "UTF-8" || counts.references === 0 ? "" : texts.references(counts.references);
        return `${texts.lostAtEnd(counts.lost, counts.chars)} ${references}`;
    }
}
