// One file on the page: its one state, and the steps from one to the next. It has the file, or what is remembered of
// its upload, or both.

import { Choices } from "./choices.js";
import { Course } from "./course.js";
import { put, showLines } from "./dom.js";
import { End } from "./end.js";
import { look } from "./looks.js";
import { isSame } from "./prints.js";
import { isForbidden, isGone, whyOf } from "./reasons.js";
import { STATES } from "./states.js";
import { isFileOf } from "./store.js";
import { texts } from "./texts.js";
import { Another, Lost, remove, stateOf } from "./tus.js";
import { View } from "./view.js";

// The most that `Upload-Length` may say.
const LARGEST = 1 << 30;
let made = 0;

export class Card {
    /** `page` has the `endpoint`, the `store` and the `queue`, and is told by `says`, `turned`, `leaves` and others. */
    constructor(page, file, upload) {
        this.page = page;
        this.file = file;
        this.upload = upload;
        // The form where the label is chosen, and what was chosen in it.
        this.form = null;
        this.made = null;
        this.course = new Course(this);
        this.end = new End(this);
        this.view = new View(this, {
            "pause": () => this.course.pause(),
            "go-on": () => this.course.goOn(),
            "again": () => page.choose(),
            "send-again": () => (this.file ? this.look("") : page.choose()),
            "read-back": () => this.end.read(),
            "skip": () => this.end.skip(),
            "give-up": () => this.deletes(),
            "other-label": () => this.deletes(),
            "wrong": () => this.deletes(),
            "anew": () => this.startAnew(),
            "remove": () => this.leave(),
        });
        made += 1;
        this.view.name(this.name, file?.size ?? upload.size, file?.lastModified ?? upload.time, made);
        this.parts.form.onsubmit = (event) => {
            event.preventDefault();
            this.send();
        };
    }

    get name() {
        return this.upload?.file ?? this.file.name;
    }

    get parts() {
        return this.view.parts;
    }

    get state() {
        return this.view.state;
    }

    turn(state, words) {
        this.view.turn(state, words);
        this.page.turned(this);
    }

    says(what) {
        this.page.says(texts.says(this.name, what));
    }

    /** Whether it would stop if the page were left. */
    get isSending() {
        return Boolean(STATES[this.state].sends);
    }

    /** Whether a label is chosen, it isn't sent yet, and nothing is to be asked before. */
    get isReady() {
        return this.state === "choosing" && this.form.chosen !== null && this.form.doubt === "";
    }

    /** The likeliest encoding of a file whose label nobody has chosen. */
    get likeliest() {
        return this.state === "choosing" && this.form.chosen === null ? this.form.choices[0].names[0] : null;
    }

    /** Remembers the upload as it is now. */
    keep() {
        if (!this.page.store.keep(this.upload)) {
            this.page.cannotRemember();
        }
    }

    leave() {
        this.course.pause();
        if (this.upload) {
            this.page.store.forget(this.upload);
        }
        this.page.leaves(this);
    }

    /** Whether it is the card of this file: of one that was chosen, or of an upload that waits for it. */
    has(file) {
        const { file: own, upload } = this;
        const known = own ? { file: own.name, size: own.size, time: own.lastModified } : upload;
        return !this.end.isReached && isFileOf(known, file);
    }

    // Choosing.

    /** Shows the file's lines under the likely labels, with a notice. */
    async look(notice) {
        put(this.parts["course-label"]);
        if (this.file.size > LARGEST) {
            return this.turn("unsendable", { alert: texts.tooLarge });
        }
        this.view.moves(null);
        this.turn("reading", { text: texts.reading });
        try {
            const found = await look(this.file, null, (share) => this.view.moves(share));
            this.form = new Choices(this.parts, this.file, found, (choice) => this.chooses(choice));
            const [first] = found.choices;
            this.view.brief(texts.likeliest(first.names[0]), first);
            this.turn("choosing", { alert: notice });
            this.page.says(texts.saysChoices(this.name, found.choices.length));
        } catch (error) {
            this.turn("unsendable", { alert: error instanceof DOMException ? texts.unreadable : String(error) });
        }
    }

    chooses(choice) {
        this.view.brief(texts.chosen(choice.names[0]), choice);
        this.page.turned(this);
    }

    /** Sends what was chosen, where it is in doubt only if that is meant. The browser says that a choice is missing. */
    send() {
        const { form } = this;
        if (form?.chosen && form.doubt !== "") {
            this.view.asks(form.doubt, texts.sendIt, texts.dontSend, () => this.begin());
        } else if (form?.chosen) {
            this.begin();
        }
    }

    begin() {
        this.made = this.form.made;
        this.form = null;
        this.course.begin();
    }

    // Going on after a reload.

    /** Asks how far a remembered upload is. */
    async ask() {
        const { upload } = this;
        put(this.parts["course-label"], texts.begun(upload.from, upload.to));
        this.view.moves(upload.offset / Math.max(1, upload.size));
        this.turn("asking", { text: texts.asking });
        try {
            const { offset, size, metadata } = await stateOf(upload.url);
            if (size !== upload.size || metadata !== upload.metadata) {
                throw new Another(upload.url);
            }
            if (offset === size) {
                const isKnown = upload.last === "acknowledged";
                upload.last = "acknowledged";
                this.keep();
                return isKnown ? this.end.show() : this.end.begin();
            }
            upload.offset = offset;
            this.view.moves(offset / size);
            return this.waitForFile(texts.unfinished(offset, size), "");
        } catch (error) {
            if (isGone(error)) {
                return this.goes(error);
            }
            if (upload.last === "acknowledged") {
                return this.end.show();
            }
            return this.waitForFile(texts.unasked, error instanceof Lost ? "" : whyOf(error));
        }
    }

    waitForFile(text, alert) {
        if (!this.file) {
            this.turn("unfinished", { text, alert });
        }
    }

    /** The upload is gone: before its last byte had left, or perhaps behind it. */
    goes(error) {
        const { last } = this.upload;
        if (!last) {
            return this.turn("gone", { alert: whyOf(error) });
        }
        return this.turn("perhaps", { alert: last === "sent" ? texts.perhaps : texts.perhapsLater });
    }

    /** Takes the file of a remembered upload: it is compared, and its lines are shown, before it is gone on with. */
    async take(file) {
        if (["gone", "perhaps"].includes(this.state)) {
            this.file = file;
            return this.look("");
        }
        const { upload } = this;
        let [same, lines] = [null, null];
        try {
            same = await isSame(file, upload.print);
            lines = (await look(file, upload.from, () => {})).lines;
        } catch {
            return this.turn("unfinished", { alert: texts.unreadable });
        }
        if (same === false) {
            return this.turn("other", { alert: texts.otherFile });
        }
        this.file = file;
        this.end.lines = lines;
        showLines(this.parts.looked, lines, upload.from);
        const alert = same === null && upload.offset > 0 ? texts.isItSame(file.name, file.size, file.lastModified) : "";
        this.turn("taken", { text: texts.stopped(upload.offset, upload.size), alert });
        return this.view.focus();
    }

    // Deleting.

    /** Deletes what is stored once that was answered with yes, and lets a label be chosen anew. */
    deletes() {
        const does = () => this.deleted();
        return this.upload.offset === 0 ? does()
            : this.view.asks(texts.sure(this.name), texts.delete, texts.keepIt, does);
    }

    async deleted() {
        this.turn("deleting", { text: texts.deleting });
        try {
            await remove(this.upload.url);
        } catch (error) {
            const why = isForbidden(error.status) ? texts.undeletableHere : whyOf(error);
            return this.turn("undeleted", { text: texts.afterUndeleted, alert: texts.undeletable(why) });
        }
        return this.startAnew();
    }

    /** Forgets the upload, and lets a label be chosen anew. Without the file the card leaves the page. */
    async startAnew() {
        if (this.upload) {
            this.page.store.forget(this.upload);
        }
        if (!this.file) {
            return this.page.leaves(this);
        }
        this.upload = null;
        await this.look("");
        return this.view.focus();
    }
}
