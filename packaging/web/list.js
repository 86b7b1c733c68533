// What is done to many cards at once: a label for all that it is likeliest for, sending, removing, forgetting.

import { texts } from "./texts.js";

// How many kinds have a button of their own.
const KINDS = 3;

export class List {
    /** `parts` are the elements by their names; `cards` the page's; `store` what is remembered. */
    constructor(parts, cards, store) {
        this.parts = parts;
        this.cards = cards;
        this.store = store;
        this.isDue = false;
        this.shownKinds = "";
        parts["send-all"].onclick = () => this.does(this.ready, (it) => it.send());
        parts["remove-done"].onclick = () => this.does(this.done, (it) => it.leave());
        parts["forget-all"].onclick = () => this.asks(true);
        parts["forget"].onclick = () => this.forgets();
        parts["keep-all"].onclick = () => this.asks(false);
    }

    get ready() {
        return this.cards.filter((it) => it.isReady);
    }

    get done() {
        return this.cards.filter((it) => it.state === "done");
    }

    /** What is remembered and may be forgotten: what isn't being sent just now. */
    get remembered() {
        return this.cards.filter((it) => it.upload && !it.isSending);
    }

    /** Shows what there is to do, once for all that changes at a time. */
    changed() {
        if (!this.isDue) {
            this.isDue = true;
            queueMicrotask(() => {
                this.isDue = false;
                this.show();
            });
        }
    }

    show() {
        const { parts, cards, ready, done, remembered } = this;
        parts["list-title"].hidden = cards.length === 0;
        this.showKinds();
        label(parts["send-all"], ready.length > 1 ? texts.sendAll(ready.length) : "");
        label(parts["remove-done"], done.length > 1 ? texts.removeDone(done.length) : "");
        parts.remembered.hidden = remembered.length === 0;
        label(parts["forget-all"], texts.forgetAll(remembered.length));
    }

    /** A button for each label that is the likeliest of several files, none of which has one yet. */
    showKinds() {
        const kinds = new Map();
        for (const name of this.cards.map((it) => it.likeliest).filter((it) => it)) {
            kinds.set(name, (kinds.get(name) ?? 0) + 1);
        }
        const most = Array.from(kinds).filter((it) => it[1] > 1).sort((one, other) => other[1] - one[1]);
        const shown = String(most);
        if (shown === this.shownKinds) {
            // A button that has the focus keeps it.
            return;
        }
        this.shownKinds = shown;
        const buttons = most.slice(0, KINDS).map(([name, many]) => {
            const button = document.createElement("button");
            button.type = "button";
            button.className = "quiet";
            button.textContent = texts.forThese(name, many);
            button.onclick = () => this.chooses(name);
            return button;
        });
        this.parts.kinds.hidden = buttons.length === 0;
        this.parts["kind-buttons"].replaceChildren(...buttons);
    }

    chooses(name) {
        this.does(this.cards.filter((it) => it.likeliest === name), (it) => it.form.pick(name));
    }

    /** Does something to some cards. The button that was pressed may be gone then, so the title gets the focus. */
    does(cards, what) {
        cards.forEach(what);
        this.parts["list-title"].focus();
    }

    asks(isAsked) {
        this.parts["forget-all"].hidden = isAsked;
        this.parts["forget-sure"].hidden = !isAsked;
        this.parts[isAsked ? "keep-all" : "forget-all"].focus();
    }

    /** Forgets all entries, also those that can't be read, and remembers once more what is being sent. */
    forgets() {
        this.store.forgetAll();
        this.remembered.forEach((it) => it.leave());
        this.cards.filter((it) => it.upload).forEach((it) => it.keep());
        this.asks(false);
        this.changed();
    }
}

function label(button, text) {
    button.textContent = text;
    button.hidden = text === "";
}
