// What a card shows: its element, by its state alone. The steps that its buttons lead to are the card's.

import { made, put, showLines } from "./dom.js";
import { fewOf } from "./preview.js";
import { STATES } from "./states.js";
import { texts } from "./texts.js";

export class View {
    /** `steps` are by the names of the buttons. */
    constructor(card, steps) {
        this.card = card;
        this.state = null;
        this.isFolded = false;
        // Whether it is one of many.
        this.mayFold = false;
        const { element, parts } = made("card");
        this.element = element;
        this.parts = parts;
        for (const [part, does] of Object.entries({ ...steps, fold: () => this.fold(!this.isFolded) })) {
            parts[part].onclick = does;
        }
        parts.no.onclick = () => {
            parts.sure.hidden = true;
            this.show();
            this.focus();
        };
    }

    /** Names the card, and its parts, for a screen reader too. */
    name(name, size, time, number) {
        const { title, about, progress, fold, sure, question } = this.parts;
        title.textContent = name;
        title.id = `card-${number}`;
        this.element.setAttribute("aria-labelledby", title.id);
        about.textContent = texts.about(size, time);
        progress.setAttribute("aria-label", texts.progressOf(name));
        fold.id = `fold-${number}`;
        fold.setAttribute("aria-labelledby", `${fold.id} ${title.id}`);
        question.id = `question-${number}`;
        sure.setAttribute("aria-labelledby", question.id);
    }

    /** Goes to another state: a focus that was in the card stays there, and none is taken from elsewhere. */
    turn(state, { text = "", alert = "" } = {}) {
        const { parts } = this;
        this.state = state;
        this.element.dataset.state = state;
        put(parts.alert, alert);
        put(parts["state-text"], text);
        parts.progress.hidden = !STATES[state].moves;
        parts.look.hidden = state !== "taken";
        parts.sure.hidden = true;
        this.show();
    }

    /** Shows the parts and the buttons of the state. */
    show() {
        const { parts, element, isFolded } = this;
        const had = element.contains(document.activeElement) ? document.activeElement : null;
        const { part, buttons } = STATES[this.state];
        parts.form.hidden = part !== "form" || isFolded;
        parts.brief.hidden = part !== "form" || !isFolded;
        parts.course.hidden = part !== "course";
        parts.end.hidden = part !== "end";
        parts["end-more"].hidden = isFolded;
        parts.fold.textContent = isFolded ? texts.unfold : texts.fold;
        parts.fold.setAttribute("aria-expanded", String(!isFolded));
        const shown = buttons(this.card);
        parts.buttons.hidden = shown.length === 0;
        for (const it of parts.buttons.children) {
            it.hidden = !shown.includes(it.dataset.part);
        }
        if (had?.closest("[hidden]")) {
            this.focus();
        }
    }

    fold(isFolded) {
        this.isFolded = isFolded;
        this.show();
    }

    /** Shows in few lines what is likeliest, or what was chosen. */
    brief(title, { names, lines }) {
        this.parts["brief-title"].textContent = title;
        showLines(this.parts["brief-lines"], fewOf(lines), names[0]);
    }

    /** Asks whether a step is meant, which is done only after the answer `yes`. */
    asks(question, yes, no, does) {
        const { parts } = this;
        parts.question.textContent = question;
        parts.yes.textContent = yes;
        parts.no.textContent = no;
        parts.yes.onclick = does;
        parts.sure.hidden = false;
        parts.buttons.hidden = true;
        parts.sure.focus();
    }

    get isAsking() {
        return !this.parts.sure.hidden;
    }

    /** Shows how far it is: of 1, or that it isn't known how far. */
    moves(share) {
        if (share === null) {
            this.parts.progress.removeAttribute("value");
        } else {
            this.parts.progress.value = share;
        }
    }

    focus() {
        this.parts.title.focus();
    }
}
