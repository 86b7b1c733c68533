// The form of a file that isn't sent yet: its lines under each likely label, and how it is to be stored. A choice
// counts once its own lines are shown and somebody chose it; nothing is chosen beforehand.

import { fillSelect, made, put, showLines } from "./dom.js";
import { OUTPUTS, decoded, losses } from "./labels.js";
import { widerOf } from "./preview.js";
import { lacking, storedSize } from "./repertoire.js";
import { texts } from "./texts.js";

// How many choices are shown at first.
const LIKELY = 5;
// The text of the largest spool.
const LARGEST_TEXT = 1 << 28;
let forms = 0;

export class Choices {
    /** Shows what was found of a file in the parts of its card. `chooses` is told of each choice. */
    constructor(parts, file, { sample, choices }, chooses) {
        forms += 1;
        this.number = forms;
        this.parts = parts;
        this.file = file;
        this.sample = sample;
        this.choices = choices;
        this.chooses = chooses;
        this.chosen = null;
        // The text of the choice, of more than its lines are of.
        this.text = "";
        this.elements = choices.map((choice, place) => this.elementOf(choice, place));
        this.showChoices();
        fillSelect(parts.to, OUTPUTS, "UTF-8");
        parts.name.value = file.name;
        parts.to.onchange = () => this.showStored();
        parts.more.onclick = () => this.showOthers(parts.others.hidden);
        this.showStored();
        this.showNotes();
    }

    /** What is to be sent as what: null while nothing is chosen. */
    get made() {
        const { label, to, mode, name } = this.parts;
        return this.chosen && {
            from: label.value,
            to: to.value,
            mode: mode.value,
            name: name.value.trim(),
            lines: this.chosen.lines,
        };
    }

    /** Chooses the lines of a label, as by its button. */
    pick(name) {
        const place = this.choices.findIndex((it) => it.names.includes(name));
        const radio = this.elements[place].querySelector("input");
        radio.checked = true;
        return this.choose(this.choices[place]);
    }

    showChoices() {
        const { likely, others, more } = this.parts;
        likely.replaceChildren(...this.elements.slice(0, LIKELY));
        others.replaceChildren(...this.elements.slice(LIKELY));
        more.hidden = this.elements.length <= LIKELY;
        this.showOthers(false);
    }

    showOthers(shown) {
        const { others, more } = this.parts;
        others.hidden = !shown;
        more.textContent = shown ? texts.fewer : texts.more(others.children.length);
        more.setAttribute("aria-expanded", String(shown));
    }

    elementOf(choice, place) {
        const { element, parts } = made("choice");
        const id = `choice-${this.number}-${place}`;
        parts.radio.name = `choice-${this.number}`;
        parts.radio.setAttribute("aria-describedby", `${id}-told`);
        parts.told.id = `${id}-told`;
        parts.names.textContent = choice.names[0];
        put(parts.told, toldOf(choice, choice.lost, this.isWhole));
        const lines = choice.isEmpty ? [[{ kind: "plain", text: texts.empty }]] : choice.lines;
        showLines(parts.lines, lines, choice.names[0]);
        parts.radio.onchange = () => this.choose(choice);
        parts.lines.onclick = () => parts.radio.click();
        return element;
    }

    /** Says what may be wrong with the file, and how much of it was looked at. */
    showNotes() {
        const { controls } = this.choices[0];
        put(this.parts.binary, controls > 0 ? texts.binary(controls) : "");
        put(this.parts.note, this.isWhole ? "" : texts.sampleOnly);
    }

    /** Why it is perhaps not to be sent as it is. */
    get doubt() {
        return !this.parts.large.hidden ? texts.doubtLarge : this.chosen?.controls > 0 ? texts.doubtBinary : "";
    }

    get isWhole() {
        return this.sample.start && this.sample.end;
    }

    /** Shows what is known of a choice, also of more of the file than its lines were found in. */
    async choose(choice) {
        this.chosen = choice;
        const { label, labelled } = this.parts;
        fillSelect(label, choice.names, choice.names[0]);
        // Where the file is longer than what was looked at, they may differ behind it.
        labelled.hidden = this.isWhole || choice.names.length === 1;
        this.chooses(choice);
        const wider = await widerOf(this.file, this.sample).catch(() => this.sample);
        if (this.chosen === choice) {
            this.wider = wider;
            this.text = decoded(choice.names[0], wider.bytes, wider);
            const told = this.elements[this.choices.indexOf(choice)].querySelector("[data-part=told]");
            put(told, toldOf(choice, losses(this.text), wider.start && wider.end));
            this.showStored();
        }
    }

    /** Shows what of the chosen text the encoding of the stored one lacks, and whether that is too large. */
    showStored() {
        const { to, lacks, moded, large } = this.parts;
        moded.hidden = to.value === "UTF-8";
        put(lacks);
        put(large);
        if (this.text !== "") {
            const { bytes, start, end } = this.wider;
            const many = lacking(to.value, this.text);
            const size = (this.file.size * storedSize(to.value, this.text)) / bytes.length;
            put(lacks, moded.hidden ? "" : texts.lacks(many, to.value, start && end));
            put(large, size > LARGEST_TEXT ? texts.large(size) : "");
        }
    }
}

/** What is told of a choice: only what is lost, since many a wrong one loses nothing. */
function toldOf({ names, marked, isPlain }, lost, isWhole) {
    const others = names.slice(1);
    const also = marked ? texts.byMark
        : isPlain && names.includes("UTF-8") ? texts.plain : others.length > 0 ? texts.also(others) : "";
    return [also, texts.lostHere(lost, isWhole)].filter((it) => it !== "").join("; ");
}
