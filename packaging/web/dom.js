// Helpers over the document: texts into their places, copies of templates, and lines with their marks.

import { LANGUAGES } from "./labels.js";
import { texts } from "./texts.js";

/** Fills in the texts of a page or a part of it. */
export function fill(root) {
    for (const it of root.querySelectorAll("[data-text]")) {
        it.textContent = texts[it.dataset.text];
    }
}

/** A copy of a template, and its parts by their names. */
export function made(id) {
    const element = document.getElementById(id).content.firstElementChild.cloneNode(true);
    fill(element);
    return { element, parts: partsOf(element) };
}

/** The parts of an element by their names. */
export function partsOf(element) {
    return Object.fromEntries(Array.from(element.querySelectorAll("[data-part]"), (it) => [it.dataset.part, it]));
}

/** Shows a text, or hides its element where there is none. */
export function put(element, text = "") {
    element.textContent = text;
    element.hidden = text === "";
}

export function fillSelect(select, names, chosen) {
    select.replaceChildren(...names.map((it) => new Option(it, it, false, it === chosen)));
}

/** Shows lines of an encoding: what is lost or can't be seen is marked, for the eye and for a screen reader. */
export function showLines(element, lines, encoding) {
    // Where it may be any language, it isn't the page's.
    element.lang = LANGUAGES[encoding] ?? "";
    const shown = lines.map((line) => (line === null ? [marked("gap", "⋯", texts.leftOut)] : line.map(runOf)));
    element.replaceChildren(...shown.flatMap((line, place) => (place === 0 ? line : ["\n", ...line])));
}

function runOf({ kind, text }) {
    if (kind === "plain") {
        return text;
    }
    return kind === "lost" ? marked("lost", text, texts.lostRun(text)) : marked("control", text, text);
}

/** A mark: what the eye sees, and what a screen reader says. */
function marked(kind, seen, said) {
    const [mark, eye, voice] = ["mark", "span", "span"].map((it) => document.createElement(it));
    [mark.className, voice.className, eye.textContent, voice.textContent] = [kind, "unseen", seen, ` ${said} `];
    eye.setAttribute("aria-hidden", "true");
    mark.append(eye, voice);
    return mark;
}
