// The page: files that are chosen or dropped, and the uploads that were begun here before. Each has a card.

import { Card } from "./card.js";
import { fill, partsOf } from "./dom.js";
import { List } from "./list.js";
import { onFailure } from "./looks.js";
import { isSame, printOf } from "./prints.js";
import { Queue } from "./queue.js";
import { Store, hasChanged, isFileOf } from "./store.js";
import { texts } from "./texts.js";

// How many files are sent at once: more would share a slow line until no piece comes through.
const AT_ONCE = 2;
// Of more files than so many that are chosen together few lines are shown at first.
const UNFOLDED = 4;
const cards = [];
const files = document.getElementById("files");
const parts = partsOf(document.getElementById("list"));
const says = document.getElementById("says");
// Without a name and a password, which a page's own address may have.
const here = location.origin + location.pathname;
const endpoint = new URL(document.querySelector("meta[name=endpoint]").content, here).href;

const page = {
    endpoint,
    store: new Store(endpoint),
    queue: new Queue(AT_ONCE),

    /** Says something to a screen reader. */
    says(what) {
        says.textContent = what;
    },

    /** Opens the choice of files. */
    choose() {
        files.click();
    },

    /** A card has another state. */
    turned() {
        list.changed();
    },

    /** All of a card's file is on the server: scripts beside the page's may listen to that. */
    sent({ upload: { url, file, size, from, to } }) {
        document.dispatchEvent(new CustomEvent("wovelatsa:done", { detail: { url, file, size, from, to } }));
    },

    leaves(card) {
        const place = cards.indexOf(card);
        if (place >= 0) {
            cards.splice(place, 1);
            const had = card.view.element.contains(document.activeElement);
            card.view.element.remove();
            list.changed();
            if (had) {
                files.focus();
            }
        }
    },

    cannotRemember() {
        document.getElementById("not-remembered").hidden = false;
    },
};

const list = new List(parts, cards, page.store);

function add(card, isFirst) {
    cards[isFirst ? "unshift" : "push"](card);
    parts.cards[isFirst ? "prepend" : "append"](card.view.element);
}

/** Takes a file: to the card that has it or waits for it, or to one of its own. */
async function take(file, isFolded) {
    const known = cards.find((it) => it.has(file));
    if (known && !known.file) {
        known.take(file);
        return known;
    }
    if (known && (await areSame(known.file, file))) {
        return known;
    }
    const card = new Card(page, file, null);
    const notice = known ? texts.twin : noticeOf(file);
    add(card, true);
    card.view.isFolded = isFolded;
    card.view.mayFold = isFolded;
    card.look(notice);
    return card;
}

/** Whether two files of the same name, size and time are the same. Where that can't be told, each has its card. */
async function areSame(one, other) {
    try {
        return one.size === 0 || (await isSame(other, await printOf(one, one.size))) === true;
    } catch {
        return false;
    }
}

/** What is to be known of a file that was sent before, or changed since a part of it was. */
function noticeOf(file) {
    const done = cards.find((it) => it.end.isReached && isFileOf(it.upload, file));
    const old = cards.find((it) => it.upload && !it.end.isReached && hasChanged(it.upload, file));
    return done ? texts.already(done.upload.begun) : old ? texts.changed(old.upload.begun) : "";
}

async function takeAll(chosen) {
    let last = null;
    // Each new card goes to the top, and so the last file first.
    for (const file of chosen.reverse()) {
        last = await take(file, chosen.length > UNFOLDED);
    }
    last?.view.focus();
}

files.addEventListener("change", () => {
    takeAll(Array.from(files.files));
    // The same file may be chosen once more.
    files.value = "";
});
document.addEventListener("dragover", (event) => {
    event.preventDefault();
    document.body.classList.add("over");
});
document.addEventListener("dragleave", (event) => {
    if (!event.relatedTarget) {
        document.body.classList.remove("over");
    }
});
document.addEventListener("drop", (event) => {
    event.preventDefault();
    document.body.classList.remove("over");
    takeAll(Array.from(event.dataTransfer.files));
});
addEventListener("beforeunload", (event) => {
    if (cards.some((it) => it.isSending)) {
        event.preventDefault();
    }
});

onFailure(() => {
    document.getElementById("not-begun").hidden = false;
});
document.documentElement.lang = texts.language;
document.documentElement.dir = texts.direction;
document.title = texts.title;
fill(document);
const uploads = page.store.uploads();
for (const upload of uploads) {
    const card = new Card(page, null, upload);
    add(card, false);
    card.view.mayFold = uploads.length > UNFOLDED;
    card.view.isFolded = card.view.mayFold;
    card.ask();
}
document.getElementById("not-begun").hidden = true;
