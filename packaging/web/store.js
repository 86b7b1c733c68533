// What is remembered over a reload and after the machine was off: of each upload its URL, metadata, label and names,
// how far it is, and of its file the size, the time and two digests. The bytes aren't: the file has to be chosen again.

/** What is remembered for one endpoint. Other pages of the same origin have their own. */
export class Store {
    constructor(endpoint) {
        this.prefix = `wovelatsa ${endpoint} `;
    }

    keys() {
        return Object.keys(localStorage).filter((it) => it.startsWith(this.prefix));
    }

    /** The uploads that were begun here, the newest first. An entry that can't be read hides no other one. */
    uploads() {
        try {
            const found = this.keys().map((it) => parsed(localStorage.getItem(it)));
            return found.filter((it) => it !== null).sort((one, other) => other.begun - one.begun);
        } catch {
            return [];
        }
    }

    /** Remembers an upload: whether the browser lets a page do so. */
    keep(upload) {
        try {
            localStorage.setItem(this.prefix + upload.url, JSON.stringify(upload));
            return true;
        } catch {
            return false;
        }
    }

    forget(upload) {
        try {
            localStorage.removeItem(this.prefix + upload.url);
        } catch {
            // Nothing was remembered.
        }
    }

    forgetAll() {
        try {
            this.keys().forEach((it) => localStorage.removeItem(it));
        } catch {
            // Nothing was remembered.
        }
    }
}

const TEXTS = ["url", "metadata", "from", "to", "file"];
const NUMBERS = ["size", "time", "begun", "offset"];

/** An entry, if it is one of an upload. */
function parsed(entry) {
    try {
        const it = JSON.parse(entry);
        const whole = TEXTS.every((name) => typeof it[name] === "string") && NUMBERS.every((name) => it[name] >= 0);
        return whole ? it : null;
    } catch {
        return null;
    }
}

/** Whether a file is the one of an upload, as far as its name, size and time say. */
export function isFileOf(upload, file) {
    return upload.file === file.name && upload.size === file.size && upload.time === file.lastModified;
}

/** Whether a file has the name of an upload's and has changed since. */
export function hasChanged(upload, file) {
    return upload.file === file.name && !isFileOf(upload, file);
}
