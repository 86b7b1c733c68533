// A card's states, and what is shown in each. A card has one of them at a time, and nothing else says what it shows.

/** What deletes what is stored, or where nothing is, just begins anew. */
const quits = ({ upload }) => (upload ? "give-up" : "anew");

/** What shows less of a card, or all: where there are many. */
const folds = ({ mayFold }) => (mayFold ? ["fold"] : []);

/**
 * Each state: the `part` of the card that is shown, its `buttons`, whether the bar is shown (`moves`), and whether the
 * browser asks before the page is left (`sends`).
 */
export const STATES = {
    // Its file is looked at, its label is chosen, or it can't be sent at all.
    reading: { part: "course", buttons: () => ["remove"], moves: true },
    choosing: { part: "form", buttons: ({ view }) => [...folds(view), "remove"] },
    unsendable: { part: "course", buttons: () => ["remove"] },
    // It is sent, or goes on by itself.
    queued: { part: "course", buttons: () => ["pause"], moves: true, sends: true },
    creating: { part: "course", buttons: () => ["pause"], moves: true, sends: true },
    sending: { part: "course", buttons: () => ["pause"], moves: true, sends: true },
    waiting: { part: "course", buttons: () => ["pause"], moves: true, sends: true },
    full: { part: "course", buttons: (card) => ["go-on", quits(card)], moves: true, sends: true },
    // It stopped: by the user, by something that passes, by something that doesn't, by its file.
    paused: { part: "course", buttons: (card) => ["go-on", quits(card)], moves: true },
    stopped: { part: "course", buttons: (card) => ["go-on", quits(card)], moves: true },
    refused: { part: "course", buttons: (card) => [quits(card)], moves: true },
    unreadable: { part: "course", buttons: () => ["again", "give-up"], moves: true },
    // It is remembered, and waits for its file; a file was taken; it was another one.
    asking: { part: "course", buttons: () => [], moves: true },
    unfinished: { part: "course", buttons: () => ["again", "give-up"], moves: true },
    taken: { part: "course", buttons: () => ["go-on", "other-label"], moves: true },
    other: { part: "course", buttons: () => ["again", "give-up"], moves: true },
    // What is stored is deleted, couldn't be, or is gone: before the last byte, or perhaps behind it.
    deleting: { part: "course", buttons: () => [] },
    undeleted: { part: "course", buttons: ({ file }) => ["give-up", ...(file ? ["anew"] : []), "remove"] },
    gone: { part: "course", buttons: ({ file }) => [file ? "anew" : "again", "remove"] },
    perhaps: { part: "course", buttons: () => ["send-again", "remove"] },
    // It is sent: whether to read it back, reading, the end.
    offered: { part: "course", buttons: () => ["read-back", "skip"], moves: true },
    checking: { part: "course", buttons: () => ["skip"], moves: true },
    done: { part: "end", buttons: ({ view, end }) => [...folds(view), ...end.reads, "wrong", "remove"] },
};
