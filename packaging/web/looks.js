// Asks the worker to look at files.

const worker = new Worker(new URL("looker.js", import.meta.url), { type: "module" });
const asked = new Map();
let asks = 0;

/** What is found of a file: `sample`, and `choices`, or under a label its `lines`. `moves` is told how far it is. */
export function look(file, label, moves) {
    asks += 1;
    worker.postMessage({ number: asks, file, label });
    return new Promise((resolve, reject) => asked.set(asks, { resolve, reject, moves }));
}

/** Calls back if the worker can't be started here. */
export function onFailure(does) {
    worker.onerror = does;
}

worker.onmessage = ({ data: { number, share, found, error } }) => {
    const { resolve, reject, moves } = asked.get(number);
    if (share !== undefined) {
        moves(share);
        return;
    }
    asked.delete(number);
    if (found) {
        resolve(found);
    } else {
        reject(error);
    }
};
