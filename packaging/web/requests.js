// The requests of the protocol, by `fetch`, and by `XMLHttpRequest` where it is to be seen how far a body is. No DOM.

/**
 * For how many milliseconds a request may stand still, with no byte of a body moving and no reply; and when the page
 * asks again where there was no room.
 */
export const patience = { silence: 60_000, room: 60_000 };

// The statuses that a proxy gives if the gateway is away or the proxy has too much to do: they pass.
const PASSING = [408, 425, 429, 502, 503, 504];

/** The server refused: its status, and the gateway's number (`X-Refusal`), which is 0 if a proxy refused. */
export class Refusal extends Error {
    constructor(status, number = 0) {
        super(`status ${status}, refusal ${number}`);
        Object.assign(this, { status, number });
    }
}

/** No reply came, or one that says that the gateway is away for now, which has a `status`. */
export class Lost extends Error {
    constructor(message, status = null) {
        super(message);
        this.status = status;
    }
}

/** Something else than the gateway answered, such as a page to sign in. */
export class Stranger extends Error {}

/** The gateway's reply to a request without a body. Another one than a success is thrown. */
export async function ask(method, url, { headers = {}, signal, watch = watched(signal) }) {
    try {
        const words = { method, headers, signal: watch.signal, cache: "no-store", redirect: "manual" };
        return checked(await fetch(url, words));
    } catch (error) {
        watch.stop();
        throw watch.why(error);
    } finally {
        // What is left of a text is still to come.
        if (method !== "GET") {
            watch.stop();
        }
    }
}

/** The gateway's reply to a PATCH, which tells how much of its body has left. */
export function patch(url, headers, body, signal, moves) {
    const watch = watched(signal);
    const request = new XMLHttpRequest();
    const done = new Promise((resolve, reject) => {
        request.open("PATCH", url);
        Object.entries(headers).forEach((it) => request.setRequestHeader(...it));
        request.upload.onprogress = ({ loaded }) => {
            watch.moved();
            moves?.(loaded);
        };
        request.onload = () => resolve({
            status: request.status,
            ok: request.status >= 200 && request.status < 300,
            headers: { get: (name) => request.getResponseHeader(name) },
        });
        request.onerror = () => reject(new Lost("no reply"));
        request.onabort = () => reject(watch.why(new Lost("ended")));
        watch.signal.addEventListener("abort", () => request.abort());
        request.send(body);
    });
    return done.then(checked).finally(watch.stop);
}

/** Ends a request where nothing has moved for too long, or by another signal. */
export function watched(signal) {
    const ends = new AbortController();
    const pass = () => ends.abort();
    let timer = null;
    const stop = () => {
        clearTimeout(timer);
        signal?.removeEventListener("abort", pass);
    };
    const moved = () => {
        clearTimeout(timer);
        timer = setTimeout(pass, patience.silence);
    };
    signal?.throwIfAborted();
    signal?.addEventListener("abort", pass);
    moved();
    /** What a failure is: a pause of the user's, one that says itself what it is, or a lost line. */
    const why = (error) => {
        const known = [Lost, Refusal, Stranger].some((it) => error instanceof it);
        return signal?.aborted ? signal.reason : known ? error : new Lost(error.message);
    };
    return { signal: ends.signal, moved, stop, why };
}

/** A reply of the gateway's, if it is one and says that what was asked is done. */
function checked(reply) {
    if (PASSING.includes(reply.status)) {
        throw new Lost(`status ${reply.status}`, reply.status);
    }
    if (!reply.ok) {
        throw new Refusal(reply.status, Number(reply.headers.get("X-Refusal") ?? 0));
    }
    if (reply.headers.get("Tus-Resumable") === null) {
        throw new Stranger(`status ${reply.status}`);
    }
    return reply;
}
