// Who may send: so many at once, the others in the order in which they came. No DOM.

export class Queue {
    constructor(places) {
        this.free = places;
        this.waiting = [];
    }

    /** Does something at its turn. `waits` is told how many are before it; `signal` ends its waiting. */
    async turn(signal, waits, does) {
        await this.enter(signal, waits);
        try {
            return await does();
        } finally {
            this.free += 1;
            this.next();
        }
    }

    enter(signal, waits) {
        return new Promise((resolve, reject) => {
            const one = { waits, enter: resolve };
            this.waiting.push(one);
            signal.addEventListener("abort", () => {
                this.waiting = this.waiting.filter((it) => it !== one);
                this.next();
                reject(signal.reason);
            });
            this.next();
        });
    }

    /** Lets in as many as there are places, and tells the others where they are. */
    next() {
        while (this.free > 0 && this.waiting.length > 0) {
            this.free -= 1;
            this.waiting.shift().enter();
        }
        this.waiting.forEach((it, place) => it.waits(place));
    }
}
