// The protocol part of the page (packaging/web/tus.js, requests.js) without a page: `node --test tests/clients/web/`.

import assert from "node:assert/strict";
import { test } from "node:test";
import { served } from "./server.mjs";
import { patience } from "../../../packaging/web/requests.js";
import { Another, Lost, Refusal, Stranger, create, metadataOf, pieces, remove, send, stateOf, textOf } from
    "../../../packaging/web/tus.js";
import { readStored } from "../../../packaging/web/stored.js";

const metadata = metadataOf({ from: "koi8-r", filename: "é.txt" });
const file = new Blob([Uint8Array.from({ length: 500_000 }, (_, place) => place % 251)]);
const bytes = Buffer.from(await file.arrayBuffer());
const never = new AbortController().signal;
Object.assign(pieces, { most: 200_000, least: 20_000 });
patience.silence = 300;

/** Sends the file to a gateway: what came of it, and what it was told. */
async function sends(gateway, upload = {}, told = {}) {
    const known = { url: gateway.url, metadata, last: null, ...upload };
    const heard = { stored: [], waits: [], last: [] };
    const listener = {
        stored: (offset) => heard.stored.push(offset),
        changed: () => heard.last.push(known.last),
        waits: async (_time, error) => heard.waits.push(error),
        ...told,
    };
    const outcome = await send(known, file, told.signal ?? never, listener).catch((error) => error);
    return { outcome, heard, upload: known };
}

function count(gateway, method) {
    return gateway.asked.filter((it) => it.method === method).length;
}

test("a file is sent in pieces, and what is remembered of its end follows", () => served({ size: 500_000, metadata },
    async (gateway) => {
        const { outcome, heard, upload } = await sends(gateway);
        assert.equal(outcome, "complete");
        assert.deepEqual(heard.stored, [0, 200_000, 400_000, 500_000]);
        assert.deepEqual([heard.last, upload.last], [["sent"], "acknowledged"]);
        assert.deepEqual(gateway.data, bytes);
    }));

test("a cut piece isn't sent again as far as it came, and the next ones are smaller, then larger", () => {
    let cuts = 2;
    const answers = ({ method }) => (method === "PATCH" && cuts-- > 0 ? "cut" : null);
    const accepts = (body) => body.subarray(0, 50_001);
    return served({ size: 500_000, metadata, answers, accepts }, async (gateway) => {
        const { outcome, heard } = await sends(gateway);
        assert.equal(outcome, "complete");
        assert.deepEqual(gateway.data, bytes);
        const lengths = gateway.asked.filter((it) => it.method === "PATCH").map((it) => it.length);
        assert.deepEqual(lengths, [200_000, 100_000, 50_000, 100_000, 200_000, 49_998]);
        assert.ok(heard.waits.every((it) => it instanceof Lost));
    });
});

test("a request that nobody answers ends by silence, down to the least piece", () => {
    const answers = ({ method, length }) => (method === "PATCH" && length > 20_000 ? "silence" : null);
    pieces.quick = 0;
    return served({ size: 500_000, metadata, answers }, async (gateway) => {
        const { outcome } = await sends(gateway);
        assert.equal(outcome, "complete");
        assert.deepEqual(gateway.data, bytes);
        const lengths = gateway.asked.filter((it) => it.method === "PATCH").map((it) => it.length);
        assert.deepEqual(lengths.slice(0, 6), [200_000, 100_000, 50_000, 25_000, 20_000, 20_000]);
    }).finally(() => {
        pieces.quick = 10_000;
    });
});

test("404 behind the last byte is 'perhaps', and before it the upload is gone", async () => {
    for (const [last, wanted] of [["sent", "perhaps"], ["acknowledged", "perhaps"], [null, Refusal]]) {
        const { outcome } = await served({ size: 500_000, metadata }, (gateway) => {
            gateway.isGone = true;
            return sends(gateway, { last });
        });
        assert.ok(outcome === wanted || (outcome instanceof Refusal && outcome.number === 8), String(outcome));
    }
});

test("a last piece that was refused doesn't count as sent, and one whose reply was lost does", async () => {
    const isLast = ({ method, length }) => method === "PATCH" && length === 100_000;
    const refused = (one) => (isLast(one) ? [507, { "X-Refusal": "17" }] : null);
    const first = await served({ size: 500_000, metadata, answers: refused }, sends);
    assert.deepEqual([first.outcome.number, first.upload.last], [17, null]);
    const lost = (one, gateway) => {
        gateway.isGone ||= isLast(one);
        return isLast(one) ? "cut" : null;
    };
    const second = await served({ size: 500_000, metadata, answers: lost, accepts: () => Buffer.alloc(0) }, sends);
    assert.deepEqual([second.outcome, second.upload.last], ["perhaps", "sent"]);
    // A proxy's refusal says nothing of what the gateway has.
    const proxy = (one) => (isLast(one) ? [500] : null);
    const third = await served({ size: 500_000, metadata, answers: proxy }, sends);
    assert.deepEqual([third.outcome.status, third.upload.last], [500, "sent"]);
});

test("a page to sign in is no gateway, whatever its status", async () => {
    for (const method of ["POST", "HEAD", "PATCH", "DELETE", "GET"]) {
        const answers = (one) => (one.method === method ? [200, { "Content-Type": "text/html" }, "Sign in"] : null);
        await served({ size: 500_000, metadata, answers }, async (gateway) => {
            const asks = {
                POST: () => create(gateway.url, 1, metadata, never, () => {}),
                HEAD: () => stateOf(gateway.url),
                PATCH: async () => {
                    throw (await sends(gateway)).outcome;
                },
                DELETE: () => remove(gateway.url),
                GET: () => textOf(gateway.url),
            };
            await assert.rejects(asks[method], Stranger, method);
        });
    }
});

test("a redirect isn't followed", () => served({ answers: () => [302, { Location: "/login" }] }, async (gateway) => {
    await assert.rejects(() => stateOf(gateway.url), Refusal);
    assert.equal(gateway.asked.length, 1);
}));

test("another upload of the number gets no byte", async () => {
    for (const other of [{ size: 499_999, metadata }, { size: 500_000, metadata: "from eA==" }]) {
        await served(other, async (gateway) => {
            assert.ok((await sends(gateway)).outcome instanceof Another);
            assert.equal(count(gateway, "PATCH"), 0);
        });
    }
});

test("409 passes, and five in a row say that somebody else sends it", async () => {
    for (const [many, wanted] of [[4, "complete"], [5, 409]]) {
        let left = many;
        const answers = ({ method }) => (method === "PATCH" && left-- > 0 ? [409, { "X-Refusal": "9" }] : null);
        const { outcome } = await served({ size: 500_000, metadata, answers }, sends);
        assert.equal(outcome.status ?? outcome, wanted);
    }
});

test("what `stored` throws ends it: not a byte more is sent", () => served({ size: 500_000, metadata },
    async (gateway) => {
        const fails = new Error("another file");
        const stored = (offset) => {
            if (offset > 0) {
                throw fails;
            }
        };
        assert.equal((await sends(gateway, {}, { stored })).outcome, fails);
        assert.equal(count(gateway, "PATCH"), 1);
    }));

test("a piece that was read isn't sent if `reads` throws", () => served({ size: 500_000, metadata }, async (gateway) => {
    const fails = new Error("another file");
    const reads = () => Promise.reject(fails);
    const { outcome, upload } = await sends(gateway, {}, { reads });
    assert.deepEqual([outcome, upload.last, count(gateway, "PATCH")], [fails, null, 0]);
}));

test("a pause ends a request at once", () => served({ size: 500_000, metadata, answers: ({ method }) =>
    (method === "PATCH" ? "silence" : null) }, async (gateway) => {
    const ends = new AbortController();
    setTimeout(() => ends.abort(), 100);
    const began = performance.now();
    const { outcome } = await sends(gateway, {}, { signal: ends.signal });
    assert.equal(outcome.name, "AbortError");
    assert.ok(performance.now() - began < 280);
}));

test("an upload is deleted, also one that is gone, and nothing else counts as gone", async () => {
    await served({}, async (gateway) => {
        await remove(gateway.url);
        await remove(gateway.url);
    });
    for (const status of [401, 403, 404]) {
        await served({ answers: () => [status] }, (gateway) => assert.rejects(() => remove(gateway.url), { status }));
    }
});

test("a text that stops coming is lost", async () => {
    const answers = () => [200, { "Tus-Resumable": "1.0.0", "Content-Length": "10" }, "abc"];
    await served({ answers }, async (gateway) => {
        const { parts } = await textOf(gateway.url);
        await assert.rejects(() => readStored(parts, "UTF-8"), Lost);
    });
});
