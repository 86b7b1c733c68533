// What the tests of the protocol part share: a server on 127.0.0.1 that answers as a test wants, and the browser's
// `XMLHttpRequest` over node's client, as far as the page uses it.

import http from "node:http";

/**
 * A gateway of one upload in memory, for `does` at its port. `asked` has each request; `answers` may take one by
 * itself: a status and headers, "silence" for no reply, "cut" for a closed connection, null for the gateway's reply.
 */
export async function served({ size, metadata, answers = () => null, accepts = (body) => body }, does) {
    const gateway = { url: "", data: Buffer.alloc(0), asked: [], isGone: false };
    const server = http.createServer(async (request, reply) => {
        const body = Buffer.concat(await request.toArray());
        const offset = Number(request.headers["upload-offset"] ?? 0);
        const one = { method: request.method, offset, length: body.length, headers: request.headers };
        gateway.asked.push(one);
        const own = answers(one, gateway);
        if (own === "silence") {
            return;
        }
        if (own === "cut") {
            gateway.data = Buffer.concat([gateway.data, accepts(body)]);
            request.socket.destroy();
            return;
        }
        const [status, headers = {}, text = ""] = own ?? replyTo(gateway, one, body, { size, metadata });
        reply.writeHead(status, own ? headers : { "Tus-Resumable": "1.0.0", ...headers }).end(text);
    });
    await new Promise((done) => server.listen(0, "127.0.0.1", done));
    gateway.url = `http://127.0.0.1:${server.address().port}/files/1`;
    try {
        return await does(gateway);
    } finally {
        server.closeAllConnections();
        await new Promise((done) => server.close(done));
    }
}

function replyTo(gateway, { method, offset }, body, { size, metadata }) {
    if (method === "POST") {
        return [201, { Location: "/files/1" }];
    }
    if (gateway.isGone) {
        return [404, { "X-Refusal": "8" }];
    }
    if (method === "HEAD") {
        const numbers = { "Upload-Offset": gateway.data.length, "Upload-Length": size };
        return [200, { ...numbers, "Upload-Metadata": metadata }];
    }
    if (method === "PATCH" && offset !== gateway.data.length) {
        return [409, { "X-Refusal": "9" }];
    }
    if (method === "PATCH") {
        gateway.data = Buffer.concat([gateway.data, body]);
        return [204, { "Upload-Offset": gateway.data.length }];
    }
    gateway.isGone = method === "DELETE";
    return gateway.isGone ? [204] : [200, { "Content-Type": "text/plain; charset=UTF-8" }, gateway.data];
}

globalThis.XMLHttpRequest = class {
    upload = {};
    headers = {};

    open(method, url) {
        this.request = http.request(url, { method });
    }

    setRequestHeader(name, value) {
        this.request.setHeader(name, value);
    }

    getResponseHeader(name) {
        return this.reply.headers[name.toLowerCase()] ?? null;
    }

    send(body) {
        this.request.on("error", () => (this.isAborted ? this.onabort() : this.onerror()));
        this.request.on("response", (reply) => {
            this.reply = reply;
            this.status = reply.statusCode;
            reply.resume().on("end", () => this.onload());
        });
        this.request.end(Buffer.from(body), () => this.upload.onprogress?.({ loaded: body.byteLength }));
    }

    abort() {
        this.isAborted = true;
        this.request.destroy(new Error("aborted"));
    }
};
