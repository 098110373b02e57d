// The server's side of WebSockets (RFC 6455) over node:http, as far as relays need it: binary messages, whole or in pieces.
//
//     createServer().on("upgrade", (request, socket, head) => { const it = accepted(request, socket, head); .. });
//
// A connection has `send(bytes)` and `close()`; what comes is given to its `onMessage(bytes)`, and its end told to `onClose()`.
import { createHash } from "node:crypto";

const GUID = "258EAFA5-E914-47DA-95CA-C5AB0DC85B11";
const VERSION = "13";
// The subprotocol that some clients ask for, and which says no more than that messages are binary.
const BINARY = "binary";

const [CONTINUED, BINARY_FRAME, CLOSE, PING, PONG] = [0, 2, 8, 9, 10];
const [LAST, RESERVED, OPCODE, CONTROL, MASKED, LENGTH] = [0x80, 0x70, 0x0f, 0x08, 0x80, 0x7f];
// Lengths of 16 and of 64 bits, which stand behind these.
const [IS_16, IS_64] = [126, 127];
const MASK = 4;
const MOST_CONTROL = 125;
const [GOING_AWAY, PROTOCOL_ERROR, UNSUPPORTED, TOO_BIG] = [1001, 1002, 1003, 1009];

// No frame of Ethernet and no packet of IPX is longer.
const MOST_MESSAGE = 65535;
// A client that doesn't read loses what is sent, as on a cable, once so many bytes wait for it.
const MOST_WAITING = 1 << 20;
// How many milliseconds a client has to end a connection, once it was told.
const FAREWELL = 5000;

// A frame of the server's: never masked, and never in pieces.
function frame(opcode, bytes) {
    const head = bytes.length < IS_16 ? [bytes.length] : [IS_16, bytes.length >> 8, bytes.length & 0xff];
    return Buffer.concat([Uint8Array.of(LAST | opcode, ...head), bytes]);
}

// Why a connection is ended: the number for its client.
class Violation extends Error {
    constructor(status) {
        super(`WebSocket status ${status}`);
        this.status = status;
    }
}

// The length that a frame's head says, and with how many bytes the head ends; nothing where these aren't there yet.
function measured(bytes) {
    if (bytes.length < 2) return undefined;
    const short = bytes[1] & LENGTH;
    const size = short === IS_64 ? 10 : short === IS_16 ? 4 : 2;
    if (bytes.length < size) return undefined;
    const length = short === IS_64 ? Number(bytes.readBigUInt64BE(2)) : short === IS_16 ? bytes.readUInt16BE(2) : short;
    return { length, size };
}

// The first frame of a client's bytes, and how many bytes it takes; nothing where it isn't whole.
function firstFrame(bytes) {
    const head = measured(bytes);
    if (!head) return undefined;
    const opcode = bytes[0] & OPCODE;
    const isLast = (bytes[0] & LAST) !== 0;
    if (bytes[0] & RESERVED || !(bytes[1] & MASKED)) throw new Violation(PROTOCOL_ERROR);
    if (opcode & CONTROL && (!isLast || head.length > MOST_CONTROL)) throw new Violation(PROTOCOL_ERROR);
    if (head.length > MOST_MESSAGE) throw new Violation(TOO_BIG);
    const start = head.size + MASK;
    const size = start + head.length;
    if (bytes.length < size) return undefined;
    return { opcode, isLast, content: unmasked(bytes.subarray(start, size), bytes.subarray(head.size, start)), size };
}

function unmasked(bytes, mask) {
    const found = new Uint8Array(bytes.length);
    for (let k = 0; k < bytes.length; k++) found[k] = bytes[k] ^ mask[k % MASK];
    return found;
}

class Connection {
    onMessage = () => {};
    onClose = () => {};
    #socket;
    #unread = Buffer.alloc(0);
    // What came of a message in pieces, or nothing where none has begun.
    #pieces;

    constructor(socket) {
        this.#socket = socket;
        socket.setNoDelay(true).setKeepAlive(true);
        socket.setTimeout(0);
        socket.on("data", (bytes) => this.#read(bytes));
        socket.on("end", () => socket.end());
        socket.on("close", () => this.onClose());
    }

    // Sends a message; returns whether it was sent.
    send(bytes) {
        return this.#write(BINARY_FRAME, bytes);
    }

    #write(opcode, bytes) {
        const isSent = this.#socket.writable && this.#socket.writableLength <= MOST_WAITING;
        if (isSent) this.#socket.write(frame(opcode, bytes));
        return isSent;
    }

    close(status = GOING_AWAY) {
        this.#end(Uint8Array.of(status >> 8, status & 0xff));
    }

    #end(why) {
        if (!this.#socket.writable) return;
        this.#socket.end(frame(CLOSE, why));
        setTimeout(() => this.#socket.destroy(), FAREWELL).unref();
    }

    #read(bytes) {
        // (what comes behind the end isn't read any more)
        if (!this.#socket.writable) return;
        this.#unread = this.#unread.length === 0 ? bytes : Buffer.concat([this.#unread, bytes]);
        try {
            for (let next = firstFrame(this.#unread); next && this.#socket.writable; next = firstFrame(this.#unread)) {
                this.#unread = this.#unread.subarray(next.size);
                this.#hear(next);
            }
        } catch (why) {
            if (!(why instanceof Violation)) throw why;
            this.close(why.status);
        }
    }

    #hear({ opcode, isLast, content }) {
        if (opcode === PING) this.#write(PONG, content);
        else if (opcode === CLOSE) this.#end(content.subarray(0, 2));
        else if (opcode === BINARY_FRAME || opcode === CONTINUED) this.#piece(opcode, isLast, content);
        else if (opcode !== PONG) throw new Violation(opcode === 1 ? UNSUPPORTED : PROTOCOL_ERROR);
    }

    #piece(opcode, isLast, content) {
        if ((opcode === CONTINUED) !== (this.#pieces !== undefined)) throw new Violation(PROTOCOL_ERROR);
        const message = this.#pieces ? Buffer.concat([this.#pieces, content]) : content;
        if (message.length > MOST_MESSAGE) throw new Violation(TOO_BIG);
        this.#pieces = isLast ? undefined : message;
        if (isLast) this.onMessage(message);
    }
}

// What the server says to a request, or nothing where it is none for a WebSocket.
function greeting({ method, headers }) {
    const has = (name, word) => (headers[name] ?? "").toLowerCase().split(/\s*,\s*/).includes(word);
    const key = headers["sec-websocket-key"] ?? "";
    if (method !== "GET" || !has("upgrade", "websocket") || !has("connection", "upgrade")) return undefined;
    if (headers["sec-websocket-version"] !== VERSION || Buffer.from(key, "base64").length !== 16) return undefined;
    const accept = createHash("sha1").update(key + GUID).digest("base64");
    const lines = ["HTTP/1.1 101 Switching Protocols", "Upgrade: websocket", "Connection: Upgrade", `Sec-WebSocket-Accept: ${accept}`];
    if (has("sec-websocket-protocol", BINARY)) lines.push(`Sec-WebSocket-Protocol: ${BINARY}`);
    return `${lines.join("\r\n")}\r\n\r\n`;
}

// Says no to a request, and why.
export function refuse(socket, status) {
    socket.on("error", () => socket.destroy());
    socket.end(`HTTP/1.1 ${status}\r\nConnection: close\r\nContent-Length: 0\r\n\r\n`);
}

// The connection that a request asks for; undefined where it was refused.
export function accepted(request, socket, head) {
    const words = greeting(request);
    if (!words) {
        refuse(socket, "400 Bad Request");
        return undefined;
    }
    socket.on("error", () => socket.destroy());
    socket.write(words);
    if (head.length > 0) socket.unshift(head);
    return new Connection(socket);
}
