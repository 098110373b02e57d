// Tries the relay with two clients of each kind, and sees that junk doesn't end it. Wants a WebSocket of Node's own.
import assert from "node:assert/strict";
import { once } from "node:events";
import { connect } from "node:net";
import { check, startRelay } from "./checking.mjs";
import { cableClient, connected, tunnelClient } from "./clients.mjs";
import { address, EVERYONE, fromHex, hex, number, numberAt, packet, RIP_SOCKET, SAP_SOCKET } from "./packets.mjs";
import { routeRequest, routes, serviceQuery, services } from "./packets.mjs";

const [TUNNEL, CABLE, FAR, SOCKET, MARK] = [0x10, 0x20, 0x30, 0x4003, 0x4004];
const ROUTER_ON_CABLE = "024950585220";
const [LONG, HEADER] = [1400, 30];
// More than all buffers hold, in pieces that they do hold.
const [BATCHES, FRAMES] = [50, 400];

const { run, ipx, ethernet } = await startRelay();
const [anna, bert] = [await tunnelClient(ipx), await tunnelClient(`${ipx}/a-room`)];
const [carl, dora] = [await cableClient(ethernet, CABLE, "0000000000CC"), await cableClient(ethernet, CABLE, "0000000000DD")];

const at = ({ network, node }, socket = SOCKET) => address(network, node, socket);
const data = (length) => Array.from({ length: length - HEADER }, (_, k) => (k % 251).toString(16).padStart(2, "0")).join("").toUpperCase();
const sends = (client, bytes) => client.send(bytes, ROUTER_ON_CABLE);
const toAll = (client, socket, network = client.network) => packet(4, address(network, EVERYONE, socket), at(client, socket), "0102");
// A packet without padding, and the same but for the number of routers that it came through.
const whole = (bytes) => bytes.subarray(0, bytes[2] * 256 + bytes[3]);
const body = (bytes) => hex(bytes.subarray(0, 4)) + hex(whole(bytes).subarray(5));

await check("a client of packets is told its network, and a node of its own", () => {
    assert.deepEqual([anna.network, bert.network], [TUNNEL, TUNNEL]);
    assert.notEqual(anna.node, bert.node);
});

await check("each network hears of the other, and of a third one that a client advertises", async () => {
    for (const [client, other] of [[anna, CABLE], [carl, TUNNEL]]) {
        client.send(routeRequest(client.network, client.node), EVERYONE);
        const found = await client.heard((its) => its.toSocket === RIP_SOCKET && its.toNode === client.node);
        assert.equal(hex(whole(found)).slice(60), `0002${address(other, "00010002", 0).slice(0, 16)}`);
    }
    dora.send(routes(CABLE, dora.node, [[FAR, 1, 2]]), EVERYONE);
    const told = await bert.heard((its, bytes) => its.toSocket === RIP_SOCKET && hex(bytes).includes("0000003000020003"));
    assert.equal(told.length, 40);
});

await check("a service is known on the other network", async () => {
    dora.send(services(CABLE, dora.node, [[4, "FILES", address(FAR, "000000000001", 0x451), 1]]), EVERYONE);
    await anna.heard((its, bytes) => its.toSocket === SAP_SOCKET && hex(bytes).includes(hex(Buffer.from("FILES"))));
    anna.send(serviceQuery(TUNNEL, anna.node));
    const answer = await anna.heard((its) => its.toSocket === SAP_SOCKET && its.toNode === anna.node);
    assert.equal(hex(answer).slice(60, 78), `00020004${hex(Buffer.from("FILES"))}`);
    assert.equal(hex(answer).slice(-28), `${address(FAR, "000000000001", 0x451)}0002`);
});

await check(`packets of ${LONG} bytes go from each client to each other, whole`, async () => {
    for (const from of [anna, bert, carl, dora]) {
        for (const to of [anna, bert, carl, dora].filter((it) => it !== from)) {
            const sent = packet(4, at(to), at(from), data(LONG));
            // (what DOSBox leaves there)
            if (from.network === TUNNEL) sent[4] = 165;
            from.send(sent, from.network === to.network ? to.node : ROUTER_ON_CABLE);
            const found = await to.heard((its) => its.toSocket === SOCKET && its.fromNode === from.node);
            assert.equal(body(found), body(sent));
            assert.equal(found[4], from.network === to.network ? 0 : 1);
        }
    }
});

await check("a packet for a third network goes to the client that leads there", async () => {
    sends(anna, packet(4, address(FAR, "000000000001", SOCKET), at(anna), "0102"));
    assert.equal(hex(await dora.heard((its) => its.to === FAR)).slice(8, 10), "01");
});

await check("a frame that comes back is neither heard nor handed on", async () => {
    const back = packet(4, address(FAR, "000000000001", SOCKET), at(anna), "0102");
    carl.sendFrame(fromHex(`${ROUTER_ON_CABLE}${ROUTER_ON_CABLE}8137${hex(back)}`));
    carl.sendFrame(fromHex(`${EVERYONE}${ROUTER_ON_CABLE}8137${hex(back)}`));
    // (what comes next is a packet that was sent behind them)
    carl.send(packet(4, at(dora, MARK), at(carl), "00"), dora.node);
    const next = await dora.heard((its) => [SOCKET, MARK].includes(its.toSocket));
    assert.equal(hex(next.subarray(16, 18)), "4004");
});

await check("a broadcast reaches its own network, and stays there", async () => {
    for (const [from, near, far] of [[anna, bert, carl], [carl, dora, anna]]) {
        for (const network of [0, from.network]) from.send(toAll(from, SOCKET, network), EVERYONE);
        for (const network of [0, from.network]) await near.heard((its) => its.to === network && its.toSocket === SOCKET);
        // (what comes next on the other network is a packet that was sent behind it)
        sends(from, packet(4, at(far, MARK), at(from), "00"));
        const next = await far.heard((its) => [SOCKET, MARK].includes(its.toSocket));
        assert.equal(hex(next.subarray(16, 18)), "4004");
    }
});

await check("a client of packets speaks only as itself, and doesn't hear itself", async () => {
    anna.send(packet(4, at(bert), at(bert)));
    anna.send(packet(4, at(bert), address(CABLE, anna.node, SOCKET)));
    for (const length of [0, 1, 29]) anna.send(new Uint8Array(length));
    anna.send(packet(4, address(CABLE, bert.node, SOCKET), at(anna)));
    anna.send(toAll(anna, SOCKET));
    anna.send(packet(4, at(bert, MARK), at(anna)));
    const next = await bert.heard((its) => [SOCKET, MARK].includes(its.toSocket));
    assert.deepEqual([next[16] * 256 + next[17], hex(next.subarray(10, 16))], [SOCKET, EVERYONE]);
    anna.send(packet(4, at(anna, MARK), at(anna)));
    const own = await anna.heard((its) => [SOCKET, MARK].includes(its.toSocket));
    assert.equal(hex(own.subarray(16, 18)), "4004");
});

await check("a client that didn't register isn't heard", async () => {
    const { node } = await tunnelClient(ipx);
    const { socket } = await connected(ipx);
    // (the nodes are given one after the other)
    const next = number(parseInt(node, 16) + 1, 6);
    socket.send(packet(4, at(bert, MARK), address(TUNNEL, next, SOCKET)));
    socket.send(packet(0, address(0, "000000000000", 2), address(0, "000000000000", 2)));
    socket.send(packet(4, at(bert, MARK), address(TUNNEL, next, SOCKET), "01"));
    const found = await bert.heard((its) => its.fromNode === next);
    assert.equal(hex(found.subarray(HEADER)), "01");
});

await check("a frame is the router's if it is of its kind, and for its card or all", async () => {
    const one = packet(4, at(anna), at(carl));
    carl.send(one, dora.node);
    carl.sendFrame(fromHex(`${ROUTER_ON_CABLE}${carl.node}${number(one.length, 2)}${hex(one)}`));
    sends(carl, packet(4, at(anna, MARK), at(carl)));
    const next = await anna.heard((its) => [SOCKET, MARK].includes(its.toSocket));
    assert.equal(hex(next.subarray(16, 18)), "4004");
});

await check("what is too short for a frame goes to nobody", async () => {
    for (const length of [0, 1, 13]) carl.sendFrame(new Uint8Array(length));
    carl.sendFrame(new Uint8Array(14));
    assert.equal((await dora.heardFrame((it) => it.length <= 14)).length, 14);
});

await check("a client of frames doesn't hear its own", async () => {
    const [first, second] = [carl, dora].map(({ node }) => fromHex(`${EVERYONE}${node}0801${"00".repeat(46)}`));
    carl.sendFrame(first);
    await dora.heardFrame((it) => it[13] === 1);
    dora.sendFrame(second);
    assert.equal(hex(await carl.heardFrame((it) => it[12] === 8 && it[13] === 1)), hex(second));
});

await check("frames of other protocols go to the others on the cable as they are", async () => {
    const frame = fromHex(`${EVERYONE}${carl.node}0806${"AB".repeat(1500)}`);
    carl.sendFrame(frame);
    assert.equal(hex(await dora.heardFrame((it) => it[12] === 8)), hex(frame));
});

// What the relay says to bytes over TCP, until it ends the connection.
async function said(bytes) {
    const socket = connect(Number(new URL(ipx).port), "127.0.0.1");
    socket.end(bytes);
    const chunks = [];
    for await (const chunk of socket) chunks.push(chunk);
    return Buffer.concat(chunks);
}

const greeting = (path = "/ipx", more = "Sec-WebSocket-Key: AAAAAAAAAAAAAAAAAAAAAA==\r\nSec-WebSocket-Version: 13\r\n") =>
    `GET ${path} HTTP/1.1\r\nHost: x\r\nUpgrade: websocket\r\nConnection: keep-alive, Upgrade\r\n${more}\r\n`;
// What comes behind the greeting where a client sends such frames.
const afterwards = async (frames) => {
    const answer = (await said(Buffer.concat([Buffer.from(greeting()), Buffer.from(frames, "hex")]))).toString("latin1");
    return Buffer.from(answer.slice(answer.indexOf("\r\n\r\n") + 4), "latin1").toString("hex");
};

await check("requests that are none for a WebSocket of these networks are refused", async () => {
    const status = async (bytes) => Number((await said(bytes)).toString("latin1").split(" ")[1]);
    assert.equal(await status("GET / HTTP/1.1\r\nHost: x\r\nConnection: close\r\n\r\n"), 426);
    assert.equal(await status(greeting("/elsewhere")), 404);
    assert.equal(await status(greeting("/ipx", "")), 400);
    assert.equal(await status(greeting("/ipx", "Sec-WebSocket-Key: AAAA\r\nSec-WebSocket-Version: 13\r\n")), 400);
    assert.equal(await status(greeting("/ipx", "Sec-WebSocket-Key: AAAAAAAAAAAAAAAAAAAAAA==\r\nSec-WebSocket-Version: 8\r\n")), 400);
    assert.equal(await status(greeting().replace("GET", "POST")), 400);
    assert.equal(await status(greeting()), 101);
    await assert.rejects(connected(ipx.replace("/ipx", "/elsewhere")));
});

await check("the key of the standard's example has the standard's answer, and the binary subprotocol is agreed on", async () => {
    const more = "Sec-WebSocket-Key: dGhlIHNhbXBsZSBub25jZQ==\r\nSec-WebSocket-Version: 13\r\nSec-WebSocket-Protocol: base64, binary\r\n";
    const text = (await said(greeting("/ethernet", more))).toString("latin1");
    assert.match(text, /Sec-WebSocket-Accept: s3pPLMBiTxaQ9kYGzzhZRbK\+xOo=\r\nSec-WebSocket-Protocol: binary\r\n/);
});

await check("frames against the standard end the connection, each with its number", async () => {
    const mask = "00000000";
    assert.equal(await afterwards(`8180${mask}`), "880203eb"); // text
    assert.equal(await afterwards("820100"), "880203ea"); // without a mask
    assert.equal(await afterwards(`c280${mask}`), "880203ea"); // a reserved bit
    assert.equal(await afterwards(`8380${mask}`), "880203ea"); // an unknown opcode
    assert.equal(await afterwards(`8b80${mask}`), "880203ea"); // an unknown opcode of control
    assert.equal(await afterwards(`8080${mask}`), "880203ea"); // goes on with nothing
    assert.equal(await afterwards(`0280${mask}8280${mask}`), "880203ea"); // begins within another message
    assert.equal(await afterwards(`0980${mask}`), "880203ea"); // a ping in pieces
    assert.equal(await afterwards(`89fe0080${mask}`), "880203ea"); // a long ping
    assert.equal(await afterwards("82ff0000000000010000"), "880203f1"); // 65,536 bytes
    assert.equal(await afterwards(`02feffff${mask}${"00".repeat(65535)}8081${mask}00`), "880203f1"); // as many in pieces
    assert.equal(await afterwards(`8982${mask}0102`), "8a020102"); // a ping
    assert.equal(await afterwards(`8882${mask}03e8`), "880203e8"); // the end, as it should be
    assert.equal(await afterwards(`8880${mask}`), "8800");
    assert.equal(await afterwards(`8180${mask}8982${mask}0102`), "880203eb"); // what comes behind isn't read
});

await check("a message in pieces, masked, with a ping between them, is one", async () => {
    const registration = hex(packet(0, address(0, "000000000000", 2), address(0, "000000000000", 2)));
    const masked = (text, mask = [1, 2, 3, 4]) => `${hex(mask)}${hex(fromHex(text).map((it, k) => it ^ mask[k % 4]))}`;
    const [first, rest] = [registration.slice(0, 14), registration.slice(14)];
    const answer = await afterwards(`0287${masked(first)}8980${masked("")}0080${masked("")}8097${masked(rest)}`);
    assert.match(answer, /^8a00821effff001e0000000000100200/);
});

await check(`a client that doesn't read loses what is sent; the others don't`, async () => {
    const idle = connect(Number(new URL(ethernet).port), "127.0.0.1");
    idle.write(greeting("/ethernet"));
    await once(idle, "data");
    idle.pause();
    for (let batch = 0; batch < BATCHES; batch++) {
        const frame = fromHex(`${EVERYONE}${carl.node}0800${number(batch, 2)}${"AB".repeat(1498)}`);
        for (let k = 0; k < FRAMES; k++) carl.sendFrame(frame);
        carl.sendFrame(frame.subarray(0, 60));
        await dora.heardFrame((it) => it.length === 60 && numberAt(it, 14, 2) === batch);
    }
    let heard = 0;
    idle.on("data", (bytes) => (heard += bytes.length));
    idle.resume().end(fromHex("888000000000"));
    await once(idle, "end");
    assert.ok(heard > 0 && heard < BATCHES * FRAMES * 1514, `${heard} bytes`);
});

await check("the clients are still heard", async () => {
    anna.send(packet(4, at(carl, MARK), at(anna), "0102"));
    await carl.heard((its) => its.toSocket === MARK && its.fromNode === anna.node);
});

await check("the node of a client that is gone isn't given again", async () => {
    const emil = await tunnelClient(ipx);
    emil.close();
    const frida = await tunnelClient(ipx);
    assert.notEqual(frida.node, emil.node);
    frida.send(packet(4, at(bert, MARK), at(frida), "0102"));
    await bert.heard((its) => its.toSocket === MARK && its.fromNode === frida.node);
});

await check("a relay that is ended tells its networks so, and ends well", async () => {
    run.kill("SIGTERM");
    // (what a router says last is that its networks are unreachable: sixteen hops)
    await anna.heard((its, bytes) => its.toSocket === RIP_SOCKET && hex(bytes).includes("000000200010"));
    await carl.heard((its, bytes) => its.toSocket === RIP_SOCKET && hex(bytes).includes("000000100010"));
    const [status] = run.exitCode === null ? await once(run, "exit") : [run.exitCode];
    assert.equal(status, 0);
});
