// Opens pages in a browser: pages.mjs FOLDER NAME COMMAND.. One page comes from a server, and one is a single file. Both play
// two_networks.mjs, and tell what it printed; the first one also speaks to the relay.
import assert from "node:assert/strict";
import { once } from "node:events";
import { mkdtempSync, readFileSync, rmSync, writeFileSync } from "node:fs";
import { createServer } from "node:http";
import { tmpdir } from "node:os";
import { extname } from "node:path";
import { pathToFileURL } from "node:url";
import { check, end, folder, spawned, startRelay } from "./checking.mjs";

const [name, ...command] = process.argv.slice(3);
const WANTED = readFileSync("examples/embed/two_networks.out", "utf8");
const TYPES = { ".mjs": "text/javascript", ".wasm": "application/wasm", ".html": "text/html" };
// What the relay is to carry from the page to the page.
const SPOKEN = "0102030405";
const profile = mkdtempSync(`${tmpdir()}/ipxr-page-`);

const text = (file) => readFileSync(`${folder}/${file}`, "utf8");
const dataUrl = (type, bytes) => `data:${type};base64,${Buffer.from(bytes).toString("base64")}`;

// A page that runs a script, and tells what it printed.
const page = (script) => `<!doctype html><meta charset="utf-8"><title>ipxr</title>
<script type="module">
const lines = [];
console.log = (line) => lines.push(line + "\\n");
try {
${script}
} catch (why) {
    lines.push(why + "\\n" + why.stack);
}
await fetch("${here}/told", { method: "POST", mode: "no-cors", body: lines.join("") });
</script>
`;

// The same example and module, without a server: all that it needs is in the page.
function singleFile() {
    const bytes = `Uint8Array.from(atob("${readFileSync(`${folder}/libipxr.wasm`).toString("base64")}"), (it) => it.charCodeAt(0))`;
    const example = text("two_networks.mjs")
        .replace('"./ipxr.mjs"', JSON.stringify(dataUrl("text/javascript", text("ipxr.mjs"))))
        .replace("Router.load()", `Router.load(${bytes})`);
    return page(`await import(${JSON.stringify(dataUrl("text/javascript", example))});`);
}

const speaking = () => `
const { cableClient, tunnelClient } = await import("./clients.mjs");
const { address, hex, packet } = await import("./packets.mjs");
const tunnel = await tunnelClient("${relay.ipx}");
const cable = await cableClient("${relay.ethernet}", 0x20, "0000000000CC");
tunnel.send(packet(4, address(cable.network, cable.node, 0x4003), address(tunnel.network, tunnel.node, 0x4003), "${SPOKEN}"));
const found = await cable.heard((its) => its.toSocket === 0x4003);
console.log(hex(found.subarray(30, 35)));
`;

const PAGES = { "/plays.html": () => page('await import("./two_networks.mjs");'), "/speaks.html": () => page(speaking()) };

let hear;
const server = createServer(async (request, response) => {
    if (request.method === "POST") {
        const chunks = [];
        for await (const chunk of request) chunks.push(chunk);
        response.end();
        hear(Buffer.concat(chunks).toString());
        return;
    }
    try {
        const folderOf = ["/clients.mjs", "/packets.mjs"].includes(request.url) ? "tests/web" : folder;
        const content = PAGES[request.url]?.() ?? readFileSync(folderOf + request.url);
        response.writeHead(200, { "Content-Type": TYPES[extname(request.url)] }).end(content);
    } catch {
        response.writeHead(404).end();
    }
}).listen(0, "127.0.0.1");
await once(server, "listening");
const here = `http://127.0.0.1:${server.address().port}`;

const relay = await startRelay();

// What a page tells. The browser has a process group of its own, which is ended then.
async function told(url) {
    const words = command.map((word) => word.replace("PROFILE", profile).replace("URL", url));
    const heard = new Promise((resolve) => (hear = resolve));
    const run = spawned(words, { isGroup: true });
    const ended = once(run, "exit");
    try {
        return await Promise.race([heard, ended.then(([status]) => `${words[0]} ended with ${status}`)]);
    } finally {
        end(run, true);
        await ended;
    }
}

await check(`${name}: two_networks prints what is kept, from a server`, async () => assert.equal(await told(`${here}/plays.html`), WANTED));
await check(`${name}: two_networks prints what is kept, in a page that is one file`, async () => {
    writeFileSync(`${profile}.html`, singleFile());
    assert.equal(await told(`${pathToFileURL(`${profile}.html`)}`), WANTED);
    rmSync(`${profile}.html`);
});
await check(`${name}: a page speaks through the relay`, async () => assert.equal(await told(`${here}/speaks.html`), `${SPOKEN}\n`));

end(relay.run);
server.closeAllConnections();
server.close();
rmSync(profile, { recursive: true, force: true, maxRetries: 10 });
