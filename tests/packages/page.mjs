// Runs a program over the package in a page, and prints what the page printed: page.mjs PACKAGE PROGRAM COMMAND.. The command opens a page
// without showing it; URL in it is the page's address, and PROFILE a folder.
import { once } from "node:events";
import { mkdtempSync, readFileSync, rmSync } from "node:fs";
import { createServer } from "node:http";
import { tmpdir } from "node:os";
import { extname } from "node:path";
import { spawn } from "node:child_process";

const [folder, program, ...command] = process.argv.slice(2);
const TYPES = { ".mjs": "text/javascript", ".wasm": "application/wasm", ".html": "text/html" };
const PAGE = `<!doctype html><meta charset="utf-8"><title>ipxr</title>
<script type="importmap">{ "imports": { "ipxr": "/ipxr/index.mjs" } }</script>
<script type="module">
const lines = [];
console.log = (line) => lines.push(line + "\\n");
try {
    await import("/program.mjs");
} catch (why) {
    lines.push(why + "\\n" + why.stack);
}
await fetch("/told", { method: "POST", body: lines.join("") });
</script>
`;

function contentOf(url) {
    if (url === "/page.html") return PAGE;
    return readFileSync(url === "/program.mjs" ? program : `${folder}${url.replace(/^\/ipxr/, "")}`);
}

let hear;
const told = new Promise((resolve) => (hear = resolve));
const server = createServer(async (request, response) => {
    if (request.method === "POST") {
        const chunks = [];
        for await (const chunk of request) chunks.push(chunk);
        response.end();
        return hear(Buffer.concat(chunks).toString());
    }
    try {
        const content = contentOf(request.url);
        response.writeHead(200, { "Content-Type": TYPES[extname(request.url)] }).end(content);
    } catch {
        response.writeHead(404).end();
    }
}).listen(0, "127.0.0.1");
await once(server, "listening");

const profile = mkdtempSync(`${tmpdir()}/ipxr-page-`);
const words = command.map((it) => it.replace("PROFILE", profile).replace("URL", `http://127.0.0.1:${server.address().port}/page.html`));
const run = spawn(words[0], words.slice(1), { stdio: "ignore", detached: true });
const ended = once(run, "exit");
process.stdout.write(await Promise.race([told, ended.then(([status]) => `${words[0]} ended with ${status}\n`)]));
// (the browser has a process group of its own)
if (run.exitCode === null && run.signalCode === null) process.kill(-run.pid);
await ended;
server.closeAllConnections();
server.close();
rmSync(profile, { recursive: true, force: true, maxRetries: 10 });
