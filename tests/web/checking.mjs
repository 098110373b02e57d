// What the tests for JavaScript have in common. Each is started with the folder of ipxr.mjs and libipxr.wasm, and prints a line for each
// check.
import { spawn } from "node:child_process";
import { once } from "node:events";
import { resolve } from "node:path";
import { createInterface } from "node:readline";
import { pathToFileURL } from "node:url";

export const folder = resolve(process.argv[2]);

// The module of a name in that folder. With a word it is one of its own, which loads a library of its own.
export function imported(name, word = "") {
    return import(`${pathToFileURL(resolve(folder, name))}${word && `?${word}`}`);
}

// One check: a function that throws where something is wrong.
export async function check(name, run) {
    try {
        await run();
        console.log(`ok      ${name}`);
    } catch (why) {
        console.log(`FAILED  ${name}: ${why.stack}`);
    }
}

// Ends a process, and all that it started where it has a group of its own.
export function end(run, isGroup) {
    if (run.exitCode === null && run.signalCode === null) process.kill(isGroup ? -run.pid : run.pid);
}

// A process that is ended at the latest when this one is, also where it takes too long.
export function spawned([command, ...words], { isGroup = false, stdout = "ignore" } = {}) {
    const run = spawn(command, words, { stdio: ["ignore", stdout, isGroup ? "ignore" : "inherit"], detached: isGroup });
    process.once("exit", () => end(run, isGroup));
    return run;
}
process.once("SIGTERM", () => process.exit(1));

// The relay as a process, and the address of each of its networks.
export async function startRelay() {
    const run = spawned([process.execPath, `${folder}/relay.mjs`, "0"], { stdout: "pipe" });
    const [line] = await once(createInterface(run.stdout), "line");
    const [ipx, ethernet] = line.match(/ws:\S+/g);
    return { run, ipx, ethernet };
}
