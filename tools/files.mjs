// What the tools for scripts read and write: files, what a file is that is no script, and faults in a line.
import { readFileSync, readdirSync } from "node:fs";
import { isCapture, known, said } from "../page/file_kinds.mjs";
import { parsed } from "../page/script.mjs";
import { wrongLine } from "../page/wrong_line.mjs";

// A fault that is told in a line.
export class Fault extends Error {}

// Why the system refuses a file.
const REFUSALS = {
    ENOENT: "there is no such file", EISDIR: "this is a folder, and a file is expected", ENOTDIR: "this is no folder",
    EACCES: "it may not be read", EPERM: "it may not be read", ELOOP: "its links lead in a circle",
};

function asked(file, act) {
    try {
        return act(file);
    } catch (why) {
        if (!why.code) throw why;
        throw new Fault(`${file}: ${REFUSALS[why.code] ?? why.message}`);
    }
}

export const contentOf = (file) => asked(file, readFileSync);
export const namesIn = (folder) => asked(folder, readdirSync);

// Ends where what is written can't be; who reads may have had enough.
export function watchOutput(name) {
    process.stdout.on("error", (why) => {
        if (why.code === "EPIPE") process.exit(0);
        process.stderr.write(`${name}: ${why.message}\n`);
        process.exit(1);
    });
}

// ---- What a file is ----

// What a file is that is no script, where its beginning tells.
function kindOf(content) {
    if (isCapture(content)) return ["a capture", "tools/picture draws it, and ipxr decode reads pcap"];
    // (text in UTF-16 without a mark: each letter of ASCII has a byte of 0)
    const isWide = content.length > 1 && (content[0] === 0) !== (content[1] === 0);
    return known(content) ?? (isWide ? ["UTF-16", "save it as UTF-8"] : null);
}

// The first wrong line of a script, explained; or nothing.
export function explained(content, isInternet) {
    const found = wrongLine(content, isInternet);
    const kind = found?.fault === "text" ? kindOf(content) : null;
    return found && { ...found, text: kind ? said(kind) : found.text };
}

// Refuses what is no script: a line of it is wrong before any line acts.
export function seeScript(file, content, isInternet) {
    const found = explained(content, isInternet);
    const isBegun = found && parsed(content.toString("latin1"), isInternet).acts.some((it) => it.line < found.line - 1);
    if (found && !isBegun) throw new Fault(`${file}:${found.line}: ${found.text}`);
}
