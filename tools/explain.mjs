// Explains the first wrong line of a script, with the page's module.
import { contentOf, explained, Fault, watchOutput } from "./files.mjs";
import { isOfInternet } from "../page/script.mjs";

const HELP = `tools/explain says which line of a script is wrong, and what was expected there:

    tools/explain FILE..            scripts of ipxr internet if they are called NAME.internet, or have a line 'router'; else of ipxr replay
    tools/explain internet FILE..   scripts of ipxr internet
    tools/explain replay FILE..     scripts of ipxr replay

It reads a script, plays nothing, and needs Node alone. It names the first wrong line, as ipxr does, whose own words stand in parentheses.
The exit status is 0 if no line is wrong, 2 if one is, 1 if a file can't be read, and 64 if the words are wrong.
`;
const USAGE = "usage: tools/explain [replay | internet] FILE.., or --help";
const [RIGHT, UNREAD, WRONG, MISUSED] = [0, 1, 2, 64];
const VERBS = ["replay", "internet"];

// The files that the words ask for, and by which verb they are played, where they say so.
function asked(words) {
    return words.length > 1 && VERBS.includes(words[0]) ? { verb: words[0], files: words.slice(1) } : { files: words };
}

function verbOf(file, content) {
    if (file.endsWith(".internet")) return "internet";
    return !file.endsWith(".script") && isOfInternet(content.toString("latin1")) ? "internet" : "replay";
}

// Explains one file, and returns its status.
function explain(verb, file) {
    const content = contentOf(file);
    const found = explained(content, (verb ?? verbOf(file, content)) === "internet");
    const told = found ? `${found.line}: ${found.text} (line ${found.line}: ${found.fault})` : " no line is wrong";
    process.stdout.write(`${file}:${told}\n`);
    return found ? WRONG : RIGHT;
}

function main(words) {
    if (words.includes("--help")) {
        process.stdout.write(HELP);
        return RIGHT;
    }
    const { verb, files } = asked(words);
    if (!files.length || files.some((it) => it.startsWith("-"))) {
        process.stderr.write(`${USAGE}\n`);
        return MISUSED;
    }
    return Math.max(...files.map((it) => explain(verb, it)));
}

watchOutput("tools/explain");
try {
    process.exitCode = main(process.argv.slice(2));
} catch (why) {
    if (!(why instanceof Fault)) throw why;
    process.stderr.write(`tools/explain: ${why.message}\n`);
    process.exitCode = UNREAD;
}
