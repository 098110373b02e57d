// Copies a link to what is shown, and says whether it did.
import { lengthOf, LONGEST } from "./address.mjs";
import { made } from "./dom.mjs";

// What a link holds of each pane.
const HELD = { capture: "", internet: "script", router: "script", packet: "packet" };

// Copies a text as older pages do, where a browser doesn't let a page write to the clipboard otherwise.
function copiedFromBox(text) {
    const box = made("textarea", { ".value": text });
    document.body.append(box);
    box.select();
    const isDone = document.execCommand("copy");
    box.remove();
    return isDone;
}

const isCopied = (text) => navigator.clipboard.writeText(text).then(() => true, () => false);

// Copies the link of a pane with a text. What is to be said then, and whether it is a fault.
export async function copied(link, pane, text) {
    const length = lengthOf(text);
    const tooLong = `no link: the ${HELD[pane]} has ${length} bytes, and a link holds at most ${LONGEST}`;
    if (length > LONGEST) return [tooLong + (pane === "packet" ? "" : ". Save it, and send the file"), true];
    const isDone = (navigator.clipboard && (await isCopied(link))) || copiedFromBox(link);
    if (!isDone) return ["not copied, since the browser refuses it: the link is the page's address", true];
    return [pane === "capture" ? "the link is copied; it opens the page, but never holds a capture" : "the link is copied"];
}
