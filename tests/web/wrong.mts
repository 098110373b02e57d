// Uses what ipxr.d.mts has as it isn't meant: tsc refuses each line that says so, and no other.
import { BROADCAST, Fault, Frame, Outcome, Router, readFrame, words, writeFrame, writeQuery, writeRip,
    writeSap } from "../../examples/embed/web/ipxr.mjs";

const node = [0, 0, 0, 0, 0, 1];
const router = new Router([{ network: 0x10, node, cost: 1, longest: 576 }]);
new Router({ network: 0x10, node, cost: 1, longest: 576 }); // wrong
new Router([{ network: 0x10, node, cost: 1 }]); // wrong
new Router([{ network: "10", node, cost: 1, longest: 576 }]); // wrong
new Router([{ network: 0x10, node: "000000000001", cost: 1, longest: 576 }]); // wrong
new Router([{ network: 0x10, node, cost: 1, longest: 576, share: 3 }]); // wrong
Router.load(null); // wrong
router.packet("0", new Uint8Array(30)); // wrong
router.packet(0, [1, 2, 3]); // wrong
router.packet(0, new ArrayBuffer(30)); // wrong
router.packet(0); // wrong
router.portUp(); // wrong
router.restart(); // wrong
const text: string = router.start().outcome; // wrong
const far: number = router.routes()[0].name; // wrong
const packet: Uint8Array = readFrame(new Uint8Array(60)).packet; // wrong
writeFrame(5, node, node, new Uint8Array(30)); // wrong
words("forwarded"); // wrong
writeRip({ network: 0x10, node, socket: 1 }, { network: 0x10, node }, 1, []); // wrong
writeRip({ network: 0x10, node, socket: 1 }, { network: 0x10, node, socket: 1 }, 3, []); // wrong
writeQuery({ network: 0x10, node, socket: 1 }, { network: 0x10, node, socket: 1 }, 1, 4); // wrong
writeSap({ network: 0x10, node, socket: 1 }, { network: 0x10, node, socket: 1 }, true, [{ name: "A" }]); // wrong
Outcome.FORWARDED = 7; // wrong
BROADCAST[0] = 0; // wrong
const fault: Frame = Fault.NO_PORT; // wrong
console.log(text, far, packet, fault);
