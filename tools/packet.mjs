// Words to the digits of a packet in a script, and back.
import { commented, filled, ofScript } from "./packet_scripts.mjs";
import { checkedDigits, digitsOf, load, wordsOfAll } from "./packet_words.mjs";
import { Fault, watchOutput } from "./files.mjs";

const HELP = `tools/packet turns words into the digits that a script has for a packet, and digits into words:

    tools/packet rip response 10.AA network=20 hops=1 ticks=2    prints the digits of this packet
    tools/packet show DIGITS                                     prints the words of a packet
    tools/packet fill SCRIPT                                     prints the script with the digits of each packet that a comment tells
    tools/packet comment SCRIPT                                  prints the script with such a comment above each packet

It needs Node; the library as WebAssembly ('make web' builds it, 'make run' doesn't), whose proved writers write the bytes; and to show and
comment the program ipxr (make run), which reads them. Behind the kind of a packet stands who sends it, NETWORK.NODE or
NETWORK.NODE.SOCKET, and then in any order:

    rip request           network=NET                  each network that is asked for; without one, for all of them
    rip response          network=NET hops=N ticks=N   each route
    sap general-query     type=TYPE                    the type of services; without one, every type
    sap nearest-query     type=TYPE                    the same of the nearest service
    sap general-response  type=TYPE name=NAME at=NET.NODE.SOCKET hops=N   each service
    sap nearest-response  the same
    netbios               crossed=NET,NET data=DATA    the networks crossed, and the data
    data                  type=N data=DATA             a packet of any type
    to=NET.NODE           or NET.NODE.SOCKET: who receives it; without it, all nodes of the sender's network
    control=N checksum=DIGITS length=N padding=DATA    what stands there instead, or follows the packet

    bytes DATA            bytes that are no packet, or - for none

Networks, nodes, sockets and types of services are hexadecimal, and zeros in front may be left out; the node of all is also 'all'. DATA are
hexadecimal digits; 00x47 is 47 zeros, and '0002,[0030,00x3]x2' is 0002, and twice 0030 and three zeros. In a script a comment
'# packet WORDS' above a command tells its packet; prose with a colon may stand before 'packet', and | between the words of several packets,
whose commands follow.
`;
const USAGE = "usage: tools/packet KIND WORDS.., or show DIGITS, or fill SCRIPT, or comment SCRIPT, or --help";
const ACTS = {
    show: ([digits]) => `${wordsOfAll([checkedDigits(digits)])[0].join(" ")}\n`,
    fill: ([file]) => ofScript(file, filled),
    comment: ([file]) => ofScript(file, commented),
};

async function main(words) {
    const [act, ...more] = words;
    if (words.includes("--help")) return process.stdout.write(HELP);
    if (!words.length || act.startsWith("-") || (Object.hasOwn(ACTS, act) && more.length !== 1)) throw new Fault(USAGE);
    await load();
    if (Object.hasOwn(ACTS, act)) return process.stdout.write(Buffer.from(ACTS[act](more), "latin1"));
    return process.stdout.write(`${digitsOf(words) || "-"}\n`);
}

watchOutput("tools/packet");
try {
    await main(process.argv.slice(2));
} catch (why) {
    if (!(why instanceof Fault) && !why.code) throw why;
    process.stderr.write(`${why.message.startsWith("usage") ? "" : "tools/packet: "}${why.message}\n`);
    process.exitCode = 1;
}
