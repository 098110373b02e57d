// Uses what the package has as it isn't meant: tsc refuses each line that says so, and no other.
import { AddressUse, Course, Edge, Fair, Keys, Limits, LimitsLink, LinkKind, Meter, readPacket, Router, Said, Segment, Tunnel, Verdict,
    writeQuery } from "ipxr";

const tunnel = new Tunnel({ network: "10", node: "020000000001", capacity: 4, share: 2 });
const segment = new Segment({ network: 0x10, node: "020000000001", links: 2, capacity: 9 });
const limits = new Limits({ link: LimitsLink.TUNNEL, rate: 1, share: 1 });
new Tunnel({ network: "10", capacity: 4, share: 2 }); // wrong
new Tunnel({ network: "10", node: "020000000001", capacity: "4", share: 2 }); // wrong
new Router([{ network: 10n, node: "020000000001", cost: 1, longest: 576 }]); // wrong
tunnel.hear("10.0.0.1:2130", new Uint8Array(30)); // wrong
tunnel.hear(new Keys().sender("10.0.0.1:2130", 60), "30"); // wrong
tunnel.hear(new Keys().sender("10.0.0.1:2130"), new Uint8Array(30)); // wrong
segment.change(0, { kind: 7, share: 1 }); // wrong
segment.change(0, { kind: LinkKind.CABLE }); // wrong
new Fair({ one: "1", own: 2, reserve: 3, room: 4 }); // wrong
new Fair().says(0, "1"); // wrong
limits.says(0, new Meter(), new Meter()); // wrong
limits.says(0, new AddressUse(), new Meter()); // wrong
new Course(); // wrong
new Edge({ network: "10" }); // wrong
writeQuery("10.020000000001.451", "10.FFFFFFFFFFFF.452", 1, 4); // wrong
const socket: number = readPacket(new Uint8Array(30)).from.socket; // wrong
const said: Said = 9; // wrong
const verdict: Verdict = tunnel.hear(new Keys().sender("10.0.0.1:2130", 60), new Uint8Array(30)); // wrong
console.log(socket, said, verdict);
