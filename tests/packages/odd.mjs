// What isn't meant: values of wrong types, texts that are none, what was freed, and what can't be made.
import assert from "node:assert/strict";
import * as ipxr from "ipxr";

await ipxr.load();
const SETTING = { network: "10", node: "02:00:00:00:00:01", capacity: 4, share: 2 };
const fault = (number) => (why) => why instanceof ipxr.IpxrError && why.number === number && why.message === ipxr.words(number);
const ODD = [undefined, null, {}, [], "", "x", "1.2.3", 1.5, -1, Symbol("1")];

// ---- Texts ----

assert.equal(ipxr.addressText("10.0200C0A80001.451"), "00000010.0200C0A80001.0451");
assert.deepEqual(ipxr.addressOf("10.02-00-c0-a8-00-01.451"), { network: 0x10, node: Uint8Array.of(2, 0, 0xc0, 0xa8, 0, 1), socket: 0x451 });
assert.equal(ipxr.placeText("192.168.0.1:2130"), "192.168.0.1:2130");
assert.equal(ipxr.nodeText([2, 0, 0, 0, 0, 1]), "020000000001");
assert.equal(ipxr.networkText(0x10) + ipxr.socketText("2"), "000000100002");
for (const it of ODD) for (const of of [ipxr.nodeOf, ipxr.placeOf, ipxr.addressOf]) assert.throws(() => of(it), TypeError);
for (const it of ["02000000001", "0200000000011", "02:00:00:00:00", "02:00:00:00:00:0g", "02:00-00:00:00:01"])
    assert.throws(() => ipxr.nodeOf(it), TypeError);
for (const it of ["256.0.0.1:1", "1.2.3.4", "1.2.3.4:65536", "1.2.3.4:", "1.2.3.4:1 "]) assert.throws(() => ipxr.placeOf(it), TypeError);
for (const it of ["123456789", "g", "", "-1", 2 ** 32, 0.5]) assert.throws(() => ipxr.networkOf(it), TypeError);
for (const it of ["12345", 65536]) assert.throws(() => ipxr.socketOf(it), TypeError);
for (const it of ["10.020000000001", "10.020000000001.451.1", ".020000000001.451"]) assert.throws(() => ipxr.addressOf(it), TypeError);

// ---- Making and freeing ----

for (const it of ODD) {
    for (const kind of [ipxr.Tunnel, ipxr.KeyedTunnel, ipxr.Segment, ipxr.Edge, ipxr.Reader]) assert.throws(() => new kind(it), TypeError);
    if (it !== undefined) assert.throws(() => new ipxr.Fair(it), TypeError);
    assert.throws(() => new ipxr.Line(it), TypeError);
    assert.throws(() => new ipxr.HouseholdLimits(it), TypeError);
}
// (what is left away has the numbers that it has in Python)
const { network, node } = SETTING;
for (const kind of [ipxr.Tunnel, ipxr.KeyedTunnel]) new kind({ network, node }).free();
assert.throws(() => new ipxr.Segment({ network, node }), TypeError);
assert.equal(new ipxr.Segment({ network, node, links: 1 }).link(0).share, 0);
assert.equal(new ipxr.Router([{ network, node }]).start().sent.length, 2);
assert.throws(() => new ipxr.Router([{ network, node, longest: 575 }]), fault(ipxr.Fault.BAD_LONGEST));
assert.throws(() => new ipxr.Tunnel({ ...SETTING, capacity: 4097 }), fault(ipxr.Fault.MANY_CLIENTS));
assert.throws(() => new ipxr.Tunnel({ ...SETTING, capacity: 65536 }), TypeError);
assert.throws(() => new ipxr.Segment({ ...SETTING, links: 33, capacity: 9 }), fault(ipxr.Fault.MANY_LINKS));
assert.throws(() => new ipxr.Fair({ one: 2, own: 1, reserve: 0, room: 9 }), RangeError);
assert.throws(() => new ipxr.Limits({ link: 0, rate: 0, share: 1 }), RangeError);
assert.throws(() => new ipxr.HouseholdLimits(0), RangeError);
assert.throws(() => new ipxr.Router([{ network: "10", node: "FFFFFFFFFFFF", cost: 1, longest: 576 }]), fault(ipxr.Fault.BAD_NODE));
assert.throws(() => new ipxr.Edge({ network: 0x10, node: "020000000001", cost: 1, longest: 5 }).isHeld(new Uint8Array()),
    fault(ipxr.Fault.BAD_LONGEST));
for (const [it, number] of [[new ipxr.Tunnel(SETTING), ipxr.Fault.NO_TUNNEL],
    [new ipxr.KeyedTunnel({ ...SETTING, remembered: 4, rememberedShare: 2 }), ipxr.Fault.NO_TUNNEL],
    [new ipxr.Segment({ ...SETTING, links: 2 }), ipxr.Fault.NO_SEGMENT]]) {
    it.free();
    it.free();
    assert.throws(() => it.second(), fault(number));
    assert.throws(() => it.address, fault(number));
}
const meter = new ipxr.Meter();
meter.free();
assert.throws(() => meter.lets(1, 1), /freed/);
const segment = new ipxr.Segment({ ...SETTING, links: 2 });
assert.throws(() => segment.change(2, { kind: 1, share: 1 }), fault(ipxr.Fault.NO_LINK));
assert.throws(() => segment.change(0, { kind: 3, share: 1 }), fault(ipxr.Fault.BAD_LINK));
segment.free();

// ---- Values of a call ----

const tunnel = new ipxr.Tunnel(SETTING);
const sender = new ipxr.Keys().sender("10.0.0.1:2130", 60);
for (const it of ODD) {
    assert.throws(() => tunnel.hear(it, new Uint8Array(30)), TypeError);
    assert.throws(() => tunnel.hear(sender, it), TypeError);
    assert.throws(() => tunnel.send(it), TypeError);
    assert.throws(() => new ipxr.Fair().says(0, it), TypeError);
    assert.throws(() => new ipxr.Course(it), TypeError);
    assert.throws(() => new ipxr.Configuration().line(it ?? 1, { hasCards: it }), TypeError);
}
assert.throws(() => tunnel.hear({ ...sender, isTrusted: 1 }, new Uint8Array(30)), TypeError);
const given = new Uint8Array(40).fill(9);
tunnel.hear(sender, given);
assert.deepEqual(given, new Uint8Array(40).fill(9));
assert.equal(tunnel.hear(sender, new Uint8Array(100_000)).said, ipxr.Said.NOTHING);
tunnel.free();
const edge = new ipxr.Edge({ network: "10", node: "020000000001", cost: 1, longest: 576 });
assert.throws(() => edge.filter(3, [], new Uint8Array(30)), fault(ipxr.Fault.BAD_WAY));
assert.throws(() => edge.filter(1, Array(70).fill({ permits: 1, what: 1, type: 4 }), new Uint8Array(30)), fault(ipxr.Fault.MANY_RULES));
assert.throws(() => edge.filter(1, [{ permits: 2, what: 1 }], new Uint8Array(30)), fault(ipxr.Fault.BAD_RULE));
assert.throws(() => ipxr.plan(Array(65).fill({ network: 1, carrier: 0 }), []), fault(ipxr.Fault.MANY_LINKS));
assert.equal(ipxr.rangesHave(Array(2500).fill({ host: "10.0.0.0", bits: 32 }).concat({ host: "11.0.0.0", bits: 8 }), "11.2.3.4"), true);
assert.notEqual(ipxr.extend("10", Array(2500).fill(1).concat(2), "20",
    ipxr.writePacket("10.020000000001.2", "10.FFFFFFFFFFFF.2", 4, 0, new Uint8Array(9))), null);
const loop = new ipxr.Loop();
assert.throws(() => ipxr.probe(0, 1, 1, 1, loop, loop), TypeError);

const nearest = ipxr.writeSap("10.020000000001.452", "10.0200000000AA.4003", true,
    [{ name: "FILES", address: "30.020000000009.451", type: 4, hops: 3 }]);
assert.deepEqual([edge.isNeedless(3, nearest), edge.isNeedless(4, nearest)], [true, false]);
const configuration = new ipxr.Configuration();
assert.deepEqual([configuration.unlinked(), configuration.line("network 20 1 1500").expected, configuration.unlinked()], [0, 0, 1]);
assert.equal(configuration.line("link tap ipx0 raw").expected, 0);
assert.deepEqual([configuration.unlinked(), configuration.internal(), configuration.links().length], [0, null, 1]);

// ---- Limits that hold: how much passes at once, and why no more does ----

function passed(call) {
    for (let count = 0; count < 5000; count++) {
        const verdict = call();
        if (verdict !== ipxr.Verdict.PASSES) return [count, verdict];
    }
    return [5000, undefined];
}

const { Verdict } = ipxr;
const limits = new ipxr.Limits({ link: ipxr.LimitsLink.TUNNEL, rate: 100, share: 20 });
const household = new ipxr.HouseholdLimits(100);
const reader = () => new ipxr.Reader(limits);
const [client, address, read] = [new ipxr.ClientUse(), new ipxr.AddressUse(), reader()];
const received = passed(() => limits.receives(read, 0, 100));
assert.ok(received[0] > 0 && received[1] === Verdict.TOO_MUCH_FOR_CLIENT);
const other = reader();
for (let k = 0; k < 5; k++) limits.hearsRouter(other, 0, 100);
assert.equal(passed(() => limits.receives(other, 0, 100))[0], received[0] - 5);
const frames = new ipxr.Limits({ link: ipxr.LimitsLink.FRAMES, rate: 100, share: 20 });
const line = new ipxr.Reader(frames);
assert.equal(passed(() => frames.carries(line, 0, 100, 1))[1], Verdict.TOO_MUCH_FOR_LINK);
assert.equal(passed(() => limits.answers(1, client, address))[1], Verdict.TOO_MANY_ANSWERS);
assert.equal(passed(() => limits.routerAnswers(1, client, address))[1], Verdict.TOO_MANY_ANSWERS);
for (const name of ["receives", "receivesOfRouter"]) {
    const all = household.receiver();
    const [count, why] = passed(() => household[name](limits, reader(), all, 0, 100));
    assert.ok(count > 0 && why === Verdict.TOO_MUCH_FOR_ADDRESS, name);
}
const among = new ipxr.Meter();
assert.equal(passed(() => household.receivesOfOwn(limits, reader(), among, 0, 100))[1], Verdict.TOO_MUCH_FOR_ADDRESS);

// ---- A narrow line ----

const narrow = new ipxr.Line(8);
const [to, said] = [new ipxr.LineAddress(), new ipxr.Moment()];
narrow.join(to);
const number = narrow.speak(to);
assert.deepEqual([number > 0, narrow.state().speakers, narrow.letsBeyond(2_000_000_000)], [true, 1, true]);
for (let k = 0; k < 50; k++) narrow.send(2_000_000_000, number, 1400, ipxr.LineRank.BEYOND, said, to);
assert.equal(narrow.letsBeyond(2_000_000_000), false);
for (let k = 0; k < 11; k++) narrow.second(to);
assert.equal(narrow.state().speakers, 0);
const [strangers, one, all] = [narrow.strangers(), new ipxr.Meter(), new ipxr.Meter()];
assert.equal(passed(() => strangers.send(1, one, all))[1], Verdict.TOO_MUCH_FOR_STRANGERS);

// ---- The hash of Keys, by the first vectors of its authors ----

const key = [0x0706050403020100n, 0x0f0e0d0c0b0a0908n];
assert.equal(ipxr.hashOf([], key), 0x726fdb47dd0e0e31n);
assert.equal(ipxr.hashOf([0x0706050403020100n], key), 0x93f5f5799a932462n);
const keys = new ipxr.Keys(new Uint8Array(16));
assert.throws(() => new ipxr.Keys(new Uint8Array(15)), TypeError);
assert.deepEqual(keys.node("10.0.0.1:2130"), new ipxr.Keys(new Uint8Array(16)).node([10, 0, 0, 1, 8, 0x52]));
assert.notDeepEqual(keys.node("10.0.0.1:2130").slice(1), keys.cookie("10.0.0.1:2130", 0).slice(1));
assert.deepEqual(keys.sender("10.0.0.1:2130", 60).previous, keys.sender("10.0.0.1:2130", 59).current);
assert.equal(keys.node("10.0.0.1:2130")[0], 2);
assert.equal(keys.cookie("10.0.0.1:2130", 7)[0], 0);

// ---- Memory is given back ----

const used = () => import("ipxr/raw").then((raw) => raw.memory().length);
for (let k = 0; k < 200; k++) new ipxr.KeyedTunnel({ ...SETTING, remembered: 4, rememberedShare: 2 }).free();
const before = await used();
for (let k = 0; k < 2000; k++) {
    new ipxr.Tunnel(SETTING).free();
    assert.throws(() => new ipxr.Tunnel({ ...SETTING, capacity: 5000 }));
    new ipxr.KeyedTunnel({ ...SETTING, remembered: 4, rememberedShare: 2 }).free();
    new ipxr.Segment({ ...SETTING, links: 2 }).free();
    new ipxr.Configuration().free();
    new ipxr.Reader(new ipxr.Limits({ link: 0, rate: 9, share: 1 })).free();
}
assert.ok((await used()) < before + 2 ** 23);
