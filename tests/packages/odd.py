"""What isn't meant: values of wrong types and sizes, texts that are none, what was freed, and what can't be made."""
import ipxr
from ipxr import Fault

SETTING = ("10", "02:00:00:00:00:01")
PORT = ipxr.Port("10", "020000000001")


def refuses(kinds, call, *given, **how):
    try:
        call(*given, **how)
    except kinds as why:
        return why
    raise AssertionError(f"{call} takes {given}")


def faults(number, call, *given, **how):
    why = refuses(ipxr.IpxrError, call, *given, **how)
    assert why.number == number and str(why) == ipxr.words(number), why


# ---- Texts ----

assert str(ipxr.address("10.0200C0A80001.451")) == "00000010.0200C0A80001.0451"
assert ipxr.address("10.02-00-c0-a8-00-01.451") == (0x10, bytes([2, 0, 0xC0, 0xA8, 0, 1]), 0x451)
assert str(ipxr.Place("192.168.0.1:2130")) == "192.168.0.1:2130" and ipxr.Place(("192.168.0.1", 2130)).pair == ("192.168.0.1", 2130)
assert repr(ipxr.Node([2, 0, 0, 0, 0, 1])) == "Node('020000000001')"
assert ipxr.network_text(0x10) + ipxr.socket_text("2") == "000000100002"
for it in ("02000000001", "0200000000011", "02:00:00:00:00", "02:00:00:00:00:0g", "02:00-00:00:00:01", b"12345", [256] * 6, 6, None, ""):
    refuses((TypeError, ValueError), ipxr.Node, it)
for it in ("256.0.0.1:1", "1.2.3.4", "1.2.3.4:65536", "1.2.3.4:", "1.2.3.4:1 ", b"12345", 6, None):
    refuses((TypeError, ValueError), ipxr.Place, it)
for it in ("123456789", "g", "", "-1", 1 << 32, 0.5, None, True):
    refuses((TypeError, ValueError), ipxr.network_text, it)
for it in ("10.020000000001", "10.020000000001.451.1", ".020000000001.451", None, 5):
    refuses((TypeError, ValueError), ipxr.address, it)

# ---- Making and freeing ----

faults(Fault.MANY_CLIENTS, ipxr.Tunnel, *SETTING, capacity=4097)
refuses(ValueError, ipxr.Tunnel, *SETTING, capacity=65536)
faults(Fault.MANY_LINKS, ipxr.Segment, *SETTING, links=33)
refuses(ValueError, ipxr.Fair, one=2, own=1)
refuses(ValueError, ipxr.Limits, ipxr.LimitsLink.TUNNEL, rate=0, share=1)
refuses(ValueError, ipxr.HouseholdLimits, 0)
faults(Fault.BAD_NODE, ipxr.Router, [PORT._replace(node=ipxr.BROADCAST)])
faults(Fault.NO_PORTS, ipxr.Router, [])
faults(Fault.MANY_PORTS, ipxr.Router, [PORT._replace(network=it) for it in range(1, 34)])
faults(Fault.BAD_LONGEST, ipxr.Edge(PORT._replace(longest=5)).is_held, b"")
for made, number in ((ipxr.Tunnel(*SETTING), Fault.NO_TUNNEL), (ipxr.Segment(*SETTING, links=2), Fault.NO_SEGMENT),
                     (ipxr.KeyedTunnel(*SETTING), Fault.NO_TUNNEL), (ipxr.Router([PORT]), Fault.NO_ROUTER)):
    made.free()
    made.free()
    faults(number, made.second)
segment = ipxr.Segment(*SETTING, links=2)
faults(Fault.NO_LINK, segment.change, 2, 1, 1)
faults(Fault.BAD_LINK, segment.change, 0, 3, 1)
refuses(ValueError, segment.change, 256, 1, 1)
refuses(TypeError, segment.change, 0, 1)

with ipxr.Router([PORT]) as router:
    states = [router.is_running, router.is_up(0)]
    router.start()
    states += [router.is_running, router.is_up(0)]
    router.port_down(0)
    assert [*states, router.is_up(0)] == [False, False, True, True, False]
    faults(Fault.NO_PORT, router.is_up, 1)

# ---- Values of a call ----

tunnel = ipxr.Tunnel(*SETTING)
sender = ipxr.Keys().sender("10.0.0.1:2130", 60)
refuses((TypeError, ValueError), tunnel.send, "x")
assert tunnel.hear(sender, bytes(100_000)).said is ipxr.Said.NOTHING
assert tunnel.hear(sender, b"").said is ipxr.Said.NOTHING
for weight in (-1, 1 << 64, 1.5, None):
    refuses((TypeError, ValueError), ipxr.Fair().says, 0, weight)
refuses(ValueError, ipxr.Fair().says, 256, 0)
edge = ipxr.Edge(PORT)
rule = ipxr.rule(permits=1, what=ipxr.RuleOf.TYPE, type=4)
faults(Fault.BAD_WAY, edge.filter, 3, [], bytes(30))
faults(Fault.MANY_RULES, edge.filter, ipxr.Way.IN, [rule] * 70, bytes(30))
faults(Fault.BAD_RULE, edge.filter, ipxr.Way.IN, [ipxr.rule(permits=2)], bytes(30))
refuses(TypeError, ipxr.rule, permit=1)
refuses(ValueError, ipxr.rule, type=65536)
faults(Fault.MANY_LINKS, ipxr.plan, [ipxr.plan_link(network=1)] * 65, [])
faults(Fault.BAD_NAME, ipxr.write_sap, "10.020000000001.452", "10.FFFFFFFFFFFF.452", [ipxr.ServiceEntry("A" * 48, "1.020000000001.2", 4)])
faults(Fault.NO_ENTRIES, ipxr.write_rip, "10.020000000001.453", "10.FFFFFFFFFFFF.453", ipxr.Rip.REQUEST, [])
refuses(ValueError, ipxr.write_sap, "10.020000000001.452", "10.FFFFFFFFFFFF.452", [ipxr.ServiceEntry("A\0", "1.020000000001.2", 4)])
loop = ipxr.Loop()
refuses(ValueError, ipxr.probe, 0, 1, 1, 1, loop, loop)
assert ipxr.words(-1) and ipxr.words(99) == ""

nearest = ipxr.write_sap("10.020000000001.452", "10.0200000000AA.4003", [ipxr.ServiceEntry("FILES", "30.020000000009.451", 4, 3)],
                         nearest=True)
assert edge.is_needless(3, nearest) and not edge.is_needless(4, nearest)
configuration = ipxr.Configuration()
assert configuration.unlinked() is None and configuration.line("network 20 1 1500").expected is None and configuration.unlinked() == 1
assert configuration.line("link tap ipx0 raw").expected is None
assert configuration.unlinked() is None and configuration.internal() is None and len(configuration.links()) == 1

# ---- Limits that hold: how much passes at once, and why no more does ----


def passed(call):
    for count in range(5000):
        verdict = call()
        if verdict is not ipxr.Verdict.PASSES:
            return count, verdict
    return 5000, None


limits, household = ipxr.Limits(ipxr.LimitsLink.TUNNEL, rate=100, share=20), ipxr.HouseholdLimits(100)
client, address, read, other = ipxr.ClientUse(), ipxr.AddressUse(), ipxr.Reader(limits), ipxr.Reader(limits)
received = passed(lambda: limits.receives(read, 0, 100))
assert received[0] > 0 and received[1] is ipxr.Verdict.TOO_MUCH_FOR_CLIENT
for _ in range(5):
    limits.hears_router(other, 0, 100)
assert passed(lambda: limits.receives(other, 0, 100))[0] == received[0] - 5
frames = ipxr.Limits(ipxr.LimitsLink.FRAMES, rate=100, share=20)
line = ipxr.Reader(frames)
assert passed(lambda: frames.carries(line, 0, 100, 1))[1] is ipxr.Verdict.TOO_MUCH_FOR_LINK
assert passed(lambda: limits.answers(1, client, address))[1] is ipxr.Verdict.TOO_MANY_ANSWERS
assert passed(lambda: limits.router_answers(1, client, address))[1] is ipxr.Verdict.TOO_MANY_ANSWERS
receiver, of_router, among = household.receiver(), household.receiver(), ipxr.Meter()
for call in (lambda: household.receives(limits, ipxr.Reader(limits), receiver, 0, 100),
             lambda: household.receives_of_router(limits, ipxr.Reader(limits), of_router, 0, 100),
             lambda: household.receives_of_own(limits, ipxr.Reader(limits), among, 0, 100)):
    count, why = passed(call)
    assert count > 0 and why is ipxr.Verdict.TOO_MUCH_FOR_ADDRESS

# ---- A narrow line ----

narrow, to, said = ipxr.Line(8), ipxr.LineAddress(), ipxr.Moment()
narrow.join(to)
number = narrow.speak(to)
assert number > 0 and narrow.state.speakers == 1 and narrow.lets_beyond(2_000_000_000)
for _ in range(50):
    narrow.send(2_000_000_000, number, 1400, ipxr.LineRank.BEYOND, said, to)
assert not narrow.lets_beyond(2_000_000_000)
for _ in range(11):
    narrow.second(to)
assert narrow.state.speakers == 0
strangers, one, every = narrow.strangers(), ipxr.Meter(), ipxr.Meter()
assert passed(lambda: strangers.send(1, one, every))[1] is ipxr.Verdict.TOO_MUCH_FOR_STRANGERS

# ---- Keys ----

keys = ipxr.Keys(bytes(16))
refuses(ValueError, ipxr.Keys, bytes(15))
assert keys.node("10.0.0.1:2130") == ipxr.Keys(bytes(16)).node(bytes([10, 0, 0, 1, 8, 0x52]))
assert keys.node("10.0.0.1:2130") != ipxr.Keys().node("10.0.0.1:2130")
assert bytes(keys.sender("10.0.0.1:2130", 60).previous) == bytes(keys.sender("10.0.0.1:2130", 59).current)
assert keys.node("10.0.0.1:2130")[0] == 2 and keys.cookie("10.0.0.1:2130", 7)[0] == 0
