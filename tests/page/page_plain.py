"""What must be plain to who uses the page: where a packet got to and why not, what a form proposes, what is marked. Checks as in
page_checks.py."""
from page_checks import act, captured, count, opened, same, script, settled, shows, text, told, typed, want
from page_file import TOP

PACKET = "FFFF001E0000000000020000000000BB40030000000A0000000000AA4003"
# Two routers between AA on network A and BB on network 2; then somebody forges a route to network 2 by EE on network 1.
FALSE = f"""# host 0000000A.0000000000AA by West (router 0)
# host 00000002.0000000000BB by East (router 1)
router
port 0000000A 000000000101 1 576
port 00000001 000000000102 1 576
router
port 00000001 000000000201 1 576
port 00000002 000000000202 1 576
start 0
start 1
trace 0 0 100 {PACKET}
settle 1000000
trace 0 0 100 {PACKET}
in 0 1 FFFF0028000100000001FFFFFFFFFFFF0453000000010000000000EE045300020000000200010000
settle 1000000
trace 0 0 100 {PACKET}
"""


def step(b, pane, line):
    """Moves the slider to a line of the script, counted from 1; -1 is the last one."""
    b.run("const pane = page.panes[given[0]];"
          "await pane.show(given[1] < 0 ? pane.steps.length - 1 : pane.steps.findIndex((it) => it.line === given[1] - 1))", pane, line)
    settled(b, pane)


def said(b):
    return text(b, "#pane-internet .right .said")


def ends_of_ways(b):
    """Where lines of the colour of a way end: at a head of an arrow or not, and at whose box."""
    return b.run("""
        const near = ([x, y], box) => Math.hypot(x - box.place[0], y - box.place[1]) < box.wide / 2 + 22;
        const pane = page.panes.internet;
        return pane.drawing.shapes.filter((it) => it.colour === 'way' && it.points).map((it) => {
            const at = pane.found.points.find((box) => near(it.points[it.points.length - 1], box));
            return `${at?.key}${it.arrow ? '' : ' lost'}`;
        });""")


def crosses(b):
    return b.run("return page.panes.internet.drawing.shapes.filter((it) => it.text === '✕').length")


def lost(b, _):
    """Internet: what became of a traced packet is said in plain words, and drawn as far as it got"""
    opened(b)
    shows(b, "internet")
    script(b, "internet", FALSE)
    wanted = {
        11: ("0. West, from net A: NoRoute (no route to net 2)\nlost at West: no route to net 2", ["router 0"], 1),
        13: ("0. West, from net A: Forwarded\n1. East, from net 1: Forwarded\narrived at BB on net 2 after 2 routers",
             ["router 0", "router 1", "host 2.BB"], 0),
        16: ("0. West, from net A: Forwarded\nlost behind West: sent on to EE on net 1, which is no router", ["router 0", "host 1.EE lost"],
            1),
    }
    for line, (words, ways, marks) in wanted.items():
        step(b, "internet", line)
        same(said(b), words, f"what is said in line {line}")
        same(ends_of_ways(b), ways, f"where the way ends in line {line}")
        same(crosses(b), marks, f"crosses in line {line}")
    script(b, "internet", FALSE + f"in 0 0 {PACKET[:4]}\nstop 0\nin 0 0 {PACKET}\n")
    step(b, "internet", -1)
    same(said(b), "drop NotRunning (the router is stopped)", "why it is dropped")
    same(crosses(b), 1, "where it is dropped")


def opens(b, name):
    """Opens the form of an act; what its fields propose, or nothing where it doesn't open."""
    b.click(f"#pane-internet [data-act={name}]")
    return b.run("return Object.fromEntries([...document.querySelectorAll('dialog [name]')].map((it) => [it.name, it.value]))")


def closes(b):
    b.run("document.querySelector('dialog').close()")


def refuses(b, values):
    """What the form says of values that it doesn't take, beside the last of them; which then is again as it was."""
    field = f"dialog [name={[*values][-1]}]"
    before = b.run("return document.querySelector(given[0]).value", field)
    for name, value in values.items():
        b.run("document.querySelector(given[0]).value = given[1]", f"dialog [name={name}]", value)
    b.click("dialog button.main")
    beside = b.run("const it = document.querySelector(given[0]); const fault = it.closest('label').nextElementSibling;"
                   "return [fault.className, fault.textContent, it.getAttribute('aria-invalid'), it === document.activeElement,"
                   "it.getAttribute('aria-describedby') === fault.id, document.querySelectorAll('[aria-invalid]').length]", field)
    same([beside[0], *beside[2:]], ["fault", "true", True, True, 1], f"beside {field}")
    b.run("document.querySelector(given[0]).value = given[1]", field, before)
    return beside[1]


def forged(b, _):
    """Internet: behind a forged response the tables that it changed are marked, its arrow comes from a host that is called forged"""
    opened(b)
    shows(b, "internet")
    script(b, "internet", FALSE.split("in 0 1")[0])
    step(b, "internet", -1)
    opens(b, "forge")
    for field, value in {"network": "XY", "hops": "many", "ticks": "-1", "node": "!"}.items():
        refuses(b, {field: value})
    closes(b)
    act(b, "forge", {"link": "0 1", "node": "EE", "network": "2", "hops": "1", "ticks": "0"})
    want("· settle" in text(b, "#pane-internet .moment"), "the step behind the act")
    want("tables changed: West" in text(b, "#pane-internet .moment"), f"the mark: {text(b, '#pane-internet .moment')}")
    same(count(b, "#pane-internet .picture g[aria-label^='router West'][aria-label$='its tables changed']"), 1, "the dot")
    b.run("page.panes.internet.choose('router 0')")
    settled(b, "internet")
    same(count(b, "#pane-internet .tables tr.changed, #pane-internet .tables tr.new"), 1, "the route that is marked")
    same(count(b, "#pane-internet .picture g[aria-label='forged host EE on network 1']"), 1, "the host that is forged")
    want("EE (forged)" in text(b, "#pane-internet .picture"), "its name")
    way = b.run("""
        const pane = page.panes.internet;
        const [line] = pane.drawing.shapes.filter((it) => it.colour === 'rip' && it.arrow);
        const [start, end] = [line.points[0], line.points[line.points.length - 1]];
        const far = ([x, y], key) => { const it = pane.found.points[pane.found.at.get(key)]; return Math.hypot(x - it.place[0],
            y - it.place[1]); };
        return [far(start, 'host 1.EE') < 70, far(end, 'router 0') < 40];""")
    same(way, [True, True], "from the forging host to the router")
    act(b, "forge", {"link": "0 1", "node": "EE", "network": "3"})
    same(b.run("return page.panes.internet.editor.text.split('(forged)').length - 1"), 1, "the host is told once")


def mended(b, _):
    """Internet: only what is down can be mended, and it is proposed; a click on a line of the picture proposes its port"""
    opened(b)
    shows(b, "internet")
    script(b, "internet", FALSE)
    step(b, "internet", -1)
    same(opens(b, "up"), {}, "no form")
    same(told(b), "nothing is down here", "what is said")
    b.run("""
        const it = document.querySelector("#pane-internet .picture g[data-key='port 1 1'] polyline:last-of-type");
        const [start, end] = it.getAttribute('points').split(' ').map((one) => one.split(',').map(Number));
        const at = it.ownerSVGElement.createSVGPoint();
        [at.x, at.y] = [start[0] * 0.45 + end[0] * 0.55, start[1] * 0.45 + end[1] * 0.55 + 4];
        const { x, y } = at.matrixTransform(it.getScreenCTM());
        document.elementFromPoint(x, y).dispatchEvent(new MouseEvent('click', { bubbles: true }));""")
    settled(b, "internet")
    same(opens(b, "down"), {"link": "1 1"}, "the port that was clicked on")
    want("Link or port" in text(b, "dialog"), "its label")
    closes(b)
    act(b, "down", {"link": "1 1"})
    b.run("page.panes.internet.choose('router 0')")
    same(opens(b, "up"), {"link": "net 2"}, "what is down")
    same(b.run("return [...document.querySelectorAll('dialog option')].map((it) => it.value)"), ["net 2", "1 1"], "nothing else")
    closes(b)
    act(b, "up", {"link": "1 1"})
    same(opens(b, "up"), {}, "nothing is left")


def proposed(b, _):
    """Internet: forms propose a fresh node, all routers while none runs, the hosts of the last packet; and say where they insert"""
    opened(b)
    shows(b, "internet")
    script(b, "internet", "router\nport 00000010 000000000001 1 576\nrouter\nport 00000010 000000000002 1 576\n")
    for node in ("AA", "BB", "CC"):
        same(opens(b, "host")["node"], node, "a fresh node")
        closes(b)
        act(b, "host", {"network": "10"})
    same(b.run("return page.panes.internet.script.hosts.map((it) => it.node).join()"), "AA,BB,CC",
        "hosts in the order in which they were added")
    same(opens(b, "start")["router"], "all", "all routers")
    want("inserts" not in text(b, "dialog"), "at the end nothing is inserted")
    closes(b)
    act(b, "start", {"router": "0"})
    same(opens(b, "start")["router"], "0", "the router that is chosen")
    closes(b)
    act(b, "send", {"from": "10.CC", "to": "10.AA"})
    same(opens(b, "send"), {"from": "10.CC", "to": "10.AA"}, "the hosts of the last packet")
    closes(b)
    want("(waiting packets arrive)" in (step(b, "internet", 9), text(b, "#pane-internet .moment"))[1], "what settle does")
    opens(b, "time")
    want("in steps of (s)" in text(b, "dialog") and "inserts behind line 9" in text(b, "dialog"), text(b, "dialog"))
    closes(b)


def chosen_example(b, name):
    b.run("const it = document.querySelector('#pane-capture .drop select'); it.value = given[0]; it.dispatchEvent(new Event('change'))",
        name)
    b.waits("document.querySelector('#told').textContent.startsWith(given[0]) && !page.programs[1].isBusy", name)


def columns(b, number):
    """What stands in a column of the list."""
    return b.run("const all = document.querySelectorAll(`#pane-capture .scroller .row span:nth-child(${given[0]})`);"
                 "return [...all].map((it) => it.textContent)", number)


def framed(b, _):
    """Capture: kinds of frames stand in words in the list and, where they differ, in the ladder; the detail follows the filter"""
    opened(b)
    shows(b, "capture")
    captured(b, f"{TOP}/tests/decode/kinds.pcap")
    same(columns(b, 5)[:4], ["Ethernet II", "802.3 raw", "802.2", "SNAP"], "kinds of frames")
    want("SNAP · RIP request" in text(b, "#pane-capture .picture"), "the ladder tells kinds that differ")
    chosen_example(b, "nearest-server")
    want(" · " not in text(b, "#pane-capture .picture"), "and none where they don't")
    typed(b, "#pane-capture [name=word]", "rip response")
    b.waits("document.querySelector('#pane-capture .detail h2')?.textContent.includes('RIP response')")
    want("802.3 raw (Raw), RIP response" in text(b, "#pane-capture .detail h2"), "the record that is left")
    typed(b, "#pane-capture [name=word]", "nothing so")
    b.waits("!document.querySelector('#pane-capture .detail').textContent")


def unanswered(b, _):
    """Capture: queries that nobody answers are marked, with what their frame has to do with it; a node is told once"""
    opened(b)
    shows(b, "capture")
    chosen_example(b, "no-server")
    silent = [k + 1 for k, it in enumerate(columns(b, 6)) if it.startswith("✕ no answer")]
    same(silent, [3, 4, 7, 11], "the queries that nobody answers")
    same(count(b, "#pane-capture .picture g[aria-label$=', no answer']"), 4, "in the ladder")
    b.click("#pane-capture .scroller .row:nth-child(3)")
    b.waits("document.querySelector('#pane-capture .detail .fault')")
    same(text(b, "#pane-capture .detail .fault"),
         "Nobody answers within 10 s. It is sent as 802.3 raw; routers and servers here use 802.2.", "why")
    b.click("#pane-capture .scroller .row:nth-child(5)")
    b.waits("document.querySelector('#pane-capture .detail h2').textContent.startsWith('Record 5:')")
    same(count(b, "#pane-capture .detail .fault"), 0, "a query that is answered")
    b.run("document.querySelectorAll('#pane-capture .more details')[1].open = true")
    b.waits("document.querySelector('#pane-capture .tables td')")
    parties = b.run("return [...document.querySelectorAll('#pane-capture .tables td:first-child')].map((it) => it.textContent)")
    want(not any("0.1B020433" == one for it in parties for one in it.split(" ↔ ")), f"told without its network: {parties}")
    chosen_example(b, "nearest-server")
    same([it for it in columns(b, 6) if "no answer" in it], [], "where all is answered")


def named(b, _):
    """the box of examples names what is loaded and says what it shows, until it is changed; buttons say what they do; a legend"""
    opened(b)
    shows(b, "internet")
    settled(b, "internet")
    shown = "const pane = page.panes[given[0]]; return [pane.menu.value, pane.about.textContent]"
    about = "A ring of four routers, one of whose links fails: how long until packets go round the other side."
    same(b.run(shown, "internet"), ["ring", about], "named")
    script(b, "internet", FALSE)
    same(b.run(shown, "internet"), ["", ""], "another script")
    b.click("#pane-internet .help")
    want("its tables changed" in text(b, "dialog.legend"), "the legend")
    b.click("dialog.legend button.main")
    b.waits("!document.querySelector('dialog')")
    shows(b, "capture")
    b.waits("page.panes.capture.menu.value === 'nearest-server'")
    chosen_example(b, "no-server")
    named_so, what = b.run(shown, "capture")
    want(named_so == "no-server" and "nobody answers" in what, f"{named_so}: {what}")
    captured(b, f"{TOP}/tests/decode/kinds.pcap")
    same(b.run(shown, "capture"), ["", ""], "a file")
    labels = b.run("return [...document.querySelectorAll('button')].map((it) => it.textContent)")
    want(labels.count("Save picture") == 3 and "Copy link" in labels and "Cancel" in labels and not {"Picture", "Link"} & set(labels),
        str(labels))


def narrow(b, _):
    """narrow: fields of forms aren't cut, nodes of the list differ, the map fits, and a ladder begins at its router"""
    opened(b)
    b.resize(400, 860)
    shows(b, "capture")
    chosen_example(b, "no-server")
    want(b.run("""
        const ends = [...document.querySelectorAll('#pane-capture .scroller .row span:nth-child(n + 3):nth-child(-n + 4)')];
        return ends.length > 8 && ends.every((it) => it.scrollWidth <= it.clientWidth);"""), "addresses are cut")
    same(b.run("return document.querySelector('#pane-capture .scroller .row').offsetHeight"), 40, "two lines")
    shows(b, "internet")
    script(b, "internet", FALSE)
    want(b.run("const it = document.querySelector('#pane-internet .picture'); return it.scrollWidth <= it.clientWidth"), "the map fits")
    opens(b, "down")
    want(b.run("""
        const dialog = document.querySelector('dialog').getBoundingClientRect();
        const all = [...document.querySelectorAll('dialog [name]')].map((it) => it.getBoundingClientRect());
        return all.every((it) => it.right <= dialog.right && it.left >= dialog.left) && dialog.right <= innerWidth;"""), "fields are cut")
    closes(b)
    shows(b, "router")
    settled(b, "router")
    want(b.run("""
        const picture = document.querySelector('#pane-router .picture').getBoundingClientRect();
        const words = [...document.querySelectorAll('#pane-router .picture text')];
        const head = words.find((it) => it.textContent === 'router').getBoundingClientRect();
        return head.left >= picture.left && head.right <= picture.right;"""), "the router is out of sight")
    b.resize(1280, 940)


# What is tried in Chromium alone, whose window can be as narrow as that.
def beside(b, _):
    """Internet: before a failure, in it and afterwards, side by side; a click goes there"""
    opened(b)
    shows(b, "internet")
    settled(b, "internet")
    b.run("document.querySelectorAll('#pane-internet .fine input')[1].click()")
    heads = b.run("return [...document.querySelectorAll('#pane-internet .picture g[data-key]')].map((it) => it.getAttribute('aria-label'))")
    same([it.partition(";")[0] for it in heads[:2]], ["70 s: before", "70 s: net AB fails at A and B"], "moments")
    same(len(heads), 6, "moments of the ring")
    b.run("document.querySelectorAll('#pane-internet .picture g[data-key]')[2].dispatchEvent(new MouseEvent('click', { bubbles: true }))")
    settled(b, "internet")
    want(text(b, "#pane-internet .moment").startswith("Second 120"), "the moment that was clicked on")
    same(count(b, "#pane-internet .picture g[data-key^='router ']"), 4, "one map again")


NARROW = [narrow]
PLAIN = [beside, named, framed, unanswered, lost, forged, mended, proposed]
