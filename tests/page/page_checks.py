"""What is tried on the page, in one browser: each check uses it as a person would, and raises what is wrong."""
import base64
import glob
import json
import os
import time

import page_inputs
from browsers import Failed
from page_file import MADE, TOP

ADDRESS = f"file://{MADE}"
FAR = "FFFF001E0000000000400000000000CC4003000000100000000000AA4003"
# What a router sends is lost, since the other's port is down.
LOST = """router
port 00000010 000000000101 1 576
router
port 00000010 000000000201 1 576
start 1
down 1 0
settle 100
start 0
settle 1
"""
WATCH = """
window.faults = [];
addEventListener('error', (it) => faults.push(it.message));
addEventListener('unhandledrejection', (it) => it.defaultPrevented || faults.push(String(it.reason)));
window.saved = [];
const make = URL.createObjectURL;
URL.createObjectURL = (it) => { saved.push(it); return make.call(URL, it); };
HTMLAnchorElement.prototype.click = function () {};
"""


def want(is_so, what):
    if not is_so:
        raise AssertionError(what)


def same(found, wanted, what):
    want(found == wanted, f"{what}: {str(found)[:300]!r}, and wanted is {str(wanted)[:300]!r}")


def opened(b, link=""):
    """Opens the page anew."""
    b.go("about:blank")
    b.go(ADDRESS + link)
    b.waits("window.page && window.page.shown")
    b.run(WATCH)


def shows(b, pane):
    b.click(f"#tab-{pane}")
    b.waits(f"!document.querySelector('#pane-{pane}').hidden")


def told(b):
    return b.run("return document.querySelector('#told').textContent")


def text(b, selector):
    return b.run("return document.querySelector(given[0]).textContent", selector)


def count(b, selector):
    return b.run("return document.querySelectorAll(given[0]).length", selector)


def typed(b, selector, words):
    """Types into a field in place of what is there."""
    b.clear(selector)
    b.type(selector, words)


def script(b, pane, words):
    """Puts a text into an editor, as pasting does, and waits for its run."""
    b.run("const pane = page.panes[given[0]]; const round = pane.round; pane.editor.area.value = given[1];"
          "pane.editor.area.dispatchEvent(new Event('input'));", pane, words)
    settled(b, pane)


def settled(b, pane):
    """Waits until all that was asked of the program has been answered and drawn."""
    b.run("await new Promise((it) => setTimeout(it, 300));")
    b.waits("!page.programs.some((it) => it.isBusy) && !page.panes[given[0]].isAsking", pane)


def last_saved(b):
    return b.run("return saved[saved.length - 1].text()")


def chosen(b, selector, file):
    """Chooses a file where a person would; WebKit's driver can't, so there the page is handed one."""
    if b.name != "webkit":
        b.type(selector, file)
        return
    b.run("const bytes = Uint8Array.from(atob(given[1]), (it) => it.charCodeAt(0)); const box = new DataTransfer();"
          "box.items.add(new File([bytes], given[2])); const input = document.querySelector(given[0]); input.files = box.files;"
          "input.dispatchEvent(new Event('change'));", selector, base64.b64encode(page_inputs.content(file)).decode(),
          os.path.basename(file))


def captured(b, file):
    """Chooses a capture, and waits until it is shown."""
    b.waits("!page.programs[1].isBusy")
    b.run("document.querySelector('#told').textContent = ''")
    chosen(b, "#file", file)
    b.waits("document.querySelector('#told').textContent.startsWith(given[0])", os.path.basename(file))
    b.waits("!page.programs[1].isBusy")


# ---- Checks; the first line of each is its name ----


def texts(b, _):
    """kept texts, byte for byte, whole and line by line"""
    opened(b)
    for batch in page_inputs.batches():
        wrong = b.run("""
            const bytes = (it) => Uint8Array.from(atob(it), (one) => one.charCodeAt(0));
            const wrong = [];
            for (const [name, verb, typed, wanted, status] of given[0]) {
                for (const isByLine of [false, true]) {
                    const done = await page.programs[0].run(verb, bytes(typed), isByLine);
                    const said = done.text + done.error;
                    if (done.status !== status || said !== new TextDecoder().decode(bytes(wanted))) wrong.push(name + ' ' + done.status);
                }
            }
            return wrong;""", batch)
        same(wrong, [], "other than kept")


def silent(b, _):
    """nothing is fetched: the page's policy refuses it"""
    opened(b)
    refused = b.run("""
        const tried = [];
        addEventListener('securitypolicyviolation', (it) => tried.push(it.effectiveDirective));
        const image = document.createElement('img'); image.src = 'http://127.0.0.1:9/x'; document.body.append(image);
        await fetch('http://127.0.0.1:9/').catch(() => tried.push('failed'));
        await new Promise((it) => setTimeout(it, 200));
        image.remove();
        return tried;""")
    want("connect-src" in refused and "img-src" in refused, f"refused: {refused}")
    want("://" not in page_inputs.content(MADE).decode().replace("http://www.w3.org/2000/svg", ""), "an address stands in the page")


def capture(b, folder):
    """Capture: choose a file, filter, look at a packet, ladder, totals, save"""
    opened(b)
    shows(b, "capture")
    file = os.path.join(TOP, "tests/decode/routes.pcap")
    wanted = page_inputs.content(file.replace(".pcap", ".out")).decode()
    records = wanted.count("record ")
    captured(b, file)
    same(text(b, "#pane-capture output"), f"{records} records", "count")
    same(b.run("return page.programs[1].ask('text')"), wanted, "text")
    typed(b, "#pane-capture [name=word]", "rip request")
    b.waits("document.querySelector('#pane-capture output').textContent.includes(' of ')")
    requests = wanted.count("rip request")
    same(text(b, "#pane-capture output"), f"{requests} of {records} records", "filtered")
    # (the ladder is drawn behind the count)
    b.waits(f"document.querySelectorAll('#pane-capture .picture [data-key]').length === {requests}")
    b.click("#pane-capture .scroller .row")
    b.waits("document.querySelector('#pane-capture .detail .fields')")
    want("RIP operation1 request" in text(b, "#pane-capture .fields"), "fields of a request")
    b.run("document.querySelector('#pane-capture .filters button:nth-child(2)').click(); await new Promise((it) => setTimeout(it, 300))")
    lines = [json.loads(it) for it in last_saved(b).splitlines()]
    want(all(it["line"] in ("record", "rip", "net") for it in lines) and lines[0]["line"] == "record", "JSON")
    b.run("document.querySelector('#pane-capture .filters button:nth-child(3)').click()")
    want(last_saved(b).startswith("<svg xmlns="), "picture")
    b.run("document.querySelectorAll('#pane-capture .more details').forEach((it) => (it.open = true))")
    b.waits("document.querySelector('#pane-capture .tables tbody tr')")  # (drawn once the browser says that it is open)


def filters(b, _):
    """Capture: filters by address, type, socket and word leave the records that they name"""
    opened(b)
    shows(b, "capture")
    wanted = [("sockets", {"socket": "453"}), ("sockets", {"type": "4"}), ("kinds", {"address": "000000000001"}),
        ("services", {"word": "bad"}),
              ("crossed", {"type": "20", "word": "crossed bad"}), ("routes", {"socket": "0452"})]
    for name, filter_by in wanted:
        lines = page_inputs.content(f"{TOP}/tests/decode/{name}.out").decode()
        records = ["record " + it for it in ("\n" + lines).split("\nrecord ")[1:]]
        left = [it for it in records if named(it, **filter_by)]
        captured(b, f"{TOP}/tests/decode/{name}.pcap")
        b.run("for (const [name, value] of Object.entries(given[0])) {"
              "const it = document.querySelector(`#pane-capture form [name=${name}]`); it.value = value;"
              "it.dispatchEvent(new Event(it.tagName === 'SELECT' ? 'change' : 'input')); }", filter_by)
        b.waits("document.querySelector('#pane-capture output').textContent === given[0]", f"{len(left)} of {len(records)} records")
        same(b.run("return page.programs[1].ask('text')"), "".join(f"{it.strip()}\n" for it in left), f"{name}, {filter_by}")


def named(record, address="", type="", socket="", word=""):
    """Whether a filter's words name a record of `ipxr decode`."""
    head = record.split("\n")[0].split()
    if word and word.upper() not in record.upper():
        return False
    if not (address or type or socket):
        return True
    if len(head) != 11:
        return False
    ends = head[3:5]
    return (not type or head[8] == type) and (not socket or any(it.endswith("." + socket.rjust(4, "0")) for it in ends)) and any(
        address in it for it in ends)


def fields_agree(b, _):
    """Capture: every value that ipxr decode tells stands among the fields of its record"""
    opened(b)
    shows(b, "capture")
    for name in ("fields", "kinds", "routes", "services", "crossed", "sockets"):
        captured(b, f"{TOP}/tests/decode/{name}.pcap")
        wrong = b.run("""
            const wrong = [];
            for (let place = 0; place < page.panes.capture.opened.count; place++) {
                await page.panes.capture.pick(place);
                const told = document.querySelector('#pane-capture .detail .said').textContent.split('\\n');
                if (told[0].split(' ').length !== 11) continue;
                const shown = [...document.querySelectorAll('#pane-capture .fields td')].flatMap((it) => it.textContent.split(' '));
                const words = told.flatMap((it, k) => (k ? it : it.replace(/^record \\d+ \\w+/, '')).split(/[ .]/));
                const values = words.filter((it) => it && !/^[a-z-]+$/.test(it) && !/^[A-Z][a-z]/.test(it));
                const missing = values.filter((it) => !shown.includes(it));
                if (missing.length) wrong.push(place + 1 + ': ' + missing.join(' '));
            }
            return wrong;""")
        same(wrong, [], name)


def dropped(b, _):
    """pcapng is dropped, and what was skipped is said; a script is dropped"""
    opened(b)
    shows(b, "capture")
    b.run("const bytes = Uint8Array.from(atob(given[0]), (it) => it.charCodeAt(0)); const box = new DataTransfer();"
          "box.items.add(new File([bytes], 'new.pcapng'));"
          "const how = { dataTransfer: box, bubbles: true, cancelable: true };"
          "document.querySelector('#pane-capture').dispatchEvent(new DragEvent('drop', how));",
          base64.b64encode(page_inputs.pcapng()).decode())
    b.waits("document.querySelector('#told').textContent.startsWith('new.pcapng')")
    same(b.run("return page.programs[1].ask('text')"), page_inputs.content(f"{TOP}/examples/nearest-server.out").decode(), "text")
    skipped = ["1 × name resolution block", "1 × packet of link type 6", "1 × interface statistics block"]
    same(told(b), " · ".join(["new.pcapng: 5 records", *(f"skipped {it}" for it in skipped)]), "told")
    same(text(b, "#pane-capture .scroller .row:nth-child(5) span:nth-child(2)"), "4.000", "time of the last")
    b.run("const box = new DataTransfer(); box.items.add(new File([given[0]], 'two.internet'));"
          "document.body.dispatchEvent(new DragEvent('drop', { dataTransfer: box, bubbles: true, cancelable: true }));",
          "router\nport 00000010 000000000001 1 576\nstart 0\n")
    b.waits("page.shown === 'internet' && page.panes.internet.steps.length === 2")


def large(b, folder):
    """Capture: 45 MB are opened, scrolled to the end, and filtered"""
    opened(b)
    shows(b, "capture")
    file, records = page_inputs.large(folder)
    if b.name == "webkit":
        b.run("const one = Uint8Array.from(atob(given[0]), (it) => it.charCodeAt(0)); const records = one.slice(24);"
              "window.large = new Uint8Array(24 + given[1] * records.length); large.set(one);"
              "for (let k = 0; k < given[1]; k++) large.set(records, 24 + k * records.length);",
              base64.b64encode(page_inputs.content(f"{TOP}/examples/nearest-server.pcap")).decode(), records // 5)
        took = b.run("const start = performance.now(); await page.panes.capture.open('large.pcap', large);"
                     "return performance.now() - start;")
    else:
        b.run("const open = page.panes.capture.open; page.panes.capture.open = async function (...given) { const start = performance.now();"
              "await open.apply(this, given); window.took = performance.now() - start; };")
        chosen(b, "#file", file)
        took = b.waits("window.took")
    decoded = b.run("const bytes = window.large; return page.panes.capture.opened.took")
    print(f"        45 MB: the program ran {decoded / 1000:.2f} s, all was shown after {took / 1000:.2f} s")
    same(told(b), f"large.pcap: {records} records", "told")
    b.run("const it = document.querySelector('#pane-capture .list'); it.focus();"
          "it.dispatchEvent(new KeyboardEvent('keydown', { key: 'End' }));")
    b.waits("document.querySelector('#pane-capture .scroller [aria-selected=true] span')?.textContent === given[0]", str(records))
    typed(b, "#pane-capture [name=address]", "BEEF")
    b.waits("document.querySelector('#pane-capture output').textContent === given[0]", f"{records // 5} of {records} records")
    os.remove(file)


def internet(b, _):
    """Internet: an example is chosen, moved through, and its router clicked on"""
    opened(b)
    shows(b, "internet")
    b.run("const it = document.querySelector('#pane-internet select'); it.value = 'ring'; it.dispatchEvent(new Event('change'))")
    settled(b, "internet")
    same(count(b, "#pane-internet .picture g[data-key^='router ']"), 4, "routers")
    same(count(b, "#pane-internet .picture g[data-key^='network ']"), 6, "networks")
    same(count(b, "#pane-internet .picture g[data-key^='port ']"), 10, "ports")
    same(b.run("return page.panes.internet.drawing.shapes.filter((it) => it.arrow).length"), 3, "arrows of the first trace")
    b.run("const pane = page.panes.internet; await pane.show(pane.steps.findIndex((it) => it.words.join(' ') === 'down 1 1'))")
    settled(b, "internet")
    same(count(b, "#pane-internet .picture g[aria-label$='down']"), 2, "ports that are down")
    b.click("#pane-internet .picture g[data-key='router 1'] text")
    b.waits("document.querySelector('#pane-internet .tables h2').textContent === 'Router B'")
    want(count(b, "#pane-internet .tables tr.gone") > 0, "a route that is gone")
    before = text(b, "#pane-internet .moment")
    b.click("#pane-internet [aria-label='one step on']")
    settled(b, "internet")
    want(text(b, "#pane-internet .moment") != before, "a step on")
    b.click("#pane-internet .fine input")
    settled(b, "internet")
    want(b.run("return page.panes.internet.steps.length") > 300, "fine steps")
    b.click("#pane-internet .fine input")
    settled(b, "internet")


def moving(b, _):
    """Internet: the packets of each settle of the examples are followed, as many as ipxr internet says; one by one in slow motion"""
    opened(b)
    shows(b, "internet")
    settled(b, "internet")
    followed = b.run("""
        const found = {};
        for (const [name, text] of Object.entries(page.panes.internet.kind.examples)) {
            const { moved, why } = await page.programs[2].ask('moves', { text });
            found[name] = [moved.size, text.split('\\n').filter((it) => it.startsWith('settle ')).length, why];
        }
        return found;""")
    for name, (found, settles, why) in followed.items():
        is_stopped = name == "storm" and found > 20 and "deliveries" in why
        want(is_stopped or (found, why) == (settles, ""), f"{name}: {found} of {settles}, {why}")
    b.click("#pane-internet .fine input")
    settled(b, "internet")
    b.run("const pane = page.panes.internet; await pane.show(pane.steps.findIndex((it) => it.words[0] === 'settle'))")
    b.waits("document.querySelector('#pane-internet .right .said').textContent.includes(' to ')")
    want(": RIP" in text(b, "#pane-internet .right .said"), "the first delivery is told")
    same(b.run("return page.panes.internet.drawing.shapes.filter((it) => it.arrow).length"), 1, "its arrow")
    script(b, "internet", LOST)
    b.run("const pane = page.panes.internet; await pane.show(pane.steps.length - 1)")
    b.waits("document.querySelector('#pane-internet .right .said').textContent.includes(': lost, the port is down')")
    same(b.run("return page.panes.internet.drawing.shapes.filter((it) => it.text === '✕').length"), 1, "where the packet is lost")
    b.click("#pane-internet .fine input")


def quick(b, _):
    """Internet: each example is drawn soon after it is chosen"""
    opened(b)
    shows(b, "internet")
    settled(b, "internet")
    times = b.run("""
        const pane = page.panes.internet;
        const draw = pane.draw;
        const found = {};
        for (const name of Object.keys(pane.kind.examples)) {
            const start = performance.now();
            found[name] = await new Promise((done) => {
                pane.draw = function (...given) { draw.apply(this, given); done(performance.now() - start); };
                pane.example(name);
            });
            while (pane.isAsking) await new Promise((it) => setTimeout(it, 5));
        }
        return found;""")
    slowest = max(times, key=times.get)
    print(f"        the slowest, {slowest}, is drawn after {times[slowest] / 1000:.2f} s")
    same(len(times), len(glob.glob(f"{TOP}/examples/*.internet")), "examples")


def wrong_line(b, _):
    """Internet: a wrong line is told while one types, and what was expected"""
    opened(b)
    shows(b, "internet")
    b.click("#pane-internet .left .bar button:nth-child(2)")
    b.click("#pane-internet .editor textarea")
    b.type("#pane-internet .editor textarea", "router\ue007port 00000010 000000000001 1 576\ue007strat 0")
    expected = "router, port, start, stop, second, in, down, up, settle, trace, routes or services"
    b.waits("document.querySelector('#told').textContent === given[0]", f"line 3: command ('strat': expected a command: {expected})")
    want(b.run("return !document.querySelector('#pane-internet .mark.wrong').hidden"), "the line is marked")
    same(text(b, "#pane-internet .right .said"), "line 3: command", "the answer to the last line")
    same(count(b, "#pane-internet .picture g[data-key^='router ']"), 1, "routers")


def act(b, name, values, pane="internet"):
    """An act by its button and its form."""
    b.click(f"#pane-{pane} [data-act={name}]")
    for field, value in values.items():
        if b.run("return document.querySelector(given[0]).tagName", f"dialog [name={field}]") == "SELECT":
            b.run("document.querySelector(given[0]).value = given[1]", f"dialog [name={field}]", value)
        else:
            typed(b, f"dialog [name={field}]", value)
    b.click("dialog button.main")
    b.waits("!document.querySelector('dialog')")
    settled(b, pane)


def built(b, _):
    """Internet: four routers are built by hand, a link breaks, and the packet arrives again; a response is forged; the script is right"""
    opened(b)
    shows(b, "internet")
    b.click("#pane-internet .left .bar button:nth-child(2)")
    settled(b, "internet")
    for networks in ("10 1A", "1A 1B", "1B 40"):
        act(b, "router", {"networks": networks})
    act(b, "router", {"networks": "1A"})
    act(b, "network", {"router": "3", "network": "1C"})
    act(b, "network", {"router": "2", "network": "1C"})
    act(b, "host", {"network": "10", "node": "AA"})
    act(b, "host", {"network": "40", "node": "CC"})
    act(b, "start", {"router": "all"})
    act(b, "time", {"seconds": "60"})
    send = {"from": "10.AA", "to": "40.CC"}

    def sent():
        act(b, "send", send)
        return b.run("const pane = page.panes.internet; return pane.steps[pane.at].said.map((it) => it.split(' ').slice(3, 6).join(' '))")

    way = ["0 0 Forwarded", "1 0 Forwarded", "2 0 Forwarded"]
    other = ["0 0 Forwarded", "3 0 Forwarded", "2 2 Forwarded"]
    first = sent()
    want(first in (way, other), f"the way: {first}")
    act(b, "down", {"link": "net 1B" if first == way else "net 1C"})
    times = 0
    while sent() != (other if first == way else way):
        times += 1
        want(times < 40, "the packet never arrives again")
        act(b, "time", {"seconds": "10"})
    act(b, "forge", {"link": "0 0", "node": "EE", "network": "99", "hops": "1", "ticks": "1"})
    b.click("#pane-internet .picture g[data-key='router 0'] text")
    want("99" in text(b, "#pane-internet .tables table"), "the forged route")
    b.click("#pane-internet .left .bar button:nth-child(4)")
    saved = last_saved(b)
    same(b.run("return (await page.programs[0].run('internet', given[0])).status", saved), 0, "status of the saved script")
    b.click("#pane-internet .left .bar button:nth-child(5)")
    settled(b, "internet")
    want(b.run("return page.panes.internet.editor.text") != saved, "undo")


def keyboard(b, _):
    """keys alone: tabs, a router of the map, a field that is wrong"""
    opened(b)
    shows(b, "internet")
    settled(b, "internet")
    b.run("document.querySelector('#pane-internet .picture g[data-key=\"router 2\"]').focus();"
          "document.activeElement.dispatchEvent(new KeyboardEvent('keydown', { key: 'Enter', bubbles: true }))")
    same(text(b, "#pane-internet .tables h2"), "Router C", "chosen by Enter")
    same(b.run("return document.activeElement.dataset.key"), "router 2", "the focus stays")
    b.click("#pane-internet [data-act=router]")
    b.type("dialog [name=networks]", "XYZ\ue007")
    want("hexadecimal" in text(b, "dialog .fault"), "what is wrong is said")
    b.run("document.querySelector('dialog').close()")
    b.run("document.querySelector('#tab-internet').focus();"
          "document.activeElement.dispatchEvent(new KeyboardEvent('keydown', { key: 'ArrowRight', bubbles: true }))")
    same(b.run("return [page.shown, document.activeElement.id].join()"), "router,tab-router", "the next tab")
    unnamed = b.run("""
        const isNamed = (it) => it.textContent.trim() || it.getAttribute('aria-label') || it.labels?.length || it.hidden;
        const all = [...document.querySelectorAll('button, input, select, textarea, g[role=button]')];
        return all.filter((it) => !isNamed(it)).map((it) => it.outerHTML.slice(0, 80));""")
    same(unnamed, [], "without a name for who doesn't see")


def router(b, _):
    """Router: an example's ladder and tables, step by step"""
    opened(b)
    shows(b, "router")
    b.run("const it = document.querySelector('#pane-router select'); it.value = 'services'; it.dispatchEvent(new Event('change'))")
    settled(b, "router")
    out = page_inputs.content(f"{TOP}/examples/services.out").decode()
    came = page_inputs.content(f"{TOP}/examples/services.script").decode().count("\nin ")
    same(count(b, "#pane-router .picture g[aria-label*=' to ']"), out.count("out ") + came, "arrows")
    b.run("const pane = page.panes.router; await pane.show(pane.steps.findIndex((it) => it.words[0] === 'services'))")
    settled(b, "router")
    want("BETA" in text(b, "#pane-router .tables"), "a service in the table")
    want(text(b, "#pane-router .right .said") in out, "said")
    b.run("const pane = page.panes.router; await pane.show(pane.steps.length - 1)")
    settled(b, "router")
    want("BETA" not in text(b, "#pane-router .tables tr:not(.gone)"), "it is gone")


def router_built(b, _):
    """Router: ports, a start, an offer and a packet are written by hand, and the packet goes where the offer came from"""
    opened(b)
    shows(b, "router")
    b.click("#pane-router .left .bar button:nth-child(2)")
    settled(b, "router")
    for name, values in [("port", {"network": "10"}), ("port", {"network": "20"}), ("start", {}), ("offer", {"port": "1", "network": "99"}),
                         ("send", {"port": "0", "toNetwork": "99"})]:
        act(b, name, values, "router")
    lines = b.run("return page.panes.router.editor.text.trim().split('\\n').map((it) => it.split(' ')[0])")
    same(lines, ["port", "port", "start", "in", "in"], "the script")
    want(text(b, "#pane-router .right .said").startswith("out 1 0000000000BB FFFF001E01"), "where the packet goes")


def packet(b, _):
    """Packet: fields to bytes and back, and which byte is wrong"""
    opened(b)
    shows(b, "packet")
    read = "document.querySelector('#pane-packet .read .good, #pane-packet .read .fault')?.textContent"

    def pasted(digits, wanted):
        b.run("const it = document.querySelector('#pane-packet .hexline'); it.value = given[0]; it.dispatchEvent(new Event('input'))",
            digits)
        b.waits(f"{read}?.includes(given[0])", wanted)

    b.run("const it = document.querySelector('#pane-packet [name=kind]'); it.value = 'rip-response'; it.dispatchEvent(new Event('change'))")
    typed(b, "#pane-packet [name=routes]", "BEEF 2 3")
    b.waits(f"{read} === 'RIP response BEEF (2)'")
    same(b.run("return document.querySelector('#pane-packet .hexline').value"),
         "FFFF0028000100000010FFFFFFFFFFFF0453000000100000000000AA400300020000BEEF00020003", "bytes")
    for routes, why in (("20 1 2\n" * 51, "too many entries"), ("", "no entries")):
        b.run("const it = document.querySelector('#pane-packet [name=routes]'); it.value = given[0]; it.dispatchEvent(new Event('input', "
              "{ bubbles: true }))", routes)
        same(text(b, "#pane-packet label:has([name=routes]) + .fault"), why, "what the library says")
    kinds = {"rip-request": "RIP request all", "sap-query": "SAP query type 4", "sap-response": "SAP response SERVER",
        "netbios": "crossed nothing",
             "data": "data, 30 bytes"}
    for kind, wanted in kinds.items():
        b.run("const it = document.querySelector('#pane-packet [name=kind]'); it.value = given[0]; it.dispatchEvent(new Event('change'))",
            kind)
        b.waits(f"{read}?.includes(given[0])", wanted)
    query = "FFFF0022000400000010FFFFFFFFFFFF0452000000100000000000AA400300030004"
    pasted(query, "SAP nearest query type 4")
    same(b.run("return document.querySelector('#pane-packet [name=kind]').value"), "sap-query", "the kind that was read")
    pasted(query[:-8] + "00090004", "Operation")
    want("bytes 30 to 31" in text(b, "#pane-packet .read .fault") and count(b, "#pane-packet .byte.wrong") == 2, "which bytes are wrong")
    pasted(query[:4] + "0100" + query[8:], "LengthBeyond")
    same(count(b, "#pane-packet .byte.wrong"), 2, "the length is wrong")
    pasted(query + "0", "odd number")
    pasted(query[:-1] + "g", "isn't hexadecimal")
    pasted("", "Short")


def back_and_forth(b, _):
    """Packet: what is read of kept packets, and written again, is the same"""
    opened(b)
    shows(b, "packet")
    lines = [it.split()[-1] for name in ("drops", "relaying", "services", "split-horizon") for it in
             page_inputs.content(f"{TOP}/examples/{name}.script").decode().splitlines() if it.startswith("in ")]
    wrong = b.run("""
        const pane = page.panes.packet;
        const wrong = [];
        for (const hex of given[0]) {
            pane.hex.value = hex;
            await pane.typedHex();
            if (document.querySelector('#pane-packet .read .fault') || !document.querySelector('#pane-packet .read .good')) continue;
            pane.typedWords();
            await new Promise((it) => setTimeout(it, 0));
            if (pane.hex.value !== hex && !hex.startsWith(pane.hex.value)) wrong.push(hex + ' ' + pane.hex.value + ' '
                + pane.fault.textContent);
        }
        return wrong;""", [it for it in lines if it.startswith("FFFF") and len(it) > 60])
    same(wrong, [], "written otherwise")


def shared(b, _):
    """a link shares an internet, a script and a packet"""
    opened(b)
    shows(b, "internet")
    script(b, "internet", "# two (router 0)\nrouter\nport 00000010 000000000001 1 576\nstart 0\n")
    link = b.run("return location.hash")
    want(link.startswith("#internet="), f"the address: {link[:60]}")
    opened(b, link)
    settled(b, "internet")
    same(b.run("return page.panes.internet.editor.text"), "# two (router 0)\nrouter\nport 00000010 000000000001 1 576\nstart 0\n",
        "the shared text")
    shows(b, "packet")
    b.run("const it = document.querySelector('#pane-packet .hexline'); it.value = given[0]; it.dispatchEvent(new Event('input'))", FAR)
    link = b.run("return location.hash")
    opened(b, link)
    b.waits("document.querySelector('#pane-packet .read .good')")
    same(b.run("return document.querySelector('#pane-packet .hexline').value"), FAR, "the shared packet")


def harmless(b, _):
    """nothing of a link becomes HTML"""
    coded = base64.urlsafe_b64encode(page_inputs.HARMFUL.encode()).decode().rstrip("=")
    for link in [f"#{pane}={coded}" for pane in ("internet", "router", "packet")] + page_inputs.HARMFUL_LINKS:
        opened(b, link)
        b.run("await new Promise((it) => setTimeout(it, 300))")
        b.waits("!page.programs.some((it) => it.isBusy)")
        found = b.run("const bold = document.querySelectorAll('main b').length;"
                      "return [window.harmed ?? 'no', document.images.length, document.scripts.length, bold].join()")
        same(found, "no,0,5,0", f"after {link[:30]}")


def long(b, folder):
    """Internet: a script of 10,000 lines"""
    opened(b)
    shows(b, "internet")
    settled(b, "internet")
    file = page_inputs.long_script(folder)
    b.run("window.began = performance.now(); const pane = page.panes.internet; const draw = pane.draw; pane.draw = function (...given) {"
          "draw.apply(this, given); if (this.steps.length > 9000) window.drawn ??= performance.now(); }")
    chosen(b, "#pane-internet .left input[type=file]", file)
    b.waits("window.drawn")
    settled(b, "internet")
    steps = b.run("return page.panes.internet.steps.length")
    want(steps > 9900, f"{steps} steps")
    took = b.run("const pane = page.panes.internet; const start = performance.now(); await pane.show(9000);"
                 "return performance.now() - start;")
    print(f"        10,000 lines: a move of the slider took {took / 1000:.2f} s")


def stopped(b, folder):
    """a run that takes minutes shows how far it is and is stopped, and the next one runs"""
    opened(b)
    shows(b, "internet")
    settled(b, "internet")
    chosen(b, "#pane-internet .left input[type=file]", page_inputs.endless(folder))
    b.waits("!document.querySelector('#busy').hidden")
    b.waits("document.querySelector('progress').value > 0")
    b.click("#tab-packet")
    b.click("#stop")
    b.waits("document.querySelector('#busy').hidden")
    same(told(b), "stopped", "told")
    b.click("#tab-router")
    settled(b, "router")
    want(count(b, "#pane-router .picture g[data-key]") > 0, "the next run")


EVERYWHERE = [
    texts, silent, capture, filters, fields_agree, dropped, large, internet, quick, moving, wrong_line, built, keyboard, router,
    router_built,
    packet, back_and_forth, shared, harmless, long, stopped,
]


def faults(b):
    """What went wrong in the page without being told."""
    return b.run("return window.faults ?? []")


def also(b):
    """The same beside another failure, as far as the browser still answers."""
    try:
        return f"; in the page: {faults(b)}"
    except (Failed, OSError):
        return ""


def tried(b, check, folder):
    """What is wrong by a check, or nothing."""
    begun = time.monotonic()
    try:
        check(b, folder)
        left = faults(b)
        return (f"in the page: {left}" if left else ""), time.monotonic() - begun
    except Exception as why:  # noqa: BLE001 - (whatever a browser does is a failure of this check alone)
        return f"{type(why).__name__}: {why}{also(b)}", time.monotonic() - begun
