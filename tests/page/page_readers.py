"""What the page is to keys alone, to screen readers and to a small phone. Checks as in page_checks.py."""
from page_checks import captured, count, opened, same, script, settled, shows, text, want
from page_file import TOP
from page_plain import FALSE, chosen_example, closes, opens

PHONE = 360
KEY = "document.activeElement.dispatchEvent(new KeyboardEvent('keydown', { key, bubbles: true, cancelable: true }))"
# All that arrows reach in a drawing from its stop.
REACHED = """
const svg = document.querySelector(given[0] + ' svg');
const things = [...svg.querySelectorAll('[data-key]')];
const found = new Set([svg.querySelector('[tabindex="0"]')]);
for (const it of found) {
    for (const key of ['ArrowLeft', 'ArrowRight', 'ArrowUp', 'ArrowDown']) { it.focus(); %s; found.add(document.activeElement); }
}
return things.filter((it) => !found.has(it)).map((it) => it.dataset.key);
""" % KEY


def stops(b, within):
    return b.run("return [...document.querySelectorAll(given[0] + ' [tabindex=\"0\"]')].map((it) => it.dataset.key)", within)


def pressed(b, key):
    b.run(f"const [key] = given; {KEY};", key)


def at(b):
    return b.run("return document.activeElement.dataset.key ?? document.activeElement.tagName")


def walked(b, _):
    """the map is one stop for Tab, at the chosen router; arrows reach all that is in it, and the focus stays as it is drawn anew"""
    opened(b)
    shows(b, "internet")
    settled(b, "internet")
    for name in b.run("return Object.keys(page.panes.internet.kind.examples)"):
        b.run("page.panes.internet.example(given[0])", name)
        settled(b, "internet")
        same(len(stops(b, "#pane-internet .picture")), 1, f"stops in {name}")
        same(b.run(REACHED, "#pane-internet .picture"), [], f"what no arrow reaches in {name}")
    b.run("document.querySelector('#pane-internet .picture svg').focus()")
    want(b.run("return document.activeElement.tagName !== 'svg'"), "the drawing itself is a stop")
    script(b, "internet", FALSE)
    b.run("page.panes.internet.choose('router 1')")
    same(stops(b, "#pane-internet .picture"), ["router 1"], "the stop")
    same(b.run("return document.querySelector('#pane-internet [aria-current]').dataset.key"), "router 1", "what is chosen")
    b.run("document.querySelector('#pane-internet .picture [tabindex=\"0\"]').focus()")
    places = b.run("return Object.fromEntries(page.panes.internet.found.points.map((it) => [it.key, it.place[0]]))")
    key = "ArrowLeft" if places["router 0"] < places["router 1"] else "ArrowRight"
    for _ in range(6):
        if at(b) == "router 0":
            break
        pressed(b, key)
    same(at(b), "router 0", "where the arrows lead")
    same(stops(b, "#pane-internet .picture"), ["router 0"], "the stop goes along")
    pressed(b, "Enter")
    same(text(b, "#pane-internet .tables h2"), "Router West", "chosen by Enter")
    b.run("await page.panes.internet.show(page.panes.internet.at - 1)")
    settled(b, "internet")
    same([at(b), stops(b, "#pane-internet .picture")], ["router 0", ["router 0"]], "after it was drawn anew")
    pressed(b, "Home")
    first = at(b)
    pressed(b, "PageDown")
    want(at(b) != first, "the next one")
    pressed(b, "PageUp")
    same(at(b), first, "the one before")


def laddered(b, _):
    """a ladder is one stop for Tab; arrows go from packet to packet, and Enter keeps the focus"""
    opened(b)
    shows(b, "capture")
    captured(b, f"{TOP}/tests/decode/routes.pcap")
    b.waits("document.querySelector('#pane-capture .picture [aria-current]')")
    same(stops(b, "#pane-capture .picture"), ["record 0"], "the stop")
    same(b.run(REACHED, "#pane-capture .picture"), [], "what no arrow reaches")
    b.run("document.querySelector('#pane-capture .picture [data-key=\"record 0\"]').focus()")
    for _ in range(2):
        pressed(b, "ArrowDown")
    same(at(b), "record 2", "two packets down")
    pressed(b, "Enter")
    b.waits("document.querySelector('#pane-capture .detail h2').textContent.startsWith('Record 3:')")
    b.waits("document.querySelector('#pane-capture .picture [aria-current]').dataset.key === 'record 2'")
    same([at(b), stops(b, "#pane-capture .picture")], ["record 2", ["record 2"]], "after it was drawn anew")
    shows(b, "router")
    settled(b, "router")
    same([len(stops(b, "#pane-router .picture")), b.run(REACHED, "#pane-router .picture")], [1, []], "of a router")


def heard(b, _):
    """the list is a grid with heads of columns, a number for each row, and the chosen row; tables have heads for all columns"""
    opened(b)
    shows(b, "capture")
    chosen_example(b, "no-server")
    grid = "#pane-capture [role=grid]"
    heads = b.run("return [...document.querySelectorAll(given[0] + ' [role=columnheader]')].map((it) => it.textContent)", grid)
    same(heads, ["No.", "Time", "From", "To", "Frame", "What"], "heads")
    rows = b.run("""
        const grid = document.querySelector(given[0]);
        const chosen = document.getElementById(grid.getAttribute('aria-activedescendant'));
        const rows = [...grid.querySelectorAll('[role=row]')];
        const cells = rows.slice(1).every((it) => [...it.children].every((cell) => cell.getAttribute('role') === 'gridcell'));
        return [grid.getAttribute('aria-label'), grid.getAttribute('aria-rowcount'), rows.map((it) => +it.getAttribute('aria-rowindex')),
            cells, chosen.getAttribute('aria-selected'), chosen.textContent.slice(0, 1),
            grid.querySelectorAll('[aria-selected=true]').length, grid.tabIndex, grid.querySelectorAll('[tabindex="0"]').length];""", grid)
    same(rows, ["packets", "12", [*range(1, 13)], True, "true", "1", 1, 0, 0], "rows")
    b.run("document.querySelector(given[0]).focus()", grid)
    for _ in range(2):
        pressed(b, "ArrowDown")
        b.run("await new Promise((it) => setTimeout(it, 200))")
    same(b.run("const it = document.getElementById(document.activeElement.getAttribute('aria-activedescendant'));"
               "return [it.getAttribute('aria-selected'), it.getAttribute('aria-rowindex')]"), ["true", "4"], "two rows down")
    b.run("document.querySelectorAll('#pane-capture .more details')[1].open = true")
    b.waits("document.querySelector('#pane-capture .tables tbody tr')")
    shows(b, "internet")
    settled(b, "internet")
    b.waits("document.querySelector('#pane-internet .tables table')")
    unnamed = b.run("""
        const isHead = (it) => it.scope && (it.textContent || it.getAttribute('aria-label'));
        const wide = (it) => it.querySelectorAll('thead th').length === it.querySelector('tbody tr').children.length;
        const all = [...document.querySelectorAll('.tables table')];
        return [all.length > 1, all.every((it) => wide(it) && [...it.querySelectorAll('th')].every(isHead))];""")
    same(unnamed, [True, True], "heads of tables")


def small(b, _):
    """on a phone of 360 pixels no pane, form, list or table scrolls the page sideways, and all buttons are in sight"""
    b.resize(PHONE, 780)
    opened(b)
    sideways = ("const all = [...document.querySelectorAll('button, input, select, textarea')].filter((it) => it.offsetParent);"
                "return [document.documentElement.scrollWidth <= document.documentElement.clientWidth,"
                "all.filter((it) => it.getBoundingClientRect().right > document.documentElement.clientWidth && !it.closest('.tables'))"
                ".map((it) => it.textContent || it.name)]")
    for pane in ("capture", "internet", "router", "packet"):
        shows(b, pane)
        b.run("await new Promise((it) => setTimeout(it, 400))")
        b.waits("!page.programs.some((it) => it.isBusy)")
        b.run("document.querySelectorAll(`#pane-${given[0]} details`).forEach((it) => (it.open = true))", pane)
        b.run("await new Promise((it) => setTimeout(it, 200))")
        same(b.run(sideways), [True, []], f"{pane} is wider than the window")
    for kind in ("sap-response", "netbios", "data"):
        b.run("const it = document.querySelector('#pane-packet [name=kind]'); it.value = given[0];"
              "it.dispatchEvent(new Event('change'))", kind)
        same(b.run(sideways), [True, []], f"a packet of kind {kind}")
    shows(b, "internet")
    for name in ("router", "time", "forge", "bytes"):
        opens(b, name)
        b.click("dialog button.main") if name == "router" else None
        same(b.run(sideways), [True, []], f"the form {name}")
        closes(b)
    b.run("document.querySelector('#busy').hidden = false")
    same(b.run(sideways), [True, []], "while the program runs")
    b.run("document.querySelector('#busy').hidden = true")
    want(count(b, "#copy") == 1, "the button for links")
    b.resize(1280, 940)


READERS = [walked, laddered, heard]
# (in the browser alone whose window can be as narrow)
SMALL = [small]
