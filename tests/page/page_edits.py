"""What a person changes and takes back, and what the page says where it can't do a thing. Checks as in page_checks.py."""
import gzip

import page_inputs
from page_checks import act, captured, chosen, count, opened, same, script, settled, shows, text, told, typed, want
from page_file import TOP
from page_plain import FALSE, chosen_example, closes, opens, refuses, said, step

EDITOR = "#pane-internet .editor textarea"
UNDO, REDO = ("#pane-internet .left .bar button:nth-of-type(4)", "#pane-internet .left .bar button:nth-of-type(5)")
NAMED = """# Zürich (router 0) --- "New York" (router 1) --- 東京 (router 2)
router
port 00000010 000000000101 1 576
router
port 00000010 000000000201 1 576
router
port 00000010 000000000301 1 576
start 0
settle 1000000
"""
MOST_OF_LINK = 24000


def edited(b):
    return b.run("return page.panes.internet.editor.text")


def types(b, words):
    """Types at the end of the script, key by key."""
    b.run("const it = document.querySelector(given[0]); it.focus(); it.setSelectionRange(it.value.length, it.value.length)", EDITOR)
    b.type(EDITOR, words)


def undone(b, _):
    """Internet: Undo takes back what was typed by itself, and then the act before; Redo brings both again; keys do the same"""
    opened(b)
    shows(b, "internet")
    settled(b, "internet")
    same(b.run("return [page.panes.internet.undo.disabled, page.panes.internet.redo.disabled]"), [True, True], "nothing to take back")
    script(b, "internet", FALSE)
    b.run("page.panes.internet.show(page.panes.internet.steps.length - 1)")
    settled(b, "internet")
    act(b, "stop", {"router": "1"})
    acted = edited(b)
    types(b, "# typed")
    settled(b, "internet")
    versions = [acted + "# typed", acted, FALSE]
    same(edited(b), versions[0], "typed")
    for way, wanted in ((UNDO, versions[1:]), (REDO, [versions[1], versions[0]])):
        for one in wanted:
            b.click(way)
            settled(b, "internet")
            same(edited(b), one, f"after {way}")
    same(b.run("const { undo, redo } = page.panes.internet; return [redo.disabled, document.activeElement === undo]"), [True, True],
         "nothing more to have again")
    for keys, one in (("z", versions[1]), ("z", versions[2]), ("y", versions[1]), ("Z", versions[0])):
        b.run("document.querySelector(given[0]).dispatchEvent(new KeyboardEvent('keydown', { key: given[1], ctrlKey: true,"
              "shiftKey: given[1] === 'Z', bubbles: true, cancelable: true }))", EDITOR, keys)
        settled(b, "internet")
        same(edited(b), one, f"after Ctrl and {keys}")


def hasty(b, _):
    """Internet: what was typed right before a button is pressed stays, in the script and in what the button writes"""
    opened(b)
    shows(b, "internet")
    settled(b, "internet")
    script(b, "internet", FALSE)
    b.run("const it = document.querySelector(given[0]); it.value += '# typed\\n'; it.dispatchEvent(new Event('input'));"
          "document.querySelector('#pane-internet [data-act=host]').click()", EDITOR)
    b.waits("document.querySelector('dialog')")
    typed(b, "dialog [name=node]", "EF")
    b.click("dialog button.main")
    settled(b, "internet")
    want("# typed\n" in edited(b) and "0000000000EF" in edited(b), "what was typed is lost")
    b.run("const it = document.querySelector(given[0]); it.value += '# more\\n'; it.dispatchEvent(new Event('input'));"
          "document.querySelector(given[1]).click()", EDITOR, UNDO)
    settled(b, "internet")
    want("# more\n" not in edited(b) and "0000000000EF" in edited(b), "what was typed is taken back alone")
    b.click(REDO)
    settled(b, "internet")
    want(edited(b).endswith("# more\n"), "it is lost")


def copied(b, _):
    """the link is said to be copied only where it was; a script that is too long for one says so; what was just typed is in it"""
    opened(b)
    shows(b, "internet")
    settled(b, "internet")
    clipboard = ("window.taken = []; Object.defineProperty(navigator, 'clipboard', { configurable: true, value:"
                 "{ writeText: (it) => given[0] ? (taken.push(it), Promise.resolve()) : Promise.reject(new Error('no')) } });"
                 "document.execCommand = () => given[1] && (taken.push(document.activeElement.value), true);")

    def says(by_clipboard, by_box):
        b.run(clipboard, by_clipboard, by_box)
        b.run("document.querySelector('#told').textContent = ''")
        b.click("#copy")
        b.waits("document.querySelector('#told').textContent")
        return told(b), b.run("return taken"), b.run("return document.querySelector('#told').classList.contains('fault')")

    link = b.run("return location.href")
    same(says(True, False), ("the link is copied", [link], False), "by the clipboard")
    same(says(False, True), ("the link is copied", [link], False), "from a box")
    same(says(False, False), ("not copied, since the browser refuses it: the link is the page's address", [], True), "not at all")
    b.run(clipboard, True, False)
    taken = b.run("const it = document.querySelector(given[0]); it.value = '# typed'; it.dispatchEvent(new Event('input'));"
                  "document.querySelector('#copy').click(); return taken", EDITOR)
    same([it.split("#")[1] for it in taken], ["internet=IyB0eXBlZA"], "what was just typed")
    script(b, "internet", "#" * (MOST_OF_LINK + 1))
    long = f"no link: the script has {MOST_OF_LINK + 1} bytes, and a link holds at most {MOST_OF_LINK}. Save it, and send the file"
    same(says(True, True), (long, [], True), "a long script")
    shows(b, "capture")
    b.waits("!page.programs[1].isBusy")
    same(says(True, False)[0], "the link is copied; it opens the page, but never holds a capture", "of a capture")


def refused(b, _):
    """Internet and Router: forms refuse what the program refuses, beside the field"""
    opened(b)
    shows(b, "internet")
    settled(b, "internet")
    script(b, "internet", NAMED + "# host 00000010.0000000000AA\n")
    before = edited(b)
    wanted = {
        "router": [({"networks": "0"}, "means an unknown network"), ({"networks": "10 FFFFFFFE"}, "means the default route"),
            ({"networks": "ffffffff"}, "means all networks"), ({"networks": "20 10 20"}, "20 stands there twice"),
            ({"networks": "1 2 3 4 5 6 7 8 9"}, "1 to 8 networks"), ({"networks": ""}, "1 to 8 networks")],
        "network": [({"network": "0"}, "means an unknown network"), ({"router": "1", "network": "10"}, "port 0 of this router is on")],
        "host": [({"node": "201"}, "port 0 of New York has this node"), ({"node": "AA"}, "a host there"), ({"node": "0"}, "1 to")],
        "bytes": [({"hex": "ABC"}, "an even number")],
    }
    for name, cases in wanted.items():
        opens(b, name)
        for values, words in cases:
            found = refuses(b, values)
            want(words in found, f"{name}, {values}: {found}")
        closes(b)
    same(edited(b), before, "the script")
    script(b, "internet", "router\nport 00000010 000000000101 1 576\nrouter\n")
    opens(b, "start")
    b.click("dialog button.main")
    same(text(b, "dialog .fault"), "the program would refuse 'start': expected a port line below each router line: line 3 has none",
        "what no field is to blame for")
    closes(b)
    shows(b, "router")
    settled(b, "router")
    b.run("page.panes.router.replace('port 00000010 000000000001 1 576\\n')")
    settled(b, "router")
    b.click("#pane-router [data-act=port]")
    for network, words in (("10", "port 0 of this router is on network 10"), ("FFFFFFFF", "means all networks")):
        want(words in refuses(b, {"network": network}), network)
    closes(b)


def called(b, _):
    """Internet: routers have names of any letters, and of several words"""
    opened(b)
    shows(b, "internet")
    settled(b, "internet")
    script(b, "internet", NAMED)
    step(b, "internet", -1)
    names = b.run("return [...document.querySelectorAll('#pane-internet g[data-key^=router]')].map("
                  "(it) => it.textContent.replace('●', ''))")
    same(names, ["Zürich", "New York", "東京"], "on the map")
    b.waits("document.querySelector('#pane-internet .right .said').textContent.includes('Zürich to New York, net 10: RIP')")
    same(opens(b, "stop")["router"], "0", "the form")
    same(b.run("return document.querySelector('dialog [name=router]').selectedOptions[0].textContent"), "Zürich", "its choice")
    closes(b)


def limited(b, _):
    """what isn't followed, drawn or listed is said: deliveries, rows of a ladder, conversations, seconds in slow motion"""
    opened(b)
    shows(b, "internet")
    settled(b, "internet")
    script(b, "internet", page_inputs.content(f"{TOP}/examples/storm.internet").decode())
    step(b, "internet", -1)
    b.waits("document.querySelector('#pane-internet .right .said').textContent.includes('no deliveries')")
    same(said(b), "quiet\n(no deliveries are shown: the page follows the first 6000 deliveries of a run)", "deliveries")
    script(b, "internet", FALSE + "second 301\n")
    b.run("document.querySelector('#pane-internet .fine input').click()")
    settled(b, "internet")
    same(told(b), "slow motion leaves more than 300 seconds of a line together", "seconds")
    script(b, "internet", FALSE + "second 1\n" * 2000)
    same(told(b), "slow motion is for scripts of at most 2000 commands", "commands")
    shows(b, "router")
    settled(b, "router")
    b.run("page.panes.router.replace('port 00000010 000000000001 1 576\\nport 00000020 000000000002 1 576\\nstart\\n'"
          "+ 'second 60\\n'.repeat(100))")
    settled(b, "router")
    b.waits("document.querySelector('#pane-router .picture p')?.textContent.startsWith('rows ')")
    note = text(b, "#pane-router .picture p")
    rows = b.run("return page.panes.router.rows.rows.length")
    same(note, f"rows {rows - 119} to {rows} of {rows}, around the step that is shown", "rows")
    b.run("page.panes.router.replace('port 00000010 000000000001 1 576\\nstart\\nsecond 20001\\n')")
    settled(b, "router")
    same(told(b), "its seconds aren't told apart, since it lasts more than 20000", "a long script")
    shows(b, "capture")
    b.waits("!page.programs[1].isBusy")
    b.run("await page.panes.capture.open('many.pcap', Uint8Array.from(atob(given[0]), (it) => it.charCodeAt(0)))",
          page_inputs.coded(page_inputs.many()))
    same(text(b, "#pane-capture .picture p"), "the first 200 of 210", "packets of a ladder")
    b.run("document.querySelectorAll('#pane-capture .more details')[1].open = true")
    b.waits("document.querySelector('#pane-capture .tables tbody tr')")
    same(text(b, "#pane-capture .tables p"), "the 200 with most packets, of 210", "conversations")
    same(count(b, "#pane-capture .tables tbody tr"), 200, "those that are listed")


def mistaken(b, folder):
    """Capture: a file that is no capture, or one that isn't read, is explained"""
    opened(b)
    shows(b, "capture")
    whole = page_inputs.content(f"{TOP}/examples/nearest-server.pcap")
    wanted = {
        "packed.pcap": (gzip.compress(whole), "record 0: Magic (this is a gzip file: unpack it first)"),
        "empty.pcap": (b"", "record 0: CutHeader (the file is empty)"),
        "ring.pcap": (whole[:20] + b"\x06" + whole[21:],
            "record 0: Link (this capture is of link type 6, Token Ring; only Ethernet, link type 1, is read)"),
        "words.pcap": (FALSE.encode(), "record 0: Magic (this is text: scripts belong to the panes Internet and Router)"),
    }
    for name, (content, words) in wanted.items():
        captured(b, page_inputs.written(folder, name, content))
        same(told(b), f"{name}: 0 records · {words}", name)
    captured(b, page_inputs.written(folder, "cut.pcap", whole[:-1]))
    same(told(b), "cut.pcap: 4 records · record 5: CutRecord (the file ends inside this record; those before it are shown)", "a cut file")


def found(b, _):
    """Capture: a filter finds what the list shows: addresses, sockets, and words"""
    opened(b)
    shows(b, "capture")
    chosen_example(b, "no-server")
    shown = b.run("""
        const rows = await page.programs[1].ask('rows', { from: 0, to: 99 });
        return rows.map((it) => page.panes.capture.cells(it));""")
    wanted = [("address", "0.1B0204AA"), ("address", "10.1B0101B1 SAP"), ("word", "SAP nearest query"), ("word", "NCP"),
              ("word", "802.3 raw"), ("word", "no answer"), ("word", "RIP response")]
    for field, words in wanted:
        columns = (2, 3) if field == "address" else range(2, 6)
        number = sum(any(words in it[k] for k in columns) for it in shown)
        want(0 < number < len(shown), f"{words} stands in {number} rows")
        typed(b, f"#pane-capture [name={field}]", words)
        b.waits("document.querySelector('#pane-capture output').textContent === given[0]", f"{number} of {len(shown)} records")
        typed(b, f"#pane-capture [name={field}]", "x")
        b.clear(f"#pane-capture [name={field}]")
        b.run("document.querySelector(given[0]).dispatchEvent(new Event('input'))", f"#pane-capture [name={field}]")
        b.waits("document.querySelector('#pane-capture output').textContent === given[0]", f"{len(shown)} records")
    b.run("document.querySelectorAll('#pane-capture .more details')[1].open = true")
    b.waits("document.querySelector('#pane-capture .tables tbody tr')")
    rows = b.run("return [...document.querySelectorAll('#pane-capture .tables tbody tr')].map((it) =>"
                 "[...it.children].map((cell) => cell.textContent).join(' '))")
    for row in rows:
        *_, packets, _, there, back = row.split()
        a, _, other = row.split()[:3]
        ends = [(it[2].split()[0], it[3].split()[0]) for it in shown]
        same([packets, there], [str(int(there) + int(back)), there], row)
        if not a.startswith("0.") and "1B0204AA" not in row:
            same(there, str(ends.count((a, other))), f"packets there: {row}")


EDITS = [undone, hasty, copied, refused, called, limited, mistaken, found]
