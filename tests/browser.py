#!/usr/bin/env python3
"""Tests the console in Chromium, as a person sees it: tests/browser.py CFDP_WEB SERVER [PICTURE].

A simulated station has what a real one shows seldom; what a station counts and explains comes from a real one with traffic. Needs
Debian's package chromium; uses promtool of the package prometheus if it is installed. Chromium is driven over its DevTools port. A
picture is written to PICTURE, if that is given, and beside it that of a phone and a dark one."""
import base64
import http.client
import json
import os
import re
import shutil
import socket
import struct
import subprocess
import sys
import tempfile
import time

from support import Client, end_of_file, file_data, free_port, metadata, station as real_station

web, server = (os.path.abspath(path) for path in sys.argv[1:3])
picture = os.path.abspath(sys.argv[3]) if len(sys.argv) > 3 else None
here = os.path.dirname(os.path.abspath(__file__))
folder = tempfile.TemporaryDirectory(ignore_cleanup_errors=True)
control = os.path.join(folder.name, "control")
TOKEN = "a-token-of-the-test"
TABLES = ("active", "ended", "users", "remotes", "outbox", "reading", "storing", "counts", "parked", "refusals")
started = []
bad = []


def check(what, holds):
    print(("ok   " if holds else "FAIL ") + what, flush=True)
    if not holds:
        bad.append(what)


def start(*words):
    process = subprocess.Popen(words, stdout=subprocess.DEVNULL, stderr=subprocess.DEVNULL)
    started.append(process)
    return process


def wait_for(test, seconds=20):
    until = time.time() + seconds
    while time.time() < until:
        try:
            if test():
                return True
        except OSError:
            pass
        time.sleep(0.1)
    return False


def get(port, target):
    connection = http.client.HTTPConnection("127.0.0.1", port, timeout=10)
    connection.request("GET", target)
    body = connection.getresponse().read()
    connection.close()
    return body


class Tab:
    """A tab of Chromium, over the WebSocket of its DevTools."""

    def __init__(self, port):
        targets = json.loads(get(port, "/json"))
        path = next(t for t in targets if t["type"] == "page")["webSocketDebuggerUrl"].split(str(port), 1)[1]
        self.stream = socket.create_connection(("127.0.0.1", port), timeout=60)
        self.stream.sendall((f"GET {path} HTTP/1.1\r\nHost: 127.0.0.1:{port}\r\nUpgrade: websocket\r\nConnection: Upgrade\r\n"
                             "Sec-WebSocket-Version: 13\r\nSec-WebSocket-Key: "
                             + base64.b64encode(os.urandom(16)).decode() + "\r\n\r\n").encode())
        self.file = self.stream.makefile("rb")
        while self.file.readline() not in (b"\r\n", b""):
            pass
        self.number = 0
        self.faults = []
        self.asked = []

    def send(self, text):
        mask = os.urandom(4)
        length = len(text)
        head = struct.pack("!BB", 0x81, 0x80 | length) if length < 126 else \
            struct.pack("!BBH", 0x81, 0xfe, length) if length < 65536 else struct.pack("!BBQ", 0x81, 0xff, length)
        self.stream.sendall(head + mask + bytes(octet ^ mask[at % 4] for at, octet in enumerate(text)))

    def receive(self):
        text, last = b"", False
        while not last:
            first, length = self.file.read(2)
            length &= 0x7f
            if length == 126:
                length, = struct.unpack("!H", self.file.read(2))
            elif length == 127:
                length, = struct.unpack("!Q", self.file.read(8))
            text, last = text + self.file.read(length), first & 0x80
        return json.loads(text)

    def give(self, method, **parameters):
        self.number += 1
        self.send(json.dumps({"id": self.number, "method": method, "params": parameters}).encode())
        return self.number

    def call(self, method, **parameters):
        number = self.give(method, **parameters)
        while True:
            answer = self.receive()
            if answer.get("id") == number:
                return answer.get("result", {})
            if answer.get("method") in ("Runtime.exceptionThrown", "Log.entryAdded"):
                self.faults.append(answer["params"])
            if answer.get("method") == "Page.javascriptDialogOpening":
                # what the page asks is answered yes
                self.asked.append(answer["params"]["message"])
                self.give("Page.handleJavaScriptDialog", accept=True)

    def press(self, key, code=0, text=""):
        """Presses a key, and lets it go."""
        event = {"key": key, "code": key if code else "", "windowsVirtualKeyCode": code}
        self.call("Input.dispatchKeyEvent", type="keyDown" if text else "rawKeyDown", text=text, **event)
        self.call("Input.dispatchKeyEvent", type="keyUp", **event)

    def enter(self):
        self.press("Enter", 13, "\r")

    def type(self, words):
        for letter in words:
            self.press(letter, text=letter) if letter != "\n" else self.enter()

    def reach(self, element):
        """Presses Tab until an element has the focus; whether it got it."""
        for _ in range(500):
            self.press("Tab", 9)
            if self.value(f"document.activeElement === ({element})"):
                return True
        return False

    def value(self, expression):
        return self.call("Runtime.evaluate", expression=expression, returnByValue=True)["result"].get("value")

    def text(self, name):
        return self.value(f"document.getElementById('{name}').textContent") or ""


def size(tab, width, height):
    tab.call("Emulation.setDeviceMetricsOverride", width=width, height=height, deviceScaleFactor=1, mobile=False)


def over(tab, name):
    """How many pixels of a table are seen only by scrolling sideways; None if it isn't shown."""
    return tab.value(f"(box => box.clientWidth > 0 ? box.scrollWidth - box.clientWidth : null)(document.getElementById('{name}').parentNode)")


def enter(tab, name, value, event="input"):
    tab.value(f"document.getElementById('{name}').value = '{value}'; document.getElementById('{name}').dispatchEvent(new Event('{event}'))")


def look(tab, port):
    tab.call("Page.navigate", url=f"http://127.0.0.1:{port}/")
    check("the station answers", wait_for(lambda: "The station answers" in tab.text("state")))
    check("transactions with a bar", wait_for(lambda: tab.value("document.querySelectorAll('#active progress').length") >= 1))
    check("a rate", wait_for(lambda: "/s" in tab.text("active")))
    check("queues, remotes, refusals", "ops" in tab.text("users") and "192.0.2.5" in tab.text("remotes") and "DecodeFault" in tab.text("refusals"))
    check("lanes for which datagrams wait", "17 KiB" in tab.text("parked")
          and tab.value("document.getElementById('s-parked').classList.contains('hidden')") is False)
    check("files being stored", "9.42" in tab.text("storing") and "no space is left" in tab.text("storing"))
    check("recordings", "recordings: 7 kept, 2 missed, 1 failed" in tab.text("facts"))
    check(f"alarms, the worst first {alarms(tab)}", alarms(tab)[0] == "critical: 1 received file can't be stored: no space is left"
          and sorted(alarms(tab)[1:]) == ["warning: 1 recording failed", "warning: DecodeFault was refused, from 192.0.2.1:4556"]
          and tab.value("document.title") == "(3) CFDP entity 1" and tab.text("alarm-count") == "3 alarms")
    check("one of each, and several", "1 datagram, 9 B" in tab.text("remotes") and "12 datagrams in, 3 out, 1 refused, 1 file kept" in tab.text("facts"))
    ticks(tab)
    check("an empty table takes a line", tab.value("document.getElementById('outbox').offsetHeight") == 0)
    check("names are text", "<img src=x onerror=" in tab.text("active") + tab.text("ended")
          and tab.value("document.images.length") == 0 and tab.value("document.scripts.length") == 1)
    check("an event", wait_for(lambda: "start" in tab.text("events")))
    tab.value("document.getElementById('charts').scrollIntoView()")
    for link, name in (("all", "All links"), ("5", "Entity 5"), ("7", "Entity 7")):
        check(f"a chart, {name}", wait_for(lambda: "L" in line_of(tab, link, "in"))
              and f"{name} in (line) 0 B/s, out (dashes) 0 B/s. Since " in tab.value(chart_of(link) + ".textContent"))
    check(f"axes with units and moments {labels_of(tab, 'all')}", labels_of(tab, "all")[:5] == ["0 B/s", "1 B/s", "2 B/s", "3 B/s", "4 B/s"]
          and len(labels_of(tab, "all")) in (10, 11) and all(re.fullmatch("[0-9]{2}:[0-9]{2}Z", label) for label in labels_of(tab, "all")[5:]))
    check("when an entity was heard", "before " in tab.text("remotes"))
    check("one ends, in words", wait_for(lambda: "✓ complete, retained" in tab.text("ended"), 60))
    for width in (360, 1280, 1600):
        size(tab, width, 900)
        time.sleep(0.5)
        check(f"{width} pixels: the page isn't wider", tab.value("document.documentElement.scrollWidth") <= width)
    tab.value("document.getElementById('still').click()")
    check("events are paused", wait_for(lambda: "paused" in tab.text("shown")))
    tab.value("document.getElementById('still').click()")
    enter(tab, "by-user", "nobody")
    check("events are filtered", wait_for(lambda: tab.text("shown").startswith("0 of ")))
    enter(tab, "by-user", "")
    tab.value("document.querySelector('#active tbody button.plain, #ended tbody button.plain').click()")
    check("a click shows the events of a transaction", wait_for(lambda: tab.text("shown").startswith("0 of "))
          and tab.value("document.getElementById('by-txn').value").startswith("7."))
    enter(tab, "by-txn", "")


def alarms(tab):
    """The alarms in their order: severity and words. Each has its moment."""
    found = tab.value("[...document.querySelectorAll('#alarms li')].map(li => [...li.children].map(child => child.textContent))")
    assert all(re.fullmatch("[0-9-]{10} [0-9:]{8}Z", moment) and button == "Acknowledge" for _, moment, _, button in found), found
    return [f"{severity}: {words}" for severity, _, words, _ in found]


def acknowledge(tab, words):
    tab.value(f"[...document.querySelectorAll('#alarms button')].find(button => button.ariaLabel.startsWith('Acknowledge: {words}')).click()")


def ticks(tab):
    """The clock is in UTC, and goes."""
    first, here = tab.text("time"), time.time()
    near = [time.strftime("%H:%M:%S", time.gmtime(here + late)) for late in (-2, -1, 0, 1)]
    check(f"the clock {first}", first in near and tab.text("day") == time.strftime("%Y-%m-%d", time.gmtime(here))
          and tab.value("document.getElementById('clock').textContent").endswith(" UTC"))
    check("the clock goes", wait_for(lambda: tab.text("time") > first or tab.text("time").startswith("00:00:")))


def chart_of(link):
    return f"document.querySelector('#charts figure[data-link=\"{link}\"]')"


def line_of(tab, link, way):
    return tab.value(f"{chart_of(link)}.querySelector('.way.{way}').getAttribute('d')") or ""


def labels_of(tab, link):
    """What stands at the axes."""
    return tab.value(f"[...{chart_of(link)}.querySelectorAll('text:not(.limit)')].map(text => text.textContent)")


def quit_alarms(tab):
    """An alarm goes away when it is acknowledged, also from a page that is loaded again; what still holds is counted."""
    acknowledge(tab, "1 recording")
    check("one alarm less", wait_for(lambda: len(alarms(tab)) == 2) and tab.value("document.title").startswith("(2) ")
          and tab.text("known-text") == "1 acknowledged alarm still holds" and tab.text("known-list") == "warning: 1 recording failed")
    tab.value("window.isOld = true")
    tab.call("Page.reload")
    check("it stays away when the page is loaded again", wait_for(lambda: tab.value("!window.isOld") and "The station answers" in tab.text("state"))
          and len(alarms(tab)) == 2 and tab.text("known-text") == "1 acknowledged alarm still holds")
    tab.value("document.getElementById('acknowledge-all').click()")
    check("no alarm any more", alarms(tab) == [] and tab.value("document.title") == "CFDP entity 1" and tab.text("known-text").startswith("3 acknowledged")
          and tab.value("document.getElementById('no-alarms').offsetHeight > 0 && document.activeElement.id") == "h-alarms")


def sift(tab):
    """Tables are sorted by a click on a column, and searched."""
    def lanes():
        return tab.value("[...document.querySelectorAll('#parked tbody td:nth-child(2)')].map(cell => cell.textContent).join()")
    by_lane = "[...document.querySelectorAll('#parked thead button')].find(button => button.textContent === 'Lane')"
    for order, sort in (("0,1,2", "ascending"), ("2,1,0", "descending"), ("0,1,2", None)):
        tab.value(by_lane + ".click()")
        check(f"lanes, {sort or 'as they come'}", lanes() == order and tab.value(by_lane + ".parentNode.getAttribute('aria-sort')") == sort)
    enter(tab, "find", "decodefault")
    check("a search", tab.value("document.querySelectorAll('#refusals tbody tr').length") == 1 and lanes() == ""
          and "Nothing here has this text." in tab.value("document.getElementById('parked').parentNode.textContent"))
    enter(tab, "find", "")
    check("no search", lanes() == "0,1,2")
    enter(tab, "by-words", "VERSION 0.1")
    check("events are searched", wait_for(lambda: tab.text("shown").startswith("1 of ")) and "start" in tab.text("events"))
    enter(tab, "by-words", "no such words")
    check("no event has them", wait_for(lambda: tab.text("shown").startswith("0 of ")) and tab.text("events") == "")
    enter(tab, "by-words", "")


def work(tab):
    """By hand: a link is held, three files are sent at once, two of them leave, and a script is saved."""
    names = [os.path.join(folder.name, name) for name in ("one file", "two", "missing")]
    for name in names:
        with open(name, "wb") as file:
            file.write(b"x" * 1000)
    tab.value("window.confirm = () => true")
    enter(tab, "token", TOKEN, "change")
    check("buttons", wait_for(lambda: "Hold" in tab.text("remotes") and "Suspend" in tab.text("active")))
    check("users and entities to choose", tab.value("document.querySelector('#all-users option').value + document.querySelector('#all-remotes option').value") == "ops5")
    tab.value("document.querySelector('#remotes button[aria-label=\"Hold entity 5\"]').click()")
    check("the link is held", wait_for(lambda: any("entity 5 is held since " in one for one in alarms(tab))))
    acts(tab)
    give_files(tab, names, "one name")
    check("several files don't get one name", wait_for(lambda: "Several files keep their own names" in tab.text("answer")))
    for given, letters in (("x" * 256, 256), ("é" * 128, 128), ("d/" * 124 + "/", 249)):
        give_files(tab, names[:1], given)
        check(f"a name of {letters} letters is too long", wait_for(lambda: "the name at the receiver is longer than 255 octets" in tab.text("answer"))
              and tab.value("document.querySelectorAll('#outbox tbody tr').length") == 0)
        tab.value("answer('')")
    give_files(tab, names, "in/")
    # the third can't be read, and doesn't wait
    check("two files wait", wait_for(lambda: tab.value("document.querySelectorAll('#outbox tbody tr').length") == 2
                                     and all(f"in/{os.path.basename(name)}" in tab.text("outbox") for name in names[:2])))
    check("what each send is answered", wait_for(lambda: "one file: queued 1; " in tab.text("answer") and tab.text("answer").endswith("missing: queued 3")))
    size(tab, 1280, 900)
    time.sleep(0.5)
    for name in ("outbox", "refusals", "remotes"):
        check(f"1280 pixels: {name} fits", over(tab, name) == 0)
    tab.value("document.querySelector('#remotes button[aria-label=\"Release entity 5\"]').click()")
    check("two files end", wait_for(lambda: "in/one file" in tab.text("ended") and "in/two" in tab.text("ended")))
    enter(tab, "by-level", "2")
    check("warnings alone", wait_for(lambda: "read fault" in tab.text("events")) and "EOF-Sent" not in tab.text("events"))
    enter(tab, "by-level", "1")
    enter(tab, "by-kind", "put")
    check("one kind alone", wait_for(lambda: tab.text("shown").startswith("2 of ")) and "EOF-Sent" not in tab.text("events"))
    enter(tab, "by-kind", "")
    alarm = f"warning: {names[2]} left the outbox unsent: read fault (over since "
    check("a file that wasn't sent is an alarm", any(one.startswith(alarm) for one in alarms(tab)))
    tab.call("Browser.setDownloadBehavior", behavior="allow", downloadPath=folder.name)
    tab.value("document.querySelector('#ended button[aria-label^=\"Script of transaction 1.\"]').click()")
    check("a script is saved", wait_for(lambda: any(name.startswith("1.") and name.endswith(".script") for name in os.listdir(folder.name))))
    for what, to, value, said in (("hold", "all", "", "hold all: ok"), ("release", "7", "600", "release 7 600: ok"), ("rate", "5", "9000", "rate 5 9000: ok"),
                                  ("rate", "all", "", "rate off: ok"), ("rate", "5", "", "rate 5 off: ok"), ("release", "all", "", "release all: ok")):
        tab.value(f"""(form => {{ const field = form.elements; field.what.value = '{what}'; field.to.value = '{to}'; field.value.value = '{value}';
            form.requestSubmit(); }})(document.getElementById('link'))""")
        check(said, wait_for(lambda: tab.text("answer") == said))
        if said.startswith("rate"):
            limits(tab, "" if said == "rate 5 off: ok" else "8.8 KiB/s")
        if what == "release":
            check(f"{said}, in the table", wait_for(lambda: ("open until" in tab.text("remotes")) == (value != "")))
    tab.call("Page.reload")
    check("the token stays", wait_for(lambda: "Hold" in tab.text("remotes") and tab.value("document.getElementById('token').value") == TOKEN))


def acts(tab):
    """A transaction has its usual act on a button, and the rest in a menu: what does no harm first, then what ends it, which asks."""
    more = "document.querySelector('#active button[aria-haspopup]')"
    what = tab.value(more + ".getAttribute('aria-label')").removeprefix("More for ")
    check("two buttons", tab.value(more + ".parentNode.textContent") == "Suspend⋯")
    tab.value(more + ".focus()")
    tab.enter()
    check("a menu by key", tab.value("[...document.getElementById('menu').children].map(one => one.textContent || one.tagName)")
          == ["Report", "Script", "HR", "Cancel ...", "Abandon ..."] and tab.value(more + ".ariaExpanded") == "true")
    for key, place in (("ArrowDown", "Script"), ("ArrowDown", "Cancel ..."), ("End", "Abandon ..."), ("ArrowDown", "Report"), ("ArrowUp", "Abandon ...")):
        tab.press(key, {"ArrowDown": 40, "ArrowUp": 38, "End": 35}[key])
        check(f"{key}: {place}", tab.value("document.activeElement.textContent") == place)
    tab.press("Escape", 27)
    check("Escape closes it", tab.value(f"document.activeElement === {more} && {more}.ariaExpanded === 'false'"))
    tab.asked.clear()
    tab.value("document.querySelector('#active button[aria-label=\"Suspend " + what + "\"]').click()")
    check("the usual act doesn't ask", wait_for(lambda: tab.text("answer").startswith("suspend ops 7 ") and tab.text("answer").endswith(": ok")))
    tab.value(more + ".click()")
    tab.value("window.confirm = words => { window.asked = words; return false; }; document.querySelector('#menu .danger').click()")
    check("what ends it asks", tab.value("window.asked") == f"Cancel {what}? The transfer ends at both entities.")
    tab.value("window.confirm = () => true")


def limits(tab, limit):
    """The limit of a link is in its chart, in its unit."""
    tab.value("document.getElementById('charts').scrollIntoView()")
    text = lambda: tab.value(f"{chart_of('5')}.querySelector('text.limit').textContent")
    check(f"the limit of entity 5: {limit or 'none'}", wait_for(lambda: (text() or "") == (f"limit {limit} ↑" if limit else "")))


def lines(tab):
    """The lines that the palette offers."""
    return tab.value("[...document.querySelectorAll('#choices code')].map(line => line.textContent)")


def command_line(tab):
    """The command line at the bottom: it completes, asks, gives commands, and goes to places of the page."""
    value = lambda: tab.value("document.getElementById('line').value")
    tab.value("document.activeElement.blur()")
    tab.press("/", text="/")
    check("/ gets to the command line", tab.value("document.activeElement.id") == "line" and value() == "" and len(lines(tab)) == 13)
    tab.type("ho")
    check(f"ho {lines(tab)}", lines(tab)[:3] == ["hold ", "hold 5", "hold 7"] and "hold all" in lines(tab))
    tab.press("ArrowDown", 40)
    tab.press("ArrowDown", 40)
    check("an arrow chooses", tab.value("document.querySelector('#choices [aria-selected=true]').textContent").startswith("hold 5")
          and tab.value("document.getElementById('line').getAttribute('aria-activedescendant')") == "choice-1")
    tab.enter()
    check("Enter takes it", value() == "hold 5" and tab.text("usage") == "hold ENTITY|all: nothing leaves for an entity any more")
    tab.asked.clear()
    tab.enter()
    check(f"and gives it {tab.asked}", wait_for(lambda: tab.text("answer") == "hold 5: ok") and tab.asked == ["hold 5?"] and value() == "")
    tab.type("rel")
    tab.press("Tab", 9)
    check("Tab completes", value() == "release ")
    tab.type("5")
    tab.enter()
    check("release 5, typed", wait_for(lambda: tab.text("answer") == "release 5: ok"))
    tab.press("ArrowUp", 38)
    check("the last line again", value() == "release 5")
    tab.value("startLine('')")
    tab.type("b7.bin abandon")
    check(f"words of a line {lines(tab)}", lines(tab) == [] or lines(tab)[0].startswith("abandon ops 7 "))
    tab.value("startLine('')")
    tab.type("go refusals")
    tab.enter()
    check("a place of the page", tab.value("document.activeElement.id") == "h-refusals")
    tab.value("startLine('quit')")
    tab.enter()
    check("no other command", wait_for(lambda: tab.text("answer") == "quit: the console doesn't take this command"))
    for line, whole in (("send a 2 5 /x/y.bin b", "send a 2 5 /x/y.bin b as y.bin"), ('send a 2 5 "/x y/z \\"q" b urgent', 'send a 2 5 "/x y/z \\"q" b urgent as "z \\"q"'),
                        ("send a 2 5 /x/y b as z", "send a 2 5 /x/y b as z"), ("hold 5", "hold 5")):
        check(f"{line}: the name alone", tab.value(f"withName({json.dumps(line)})") == whole)


def type_it(tab):
    """With nothing but the keyboard, on a page that was just loaded: two files are sent, a link is held and released, a script is saved."""
    names = [os.path.join(folder.name, name) for name in ("by key 1", "by key 2")]
    for name in names:
        with open(name, "wb") as file:
            file.write(b"x" * 1000)
    field = "document.getElementById('send').elements.{}".format
    check("Tab gets to the commands", tab.reach("document.querySelector('#give > summary')"))
    tab.enter()
    check("Enter opens them", tab.value("document.getElementById('give').open"))
    check("the only user is there", tab.value(field("user") + ".value") == "ops")
    for name, words in (("to", "5"), ("src", "\n".join(names)), ("dst", "typed/")):
        check(f"Tab gets to the field {name}", tab.reach(field(name)))
        tab.type(words)
        check(f"{name} is typed", tab.value(field(name) + ".value") == words)
    tab.asked.clear()
    tab.enter()
    check(f"Enter asks {tab.asked}", tab.asked == ["Send 2 files to entity 5?"])
    check("two files typed end", wait_for(lambda: all(f"typed/{os.path.basename(name)}" in tab.text("ended") for name in names)))
    for label, line in (("Hold", "hold 5"), ("Release", "release 5")):
        tab.asked.clear()
        check(f"Tab gets to {label}", tab.reach(f"document.querySelector('#remotes button[aria-label=\"{label} entity 5\"]')"))
        tab.enter()
        check(f"{line}, by key", wait_for(lambda: tab.text("answer") == f"{line}: ok") and tab.asked == [f"{label} entity 5?"]
              and wait_for(lambda: ("held since" in tab.text("remotes")) == (label == "Hold")))
    scripts = lambda: {name for name in os.listdir(folder.name) if name.endswith(".script")}
    before = scripts()
    script = "document.querySelector('#ended button[aria-label^=\"Script of transaction 7.\"]')"
    check("Tab gets to a script", tab.reach(script))
    name = tab.value(script + ".getAttribute('aria-label')").split()[-1] + ".script"
    tab.enter()
    check(f"{name} is saved, by key", wait_for(lambda: scripts() - before == {name}))


def lines_at(second):
    """A document of a station that counts and explains, with long values everywhere, at a second of it."""
    moment = lambda at: f"2026-11-26T12:{at // 60:02}:{at % 60:02}.000Z"
    counters = dict.fromkeys(("datagrams_in", "octets_in", "datagrams_out", "octets_out", "refused", "stored", "failed_stores"), 123_456_789)
    txn = {"source": 255, "seq": 1_234_567, "user": "operations", "lane": 7, "role": "receiver", "peer": 255, "class": 2, "file": "a.bin", "to": "b.bin",
           "events": second, "last": moment(100)}
    going = {**txn, "state": "suspended", "notice": "journal-full", "size": 1_200_000_000, "octets": 1_100_000_000, "missing": 900_000_000}
    moving = {**going, "seq": 1_234_568, "state": "active", "missing": 900_000_000 - 9_000_000 * second}
    over = {**txn, "seq": 1_234_569, "state": "ended", "size": 9, "octets": 1_100_000_000, "condition": 1, "delivery": "incomplete", "status": "discarded"}
    remote = {"address": "192.168.100.200:45567", "datagrams_in": 123_456_789, "octets_in": 10**12 + second * 10**7, "datagrams_out": 123_456_789,
              "octets_out": 10**12 + second * 10**7, "failed_sends": 1_234_567, "heard": moment(90), "silence": 10_000}
    return {"entities": [{"id": 1, "version": "0.1", "started": moment(0), "now": moment(100 + second), "counters": counters}], "logs": [], "recorders": [],
            "users": [{"name": "operations", "waiting": 1_024, "capacity": 1_024}], "transactions": [going, moving, over],
            "ended": [{"role": "sender", "class": 2, "condition": 0, "count": 5}, {"role": "receiver", "class": 0, "condition": 10, "count": 2}],
            "delivered": [{"role": "sender", "files": 1, "octets": 700}, {"role": "receiver", "files": 0, "octets": 0}],
            "remotes": [{**remote, "id": 255, "held": True, "held_since": moment(5)}, {**remote, "id": 254, "held": False, "open_until": moment(600)}],
            "outbox": [{"number": 1_234_567, "user": "operations", "class": 2, "destination": 255, "file": "a.bin", "to": "b.bin", "since": moment(9)}],
            "reading": [{"file": "/net/a.bin", "since": moment(9)}],
            "storing": [{"source": 255, "seq": 1_234_567, "since": moment(9), "why": "no space is left"}],
            "parked": [{"user": "operations", "lane": 7, "datagrams": 1_234, "transactions": 12, "octets": 10**8, "dropped": 123_456, "since": moment(9)}],
            "refusals": [{"number": 20, "name": "DecodeFault", "fault": 6, "count": 123_456, "last": moment(9), "from": "192.168.100.200:45567",
                          "octets": "24" * 64, "source": 255, "seq": 1_234_567, "pdu": "unknown directive"}]}


# How many octets of a file are there, of a transaction with such members.
THERE = [({"size": 10, "octets": 8, "missing": 7}, 3), ({"size": 10, "octets": 8, "missing": 0}, 10), ({"size": 10, "octets": 8, "missing": 10}, 0),
         ({"size": 10, "octets": 8}, 8), ({"octets": 8}, 8), ({"octets": 8, "missing": 2}, 8), ({"size": 0, "octets": 0, "missing": 0}, 0), ({}, 0)]


def wide(tab):
    """What the page makes of given lines, while no station answers: each table, with all that a station counts, at 1,280 pixels."""
    for members, octets in THERE:
        check(f"of {members} there are {octets}", tab.value(f"there({json.dumps(members)})") == octets)
    enter(tab, "token", TOKEN, "change")
    size(tab, 1280, 900)
    for second in range(2):
        tab.value(f"show({json.dumps(lines_at(second))})")
    check("the time left by what is missing", wait_for(lambda: "25 %, 850 MiB missing, 99 s left" in tab.text("active")))
    check("what is counted", "; the station has counted 7 ends since its start." in tab.text("ended-count")
          and "receivernot seencheck limit reached2" in tab.text("counts") and tab.text("delivered") == "1 file (700 B) came whole there, 0 files (0 B) came whole here")
    check("what doesn't move has no time left", tab.text("active").count(" left") == 1 and "25 %, 858 MiB missing" in tab.text("active"))
    check("who was heard, by the station", tab.text("remotes").count("10 s ago") == 2)
    check("which PDU was refused", "20 DecodeFault, fault 6, unknown directive of 255.1234567" in tab.text("refusals"))
    for name in TABLES:
        check(f"1280 pixels, with all that is counted: {name} fits", over(tab, name) == 0)
    no_holes(tab)
    holds(tab)
    passes(tab)
    scales(tab)
    older(tab)


def holds(tab):
    """Planned holds are no alarms: those since the start, at the end of a window, or by an event. Others are, each anew."""
    moment = lambda second: f"2026-11-26T12:{second // 60:02}:{second % 60:02}.000Z"
    tab.value("acknowledgeAll([...memory.raised.keys()]); lastId = ''; plannedHolds.clear(); memory.windows.clear()")
    document = lines_at(3)
    for name in ("transactions", "storing", "users", "refusals"):
        document[name] = []

    def after(second, event=None, **link):
        document["entities"][0]["now"], document["remotes"] = moment(second), [{**lines_at(0)["remotes"][0], "held": False, "held_since": None, **link}]
        if event:
            tab.value(f"note({json.dumps(event)})")
        tab.value(f"show({json.dumps(document)})")
        return [one for one in alarms(tab) if "is held" in one and "over since" not in one]
    check("held since the start", after(100, held=True, held_since=moment(0)) == [] and "as planned" in tab.text("remotes"))
    check("an open window, and its end", after(110, open_until=moment(120)) == [] and after(121, held=True, held_since=moment(120)) == [])
    check("held before the end of a window", after(130, open_until=moment(140)) == [] and len(after(133, held=True, held_since=moment(132))) == 1)
    check("held as an event says", after(150) == [] and after(160, {"kind": "hold", "id": 255, "planned": True, "at": moment(160)}, held=True, held_since=moment(160)) == [])
    check("held by somebody", after(170) == [] and after(181, held=True, held_since=moment(180)) == ["warning: entity 255 is held since 2026-11-26 12:03:00Z"])
    tab.value("acknowledgeAll([...memory.raised.keys()])")
    check("acknowledged", after(182, held=True, held_since=moment(180)) == [])
    check("held anew", after(190) == [] and len(after(192, held=True, held_since=moment(191))) == 1)
    check("what is over stays", after(200) == [] and any("is held since 2026-11-26 12:03:11Z (over since" in one for one in alarms(tab)))


def bars_of(tab, link, name):
    """The bars of a line of time, from where to where in hundredths of its width."""
    drawn = tab.value(f"passLines.get('{link}').{name}.getAttribute('d')") or ""
    wide = tab.value(f"passLines.get('{link}').svg.clientWidth")
    return [(round(100 * float(first) / wide), round(100 * float(last) / wide)) for first, last in re.findall(r"M([0-9.]+) [0-9]+H([0-9.]+)V", drawn)]


def words_of_pass(tab, link):
    return tab.value(f"passLines.get('{link}').words.textContent")


def passes(tab):
    """A line of time of twelve hours, of which it is the third: when a link was open by events, until when it is, and what is planned."""
    at = lambda clock: f"2026-11-26T{clock}:00.000Z"
    document = lines_at(3)
    for name in ("transactions", "storing", "users", "refusals"):
        document[name] = []
    document["entities"][0].update(started=at("09:36"), now=at("12:00"))
    link = {**lines_at(0)["remotes"][0], "held": False, "held_since": None, "open_until": at("12:36")}
    document["remotes"] = [link]
    tab.value("acknowledgeAll([...memory.raised.keys()]); asksPlan = true; turns.clear(); plannedHolds.clear(); memory.windows.clear()")
    for kind, clock in (("hold", "10:12"), ("release", "10:48"), ("hold", "11:24"), ("release", "11:45")):
        tab.value(f"note({json.dumps({'kind': kind, 'id': 255, 'at': at(clock)})})")
    windows = [("11:45", "12:36"), ("13:48", "14:24"), ("16:12", "16:48")]

    def shown(count, rate=None, faults=()):
        given = [f"{{ remote: '255', from: Date.parse('{at(begin)}'), until: Date.parse('{at(end)}'){rate or ''} }}" for begin, end in windows[:count]]
        tab.value(f"plan = {{ windows: [{', '.join(given)}], faults: {json.dumps(list(faults))} }}; show({json.dumps(document)})")
        return words_of_pass(tab, "255")
    tab.value("document.getElementById('s-passes').scrollIntoView()")
    words = shown(2, ", rate: 8000")
    check(f"a pass in words: {words}", words == "open until 2026-11-26 12:36:00Z, 36 min left. Next 13:48Z to 14:24Z, in 108 min, at most 7.8 KiB/s. 1 window to come.")
    check("several passes", shown(3, ", rate: 'off'").endswith(" in 108 min, without a limit. 2 windows to come.") and shown(1).endswith(" left. 0 windows to come."))
    shown(3)
    check(f"when the link was open {bars_of(tab, '255', 'was')}", bars_of(tab, "255", "was") == [(5, 10), (15, 20), (23, 25)])
    check(f"until when it is open {bars_of(tab, '255', 'isOpen')}", bars_of(tab, "255", "isOpen") == [(25, 30)])
    check(f"what is planned {bars_of(tab, '255', 'planned')}", bars_of(tab, "255", "planned") == [(23, 30), (40, 45), (60, 65)])
    labels = tab.value("[...document.querySelectorAll('#passes text')].map(text => text.textContent)")
    check(f"an axis in UTC {labels}", labels == ["10:00Z", "12:00Z", "14:00Z", "16:00Z", "18:00Z", "20:00Z"])
    here = tab.value("Number(passLines.get('255').here.getAttribute('d').match(/M([0-9.]+)/)[1]) / passLines.get('255').svg.clientWidth")
    check(f"the present moment {here}", abs(here - 0.25) < 0.01)
    enter(tab, "span", "72")
    labels = tab.value("[...document.querySelectorAll('#passes text')].map(text => text.textContent)")
    check(f"three days {labels}", "2026-11-27" in labels and "2026-11-28" in labels and bars_of(tab, "255", "planned")[-1] == (31, 32))
    enter(tab, "span", "12")
    document["remotes"] = [{**link, "held": True, "held_since": at("11:50"), "open_until": None}]
    windows[0] = ("10:48", "11:24")
    check(f"held outside the windows of a plan {alarms(tab)}", shown(3).startswith("held since 2026-11-26 11:50:00Z, as planned. Next") and not any("is held" in one for one in alarms(tab)))
    windows[0] = ("11:45", "12:36")
    check("held in a window of a plan", shown(3).startswith("held since 2026-11-26 11:50:00Z. Next") and any("is held" in one for one in alarms(tab)))
    shown(0, faults=["line 3: 'x' is not a moment", "line 4: 'y' is not a moment"])
    check("faults of a plan are an alarm", "warning: 2 faults in the plan of windows: line 3: 'x' is not a moment" in alarms(tab))
    shown(0, faults=["line 3: 'x' is not a moment"])
    check("one fault of a plan", "warning: 1 fault in the plan of windows: line 3: 'x' is not a moment" in alarms(tab))
    tab.value("acknowledgeAll([...memory.raised.keys()]); turns.clear(); asksPlan = false; plan = { windows: [], faults: [] }")


def plan_of(*windows):
    """The text of a plan, of windows by their entity, and when they begin and end, in seconds from now."""
    moment = lambda seconds: time.strftime("%Y-%m-%dT%H:%M:%SZ", time.gmtime(time.time() + seconds))
    return "".join(f"{moment(begin)} {moment(end)} {remote} {rate}\n" for remote, begin, end, rate in windows)


def planned(tab):
    """A console with a plan: the page shows it, its faults, and what it says once it has changed."""
    path, passed, port = os.path.join(folder.name, "plan"), os.path.join(folder.name, "passed"), free_port()
    write = lambda text: open(path, "w", encoding="utf-8").write(text)
    write(plan_of((5, -600, 600, ""), (5, 3_600, 7_200, "8000"), (7, 1_800, 2_400, "off")))
    start(sys.executable, os.path.join(here, "fake_station.py"), passed)
    wait_for(lambda: os.path.exists(passed))
    start(web, "--control", passed, "--listen", f"127.0.0.1:{port}", "--windows", path)
    check("a plan: the console", wait_for(lambda: b"cfdp_up 1" in get(port, "/metrics")))
    tab.call("Page.navigate", url=f"http://127.0.0.1:{port}/")
    check("a plan: what comes", wait_for(lambda: " 1 window to come." in (words_of_pass(tab, "5") or "") and "without a limit" in (words_of_pass(tab, "7") or "")))
    check("a plan: its bars", len(bars_of(tab, "5", "planned")) == 2 and len(bars_of(tab, "7", "planned")) == 1)
    write("# nothing but\na fault\n")
    check("a plan: a fault", wait_for(lambda: tab.text("plan-faults") == "line 2: 'a' begins a line with fewer than three words: FROM UNTIL ENTITY [RATE]"
                                     and any("1 fault in the plan" in one for one in alarms(tab))))
    write(plan_of((7, 60, 120, "")))
    check("a plan: another one", wait_for(lambda: tab.text("plan-faults") == "" and " 1 window to come." in (words_of_pass(tab, "7") or "") and bars_of(tab, "5", "planned") == []))
    os.unlink(path)
    check("a plan: none any more", wait_for(lambda: tab.text("plan-faults") == f"{path}: no such file"))
    no_faults(tab)


# What stands at an axis up to such a value.
AXES = [(4, ["0 B/s", "1 B/s", "2 B/s", "3 B/s", "4 B/s"]), (5, ["0 B/s", "2 B/s", "4 B/s", "6 B/s"]), (999, ["0 B/s", "500 B/s", "1000 B/s"]),
        (9_000, ["0 KiB/s", "5 KiB/s", "10 KiB/s"]), (3 * 1024**2, ["0 MiB/s", "1 MiB/s", "2 MiB/s", "3 MiB/s"])]


def scales(tab):
    for most, labels in AXES:
        check(f"an axis up to {most}", tab.value(f"axis({most}).labels") == labels and tab.value(f"axis({most}).top") >= most)


def older(tab):
    """Transactions of which no lane knows any more are shown as the events told of them."""
    events = [{"kind": "put", "user": "ops", "source": 1, "seq": 7, "peer": 5, "class": 2, "file": "<b>old</b>", "to": "old.bin", "size": 2048},
              {"kind": "indication", "user": "ops", "source": 1, "seq": 7, "name": "Transaction-Finished", "condition": 0, "delivery": "complete", "status": "retained"},
              {"kind": "indication", "user": "ops", "source": 9, "seq": 8, "name": "Metadata-Recv", "origin": 9, "size": 10, "file": "in.bin", "to": "in.bin", "messages": []},
              {"kind": "indication", "user": "ops", "source": 9, "seq": 8, "name": "Abandoned", "condition": 8, "progress": 5},
              {"kind": "indication", "user": "ops", "source": 9, "seq": 9, "name": "Metadata-Recv", "origin": 9, "size": 10, "file": "on.bin", "to": "on.bin", "messages": []}]
    text = "".join(f"id: a-{number}\ndata: {json.dumps({'at': f'2026-11-26T11:00:0{number}.000Z', 'number': number, **event})}\n\n" for number, event in enumerate(events))
    tab.value(f"past.clear(); lastId = ''; take({json.dumps(text)}); show({json.dumps(lines_at(4))})")
    rows = tab.value("[...document.querySelectorAll('#ended tbody tr')].map(row => row.row.item).map(t => [key(t), direction(t), t.user, names(t), ending(t)[0], moment(t.last), !t.isPast])")
    check(f"older transactions {rows}", [row[0] for row in rows] == ["255.1234569", "9.8", "1.7"] and rows[1:] == [
        ["9.8", "← from 9", "ops", "in.bin → in.bin", "✗ abandoned: inactivity detected", "2026-11-26 11:00:03Z", False],
        ["1.7", "→ to 5", "ops", "<b>old</b> → old.bin", "✓ complete, retained", "2026-11-26 11:00:01Z", False]])
    check("how many are older", tab.text("ended-count").startswith("1 as the lanes have them, 2 older by events; "))


def no_holes(tab):
    words = tab.value("document.body.innerText + document.title + [...document.querySelectorAll('[aria-label]')].map(e => e.ariaLabel).join()")
    check("no text of the page has holes", not [hole for hole in ("undefined", "NaN", "null", "Infinity", "Invalid", "[object") if hole in words])


def give_files(tab, names, given):
    """Fills in what is to be sent, and sends it."""
    tab.value(f"""(form => {{ const field = form.elements; field.user.value = 'ops'; field.to.value = '5'; field.dst.value = '{given}';
        field.src.value = {json.dumps(chr(10).join(names))}; form.requestSubmit(); }})(document.getElementById('send'))""")


def goes(tab, station):
    """The station goes, and one with a thousand transactions comes."""
    station.kill()
    station.wait()
    check("the station is gone, and since when", wait_for(lambda: "The station is gone, since" in tab.text("state")))
    check("what was known stays", "DecodeFault" in tab.text("refusals"))
    wide(tab)
    os.unlink(control)
    start(sys.executable, os.path.join(here, "fake_station.py"), control, "--transactions", "1000")
    check("the station is back", wait_for(lambda: "The station answers" in tab.text("state")) or print(tab.text("state")))
    check("no datagram waits", wait_for(lambda: tab.value("document.getElementById('s-parked').classList.contains('hidden')") is True))
    check("a thousand transactions", wait_for(lambda: tab.value("[...document.querySelectorAll('#active tbody tr, #ended tbody tr')].filter(tr => !tr.row.item.isPast).length") == 1000))
    pauses = tab.call("Runtime.evaluate", awaitPromise=True, returnByValue=True, expression="""new Promise(done => {
        const box = document.getElementById('active').parentNode; let before = performance.now(), pauses = [], turns = 0;
        const turn = now => { pauses.push(now - before); before = now; box.scrollTop += 40;
            if (++turns < 180) requestAnimationFrame(turn); else done(pauses); };
        requestAnimationFrame(turn); })""")["result"].get("value")
    print(f"     scrolling a thousand: {max(pauses):.0f} ms between two frames at most, {sorted(pauses)[90]:.0f} ms in the middle, "
          f"{sum(pause > 100 for pause in pauses)} of 180 above 100 ms")
    no_faults(tab)


def counted(tab):
    """What a real station counts and explains."""
    os.makedirs(os.path.join(folder.name, "counts"))
    os.chdir(os.path.join(folder.name, "counts"))
    with real_station(server, limit=100) as (one, peer):
        one.client().close()
        port = free_port()
        start(web, "--control", one.path, "--listen", f"127.0.0.1:{port}")
        check("counts: the console", wait_for(lambda: b"cfdp_up 1" in get(port, "/metrics")))
        tab.call("Page.navigate", url=f"http://127.0.0.1:{port}/")
        check("counts: nobody was heard", wait_for(lambda: heard(tab) == "not since the start"))
        lose(tab, "counts", lambda datagram: peer.sendto(datagram, ("127.0.0.1", one.port)), True)
    os.chdir("/")
    no_faults(tab)


def by_hand(tab):
    """A real station that takes commands: one file comes and is abandoned, and of two that wait the urgent one goes first."""
    os.makedirs(os.path.join(folder.name, "by_hand"))
    os.chdir(os.path.join(folder.name, "by_hand"))
    with real_station(server, limit=100, inactivity=100_000) as (one, peer):
        operator = one.client()
        operator.ask("hold 2")
        give = lambda datagram: peer.sendto(datagram, ("127.0.0.1", one.port))
        port = free_port()
        start(web, "--control", one.path, "--listen", f"127.0.0.1:{port}", "--commands", "--token-file", os.path.join(folder.name, "token"))
        check("by hand: the console", wait_for(lambda: b"cfdp_up 1" in get(port, "/metrics")))
        tab.call("Page.navigate", url=f"http://127.0.0.1:{port}/")
        check("by hand: the page", wait_for(lambda: "held since" in tab.text("remotes")))
        enter(tab, "token", TOKEN, "change")
        give(metadata(1, 9_000, b"coming"))
        give(file_data(1, 0, b"x" * 1_000))
        ages(tab, lambda: give(file_data(1, 0, b"x" * 1_000)))
        leave(tab)
        urgent(tab, operator, peer)
        operator.close()
    os.chdir("/")
    no_faults(tab)


def cell(tab, table, label):
    return tab.value(f"(document.querySelector('#{table} tbody [data-label=\"{label}\"]') || {{}}).textContent") or ""


def seconds_in(text):
    found = re.fullmatch("([0-9]+) s", text)
    return int(found.group(1)) if found else None


def ages(tab, give):
    """The age of the last event grows, and goes back when a PDU comes, also one that tells nothing new."""
    last = lambda: seconds_in(cell(tab, "active", "Last event"))
    check("by hand: the last event gets older", wait_for(lambda: (last() or 0) >= 8, 40))
    give()
    check("by hand: a PDU comes, and it is younger again", wait_for(lambda: last() in range(5)))


def leave(tab):
    tab.asked.clear()
    tab.value("document.querySelector('#active button[aria-label=\"More for transaction 2.1\"]').click()")
    tab.value("[...document.querySelectorAll('#menu .danger')].find(button => button.textContent === 'Abandon ...').click()")
    check("by hand: abandon 2.1", wait_for(lambda: tab.text("answer") == "abandon alice 2 1: ok")
          and tab.asked == ["Abandon transaction 2.1? It ends here at once, and the other entity isn't told."])
    check("by hand: it is abandoned", wait_for(lambda: "✗ abandoned" in cell(tab, "ended", "How it ended")
                                              and cell(tab, "ended", "Transaction") == "2.1" and cell(tab, "active", "Transaction") == ""))


def urgent(tab, operator, peer):
    """Two files wait while the link is held. The urgent one was sent last, and goes first. The receiver learns no folder of theirs."""
    for number, (name, is_urgent) in enumerate((("calm", "false"), ("urgent", "true")), 1):
        with open(name, "wb") as file:
            file.write(b"x" * 1_000)
        tab.value(f"""(form => {{ const field = form.elements; field.user.value = 'alice'; field.to.value = '2'; field.src.value = '{os.path.abspath(name)}';
            field.urgent.checked = {is_urgent}; form.requestSubmit(); }})(document.getElementById('send'))""")
        check(f"by hand: {name}, queued {number}", wait_for(lambda: tab.text("answer").endswith(f"{name}: queued {number}")))
    peer.settimeout(1)
    operator.ask("follow 1000")
    operator.ask("release 2")
    puts = lambda: [event["file"] for event in operator.events if event["kind"] == "put"]
    check("by hand: both go", wait_for(lambda: operator.ask("status") and len(puts()) == 2))
    check(f"by hand: the urgent one first {puts()}", [os.path.basename(file) for file in puts()] == ["urgent", "calm"])
    came, named = [], lambda name: any(bytes([len(name), *name, len(name), *name]) in one for one in came)
    check("by hand: the names alone come", wait_for(lambda: came.append(peer.recv(65_536)) or named(b"urgent") and named(b"calm"))
          and not any(os.path.basename(folder.name).encode() in one for one in came))


def seconds_ago(tab):
    """How many seconds ago the entity was heard, by the page; -1 where it says no such thing."""
    found = re.fullmatch("([0-9]+) s ago", heard(tab) or "")
    return int(found.group(1)) if found else -1


def heard(tab):
    return tab.value("(document.querySelector('#remotes td[data-label=Heard]') || {}).textContent")


def heights_of(tab):
    """The heights of the chart's line for what comes in, each once."""
    return set(re.findall("[ML][0-9.]+ ([0-9.]+)", line_of(tab, "all", "in")))


def rate_in(text):
    """The first rate of a text, in octets a second; None if there is none."""
    found = re.search(r"([0-9.]+) (B|KiB)/s", text)
    return float(found.group(1)) * (1024 if found.group(2) == "KiB" else 1) if found else None


def lose(tab, name, give, is_counted):
    """Every other piece of a file is lost, and comes later; a PDU is refused; then nothing comes any more."""
    data = bytes(range(250)) * 400
    pieces = [file_data(1, at, data[at:at + 1_000]) for at in range(0, len(data), 1_000)]
    for datagram in (metadata(1, len(data), b"lossy"), *pieces[::2]):
        give(datagram)
    share = "50 %, 49 KiB missing" if is_counted else "99 %, 1000 B missing"
    check(f"{name}: {share}", wait_for(lambda: share in tab.text("active")))
    tab.value("document.getElementById('charts').scrollIntoView()")
    shown, rates = [], {"reception": [], "link": [], "chart": []}
    for piece in pieces[1:-1:2]:
        give(piece)
        time.sleep(0.15)
        shown.append(tab.text("active"))
        for what, text in (("reception", cell(tab, "active", "Rate")), ("link", cell(tab, "remotes", "Rate in")), ("chart", tab.value(chart_of("all") + ".firstChild.textContent") or "")):
            rates[what].append(rate_in(text))
    shares = [int(found.group(1)) for found in (re.search(r"([0-9]+) %", text) for text in shown) if found]
    # Of the first looks the page may still show the pieces before the losses.
    lefts = [text for text in shown[3:] if re.search(r" missing, [0-9]+ s left", text)]
    if is_counted:
        check(f"{name}: what is missing goes down {shares}", shares == sorted(shares) and len(set(shares)) > 3 and shares[-1] > 75)
        check(f"{name}: the time left", len(lefts) > 3)
    else:
        check(f"{name}: the greatest offset stays, and nothing says when the rest comes", set(shares) == {99} and not lefts)
    # a piece of 1,000 octets each 0.15 s or more
    for what, found in rates.items():
        if what != "reception" or is_counted:
            check(f"{name}: the rate of the {what} at the end, {found[-1]} B/s", found[-1] and 300 < found[-1] < 9_000)
    check(f"{name}: the chart has a line that isn't flat", wait_for(lambda: len(heights_of(tab)) > 1))
    no_holes(tab)
    give(file_data(9, 0, b"abc", source=9))
    refusal = "NoRoute, File Data of 9.9" if is_counted else "NoRoute"
    check(f"{name}: {refusal}", wait_for(lambda: f"{refusal}1" in tab.text("refusals")))
    give(pieces[-1])
    give(end_of_file(1, data))
    check(f"{name}: the end of the file", wait_for(lambda: "complete, retained" in tab.text("ended")))
    quiet(tab, name, is_counted)


def quiet(tab, name, is_counted):
    """A page that is opened after all that came: only a station that counts says when that was."""
    tab.value("window.isOld = true")
    tab.call("Page.reload")
    check(f"{name}: the page again", wait_for(lambda: tab.value("!window.isOld") and heard(tab) not in (None, "")))
    if is_counted:
        first = re.fullmatch("([0-9]+) s ago", heard(tab))
        check(f"{name}: heard {heard(tab)}, and some seconds later", first and wait_for(lambda: seconds_ago(tab) >= int(first.group(1)) + 3))
    else:
        check(f"{name}: heard {heard(tab)}", re.fullmatch("before [0-9:]{8}Z", heard(tab)))
    for table in TABLES:
        check(f"{name}: {table} fits", over(tab, table) in (0, None))
    no_holes(tab)


def no_faults(tab):
    faults = [fault for fault in tab.faults
              if fault.get("entry", {}).get("level", "error") in ("error", "warning") and not any(status in json.dumps(fault) for status in ("503", "400 (Bad Request)"))]
    check(f"no fault and no breach of the policy {faults or ''}", not faults)


def main():
    chromium = shutil.which("chromium")
    if chromium is None:
        sys.exit("browser: Debian's package chromium isn't here")
    port, debugging = free_port(), free_port()
    station = start(sys.executable, os.path.join(here, "fake_station.py"), control, "--transactions", "8", "--pace", "3000", "--odd", "--parked", "2",
                    "--storing", "2", "--recorded", "7,2,1", "--unreadable", "missing")
    with open(os.path.join(folder.name, "token"), "w", encoding="utf-8") as file:
        file.write(TOKEN + "\n")
    start(web, "--control", control, "--listen", f"127.0.0.1:{port}", "--commands", "--token-file", os.path.join(folder.name, "token"))
    check("the console", wait_for(lambda: b"cfdp_up 1" in get(port, "/metrics")))
    promtool = shutil.which("promtool")
    if promtool:
        ended = subprocess.run([promtool, "check", "metrics"], input=get(port, "/metrics"), capture_output=True, timeout=20)
        check("promtool check metrics " + (ended.stdout + ended.stderr).decode(), ended.returncode == 0)
    else:
        print("     promtool isn't here")
    start(chromium, "--headless", "--no-sandbox", "--disable-gpu", f"--remote-debugging-port={debugging}",
          f"--user-data-dir={folder.name}/profile", "about:blank")
    check("chromium", wait_for(lambda: any(t["type"] == "page" for t in json.loads(get(debugging, "/json"))), 90))
    tab = Tab(debugging)
    for domain in ("Page", "Runtime", "Log"):
        tab.call(domain + ".enable")
    look(tab, port)
    quit_alarms(tab)
    sift(tab)
    work(tab)
    command_line(tab)
    type_it(tab)
    goes(tab, station)
    planned(tab)
    counted(tab)
    by_hand(tab)
    if picture:
        take_picture(tab)


def take_picture(tab):
    """The page as an operator has it: files come, a link is held for which a file waits, one file can't be stored, commands can be
    given. The whole page at a desk, what a phone shows of it, and a dark one with the command line."""
    os.chdir(folder.name)
    with open("plan.bin", "wb") as file:
        file.write(b"x" * 1000)
    station = os.path.join(folder.name, "pictured")
    start(sys.executable, os.path.join(here, "fake_station.py"), station, "--transactions", "5", "--pace", "5000", "--storing", "2",
          "--recorded", "7,0,0", "--counters", "--traffic", "6000")
    wait_for(lambda: os.path.exists(station))
    operator = Client(station)
    passing = os.path.join(folder.name, "passing")
    with open(passing, "w", encoding="utf-8") as file:
        file.write(plan_of((5, -600, 600, "6000"), (5, 5_400, 6_600, "6000"), (5, 10_800, 12_000, "12000"), (5, 27_000, 28_200, "6000"), (7, 14_400, 28_800, "")))
    for line in ("release 5 600", "send ops 2 5 plan.bin plan.bin", "hold 7", "send ops 2 7 plan.bin in/plan.bin"):
        operator.ask(line)
    port = free_port()
    start(web, "--control", station, "--listen", f"127.0.0.1:{port}", "--commands", "--token-file", os.path.join(folder.name, "token"), "--windows", passing)
    wait_for(lambda: b"cfdp_up 1" in get(port, "/metrics"))
    tab.call("Page.navigate", url=f"http://127.0.0.1:{port}/")
    wait_for(lambda: "file 4.bin" in tab.text("active"))
    enter(tab, "token", TOKEN, "change")
    tab.value("command('rate 5 6000')")
    tab.value("document.getElementById('give').open = true")
    check("the picture has a file that waits, and buttons", wait_for(lambda: "plan.bin" in tab.text("outbox") and "Suspend" in tab.text("active")))
    size(tab, 1600, 900)
    tab.value("document.getElementById('charts').scrollIntoView()")
    time.sleep(45)
    tab.value("scrollTo(0, 0); answer('')")
    size(tab, 1600, tab.value("document.documentElement.scrollHeight"))
    shoot(tab, picture)
    size(tab, 390, 1600)
    shoot(tab, picture.replace(".png", "-phone.png"))
    size(tab, 1600, 900)
    tab.call("Emulation.setEmulatedMedia", features=[{"name": "prefers-color-scheme", "value": "dark"}])
    tab.value("startLine('7.')")
    shoot(tab, picture.replace(".png", "-dark.png"))


def shoot(tab, path):
    time.sleep(1.5)
    with open(path, "wb") as file:
        file.write(base64.b64decode(tab.call("Page.captureScreenshot", format="png")["data"]))


try:
    main()
finally:
    for process in started:
        process.kill()
        process.wait()
print(f"browser: {len(bad)} failed")
sys.exit(1 if bad else 0)
