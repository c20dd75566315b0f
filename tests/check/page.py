"""Tries the page that `make web` makes, in a Chromium without a window, from its file: the rows that are calls, of up to 64 kB; what is
typed, file by file, and by keys alone; each example; the line of a fault and its mark; an endless template; 10 MB of data; a link, which
another page opens; what is kept; that nothing is fetched or sent; that each control has a name; and that a narrow page needs no scrolling
to the side. And it is loaded from a server. web.py calls it. `page.py FOLDER` draws the page there: light, dark, with an example, with a
fault and on a phone. Its page.png, in 64 colours, is docs/page.png."""
import base64
import functools
import http.server
import json
import os
import sys
import tempfile
import threading

from tests.check import asked
from tests.lib import chromium, harness

PAGE = f"{harness.TOP}/packaging/out/web/tmpl.html"
ADDRESS = f"file://{PAGE}"
MOST = 1 << 16  # bytes of a call
AT_ONCE = 100  # calls
LEAST = 1400  # rows
# what the page does with some calls, which are given in JSON: the numbers of those whose answers are not as wanted
CALLS = """(async (calls) => {
    const bytes = (it) => Uint8Array.from(atob(it), (byte) => byte.charCodeAt(0));
    const spelled = (it) => btoa(Array.from(it, (byte) => String.fromCharCode(byte)).join(""));
    const wrong = [];
    for (const [number, it] of calls.entries()) {
        const files = it.files.map((file) => file.map(bytes));
        const came = await tmpl.render(files, bytes(it.name), it.data ? bytes(it.data) : undefined, it.options);
        const isRight = came.status === it.status && came.line === it.line && spelled(came.text) === it.text;
        if (!isRight) wrong.push([number, came.status, came.line]);
    }
    return wrong;
})"""
# how far below the top of the template the mark is
MARK = "['mark', 'template'].map((it) => document.getElementById(it).getBoundingClientRect().top).reduce((mark, top) => mark - top)"
CHOOSE = """(([name, value, kind]) => {
    const it = document.getElementById(name);
    it.value = value;
    it.dispatchEvent(new Event(kind));
})"""
# pastes a text as data
PASTE = """((text) => {
    const clipboardData = new DataTransfer();
    clipboardData.setData("text/plain", text);
    document.getElementById("data").dispatchEvent(new ClipboardEvent("paste", { clipboardData, cancelable: true }));
})"""
MODES = ("default", "invalid", "zero", "error")


def spelled(what):
    return base64.b64encode(what).decode()


def as_json(call):
    """A call as the page is asked for it."""
    steps, depth, mode, is_print = call.settings
    status, text, line = call.came
    options = {"steps": min(steps or 10**9, 2**53 - 1), "depth": depth or 1000, "missingKey": MODES[mode], "printed": bool(is_print)}
    return {
        "files": [[spelled(path), spelled(what)] for path, what in call.files], "name": spelled(call.name), "data": spelled(call.data),
        "options": options, "status": status, "text": spelled(text), "line": line.decode("utf-8", "replace").removesuffix("\n"),
    }


OWN = ("file:", "blob:", "data:", "about:", "http://127.0.0.1:")  # addresses of the page and its parts
REFUSED = "void ((globalThis.refused = []), addEventListener('securitypolicyviolation', (it) => refused.push(it.effectiveDirective)))"
# ways to send something, each with the directive of the policy that refuses it
SENDERS = {
    **dict.fromkeys(("fetch", "WebSocket", "EventSource"), "connect-src"), "Image": "img-src", "script": "script-src-elem", "iframe": "frame-src",
}
# tries to send something in one of these ways: the directives that refused it, and whether it was sent. That it failed says nothing of the policy.
SEND = """((how) => new Promise((end) => {
    let wasSent = false;
    refused.length = 0;
    setTimeout(() => end(refused.join() + (wasSent ? ", and it was sent" : "")), 500);
    const sent = () => (wasSent = true);
    const done = { onload: sent, onopen: sent };
    const address = "https://example.org/?secret";
    try {
        if (how === "fetch") fetch(address).then(sent, () => 0);
        else if (how === "WebSocket") Object.assign(new WebSocket(address.replace("https", "wss")), done);
        else if (how === "EventSource") Object.assign(new EventSource(address), done);
        else if (how === "Image") Object.assign(new Image(), done, { src: address });
        else document.body.append(Object.assign(document.createElement(how), how === "iframe" ? {} : done, { src: address })); // a frame loads a page of errors
    } catch {
        // a refusal is told of all the same
    }
}))"""


class Page:
    """The page as a person uses it."""

    def __init__(self, browser):
        self.browser = browser

    def open(self, address=ADDRESS):
        self.browser.open(address)
        self.browser.wait_for("document.getElementById('told').textContent || document.getElementById('line').textContent")

    def put(self, name, text):
        """Types a text into a field, in the place of what is there."""
        self.browser.value(f"(() => {{ const it = document.getElementById('{name}'); it.focus(); it.select?.(); }})()")
        if text:
            self.browser.type(text)
        else:
            self.browser.press("Delete", 46)

    def choose(self, name, value, kind="change"):
        """Chooses one of a list."""
        self.browser.value(f"{CHOOSE}({json.dumps([name, value, kind])})")

    def click(self, name):
        self.browser.value(f"document.getElementById('{name}').click()")

    def shown(self, name):
        return self.browser.value(f"document.getElementById('{name}').textContent")

    def comes(self, text, line="", seconds=20):
        """Waits for a text and a line, and says what came in their place."""
        wanted = json.dumps([text, line])
        got = "JSON.stringify([document.getElementById('text').textContent, document.getElementById('line').textContent])"
        if self.browser.wait_for(f"{got} === JSON.stringify({wanted})", seconds):
            return []
        return [f"    got {self.shown('text')[:300]!r} {self.shown('line')!r}\n    wanted {text[:300]!r} {line!r}"]

    def is_so(self, expression, seconds=5):
        return [] if self.browser.wait_for(expression, seconds) else [f"    it is not so: {expression}: {self.browser.value(expression)}"]


def judge_rows(page):
    calls = [it for it in asked.of_rows() if it.size() + len(it.came[1]) <= MOST]
    wrong = []
    for begin in range(0, len(calls), AT_ONCE):
        some = calls[begin : begin + AT_ONCE]
        wrong += [f"    {it}" for it in page.browser.value(f"{CALLS}({json.dumps([as_json(it) for it in some])})")]
    few = len(calls) < LEAST
    print(f"{len(calls)} rows went through the page")
    return "the rows", len(calls), wrong + ["    these are too few"] * few


def judge_first(page):
    page.browser.value("localStorage.clear()")
    page.open()
    wrong = page.comes("Hello, Ada!\n0. a pen\n1. paper & ink\n")
    return "the first text", 1, wrong


def judge_typing(page):
    """A template that is typed, with data and options, in two files."""
    page.click("anew")
    wrong = page.comes("")
    page.put("template", 'Dear {{.name}}{{template "end" .}}')
    wrong += page.comes("Dear <no value>", 'tmpl: template:1: in "template": no template "end"')
    page.put("data", '{"name": "Ada"}')
    wrong += page.comes("Dear Ada", 'tmpl: template:1: in "template": no template "end"')
    page.click("add")
    page.put("path", "end.tmpl")
    page.put("template", 'one\ntwo\n{{define "end"}}, yours{{end}}{{end}}')
    wrong += page.comes("", "tmpl: end.tmpl:3: out of place")
    wrong += page.is_so("!document.getElementById('mark').hidden && document.getElementById('tab-1').classList.contains('wrong')")
    wrong += page.is_so(f"Math.abs({MARK} - 8 - 2 * parseFloat(getComputedStyle(document.getElementById('template')).lineHeight)) < 2")
    page.click("go")
    wrong += page.is_so("document.activeElement.id === 'template' && document.getElementById('template').selectionStart === 8")
    page.put("template", '{{define "end"}}, yours{{end}}')
    wrong += page.comes("Dear Ada, yours")
    page.put("name", "end")
    wrong += page.comes(", yours")
    page.put("name", "")
    page.click("as-set")
    printed = '{{define "template"}}Dear {{.name}}{{template "end" .}}{{end}}\n'
    printed += '{{define "end"}}, yours{{end}}\n{{define "end.tmpl"}}{{end}}\n'
    wrong += page.comes(printed)
    page.click("as-text")
    page.put("data", '{"name": 1.5}')
    wrong += page.comes("", "tmpl: data: number not whole or out of range")
    wrong += page.is_so("document.getElementById('data').getAttribute('aria-invalid') === 'true'")
    page.put("data", "{}")
    page.choose("missing-key", "error", "input")
    wrong += page.comes("Dear ", 'tmpl: template:1: in "template": no entry for key "name"')
    return "typing", 12, wrong


def judge_findings(page):
    """What tmpl-check finds is listed while one types, with its place, and over a schema with a counterexample."""
    page.click("anew")
    page.put("template", "\u00e9\U0001f600 {{.a}} {{name}}\n{{end}}")
    listed = "Array.from(document.querySelectorAll('#findings button'), (it) => it.textContent).join('|') === %s"
    both = 'template:1:11: error: action not understood: no function "name": write .name|template:2:1: error: out of place: ' \
        '"end" closes nothing: no if, with, range, define or block is open'
    wrong = page.is_so(listed % json.dumps(both), 20)
    wrong += page.is_so("document.getElementById('found').textContent === '2 errors.'")
    page.browser.value("document.querySelector('#findings button').click()")
    wrong += page.is_so("document.activeElement.id === 'template' && document.getElementById('template').selectionStart === 11")
    page.put("template", "{{len .a}}")
    wrong += page.is_so("document.getElementById('found').textContent === 'The template files have no errors.'", 20)
    page.put("schema", '{"type": "object", "required": ["a"], "properties": {"a": {"type": ["string", "integer"]}}}')
    found = "template:1:1: error: may fail: \"len\" may get what it refuses\nfails for {\"a\":1}: len: wrong kind of argument"
    wrong += page.is_so(listed % json.dumps(found), 20)
    page.put("schema", '{"type": "object", "required": ["a"], "properties": {"a": {"type": "string"}}}')
    wrong += page.is_so("document.getElementById('found').textContent.startsWith('The template fails over no data of the schema')", 20)
    page.put("schema", '{"type": "object",\n "requierd": ["a"]}')
    wrong += page.is_so("document.querySelector('#findings button')?.textContent.startsWith('schema:2:2: error: ')", 20)
    page.browser.value("document.querySelector('#findings button').click()")
    wrong += page.is_so("document.activeElement.id === 'schema' && document.getElementById('schema').selectionStart === 20")
    page.put("template", "{{f}}" * 300)
    page.put("schema", "")
    wrong += page.is_so("document.getElementById('found').textContent === '300 errors. The first 200 are listed.'", 20)
    return "findings", 9, wrong


def judge_keys(page):
    """The tabs by keys alone."""
    page.browser.value("document.getElementById('tab-1').focus()")
    wrong = []
    for key, to in (("ArrowRight", 0), ("ArrowRight", 1), ("Home", 0), ("End", 1), ("ArrowLeft", 0)):
        page.browser.press(key)
        wrong += page.is_so(f"document.activeElement.id === 'tab-{to}' && document.activeElement.getAttribute('aria-selected') === 'true'")
    page.browser.press("Tab", 9)
    wrong += page.is_so("document.activeElement.id === 'add'")
    return "the tabs by keys", 6, wrong


def judge_kept(page):
    """What was typed is there when the page is opened again."""
    page.open()
    wrong = page.comes("Dear ", 'tmpl: template:1: in "template": no entry for key "name"')
    return "what was typed is kept", 1, wrong + page.is_so("document.querySelectorAll('[role=tab]').length === 2")


def judge_link(page):
    """A link that another page opens, and that nothing but its input is left of what was there."""
    page.put("template", "1 &amp; \u00fc\U0001f600 {{.}}\n")
    page.put("data", '"<\u00e9>"')
    wrong = page.comes("1 &amp; \u00fc\U0001f600 <\u00e9>\n")
    page.click("link")
    wrong += page.is_so("location.hash.length > 20")
    address = page.browser.value("location.href")
    page.click("anew")
    wrong += page.comes("")
    page.put("template", "other")
    wrong += page.comes("other")
    page.open(address)
    wrong += page.comes("1 &amp; \u00fc\U0001f600 <\u00e9>\n")
    wrong += page.is_so("document.getElementById('missing-key').value === 'error' && document.querySelectorAll('[role=tab]').length === 2")
    page.open(f"{ADDRESS}#1no-link")
    wrong += page.comes("other")
    return "a link", 7, wrong


def judge_endless(page):
    """A run that does not end is ended, the page can be typed in meanwhile, and the next run is as any other."""
    page.click("anew")
    page.put("steps", "1000000000")
    page.put("template", "{{define `r`}}{{range 1000000000}}{{range 1000000000}}{{end}}{{end}}{{end}}{{template `r`}}")
    wrong = page.comes("", "stopped: the run had not ended after 2 seconds", 15)
    page.put("template", "well")
    wrong += page.comes("well")
    page.put("steps", "1000")
    page.put("template", "{{range 1000000000}}x{{end}}")
    return "an endless template", 3, wrong + page.comes("x" * 499, 'tmpl: template:1: in "template": more than 1000 steps')


def judge_much(page, folder):
    """10 MB of data, as a file and pasted."""
    page.click("anew")
    number = 10_000_000 // len('"line 123456",\n')
    text = "[" + ",\n".join(f'"line {it:06}"' for it in range(number)) + "]"
    with open(f"{folder}/much.json", "w", encoding="ascii") as it:
        it.write(text)
    page.put("template", "{{len .}} {{index . 7}}")
    page.browser.give_file("#data-file", f"{folder}/much.json")
    wrong = page.comes(f"{number} line 000007")
    wrong += page.is_so("document.getElementById('data').hidden && !document.getElementById('held').hidden")
    page.click("let-go")
    wrong += page.comes("", 'tmpl: template:1: in "template": len: wrong kind of argument')
    page.browser.value(f"{PASTE}({json.dumps(text)})")
    wrong += page.comes(f"{number} line 000007")
    page.put("template", "{{range .}}{{.}}\n{{end}}")
    wrong += page.is_so(f"document.getElementById('told').textContent.includes('{number * 12:,} bytes')", 20)
    return "10 MB of data", 5, wrong


def judge_examples(page):
    """Each example gives what its file `expected` has."""
    wrong, rows = [], harness.read_examples()
    for row in rows:
        name = row.name.partition(": ")[2]
        page.choose("example", name)
        wrong += page.comes(row.out.decode())
    page.click("back")
    return "the examples", len(rows), wrong


def judge_names(page):
    """Each control has a name that is read out."""
    nodes = page.browser.ask("Accessibility.getFullAXTree")["nodes"]
    nodes = [it for it in nodes if not it.get("ignored")]
    role, name = (lambda node, what=what: node.get(what, {}).get("value", "") for what in ("role", "name"))
    focusable = [it for it in nodes if any(at["name"] == "focusable" and at["value"]["value"] for at in it.get("properties", []))]
    wrong = [f"    {role(it)} has no name" for it in focusable if role(it) != "RootWebArea" and not name(it)]
    roles = set(map(role, nodes))
    wrong += [f"    there is no {it}" for it in ("main", "tab", "tabpanel", "tablist", "status", "heading") if it not in roles]
    return "the names of controls", len(focusable), wrong


def judge_narrow(page):
    """On a phone nothing stands out to the side."""
    wrong = []
    for width in (320, 375, 600, 1024):
        page.browser.ask("Emulation.setDeviceMetricsOverride", width=width, height=700, deviceScaleFactor=1, mobile=width < 600)
        wrong += page.is_so("document.documentElement.scrollWidth <= innerWidth")
    page.browser.ask("Emulation.clearDeviceMetricsOverride")
    return "narrow pages", 4, wrong


def judge_policy(page):
    """The page can send nothing, and fetched nothing but itself."""
    told = page.browser.events
    sent = [it["params"]["request"]["url"] for it in told if it.get("method") == "Network.requestWillBeSent"]
    wrong = [f"    it fetched {it[:100]}" for it in sent if not it.startswith(OWN)]
    logged = [it["params"]["entry"] for it in told if it.get("method") == "Log.entryAdded"]
    wrong += [f"    it logged {it}" for it in logged if it["level"] == "error"]
    page.browser.value(f"{REFUSED}")
    for way, directive in SENDERS.items():
        got = page.browser.value(f"{SEND}({json.dumps(way)})")
        wrong += [] if got == directive else [f"    {way}: refused by {got or 'nothing'}, not by {directive}"]
    return "nothing is sent", len(SENDERS), wrong


class Quiet(http.server.SimpleHTTPRequestHandler):
    def log_message(self, *_):
        pass


def judge_served(page):
    """The same from a server."""
    server = http.server.ThreadingHTTPServer(("127.0.0.1", 0), functools.partial(Quiet, directory=os.path.dirname(PAGE)))
    threading.Thread(target=server.serve_forever, daemon=True).start()
    page.open(f"http://127.0.0.1:{server.server_port}/tmpl.html")
    wrong = page.comes("Hello, Ada!\n0. a pen\n1. paper & ink\n")
    page.put("template", "{{len .name}}")
    wrong += page.comes("3")
    server.shutdown()
    return "from a server", 2, wrong


def results(folder):
    with chromium.Chromium(folder) as browser:
        page = Page(browser)
        page.open()
        yield judge_first(page)
        yield judge_typing(page)
        yield judge_keys(page)
        yield judge_kept(page)
        yield judge_link(page)
        yield judge_findings(page)
        yield judge_endless(page)
        yield judge_much(page, folder)
        yield judge_examples(page)
        yield judge_names(page)
        yield judge_narrow(page)
        yield judge_rows(page)
        yield judge_served(page)
        yield judge_policy(page)


def look(to):
    """Draws the page to files in a folder."""
    os.makedirs(to, exist_ok=True)
    with tempfile.TemporaryDirectory() as folder, chromium.Chromium(folder) as browser:
        page = Page(browser)
        page.open()
        dark, phone = {"is_dark": True}, {"width": 375, "height": 800}
        for name, how in (("light", {}), ("dark", dark), ("phone", phone), ("phone-dark", {**phone, **dark})):
            browser.look(f"{to}/{name}.png", **how)
        page.choose("example", "library")
        page.comes(next(it for it in harness.read_examples() if it.name.endswith("library")).out.decode())
        browser.look(f"{to}/example.png")
        browser.look(f"{to}/page.png", width=1200, height=760)
        page.put("template", "{{range .}}\n{{if}}\n{{end}}")
        page.is_so("!document.getElementById('mark').hidden")
        for name, how in (("fault", {}), ("fault-dark", dark), ("fault-phone", phone)):
            browser.look(f"{to}/{name}.png", **how)


if __name__ == "__main__":
    look(*sys.argv[1:])
