#!/usr/bin/python3
"""test.py [--times | --pictures]: tests web/index.html in Chromium and Firefox, opened as a file and from 127.0.0.1.

It also tries the one file that web/one_file makes. A browser that is missing is left out by name. With --times it
prints the seconds from the drop of 500,000 VRPs and 1,000,000 routes to their counts, of five runs each. With
--pictures it writes the pictures of docs/ by Chromium, and needs pngquant. The status is 1 if a test failed.
Debian's selenium is for /usr/bin/python3.
"""

import http.server
import json
import random
import re
import socket
import statistics
import subprocess
import sys
import tempfile
import threading
import time
from pathlib import Path
from urllib.parse import quote

TOP = Path(__file__).resolve().parent.parent.parent
sys.path[:0] = [str(TOP / "bench"), str(Path(__file__).parent)]

import origins  # noqa: E402
from browsers import browsers  # noqa: E402
from certificates import mutated, reference  # noqa: E402
from validators import FORMS  # noqa: E402

PAGE = TOP / "web" / "index.html"
DONE = "return /seconds|No answer/.test(document.getElementById('state').innerText)"
VERDICT = "return document.getElementById('verdict').innerText"
HELD = "return [...document.querySelectorAll('#remains code')].map((it) => it.innerText)"
ROWS = """return [...document.querySelectorAll('#rows tr')].slice(1).map((row) =>
    [...row.cells].map((it) => it.innerText))"""
COUNTS = """return Object.fromEntries([...document.querySelectorAll('#counts tr')].slice(1).map(
    ({ cells: [name, count] }) => [name.innerText, Number(count.innerText)]))"""
# Drops texts as files on an element.
DROP = """const [selector, files] = arguments, dataTransfer = new window.DataTransfer();
    for (const [name, text] of files) dataTransfer.items.add(new window.File([text], name));
    const event = new window.DragEvent('drop', { dataTransfer, bubbles: true, cancelable: true });
    document.querySelector(selector).dispatchEvent(event);"""


class Server(http.server.SimpleHTTPRequestHandler):
    """Serves the folder above the page, and notes the path of each request."""

    paths: list[str] = []

    def __init__(self, *words):
        super().__init__(*words, directory=str(PAGE.parent.parent))

    def log_request(self, *_):
        self.paths.append(self.path)


class Tests(http.server.SimpleHTTPRequestHandler):
    """Serves the clone, and a page that runs all golden tests."""

    PAGE = b"""<!doctype html><title>rows</title><p id="engine" hidden></p><script type="module">
        const { counts } = await import("/foreign/js/test/rows.test.mjs");
        window.found = { counts, failures: (await import("/foreign/js/test/support.mjs")).failures };</script>"""

    def __init__(self, *words):
        super().__init__(*words, directory=str(TOP))

    def log_message(self, *_):
        pass

    def do_GET(self):
        if self.path != "/rows":
            return super().do_GET()
        self.send_response(200)
        self.send_header("Content-Type", "text/html")
        self.end_headers()
        self.wfile.write(self.PAGE)


def served_by(handler):
    """Returns the address of a server of this process."""
    server = http.server.ThreadingHTTPServer(("127.0.0.1", 0), handler)
    threading.Thread(target=server.serve_forever, daemon=True).start()
    return f"http://127.0.0.1:{server.server_port}"


class Trap:
    """A port to which no page may send anything. It counts the connections that send octets. Chromium opens some for
    refused frames and forms, and sends nothing."""

    def __init__(self):
        self.count, self.socket = 0, socket.create_server(("127.0.0.1", 0))
        self.port = self.socket.getsockname()[1]
        threading.Thread(target=self.take, daemon=True).start()

    def take(self):
        while True:
            with self.socket.accept()[0] as taken:
                taken.settimeout(2)
                try:
                    self.count += bool(taken.recv(1))
                except OSError:
                    pass


def check(what, seen, wanted=True):
    """Counts a comparison, and prints a failure if two values differ."""
    check.count += 1
    if seen != wanted:
        print(f"FAILED  {what}: saw {str(seen)[:400]!r}, wanted {str(wanted)[:400]!r}")
        check.failed += 1


check.failed = check.count = 0


def validated(browser, vrps="", routes=""):
    """Shows the part of routes, pastes lines if there are any, and waits for the answer. Returns its rows."""
    browser.click("#show-routes")
    if vrps:
        browser.fill("#pasted-vrps", vrps)
        browser.fill("#pasted-lines", routes)
    browser.click("#validate")
    browser.wait(DONE, seconds=180)
    return browser.run(ROWS)


def link_of(browser):
    """Returns the link that the page shows if the browser has no clipboard."""
    return browser.text("#said").split("Copy this: ")[1]


def of_readme(browser, url):
    """The worked examples of README.md have the answers that README.md shows."""
    readme = (TOP / "README.md").read_text(encoding="utf-8")
    browser.load(f"{url}#anchor=10.0.0.0%2F8&refuse=12.0.0.0%2F24")
    said = browser.wait(VERDICT)
    refused = "Refused at certificate 1. It claims what its issuer does not hold: 12.0.0.0/24."
    check("the certificate of README", refused in said)
    check("beside it", "Signatures, dates, revocation and the order of certificates are not checked." in said)
    covered = re.search(r"cover v4 ([^']+)'", readme)[1]
    browser.load(f"{url}#anchor={covered}")
    check("the prefixes of README", browser.wait(HELD)[1], "192.0.2.0/24")
    browser.load(url)
    browser.click("#show-routes")
    browser.click("#example")
    browser.wait("return document.querySelector('#rows tr:nth-child(2)')?.cells[4].innerText")
    rows = [" ".join((it[1], it[2], it[4])).strip() for it in browser.run(ROWS)]
    check("the routes of README", rows, re.findall(r"^(\S+ AS\d+ (?:valid|invalid-\w+|not-found).*)$", readme, re.M))


def of_recipes(browser, url):
    """Files and lines of docs/RECIPES.md."""
    recipes = (TOP / "docs" / "RECIPES.md").read_text(encoding="utf-8")
    block = recipes.split("\n## Validate routes\n")[1].split("```sh\n")[1].split("```")[0]
    files = ([text for text in re.findall(r"'([^']*)'", it) if "%s" not in text] for it in block.split(">csv"))
    browser.load(url)
    states = [it[2] for it in validated(browser, *("\n".join(it) for it in files))]
    check("the routes of RECIPES", states, re.findall(r"^# (\S+)$", block, re.M))
    updates = re.search(r"echo '([^']+)' >updates\n", recipes)[1]
    answers = recipes.split(">updates\n")[1].split("```")[0]
    browser.load(url)
    states = [it[2] for it in validated(browser, "AS64496,192.0.2.0/23,24", updates)]
    check("the updates of RECIPES", states, re.findall(r"^# (\S+) \d{9}", answers, re.M))
    with_expiries = re.search(r"echo '([^']+)' >json\n", recipes)[1]
    browser.load(url)
    browser.click("#unexpired")
    states = [it[2] for it in validated(browser, with_expiries, "192.0.2.0/24 AS64496\n2001:db8::/32 AS64497")]
    check("expired VRPs of RECIPES", [*states, "1 expired" in browser.text("#state")], ["not-found", "valid", True])
    claim, issuer = re.search(r"without v4 '(10.2[^']+)' '([^']+)'\n", recipes).groups()
    browser.load(f"{url}#anchor={issuer}&refuse={claim}")
    check("the difference of RECIPES", "does not hold: 12.0.0.0." in browser.wait(VERDICT))


def of_validators(browser, url, folder):
    """Files of validators that are dropped: each alone, and all of them."""
    routes = "192.0.2.0/24 AS64496\n192.0.2.0/25 AS64496\n2001:db8:1::/48 AS64497\n10.0.0.0/8 AS64496"
    for name, text in FORMS.items():
        (folder / name).write_text(text)
    for names in (*([it] for it in FORMS), [*FORMS]):
        browser.load(url)
        browser.click("#show-routes")
        browser.fill("#pasted-lines", routes)
        browser.drop("#drop-vrps", *(folder / it for it in names))
        states = [it[2] for it in validated(browser)]
        check(f"the files {names}", states, ["valid", "invalid-length", "valid", "not-found"])
        check(f"the VRPs of {names}", f"4 routes by {2 * len(names)} VRPs, in" in browser.text("#state"))


def slurm(filters=(), assertions=(), **members):
    """Returns the text of a SLURM file with these prefix filters and prefix assertions."""
    return json.dumps({"slurmVersion": 1, "validationOutputFilters": {"prefixFilters": filters, "bgpsecFilters": []},
                       "locallyAddedAssertions": {"prefixAssertions": assertions, "bgpsecAssertions": []}, **members})


def of_slurm(browser, url):
    """A SLURM file changes the VRPs, and its counts are shown. An error has its item, its member and a remedy."""
    recipe = (TOP / "docs" / "RECIPES.md").read_text(encoding="utf-8").split("## Apply local exceptions\n")[1]
    vrps, own = "AS64496,192.0.2.0/23,24\nAS64497,2001:db8::/32,48", re.search(r"'(\{.*?\})' >slurm", recipe, re.S)[1]
    routes = "192.0.2.0/24 AS64496\n2001:db8::/32 AS64497\n10.0.0.0/8 AS64496"
    for is_dropped in (True, False):
        browser.load(url)
        if is_dropped:
            browser.run(DROP, "#drop-slurm", [["slurm.json", own]])
        else:
            browser.fill("#pasted-slurm", own)
        states = [it[2] for it in validated(browser, vrps, routes)]
        name = "slurm.json" if is_dropped else "pasted SLURM"
        said = f"3 routes by 2 VRPs (2 read; 1 removed and 1 added by {name}), in"
        check(f"{name} of RECIPES", [*states, said in browser.text("#state")], ["valid", "not-found", "valid", True])
        check("the counts", browser.run(COUNTS), {"valid": 2, "not-found": 1})
        browser.wait("return document.querySelector('#rows tr:nth-child(4)').cells[4].innerText")
        check("the covering VRPs", [it[4] for it in browser.run(ROWS)],
              ["match:192.0.2.0/23-24:AS64496", "", "match:10.0.0.0/8-8:AS64496"])
    browser.run("Object.defineProperty(window.navigator, 'clipboard', { value: undefined })")
    browser.click("#link")
    browser.load(link_of(browser))
    browser.wait(DONE)
    check("a link with a SLURM file", said in browser.text("#state"))
    for name, text, wanted in (
        ("items", slurm([{"asn": 1}, {"asn": -1}]), "x.json: prefixFilters: item 2: bad AS number. Write a number"),
        ("no criterion", slurm([{"comment": "x"}]), "prefixFilters: item 1: neither prefix nor asn. A prefix filter"),
        ("members of items", slurm((), [{"asn": 1}]), "prefixAssertions: item 1: prefix is missing. asn and maxPr"),
        ("prefixes", slurm((), [{"asn": 1, "prefix": "10.0.0.1/8"}]), "item 1: bad prefix. Write a prefix such as"),
        ("versions", slurm(slurmVersion=2), "x.json: slurmVersion is not 1. Write the file in version 1."),
        ("members", slurm(moon=1), "x.json: member 4: unknown member. RFC 8416, 3, does not define"),
        ("lists", slurm().replace("prefixFilters", "x"), "member 1: unknown member of validationOutputFilters. RFC"),
        ("files of VRPs", '{"roas": []}', "x.json: member 1: unknown member. RFC 8416"),
        ("files", HOSTILE, "x.json: not a JSON object. The file was cut, or is no JSON."),
        ("missing members", '{"slurmVersion": 1}', "x.json: validationOutputFilters is missing. The file has each"),
        ("all VRPs", slurm([{"prefix": "0.0.0.0/0"}, {"prefix": "::/0"}]), "no VRP is left after x.json"),
    ):
        browser.load(url)
        browser.run(DROP, "#drop-slurm", [["x.json", text]])
        validated(browser, vrps, routes)
        said = browser.text("#state")
        check(f"SLURM: {name}: {said}", said.startswith("No answer. x.json: " if name != "all VRPs" else "No answer. "))
        check(f"SLURM: {name}: {said}", wanted in said)
        check("no counts", browser.text("#counts"), "")
    browser.load(url)
    browser.run(DROP, "#drop-slurm", [["one", slurm()], ["two", slurm()]])
    validated(browser, vrps, routes)
    check("two SLURM files", "several SLURM files" in browser.text("#state"))
    browser.load(url)
    validated(browser, slurm(), routes)
    check("a SLURM file as VRPs", "roas is missing. Put a SLURM file into its own box." in browser.text("#state"))


def of_errors(browser, url):
    """An invalid text, DER or file: the page names the line, the element and what to write."""
    for text, wanted in {
        "AS1\n10.0.0.0/8, 10.0.0.0/33": "line 2, element 2: 10.0.0.0/33: ",
        "AS1 AS2": "line 1, element 1: AS1 AS2: ",
        "2001:db8::/32, 10.0.0.0/8": "line 1, element 2: 10.0.0.0/8: ",
        "3007a005300302": "line 1: this is DER neither ",
        "3004a0020500\nAS1": "line 2: DER has all of an extension, ",
    }.items():
        browser.load(f"{url}#")
        browser.fill("#claims textarea", text)
        said = browser.wait("return document.querySelector('.fault').innerText")
        check(f"the error of {text!r}", said[: len(wanted)], wanted)
    validated(browser, "AS1,10.0.0.0/8,8\nAS1,10.0.0.1/8,8", "10.0.0.0/8 AS1")
    said = browser.text("#state")
    check("the error of a file", "pasted VRPs: line 2: " in said and "Write a prefix" in said)


def of_vectors(browser, url):
    """All cases of vectors/, answered by the module of the page."""
    browser.load(url)
    script, count, failed = Path(__file__).with_name("vectors.js").read_text(encoding="utf-8"), 0, check.failed
    for file in sorted((TOP / "vectors").glob("*.json")):
        cases = json.loads(file.read_text(encoding="utf-8"))["tests"]
        count += len(cases)
        for at in range(0, len(cases), 500):
            check(f"{file.stem} {at}", browser.run(script, file.stem, cases[at: at + 500]), [])
    print(f"{browser.name}: {count} cases of vectors, {check.failed - failed} differ")


def of_rows(browser, tests):
    """All golden tests that Node runs, by the script and by the module alone."""
    browser.load(f"{tests}/rows")
    found = browser.wait("return window.found", seconds=600)
    check("golden tests", found["failures"], [])
    browser.requests()
    print(f"{browser.name}: {found['counts']['rows']} rows, {found['counts']['texts']} texts of statuses, "
          f"{len(found['failures'])} tests fail")


def of_large(browser, url, folder):
    """A file of 22 MB, Stop, pages and filters, the CSV, and a file that is too large."""
    counts = json.loads((folder / "counts").read_text())
    browser.load(url)
    browser.click("#show-routes")
    browser.choose("#vrps", folder / "vrps.csv")
    browser.choose("#lines", folder / "routes")
    browser.click("#validate")
    browser.wait("return /routes$/.test(document.getElementById('state').innerText)")
    began = time.monotonic()
    browser.click("#stop")
    browser.wait("return /Stopped/.test(document.getElementById('state').innerText)")
    check("Stop ends the work within 0.5 seconds", time.monotonic() - began < 0.5)
    rows = validated(browser)
    check("the states of many routes", browser.run(COUNTS), counts)
    check("rows in the document", [len(rows), rows[0][0]], [500, "1"])
    browser.click("#after")
    check("the second page", browser.run(ROWS)[0][0], "501")
    browser.run("const it = document.getElementById('only'); it.value = 'invalid-as';"
                "it.dispatchEvent(new Event('change'))")
    check("a filter", {it[2] for it in browser.run(ROWS)}, {"invalid-as"})
    browser.run("document.getElementById('only').value = ''")
    browser.fill("#with", rows[7][1])
    browser.click("#filters button")
    check("a filter by text", rows[7][:4] in [it[:4] for it in browser.run(ROWS)])
    browser.run("document.getElementById('with').value = ''")
    browser.click("#filters button")
    browser.run(KEPT)
    browser.click("#save")
    browser.wait("return window.kept?.length > 0", seconds=180)
    saved = browser.run("""const all = {}; for (const it of window.kept.split('\\r\\n').slice(1, -1)) {
        const name = it.split('",')[2].split(',')[0]; all[name] = (all[name] ?? 0) + 1; } return all""")
    check("the routes of the CSV", saved, counts)
    browser.choose("#vrps", folder / "too-large")
    check("a file above 512 MB", "too-large is refused" in browser.text("#drop-vrps"))


HOSTILE = """<img src=x onerror="window.hacked=1">"""
MADE = "return [document.images.length, window.hacked ?? 0]"


def of_hostile(browser, url, folder):
    """Texts of a file, of a file's name and of a fragment are texts on the page."""
    browser.load(url)
    browser.choose("#lines", folder / "hostile")
    browser.run(DROP, "#drop-vrps", [[HOSTILE, "AS1,10.0.0.0/8,8\n"]])
    validated(browser)
    check("the lines of a hostile file", browser.run(COUNTS), json.loads((folder / "hostile-counts").read_text()))
    check("texts of a file make no elements", browser.run(MADE), [0, 0])
    browser.run(DROP, "#drop-vrps", [[HOSTILE, HOSTILE]])
    validated(browser)
    check("a hostile name", HOSTILE in browser.text("#state") and browser.run(MADE) == [0, 0])
    browser.click("#show-resources")
    browser.run(DROP, "#drop-certificates", [[HOSTILE, HOSTILE]])
    browser.wait("return [...document.querySelectorAll('.fault')].some((it) => it.innerText.includes('onerror'))")
    check("a hostile certificate", browser.run(MADE), [0, 0])
    text = quote(HOSTILE)
    for fragment in (f"anchor={text}&refuse={text}", "%", "anchor=%FF%00&x=y&__proto__=1&constructor=2",
                     "&".join(["refuse=AS1"] * 150), f"routes={text}&vrps={text}", "anchor=" + "1" * 3000):
        browser.load(f"{url}#{fragment}")
        time.sleep(0.4)
        check("texts of a fragment make no elements", browser.run(MADE), [0, 0])
        check("a hostile fragment leaves a page", len(browser.text("body")) > 200)
    check("a link has at most 2,000 characters", "longer than 2000" in browser.text("#said"))


def of_link(browser, url):
    """A link opens the same input. Without a clipboard the page shows the link."""
    fields = "return [...document.querySelectorAll('#claims textarea, #claims input:checked')].map((it) => it.value)"
    browser.load(url)
    browser.wait("return document.querySelector('#remains p button')")
    browser.run("Object.defineProperty(window.navigator, 'clipboard', { value: undefined })")
    browser.click("#remains p button")
    link, shown = link_of(browser), browser.run(fields)
    browser.load(link)
    check("the fields of a link", browser.run(fields), shown)
    browser.fill("#claims textarea", "AS1," * 600)
    browser.wait(r"return /AS1\s/.test(document.getElementById('remains').innerText)")
    browser.click("#remains p button")
    check("a long link", "at most 2000 characters" in browser.text("#said"))


KEPT = """const made = window.URL.createObjectURL; window.kept = null; window.URL.createObjectURL = (blob) =>
    (blob.text().then((text) => (window.kept = text)), made.call(window.URL, blob))"""
FOCUS = "const it = document.activeElement; return it.getAttribute('aria-label') ?? it.id"


def of_input(browser, url):
    """A changed input marks the answer. A link has the box for expiries, and is refused with files. Files go away."""
    dated = "ASN,IP Prefix,Max Length,Expires\nAS64496,192.0.2.0/23,24,1"
    now = "return document.getElementById('old').innerText"
    browser.load(url)
    browser.run("Object.defineProperty(window.navigator, 'clipboard', { value: undefined })")
    browser.click("#unexpired")
    validated(browser, f"{dated}\nAS64497,2001:db8::/32,48,9999999999\nAS1,10.0.0.0/8,8,", "192.0.2.0/24 AS64496")
    said = "1 route by 2 VRPs (3 read; 1 expired of 2 with an expiry), in"
    check("expiries", said in browser.text("#state"))
    check("an answer is new", browser.run(now), "")
    browser.click("#link")
    check("a link from a file", "this page at the same path" in browser.text("#said"), url.startswith("file:"))
    browser.load(link_of(browser))
    browser.wait(DONE)
    check("a link has the box", said in browser.text("#state"))
    changed = "The input has changed. Validate again."
    for name, change in (("lines", lambda: browser.fill("#pasted-lines", "10.0.0.0/8 AS2")),
                         ("a file", lambda: browser.run(DROP, "#drop-slurm", [["x.json", slurm()]])),
                         ("no file", lambda: browser.click("#drop-slurm .files button"))):
        change()
        check(f"an answer is old: {name}", browser.run(now), changed)
        check(f"the files: {name}", "x.json (1 kB)" in browser.text("#drop-slurm"), name == "a file")
        validated(browser)
        check("the new answer", browser.run(now), "")
    browser.run(DROP, "#drop-vrps", [["x.csv", "AS2,10.0.0.0/8,8\n"]])
    browser.click("#link")
    check("no link with files", browser.text("#said"), "A link has no files. Remove the files first.")
    for goes_on in ("false", "true"):
        browser.run(f"window.confirm = () => {goes_on}")
        browser.click("#example")
        check("the example asks", "x.csv" in browser.text("#drop-vrps"), goes_on == "false")
    browser.wait(DONE)
    check("the example alone", browser.run(COUNTS), {"valid": 1, "not-found": 1, "invalid-as": 1, "invalid-length": 1})
    browser.click("#unexpired")
    validated(browser)
    check("no expiries", "(1 read; none has an expiry that the page reads)" in browser.text("#state"))
    browser.run(DROP, "h1", [["x", "x"]])
    check("a drop outside of a box", browser.text("#said"), "Nothing was read. Drop files on a box.")
    titles = []
    for part in ("resources", "routes", "proof"):
        browser.click(f"#show-{part}")
        titles.append(browser.run("return document.title"))
    check("titles", titles, [f"{it} - Pigyelund" for it in ("Resources", "Routes", "What is proved")])


def of_list(browser, url):
    """All invalid routes, the CSV of a choice with its VRPs, and what to do about wrong lines."""
    browser.load(url)
    browser.click("#show-routes")
    browser.click("#example")
    browser.wait(DONE)
    browser.run("const it = document.getElementById('only'); it.value = 'invalid';"
                "it.dispatchEvent(new Event('change'))")
    check("all invalid", [it[2] for it in browser.run(ROWS)], ["invalid-length", "invalid-as"])
    check("their number", browser.text("#page"), "2 rows")
    browser.run(KEPT)
    browser.click("#save")
    lines = browser.wait("return window.kept").split("\r\n")
    check("the CSV of a choice", [lines[0].split(",")[-1], len(lines)], ["VRPs", 4])
    check("its VRPs", [it.split(",")[-1] for it in lines[1:3]],
          ['"length:192.0.2.0/23-24:AS64496"', '"as:192.0.2.0/23-24:AS64496"'])
    check("its message", browser.text("#said"), "The CSV has 2 of 2 routes.")
    number = "After the prefix and a space: Write a number from 0 to 4294967295, with or without AS in front."
    form = "Write a line such as 192.0.2.0/24 AS64496. VRPs and SLURM have boxes of their own."
    wrong = {"192.0.2.0/24 ASX": number, "192.0.2.0/24 64496.1": number, "192.0.2.0/24 AS99999999999": number,
             "192.0.2.0/24": number, "192.0.2.0/24 => 64496": number, "192.0.2.1/24 AS1": form, '{ "a": 1': form,
             "": form, "AS1 10.0.0.0/8": form, "10.0.0.0/8,AS1": form}
    rows = validated(browser, "AS1,10.0.0.0/8,8", "\n".join([*wrong, ""]))
    check("no old message", browser.text("#said"), "")
    for line, row in zip(wrong, rows, strict=True):
        check(f"the remedy of {line!r}: {row}", row[2] == "error" and row[3].endswith(wrong[line]))


def of_cards(browser, url, folder):
    """What a certificate's card says: an inherited claim, a trimmed one, and a file that is no certificate."""
    browser.load(f"{url}#anchor=10.0.0.0%2F8&trim=10.0.0.0%2F7&inherit=AS1")
    check("a trimmed claim", browser.wait(VERDICT).startswith("Trimmed: certificate 1 overclaims."))
    texts = """return [...document.querySelectorAll('#claims textarea')].map((it) =>
        [it.disabled, getComputedStyle(it).opacity])"""
    check("an inherited claim is grey", browser.run(texts), [[False, "1"], [False, "1"], [True, "0.45"]])
    (folder / "x.csv").write_text("AS1,10.0.0.0/8,8\n")
    browser.choose("#claims > :nth-child(2) input[type=file]", folder / "x.csv")
    said = browser.wait("return document.querySelector('#claims > :nth-child(2) .fault').innerText")
    check("a file that is no certificate", "x.csv: octet 0: " in said and "Choose a certificate in DER" in said)
    check("its verdict", browser.text("#verdict"), "No answer. Certificate 1 has an error.")
    state = """const it = document.querySelector('#claims > :nth-child(2) textarea');
        return [it.value, it.getAttribute('aria-invalid'),
            document.getElementById(it.getAttribute('aria-describedby')).innerText]"""
    check("its lines stay", browser.run(state), ["10.0.0.0/7", "true", said])
    browser.fill("#claims > :nth-child(2) textarea", "10.0.0.0/9")
    browser.wait("return /only what its issuer/.test(document.getElementById('verdict').innerText)")
    check("no error after an edit", browser.run(state), ["10.0.0.0/9", "false", ""])
    browser.load(url)
    check("the example is one", "This path is an example." in browser.text("#claims"))
    for selector, wanted in (("#claims > :nth-child(3) .up", "Remove: Certificate 1"),
                             ("#claims > :nth-child(2) .remove", "Remove: Certificate 1"),
                             ("#claims > :nth-child(2) .remove", "Resources: Issuer or trust anchor")):
        browser.run("document.querySelector(arguments[0]).focus()", selector)
        browser.click(selector)
        check(f"the focus after {selector}", browser.run(FOCUS), wanted)
    browser.click("#show-routes")
    browser.fill("#pasted-vrps", "AS1,10.0.0.0/8,8")
    browser.fill("#pasted-lines", "10.0.0.0/8 AS1\n" * 1200)
    browser.run("document.getElementById('validate').focus()")
    # The run may end before the next command of the browser.
    check("the focus of a run", browser.run(f"document.getElementById('validate').click(); {FOCUS}"), "stop")
    browser.wait(DONE)
    check("the focus after a run", browser.run(FOCUS), "validate")
    for page, wanted in (("501 to 1000", "after"), ("1001 to 1200", "before")):
        browser.run("document.getElementById('after').focus()")
        browser.click("#after")
        check("the focus after a page", [browser.text("#page"), browser.run(FOCUS)], [f"1200 rows: {page}", wanted])
    stopped = browser.run("""document.getElementById('validate').click();
        window.dispatchEvent(new window.KeyboardEvent('keydown', { key: 'Escape' }));
        return document.getElementById('state').innerText""")
    check("Escape stops a run", stopped, "Stopped: Reading the files")


def of_links(browser, url):
    """The links of the page lead to headings of pages that are there."""
    browser.load(url)
    for link in browser.run("return [...document.querySelectorAll('a')].map((it) => it.getAttribute('href'))"):
        file, heading = (TOP / "web" / link.split("#")[0]), link.split("#")[1]
        heads = re.findall(r"^#+ (.*)$", file.read_text(encoding="utf-8"), re.M)
        check(f"the link {link}", heading in [it.lower().replace(" ", "-") for it in heads])


def of_picture(browser, url):
    """The picture has at most 60 steps, and the table beside it has the same states."""
    many = ",".join(f"10.{2 * it}.0.0/16" for it in range(90))
    browser.load(f"{url}#anchor=10.0.0.0/8&refuse={many},11.2.0.0/24")
    browser.wait("return document.querySelector('svg')")
    check("steps that are left out", "122 of 182 steps of the axis are left out." in browser.text("#pictures"))
    check("an overclaim in the picture", browser.run("return document.querySelectorAll('.bar.overclaimed').length"), 1)
    browser.load(f"{url}#anchor=10.0.0.0/8&trim=10.0.0.0/7&inherit=&refuse=10.0.0.0/9,11.0.0.0/8&refuse=10.0.0.0/10")
    browser.wait("return document.querySelector('svg')")
    script = ROWS.replace("#rows", "#pictures").replace("innerText", "textContent")
    check("the picture as a table", browser.run(script), [
        ["issuer", "holds", "10.0.0.0/8"], ["cert. 1", "claims, and its issuer holds", "10.0.0.0/8"],
        ["cert. 1", "overclaims, and trim removes", "11.0.0.0/8"], ["cert. 2", "inherits", "10.0.0.0/8"],
        ["cert. 3", "claims, and its issuer holds", "10.0.0.0/9"], ["cert. 3", "overclaims", "11.0.0.0/8"],
        ["cert. 4", "claims, not checked", "10.0.0.0/10"]])
    bars = browser.run("return [...document.querySelectorAll('.bar')].map((it) => it.getAttribute('class').slice(4))")
    check("the bars", bars, ["held", "verified", "removed", "inherited", "verified", "overclaimed", "unchecked"])


CONTROLS = """document.body.tabIndex = -1; document.body.focus();
    return [...document.querySelectorAll("a, button, input, select, textarea, summary, [tabindex='0']")].filter((it) =>
        !it.disabled && it.offsetParent && !(it.type === 'radio' && !it.checked)).map((it, at) =>
        (it.dataset.at = at)).length"""


def of_keyboard(browser, url):
    """Tab reaches each control in the order of the page. It has a role and a name in the accessibility tree."""
    for part in ("resources", "routes", "proof"):
        browser.load(url)
        browser.click(f"#show-{part}")
        if part == "routes":
            browser.click("#example")
            browser.wait(DONE)
        time.sleep(0.4)
        count, reached = browser.run(CONTROLS), []
        for _ in range(count + 5):
            role, name = browser.tab()
            at = browser.run("return document.activeElement.dataset.at ?? null")
            if at is None:
                break
            reached.append(int(at))
            # Firefox gives no role for a summary, whose element has one of its own.
            has_role = role or browser.run("return document.activeElement.tagName") == "SUMMARY"
            check(f"{part}: control {at} has a role and a name: {role} {name!r}", bool(has_role and name))
        check(f"{part}: Tab reaches each control in order", reached, [*range(count)])
        for role, name in browser.focusable() if hasattr(browser, "focusable") else ():
            check(f"{part}: in the accessibility tree: {role} {name!r}", bool(role and name))


INJECTED = """window.refused = [];
    document.addEventListener('securitypolicyviolation', (it) =>
        window.refused.push(`${it.effectiveDirective} ${it.blockedURI.split('/').at(-1)}`));
    const at = `http://${arguments[0]}`;
    const put = (name, words) => document.body.append(Object.assign(document.createElement(name), words));
    const all = [() => window.fetch(`${at}/fetch`).catch(() => 0),
        () => new window.WebSocket(`ws${at.slice(4)}/socket`), () => put('img', { src: `${at}/image` }),
        () => put('script', { textContent: 'window.hacked = 1' }), () => put('script', { src: `${at}/script` }),
        () => put('iframe', { src: at }), () => put('link', { rel: 'stylesheet', href: `${at}/style` }),
        () => navigator.sendBeacon(`${at}/beacon`, 'x'), () => window.eval('window.hacked = 1'),
        () => put('form', { id: 'sent', action: `${at}/form`, method: 'post' }),
        () => document.getElementById('sent').submit()];
    for (const it of all) setTimeout(it, 0);"""
REFUSED = {"connect-src fetch", "connect-src socket", "connect-src beacon", "img-src image", "script-src-elem inline",
           "script-src-elem script", "script-src eval", "style-src-elem style", "form-action form"}


def of_policy(browser, url):
    """The policy refuses what an injected script would try, and the page asks for nothing but its own files."""
    trap = Trap()
    names = browser.run("return performance.getEntriesByType('resource').map((it) => it.name)")
    names += browser.requests()
    base = url.rsplit("/", 2)[0]
    own = f"{base}/", "blob:", "about:", "data:,"
    check("requests of the page", [it for it in names if not it.startswith(own)], [])
    browser.load(url)
    # Timers make the calls the page's own: a driver's calls may be free of the policy.
    browser.run(INJECTED, f"127.0.0.1:{trap.port}")
    time.sleep(1)
    refused = {it for it in browser.run("return window.refused") if not it.startswith("frame-src ")}
    check("what the policy refused", refused, REFUSED)
    check("an injected script", browser.run("return window.hacked ?? 0"), 0)
    check("connections that send something", trap.count, 0)
    browser.requests()


def of_certificates(browser, url, folder):
    """Files of certificates, and the walk to their extensions in 10,000 mutated certificates beside a second one."""
    files = [folder / f"{it}.cer" for it in ("anchor", "good", "trimmed")]
    for give, selector in ((browser.choose, "#certificates"), (browser.drop, "#drop-certificates")):
        browser.load(f"{url}#")
        browser.click("#clear")
        give(selector, *files)
        browser.wait("return document.querySelectorAll('#claims > *').length === 3 && /Trimmed/.test("
                     "document.getElementById('verdict').innerText)")
        check(f"what remains of files: {selector}", browser.run(HELD)[:2], ["AS64496", "10.2.0.0/16"])
    modes = "return [...document.querySelectorAll('#claims input:checked')].map((it) => it.value)"
    check("the modes of files", browser.run(modes), ["refuse", "trim"])
    check("a file's note", "not proved" in browser.text("#claims .note"))
    made = [it.hex() for it in mutated([it.read_bytes() for it in sorted(folder.glob("*.cer"))], 10000)]
    script = """const read = (text) => Uint8Array.from(text.match(/../g), (it) => parseInt(it, 16));
        const hex = (octets) => octets && Array.from(octets, (it) => it.toString(16).padStart(2, '0')).join('');
        return arguments[0].map((text) => { try { const it = window.resourceExtensions(read(text));
            return [hex(it.as), hex(it.ip), it.mode];
        } catch (fault) { if (fault.name !== 'Error') throw fault; return null; } })"""
    found = [it for at in range(0, len(made), 1000) for it in browser.run(script, made[at: at + 1000])]
    wanted = [reference(bytes.fromhex(it)) for it in made]
    check("mutated certificates", [at for at, it in enumerate(found) if it != wanted[at]], [])
    check("enough of both kinds", min(sum(map(bool, wanted)), wanted.count(None)) > 1000)


CONTRAST = """const channels = (text) => text.match(/[\\d.]+/g).map(Number), part = (it) => it / 255;
    const linear = (it) => it <= 0.04045 ? it / 12.92 : ((it + 0.055) / 1.055) ** 2.4;
    const weights = [0.2126, 0.7152, 0.0722];
    const light = (rgb) => rgb.slice(0, 3).map(part).map(linear).reduce((sum, it, at) => sum + it * weights[at], 0);
    const ground = (it) => { for (; it; it = it.parentElement) {
        const found = channels(getComputedStyle(it).backgroundColor);
        if (found.length < 4 || found[3] > 0) return found; } };
    const hasText = (it) => [...it.childNodes].some((node) => node.nodeType === 3 && node.data.trim());
    const bad = []; for (const it of document.querySelectorAll('body *')) {
        if (!it.checkVisibility() || it.disabled || !hasText(it)) continue;
        const style = getComputedStyle(it), text = it.namespaceURI.endsWith('svg') ? style.fill : style.color;
        const pair = [light(channels(text)), light(ground(it))].sort((a, b) => b - a);
        const ratio = (pair[0] + 0.05) / (pair[1] + 0.05);
        if (ratio < 4.5) bad.push(`${it.tagName} ${it.innerText} ${ratio.toFixed(2)}`); } return bad;"""


def of_look(browser, url):
    """The contrast of texts in light and dark, the width of a narrow window, and a browser that is too old."""
    for dark in (False, True):
        for part in ("resources", "routes", "proof"):
            browser.look(1160, 900, dark)
            browser.load(url)
            browser.click(f"#show-{part}")
            if part == "routes":
                browser.click("#example")
                browser.wait(DONE)
            time.sleep(0.4)
            check(f"contrast, {part}, {'dark' if dark else 'light'}", browser.run(CONTRAST), [])
            browser.look(360, 800, dark)
            check(f"width, {part}", browser.run("return document.documentElement.scrollWidth"), 360)
    browser.before("delete globalThis.WebAssembly")
    browser.load(url)
    said = browser.text("#engine")
    check("a browser without WebAssembly", "No answers here" in said and "Firefox" in said)


WATCHED = """window.drops = []; const it = document.getElementById('counts');
    window.addEventListener('drop', ({ isTrusted }) => window.drops.push([window.performance.now(), isTrusted]), true);
    new window.MutationObserver(() => it.innerText && window.requestAnimationFrame(() =>
        (window.shown = window.performance.now()))).observe(it, { childList: true });"""


def of_times(browser, url, folder):
    """Prints the seconds from the drop of the first of two files to the frame that shows the counts."""
    counts, seconds, of_page = json.loads((folder / "counts").read_text()), [], []
    for _ in range(5):
        browser.load(url)
        browser.click("#show-routes")
        browser.run(WATCHED)
        browser.drop("#drop-vrps", folder / "vrps.csv")
        browser.drop("#drop-lines", folder / "routes")
        browser.click("#validate")
        browser.wait("return window.shown", seconds=180)
        check("the counts", browser.run(COUNTS), counts)
        (first, is_real), *_ = browser.run("return window.drops")
        seconds.append(round((browser.run("return window.shown") - first) / 1000, 2))
        of_page.append(float(re.search(r"in ([\d.]+) seconds", browser.text("#state"))[1]))
    print(f"{browser.name} {browser.version}, {'a drop' if is_real else 'an event of a drop'} of each file: median "
          f"{statistics.median(seconds)} s of {sorted(seconds)}; from Validate on {statistics.median(of_page)} s")


def write_pictures(browser):
    """Writes the pictures of the page in docs/."""
    for part, height in (("resources", 690), ("routes", 560)):
        browser.look(1100, height)
        browser.load(PAGE.as_uri())
        if part == "routes":
            browser.click("#show-routes")
            browser.click("#example")
            browser.wait("return document.querySelector('#rows tr:nth-child(2)')?.cells[4].innerText")
        browser.wait("return document.querySelector('svg')")
        file = TOP / "docs" / f"page-{part}.png"
        browser.shot(file)
        subprocess.run(["pngquant", "--force", "--ext", ".png", "--strip", "48", file], check=True)


def write_files(folder):
    """Writes the files of VRPs and routes, with the counts that a search in a dictionary gives."""
    made = random.Random(102)
    vrps = list(origins.flat(made, 500_000))
    routes = list(origins.routes_of(made, vrps, 1_000_000))
    lines = [f"AS{one[4]},{origins.prefix(one)},{one[3]},ripe,1732600000" for one in vrps]
    origins.write(folder / "vrps.csv", iter(["ASN,IP Prefix,Max Length,Trust Anchor,Expires", *lines]))
    origins.write(folder / "routes", (f"{origins.prefix(one)} AS{one[3]}" for one in routes))
    table = {}
    for bits, number, length, longest, asn in vrps:
        table.setdefault((bits, length, number), []).append((longest, asn))
    lengths = {bits: sorted({it[1] for it in table if it[0] == bits}) for bits in (32, 128)}
    counts = dict.fromkeys(("valid", "not-found", "invalid-as", "invalid-length"), 0)
    for bits, number, length, asn in routes:
        over = [vrp for it in lengths[bits] if it <= length
                for vrp in table.get((bits, it, number >> bits - it << bits - it), ())]
        own = [longest for longest, it in over if it == asn]
        invalid = "invalid-length" if own else "invalid-as" if over else "not-found"
        counts["valid" if own and max(own) >= length else invalid] += 1
    (folder / "counts").write_text(json.dumps(counts))
    with open(folder / "too-large", "wb") as large:
        large.truncate((512 << 20) + 1)
    hostile = [HOSTILE.encode(), b"10.0.0.0/8 AS1", b"\0\xff", b"10.0.0.0/8,9 AS1", b"10.0.0.0/8 AS1,8", b"", b" ",
               b"a" * 100_000, b'"10.0.0.0/8" AS1', b"ASN,IP Prefix,Max Length", b"10.0.0.0/8 AS1\r"]
    hostile += [b"x", b"x y"] * 30_000
    (folder / "hostile").write_bytes(b"\n".join(hostile))
    (folder / "hostile-counts").write_text(json.dumps({"valid": 2, "error": len(hostile) - 2}))


def try_page(browser, url, folder, is_served):
    """Runs the tests in a browser that show the same from each place."""
    began, before = time.monotonic(), check.failed
    of_readme(browser, url)
    of_recipes(browser, url)
    of_validators(browser, url, folder)
    of_slurm(browser, url)
    of_errors(browser, url)
    of_link(browser, url)
    of_input(browser, url)
    of_list(browser, url)
    of_cards(browser, url, folder)
    of_links(browser, url)
    of_picture(browser, url)
    of_large(browser, url, folder)
    of_hostile(browser, url, folder)
    of_keyboard(browser, url)
    of_certificates(browser, url, folder)
    of_policy(browser, url)
    if is_served:
        of_vectors(browser, url)
    failed, seconds = check.failed - before, time.monotonic() - began
    print(f"{browser.name} {browser.version}, {url.split(':')[0]}: {failed} failed, {seconds:.0f} s", flush=True)


def main():
    if "--pictures" in sys.argv:
        browser = browsers()[0]()
        write_pictures(browser)
        return browser.close()
    subprocess.run([sys.executable, TOP / "tests" / "run" / "foreign_rows.py"], check=True)
    place, served, tests = f"/{PAGE.parent.name}/{PAGE.name}", served_by(Server), served_by(Tests)
    with tempfile.TemporaryDirectory() as name:
        folder = Path(name)
        write_files(folder)
        subprocess.run([sys.executable, Path(__file__).with_name("certificates.py"), folder], check=True)
        for kind in browsers():
            browser = kind()
            try:
                if "--times" in sys.argv:
                    of_times(browser, PAGE.as_uri(), folder)
                    continue
                try_page(browser, PAGE.as_uri(), folder, False)
                try_page(browser, f"{served}{place}", folder, True)
                of_rows(browser, tests)
                subprocess.run([TOP / "web" / "one_file", folder / "pigyelund.html"], check=True)
                for test in (of_readme, of_recipes, of_policy):
                    test(browser, (folder / "pigyelund.html").as_uri())
                if hasattr(browser, "look"):
                    of_look(browser, PAGE.as_uri())
            finally:
                browser.close()
    text = PAGE.read_text(encoding="utf-8")
    own = {str(Path(place).parent / it) for it in re.findall(r'(?:src|href)="([\w./]+)"', text)}
    strange = {it for it in Server.paths if it.split("#")[0] != place} - {it.replace("/web/..", "") for it in own}
    check("requests to the server", strange, set())
    print(f"{check.count} checks of the page, {check.failed} failed")
    return check.failed > 0


if __name__ == "__main__":
    sys.exit(main())
