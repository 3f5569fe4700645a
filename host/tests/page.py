#!/usr/bin/env python3
"""Looks at the pages of scan --html in a browser, Debian's chromium without a window, run by host/test.sh: page.py CHROMIUM FAULTY COMMAND...
FAULTY is the program with three bars beside a line at most.

Each page is held against scan --json of the same call, and against the notes on disk: every note is there in order, its lines are its bytes, those that
no reader sees stand as \\xHH, and accented letters as such; each range and further finding has its label, with licence, kind, score, lines and places, and
the lines that have its bar are, byte by byte, what its places cut out of the file. Where top-down's ranges lie side by side, and nowhere else, a strip has
them in their order, each as wide as its lines, with the lines between, and none lies over another. The browser must load nothing but the page, say nothing
on its console, and find no element or attribute in it that the page has not of itself, whatever a note holds. Then its look: nothing wider than the window,
wide and narrow, in light, in dark and on paper; bars as tall as their lines, and colours that differ. The last line is 'N passed, M failed'; the exit status
is 0 only where M is 0."""
import json
import os
import random
import shutil
import signal
import subprocess
import sys
import tempfile

import places

# what the browser tells of a page: of each section its words, labels and runs, and a line as pieces of text and of bytes that are not seen
TELL = """(() => {
  const piece = n => n.nodeType === 3 ? [true, n.data] : n.localName === 'i' && n.childNodes.length === 1 ? [false, n.textContent] : [null, n.localName];
  const pieces = li => [...li.childNodes].map(piece);
  const marks = box => [...box.querySelectorAll(':scope > .bars > a')].map(a => a.getAttribute('href').slice(1));
  const words = (box, of) => [...box.querySelectorAll(of)].map(e => e.textContent);
  const hue = e => e.style.getPropertyValue('--h');
  const piece_of = e => ({tag: e.localName, lines: Number(e.style.getPropertyValue('--n')), hue: hue(e), to: e.hash, title: e.title, label: e.ariaLabel,
    said: e.textContent});
  const runs = box => [...box.querySelectorAll(':scope > .text > .run')].map(run => ({
    marks: marks(run), labels: [...run.querySelectorAll('.label')].map(l => l.id), lines: [...run.querySelectorAll(':scope > ol > li')].map(pieces),
    from: run.querySelector('ol') && run.querySelector('ol').start, more: words(run, '.bars > small').join()}));
  const section = s => ({name: s.querySelector('h2 > span').textContent, bad: words(s, ':scope > .bad'), runs: runs(s),
    labels: [...s.querySelectorAll('.label')].map(l => ({id: l.id, further: l.classList.contains('further'), said: l.textContent, hue: hue(l), ...l.dataset})),
    strips: [...s.querySelectorAll('.strip')].map(strip => [...strip.children].map(piece_of))});
  return JSON.stringify({
    title: document.title, heads: words(document, 'header > p'),
    rows: [...document.querySelectorAll('tbody tr')].map(r => [...r.cells].map(c => c.textContent)),
    links: [...document.querySelectorAll('a')].map(a => a.getAttribute('href')), ids: [...document.querySelectorAll('[id]')].map(e => e.id),
    tags: [...new Set([...document.querySelectorAll('*')].map(e => e.localName))],
    attributes: [...new Set([...document.querySelectorAll('*')].flatMap(e => e.getAttributeNames()))],
    sections: [...document.querySelectorAll('main > section')].map(section), scripts: document.scripts.length});
})()"""
# what it shows of its strips, for the two below: each is as wide as the lines, and above them; its pieces lie one right behind the other and none over
# another, in one row, which they fill, or where they are many in rows, each begun where nothing more had room; each is seen, and as wide as its share of the
# lines; in a row of which some take more, since they would not be seen, more lines are no narrower, and equal ones equally wide; a name stays in its piece,
# at its left where that is wide, and is not begun where it is narrow
STRIPS = """
  const box = e => e.getBoundingClientRect(), near = (a, b) => Math.abs(a - b) < .1;
  const least = e => e.localName === 'a' ? 4 : 1, lines = e => Number(e.style.getPropertyValue('--n'));
  const inner = strip => ({left: box(strip).left + strip.clientLeft, right: box(strip).right - strip.clientLeft});
  const many = strip => strip.querySelectorAll('a').length > 48;
  const below = (b, last, of) => b.top > last.bottom - .1 && near(b.left, of.left) && last.right + b.width > of.right - .1;
  const follows = (strip, b, last, of) => near(b.top, last.top) ? near(b.left, last.right) : many(strip) && below(b, last, of);
  const laid = strip => {
    const of = inner(strip), all = [...strip.children].map(box), last = all[all.length - 1].right;
    return all.every((b, i) => i === 0 ? near(b.left, of.left) : follows(strip, b, all[i - 1], of)) && (many(strip) ? last < of.right + .1 : near(last, of.right));
  };
  const ordered = all => {
    const sorted = [...all].sort((a, b) => lines(a) - lines(b));
    return sorted.every((e, i) => i === 0 || (lines(e) === lines(sorted[i - 1]) ? near : (a, b) => a > b - .1)(box(e).width, box(sorted[i - 1]).width));
  };
  const shared = strip => {
    const all = [...strip.children], of = inner(strip), sum = all.reduce((n, e) => n + lines(e), 0), wide = e => lines(e) * (of.right - of.left) / sum;
    const exact = all.every(e => near(box(e).width, Math.max(least(e), wide(e)))), squeezed = !many(strip) && all.some(e => wide(e) < least(e));
    return exact || (squeezed && ordered(all.filter(e => e.localName === 'a')) && ordered(all.filter(e => e.localName === 'span')));
  };
  const seen = strip => [...strip.children].every(e => box(e).width > least(e) - .1 && box(e).height > 8);
  const above = strip => near(box(strip).width, box(strip.nextElementSibling).width) && box(strip).bottom <= box(strip.nextElementSibling).top;
  const name_left = a => { const of = document.createRange(); of.selectNodeContents(a); return of.getBoundingClientRect().left; };
  const begun = a => box(a).width > 40 ? name_left(a) < box(a).left + 12 : box(a).width > 30 || name_left(a) >= box(a).right;
  const named = strip => [...strip.querySelectorAll('a')].every(a => getComputedStyle(a).overflowX === 'hidden' && begun(a));
  const strips = [...document.querySelectorAll('.strip')];
  const told_strips = {strips: strips.length, rows: strips.map(strip => new Set([...strip.children].map(e => box(e).top)).size),
    lie: strips.every(strip => laid(strip) && shared(strip) && seen(strip) && above(strip)), named: strips.every(named)};
"""
# of a note whose lines are a range and none in turn
MANY = "(() => {" + STRIPS + """
  const all = [...document.querySelectorAll('.strip > a')], gaps = [...document.querySelectorAll('.strip > span')];
  const leads = (a, i) => a.hash === `#n1r${i + 1}` && document.getElementById(a.hash.slice(1)).dataset.first === String(2 * i);
  return JSON.stringify({...told_strips, pieces: all.length, gaps: gaps.length, ones: [...all, ...gaps].every(e => lines(e) === 1), lead: all.every(leads)});
})()"""
# what it shows of it: the width that it takes, bars beside their lines, labels, and colours; a range's piece, bar and label have one
LOOK = "(() => {" + STRIPS + """
  const style = getComputedStyle, colour = e => style(e).backgroundColor;
  const one = a => new Set([style(a).borderTopColor, colour(document.querySelector(`.bar[href="${a.hash}"]`)),
    style(document.querySelector(a.hash)).borderLeftColor]).size === 1;
  const held = [...document.querySelectorAll('.run.held')];
  const hues = s => [...s.querySelectorAll('.label')].map(l => l.style.getPropertyValue('--h'));
  return JSON.stringify({...told_strips, coloured: [...document.querySelectorAll('.strip > a')].every(one),
    wide: document.documentElement.scrollWidth, window: innerWidth, paper: colour(document.body),
    bars: held.every(r => [...r.querySelectorAll('.bar')].every(b => box(b).width >= 1 && box(b).height >= box(r.querySelector('ol')).height - 1)),
    beside: held.every(r => [...r.querySelectorAll('.label')].every(l => box(l).left >= box(r.querySelector('ol')).right - 1 && box(l).top < box(r).bottom)),
    above: held.every(r => [...r.querySelectorAll('.label')].every(l => box(l).bottom <= box(r.querySelector('ol')).top + 1) &&
      box(r.querySelector('ol')).right >= box(r).right - 1),
    wrapped: [...document.querySelectorAll('.label, li, td, h2 > span, p')].every(e => e.scrollWidth <= e.clientWidth + 1 || e.clientWidth === 0),
    inside: [...document.querySelectorAll('.label, li, td, h2')].every(e => box(e).right <= innerWidth + 1 && box(e).left >= -1),
    tall: [...document.querySelectorAll('li')].every(l => box(l).height > 8),
    marked: held.every(r => colour(r) !== 'rgba(0, 0, 0, 0)'), held: held.length,
    hues: [...document.querySelectorAll('section')].every(s => new Set(hues(s)).size === hues(s).length)});
})()"""
TAGS = set("html head meta title style body header h1 p span i table thead tbody tr th td a main section h2 div ol li b small footer".split())
ATTRIBUTES = set("lang charset http-equiv content name id class style href title start colspan role aria-label".split()) | {
    f"data-{key}" for key in ("first", "after", "start", "end", "kind", "score", "licence")}
WAIT = 600
LIKE_TAGS = (b"<script>alert(1)</script><img src=x onerror=alert(2)><a href='javascript:alert(3)'>\n</li></ol></div></section></pre>\n&amp; &lt;b&gt; &#39; &\n"
             b"\"quoted\" 'so'\n]]>--><!-- <?x <![CDATA[\n<style>*{display:none}</style><link rel=stylesheet href=http://127.0.0.1:9/x>\n"
             b"<base href=http://127.0.0.1:9/>\n")


class Browser:
    """A browser that is told what to do through a pipe; what it loads and says is kept."""

    def __init__(self, program, folder):
        mine_in, its_out = os.pipe()
        its_in, mine_out = os.pipe()
        words = [program, "--headless", "--no-sandbox", "--disable-gpu", "--hide-scrollbars", "--no-first-run", "--disable-background-networking",
                 "--disable-component-update", "--disable-dev-shm-usage", "--remote-debugging-pipe", f"--user-data-dir={folder}/profile", "about:blank"]
        shell = f'exec "$@" 3<&{its_in} 4>&{its_out}'
        self.process = subprocess.Popen(["sh", "-c", shell, "sh", *words], pass_fds=(its_in, its_out), stdin=subprocess.DEVNULL, stdout=subprocess.DEVNULL,
                                        stderr=subprocess.DEVNULL)
        os.close(its_in)
        os.close(its_out)
        self.reader, self.writer, self.number, self.tab, self.events = os.fdopen(mine_in, "rb"), mine_out, 0, None, []
        target = self.ask("Target.createTarget", url="about:blank")["targetId"]
        self.tab = self.ask("Target.attachToTarget", targetId=target, flatten=True)["sessionId"]
        for domain in ("Page", "Network", "Log", "Runtime", "Security"):
            self.ask(f"{domain}.enable")

    def hear(self):
        heard = bytearray()
        while not heard.endswith(b"\0"):
            byte = self.reader.read(1)
            if not byte:
                sys.exit("page: the browser has gone")
            heard += byte
        return json.loads(heard[:-1])

    def ask(self, method, **params):
        self.number += 1
        message = {"id": self.number, "method": method, "params": params}
        if self.tab:
            message["sessionId"] = self.tab
        os.write(self.writer, json.dumps(message).encode() + b"\0")
        while True:
            heard = self.hear()
            if heard.get("id") == self.number:
                if "error" in heard:
                    sys.exit(f"page: {method}: {heard['error']}")
                return heard["result"]
            self.events.append(heard)

    def load(self, path):
        self.events = []
        self.ask("Page.navigate", url=f"file://{path}")
        while not any(event.get("method") == "Page.loadEventFired" for event in self.events):
            self.events.append(self.hear())

    def open(self, path):
        """What the page told, and what it loaded and said on the way."""
        self.load(path)
        told = self.evaluate(TELL)
        loaded = [event["params"]["request"]["url"] for event in self.events if event.get("method") == "Network.requestWillBeSent"]
        loud = ("Log.entryAdded", "Runtime.consoleAPICalled", "Runtime.exceptionThrown", "Page.javascriptDialogOpening")
        return told, loaded, [event for event in self.events if event.get("method") in loud]

    def evaluate(self, script):
        return json.loads(self.ask("Runtime.evaluate", expression=script, returnByValue=True)["result"]["value"])

    def look(self, width, height, scheme, media="", script=LOOK):
        self.ask("Emulation.setDeviceMetricsOverride", width=width, height=height, deviceScaleFactor=1, mobile=False)
        self.ask("Emulation.setEmulatedMedia", media=media, features=[{"name": "prefers-color-scheme", "value": scheme}])
        return self.evaluate(script)

    def close(self):
        os.close(self.writer)
        self.process.terminate()
        self.process.wait()


def hold_lines(tally, section, raw):
    """The runs, one behind the other, are the note's lines, each as a reader sees it."""
    lines, at = raw.split(b"\n"), 0
    for run in section["runs"]:
        tally.hold(not run["lines"] or run["from"] == at + 1, f"{section['name']}: a run of lines from {run['from']}, not {at + 1}")
        for told in run["lines"]:
            tally.hold(at < len(lines) and told == places.pieces(lines[at]), f"{section['name']}: line {at} is {told}, not {lines[at : at + 1]}")
            at += 1
    tally.hold(at == len(lines), f"{section['name']}: {at} lines, not {len(lines)}")


def bytes_of(told):
    """A line of a page back to its bytes."""
    return b"".join(one.encode("utf-8") if seen else bytes.fromhex(one.replace("\\x", "")) for seen, one in told)


def is_label(label, each, further):
    """Does a label tell the finding, in its words and in its data?"""
    wanted = {part: str(each[part]) for part in ("first", "after", "start", "end", "kind", "licence")}
    words = [each["licence"], each["kind"], f"score {each['score']:.4f}", *([f"2m/t = 2*{each['m']}/{each['t']}"] if each["m"] is not None else [])]
    said = all(word in label["said"] for word in words) and ("further" in label["said"]) == label["further"] == further
    return said and all(label[part] == one for part, one in wanted.items()) and float(label["score"]) == each["score"]


def hold_mark(tally, section, name, each, raw):
    """A finding has its label, and its bar stands at the lines that its places cut out of the file."""
    labels = [one for one in section["labels"] if one["id"] == name]
    tally.hold(len(labels) == 1 and is_label(labels[0], each, "f" in name), f"{section['name']}: {name} is {labels}, not {each}")
    held = [bytes_of(line) for run in section["runs"] if name in run["marks"] for line in run["lines"]]
    cut = raw[each["start"] : each["end"]]
    tally.hold(held == (cut.split(b"\n") if each["first"] < each["after"] else []), f"{section['name']}: {name} marks {held}, not {cut}")
    begins = [run["from"] for run in section["runs"] if name in run["labels"]]
    tally.hold(begins == [each["first"] + 1 if held else None], f"{section['name']}: the label of {name} stands elsewhere")


def hold_marks(tally, section, number, told, raw):
    for k, each in enumerate(told["ranges"]):
        hold_mark(tally, section, f"n{number}r{k + 1}", each, raw)
    for k, each in enumerate(told.get("further", [])):
        hold_mark(tally, section, f"n{number}f{k + 1}", each, raw)
    tally.hold(len(section["labels"]) == len(places.findings(told)), f"{told['note']}: {len(section['labels'])} labels")
    tally.met["over"] += any(len(run["marks"]) > 1 for run in section["runs"])
    tally.met["empty"] += any(run["labels"] and not run["lines"] for run in section["runs"])
    tally.met["further"] += bool(told.get("further"))
    tally.met["ranges"] += bool(told["ranges"])
    tally.met["unseen"] += any(not seen for run in section["runs"] for line in run["lines"] for seen, _ in line)
    tally.met["accents"] += "é".encode() in raw


def piece_of(section, name, each):
    """What the strip has of a range; in the colour of its label."""
    lines = f"lines {each['first'] + 1} to {each['after']}" if each["after"] - each["first"] > 1 else f"line {each['after']}"
    hues = [label["hue"] for label in section["labels"] if label["id"] == name]
    title = f"{each['licence']}, {lines}"
    return {"tag": "a", "lines": each["after"] - each["first"], "hue": hues[0], "to": f"#{name}", "title": title, "label": title, "said": each["licence"]}


def strip_of(section, number, told, count):
    """All of a strip: the ranges as they were recorded, and the lines before, between and behind them."""
    pieces, at = [], 0
    for k, each in enumerate(told["ranges"]):
        pieces += [each["first"] - at, piece_of(section, f"n{number}r{k + 1}", each)]
        at = each["after"]
    gap = {"tag": "span", "hue": "", "to": None, "title": "", "label": None, "said": ""}
    return [{**gap, "lines": piece} if isinstance(piece, int) else piece for piece in [*pieces, count - at] if piece != 0]


def hold_strip(tally, section, number, told, raw, beside):
    wanted = [strip_of(section, number, told, raw.count(b"\n") + 1)] if beside and told["ranges"] else []
    got = [[{key: piece.get(key) for key in ("tag", "lines", "hue", "to", "title", "label", "said")} for piece in strip] for strip in section["strips"]]
    tally.hold(got == wanted, f"{told['note']}: a strip {got}, not {wanted}")
    tally.met["strips"] += bool(wanted)
    tally.met["beside"] += bool(wanted and len(told["ranges"]) > 1)
    tally.met["stripless"] += bool(told["ranges"] and not wanted)


def hold_section(tally, section, row, number, told, beside):
    message = told.get("message", f"cannot be read: {told.get('trouble')}") if "ranges" not in told or "message" in told else None
    tally.hold(section["bad"][:1] == ([message] if message else []), f"{told['note']}: {section['bad']}, not {message}")
    if "ranges" not in told:
        tally.hold(section["runs"] == section["strips"] == [] and row[1:] == [message], f"{told['note']}: {row}")
        tally.met["bad"] += 1
        return
    raw = places.read(told["note"])
    hold_lines(tally, section, raw)
    hold_marks(tally, section, number, told, raw)
    hold_strip(tally, section, number, told, raw, beside)
    score = f"{told['score']:.4f}" if told["score"] is not None else ""
    linked = all(each["licence"] in row[3] for each in told["ranges"][:12])
    tally.hold(linked and row[1:3] == [told["licence"] or "none as a whole", score], f"{told['note']}: {row}")


def hold_page(tally, browser, command, words, notes, statuses=(0,)):
    """A call with --json and --html, and its page in the browser."""
    ran = places.run(command, *words, "--json", "--html", "page.html", *notes)
    told = [one for one in map(json.loads, ran.stdout.splitlines()) if "note" in one]
    tally.hold(ran.returncode in statuses and ran.stderr == b"", f"{words}: status {ran.returncode}, {ran.stderr!r}")
    alone = places.run(command, *words, "--json", *notes)
    tally.hold((alone.returncode, alone.stdout) == (ran.returncode, ran.stdout), f"{words}: --html changes the answers")
    path = os.path.abspath("page.html")
    page, loaded, said = browser.open(path)
    tally.hold(loaded == [f"file://{path}"], f"{words}: it loads {loaded}")
    tally.hold(said == [], f"{words}: the browser says {said}")
    tally.hold(set(page["tags"]) <= TAGS and set(page["attributes"]) <= ATTRIBUTES and page["scripts"] == 0,
               f"{words}: {set(page['tags']) - TAGS}, {set(page['attributes']) - ATTRIBUTES}, {page['scripts']} scripts")
    tally.hold(len(set(page["ids"])) == len(page["ids"]) and set(page["links"]) <= {f"#{one}" for one in page["ids"]}, f"{words}: a link that leads nowhere")
    tally.hold(len(told) == len(page["sections"]) == len(page["rows"]), f"{words}: {len(page['sections'])} sections of {len(told)} notes")
    beside = places.is_beside(words)
    tally.hold(any("strip" in head for head in page["heads"]) == beside, f"{words}: its head says {page['heads']}")
    for number, (section, row, one) in enumerate(zip(page["sections"], page["rows"], told), 1):
        hold_section(tally, section, row, number, one, beside)
    return page


def hold_look(tally, browser, strips):
    """Of the page that is open, which has so many strips."""
    papers, keys = set(), "bars inside wrapped tall marked hues held lie named coloured".split()
    for width in (1600, 1280, 420, 320):
        for scheme in ("light", "dark"):
            seen = browser.look(width, 900, scheme)
            papers.add(seen["paper"])
            good = seen["wide"] <= seen["window"] == width and all(seen[key] for key in keys)
            tally.hold(good and seen["beside" if width > 960 else "above"] and seen["strips"] == strips, f"{width} wide, {scheme}: {seen}")
    tally.hold(len(papers) == 2, f"light and dark are one: {papers}")
    seen = browser.look(794, 1123, "light", "print")
    tally.hold(seen["wide"] <= 794 and seen["lie"] and seen["named"] and seen["coloured"], f"on paper: {seen}")


def hold_hostile(tally, browser, command, book):
    """Notes that would be tags, and of every byte; names of files that would be; a note that cannot be read, one that is refused."""
    every = bytes(byte for byte in range(128) if byte != 10)
    places.write("tags", LIKE_TAGS)
    places.write("every", every + b"\n" + bytes(range(128, 256)) + b"\n" + "\u202eabc\u202c \u2066x\u2069 \ufeff\u2028 é ß Ω 漢 \U0001f512\n".encode())
    places.write("ascii", every + b"\n" + LIKE_TAGS)
    name = "<img src=x onerror=alert(1)>&\"'\u202e\n\x1b é.txt"
    places.write(name, LIKE_TAGS)
    for extra, notes, statuses in (
        ([], ["tags", "ascii", name], (0,)),
        (["--ascii"], ["tags", "every", name], (0,)),
        (["--thorough", "--threshold", "0"], ["ascii", "nowhere", "every", "."], (2,)),
        (["-j", "3", "-r"], ["ascii", "folder", "every", "tags"], (1,)),
    ):
        page = hold_page(tally, browser, command, ["scan", *extra, book], notes, statuses)
        tally.met["hostile"] += len(notes)
        if name in notes:
            wanted = "<img src=x onerror=alert(1)>&\"'\\xe2\\x80\\xae\\n\\x1b é.txt"
            tally.hold(page["sections"][-1]["name"] == page["rows"][-1][0] == wanted, f"a name is {page['sections'][-1]['name']!r}")
    places.write("one", b"one two three four five six")
    places.write("two", b"six seven eight nine ten eleven")
    places.write("list", b"\"onclick='alert(1)'x=\" original one\n<script>alert('2')</script>&amp; original two\n")
    places.run(command, "book", "--edition", "3", "names & <b>.book", "list")
    places.write("both", b"x\none two three four five six\n\ny z\nsix seven eight nine ten eleven\n")
    for extra in ([], ["--beside", book], ["--thorough", "--second"], ["--top-down", "1"]):
        page = hold_page(tally, browser, command, ["scan", *extra, "names & <b>.book"], ["both", "one"])
        tally.hold(len(page["sections"][0]["labels"]) == 2, f"licences that would be tags: {page['sections'][0]['labels']}")


def hold_deep(tally, browser, command, depth=6, most=3):
    """Each licence stands around the one before, so ranges lie within each other. A run has bars for the innermost, and says how many more there are."""
    around = 14
    left, right = ([[f"{side}{i}{word}" for word in "abcdef"] for i in range(depth + around)] for side in "lr")
    for i in range(depth):
        places.write(f"T{i:02}", " ".join(left[i] + right[i]).encode())
    places.write("list", "".join(f"T{i:02} original T{i:02}\n" for i in range(depth)).encode())
    places.run(command, "book", "--edition", "2", "deep.book", "list")
    places.write("deep", "\n".join(" ".join(line) for line in left[::-1] + right).encode())
    words = ["scan", "--json", "--threshold", "0.5", "--passes", "60", "--html", "page.html", "deep.book", "deep"]
    told = json.loads(places.run(command, *words).stdout)
    wanted = [(around + depth - 1 - i, around + depth + 1 + i) for i in range(depth)]
    tally.hold([(each["first"], each["after"]) for each in told["ranges"]] == wanted, f"ranges within each other: {told}")
    (section,) = browser.open(os.path.abspath("page.html"))[0]["sections"]
    tally.hold([label["id"] for label in section["labels"]] == [f"n1r{i + 1}" for i in reversed(range(depth))], "a label is missing")
    for run in section["runs"]:
        inner = [f"n1r{i + 1}" for i, (first, after) in enumerate(wanted) if first < run["from"] <= after]
        more = f"+{len(inner) - most}" if len(inner) > most else ""
        tally.hold((run["marks"], run["more"]) == (inner[:most], more), f"line {run['from']}: {run}")
    hold_lines(tally, section, places.read("deep"))


def turns(count):
    """So many lines: a licence of one line and a word that ends its range, in turn."""
    return b"\n".join([b"my first license", b"x"] * (count // 2) + [b"my first license"] * (count % 2))


def hold_turns(tally, browser, command, most=16384):
    """Strips by every threshold, until the budget, and of very many ranges, which lie in several rows."""
    places.write("first", b"my first license")
    places.write("list", b"First original first\n")
    places.run(command, "book", "--edition", "3", "first.book", "list")
    notes = [f"turns{count}" for count in (1, 2, 3, 4, 5, 24, 95, 96, 97)]  # of 48 ranges and of 49
    for note in notes:
        places.write(note, turns(int(note[5:])))
    places.write("blank", b"\n\nx\n")
    down = ["scan", "--top-down", "1", "--threshold"]
    for threshold in ("1e-45", "0.5", "1", "0", "-0.0", "1e-46"):
        hold_page(tally, browser, command, [*down, threshold, "first.book"], [*notes, "blank"])
    for budget in (0, 6, 14, 15, 16, 40, 99, 107):
        page = hold_page(tally, browser, command, [*down, "0.8", "--budget", str(budget), "first.book"], notes, (1,))
        tally.met["stopped"] += any(section["strips"] and section["bad"] for section in page["sections"])
    places.write("most", turns(most))
    places.run(command, *down, "0.8", "--html", "page.html", "first.book", "most")
    browser.load(os.path.abspath("page.html"))
    seen = browser.look(800, 900, "light", script=MANY)
    good = seen["strips"] == 1 and seen["rows"][0] > 40 and seen["pieces"] == seen["gaps"] == most // 2
    tally.hold(good and all(seen[key] for key in ("lie", "named", "ones", "lead")), f"{most} lines in turn: {seen}")


def main():
    program, faulty, command, rng = sys.argv[1], sys.argv[2], sys.argv[3:], random.Random(1060)
    tally = places.Tally("ranges further over empty unseen accents bad hostile strips beside stripless stopped".split())
    command[-1], faulty = os.path.abspath(command[-1]), os.path.abspath(faulty)
    folder = tempfile.mkdtemp()
    os.chdir(folder)
    # a browser that does not answer is not waited for
    signal.signal(signal.SIGALRM, lambda *_: sys.exit("page: the browser does not answer"))
    signal.alarm(WAIT)
    browser = Browser(program, folder)
    try:
        for words, notes, _ in places.every_call(rng, command):
            hold_page(tally, browser, command, ["scan", *words], notes)
        os.mkdir("folder")
        for i, own in enumerate(("b", "a")):
            places.write(f"folder/{own}", places.read(f"odd3.{i}"))
        hold_hostile(tally, browser, command, "M-3.book")
        hold_deep(tally, browser, [*command[:-1], faulty])
        example, book = (os.path.join(places.ROOT, *way) for way in (("examples", "note.txt"), ("books", "debian-3.book")))
        hold_turns(tally, browser, command)
        for extra, notes in (["--thorough", "--second"], ["taken3.0"]), (["--top-down", "1", "--thorough", "--beside", "first.book"], ["turns5", "turns24"]):
            hold_page(tally, browser, command, ["scan", *extra, book], [example, *notes])
            hold_look(tally, browser, 1 + len(notes) if "--top-down" in extra else 0)
    finally:
        browser.close()
        shutil.rmtree(folder, ignore_errors=True)
    return tally.end()


if __name__ == "__main__":
    sys.exit(main())
