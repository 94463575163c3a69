"""Tests of the page that draws certificates: its logic under node, and what a browser shows of it.

The figures were worked out by hand: those of two_lists stand in docs/CERTIFICATE.md.
"""
import contextlib
import fcntl
import html.parser
import json
import os
import pathlib
import re
import select
import signal
import subprocess
import sys
import time
import urllib.parse

from machine import Skipped, needs, no_memory, no_threads, path_of, peer, scratch
from support import REPOSITORY, run

VIEW = REPOSITORY / "examples" / "view"
BUNDLES = REPOSITORY / "crates" / "examples" / "data"
CASES = REPOSITORY / "tests" / "cases"
BROWSERS = ("chromium", "chromium-browser", "google-chrome", "chrome")
EMPTY = {"area", "base", "br", "col", "hr", "img", "input", "link", "meta", "source", "wbr"}
SUMS = ("cost", "depth", "rows not read", "grades never known")
# How long the browser may take for one answer.
ANSWER_SECONDS = 120
# True of the page once what it was given is drawn.
DRAWN = "document.getElementById('picture').getAttribute('aria-busy') === 'false'"
# Runs a program that reads at 3 and writes at 4, where a browser has its pipes.
AT_3_AND_4 = """import os, sys
os.dup2(int(sys.argv[1]), 3)
os.dup2(int(sys.argv[2]), 4)
os.execv(sys.argv[3], sys.argv[3:])"""


class Element:
    """An element of a page, with its attributes and what stands in it: elements and texts."""

    def __init__(self, name, attributes):
        self.name, self.attributes, self.children = name, attributes, []

    def all(self, name=None, **attributes):
        """The elements in it of a name with these attributes, in their order."""
        wanted = {key.replace("_", "-").strip("-"): value for key, value in attributes.items()}
        for child in self.children:
            if isinstance(child, Element):
                if name in (None, child.name) and wanted.items() <= child.attributes.items():
                    yield child
                yield from child.all(name, **attributes)

    def text(self):
        return "".join(it if isinstance(it, str) else it.text() for it in self.children)

    def texts(self, name=None, **attributes):
        return [" ".join(it.text().split()) for it in self.all(name, **attributes)]

    def styles(self, name=None, **attributes):
        return [it.attributes["style"].rstrip(";") for it in self.all(name, **attributes)]


class Reader(html.parser.HTMLParser):
    def __init__(self, text):
        super().__init__()
        self.root = Element("", {})
        self.open = [self.root]
        self.feed(text)

    def handle_starttag(self, tag, attrs):
        made = Element(tag, dict(attrs))
        self.open[-1].children.append(made)
        if tag not in EMPTY:
            self.open.append(made)

    def handle_startendtag(self, tag, attrs):
        self.open[-1].children.append(Element(tag, dict(attrs)))

    def handle_endtag(self, tag):
        if tag in [it.name for it in self.open]:
            while self.open.pop().name != tag:
                pass

    def handle_data(self, data):
        self.open[-1].children.append(data)


class Browser:
    """A browser without a window, which does what it is told over two pipes.

    It speaks its protocol for development: messages of JSON, each with a byte 0 behind it.
    """

    def __init__(self, told, tells):
        self.told, self.tells, self.read, self.calls, self.session, self.events = told, tells, b"", 0, {}, []

    def begin(self):
        """Takes the one page that the browser has, and asks to be told of its faults."""
        pages = [it for it in self.call("Target.getTargets")["targetInfos"] if it["type"] == "page"]
        attached = self.call("Target.attachToTarget", targetId=pages[0]["targetId"], flatten=True)
        self.session = {"sessionId": attached["sessionId"]}
        for domain in ("Page", "Runtime", "Log", "DOM", "Accessibility"):
            self.call(f"{domain}.enable")

    def call(self, method, **params):
        """What the browser answers."""
        self.calls += 1
        message = {"id": self.calls, "method": method, "params": params, **self.session}
        os.write(self.told, json.dumps(message).encode() + b"\0")
        late = time.monotonic() + ANSWER_SECONDS
        while True:
            message = self.message(late)
            if message.get("id") == self.calls:
                if "error" in message:
                    raise ValueError(f"{method}: {message['error']}")
                return message["result"]
            self.events.append(message)

    def message(self, late):
        while b"\0" not in self.read:
            if not select.select([self.tells], [], [], max(0, late - time.monotonic()))[0]:
                raise ValueError(f"the browser doesn't answer within {ANSWER_SECONDS} s")
            more = os.read(self.tells, 1 << 20)
            if not more:
                raise EOFError("the browser has ended")
            self.read += more
        text, _, self.read = self.read.partition(b"\0")
        return json.loads(text)

    def value(self, script):
        """What a script comes to in the page."""
        done = self.call("Runtime.evaluate", expression=script, awaitPromise=True, returnByValue=True)
        if "exceptionDetails" in done:
            raise ValueError(f"{script}: {done['exceptionDetails']}")
        return done["result"].get("value")

    def open(self, width=1000, colours="light", **fragment):
        """Opens the page on a screen of a width, with what its address has behind `#`, and waits until it is drawn."""
        self.call("Emulation.setDeviceMetricsOverride", width=width, height=900, deviceScaleFactor=1, mobile=False)
        self.call("Emulation.setEmulatedMedia", features=[{"name": "prefers-color-scheme", "value": colours}])
        # Another page first, since a change behind `#` alone opens none.
        self.call("Page.navigate", url="about:blank")
        self.call("Page.navigate", url=f"{(VIEW / 'index.html').as_uri()}#{urllib.parse.urlencode(fragment)}")
        self.wait("document.readyState === 'complete' && document.getElementById('picture') !== null")
        if fragment:
            self.wait(DRAWN)
        return self

    def wait(self, script):
        """Waits until a script is true of the page."""
        late = time.monotonic() + ANSWER_SECONDS
        while not self.value(script):
            if time.monotonic() > late:
                raise ValueError(f"isn't so within {ANSWER_SECONDS} s: {script}")
            time.sleep(0.02)

    def choose(self, control, *files):
        """Chooses files at a control, and waits until they are drawn."""
        root = self.call("DOM.getDocument")["root"]["nodeId"]
        node = self.call("DOM.querySelector", nodeId=root, selector=f"#{control}")["nodeId"]
        self.value("document.getElementById('picture').removeAttribute('aria-busy')")
        self.call("DOM.setFileInputFiles", nodeId=node, files=[str(it) for it in files])
        self.wait(DRAWN)

    def press(self, key, code):
        """Presses a key."""
        text = {"text": "\r"} if key == "Enter" else {}
        for kind in ("keyDown", "keyUp"):
            self.call("Input.dispatchKeyEvent", type=kind, key=key, code=key, windowsVirtualKeyCode=code, **text)

    def processor_time(self):
        """How many milliseconds the page's thread has had the processor."""
        self.call("Performance.enable", timeDomain="threadTicks")
        metrics = {it["name"]: it["value"] for it in self.call("Performance.getMetrics")["metrics"]}
        return 1000 * metrics["TaskDuration"]

    def slowness(self):
        """How many times slower than an idle machine this one is now: by the clock, and by its processor's time."""
        begun_at = self.processor_time()
        took = self.value(WORK)
        return took / IDLE, (self.processor_time() - begun_at) / IDLE

    def shown(self):
        """The page as the browser shows it."""
        return Reader(self.value("document.documentElement.outerHTML")).root

    def faults(self):
        """What the browser's console was told of errors."""
        kinds = ("Runtime.exceptionThrown", "Runtime.consoleAPICalled", "Log.entryAdded")
        return [json.dumps(it["params"])[:500] for it in self.events if it.get("method") in kinds]


def high_pipe():
    """Where one reads and where one writes of a new pipe, by numbers beyond those that a browser has of its own."""
    low = os.pipe()
    ends = [fcntl.fcntl(end, fcntl.F_DUPFD_CLOEXEC, 10) for end in low]
    for end in low:
        os.close(end)
    return ends


def begun(program, hears, says, place):
    """A browser that is told at `hears` what to do, and tells at `says`; it keeps what it writes in a folder."""
    own = dict(os.environ, HOME=place, XDG_CONFIG_HOME=place, XDG_CACHE_HOME=place, XDG_RUNTIME_DIR=place)
    words = [program, "--headless", "--no-sandbox", "--disable-gpu", "--disable-dev-shm-usage",
             "--disable-crash-reporter", "--no-first-run", "--disable-renderer-backgrounding",
             "--disable-background-timer-throttling", f"--user-data-dir={place}", "--remote-debugging-pipe",
             "about:blank"]
    nothing = {"stdin": subprocess.DEVNULL, "stdout": subprocess.DEVNULL, "stderr": subprocess.DEVNULL}
    start = [sys.executable, "-c", AT_3_AND_4, str(hears), str(says)]
    return subprocess.Popen([*start, *words], pass_fds=(hears, says), env=own, start_new_session=True, **nothing)


@contextlib.contextmanager
def browser():
    """A browser, which is ended with all that it started.

    One that has no room or no right to run ends before it answers anything, and skips the test.
    """
    program = path_of(*BROWSERS)
    needs(no_threads(100), no_memory(1000))
    (hears, told), (tells, says) = high_pipe(), high_pipe()
    with scratch() as place, contextlib.ExitStack() as ends:
        ends.callback(os.close, told)
        ends.callback(os.close, tells)
        try:
            ends.callback(ended, begun(program, hears, says, place))
        finally:
            os.close(hears)
            os.close(says)
        page = Browser(told, tells)
        try:
            page.begin()
        except (EOFError, BrokenPipeError):
            raise AssertionError(f"{program} ends before it answers") from None
        yield page


def ended(process):
    """Ends a process and all that it started."""
    with contextlib.suppress(ProcessLookupError, PermissionError):
        os.killpg(process.pid, signal.SIGKILL)
    process.wait()


def first_difference(rows):
    """What is wrong with the first pair that differs, or None."""
    for what, found, wanted in rows:
        if found != wanted:
            return f"{what}: shows {found!r} in place of {wanted!r}"
    return None


def view_logic(_):
    """The logic against texts that were worked out by hand, under node."""
    node = path_of("node")
    version = peer([node, "--version"]).stdout.decode()
    if not re.match(r"v(2[0-9]|[3-9][0-9])\.", version):
        raise Skipped("there is no node of version 20 or later")
    done = peer([node, "--test", *sorted(map(str, VIEW.glob("*.test.js")))])
    if done.returncode == 0:
        return None
    return f"node ended with {done.returncode}: {done.stdout[-1500:].decode(errors='replace')}"


def answered(program, bundle):
    """What the program writes of a bundle."""
    return run(program, ["one"], bundle).stdout.decode()


def view_of_an_answer(program):
    """The certificate that the program writes of two_lists is drawn: bars, thresholds by depth, accesses, sums."""
    written = answered(program, (BUNDLES / "two_lists.bundle").read_bytes())
    with browser() as page:
        shown = page.open(text=written).shown()
    answers, lists = next(shown.all(class_="answers")), next(shown.all(class_="lists"))
    return first_difference([
        ("query", shown.texts("p", class_="query"), ["top 1 by sum(A,B) using ta"]),
        ("answer", answers.texts("th", scope="row") + answers.texts("td", class_="number"), ["2", "1,500", "1,500"]),
        ("bar of the answer", answers.styles(class_="bar-low"), ["width: 100%"]),
        ("open part", answers.styles(class_="bar-open"), []),
        ("line of the others", answers.styles(class_="bar-rival"), ["left: 93.33%"]),
        ("thresholds", lists.texts("span", data_figure="threshold"), ["threshold 1,600", "threshold 1,400"]),
        ("k-th aggregates", lists.texts("span", data_figure="kth"), ["k-th 1,500", "k-th 1,500"]),
        ("bars of thresholds", lists.styles(class_="threshold"), ["width: 100%", "width: 87.5%"]),
        ("bars of k-th aggregates", lists.styles(class_="kth"), ["width: 93.75%", "width: 93.75%"]),
        ("rows", lists.texts("div", class_="row"),
         ["object 1 has 900", "★ object 2 has 700", "★ object 2 has 800", "object 3 has 600"]),
        ("bars of grades", lists.styles(name="i"), ["width: 100%", "width: 77.78%", "width: 88.89%", "width: 66.67%"]),
        ("random accesses", lists.texts("ul", class_="random"),
         [f"◆ random access: {it}" for it in ("★ object 2 has 800", "object 1 has 500", "object 3 has 100")]),
        ("depths where it may stop", len(list(lists.all("tr", class_="met"))), 1),
        ("not read", lists.texts("td", class_="unread"), ["1 of 3 not read", "1 of 3 not read"]),
        ("sums", [next(shown.all("dd", data_figure=it)).children[0] for it in SUMS], ["7", "2", "2", "0"]),
        ("lines of the chart", len(list(shown.all("polyline"))), 2),
        ("console", page.faults(), []),
    ])


def view_of_an_open_answer(program):
    """Without random access an answer's greatest sum may stay above its least: 900 and 1100, others at most 400."""
    written = answered(program, (BUNDLES / "bounds_that_differ.bundle").read_bytes())
    with browser() as page:
        shown = page.open(text=written).shown()
    answers, lists = next(shown.all(class_="answers")), next(shown.all(class_="lists"))
    return first_difference([
        ("answer", answers.texts("td", class_="number"), ["900", "1,100"]),
        ("least", answers.styles(class_="bar-low"), ["width: 81.82%"]),
        ("open part", answers.styles(class_="bar-open"), ["left: 81.82%; width: 18.18%"]),
        ("line of the others", answers.styles(class_="bar-rival"), ["left: 36.36%"]),
        ("others", lists.texts("span", data_figure="rival"), ["others up to 1,200", "others up to 400"]),
    ])


def view_of_a_guarantee(program):
    """What is guaranteed of an answer within a factor stands beside it; from 7/8 of the threshold on it may stop."""
    written = answered(program, (CASES / "one_within" / "input").read_bytes())
    with browser() as page:
        shown = page.open(text=written).shown()
    return first_difference([
        ("guarantee", shown.texts("p", data_figure="guarantee"),
         ["Guaranteed: no object outside is better by more than the factor 8/7 (at most 1.143 times as much)."]),
        ("enough", shown.texts("span", data_figure="enough"), ["enough from 1,400"]),
        ("depths where it may stop", len(list(shown.all("tr", class_="met"))), 1),
        ("lines of the chart", len(list(shown.all("polyline"))), 3),
    ])


def view_of_several(_):
    """Of several outcomes one is picked; a refusal, with what to do, and a text that is no certificate are told."""
    head = "certificate 2\nquery top 1 by A using ta\ncount 1\nanswer 5 7 7\n"
    text = f"refused 1 NoRandom quiet\n{head}stop depth 1 sorted 1 random 0 cost 1\ns A 5 7\nend\nhello\n"
    with browser() as page:
        first, second, third = (page.open(text=text, pick=pick).shown() for pick in (1, 2, 3))
    choices = ["refused 1 NoRandom quiet", "certificate 2: top 1 by A using ta",
               "no certificate, at line 9 of the text"]
    return first_difference([
        ("choices", [list(it.texts("option")) for it in first.all("select")], [choices, ["nothing", *choices]]),
        ("status", first.texts("p", role="status"), ["1 certificate, 1 refusal, 1 text that can't be read."]),
        ("refusal", first.texts("strong"), ["Refused: there is no answer."]),
        ("what to do", ["Use nra, which makes no random access" in it for it in first.texts(role="alert")], [True]),
        ("certificate", second.texts("p", class_="query"), ["top 1 by A using ta"]),
        ("no certificate", third.texts("strong"), ["This is no certificate."]),
        ("console", page.faults(), []),
    ])


def view_is_labelled(_):
    """Each control has a label, each picture a text, each wide table a name, and nothing comes from elsewhere."""
    with browser() as page:
        shown = page.open(text=(BUNDLES / "two_lists.text").read_text(encoding="utf-8")).shown()
    labels = {it.attributes["for"] for it in shown.all("label")}
    controls = {it.attributes["id"] for name in ("input", "select", "textarea", "progress") for it in shown.all(name)}
    loaded = [it for name in ("script", "link", "img") for it in shown.all(name)]
    places = [it.attributes.get("src") or it.attributes.get("href") for it in loaded]
    drawn = [it.attributes for it in shown.all("svg")]
    regions = [it.attributes.get("aria-label") for it in shown.all(role="region")]
    return first_difference([
        ("labels", labels, controls),
        ("pictures", [bool(it.get("aria-label")) or it.get("aria-hidden") == "true" for it in drawn], [True] * 3),
        ("tables", regions, ["Answers with their bounds", "Lists, depth by depth"]),
        ("places elsewhere", [it for it in places if "//" in it], []),
    ])


# Some work that is like that of the page: an idle processor does it in IDLE milliseconds. It comes to those it took.
IDLE = 80
WORK = """(() => {
  const began = performance.now();
  for (let turn = 0; turn < 5; turn += 1) {
    const seen = new Map();
    for (let at = 0; at < 40000; at += 1) seen.set(at, /^s ([a-z]+) ([0-9]+)$/.exec(`s list ${at}`)[2]);
  }
  return performance.now() - began;
})()"""

# Notes of the page from when files are chosen until they are drawn: the milliseconds, the longest time in which it
# answered nothing, and the shares that the bar of progress showed.
NOTES = """(() => {
  const [file, picture, bar] = ["file", "picture", "progress"].map((id) => document.getElementById(id));
  window.notes = { began: 0, took: null, longest: 0, last: 0, shares: [] };
  const tick = () => {
    notes.longest = Math.max(notes.longest, performance.now() - notes.last);
    notes.last = performance.now();
    if (!bar.hidden) notes.shares.push(bar.value);
    if (notes.took === null) setTimeout(tick);
  };
  file.addEventListener("change", () => { notes.began = notes.last = performance.now(); tick(); });
  new MutationObserver(() => {
    if (notes.began > 0 && picture.getAttribute("aria-busy") === "false") notes.took = performance.now() - notes.began;
  }).observe(picture, { attributes: true });
})()"""

# How many parts of the page are wider than their places; a long name is, and ends in dots.
CUT_OFF = """["html", ".scroll", ".scroll td", ".scroll tbody th:not(.named)"]
  .flatMap((names) => [...document.querySelectorAll(names)])
  .filter((it) => it.scrollWidth > it.clientWidth).length"""


def long_certificate(program, algorithm, place):
    """A certificate of more than 4 MB, as a file."""
    table = run(program, ["make", "--start", "7", "--count", "40000", "--lists", "8"]).stdout
    query = f"query top 10 by sum(l1,l2,l3,l4,l5,l6,l7,l8) using {algorithm}\n".encode()
    file = pathlib.Path(place) / f"{algorithm}.text"
    file.write_bytes(run(program, ["one"], table + query).stdout)
    return file


def drawn_long(page, file, width, colours):
    """What is wrong with the picture of a long certificate on a screen, or None."""
    page.open(width, colours)
    page.value(NOTES)
    before = page.slowness()
    begun_at = page.processor_time()
    page.choose("file", file)
    notes = {**page.value("notes"), "processor": page.processor_time() - begun_at}
    slow = [max(1, *both) for both in zip(before, page.slowness())]
    paper = page.value("getComputedStyle(document.body).backgroundColor")
    size = page.value("document.querySelectorAll('*').length")
    wrong = first_difference([
        (f"up to 5,000 elements, {size}", size <= 5000, True),
        ("parts that are cut off", page.value(CUT_OFF), 0),
        ("text field", page.value("document.getElementById('text').value"), ""),
        ("pictures", page.value("document.querySelectorAll('article').length"), 1),
        ("lines of the chart", page.value("document.querySelectorAll('polyline').length") >= 2, True),
        ("paper is dark", sum(map(int, re.findall(r"\d+", paper)[:3])) < 384, colours == "dark"),
        ("shares of progress rise", len(set(notes["shares"])) > 3, True),
        ("console", page.faults(), []),
    ]) or too_slow(notes, slow)
    return wrong and f"{file.name} at {width}, {colours}: {wrong}"


def too_slow(notes, slow):
    """What took too long on a machine that is so many times slower, by the clock and by its processor, or None."""
    by_clock, by_processor = slow
    for what, took, most in (("drew it for", notes["took"], 2000 * by_clock),
                             ("answered nothing for", notes["longest"], 300 * by_clock),
                             ("took the processor for", notes["processor"], 2000 * by_processor)):
        if took > most:
            return f"{LATE}{what} {took:.0f} ms in place of {most:.0f}"
    return None


# Begins what is said of a picture that took too long.
LATE = "the page "
# The screens on which a long certificate of an algorithm is drawn: widths and colours.
SCREENS = {"fa": [(360, "dark"), (1280, "light")], "ta": [(360, "light"), (1280, "dark")],
           "nra": [(360, "light"), (360, "dark"), (1280, "light"), (1280, "dark")]}


def view_of_long_certificates(program):
    """A certificate of 4 MB is drawn in 2 s, of at most 5,000 elements, narrow and wide, dark and light.

    Nothing is cut off. The page answers meanwhile, and shows how far it is.
    """
    with scratch() as place, browser() as page:
        for algorithm, screens in SCREENS.items():
            file = long_certificate(program, algorithm, place)
            if file.stat().st_size < 4_000_000:
                return f"{file.name} has {file.stat().st_size} bytes alone"
            for width, colours in screens:
                # The best of three, since other programs of the machine take the processor now and then.
                wrong = [drawn_long(page, file, width, colours)]
                while LATE in (wrong[-1] or "") and len(wrong) < 3:
                    wrong.append(drawn_long(page, file, width, colours))
                if wrong[-1] is not None:
                    return wrong[-1]
    return None


# Where the pictures and the charts of a page stand.
PLACES = """["article", ".course svg[role=img]"].map((name) => [...document.querySelectorAll(name)].map((it) => {
  const box = it.getBoundingClientRect();
  return [Math.round(box.x), Math.round(box.y)];
}))"""


def view_of_two(program):
    """`ta` and `nra` over the same lists stand side by side, with what each took, where it is narrow in one column."""
    bundle = (BUNDLES / "two_lists.bundle").read_text(encoding="utf-8")
    both = "".join(answered(program, bundle.replace("using ta", f"using {it}").encode()) for it in ("ta", "nra"))
    with browser() as page:
        shown = page.open(1280, text=both, pick=1, beside=2).shown()
        wide, wide_cut = page.value(PLACES), page.value(CUT_OFF)
        narrow, narrow_cut = page.open(360, text=both, pick=1, beside=2).value(PLACES), page.value(CUT_OFF)
    def figures(title):
        return [text for number in (1, 2) for text in shown.texts("span", data_figure=f"{title} {number}")]

    return first_difference([
        ("costs", figures("cost"), ["7", "4"]),
        ("depths", figures("depth"), ["2", "2"]),
        ("random accesses", figures("random accesses"), ["3", "0"]),
        ("both", shown.texts("p", data_figure="both"), ["Both name the same object."]),
        ("queries", shown.texts("p", class_="query"), ["top 1 by sum(A,B) using ta", "top 1 by sum(A,B) using nra"]),
        ("side by side", [[one[0] < other[0], one[1] == other[1]] for one, other in wide], [[True, True]] * 2),
        ("one over the other", [[one[0] == other[0], one[1] < other[1]] for one, other in narrow], [[True, True]] * 2),
        ("cut off", [wide_cut, narrow_cut], [0, 0]),
        ("console", page.faults(), []),
    ])


# Drops texts on the page, as files.
DROP = """(texts) => {
  const dataTransfer = new DataTransfer();
  for (const text of texts) dataTransfer.items.add(new File([text], "dropped"));
  document.body.dispatchEvent(new DragEvent("drop", { dataTransfer, bubbles: true, cancelable: true }));
}"""


def view_of_names(program):
    """A file of keys gives objects their names, chosen or dropped; one that is none is told, and the numbers stay."""
    written = answered(program, (BUNDLES / "two_lists.bundle").read_bytes())
    with scratch() as place, browser() as page:
        keys, none = pathlib.Path(place) / "keys.csv", pathlib.Path(place) / "none.csv"
        keys.write_text('object,key\n1,Astoria\n2,"Bristol, ""old"" <i>house</i>"\n', encoding="utf-8")
        none.write_text("object,key\n1\n", encoding="utf-8")
        page.open(text=written)
        page.choose("keys", keys)
        named = page.shown()
        page.choose("keys", none)
        numbered = page.shown()
        page.value(f"({DROP})({json.dumps([keys.read_text(encoding='utf-8'), written])})")
        page.wait("document.querySelector('.answers .named bdi') !== null")
        dropped = page.shown()
    heads = [list(next(it.all(class_="answers")).texts("th", scope="row")) for it in (named, numbered, dropped)]
    return first_difference([
        ("answers", heads, [['Bristol, "old" <i>house</i>'], ["2"], ['Bristol, "old" <i>house</i>']]),
        ("rows", named.texts("div", class_="row")[:2], ["Astoria has 900", '★ Bristol, "old" <i>house</i> has 700']),
        ("status", named.texts("p", role="status"), ["1 certificate. 2 objects with names."]),
        ("status of none", numbered.texts("p", role="status"),
         ["1 certificate. Record 2 of the keys isn't an object and its key."]),
        ("console", page.faults(), []),
    ])


# What has the focus: its name in the page, and whether it shows that.
FOCUS = """(() => {
  const it = document.activeElement;
  return [it.id || it.getAttribute("aria-label") || it.localName, getComputedStyle(it).outlineStyle !== "none"];
})()"""
# What has a name for who hears the page.
NAMED = ("button", "combobox", "textbox", "image", "region", "progressbar")
# Where Tab leads, from the first control on.
STOPS = ["file", "keys", "summary", "text", "button", "example", "pair", "pick", "beside", "What both took",
         "Answers with their bounds", "Lists, depth by depth", "Answers with their bounds", "Lists, depth by depth"]


def view_of_great_numbers(program):
    """Numbers of sixteen digits are drawn whole on a narrow screen, and long names end in dots."""
    bundle = (BUNDLES / "two_lists.bundle").read_text(encoding="utf-8")
    query = "top 1 by wsum(9000000000000*A,7*B) using nra"
    written = answered(program, f"{bundle[:bundle.index('query')]}query {query}\n".encode())
    with scratch() as place, browser() as page:
        keys = pathlib.Path(place) / "keys.csv"
        keys.write_text(f"object,key\n1,{'a long name ' * 9}\n2,{'x' * 90}\n", encoding="utf-8")
        page.open(360, text=written)
        cut = [page.value(CUT_OFF)]
        page.choose("keys", keys)
        cut.append(page.value(CUT_OFF))
        shown = page.shown()
    answers = next(shown.all(class_="answers"))
    return first_difference([
        ("numbers", answers.texts("td", class_="number"), ["8,100,000,000,000,000", "8,100,000,000,004,200"]),
        ("cut off, with numbers and with names", cut, [0, 0]),
        ("console", page.faults(), []),
    ])


def view_by_keyboard(_):
    """Each control and each table is reached by Tab, in the order of the page, and shows it.

    Who hears the page is told the name of each control, and the rows and cells of tables.
    """
    with browser() as page:
        page.open(360)
        for _ in STOPS[:7]:
            page.press("Tab", 9)
        page.value("document.getElementById('picture').removeAttribute('aria-busy')")
        page.press("Enter", 13)
        page.wait(DRAWN)
        page.value("document.activeElement.blur(), document.getElementById('file').focus()")
        stops = [page.value(FOCUS)]
        for _ in STOPS[1:]:
            page.press("Tab", 9)
            stops.append(page.value(FOCUS))
        heard = [it for it in page.call("Accessibility.getFullAXTree")["nodes"] if not it["ignored"]]
    told = [(it["role"]["value"], it.get("name", {}).get("value", "")) for it in heard]
    silent = [role for role, name in told if role in NAMED and not name.strip()]
    return first_difference([
        ("stops", [name for name, _ in stops], STOPS),
        ("stops that show the focus", [shows for _, shows in stops], [True] * len(STOPS)),
        ("without a name", silent, []),
        ("rows of tables that are heard", sum(role == "row" for role, _ in told) >= 15, True),
        ("cells that are heard", sum(role in ("cell", "gridcell") for role, _ in told) >= 20, True),
        ("heads that are heard", {role for role, _ in told} >= {"table", "rowheader", "columnheader"}, True),
        ("console", page.faults(), []),
    ])


def tests():
    """Each test with its name."""
    for test in (view_logic, view_of_an_answer, view_of_an_open_answer, view_of_a_guarantee, view_of_several,
                 view_is_labelled, view_of_long_certificates, view_of_two, view_of_names, view_of_great_numbers,
                 view_by_keyboard):
        yield test.__name__, test
