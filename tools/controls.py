"""What a page of a run does beside going step by step: dispatches, breakpoints, the search, clicks on the transcript and on the drawing, plus and minus,
the drawing closer and farther, its tracks, a step and a breakpoint behind the page's name. What each has to lead to is told by what stood on the page at each step, which `views` compares with the debugger."""

import collections
import re

STEP = "JSON.stringify(Number(document.querySelector('#slider').value))"
PRESSED = "[...document.querySelectorAll('.row')].filter((it) => it.querySelector('button[aria-pressed=true]')).map((it) => Number(it.querySelector('.number').textContent))"
FOCUS = "JSON.stringify(document.activeElement.id)"
ADDRESS = "JSON.stringify(addressOf())"
TRACKS = "JSON.stringify([...document.querySelectorAll('#drawing .track title')].map((it) => it.textContent))"
WIDTH = "JSON.stringify(document.querySelector('#drawing svg').getBoundingClientRect().width)"
MARKED = """JSON.stringify(['new', 'gone'].map((kind) =>
  [...document.querySelectorAll('[data-look]')].map((box) => [...box.querySelectorAll(`.line.${kind} .raw`)].map((it) => it.textContent))))"""
DRAWN = """JSON.stringify({
  lanes: [...document.querySelectorAll('#drawing .lanes > div')].map((it) => it.textContent),
  bars: [...document.querySelectorAll('#drawing .bar title')].map((it) => it.textContent),
  marks: [...document.querySelectorAll('#drawing .mark title, #drawing .out title')].map((it) => it.textContent),
})"""
# a click in the middle of the place that belongs to a step of all of them
CLICK = """(() => {
  const svg = document.querySelector('#drawing svg'), bars = [...svg.querySelectorAll('.bar')];
  const at = bars[%d].getBoundingClientRect();
  svg.dispatchEvent(new MouseEvent('click', { bubbles: true, clientX: at.left, clientY: at.top }));
})(); null"""


class Controls:
    """A page that is open, and what stood on it at each step of its run."""

    def __init__(self, browser, seen):
        self.browser, self.seen, self.last = browser, seen, len(seen) - 1

    def step(self):
        return self.browser.value(STEP)

    def after(self, *keys):
        """The step to which keys lead, one after another."""
        for key in keys:
            self.browser.press(key)
        return self.step()

    def lines(self, at):
        """The lines that arise in a step."""
        return self.seen[at]["out"][len(self.seen[at - 1]["out"]) :] if at else []

    def step_of(self, line):
        """The step in which a line of the transcript arises, by its number."""
        return next(at for at, it in enumerate(self.seen) if len(it["out"]) > line)

    def transcript(self):
        return self.seen[-1]["out"]

    def lead_on(self, key):
        """Presses one key as long as that leads elsewhere: the steps to which it has led."""
        found = [self.step()]
        while (at := self.after(key)) != found[-1]:
            found.append(at)
        return found[1:]

    # each of these answers what it found, beside what has to be found

    def dispatches(self):
        begun = [at for at in range(1, self.last + 1) if any(it.startswith("@") for it in self.lines(at))]
        wanted = [*begun, *([] if begun[-1] == self.last else [self.last])]
        self.after("Home")
        yield "Page Down", wanted, self.lead_on("PageDown")
        back = [0, *[it for it in wanted if it != self.last]][::-1]
        yield "Page Up", back, self.lead_on("PageUp")

    def breakpoints(self):
        counts = collections.Counter(line for it in self.seen for line in it["next"])
        line = counts.most_common(1)[0][0]
        there = [at for at, it in enumerate(self.seen) if it["next"] == [line]]
        self.after("Home", *["ArrowRight"] * there[0])
        yield "b sets a breakpoint", [line], (self.browser.press("b"), self.browser.value(f"JSON.stringify({PRESSED})"))[1]
        yield "g", there[1:], [self.after("g") for _ in there[1:]]
        yield "g at the last", there[-1], self.after("g")
        self.after("End")
        yield "G", there[::-1] if there[-1] != self.last else there[-2::-1], [self.after("G") for _ in (there if there[-1] != self.last else there[1:])]
        yield "b takes it away", [], (self.browser.press("b"), self.browser.value(f"JSON.stringify({PRESSED})"))[1]

    def search(self):
        counts = collections.Counter(self.transcript())
        word = counts.most_common(1)[0][0]
        met = [number for number, it in enumerate(self.transcript()) if word in it]
        self.after("Home", "/")
        yield "/ leads to the search", "search", self.browser.value(FOCUS)
        self.browser.value(f"document.querySelector('#search').value = {word!r}; document.querySelector('#search').dispatchEvent(new Event('input')); null")
        yield "a search", self.step_of(met[0]), self.step()
        yield "Enter in it", [self.step_of(it) for it in [*met[1:], met[0]]], [self.after("Enter") for _ in met]
        self.browser.press("Escape")
        yield "Escape leaves it", "slider", self.browser.value(FOCUS)

    def clicks(self):
        for line in (0, len(self.transcript()) // 2, len(self.transcript()) - 1):
            self.browser.value(f"document.querySelectorAll('#transcript button')[{line}].click(); null")
            yield f"a click on line {line + 1} of the transcript", self.step_of(line), self.step()

    def marks(self):
        """Plus and minus at each tenth step. What ran last has no minus."""
        self.after("Home", "ArrowRight")
        for at in range(1, self.last + 1, 10):
            self.browser.press("ArrowRight", 0 if at == 1 else 10)
            now, before = self.seen[at]["looks"], self.seen[at - 1]["looks"]
            wanted = [[sorted((collections.Counter(a) - collections.Counter(b)).elements()) for a, b in pairs] for pairs in (zip(now, before), zip(before, now))]
            found = [[sorted(it) for it in kind] for kind in self.browser.value(MARKED)]
            keeps = [look for look, lines in enumerate(wanted[1]) if found[1][look] or not lines or look != self.recent]
            yield f"plus at step {at}", wanted[0], found[0]
            yield f"minus at step {at}", [wanted[1][it] for it in keeps], [found[1][it] for it in keeps]

    def drawing(self):
        drawn = self.browser.value(DRAWN)
        begun = [it for it in self.transcript() if it.startswith("@")]
        marks = [it for it in self.transcript() if re.match(r"(leave|refuse|killed|gone|out) ", it)]
        yield "a lane for main and each client", ["main", *clients_in(self.transcript())], [it for it in drawn["lanes"] if re.match(r"main$|client ", it)]
        yield "a bar for each dispatch", begun, drawn["bars"]
        yield "a mark for each leave, refusal, kill, output and cell that goes", sorted(marks), sorted(drawn["marks"])
        for number in (0, len(begun) - 1):
            self.browser.value(CLICK % number)
            at = [line for line, it in enumerate(self.transcript()) if it.startswith("@")][number]
            yield f"a click on the bar of dispatch {number}", self.step_of(at), self.step()

    def zoom(self):
        """The drawing is wider by a key, narrower by another, and then as it was; the lanes' names stay where they are."""
        self.after("Home")
        first = self.browser.value(WIDTH)
        wider = (self.browser.press("+"), self.browser.value(WIDTH))[1]
        yield "+ brings the drawing closer", True, wider > first
        yield "- takes it away again", first, (self.browser.press("-"), self.browser.value(WIDTH))[1]

    def tracks(self):
        """The first track tells the most cells at once, which the looks told too."""
        at = self.looks.index("cells")
        most = max(int(it["looks"][at][0].split()[1]) for it in self.seen)
        yield "the track of cells", f"cells: at most {most}", self.browser.value(TRACKS)[0]

    def address(self):
        """The step stands in the address, and a breakpoint where one is set."""
        self.after("Home", *["ArrowRight"] * 7)
        yield "the address has the step", "#7", self.browser.value(ADDRESS)
        line = self.seen[7]["next"][0]
        yield "and a breakpoint", f"#7;break={line}", (self.browser.press("b"), self.browser.value(ADDRESS))[1]
        self.browser.press("b")

    def all(self, looks):
        self.looks, self.recent = looks, looks.index("recent")
        for part in (self.dispatches, self.breakpoints, self.search, self.clicks, self.marks, self.drawing, self.zoom, self.tracks, self.address):
            yield from part()


def clients_in(transcript):
    """The lanes of the clients of which a transcript tells."""
    found = {int(it[1]) for line in transcript for it in [re.match(r"(?:@\d+ serve \d+ \w+|reply|discard|refuse) (\d+)", line)] if it}
    return [f"client {it}" for it in sorted(found)]
