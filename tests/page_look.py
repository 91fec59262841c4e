"""What a user sees and does on a page, in a real browser: counts, selects, reads, zooms, copies, prints."""
import re
import struct
import tempfile
from pathlib import Path

from browser import Browser, BrowserFailed, PageFailed
from irig_tools.page import page
from irig_tools.sheet import Changes
from page_rows import WHOLE_DAY, check, eighteen, hostile, recording, repaired


def shown(browser: Browser) -> object:
    """The heading, the number of waveforms, of rows, of new rows and of tints, and the marked lines."""
    return browser.run("""[document.getElementById("place-title").textContent,
        ...[".wave", "tbody tr", "tr.new", "tr.gone", ".tint"].map((it) =>
            document.querySelectorAll("#shown " + it).length),
        document.querySelector("mark").textContent, location.hash]""")


def selection(browser: Browser, address: str) -> None:
    """Places are selected by address, keys and mouse, and what is shown follows."""
    browser.open(address + "#place-2")
    places = "document.querySelectorAll('#list [role=option]').length"
    check("the list has every place", 500, browser.run(places))
    lines = "# place 1: it has to be one\ninsert 172500000 172505000"
    second = ["2. A pulse is in two", 2, 13, 1, 2, 1, lines, "#place-2"]
    check("the address selects a place", second, shown(browser))
    browser.run("list.focus()")
    browser.press("ArrowDown")
    third = ["3. A width of no class", 1, 11, 0, 0, 1, "# place 2: choose a class", "#place-3"]
    check("the key selects the next place", third, shown(browser))
    check("the list says so", "item-3", browser.run("list.getAttribute('aria-activedescendant')"))
    check("one place is selected", 1, browser.run("document.querySelectorAll('[aria-selected=true]').length"))
    browser.press("Enter", "\r")
    check("Enter goes to the place", "place-title", browser.run("document.activeElement.id"))
    check("and zooms the strip", True, browser.run("view.end - view.start < 20e6"))
    browser.press("Escape")
    check("Escape goes back to the list", "list", browser.run("document.activeElement.id"))
    browser.click("#item-5")
    check("a click selects a place", "5. A pulse is in two", browser.run("byId('place-title').textContent"))
    browser.click("#previous")
    check("a button selects the place before", "#place-4", browser.run("location.hash"))


def zoom(browser: Browser) -> None:
    """The strip zooms by wheel, keys, drag and buttons."""
    wide = "Math.round((view.end - view.start) / 1e6)"
    browser.click("#whole")
    check("the whole recording is shown", WHOLE_DAY, browser.run(wide))
    browser.run("byId('strip').focus()")
    browser.press("+", "+")
    check("a key zooms in", WHOLE_DAY // 2, browser.run(wide))
    start = browser.run("view.start")
    browser.press("ArrowRight")
    check("a key moves", True, browser.run("view.start") > start)
    x, y = browser.run("[byId('strip').getBoundingClientRect()].map((box) => [box.x + 300, box.y + 40])[0]")
    browser.mouse("mouseWheel", x, y, deltaX=0, deltaY=-400)
    browser.settle()
    check("the wheel zooms in", True, browser.run(wide) < WHOLE_DAY // 2)
    start = browser.run("view.start")
    browser.mouse("mousePressed", x, y, button="left", clickCount=1)
    browser.mouse("mouseMoved", x + 100, y, button="left")
    browser.mouse("mouseReleased", x + 100, y, button="left", clickCount=1)
    browser.settle()
    check("a drag moves", True, browser.run("view.start") < start)
    browser.click("#out")
    browser.click("#whole")
    check("a button shows all again", WHOLE_DAY, browser.run(wide))
    check("few bars are drawn", True, browser.run("document.querySelectorAll('#strip rect').length") < 2000)


def looks(browser: Browser, path: str) -> None:
    """The page fits a screen, a telephone and paper, by day and by night."""
    found = browser.picture(path)
    check("a screenshot is taken", (1500, 950), struct.unpack(">II", found[16:24]))
    check("it is not empty", True, len(found) > 40000)
    for width in (1500, 1100, 420):
        browser.size(width, 900)
        browser.settle()
        check("the page fits %d pixels" % width, True,
              browser.run("document.documentElement.scrollWidth <= innerWidth"))
    night = [{"name": "prefers-color-scheme", "value": "dark"}]
    ground = "getComputedStyle(document.body).backgroundColor"
    day = browser.run(ground)
    browser.ask("Emulation.setEmulatedMedia", features=night)
    check("it is dark at night", True, day != browser.run(ground))
    browser.ask("Emulation.setEmulatedMedia", features=[])
    browser.run("addEventListener('beforeprint', () => { window.printed = paper.querySelectorAll('.strip, article').length; })")
    check("it can be printed", b"%PDF", browser.paper()[:4])
    check("on paper are the strip and all places", 1 + 6, browser.run("window.printed"))
    check("nothing is thrown, and nothing is refused", [], browser.errors)


def pages_of(paper: bytes) -> int:
    """How many pages a PDF has."""
    return len(re.findall(rb"/Type\s*/Page\b(?!s)", paper))


def printed(browser: Browser, address: str) -> None:
    """18 places are two pages."""
    browser.open(address)
    check("18 places are two pages", 2, pages_of(browser.paper()))


def crowded_strip(browser: Browser) -> None:
    """Signs that would cover each other are one, which says for how many; a damaged frame has a bar of its share of the pixels."""
    counted = """[...document.querySelectorAll('#strip .signs text.many')].reduce((sum, each) => sum + Number(each.textContent), 0)
        + [...document.querySelectorAll('#strip .signs path:not(.chosen):not(.needle) title')].filter((each) =>
            !each.textContent.includes(" places, the first at ")).length"""
    check("each place is counted by a sign", 500, browser.run(counted))
    near = """[...document.querySelectorAll('#strip .signs text.many')].map((each) => Number(each.getAttribute("x")))
        .some((x, at, all) => at && x - all[at - 1] < 20)"""
    check("no two numbers cover each other", False, browser.run(near))
    heights = "[...new Set([...document.querySelectorAll('#strip .damaged')].map((bar) => bar.getAttribute('height')))].join(' ')"
    check("one damaged frame of 72 on a pixel is a low bar", "11", browser.run(heights))
    browser.run("view.show(0, 60 * held.frame)")
    browser.settle()
    check("one that fills its pixels is a whole bar", "31", browser.run(heights))


def crowded_list(browser: Browser) -> None:
    """The list shows all, or what is left to the user."""
    visible = "[...list.children].filter((item) => item.offsetParent).length"
    check("the list has all", 500, browser.run(visible))
    check("how many are left is said", "left to you: 166", browser.run("byId('filter').textContent.trim()"))
    browser.click("#open-only")
    check("or what is left to the user", 166, browser.run(visible))
    browser.run("list.focus()")
    browser.press("ArrowDown")
    check("a key goes to the first of them", "#place-3", browser.run("location.hash"))
    browser.press("ArrowDown")
    check("and to the next", "#place-6", browser.run("location.hash"))
    browser.click("#open-only")


def cut_words(browser: Browser) -> object:
    """The words that reach over the upper or the lower edge of their picture."""
    return browser.run("""[...document.querySelectorAll("main svg text")].filter((each) => {
        const [words, whole] = [each, each.ownerSVGElement].map((it) => it.getBoundingClientRect());
        return words.top < whole.top || words.bottom > whole.bottom; }).map((each) => each.textContent)""")


def times_of_day(browser: Browser) -> None:
    """A time of the recording as a time of day, and those of the strip."""
    times = "[0, 1e6, 3600.25e6, 43200e6].map((time) => dayTime(time, 2))"
    check("the time of day", ["12:00:00.00", "12:00:01.00", "13:00:00.25", "00:00:00.00"], browser.run(times))
    shown_times = "[...document.querySelectorAll('#strip .of-day')].every((each) => /^[0-9]{2}:[0-9]{2}:[0-9]{2}$/.test(each.textContent))"
    check("the strip has it", True, browser.run(shown_times))
    check("no words are cut", [], cut_words(browser))


def crowded(browser: Browser, address: str) -> None:
    """A page with 500 places: its strip, its list and its times."""
    browser.open(address)
    browser.click("#whole")
    crowded_strip(browser)
    browser.click("#whole")
    crowded_list(browser)
    times_of_day(browser)


def copies(browser: Browser) -> None:
    """The script is copied whole, or the part of one place."""
    browser.run("navigator.clipboard.writeText = async (words) => { window.got = words; }")
    browser.click("#copy-part")
    part = "# place 1: it has to be one\ninsert 10500000 10505000\n"
    check("the part of a place is copied", part, browser.run("window.got"))
    check("the page says so", "Copied.", browser.run("byId('copied').textContent"))
    browser.click("#copy-all")
    script = "\n".join(recording(60, 6).script) + "\n"
    check("the whole script is copied", script, browser.run("window.got"))


def picked(browser: Browser) -> object:
    """The stretch that is looked at, the place, whether the strip has its frame, and the address."""
    return browser.run("""[document.querySelector("#changes [aria-selected=true] code").textContent,
        byId("place-title").textContent, picked.frame === null ? "no frame" : view.start <= picked.frame
            && view.end >= picked.frame + 100 * held.interval && view.end - view.start < 2e6, location.hash]""")


def changes(browser: Browser, address: str) -> None:
    """What was changed: its lines, its marks, and how both lead to the frame and to the place."""
    sheet = repaired().changes
    assert sheet is not None
    browser.open(address + "#changed-2")
    states = "[...document.querySelectorAll('#list .state')].map((each) => each.textContent).join()"
    check("the list has what was repaired", "repaired,repaired,left to you,repaired,repaired,left to you", browser.run(states))
    waves(browser)
    listed(browser, sheet)
    stretches(browser)
    marks(browser)
    taken_along(browser, sheet)
    for width in (1500, 420):
        browser.size(width, 900)
        browser.settle()
        check("it fits %d pixels" % width, True, browser.run("document.documentElement.scrollWidth <= innerWidth"))
    browser.size(1500, 950)


def waves(browser: Browser) -> None:
    """A waveform of a repair that was made is named as what was, and a text that is the title is not there twice."""
    names = "[...document.querySelectorAll('#wave text.row, .waves text.row')].map((each) => each.textContent.split(',')[0])"
    check("a waveform before a repair that was made is as it was", True, "as it was" in browser.run(names))
    twice = "shownPlace({...places[0], reason: places[0].title}).facts.some((each) => each.textContent === places[0].title)"
    check("what is seen is not there twice", False, browser.run(twice))


def listed(browser: Browser, sheet: Changes) -> None:
    """The lines of what was changed, in groups."""
    lines = "[...document.querySelectorAll('#changes code')].map((line) => line.textContent)"
    check("the list has the lines of irig_diff", sheet.lines, browser.run(lines))
    words = ["low → high, 2000 µs", "low → high, 40 µs", "low → high, 4000 µs; 1 edge in it stays", "high → low, 990 µs"]
    how = "[...document.querySelectorAll('#changes .how')].map((each) => each.textContent)"
    check("and what became of the levels", words, browser.run(how))
    heads = "[...document.querySelectorAll('#changes summary')].map((each) => each.textContent)"
    groups = ["1. A pulse is missing: 1 stretch, 2000 µs", "2. A pulse is in two: 1 stretch, 40 µs",
              "In no place of damage: 2 stretches, 4990 µs"]
    check("the lines of a place are a group", groups, browser.run(heads))
    check("all are folded but the one that is looked at", [False, True, False],
          browser.run("[...document.querySelectorAll('#changes details')].map((each) => each.open)"))


def stretches(browser: Browser) -> None:
    """A stretch is picked by the address, by keys and by the line of a frame."""
    check("the address picks a stretch", ["invert 10500900 10500940", "2. A pulse is in two", True, "#changed-2"], picked(browser))
    browser.run("byId('changes').focus()")
    browser.press("ArrowDown")
    check("a key picks the next", ["invert 30190000 30194000", "2. A pulse is in two", True, "#changed-3"], picked(browser))
    browser.press("ArrowDown")
    check("a stretch in no frame", ["invert 59999000 59999990", "2. A pulse is in two", "no frame", "#changed-4"], picked(browser))
    browser.click("#changes summary")
    browser.click("#changes .in-frame")
    check("the line of a frame leads to its first", ["invert 500000 502000", "1. A pulse is missing", True, "#changed-1"], picked(browser))


def marks(browser: Browser) -> None:
    """The marks of the stretches in the strip, also of those that are not listed."""
    browser.click("#whole")
    counts = "['.now-high', '.now-low'].map((name) => document.querySelectorAll('#strip ' + name).length)"
    check("each stretch has a mark", [3, 1], browser.run(counts))
    check("and cuts no words", [], cut_words(browser))
    titles = "[...document.querySelectorAll('#strip .now-high title')].map((title) => title.textContent)"
    title = "invert 10500900 10500940: low → high, 40 µs\n# frame 11 at 10000000: broken 50 step, then 061 12:00:10 fine"
    check("that says what it is", title, browser.run(titles)[1])
    rest = """[drawn.push(...readRest("ntc74*lfls.3.4")), drawn.sort((one, two) => one.start - two.start) && paintStrip(view, selected),
        ...[...document.querySelectorAll("#strip .changes title")].map((title) => title.textContent)
            .filter((words) => words.includes("not in the list"))].slice(2)"""
    more = "stretches, the first: from 40000000 to 41000000, not in the list"
    check("what is not listed has marks", ["3 " + more, "4 " + more], browser.run(rest))
    x, y = browser.run("""[document.querySelectorAll('#strip .now-high')[2].getBoundingClientRect()].map((box) =>
        [box.x + 1, box.y + 4])[0]""")
    for kind in ("mousePressed", "mouseReleased"):
        browser.mouse(kind, x, y, button="left", clickCount=1)
    browser.settle()
    check("a click on a mark picks it", "#changed-3", browser.run("location.hash"))


def taken_along(browser: Browser, sheet: Changes) -> None:
    """What was changed, on the clipboard and on paper."""
    browser.run("navigator.clipboard.writeText = async (words) => { window.got = words; }")
    browser.click("#copy-changes")
    check("the lines are copied", "\n".join(sheet.lines) + "\n", browser.run("window.got"))
    browser.click("#copy-command")
    check("the command is copied", sheet.command + "\n", browser.run("window.got"))
    browser.run("addEventListener('beforeprint', () => { window.printed = [...paper.querySelectorAll('pre, code')].map((each) =>"
                " each.textContent); })")
    browser.paper()
    check("on paper is the command, and not the lines", [sheet.command], browser.run("window.printed"))


def attack(browser: Browser, address: str) -> None:
    """Hostile text is shown as it is, and does nothing."""
    browser.open(address)
    check("it makes no element", 0, browser.run("document.querySelectorAll('img').length"))
    check("it changes no title", True, browser.run("document.title").startswith("</script>"))
    title = browser.run("document.querySelector('#list .title').textContent")
    check("it is shown as text", True, title.startswith("</script><img src=x"))
    check("what is added by hand is not run", True, browser.run("""new Promise((done) => {
        document.body.insertAdjacentHTML("beforeend", "<img src=x onerror='window.spoilt = 1'>");
        setTimeout(() => done(window.spoilt === undefined), 100); })"""))


def visit(path: str, screenshot: str) -> None:
    """Goes through all pages, and leaves a screenshot if it has a name."""
    with tempfile.TemporaryDirectory() as folder, Browser(path) as browser:
        addresses = []
        sheets = recording(WHOLE_DAY, 500), recording(60, 6), hostile(), repaired(), eighteen()
        for number, sheet in enumerate(sheets):
            made = Path(folder, "%d.html" % number)
            made.write_text(page(sheet), encoding="utf-8")
            addresses.append(made.as_uri())
        browser.size(1500, 950)
        selection(browser, addresses[0])
        zoom(browser)
        crowded(browser, addresses[0])
        printed(browser, addresses[4])
        browser.open(addresses[1] + "#place-2")
        copies(browser)
        looks(browser, screenshot or str(Path(folder, "screenshot.png")))
        changes(browser, addresses[3])
        attack(browser, addresses[2])


def look(path: str, screenshot: str) -> str:
    """Visits all pages. Returns why that could not be done, or nothing."""
    try:
        visit(path, screenshot)
    except PageFailed as failed:
        check("the page works", "", str(failed))
    except (BrowserFailed, OSError) as failed:
        return str(failed).split("\n")[0] or "the browser failed"
    return ""
