"""How ./page looks in a browser: where its timelines and pictures stand in a wide and in a narrow window, in light and in dark."""

import shutil

from browser import Browser, installed
from page_kit import path_of

# The address of a page with each of these, and the widths of a window.
PAIR = "[](request_in -> <>response_out)", "[]<>request_in -> []<>response_out"
WIDTHS = 400, 1100

# Each mark of each timeline: whether its middle is in the window and nothing covers it.
MARKS = """[...document.querySelectorAll('.timeline tbody td')].map(it => {
  const box = it.getBoundingClientRect(), x = box.x + box.width / 2, y = box.y + box.height / 2
  return x > 0 && x < innerWidth && document.elementFromPoint(x, y) === it
})"""
# Each picture: the width that it was drawn with, its width here, and that of the room for it.
SIZES = """[...document.querySelectorAll('.picture')].map(it => {
  const svg = it.querySelector('svg'), style = getComputedStyle(it)
  const limit = it.parentElement.clientWidth - parseFloat(style.paddingLeft) - parseFloat(style.paddingRight) - 2 * parseFloat(style.borderLeftWidth)
  return [parseFloat(svg.getAttribute('width')) * 4 / 3, svg.getBoundingClientRect().width, limit]
})"""
OVERFLOW = "document.documentElement.scrollWidth - innerWidth"


def try_marks(browser, here, count):
    """All marks of a timeline are seen without scrolling, also beside long texts."""
    for wide in WIDTHS:
        for about, path, rows, wanted in (
            ("of two formulas", path_of(*PAIR), "5 and 7", 12),
            ("of one", path_of(PAIR[0], "", "{request_in}; {}; cycle {response_out}; {}; {request_in}; {}"), "5", 30),
        ):
            browser.show(here + path, wide, 6000)
            seen = browser.value(MARKS)
            count.expect(f"marks {about}, {rows} rows, at {wide}", (len(seen) % wanted, all(seen) and seen != []), (0, True))
            count.expect(f"no scrolling sideways {about} at {wide}", browser.value(OVERFLOW), 0)


def try_sizes(browser, here, count):
    """A picture is as wide as there is room for, but no wider than drawn and no narrower than half of that."""
    cases = set()
    for wide in WIDTHS:
        for formula in "p", PAIR[1], "X" * 14 + " p":
            browser.show(here + path_of(formula), wide, 3000)
            sizes = browser.value(SIZES)
            count.expect(f"a picture of {formula} at {wide}", len(sizes), 1)
            for drawn, width, limit in sizes:
                count.expect(f"its width at {wide}", abs(width - max(drawn / 2, min(drawn, limit))) < 1.5)
                cases.add("drawn" if drawn <= limit else "half" if limit <= drawn / 2 else "limit")
            count.expect(f"no scrolling sideways beside {formula} at {wide}", browser.value(OVERFLOW), 0)
    count.expect("all three cases", cases, {"drawn", "half", "limit"})
    browser.show(here + "/picture" + path_of("X" * 14 + " p")[1:], 400, 3000)
    drawn, width, _ = browser.value(SIZES)[0]
    count.expect("full size", abs(width - drawn) < 1.5)


def try_colours(browser, here, count):
    """Red is for errors, and there is a dark page."""
    colour = "getComputedStyle(document.querySelector('{}')).color"
    for dark in False, True:
        browser.show(here + path_of("<>p", "[]p"), dark=dark)
        said, ink = browser.value(colour.format(".said")), browser.value(colour.format("body"))
        browser.show(here + path_of("p &&"), dark=dark)
        count.expect(f"a one-sided implication, dark {dark}", (said == ink, browser.value(colour.format(".no")) == ink), (True, False))
        paper = [int(it) for it in browser.value("getComputedStyle(document.body).backgroundColor.match(/[0-9]+/g)")]
        count.expect(f"the paper, dark {dark}", sum(paper[:3]) < 384, dark)


def try_looks(page, count, has_drawer):
    if not installed():
        print("skipped: the looks of the page, for want of chromium")
        return
    here, told = f"http://127.0.0.1:{page.port}", "nothing"
    try:
        with Browser() as browser:
            try_colours(browser, here, count)
            if has_drawer and shutil.which("dot"):
                try_marks(browser, here, count)
                try_sizes(browser, here, count)
            else:
                print("skipped: the looks of timelines and pictures, for want of ltldraw or of Graphviz' dot")
    except (OSError, ValueError, StopIteration) as error:
        told = f"{type(error).__name__}: {error}"
    count.expect("what went wrong with the browser", told, "nothing")
