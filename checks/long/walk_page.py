"""What is wrong with docs/walk.html in Chromium, which does in a frame what walk_deeds.js and walk_looks.js say. Its time
goes on as soon as the page only waits."""
import html
import json
import pathlib
import re
import subprocess

HERE = pathlib.Path(__file__).resolve().parent
DOCS = HERE.parent.parent / "docs"
SCRIPTS = "".join((HERE / name).read_text() for name in ("walk_deeds.js", "walk_looks.js"))
WORDS = ("--headless", "--no-sandbox", "--disable-gpu", "--hide-scrollbars", "--virtual-time-budget=36000000", "--dump-dom")
# The sizes of frames, of which one is a sheet of A4 between its margins, and what a finger wants, and a mouse has at least, in pixels.
PHONE, LAPTOP, WIDE, SHEET, FINGER, MOUSE = (390, 844), (1280, 800), (1280, 900), (718, 1046), 43.5, 24
DARK = "--blink-settings=preferredColorScheme=0"
# A page that has the other in a frame, and shows what that sends. And what comes first if there is no WebAssembly.
FRAME = """<!DOCTYPE html><iframe src="page.html" width="%d" height="%d"></iframe><pre>not told</pre><script>
addEventListener("message", it => { document.querySelector("pre").textContent = it.data; });</script>"""
NONE = "<script>WebAssembly.instantiate = () => Promise.reject(Error('none'));</script>"
# So long Chromium may take.
SECONDS = 600


def wrong_in(browser, folder, page, window, asked, *words):
    """What is wrong in a frame of this size, by functions that are asked one after another."""
    (folder / "page.html").write_text(f"{page}<script>{SCRIPTS}tell([{asked}]);</script>")
    (folder / "frame.html").write_text(FRAME % window)
    command = [browser, *WORDS, *words, f"--user-data-dir={folder / 'profile'}", (folder / "frame.html").as_uri()]
    done = subprocess.run(command, stdin=subprocess.DEVNULL, capture_output=True, text=True, timeout=SECONDS)
    shown = re.search("<pre>(.*?)</pre>", done.stdout, re.S)
    told = html.unescape(shown[1]) if shown else f"no page: {done.stderr[-300:]}"
    found = json.loads(told) if told.startswith("[") else [told]
    return [f"{' by '.join(map(str, window))} {' '.join(words)}: {what}" for what in found]


def dead_links(page):
    """The links that lead to no heading of the page, to no file beside it, and to no paper by its number."""
    for link in re.findall(r'<a [^>]*href="([^"]*)"', page):
        if not (f'id="{link[1:]}"' in page if link.startswith("#") else
                link.startswith("https://doi.org/") or (DOCS / link).is_file()):
            yield f"the link {link} leads nowhere"


def tried_on_page(browser, page, folder, schedule, answers):
    """What is wrong on the page."""
    by_hand = f"() => wrongByHand({json.dumps(schedule)}, {json.dumps(answers)})"
    ends = ", ".join(f"() => wrongEnds('{kind}', {width})" for kind, width in (("bitonic", 8), ("tree", 16)))
    trials = (
        (page, WIDE, f"...each(DEEDS), wrongStairs, ...each(LOADS), wrongLoads, wrongExtras, wrongHurry, {by_hand}, "
                     "wrongPile, wrongSaved"),
        (page, LAPTOP, "wrongFold, () => wrongScroll(false)"),
        (page, WIDE, f"() => wrongBegin({MOUSE}), () => wrongEnds('periodic', 32), () => wrongColours(false)"),
        (page, WIDE, "() => wrongColours(true)", DARK),
        (page, PHONE, f"() => wrongBegin({FINGER}), {ends}, () => wrongScroll(true), wrongPile"),
        # What is so on paper is so in this frame.
        (page.replace("@media print", "@media all"), SHEET, "() => wrongPrint(5), () => wrongPrint(6)"),
        (NONE + page, WIDE, "wrongWithout"),
    )
    wrong = list(dead_links(page))
    for trial in trials:
        wrong += wrong_in(browser, folder, *trial)
    return wrong
