#!/usr/bin/env python3
"""Test what the page of `seedpaint paint` keeps: over reloads, restarts, failed saves, full storages and slow links.

    python3 tools/paint_test_kept.py crates/seedpaint/out/seedpaint paint

`paint_test.py` runs these checks, too.
"""

import shutil
import time

from browser import CONTROL, Browser, Fault, wait_for
from paint_testing import Page, author_of, check, readers, run_alone

NO_STORAGE = """for (const name of ["localStorage", "sessionStorage"]) {
    Object.defineProperty(window, name, { get() { throw new DOMException("denied", "SecurityError"); } }); }"""
FILL_STORAGE = """(() => { for (let k = 0, text = "x".repeat(1 << 22); text; k++) {
    try { localStorage.setItem(`filler ${k}`, text); } catch (_) { text = text.slice(0, text.length >> 1); } } })()"""
EMPTY_STORAGE = """Object.keys(localStorage).filter(name => name.startsWith("filler"))
    .forEach(name => localStorage.removeItem(name))"""
TEN_TIMES_THE_HASTE = """{ const wait = setTimeout, limit = AbortSignal.timeout.bind(AbortSignal);
    const hasty = milliseconds => milliseconds < 30000 ? milliseconds : milliseconds / 10;
    window.setTimeout = (act, milliseconds) => wait(act, hasty(milliseconds));
    AbortSignal.timeout = milliseconds => limit(hasty(milliseconds)); }"""
NO_MEMORY = """{ const bytes = Uint8Array; window.Uint8Array = class extends bytes {
    constructor(...words) {
        if (words[0] > 60000) throw new RangeError("Array buffer allocation failed");
        super(...words);
    } }; }"""
SLOW_LINK = 40_000  # bytes a second


def six_strokes(sitting):
    """The strokes of which the checks below go out, in this order."""
    for count, pixel in enumerate([(84, 68), (40, 30), (206, 188), (285, 142), (120, 140), (52, 162)], 1):
        sitting.first.drag(pixel)
        sitting.first.settle(count)
    sitting.both(6)


def no_storage(sitting):
    """A browser that refuses storage: the page says so, and goes on."""
    count = len(sitting.first.strokes())
    with Browser() as browser:
        page = Page(browser.open(sitting.program.address, NO_STORAGE))
        check("nothing outlives a reload" in page.tab.text("storage"), "without storage the page says what is lost")
        page.drag((240, 70))
        page.settle(count + 1)
        page.tab.key("z", CONTROL)
        page.settle(count)
        check(page.tab.text("kept") == "all kept" and page.tab.faults() == [], "and it paints all the same")
    sitting.both(count)


def no_memory(sitting):
    """A browser without memory for the picture: the page says so in words, and nothing is lost."""
    strokes = sitting.program.get("strokes")
    with Browser() as browser:
        tab = browser.open(sitting.program.address, NO_MEMORY)
        tab.wait("!element('banner').hidden")
        check("no memory for a picture of this size" in tab.text("banner") and tab.faults() == [],
              "where memory is wanting the page says so")
    check(sitting.program.get("strokes") == strokes, "and nothing is lost")


def full_storage(sitting):
    """A storage that is full: an edit that waits is told, and sent all the same."""
    page, count = sitting.first, len(sitting.first.strokes())
    page.tab.run(FILL_STORAGE)
    with sitting.program.paused():
        page.drag((240, 70))
        page.tab.wait("element('storage').textContent.includes('nothing outlives a reload')")
        page.tab.wait("element('kept').textContent === '1 not kept yet'")
        check(True, "where storage is full the page says what is lost")
    page.settle(count + 1)
    check(page.tab.text("storage") == "", "and no more once all is kept")
    page.tab.run(EMPTY_STORAGE)
    page.tab.key("z", CONTROL)
    sitting.both(count)


def reload_page(sitting):
    """A reload loses nothing, and undo goes on."""
    page, before = sitting.first, sorted(sitting.first.strokes())
    page.drag((285, 200), (292, 204))
    page.settle(7)
    page.reload()
    page.settle(7)
    check(True, "a reload loses nothing")
    page.tab.key("z", CONTROL)
    page.settle(6)
    check(sorted(page.strokes()) == before, "undo goes on behind it")


def own_host(sitting):
    """The page at `localhost` goes to 127.0.0.1, and stores nothing before."""
    page, address = sitting.first, sitting.program.address
    elsewhere, author = address.replace("127.0.0.1", "localhost"), page.author()
    page.tab.run("document.title = ''")
    page.tab.go(elsewhere)
    page.await_open()
    check(page.tab.run("location.href") == address, "the page at localhost goes to 127.0.0.1")
    check(page.tab.call("Network.getCookies", urls=[elsewhere])["cookies"] == [], "and leaves nothing at localhost")
    check(page.author() == author, "so the author is the same")


def restart(sitting):
    """What is painted while the program is away is sent once it is there again, at the same port."""
    page, program = sitting.first, sitting.program
    address = program.address
    program.stop()
    page.drag((60, 200), (66, 203))
    page.tab.wait("silence.failures > 0")
    check(page.tab.text("kept") == "1 not kept yet", "an unanswered edit is told")
    page.tab.wait("!element('banner').hidden")
    check("does not answer" in page.tab.text("banner"), "a program that is away is told")
    program.start(sitting.masks["cells"])
    if program.address != address:
        page.tab.wait("element('banner').textContent.includes('another address')")
        check(True, "a restart under another address is told")
        check_wrong_addresses(page, program)
        sitting.go_on()
    sitting.both(7)
    check(page.tab.text("kept") == "all kept", "a restart loses nothing, and the edit is sent again")
    sitting.shown("after a restart")


def check_wrong_addresses(page, program):
    """No other address is gone to than one that the program may have printed."""
    right = program.address
    for wrong in (right[:-1], right + "#", right.replace("http", "https"), right.replace("127.0.0.1", "localhost"),
                  right.replace("127.0.0.1", "127.0.0.1.example")):
        page.tab.run(f"element('newAddress').value = '{wrong}'")
        page.tab.click_element("goThere")
        if "no address" not in page.tab.text("moveFault"):
            raise Fault(f"{wrong} is taken for an address of the program")
    check(True, "other addresses are refused")


def restart_elsewhere(sitting):
    """A restart at another port: what waits comes along, and the author is the same."""
    page, program, author = sitting.first, sitting.program, sitting.first.author()
    program.stop()
    page.drag((285, 100), (288, 104))
    page.tab.wait("!element('banner').hidden")
    program.start_elsewhere(sitting.masks["cells"])
    page.move_to(program.address)
    page.settle(8)
    check(page.tab.text("kept") == "all kept", "at another port the edit comes along")
    check(page.tab.run("location.href") == program.address, "and the address has nothing of it any more")
    page.drag((285, 120))
    page.settle(9)
    line = next(line for line in page.strokes() if line.endswith(" 120:285+6"))
    check(author_of(line) == author, "and the author is the same")
    page.tab.key("z", CONTROL)
    sitting.second.go(program.address)
    sitting.both(8)


def along_to_another_mask(sitting):
    """What comes along to another mask is told, and not sent; it is saved, and dropped on its own mask's page."""
    page, program = sitting.first, sitting.program
    program.stop()
    page.drag((60, 230), (66, 231))
    page.tab.wait("!element('banner').hidden")
    before, program.state = program.state, sitting.folder / "along.spd"
    program.start_elsewhere(sitting.masks["grains"])
    page.move_to(program.address)
    check("for another picture" in page.tab.text("banner"), "what came along for another mask is told")
    page.settle(0)
    check(program.get("strokes") == b"", "and not sent")
    page.tab.download_to(sitting.folder / "downloads")
    page.tab.click_element("saveStray")
    saved = sitting.folder / "downloads" / "waiting.txt"
    wait_for(saved.is_file, "the download")
    check(page.tab.run("location.hash") == "", "once it is saved the address has nothing of it any more")
    page.tab.drop(*page.at(100, 100), saved)
    page.tab.wait("element('message').textContent.includes('another picture')")
    check(program.get("strokes") == b"", "the file is refused there")
    sitting.open_anew("cells", before.name)
    page.tab.drop(*page.at(100, 100), saved)
    sitting.both(9)
    check(True, "and is taken by a page for its mask")
    page.tab.key("z", CONTROL)


def restart_with_another_mask(sitting):
    """Another mask under the same port is told, and nothing is sent to it."""
    page, program = sitting.first, sitting.program
    address = program.address
    program.stop()
    page.drag((60, 220), (66, 221))
    program.state = sitting.folder / "other.spd"
    program.start(sitting.masks["grains"])
    told = "another mask" if program.address == address else "another address"
    page.tab.wait(f"element('banner').textContent.includes('{told}')")
    check(True, "a restart with another mask is told")
    page.go(program.address)
    page.settle(0)
    check(program.get("strokes") == b"", "no stroke for the one mask goes to the other")


def back_to_the_mask(sitting):
    """The edit that was not sent to the other mask waits for its own."""
    sitting.open_anew("cells", "strokes.spd")
    before = sitting.first.tab.run("sight.zoom")
    sitting.first.tab.wheel(*sitting.first.at(100, 100), -120)
    check(sitting.first.tab.run("sight.zoom") > before, "the wheel zooms before the pointer has moved, too")
    sitting.both(10)
    sitting.shown("an edit that waited for its mask")


def saves_that_fail(sitting):
    """While the state file cannot be written, edits wait and the page says why; then they are kept."""
    page, program, folder = sitting.first, sitting.program, sitting.folder / "gone"
    folder.mkdir()
    sitting.open_anew("cells", "gone/strokes.spd")
    page.drag((206, 188))
    sitting.both(1)
    shutil.rmtree(folder)
    page.drag((60, 200), (66, 203))
    page.drag((285, 100), (288, 104))
    page.tab.wait("element('kept').textContent.includes('(V2)')")
    check(page.tab.text("kept").startswith("2 not kept: the state file cannot be written"), "what is not kept is told")
    page.tab.wait("saves.failures >= 3 && silence.failures === 0")
    check(page.tab.text("kept").startswith("2 not kept:"), "it is sent again and again, and the page is answered")
    check(len(program.get("state")) > 0, "a copy can be saved")
    page.tab.download_to(sitting.folder / "unkept")
    page.tab.click_element("saveWaiting")
    saved = sitting.folder / "unkept" / "waiting.txt"
    wait_for(saved.is_file, "the download")
    check(len(readers.read_edits(saved.read_bytes())) == 2, "and what waits, too")
    folder.mkdir()
    sitting.both(3)
    check(page.tab.text("kept") == "all kept" and program.state.read_bytes() == program.get("state"),
          "once the file can be written all is kept")


def slow_link(sitting):
    """Over a slow link the page opens all the same, and says how far it is; a program that stands still is told."""
    sitting.open_anew("deep", "slow.spd")
    with Browser() as browser:
        tab = browser.open("about:blank", TEN_TIMES_THE_HASTE)
        tab.slow_down(SLOW_LINK)
        begun = time.monotonic()
        tab.go(sitting.program.address)
        tab.wait("element('message').textContent.startsWith('Loading: ')")
        page = Page(tab)
        check(time.monotonic() - begun > 5, "where an answer takes long and comes on, the page waits for it")
        with sitting.program.paused():
            tab.wait("silence.failures > 0")
        tab.wait("silence.failures === 0")
        check(page.tab.text("message") == "The program answers again.", "where nothing comes any more it is told")


CHECKS = [six_strokes, no_storage, no_memory, full_storage, reload_page, own_host, restart, restart_elsewhere,
          along_to_another_mask, restart_with_another_mask, back_to_the_mask, saves_that_fail, slow_link]

if __name__ == "__main__":
    run_alone(__doc__, CHECKS)
