#!/usr/bin/env python3
"""Test the contrast of the page of `seedpaint paint`: window, gamma, colour tables, and a mask with a hot pixel.

    python3 tools/paint_test_contrast.py crates/seedpaint/out/seedpaint paint

`paint_test.py` runs these checks, too.
"""

from paint_testing import check, check_shown, first_window, percentiles, run_alone, shades_through


def contrast(sitting):
    """Window, gamma and colours change what is shown, and nothing else. A reload keeps them, and so does a restart."""
    page, mask = sitting.first, sitting.mask("cells")
    page.drag((83, 66), (101, 77))
    page.drag((206, 188))
    page.settle(2)
    strokes, image = sorted(page.strokes()), sitting.program.get("image")
    check(page.tab.text("shown") == "" and page.mask_shades() == mask.samples, "8 bits are shown at first as they are")
    window_by_keys(page, mask)
    window_by_pointer(page, mask)
    gamma_and_colours(page, mask)
    look = page.tab.run("JSON.stringify(contrast.look)")
    page.reload()
    check(page.tab.run("JSON.stringify(contrast.look)") == look, "a reload keeps the contrast")
    sitting.open_anew("cells", sitting.program.state.name)
    check(page.tab.run("JSON.stringify(contrast.look)") == look, "so does a restart")
    page.settle(len(strokes))
    check(sorted(page.strokes()) == strokes and sitting.program.get("image") == image, "strokes and result stay")
    page.tab.click_element("contrastShown")
    page.tab.click_element("resetLook")
    page.tab.click_element("contrastShown")
    check(page.tab.text("shown") == "" and page.tab.run("local.names().every(name => !name.startsWith('contrast'))"),
          "and Reset keeps nothing")
    sitting.shown("after Reset")
    sitting.look("contrast")


def window_by_keys(page, mask):
    """C leads the keys to the handles, Tab from one to the next, and Escape closes the panel."""
    page.tab.key("c")
    check(page.tab.run("!element('contrast').hidden && document.activeElement.id") == "low", "C opens the panel")
    for _ in range(30):
        page.tab.key("ArrowRight")
    page.tab.key("Tab")
    for _ in range(40):
        page.tab.key("ArrowLeft")
    check(page.window() == [30, 215] and page.tab.run("view.name") == "kept", "arrows move its handles, Tab goes on")
    page.tab.key("Escape")
    check(page.tab.run("element('contrast').hidden"), "Escape closes it")
    check(page.mask_shades() == shades_through([30, 215], mask.samples), "the canvas shows the mask through the window")
    check(page.tab.text("shown") == "shown 30 to 215", "and the foot says so")


def window_by_pointer(page, mask):
    """Handles, percentiles, and a drag with the right button."""
    page.tab.click_element("contrastShown")
    page.slide("high", 215, 180, 120)
    low, high = page.window()
    check(low == 30 and abs(high - 120) <= 1, "a handle is dragged over the histogram")
    page.slide("low", 30, 100, 160)
    low, high = page.window()
    check(abs(low - 160) <= 1 and high == low + 1, "one that meets the other pushes it along")
    page.tab.click_element("byPercentiles")
    check(page.window() == percentiles(mask), "a button takes the window by percentiles")
    page.tab.click_element("cut")
    page.tab.run("element('cut').select()")
    page.tab.type("5")
    page.tab.key("Tab")
    check(page.window() == percentiles(mask, 5), "and by others that are typed")
    page.tab.key("Escape")
    low, high = page.window()
    page.drag((100, 100), (100, 92), (100, 88), button="right")
    check(page.window()[0] <= low and page.window()[1] < high, "a drag upwards with the right button lowers the window")
    narrow = page.window()[1] - page.window()[0]
    page.drag((100, 100), (120, 100), (130, 100), button="right")
    check(page.window()[1] - page.window()[0] > narrow, "one to the right makes it wider")
    check(page.tab.run("outbox.length") == 0, "and neither paints")
    check(page.mask_shades() == shades_through(page.window(), mask.samples), "the canvas shows that window")


def gamma_and_colours(page, mask):
    """A gamma below 1, and the result in blue over the mask, while it stays grey where it is shown alone."""
    page.tab.click_element("contrastShown")
    page.slide("gamma", 0, -.5, -1)
    gamma = page.tab.run("contrast.look.gamma")
    expected = shades_through(page.window(), mask.samples, gamma)
    check(gamma < .7 and all(abs(seen - shade) <= 1 for seen, shade in zip(page.mask_shades(), expected)),
          "a gamma below 1 makes what is dark brighter")
    page.tab.key("h")
    amber = page.colour_at(206, 188)
    page.tab.click_element("iceTable")
    ice = page.colour_at(206, 188)
    check(amber[0] > amber[2] and ice[2] > amber[2] + 20, "what is kept is amber, and blue once that table is taken")
    page.show("result")
    check(len(set(page.colour_at(206, 188)[:3])) == 1, "the result alone stays grey")
    page.show("mask")
    check(page.tab.run("element('iceTable').disabled"), "the mask alone has no table")
    page.show("kept")
    page.tab.key("h")
    page.tab.click_element("contrastShown")


def hot_pixel(sitting):
    """One hot pixel in a mask of 16 bits does not darken the others."""
    page, program = sitting.first, sitting.program
    sitting.open_anew("hot", "hot.spd")
    deep, hot = sitting.mask("deep"), sitting.mask("hot")
    check(page.window() == first_window(hot), "a mask of 16 bits is shown through a window by percentiles")
    check(page.window()[1] <= max(deep.samples), "which leaves the hot pixel out")
    shades = page.mask_shades()
    check(shades == shades_through(first_window(hot), hot.samples), "the canvas shows the mask through that window")
    without = shades_through(first_window(deep), deep.samples)
    check(shades[1:] == without[1:], "and the others as without the hot pixel")
    page.drag((83, 66), (101, 77))
    page.settle(1)
    check_shown(page, program, sitting.masks["hot"], sitting.words.view, "16 bits with a hot pixel")


CHECKS = [contrast, hot_pixel]

if __name__ == "__main__":
    run_alone(__doc__, CHECKS)
