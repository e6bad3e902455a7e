"""By keys alone, for a screen reader, in both themes, and at 1280 by 720."""
from __future__ import annotations

from selenium.webdriver.common.keys import Keys

from page.support import SITE, InBrowser

# WCAG 2, level AA, for text of this size.
LEAST_CONTRAST = 4.5
# The contrast of each text in sight with what lies under it, those that are too low (WCAG 2, relative luminance).
CONTRAST = """
const number = (it) => it.match(/[\\d.]+/g).map(Number);
const parse = (it) => {
  const [r, g, b, a = 1] = number(it);
  return it.startsWith("color(") ? [r * 255, g * 255, b * 255, a] : [r, g, b, a];
};
const over = ([r, g, b, a], under) => [r, g, b].map((it, at) => it * a + under[at] * (1 - a));
const linear = (it) => (it <= 0.04045 ? it / 12.92 : ((it + 0.055) / 1.055) ** 2.4);
const light = ([r, g, b]) => 0.2126 * linear(r / 255) + 0.7152 * linear(g / 255) + 0.0722 * linear(b / 255);
const ratio = (one, other) => {
  const [low, high] = [light(one), light(other)].sort((a, b) => a - b);
  return (high + 0.05) / (low + 0.05);
};
const grounds = (it) => {
  if (!it) return [[255, 255, 255]];
  const style = getComputedStyle(it);
  const images = style.backgroundImage.match(/(rgba?|color)\\([^)]*\\)/g) ?? [];
  const own = [style.backgroundColor, ...images].map(parse);
  const solid = own.filter((color) => color[3] === 1);
  if (own[0][3] === 1 && solid.length === own.length) return solid;
  return grounds(it.parentElement).flatMap((under) => own.map((color) => over(color, under)));
};
const found = [];
let count = 0;
const walker = document.createTreeWalker(document.body, NodeFilter.SHOW_TEXT);
for (let text = walker.nextNode(); text; text = walker.nextNode()) {
  const it = text.parentElement;
  if (!text.data.trim() || !it.checkVisibility({ visibilityProperty: true, opacityProperty: true })) continue;
  const ink = getComputedStyle(it);
  let opacity = 1;
  for (let at = it; at; at = at.parentElement) opacity *= Number(getComputedStyle(at).opacity);
  count += 1;
  for (const ground of grounds(it)) {
    const color = parse(ink.color);
    const seen = over([...color.slice(0, 3), color[3] * opacity], ground);
    const is = ratio(seen, ground);
    if (is < arguments[0]) found.push([text.data.trim().slice(0, 30), it.className, is.toFixed(2)]);
  }
}
return [count, found];
"""
# Parts that lie over each other or reach out of what is shown.
LAYOUT = """
const parts = [...document.querySelectorAll("header, #time, #verdict, #source, #registers, #trace, #what-ifs, #tabs")];
const boxes = parts.map((it) => [it.id || it.tagName, it.getBoundingClientRect()]);
const problems = [];
const reachesOut = (it, box) =>
  it.left < box.left - 0.5 || it.top < box.top - 0.5 || it.right > box.right + 0.5 || it.bottom > box.bottom + 0.5;
const liesOver = (it, that) =>
  it.left < that.right - 0.5 && that.left < it.right - 0.5 && it.top < that.bottom - 0.5 && that.top < it.bottom - 0.5;
const shown = { left: 0, top: 0, right: innerWidth, bottom: innerHeight };
for (const [name, it] of boxes) {
  if (reachesOut(it, shown)) problems.push(`${name} reaches out`);
  if (it.width < 200 || it.height < 20) problems.push(`${name} is small`);
  for (const [other, that] of boxes) {
    if (name < other && liesOver(it, that)) problems.push(`${name} lies over ${other}`);
  }
}
const CONTROLS = ":is(header, .bar, h2, .tablist) button, header select, .bar input, #add input, #add select";
for (const it of [...document.querySelectorAll(CONTROLS)].filter((one) => one.checkVisibility())) {
  const panel = (it.closest(".panel") ?? it.closest("header")).getBoundingClientRect();
  const name = it.id || it.textContent;
  if (reachesOut(it.getBoundingClientRect(), panel)) problems.push(`${name} reaches out of its part`);
}
const root = document.documentElement;
if (root.scrollHeight > innerHeight || root.scrollWidth > innerWidth) problems.push("the page scrolls");
return problems;
"""
# What has the focus, whether it shows that by an outline, and whether it is the source with a marked line.
FOCUS = """
const it = document.activeElement;
const style = getComputedStyle(it);
const name = it.id || it.dataset.do || it.getAttribute("aria-label") || it.tagName;
const isOutlined = style.outlineStyle !== "none" && parseFloat(style.outlineWidth) >= 2;
const marked = document.querySelector(".line.marked") ?? it;
return [name, isOutlined, it.id === "lines" && getComputedStyle(marked).boxShadow.includes("2px")];
"""
# What a way by keys alone has to reach.
REACHED = (
    "examples open source save window-count theme keys first step fit all slider "
    "lines edit put-in align keep add-input add-irq tab-memory address words"
).split()


class Access(InBrowser):
    """What a user with no mouse, no sight or little room has."""

    def test_contrast_in_both_themes(self) -> None:
        page = self.page
        page.example("page-tables")
        page.keys("1")
        page.go(47)
        for theme in ("light", "dark"):
            self.assertEqual(page.run("return document.documentElement.dataset.theme"), theme)
            for tab in ("memory", "units", "console"):
                page.click(f"#tab-{tab}")
                self.contrast(theme)
            for key in ("b", "?", "r"):
                page.keys(key)
                self.contrast(theme)
                page.keys("Escape")
            page.edit(5, "        move 1")
            self.contrast(theme)
            page.keys("Escape", "2", "y")
            page.keys("1")

    def contrast(self, theme: str) -> None:
        """Every text in sight can be read."""
        count, found = self.page.run(CONTRAST, LEAST_CONTRAST)  # type: ignore[misc]
        self.assertGreater(count, 100)
        self.assertEqual(found, [], theme)

    def test_contrast_of_the_strip(self) -> None:
        for theme in ("light", "dark"):
            script = """
                const style = getComputedStyle(document.documentElement);
                const color = (name) => style.getPropertyValue(`--${name}`).trim();
                const inks = ["quiet", "ink", "now", "was", "bad"];
                const pairs = inks.flatMap((ink) => ["panel", "soft"].map((ground) => [ink, ground]));
                return pairs.map(([ink, ground]) => [ink, ground, color(ink), color(ground)]);"""
            for ink, ground, one, other in self.page.run(script):  # type: ignore[attr-defined]
                self.assertGreaterEqual(ratio(one, other), LEAST_CONTRAST, (theme, ink, ground))
            self.page.keys("y")

    def test_layout_at_1280_by_720(self) -> None:
        page = self.page
        for size in ((1280, 720), (1440, 900), (1920, 1080)):
            page.size(*size)
            for name in ("page-tables", "window-overflow", "console"):
                page.example(name)
                page.keys("1", "d", "ArrowRight")
                for _ in range(3):
                    page.keys("v")
                    self.assertEqual(page.run(LAYOUT), [], (size, name))
        heights = set()
        parts = "['#verdict', '#registers', '#trace'].map((it) => document.querySelector(it))"
        for step in (0, 12, 36, 40):
            page.go(step)
            heights.add(str(page.run(f"return {parts}.map((it) => it.getBoundingClientRect().top)")))
        self.assertEqual(len(heights), 1, "nothing moves from step to step")

    def test_narrow(self) -> None:
        self.page.size(900, 700)
        self.assertFalse(self.page.run("return document.documentElement.scrollWidth > innerWidth"))

    def test_names_for_a_screen_reader(self) -> None:
        page = self.page
        page.keys("2")
        page.go(7)
        roles = {
            "button",
            "checkbox",
            "combobox",
            "textbox",
            "slider",
            "tab",
            "listbox",
            "option",
            "grid",
            "link",
            "tabpanel",
            "image",
            "MenuListPopup",
        }
        for opens in ("", "v", "v", "b", "r", "?"):
            page.keys(*([opens] if opens else []))
            tree = page.driver.execute_cdp_cmd("Accessibility.getFullAXTree", {})["nodes"]
            shown = [it for it in tree if not it.get("ignored") and it.get("role", {}).get("value") in roles]
            self.assertGreater(len(shown), 0)
            unnamed = [it["role"]["value"] for it in shown if not it.get("name", {}).get("value", "").strip()]
            self.assertEqual([it for it in unnamed if it != "MenuListPopup"], [], opens)
            if opens in ("b", "r", "?"):
                page.keys("Escape")
        self.assertEqual(page.find("html").get_attribute("lang"), "en")
        self.assertEqual(page.find("#first").get_attribute("aria-live"), "polite")
        self.assertEqual(page.find("#status").get_attribute("role"), "status")
        active = page.find("#lines").get_attribute("aria-activedescendant")
        self.assertIn("line 1, set", page.find(f"#{active}").get_attribute("aria-label"))

    def test_a_way_by_keys_alone(self) -> None:
        page, driver = self.page, self.page.driver
        self.assertEqual(driver.switch_to.active_element.get_attribute("id"), "lines")
        page.keys("b", "Tab")
        self.assertEqual(driver.switch_to.active_element.get_attribute("data-example"), "page-tables")
        page.keys("Enter")
        self.assertEqual(page.text("#name"), "Page tables")
        page.keys("t", "ArrowRight", "1", "d", "k", "x", "?", "Escape")
        self.assertEqual(page.step(), 44)
        seen, unseen = set(), []
        for _ in range(90):
            driver.switch_to.active_element.send_keys(Keys.TAB)
            it = page.run(FOCUS)
            seen.add(it[0])  # type: ignore[index]
            if not (it[1] or it[2]) and it[0] != "BODY":  # type: ignore[index]
                unseen.append(it[0])  # type: ignore[index]
        self.assertEqual(unseen, [], "the focus is seen everywhere")
        for due in REACHED:
            self.assertIn(due, seen | ({"keep"} if page.find("[data-do=keep]").get_property("disabled") else set()))
        page.run("document.getElementById('tab-memory').focus()")
        page.keys("ArrowRight")
        self.assertTrue(page.find("#units").is_displayed())

    def test_every_key_of_the_help_does_something(self) -> None:
        found = self.page.asked(
            'const { GROUPS } = await import("/keys.js"); const { ACTIONS } = await import("/actions.js");'
            "const names = GROUPS.flatMap(([, rows]) => rows.flatMap(([, its]) => its));"
            "return names.filter((it) => !(it in ACTIONS));"
        )
        self.assertEqual(found, [])
        buttons = self.page.asked(
            'const { ACTIONS } = await import("/actions.js");'
            'const names = [...document.querySelectorAll("[data-do]")].map((it) => it.dataset.do);'
            "return names.filter((it) => !(it in ACTIONS));"
        )
        self.assertEqual(buttons, [])
        self.page.keys("?")
        self.assertIn("the next trap or interrupt", self.page.text("#help"))

    def test_the_files_of_the_page_are_short_and_plain(self) -> None:
        for file in SITE.glob("*.js"):
            lines = file.read_text(encoding="utf-8").split("\n")
            self.assertLess(len(lines), 400, file.name)
            self.assertNotIn("innerHTML", "\n".join(lines), file.name)
            self.assertNotIn("http", "\n".join(lines).replace("http-equiv", ""), file.name)


def ratio(one: str, other: str) -> float:
    """The contrast of two colours as #RRGGBB (WCAG 2)."""

    def light(color: str) -> float:
        parts = [int(color[at : at + 2], 16) / 255 for at in (1, 3, 5)]
        linear = [it / 12.92 if it <= 0.04045 else ((it + 0.055) / 1.055) ** 2.4 for it in parts]
        return sum(it * by for it, by in zip(linear, (0.2126, 0.7152, 0.0722)))

    low, high = sorted([light(one), light(other)])
    return (high + 0.05) / (low + 0.05)
