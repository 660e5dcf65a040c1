#!/usr/bin/env python3
"""look.py HTML [--shots FOLDER [PAGE..]]: opens each page of the site in headless Chromium, 1280 and 390 pixels wide.

A page fails if it is empty, if a block of code has no button to copy it, if it is wider than the window, if a block of
code or a signature is cut off where nothing scrolls, or if the search does not find on its first screen what SOUGHT says.
With --shots, pictures of the pages (light, dark) go to FOLDER.
"""
import base64
import json
import os
import pathlib
import select
import subprocess
import sys
import time

WIDTHS = (1280, 390)
SCREEN = 14  # results of the search that are seen without scrolling
# What people look for, and parts of links that have to be among the first results.
SOUGHT = {"autocomplete": ["docs/guides/trie"], "bitm_index_rank": ["c.bitm_index_rank", "docs/guides/"],
          "rank": ["docs/guides/rank-and-select", "Index.rank", "c.bitm_index_rank"], "select": ["docs/guides/rank-and-select"],
          "mmap": ["docs/guides/store-and-map"], "grep": ["docs/guides/text-index"]}
LOOK = """(() => {
  const width = WIDTH, cut = [];
  for (const it of document.querySelectorAll('article *')) {
    const box = it.getBoundingClientRect();
    if (!box.width || box.right <= width + 1) continue;
    let up = it, scrolls = false;
    while (up.tagName != 'ARTICLE') { const x = getComputedStyle(up).overflowX; if (x == 'auto' || x == 'scroll') scrolls = true; up = up.parentElement; }
    if (!scrolls) cut.push(it.tagName + '.' + it.className + ' ' + it.textContent.slice(0, 60));
  }
  let scroll = 0; for (const it of document.querySelectorAll('article pre, article .table-wrapper')) scroll += it.scrollWidth > it.clientWidth + 1;
  const code = [...document.querySelectorAll('article :is(.highlight-c, .highlight-cpp, .highlight-python, .doctest) pre')];
  const bare = code.filter(it => !it.nextElementSibling?.matches('.copybtn')).length;
  return {bare, wide: document.documentElement.scrollWidth - width, text: document.body.innerText.length, cut: cut.slice(0, 3), cuts: cut.length, scroll};
})()"""


class Chromium:
    """Chromium by its pipe: no port, no library."""

    def __init__(self):
        to, self.write = os.pipe()
        self.read, back = os.pipe()

        def ends():
            os.dup2(to, 13), os.dup2(back, 14)
            os.dup2(13, 3), os.dup2(14, 4)

        self.process = subprocess.Popen(
            ["chromium", "--headless=new", "--no-sandbox", "--disable-gpu", "--hide-scrollbars", "--remote-debugging-pipe"],
            preexec_fn=ends, close_fds=False, stderr=subprocess.DEVNULL)
        self.number, self.rest, self.session = 0, b"", None
        target = self("Target.createTarget", url="about:blank")["targetId"]
        self.session = self("Target.attachToTarget", targetId=target, flatten=True)["sessionId"]
        self("Page.enable")

    def message(self):
        while b"\0" not in self.rest:
            if not select.select([self.read], [], [], 60)[0]:
                raise RuntimeError("Chromium has not answered for a minute")
            self.rest += os.read(self.read, 1 << 20)
        one, self.rest = self.rest.split(b"\0", 1)
        return json.loads(one)

    def __call__(self, method, **params):
        self.number += 1
        ask = {"id": self.number, "method": method, "params": params}
        if self.session:
            ask["sessionId"] = self.session
        os.write(self.write, json.dumps(ask).encode() + b"\0")
        while True:
            got = self.message()
            if got.get("id") == self.number:
                if "error" in got:
                    raise RuntimeError(f"{method}: {got['error']}")
                return got["result"]

    def open(self, url, width, height=900, scheme="light"):
        self("Emulation.setDeviceMetricsOverride", width=width, height=height, deviceScaleFactor=1, mobile=width < 800)
        self("Emulation.setEmulatedMedia", features=[{"name": "prefers-color-scheme", "value": scheme}])
        self("Page.navigate", url=url)
        for _ in range(3000):
            time.sleep(0.01)
            if self.value("document.readyState + ' ' + location.href") == "complete " + url:
                return
        raise RuntimeError(f"{url} did not open")

    def value(self, code):
        return self("Runtime.evaluate", expression=code, returnByValue=True)["result"].get("value")

    def shot(self, path):
        path.write_bytes(base64.b64decode(self("Page.captureScreenshot", format="png")["data"]))

    def __enter__(self):
        return self

    def __exit__(self, *_):
        self.process.kill()
        self.process.wait(timeout=20)


def take_pictures(browser, top, folder, names):
    folder.mkdir(parents=True, exist_ok=True)
    for name in names:
        page, _, place = name.partition("#")
        for width in WIDTHS:
            for scheme in ("light", "dark"):
                browser.open(f"file://{top}/{page}" + (f"#{place}" if place else ""), width, 900 if width > 800 else 844, scheme)
                time.sleep(1)
                browser.shot(folder / f"{page.replace('/', '-')[:-5]}{'-' + place if place else ''}-{width}-{scheme}.png")


def look(browser, top):
    """How many looks failed, and how many there were."""
    pages, failed = sorted(it for it in top.rglob("*.html") if {"rustdoc", "source"}.isdisjoint(it.relative_to(top).parts)), 0
    for width in WIDTHS:
        for page in pages:
            browser.open(f"file://{page}", width)
            seen = browser.value(LOOK.replace("WIDTH", str(width)))
            if seen["wide"] > 0 or seen["text"] < 200 or seen["cuts"] or seen["bare"]:
                failed += 1
                print(f"{page.relative_to(top)} at {width} pixels: {seen}")
    failed += sum(not found(browser, top, query, parts) for query, parts in SOUGHT.items())
    return failed, len(WIDTHS) * len(pages) + len(SOUGHT)


def found(browser, top, query, parts):
    """Whether the first results of a search have a link with each part."""
    browser.open(f"file://{top}/search.html?q={query}", WIDTHS[0])
    for _ in range(300):
        time.sleep(0.1)
        if browser.value("document.querySelector('#search-results p')?.innerText"):
            break
    links = browser.value(f"[...document.querySelectorAll('#search-results li a')].slice(0, {SCREEN}).map(it => it.href)") or []
    lacks = [part for part in parts if not any(part in it for it in links)]
    if lacks:
        print(f"the search for `{query}` has no {lacks} among {links}")
    return not lacks


def main():
    top = pathlib.Path(sys.argv[1]).resolve()
    with Chromium() as browser:
        if "--shots" in sys.argv:
            return take_pictures(browser, top, pathlib.Path(sys.argv[3]), sys.argv[4:])
        failed, looks = look(browser, top)
    print(f"{looks - failed} passed, {failed} failed")
    return int(failed > 0)


if __name__ == "__main__":
    sys.exit(main())
