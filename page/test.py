#!/usr/bin/env python3
"""Opens the page in headless Chromium, and drops streams on it, by the browser's own protocol.

    page/build.sh PAGE.html && page/test.py PAGE.html [STREAM..]

The page's report has to be that of hevc_trace; a refused stream, a file that is no stream and a stream of 100 MB are dropped too.
SCREENS=FOLDER keeps a picture of each view, light and dark, at 1280 and 2560 pixels. HEVC_TRACE names the program where it isn't built
here. Needs `chromium` (a package of Debian), and nothing else; where it isn't installed that is said.
"""
import base64
import json
import os
import pathlib
import shutil
import subprocess
import sys
import tempfile
import time

TOP = pathlib.Path(__file__).resolve().parent.parent
TRACE = os.environ.get("HEVC_TRACE", str(TOP / "crates" / "hevc_trace" / "out" / "hevc_trace"))
QUICK_START = TOP / "crates" / "hevc_bench" / "stdin"


class Browser:
    """Chromium with one page, over two pipes: messages are JSON, each ended by a zero byte."""

    def __init__(self, profile):
        to_read, self.to = os.pipe()
        self.back, to_write = os.pipe()
        os.set_inheritable(to_read, True)
        os.set_inheritable(to_write, True)

        def moved():
            read, write = os.dup(to_read), os.dup(to_write)
            os.dup2(read, 3)
            os.dup2(write, 4)

        words = ["chromium", "--headless=new", "--no-sandbox", "--disable-gpu", "--remote-debugging-pipe", f"--user-data-dir={profile}",
                 "--hide-scrollbars", "about:blank"]
        self.process = subprocess.Popen(words, preexec_fn=moved, close_fds=False, stdout=subprocess.DEVNULL, stderr=subprocess.DEVNULL)
        os.close(to_read)
        os.close(to_write)
        self.number, self.rest, self.session = 0, b"", None
        target = self.call("Target.createTarget", url="about:blank")["targetId"]
        self.session = self.call("Target.attachToTarget", targetId=target, flatten=True)["sessionId"]

    def call(self, method, **words):
        """A command, and its result."""
        self.number += 1
        said = {"id": self.number, "method": method, "params": words} | ({"sessionId": self.session} if self.session else {})
        os.write(self.to, json.dumps(said).encode() + b"\0")
        while True:
            while b"\0" not in self.rest:
                more = os.read(self.back, 1 << 20)
                if not more:
                    raise EOFError("the browser has ended")
                self.rest += more
            one, self.rest = self.rest.split(b"\0", 1)
            answer = json.loads(one)
            if answer.get("id") == self.number:
                if "error" in answer:
                    raise RuntimeError(f"{method}: {answer['error']['message']}")
                return answer["result"]

    def value(self, code):
        """What a piece of code comes to, in the page."""
        answer = self.call("Runtime.evaluate", expression=code, awaitPromise=True, returnByValue=True)
        if "exceptionDetails" in answer:
            raise RuntimeError(answer["exceptionDetails"]["exception"].get("description", answer["exceptionDetails"]["text"]))
        return answer["result"].get("value")

    def until(self, code, seconds=120):
        """Waits until a piece of code is so."""
        end = time.time() + seconds
        while not self.value(code):
            if time.time() > end:
                raise TimeoutError(code)
            time.sleep(0.05)

    def drop(self, path):
        """Drops a file on the page, and waits until it is shown, or a message is."""
        self.value("look.file = null; $('message').textContent = ''; 1")
        for kind in ("dragEnter", "dragOver", "drop"):
            self.call("Input.dispatchDragEvent", type=kind, x=400, y=300, data={"items": [], "files": [str(path)], "dragOperationsMask": 1})
        self.until(f"$('message').textContent !== '' || (look.file && $('summary').firstChild.textContent === {json.dumps(path.name)})")

    def screen(self, folder, name, width, scheme):
        """A picture of the page."""
        self.call("Emulation.setDeviceMetricsOverride", width=width, height=width * 5 // 8, deviceScaleFactor=1, mobile=False)
        self.call("Emulation.setEmulatedMedia", features=[{"name": "prefers-color-scheme", "value": scheme}])
        self.value("new Promise(done => requestAnimationFrame(() => { draw(); requestAnimationFrame(() => done(1)); }))")
        shot = self.call("Page.captureScreenshot", format="png")["data"]
        (folder / f"{name}-{width}-{scheme}.png").write_bytes(base64.b64decode(shot))

    def close(self):
        self.process.kill()
        self.process.wait()


def refused_streams(work):
    """Three streams that are refused: cut within a slice header, a level that there isn't, a unit of an unspecified type in the middle."""
    whole = QUICK_START.read_bytes()
    starts = [i for i in range(len(whole) - 3) if whole[i : i + 3] == b"\0\0\1"]
    slices = [i for i in starts if whole[i + 3] >> 1 & 63 < 22]
    cut = whole[: slices[3] + 6]
    changed = bytearray(whole)
    changed[next(i for i in starts if whole[i + 3] >> 1 & 63 == 33) + 20] = 61
    strange = whole[: slices[5]] + b"\0\0\1\x7c\1\2\3" + whole[slices[5] :]
    for name, data in (("cut", cut), ("changed", bytes(changed)), ("strange", strange)):
        path = work / f"{name}.h265"
        path.write_bytes(data)
        yield path


def compared(browser, path):
    """Drops a stream, and says whether the page's report is that of hevc_trace."""
    with open(path, "rb") as stream:
        wanted = subprocess.run([TRACE, "base"], stdin=stream, capture_output=True, text=True).stdout
    browser.drop(path)
    given = browser.value("report(look.found)")
    if given != wanted:
        lines = zip(given.splitlines() + [""], wanted.splitlines() + [""])
        other = next((pair for pair in lines if pair[0] != pair[1]), ("", ""))
        print(f"{path.name}: another report: {other[0]!r} where hevc_trace has {other[1]!r}")
        return False
    print(f"{path.name}: the same, {wanted.splitlines()[-1]}")
    return True


def run(page, streams, work):
    browser = Browser(work / "profile")
    screens = pathlib.Path(os.environ["SCREENS"]) if "SCREENS" in os.environ else None
    good = True
    try:
        browser.call("Page.navigate", url=page.resolve().as_uri())
        browser.until("typeof begun !== 'undefined'")
        browser.value("begun")
        for path in streams + list(refused_streams(work)):
            good &= compared(browser, path)
            if screens:
                for width, scheme in ((1280, "light"), (2560, "dark")):
                    browser.screen(screens, path.stem, width, scheme)
        words = work / "words.txt"
        words.write_text("These are words.\n" * 100)
        browser.drop(words)
        empty = browser.value("look.found.pictures.length === 0 && look.found.unitTable.length === 0")
        print("a file that is no stream: " + ("nothing is found in it" if empty else "something is found in it"))
        large = work / "large.h265"
        large.write_bytes(QUICK_START.read_bytes() * (100_000_000 // QUICK_START.stat().st_size + 1))
        good &= bool(empty) & compared(browser, large)
        times = browser.value("look.found.times")
        size = large.stat().st_size / 1000
        print(f"100 MB: {size / times['decode']:.0f} MB/s of decoding, {size / times['read']:.0f} MB/s of reading")
        browser.value("new Promise(done => requestAnimationFrame(() => done(1)))")
        drawn = browser.value("(() => { const t = performance.now(); look.timeline.fit(); for (let i = 0; i < 10; i++) draw(); return (performance.now() - t) / 10; })()")
        print(f"drawing {browser.value('look.found.pictures.length')} pictures: {drawn:.1f} ms")
    finally:
        browser.close()
    return good


def main():
    if not shutil.which("chromium"):
        print("chromium isn't installed: the page isn't tested")
        return 0
    if not pathlib.Path(TRACE).exists():
        print(f"{TRACE} isn't there: nothing to compare with")
        return 1
    with tempfile.TemporaryDirectory() as work:
        streams = [pathlib.Path(name).resolve() for name in sys.argv[2:]] or [QUICK_START]
        return 0 if run(pathlib.Path(sys.argv[1]), streams, pathlib.Path(work)) else 1


if __name__ == "__main__":
    sys.exit(main())
