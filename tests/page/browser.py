# SPDX-License-Identifier: MIT
"""python3 -m tests.page.browser: takes the pictures of the page for docs/, light and dark.

Chromium without a window opens build/try.html, or a copy with a script at its end that tests it.
"""
import html
import json
import re
import shutil
import subprocess
import sys
import tempfile
import urllib.parse
from pathlib import Path

from tools.commands import reader, status_of
from tools.rows import content, rows

TOP = Path(__file__).resolve().parents[2]
PAGE = TOP / "build" / "try.html"
SECONDS = 120
# What Chromium takes for the wish for dark colors, and for light ones.
THEMES = {"light": "1", "dark": "0"}
PICTURED = "stale-after-a-recent-failure"
TOLD = re.compile(r'<pre id="of-test">(.*?)</pre>', re.S)
SCRIPT = """<pre id="of-test"></pre><script>
const GIVEN = {given};
document.getElementById('of-test').textContent = JSON.stringify((() => {{ {code} }})());
</script></body>"""


def chromium():
    """The path of Chromium, or None."""
    return shutil.which("chromium")


def browse(folder, url, *words):
    """What Chromium prints. It keeps its own files in a folder."""
    flags = ["--headless=new", "--no-sandbox", "--disable-gpu", "--hide-scrollbars",
             f"--user-data-dir={folder}/chromium"]
    ran = subprocess.run([chromium(), *flags, *words, url], stdin=subprocess.DEVNULL,
                         capture_output=True, text=True, timeout=SECONDS)
    assert ran.returncode == 0, ran.stderr
    return ran.stdout


def evaluated(folder, code, given=None, fragment="", *flags):
    """What a function of this body answers in the page, to which GIVEN is what is given. The page
    may be opened by a link."""
    value = json.dumps(given).replace("<", "\\u003c")
    script = SCRIPT.format(given=value, code=code)
    copy = Path(folder, "page.html")
    copy.write_text(PAGE.read_text().replace("</body>", script))
    text = browse(folder, f"{copy.as_uri()}{fragment}", "--dump-dom", *flags)
    return json.loads(html.unescape(TOLD.search(text)[1]))


def picture(folder, path, theme, size="1000,1250"):
    """Takes a picture of the page with the example PICTURED."""
    fragment = urllib.parse.urlencode({"trace": content(rows()[PICTURED], "trace").decode()})
    browse(folder, f"{PAGE.as_uri()}#{fragment}", f"--screenshot={path}", f"--window-size={size}",
           f"--blink-settings=preferredColorScheme={THEMES[theme]}")
    return path


def main(words):
    reader(__doc__).parse_args(words)
    with tempfile.TemporaryDirectory() as folder:
        for theme in THEMES:
            picture(folder, TOP / "docs" / f"page-{theme}.png", theme)
    return 0


if __name__ == "__main__":
    sys.exit(status_of(main, sys.argv[1:]))
