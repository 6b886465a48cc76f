"""A ward of the desk that is served, and a browser that looks at it: what tools/try-screen and tools/screen-pictures are made of."""
import contextlib
import csv
import io
import os
import re
import subprocess
import sys
import tempfile
import time

TOP = os.path.dirname(os.path.dirname(os.path.realpath(__file__)))
# Wednesday, 11 November 2026, 07:00: the tenth day of the ward.
CLOCK = {"LOGNAME": "planner", "SOURCE_DATE_EPOCH": "1794380400", "TZ": "UTC"}
START, TODAY = "2026-11-02", 9
# How long a page may take to show what it is to show, in seconds: others may use the machine.
PATIENCE = 60
LINK = re.compile(r"http://127\.0\.0\.1:\d+/\?key=\S+")
PACKAGES = {"chromium": "/usr/bin/chromium", "chromium-driver": "/usr/bin/chromedriver"}
MODULES = {"python3-selenium": "selenium", "python3-flask": "flask", "python3-waitress": "waitress"}


def with_modules():
    """Runs this script by a Python that has the packages' modules, if there is one; returns the packages that are lacking."""
    lacking = [package for package, path in PACKAGES.items() if not os.path.exists(path)]
    imports = ", ".join(MODULES.values())
    for python in (sys.executable, "/usr/bin/python3"):
        if subprocess.run([python, "-c", f"import {imports}"], stderr=subprocess.DEVNULL, check=False).returncode == 0:
            if python != sys.executable and not lacking:
                os.execv(python, [python, *sys.argv])
            return lacking
    return lacking + [package for package, module in MODULES.items() if not can_import(module)]


def can_import(module):
    commands = ([python, "-c", f"import {module}"] for python in (sys.executable, "/usr/bin/python3"))
    return any(subprocess.run(words, stderr=subprocess.DEVNULL, check=False).returncode == 0 for words in commands)


class Desk:
    """A ward in a folder of its own, and the desk's commands on it."""

    def __init__(self, program, folder):
        self.folder = folder
        self.environment = {**os.environ, **CLOCK, "DESK_ROSTER": os.path.realpath(program), "PYTHONDONTWRITEBYTECODE": "1"}

    def run(self, *words, status=0):
        """What a command of the desk writes."""
        ran = subprocess.run(
            [f"{TOP}/desk", *words],
            cwd=self.folder,
            env=self.environment,
            stdin=subprocess.DEVNULL,
            stdout=subprocess.PIPE,
            stderr=subprocess.STDOUT,
            timeout=600,
            check=False,
        )
        output = ran.stdout.decode(errors="replace")
        if ran.returncode != status:
            raise RuntimeError(f"desk {' '.join(words)}: status {ran.returncode}: {output}")
        return output

    def version(self, ward):
        """The number of the present version in the ward's file."""
        return int(self.run("versions", ward).rstrip().split("\n")[-1].split()[0])

    def note(self, ward):
        return self.run("versions", ward).rstrip().split("\n")[-1]

    def table(self, ward):
        """What the ward's file has for each nurse, by days: the desk's table for spreadsheets."""
        rows = list(csv.reader(io.StringIO(self.run("csv", ward))))
        return {row[0]: row[1:] for row in rows[1:]}

    @contextlib.contextmanager
    def served(self, ward, *words):
        """The link under which a ward is served, and the process."""
        with subprocess.Popen(
            [f"{TOP}/desk", "serve", "--no-browser", *words, ward],
            cwd=self.folder,
            env=self.environment,
            stdin=subprocess.DEVNULL,
            stdout=subprocess.PIPE,
            stderr=subprocess.STDOUT,
        ) as server:
            said = ""
            while not LINK.search(said):
                line = server.stdout.readline().decode(errors="replace")
                if not line:
                    raise RuntimeError(f"desk serve ended: {said}")
                said += line
            try:
                yield LINK.search(said)[0], server
            finally:
                server.terminate()
                server.wait(60)


class Browser:
    """Chromium, in which a page of the desk is looked at."""

    def __init__(self, pictures):
        from selenium import webdriver
        from selenium.webdriver.chrome.options import Options
        from selenium.webdriver.chrome.service import Service

        # (where pictures go, and how many times what was waited for held)
        self.pictures, self.held = pictures, 0
        options = Options()
        for word in (
            "--headless=new",
            "--no-sandbox",
            "--disable-gpu",
            "--disable-dev-shm-usage",
            "--hide-scrollbars",
            "--lang=en-GB",
        ):
            options.add_argument(word)
        options.binary_location = PACKAGES["chromium"]
        options.set_capability("goog:loggingPrefs", {"browser": "ALL"})
        self.driver = webdriver.Chrome(service=Service(PACKAGES["chromium-driver"]), options=options)
        self.driver.set_script_timeout(PATIENCE)

    def close(self):
        self.driver.quit()

    # ---- the window

    def size(self, width, height=800, scale=1, has_touch=False):
        """A window of this many CSS pixels."""
        self.driver.execute_cdp_cmd(
            "Emulation.setDeviceMetricsOverride",
            {"width": width, "height": height, "deviceScaleFactor": scale, "mobile": has_touch},
        )
        self.driver.execute_cdp_cmd("Emulation.setTouchEmulationEnabled", {"enabled": has_touch, "maxTouchPoints": 1})

    def media(self, kind="", theme="light"):
        features = [{"name": "prefers-color-scheme", "value": theme}, {"name": "prefers-reduced-motion", "value": "reduce"}]
        self.driver.execute_cdp_cmd("Emulation.setEmulatedMedia", {"media": kind, "features": features})

    def open(self, link):
        self.driver.get(link)
        self.until(lambda: self.script("return document.documentElement.dataset.ready === '1'"), "the page is ready")

    def picture(self, name):
        self.driver.save_screenshot(f"{self.pictures}/{name}.png")

    def faults(self):
        """What the page's scripts, and its content policy, complained of since the last time. A refusal isn't one, nor
        that a desk has ended."""
        lines = [entry["message"] for entry in self.driver.get_log("browser") if entry["level"] in ("SEVERE", "WARNING")]
        return [line for line in lines if "status of 4" not in line and "ERR_CONNECTION_REFUSED" not in line]

    # ---- reading

    def script(self, text, *arguments):
        return self.driver.execute_script(text, *arguments)

    def wait(self, holds, what, seconds=PATIENCE):
        """Waits until something holds, which is a check of its own."""
        found = self.until(holds, what, seconds)
        self.held += 1
        return found

    def until(self, holds, what, seconds=PATIENCE):
        end = time.monotonic() + seconds
        while time.monotonic() < end:
            with contextlib.suppress(Exception):
                found = holds()
                if found:
                    return found
            time.sleep(0.05)
        raise AssertionError(f"{what}: not within {seconds} seconds")

    def all(self, selector):
        return self.driver.find_elements("css selector", selector)

    def one(self, selector):
        return self.until(
            lambda: next((found for found in self.all(selector) if found.is_displayed()), None), f"{selector} is shown"
        )

    def text(self, selector):
        return self.script("return document.querySelector(arguments[0])?.innerText ?? ''", selector)

    def sees(self, words, inside="body"):
        """Waits until words are shown."""
        self.wait(lambda: words in self.text(inside), f"'{words}' in {inside}")

    def live(self, words):
        """Waits until words are in the live region."""
        self.wait(lambda: words in self.script("return document.querySelector('#live').textContent"), f"'{words}' is said")

    def version(self):
        return int(re.search(r"Version (\d+)", self.script("return document.querySelector('#subtitle').textContent"))[1])

    # ---- doing

    def click(self, selector):
        """Clicks what a selector finds, once it can be."""

        def clicked():
            element = self.one(selector)
            self.script("arguments[0].scrollIntoView({block: 'center', inline: 'nearest'})", element)
            element.click()
            return True

        self.until(clicked, f"{selector} can be clicked")

    def click_text(self, selector, words):
        """Clicks the first of what a selector finds that has these words."""

        def clicked():
            found = [
                one
                for one in self.all(selector)
                if words in f"{one.text} {one.get_attribute('aria-label')}" and one.is_displayed()
            ]
            if not found:
                return False
            self.script("arguments[0].scrollIntoView({block: 'center', inline: 'nearest'})", found[0])
            found[0].click()
            return True

        self.until(clicked, f"{selector} with '{words}' can be clicked")

    def choose(self, selector, value):
        """Chooses an option by its value."""
        from selenium.webdriver.support.ui import Select

        Select(self.one(selector)).select_by_value(str(value))

    def write(self, selector, words):
        field = self.one(selector)
        field.clear()
        field.send_keys(words)

    def keys(self, *words):
        """Presses keys, wherever the focus is."""
        from selenium.webdriver.common.action_chains import ActionChains

        ActionChains(self.driver).send_keys(*words).perform()

    def chord(self, modifier, key):
        from selenium.webdriver.common.action_chains import ActionChains

        ActionChains(self.driver).key_down(modifier).send_keys(key).key_up(modifier).perform()

    def drag(self, start, end, is_dropped=True):
        """Drags from one cell to another with the mouse; without the drop it stays held."""
        from selenium.webdriver.common.action_chains import ActionChains

        for cell in (start, end):
            self.script("arguments[0].scrollIntoView({block: 'center', inline: 'center'})", self.one(cell))
        chain = (
            ActionChains(self.driver)
            .move_to_element(self.one(start))
            .click_and_hold()
            .move_by_offset(9, 0)
            .move_to_element(self.one(end))
        )
        (chain.pause(0.1).release() if is_dropped else chain).perform()

    def release(self):
        from selenium.webdriver.common.action_chains import ActionChains

        ActionChains(self.driver).release().perform()

    def tap(self, selector):
        """A finger's tap on what a selector finds."""
        element = self.one(selector)
        self.script("arguments[0].scrollIntoView({block: 'center', inline: 'center'})", element)
        time.sleep(0.1)
        box = self.script(
            "const box = arguments[0].getBoundingClientRect(); return [box.left + box.width / 2, box.top + box.height / 2]",
            element,
        )
        point = {"x": box[0], "y": box[1]}
        self.driver.execute_cdp_cmd("Input.dispatchTouchEvent", {"type": "touchStart", "touchPoints": [point]})
        self.driver.execute_cdp_cmd("Input.dispatchTouchEvent", {"type": "touchEnd", "touchPoints": []})

    def press(self, selector, seconds):
        """A finger that rests on what a selector finds."""
        element = self.one(selector)
        box = self.script(
            "const box = arguments[0].getBoundingClientRect(); return [box.left + box.width / 2, box.top + box.height / 2]",
            element,
        )
        self.driver.execute_cdp_cmd(
            "Input.dispatchTouchEvent", {"type": "touchStart", "touchPoints": [{"x": box[0], "y": box[1]}]}
        )
        time.sleep(seconds)
        self.driver.execute_cdp_cmd("Input.dispatchTouchEvent", {"type": "touchEnd", "touchPoints": []})

    def tab(self, words, most=60):
        """Presses Tab until the focus is on something that has these words or this id."""
        from selenium.webdriver.common.keys import Keys

        for _ in range(most):
            self.keys(Keys.TAB)
            found = self.script(
                "const at = document.activeElement; return [at.id, at.getAttribute('aria-label') ?? '', at.innerText ?? ''].join('|')"
            )
            if words in found:
                return
        raise AssertionError(f"'{words}' isn't reached by Tab")

    def pdf_pages(self):
        """How many pages a print of the page has."""
        import base64

        data = base64.b64decode(
            self.driver.execute_cdp_cmd("Page.printToPDF", {"preferCSSPageSize": True, "printBackground": True})["data"]
        )
        return data, len(re.findall(rb"/Type\s*/Page\b(?!s)", data))


@contextlib.contextmanager
def browsing(pictures):
    """A browser, which is ended afterwards."""
    os.makedirs(pictures, exist_ok=True)
    browser = Browser(pictures)
    try:
        yield browser
    finally:
        browser.close()


@contextlib.contextmanager
def desk_in_folder(program):
    """A desk in a folder that is gone afterwards."""
    with tempfile.TemporaryDirectory(prefix="desk-screen-") as folder:
        yield Desk(program, folder)
