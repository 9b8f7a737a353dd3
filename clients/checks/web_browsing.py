"""A headless Chromium over the page: how it is started, and what is looked at in every page."""
import os
import sys
import tempfile
import time

from shared import MISSING

try:
    from selenium import webdriver
    from selenium.webdriver.common.by import By
    from selenium.webdriver.common.keys import Keys
    from selenium.webdriver.support.ui import Select
    from selenium.common.exceptions import NoAlertPresentException
except ImportError:
    webdriver = By = Keys = Select = NoAlertPresentException = None

__all__ = ["Keys", "By", "NoAlertPresentException", "Select"]
SIZES = {"telephone": (390, 844), "screen": (1280, 800), "large": (3840, 2160)}
WAIT = 60
# The least contrast of a text to what is below it, in the whole page.
CONTRAST = """
const channel = (part) => {
    const share = part / 255;
    return share <= 0.04045 ? share / 12.92 : ((share + 0.055) / 1.055) ** 2.4;
};
const light = ([red, green, blue]) =>
    0.2126 * channel(red) + 0.7152 * channel(green) + 0.0722 * channel(blue);
const numbers = (colour) => colour.match(/[0-9.]+/g).map(Number);
const below = (element) => {
    for (let at = element; at; at = at.parentElement) {
        const held = numbers(getComputedStyle(at).backgroundColor);
        if (held.length < 4 || held[3] > 0) return held;
    }
    return [255, 255, 255];
};
let least = [99, ""];
const texts = document.createTreeWalker(document.body, NodeFilter.SHOW_TEXT);
while (texts.nextNode()) {
    const element = texts.currentNode.parentElement;
    if (!texts.currentNode.data.trim() || !element.checkVisibility()) continue;
    if (element.closest("svg, option, .skip, .visually-hidden")) continue;
    const one = light(numbers(getComputedStyle(element).color));
    const other = light(below(element));
    const ratio = (Math.max(one, other) + 0.05) / (Math.min(one, other) + 0.05);
    if (ratio < least[0]) least = [ratio, texts.currentNode.data.trim().slice(0, 40)];
}
return least;
"""
HOSTS = """return performance.getEntriesByType("resource").map((one) => new URL(one.name).host)"""
UNNAMED = "input:not([type=hidden]), select, button, a, progress, table, svg, [role=region]"


class Browser:
    """A browser with a folder for what it saves."""

    def __init__(self, size="screen", scripts=True, dark=False):
        if webdriver is None:
            print("selenium is missing: install the Debian packages python3-selenium, chromium and "
                  "chromium-driver, and run this script by /usr/bin/python3", file=sys.stderr)
            sys.exit(MISSING)
        self.room = tempfile.TemporaryDirectory()
        self.folder = self.room.name
        options = webdriver.ChromeOptions()
        options.binary_location = "/usr/bin/chromium"
        width, height = SIZES[size]
        for word in ("--headless=new", "--no-sandbox", "--disable-dev-shm-usage", "--disable-gpu",
                     "--hide-scrollbars", f"--window-size={width},{height}"):
            options.add_argument(word)
        if dark:
            options.add_argument("--force-dark-mode")
            options.add_argument("--blink-settings=preferredColorScheme=0")
        preferences = {"download.default_directory": self.folder}
        if not scripts:
            preferences["profile.managed_default_content_settings.javascript"] = 2
        options.add_experimental_option("prefs", preferences)
        options.set_capability("goog:loggingPrefs", {"browser": "ALL"})
        service = webdriver.ChromeService("/usr/bin/chromedriver") if hasattr(
            webdriver, "ChromeService") else webdriver.chrome.service.Service(
                "/usr/bin/chromedriver")
        self.driver = webdriver.Chrome(options=options, service=service)
        self.resize(size)

    def resize(self, size):
        """Gives the page a size, and not the window."""
        width, height = SIZES[size]
        self.driver.execute_cdp_cmd("Emulation.setDeviceMetricsOverride", {
            "width": width, "height": height, "deviceScaleFactor": 1, "mobile": width < 500})

    def one(self, selector):
        return self.driver.find_element(By.CSS_SELECTOR, selector)

    def all(self, selector):
        return self.driver.find_elements(By.CSS_SELECTOR, selector)

    def run(self, script, *words):
        return self.driver.execute_script(script, *words)

    def wait(self, what, is_true, seconds=WAIT):
        """Waits until a condition is met. Returns how long that took."""
        began = time.monotonic()
        while not is_true():
            if time.monotonic() - began > seconds:
                raise TimeoutError(f"{what}: not within {seconds} s")
            time.sleep(0.01)
        return time.monotonic() - began

    def press(self, *keys):
        """Presses keys, wherever the focus is."""
        actions = webdriver.ActionChains(self.driver, duration=20)
        for key in keys:
            actions = actions.send_keys(key)
        actions.perform()

    def focused(self):
        return self.driver.switch_to.active_element

    def picture(self, path):
        self.driver.save_screenshot(path)

    def saved(self, seconds=WAIT):
        """The file that was saved, once it is whole; it is taken out of the folder."""
        def names():
            return [name for name in os.listdir(self.folder)
                    if not name.endswith((".crdownload", ".tmp")) and not name.startswith(".")]
        self.wait("a file is saved", names, seconds)
        path = os.path.join(self.folder, names()[0])
        size = -1
        while size != os.path.getsize(path):
            size = os.path.getsize(path)
            time.sleep(0.2)
        with open(path, "rb") as file:
            content = file.read()
        os.remove(path)
        return os.path.basename(path), content

    def looks(self, host):
        """What is wrong with the page as it is: for the eye, the ear, and by its policy."""
        wrong = []
        self.run("for (const one of document.querySelectorAll('details')) one.open = true;")
        least, text = self.run(CONTRAST)
        if least < 4.5:
            wrong.append(f"the contrast of {text!r} is {least:.2f}")
        if self.run("return document.documentElement.scrollWidth - innerWidth") > 0:
            wrong.append("the page is wider than its window")
        others = {one for one in self.run(HOSTS) if one != host}
        if others:
            wrong.append(f"it loads from {others}")
        wrong += [f"no name: {one.get_attribute('outerHTML')[:80]}" for one in self.all(UNNAMED)
                  if one.is_displayed() and not one.accessible_name]
        wrong += [f"logged: {entry['message'][:200]}" for entry in self.driver.get_log("browser")
                  if entry["level"] in ("SEVERE", "WARNING") and " 40" not in entry["message"]]
        return wrong

    def close(self):
        self.driver.quit()
        self.room.cleanup()
