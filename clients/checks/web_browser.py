#!/usr/bin/env python3
"""Works with the page in headless Chromium as its readers do, and compares what it shows with what
the program prints.

It types dates, by keyboard alone, chooses weekdays, follows links and goes back, walks through a
month by its arrows, and looks at a place and a year. It drops tables of letters, corrects a row in
its place, and saves the table: what is saved must be what `letters` writes. Then 100,000 rows come,
while it measures how long the page is blocked. Without JavaScript the main question and a table
are asked again. Each page is checked for contrast, names of its fields, width, hosts, and what
the browser reports, at three sizes, in light and in dark. `--pictures FOLDER` keeps the pictures.
"""
import os
import re
import subprocess
import tempfile
import time
from urllib.parse import parse_qs, urlencode, urlsplit

from shared import SAMPLES, TOP, CommandLine, check, end, verdict
from web_answers import differences
from web_browsing import SIZES, Browser, By, Keys, Select
from web_runs import Page

TYPED = [("GB", "11 February 1731", "Friday"), ("GB", "5 September 1752", ""),
         ("GB", "11 Feb. 1731/32", ""), ("SE", "30 February 1712", "Friday"),
         ("GB", "March 1731", ""), ("GB", "3-10 May 1640?", ""), ("GB", "before 1640", ""),
         ("GB", "11 February 1752/3", ""), ("GB", "1751-01-10", ""), ("RU", "5 Feb. 1918", ""),
         ("RM", "24 March 1582", "Monday"), ("GB", "11/2/1731", ""), ("GB", "xi May 1640", ""),
         ("GB", "[about 1640?]", ""), ("GB", "11 May 1731/2", ""), ("GB", "1 June 1640 N.S.", "")]
PAGES = ["/", "/?code=GB&date=11+February+1731&weekday=Friday", "/?code=GB&date=1752-09-05",
         "/month?code=GB&year=1752&month=9", "/month?code=GB&year=1731&month=3", "/place?code=GB",
         "/place?code=SE", "/place", "/year?code=GB&year=1752", "/letters",
         "/day?code=SE&day=625000", "/edition?edition=2&code=GB", "/forms?lang=sv",
         "/compare?code=GB&other=SE&date=11+February+1731", "/year?code=GB&year=1731&lang=de",
         "/letters?lang=fr"]
FEAST = re.compile(r"([A-Z][\w ]+): (.+?)    (.+) Gregorian .* day (\d+)    JDN")
GAPS = """
window.longest = 0;
let last = performance.now();
const look = (now) => {
    window.longest = Math.max(window.longest, now - last);
    last = now;
    requestAnimationFrame(look);
};
requestAnimationFrame(look);
"""
DROP = """
const words = new DataTransfer();
words.items.add(new File([arguments[0]], arguments[1], {type: "text/csv"}));
for (const type of ["dragover", "drop"]) {
    document.getElementById("drop").dispatchEvent(
        new DragEvent(type, {dataTransfer: words, bubbles: true, cancelable: true}));
}
"""


def inner(browser, selector="#answer"):
    return browser.one(selector).get_attribute("innerHTML")


def check_typed(browser, page, program):
    """Types dates, and compares each answer with `read`. Returns how long the slowest one took
    after its command."""
    slowest = 0.0
    browser.driver.get(page.address)
    for code, date, weekday in TYPED:
        Select(browser.one("#code")).select_by_value(code)
        Select(browser.one("#weekday")).select_by_value(weekday)
        field = browser.one("#date")
        field.clear()
        field.send_keys(date)
        began = time.monotonic()
        browser.wait(f"the answer to {date}", lambda: browser.driver.title.startswith(
            f"{date} in ") and f"({code})" in inner(browser))
        expected = {"code": [code], "date": [date]} | ({"weekday": [weekday]} if weekday else {})
        browser.wait("its address", lambda: parse_qs(urlsplit(
            browser.driver.current_url).query) == expected)
        took, began = time.monotonic() - began, time.monotonic()
        wrong = differences(inner(browser), program, SAMPLES, code, date, weekday)
        slowest = max(slowest, took - (time.monotonic() - began))
        check(f"the typed {date}", not wrong, *wrong)
        announcement = browser.one("#announcement[role=status]").get_attribute("textContent")
        check(f"{date} is read aloud in one sentence", announcement.startswith(f"“{date}” in ") and
              not browser.all("#answer [aria-live], #answer [role=status]"), announcement)
        check(f"the citation of {date}", browser.one("#citation").text.endswith(
            "by the calendar change register, edition 5 of samples.journal."))
    check("the page answers within a second of its command", slowest < 1, slowest)
    return slowest


def check_links(browser, page):
    """The address is the question: again, by its link, and by the button that goes back."""
    address = page.address + "/?" + urlencode({"code": "GB", "date": "5 September 1752"})
    browser.driver.get(address)
    answer = browser.one("#answer").text
    browser.driver.refresh()
    check("the same address again", browser.one("#answer").text == answer)
    link = browser.one("#link").get_attribute("href")
    check("the link names the edition", "edition=5" in link, link)
    browser.driver.get(link)
    check("the link answers the same", browser.one("#answer").text == answer)
    browser.driver.get(link.replace("edition=5", "edition=4"))
    check("a link of another edition says so",
          "created from edition 4" in browser.one("#answer").text)
    browser.driver.get(page.address + "/?code=GB&date=11+February+1731")
    field = browser.one("#date")
    field.clear()
    field.send_keys("March 1731")
    browser.wait("an answer", lambda: "25 March 1731" in browser.one("#answer").text)
    browser.one("#answer .end").click()
    browser.wait("the page of a day", lambda: "/day?" in browser.driver.current_url)
    browser.driver.back()
    browser.wait("the answer again", lambda: "25 March 1731" in browser.one("#answer").text)
    check("the field after going back", browser.one("#date").get_attribute("value") == "March 1731")


def check_order(browser, page, program):
    """A date that is open between day and month, by the link that says the order."""
    browser.driver.get(page.address + "/?code=GB&date=11%2F2%2F1731")
    for order, place in (("dmy", 0), ("mdy", 1)):
        browser.all(".choices a")[place].click()
        browser.wait("the answer", lambda: browser.all(".found"))
        wrong = differences(inner(browser), program, SAMPLES, "GB", "11/2/1731", order=order)
        check(f"11/2/1731 by {order}", not wrong, *wrong)
        browser.driver.back()
        browser.wait("the choices again", lambda: browser.all(".choices a"))


def check_copies(browser, page):
    """The button that copies."""
    browser.driver.execute_cdp_cmd("Browser.grantPermissions", {
        "origin": page.address, "permissions": ["clipboardReadWrite",
                                                "clipboardSanitizedWrite"]})
    browser.driver.get(page.address + "/?code=GB&date=11+February+1731")
    browser.one(".link button").click()
    browser.wait("it is copied", lambda: browser.one(".link button").text == "Copied")
    clipboard = browser.driver.execute_async_script(
        "navigator.clipboard.readText().then(arguments[0], (why) => arguments[0](String(why)))")
    check("the copied citation", clipboard == browser.one("#citation").text, clipboard)


def check_keyboard(browser, page, program):
    """One question by keyboard alone, with a focus that is seen at each step."""
    browser.driver.get(page.address)
    browser.run("document.activeElement.blur(); window.getSelection().removeAllRanges();")
    order = []
    for _ in range(30):
        browser.press(Keys.TAB)
        at = browser.focused()
        order.append(at.get_attribute("id") or at.text)
        outline = at.value_of_css_property("outline-style")
        check(f"the focus on {order[-1]} is seen", outline != "none", outline)
        if order[-1] == "code":
            at.send_keys("Great")
        elif order[-1] == "date":
            at.send_keys("11 February 1731", Keys.ENTER)
            break
    check("the date is reached by Tab", order[-1] == "date", order)
    browser.wait("the answer", lambda: browser.all(".found"))
    wrong = differences(inner(browser), program, SAMPLES, "GB", "11 February 1731")
    check("the answer by keyboard", not wrong, *wrong)


def check_month(browser, page):
    """September 1752 with its gap, by the arrows."""
    browser.driver.get(page.address + "/month?code=GB&year=1752&month=September")
    marked = [cell.text for cell in browser.all(".month .changed")]
    check("the day after the gap is marked", marked == ["14"], marked)
    check("the gap is shown", "by Thursday 14 September 1752. 11 dates left out."
          in browser.one(".gap-note").text)
    browser.run("document.querySelector('.month td a').focus()")
    for expected in ("2", "14", "15"):
        browser.press(Keys.TAB)
        check(f"Tab reaches {expected}", browser.focused().text == expected, browser.focused().text)
    browser.run("document.querySelector('.month td a').focus()")
    for key, expected in ((Keys.ARROW_RIGHT, "2"), (Keys.ARROW_RIGHT, "14"),
                          (Keys.ARROW_DOWN, "21"), (Keys.HOME, "17"), (Keys.END, "23"),
                          (Keys.ARROW_UP, "16")):
        browser.press(key)
        check(f"the key to {expected}", browser.focused().text == expected, browser.focused().text)
    browser.press(Keys.ENTER)
    browser.wait("the page of the day", lambda: "/day?" in browser.driver.current_url)
    check("the day", "Saturday 16 September 1752" in browser.one("h1").text, browser.one("h1").text)


def check_place_and_year(browser, page, program):
    """The timeline compared with `territory`, and the year with `year`."""
    for code in ("GB", "SE", "RU", "RM"):
        browser.driver.get(f"{page.address}/place?code={code}")
        lines = subprocess.run([program, "territory", SAMPLES, code], check=True, text=True,
                               capture_output=True).stdout.splitlines()[1:]
        rows = browser.all("main tbody tr")
        check(f"the periods of {code}", len(rows) == len(lines), len(rows), lines)
        for row, line in zip(rows, lines):
            cells = [cell.text for cell in row.find_elements(By.CSS_SELECTOR, "th, td")]
            spans = [cell for cell in cells[1:3] if cell.split()[0].endswith("day")]
            words = [*spans, f"{cells[3].lower()} calendar", f"(years from {cells[4]})",
                     f"{cells[5].lower()} rule"]
            check(f"a period of {code}", all(word in line for word in words), words, line)
        check(f"the drawing of {code}", len(browser.all("svg .period")) == len(lines))
    browser.driver.get(f"{page.address}/year?code=GB&year=1752")
    text = " ".join(browser.one("main").text.split())
    lines = subprocess.run([program, "year", SAMPLES, "GB", "1752"], check=True, text=True,
                           capture_output=True).stdout.splitlines()
    feasts = [FEAST.match(line) for line in lines if FEAST.match(line)]
    check("the feasts of 1752", len(feasts) == 6 and all(" ".join(feast.groups()) in text
                                                         for feast in feasts), text)
    check("the figures of 1752", "Golden number 5 5" in text and "Sunday letter ED BA" in text)


def letters_written(program, table, *options):
    return subprocess.run([program, "letters", SAMPLES, *options], input=table, check=False,
                          capture_output=True).stdout


def corrected_table(browser):
    """Corrects the rows that can be corrected, and returns the table that letters is asked of."""
    browser.one("[aria-label='Correct row 11']").click()
    inputs = browser.all("[data-row='10'] input")
    inputs[0].clear()
    inputs[0].send_keys("SE")
    inputs[2].clear()
    inputs[2].send_keys("Friday", Keys.ENTER)
    browser.wait("row 11 is corrected", lambda: browser.one("#status").text.startswith("Row 11: "))


def check_letters(browser, page, program):
    """A table that is dropped, corrected in a row, and saved."""
    with open(os.path.join(TOP, "examples", "letters.csv"), encoding="utf-8") as file:
        table = file.read()
    browser.driver.get(page.address + "/letters")
    browser.run(DROP, table, "letters.csv")
    browser.wait("the rows", lambda: "18 rows" in browser.one("#status").text)
    texts = [row.text for row in browser.all("#rows tr[data-row]")]
    check("each row is shown", len(texts) == 18, len(texts))
    browser.one("#save").click()
    name, content = browser.saved()
    check("the saved table", (name, content) == ("letters-found.csv",
                                                 letters_written(program, table.encode())), name)
    Select(browser.one("#remark")).select_by_value("*")
    remarks = [row for row in letters_written(program, table.encode()).decode().splitlines()[1:]
               if not row.endswith(",")]
    browser.wait("the rows with a remark", lambda: len(browser.all("#rows tr[data-row]"))
                 == len(remarks))
    corrected_table(browser)
    browser.one("#save").click()
    expected = letters_written(program, table.replace("11,XX,1 May 1700,Fryday",
                                                      "11,SE,1 May 1700,Friday").encode())
    content = browser.saved()[1]
    check("the corrected table", content == expected, content[-900:], expected[-900:])
    browser.run(DROP, "a,b\n1,2\n", "wrong.csv")
    browser.wait("the fault", lambda: "no column place" in browser.one("#fault").text)


def check_many_rows(browser, page, program):
    """100,000 rows: how long the page was blocked, and how long all took."""
    rows = "".join(f"{row},GB,{1 + row % 28} March {1600 + row % 150},\n"
                   for row in range(100_000))
    table = "letter,place,date,weekday\n" + rows
    path = os.path.join(browser.folder, ".many.csv")
    with open(path, "w", encoding="utf-8") as file:
        file.write(table)
    browser.driver.get(page.address + "/letters")
    browser.one("#table").send_keys(path)
    browser.run(GAPS)
    began = time.monotonic()
    browser.one("#letters button[type=submit]").click()
    browser.wait("100,000 rows", lambda: "100,000 rows," in browser.one("#status").text, 60)
    took = time.monotonic() - began
    browser.run("const view = document.getElementById('view'); view.scrollTop = view.scrollHeight;")
    browser.wait("the last row", lambda: browser.all("[data-row='99999']"))
    drawn = len(browser.all("#rows tr"))
    check("only the rows that are seen are in the page", drawn < 80, drawn)
    longest = browser.run("return window.longest") / 1000
    check("the page never stops responding for half a second", longest < 0.5, longest)
    browser.one("#save").click()
    content = browser.saved(30)[1]
    check("100,000 rows that are saved", content == letters_written(program, table.encode()))
    return took, longest


def check_without_scripts(page, program):
    """The main question and a table without JavaScript."""
    browser = Browser(scripts=False)
    try:
        for code, date, weekday in TYPED[:8]:
            browser.driver.get(page.address)
            Select(browser.one("#code")).select_by_value(code)
            Select(browser.one("#weekday")).select_by_value(weekday)
            browser.one("#date").send_keys(date, Keys.ENTER)
            browser.wait("the answer", lambda: browser.all("#citation"))
            wrong = differences(inner(browser), program, SAMPLES, code, date, weekday)
            check(f"{date} without JavaScript", not wrong, *wrong)
        check("no script ran", not browser.all(".link button"))
        path = os.path.join(TOP, "examples", "transcribed.csv")
        browser.driver.get(page.address + "/letters")
        browser.one("#table").send_keys(path)
        browser.one("#letters button[type=submit]").click()
        with open(path, "rb") as file:
            check("a table without JavaScript",
                  browser.saved()[1] == letters_written(program, file.read()))
    finally:
        browser.close()


def check_looks(page, folder):
    """Looks at each page at three sizes, in light and in dark. Returns how many it looked at."""
    looked = 0
    host = page.address.removeprefix("http://")
    for dark in (False, True):
        browser = Browser(dark=dark)
        try:
            for size in SIZES:
                browser.resize(size)
                for order, path in enumerate(PAGES):
                    browser.driver.get(page.address + path)
                    wrong = browser.looks(host)
                    check(f"{path} at {size}{' in dark' if dark else ''}", not wrong, *wrong)
                    name = f"{order:02}-{size}{'-dark' if dark else ''}.png"
                    browser.picture(os.path.join(folder, name))
                    looked += 1
        finally:
            browser.close()
    return looked


def main():
    line = CommandLine(__doc__)
    line.add_program()
    line.add_argument("--pictures", metavar="FOLDER", help="the folder of the pictures")
    options = line.read()
    if options.pictures:
        os.makedirs(options.pictures, exist_ok=True)
    program, browser = options.program, Browser()
    page = Page(program, SAMPLES)
    page.address = f"http://{page.host}:{page.port}"
    try:
        slowest = check_typed(browser, page, program)
        check_links(browser, page)
        check_order(browser, page, program)
        check_copies(browser, page)
        check_keyboard(browser, page, program)
        check_month(browser, page)
        check_place_and_year(browser, page, program)
        check_letters(browser, page, program)
        took, longest = check_many_rows(browser, page, program)
    finally:
        browser.close()
    check_without_scripts(page, program)
    with tempfile.TemporaryDirectory() as folder:
        looked = check_looks(page, options.pictures or folder)
    check("no process is left", not page.stop()[0])
    return verdict(
        f"{len(TYPED)} typed dates, {looked} pictures, tables corrected and saved: all as the "
        f"program's; the slowest answer {slowest:.2f} s after its command, 100,000 rows in "
        f"{took:.1f} s, blocked for {longest:.2f} s at most")


if __name__ == "__main__":
    end(main)
