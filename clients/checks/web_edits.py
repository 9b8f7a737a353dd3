#!/usr/bin/env python3
"""Tries to lose what a reader typed into the page, in headless Chromium.

Rows of a table are changed in their place, and then scrolled away, filtered, saved too early, sent
again, overtaken by later replies and by other tables, which are chosen, dropped and not sent: no
row is lost or comes into another table, and the saved file has the name of the table that was read.
Tables that are not UTF-8 are refused, and a byte order mark is kept. A date is typed back and forth
while replies are late: the answer that is shown is that of the fields.
"""
import os

from shared import SAMPLES, CommandLine, check, end, verdict
from web_browsing import Browser, Keys, NoAlertPresentException, Select
from web_runs import Page

# Replies are held back, and given in whatever order is asked for.
HOLD_REPLIES = """
window.waiting = [];
window.ask ??= window.fetch;
window.fetch = (...words) => {
    const reply = window.ask(...words);
    return new Promise((take, refuse) => {
        const answer = () => reply.then(take, refuse);
        if (String(words[0]).includes("static")) answer();
        else window.waiting.push(answer);
    });
};
"""
RELEASE = "window.fetch = window.ask; window.waiting.forEach((answer) => answer());"
EVENT = """
const [id, type, names, text] = arguments;
const words = new DataTransfer();
for (const name of names) words.items.add(new File(["place,date\\nSE,1700\\n"], name));
if (text) words.setData("text/plain", text);
const event = new DragEvent(type, {dataTransfer: words, bubbles: true, cancelable: true});
document.getElementById(id).dispatchEvent(event);
return event.defaultPrevented;
"""
TABLE = "letter,place,date\n" + "".join(f"{row},GB,{1 + row % 28} May 1700\n" for row in range(200))
OTHER = "letter,place,date\n" + "".join(f"x{row},SE,1 June 1650\n" for row in range(3))
TYPED = "3 March 1699"
PAUSE = "return new Promise((resume) => setTimeout(resume, 500))"


class Letters:
    """The page of letters in a browser, and what a reader does there."""

    def __init__(self, browser, page):
        self.browser, self.page = browser, page

    def file(self, name, content):
        path = os.path.join(self.browser.folder, f".{name}")
        with open(path, "wb") as file:
            file.write(content if isinstance(content, bytes) else content.encode())
        return path

    def choose(self, name, content):
        self.browser.one("#table").send_keys(self.file(name, content))

    def press(self, selector):
        self.browser.run("document.querySelector(arguments[0]).click()", selector)

    def read(self, name="one.csv", content=TABLE, rows="200 rows"):
        """Loads the page again, with the rows of a table."""
        self.browser.driver.get("about:blank")
        self.accept(True)
        self.browser.driver.get(self.page.address + "/letters")
        self.choose(name, content)
        self.press("#letters button[type=submit]")
        self.wait(rows)

    def wait(self, sentence):
        self.browser.wait(sentence, lambda: sentence in self.status())

    def status(self):
        return self.browser.one("#status").text

    def correct(self, row=1):
        """Begins to change a row. Returns its field of the date."""
        self.press(f"[aria-label='Correct row {row}']")
        return self.field(row)

    def field(self, row=1):
        fields = self.browser.all(f"[data-row='{row - 1}'] input")
        return fields[1] if fields else None

    def typed(self, row=1):
        field = self.field(row)
        return field and field.get_attribute("value")

    def type(self, text, *keys):
        field = self.field()
        field.clear()
        field.send_keys(text, *keys)

    def row(self, row=1):
        return self.browser.one(f"[data-row='{row - 1}']").text

    def accept(self, does):
        """Answers what the page asks. Returns whether it asked."""
        try:
            alert = self.browser.driver.switch_to.alert
        except NoAlertPresentException:
            return False
        alert.accept() if does else alert.dismiss()
        return True

    def save(self):
        self.browser.one("#save").click()
        name, content = self.browser.saved()
        return name, content.decode()

    def saves_nothing(self):
        self.browser.one("#save").click()
        return not [name for name in os.listdir(self.browser.folder) if not name.startswith(".")]


def check_drawn(letters):
    """What is typed is kept when the rows are drawn again, and is not saved over."""
    letters.read()
    letters.correct()
    letters.type(TYPED)
    browser = letters.browser
    browser.run("document.getElementById('view').scrollTop = 5000")
    browser.wait("row 1 is away", lambda: not browser.all("[data-row='0']"))
    browser.run("document.getElementById('view').scrollTop = 0")
    browser.wait("row 1 again", lambda: browser.all("[data-row='0']"))
    check("what is typed outlasts scrolling", letters.typed() == TYPED, letters.typed())
    letters.press("#wide")
    check("what is typed outlasts all columns", letters.typed() == TYPED, letters.typed())
    Select(browser.one("#remark")).select_by_value("*")
    check("what is typed outlasts a filter", letters.typed() == TYPED, letters.typed())
    check("a row in edit is not saved as it was", letters.saves_nothing()
          and "Row 1 is not asked yet" in letters.status(), letters.status())
    letters.type("1 May 1701", Keys.ENTER)
    letters.wait("Row 1: ")
    check("the saved row", "\n0,GB,1 May 1701," in letters.save()[1])
    Select(browser.one("#remark")).select_by_value("")
    letters.correct(2)
    letters.press("[data-row='1'] button:nth-of-type(2)")
    check("a row that is cancelled is as it was", "2 May 1700" in letters.row(2), letters.row(2))
    check("and is no more in edit", letters.save()[1].count("\n") == 201)


def check_late(letters):
    """A reply that is later than another table."""
    browser = letters.browser
    letters.read()
    browser.run(HOLD_REPLIES)
    letters.correct()
    letters.type(TYPED, Keys.ENTER)
    browser.run("window.fetch = window.ask")
    letters.choose("two.csv", OTHER)
    letters.press("#letters button[type=submit]")
    letters.accept(True)
    letters.wait("3 rows")
    browser.run(RELEASE)
    browser.run(PAUSE)
    name, content = letters.save()
    check("a late reply comes into no other table", "x0,SE,1 June 1650" in content
          and TYPED not in content and name == "two-found.csv", name, content)


def check_overtaken(letters):
    """Replies to fields that were typed or asked again since, or while another row is in edit."""
    browser = letters.browser
    letters.read()
    browser.run(HOLD_REPLIES)
    letters.correct()
    letters.type(TYPED, Keys.ENTER)
    letters.type("2 June 1701", Keys.ENTER)
    browser.run("window.waiting[1]()")
    letters.wait("Row 1: ")
    browser.run(RELEASE)
    browser.run(PAUSE)
    check("of two replies that of the later words counts", "2 June 1701" in letters.row(),
          letters.row())
    browser.run(HOLD_REPLIES)
    letters.correct()
    letters.type(TYPED, Keys.ENTER)
    letters.type("4 April 1702")
    browser.run(RELEASE)
    browser.run(PAUSE)
    check("what is typed after asking stays", letters.typed() == "4 April 1702", letters.row())
    browser.run(HOLD_REPLIES)
    letters.type(TYPED, Keys.ENTER)
    letters.correct(2).send_keys(" and")
    browser.run(RELEASE)
    letters.wait("Row 1: ")
    browser.press(" more")
    check("a late reply leaves the focus in another row", letters.typed(2) == "2 May 1700 and more",
          letters.typed(2))


def check_other_tables(letters):
    """Other tables, which are sent, dropped or only chosen, over rows that were changed."""
    browser = letters.browser
    letters.read()
    letters.correct()
    letters.type(TYPED, Keys.ENTER)
    letters.wait("Row 1: ")
    letters.choose("two.csv", OTHER)
    letters.press("#letters button[type=submit]")
    check("a second table is asked about", letters.accept(False))
    check("rows outlast a second table", TYPED in letters.row(), letters.row())
    browser.run(EVENT, "drop", "drop", ["three.csv"], "")
    check("a dropped table is asked about", letters.accept(False))
    check("rows outlast a dropped table", TYPED in letters.row(), letters.row())
    check("what leaves the page is asked about", browser.run(
        "const event = new Event('beforeunload', {cancelable: true}); dispatchEvent(event);"
        "return event.defaultPrevented"))
    name, content = letters.save()
    check("the saved name is of the table that was read", name == "one-found.csv"
          and TYPED in content, name)
    browser.run("document.getElementById('table').value = ''")
    check("a table whose file is not chosen any more is saved",
          letters.save()[0] == "one-found.csv")
    check("a text is dropped into a field", not browser.run(EVENT, "column_place", "dragover", [],
                                                            "Ort"))
    check("a file is dropped on the field of places", not browser.run(
        EVENT, "places", "drop", ["places.csv"], "") and TYPED in letters.row())
    browser.run(EVENT, "drop", "drop", ["a.csv", "b.csv"], "")
    check("neither of two files is read", "one table at a time" in browser.one("#fault").text
          and TYPED in letters.row())


def check_overtaken_table(letters):
    """A table that is sent while another one is on its way."""
    browser = letters.browser
    browser.driver.get(letters.page.address + "/letters")
    browser.run(HOLD_REPLIES)
    letters.choose("one.csv", TABLE)
    letters.press("#letters button[type=submit]")
    browser.wait("the first table", lambda: browser.run("return window.waiting.length") == 1)
    letters.choose("two.csv", OTHER)
    letters.press("#letters button[type=submit]")
    browser.wait("the second table", lambda: browser.run("return window.waiting.length") == 2)
    browser.run("window.waiting[0]()")
    browser.run(PAUSE)
    check("a table that is overtaken reports nothing", not browser.one("#fault").text
          and browser.one("#progress").is_displayed(), browser.one("#fault").text)
    letters.press("#save")
    check("a table that is still read is not saved", "still being read" in letters.status(),
          letters.status())
    browser.run(RELEASE)
    letters.wait("3 rows")


def check_encodings(letters):
    """Tables in other encodings, and one with a byte order mark."""
    text = "letter,place,date\nMüller,GB,1 May 1700\n"
    for name, content in (("cp1252", text.encode("cp1252")), ("UTF-16", text.encode("utf-16")),
                          ("UTF-16 without a mark", text.encode("utf-16-le")),
                          ("a workbook", b"PK\3\4" + bytes(range(256)))):
        letters.browser.driver.get(letters.page.address + "/letters")
        letters.choose("other.csv", content)
        letters.press("#letters button[type=submit]")
        letters.browser.wait(name, lambda: letters.browser.one("#fault").text)
        sentence = letters.browser.one("#fault").text
        check(f"{name} is refused", "not UTF-8: save the table as CSV UTF-8" in sentence, sentence)
    letters.read("marked.csv", b"\xef\xbb\xbf" + text.encode(), "1 row")
    letters.browser.one("#save").click()
    content = letters.browser.saved()[1]
    check("a byte order mark is kept", content.startswith(b"\xef\xbb\xbfletter,") and
          "Müller".encode() in content, content)


def check_typed(browser, page):
    """A date that is typed back while the reply to another one is on its way."""
    first, second = "11 February 1731", "11 February 1732"
    browser.driver.get(page.address + "/?code=GB")
    field = browser.one("#date")
    field.send_keys(first)
    browser.wait("the answer", lambda: browser.driver.title.startswith(first))
    browser.run(HOLD_REPLIES)
    field.send_keys(Keys.BACKSPACE, "2")
    browser.wait("the second question", lambda: browser.run("return window.waiting.length"))
    field.send_keys(Keys.BACKSPACE, "1")
    browser.run(PAUSE)
    browser.run(RELEASE)
    browser.run(PAUSE)
    page = browser.driver.title, browser.one("#citation").text, browser.driver.current_url
    check("the answer is that of the fields", field.get_attribute("value") == first
          and not any(second[-4:] in text for text in (page[0], page[2]))
          and f"“{first}”" in page[1], page)
    field.send_keys("\u202e")
    browser.wait("a refusal", lambda: "is not printed" in browser.one("#answer").text)
    check("a refusal has no earlier title", first not in browser.driver.title, browser.driver.title)


def main():
    line = CommandLine(__doc__)
    line.add_program()
    program, browser = line.read().program, Browser()
    page = Page(program, SAMPLES)
    page.address = f"http://{page.host}:{page.port}"
    letters = Letters(browser, page)
    try:
        check_typed(browser, page)
        check_drawn(letters)
        check_late(letters)
        check_overtaken(letters)
        check_other_tables(letters)
        check_overtaken_table(letters)
        check_encodings(letters)
    finally:
        browser.close()
        left = page.stop()[0]
    check("no process is left", not left, left)
    return verdict("what was typed into the page is kept, and shown with its own answer")


if __name__ == "__main__":
    end(main)
