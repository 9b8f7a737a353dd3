"""What scripts do on the page, in headless Chromium."""
from __future__ import annotations

import shutil
from typing import Any, Callable, Iterator

import pytest
from conftest import Served

webdriver = pytest.importorskip("selenium.webdriver")
PASTED = "letter\tplace\tdate\n1\tGB\t11 February 1731\n2\tGB\t5 September 1752\n"


@pytest.fixture(scope="module")
def browser() -> Iterator[Any]:
    if not (shutil.which("chromium") and shutil.which("chromedriver")):
        pytest.skip("it requires chromium and chromedriver")
    options = webdriver.ChromeOptions()
    for word in ("--headless=new", "--no-sandbox", "--disable-dev-shm-usage", "--disable-gpu"):
        options.add_argument(word)
    driver = webdriver.Chrome(options=options)
    driver.set_script_timeout(30)
    yield driver
    driver.quit()


def wait(browser: Any, sentence: str) -> None:
    """Waits for a sentence of the page's own."""
    browser.execute_async_script("""
        const [sentence, done] = arguments;
        const look = () => document.getElementById("status").textContent.includes(sentence)
            ? done() : setTimeout(look, 30);
        look();""", sentence)


def run(browser: Any, script: str, *words: str) -> Any:
    return browser.execute_script(script, *words)


def test_rows_are_pasted_corrected_and_undone(browser: Any, served: Callable[..., Served]) -> None:
    one = served()
    browser.get(f"http://{one.host}:{one.port}/letters")
    run(browser, "pasted.value = arguments[0]; letters.requestSubmit()", PASTED)
    wait(browser, "2 rows, 1 with a remark.")
    row = "return document.querySelector(\"[data-row='1']\").textContent"
    before = run(browser, row)
    press = "document.querySelector(`[aria-label='${arguments[0]} row 2']`).click()"
    run(browser, press, "Correct")
    run(browser, """const field = document.querySelectorAll("[data-row='1'] input")[1];
        field.value = arguments[0]; field.dispatchEvent(new Event("input"));""", "15 May 1752")
    run(browser, press, "Ask again for")
    wait(browser, "Row 2: no remark now.")
    assert "15 May 1752" in run(browser, row)
    run(browser, press, "Undo")
    wait(browser, "Row 2 is as it was sent.")
    assert run(browser, row) == before
    label = run(browser, "return document.activeElement.getAttribute('aria-label')")
    assert label == "Correct row 2"


def test_a_citation_is_printed_with_its_address(
        browser: Any, served: Callable[..., Served]) -> None:
    one = served()
    address = f"http://{one.host}:{one.port}/day?code=GB&day=639797"
    browser.get(address)
    browser.execute_cdp_cmd("Emulation.setEmulatedMedia", {"media": "print"})
    text = run(browser, "return getComputedStyle(link, '::after').content")
    browser.execute_cdp_cmd("Emulation.setEmulatedMedia", {"media": ""})
    assert run(browser, "return link.dataset.address") == f"{address}&edition=5"
    assert f"{address}&edition=5" in text or "attr(data-address)" in text
    names = run(browser, "return [...document.querySelectorAll('.link button')]"
                         ".map((one) => one.textContent)")
    assert names == ["Copy the citation", "Copy the link", "BibTeX", "RIS", "CSL-JSON"]


def test_the_keyboard_goes_to_a_row_that_is_seen(
        browser: Any, served: Callable[..., Served]) -> None:
    from selenium.webdriver.common.keys import Keys
    one = served()
    browser.get(f"http://{one.host}:{one.port}/letters")
    rows = "place,date\n" + "GB,1 May 1700\n" * 500
    run(browser, "pasted.value = arguments[0]; letters.requestSubmit()", rows)
    wait(browser, "500 rows, 0 with a remark.")
    view = browser.find_element("id", "view")
    for _ in range(3):
        view.send_keys(Keys.PAGE_DOWN)
        browser.execute_async_script("setTimeout(arguments[0], 400)")
    before = run(browser, "return view.scrollTop")
    browser.switch_to.active_element.send_keys(Keys.TAB)
    browser.execute_async_script("setTimeout(arguments[0], 400)")
    assert before > 0 and abs(run(browser, "return view.scrollTop") - before) < 5
    assert run(browser, "return document.activeElement.textContent") == "Correct"
    assert not run(browser, "return document.querySelectorAll('#rows [inert]').length")
