"""A headless browser that shows a board, and what the tests do on its page."""

from __future__ import annotations

import contextlib
import json
import time
from collections.abc import Callable, Iterator
from typing import Any

from limits import SECONDS

# A name that the browser takes for this machine, under which a page is no secure context.
OTHER_NAME = "board.example"
# How long one script may run, in seconds: less than the two minutes for which selenium waits for an
# answer of the browser.
SCRIPT_SECONDS = 100
# How often a browser is started that does not come up, as happens on a loaded machine.
STARTS = 3
# How long it is waited before the page is asked again whether something is so, at first and at
# most, in seconds.
SOON, LATE = 0.01, 0.2
# What has a role by which it is found.
SEEN_ROLES = "button, [role=tab], table, dl, select, input"
# Opens the tab of the panel that has an element.
REACH = """
const part = arguments[0].closest("[role=tabpanel]");
const isLow = part?.scrollHeight && part.clientHeight < 60;
if (part && (part.hidden || isLow)) {
  document.getElementById(part.getAttribute("aria-labelledby")).click();
}
"""
# Counts the requests of a page that are not answered yet. What an answer leads to at once, such as
# the next request, begins before the request counts as answered. In braces, since a name declared
# at the top of such a script would hide the window's own.
COUNTED = """{
window.underWay = 0;
const { fetch } = window, { json } = Response.prototype;
const counted = (answer) => {
  window.underWay += 1;
  const end = () => setTimeout(() => { window.underWay -= 1; });
  answer.then(end, end);
  return answer;
};
window.fetch = (...words) => counted(fetch(...words));
Response.prototype.json = function () { return counted(json.call(this)); };
}"""
# Tells whether the page is still: nothing is being done or asked for, no picture is moving, and a
# frame was drawn since. A page that is not seen draws none.
STILL = """
const tell = arguments[0], isStill = () => (window.underWay ?? 0) <= 0
  && document.getElementById("main")?.getAttribute("aria-busy") === "false"
  && !document.querySelector("#layers.gliding");
const judge = () => tell(isStill());
if (!isStill() || document.hidden) judge();
else {
  const late = setTimeout(judge, 2000);
  requestAnimationFrame(() => setTimeout(() => { clearTimeout(late); judge(); }));
}
"""
# What tells why a page is not as expected.
SAID = """
const said = (id) => document.getElementById(id)?.textContent;
return [location.href, document.readyState, document.hidden, window.underWay,
  document.getElementById("main")?.getAttribute("aria-busy"), said("value"), said("trouble"),
  said("news"), said("drawn-note"), document.querySelector("#what h3")?.textContent,
  performance.getEntriesByType("resource").slice(-5).map((it) =>
    [it.name.split("/").pop(), Math.round(it.duration)])];
"""


def browser(*words: str) -> Iterator[Any]:
    """Yield a headless Chromium that is started with these words too."""
    from selenium import webdriver
    from selenium.webdriver.chrome.service import Service

    options: Any = webdriver.ChromeOptions()
    for word in (
        "--headless=new",
        "--no-sandbox",
        "--disable-gpu",
        "--disable-dev-shm-usage",
        "--window-size=1280,1000",
        *words,
    ):
        options.add_argument(word)
    options.add_argument(f"--host-resolver-rules=MAP {OTHER_NAME} 127.0.0.1")
    options.set_capability("goog:loggingPrefs", {"browser": "ALL"})
    made = started(
        lambda: webdriver.Chrome(service=Service("/usr/bin/chromedriver"), options=options)
    )
    # On a loaded machine a page that paints may not answer for longer than the usual 30 seconds.
    made.set_script_timeout(SCRIPT_SECONDS)
    yield made
    made.quit()


def started(start: Callable[[], Any]) -> Any:
    """Return a browser that is started, if need be again."""
    from selenium.common.exceptions import WebDriverException

    for _ in range(STARTS - 1):
        with contextlib.suppress(WebDriverException):
            return start()
    return start()


def set_width(driver: Any, width: int) -> None:
    """Gives the window this width, of which 400 is that of a phone."""
    driver.execute_cdp_cmd(
        "Emulation.setDeviceMetricsOverride",
        {"width": width, "height": 900, "deviceScaleFactor": 1, "mobile": width == 400},
    )


def dialog(driver: Any) -> Any:
    """The dialog of a page, once it is open."""
    from selenium.webdriver.support import expected_conditions
    from selenium.webdriver.support.wait import WebDriverWait

    waiting: Any = WebDriverWait
    conditions: Any = expected_conditions
    return waiting(driver, SECONDS, LATE).until(conditions.alert_is_present())


def told_loss(value: int, left: int) -> str:
    """What the page says of an act before it is done that leaves this of a value."""
    return f"{value} → {left}: {f'{value - left} less' if left < value else 'no change'}"


def count_requests(driver: Any) -> None:
    """Has each page of this tab count its requests from now on."""
    tab, counted = driver.current_window_handle, vars(driver).setdefault("counted", [])
    if tab not in counted:
        counted.append(tab)
        driver.execute_cdp_cmd("Page.addScriptToEvaluateOnNewDocument", {"source": COUNTED})


@contextlib.contextmanager
def before_pages(driver: Any, script: str) -> Iterator[None]:
    """Runs a script before those of each page that is opened meanwhile. What it does to requests
    does not change which of them are counted."""
    count_requests(driver)
    words = {"source": script}
    made = driver.execute_cdp_cmd("Page.addScriptToEvaluateOnNewDocument", words)
    try:
        yield
    finally:
        driver.execute_cdp_cmd("Page.removeScriptToEvaluateOnNewDocument", made)


class Page:
    """A page that a browser shows."""

    def __init__(self, driver: Any, address: str) -> None:
        self.driver = driver
        if address:
            count_requests(driver)
            driver.get(address)
        self.ready()

    def ready(self) -> None:
        script = (
            "return document.readyState === 'complete' && Boolean(document.querySelector('#picture "
            "svg'))"
        )
        self.wait(lambda: self.driver.execute_script(script))
        self.settle()

    def settle(self) -> None:
        """Waits until nothing is being done or asked for, and what is shown is drawn."""
        self.wait(lambda: self.driver.execute_async_script(STILL))

    def know_worth(self) -> None:
        """Waits until the page shows what each arc is worth in the present state."""
        script = (
            "return document.getElementById('worst').ariaBusy === 'false' && "
            "!document.querySelector('#grid td.old')"
        )
        self.wait(lambda: self.driver.execute_script(script))
        # The selection and the legend hear of it too.
        self.settle()

    def wait(self, is_so: Callable[[], object]) -> None:
        """Waits until something is so. The longer it takes, the more seldom it is asked for, which
        takes time from the page too."""
        from selenium.common.exceptions import (
            ElementClickInterceptedException,
            ElementNotInteractableException,
            JavascriptException,
            NoSuchElementException,
            StaleElementReferenceException,
            TimeoutException,
        )

        pause, until, last = SOON, time.monotonic() + SECONDS, None
        while time.monotonic() < until:
            # What was found may be redrawn, hidden or covered before it is asked or clicked, the
            # page may be loaded anew, and one that paints may answer late.
            try:
                if is_so():
                    return
                last = None
            except (
                ElementClickInterceptedException,
                ElementNotInteractableException,
                JavascriptException,
                NoSuchElementException,
                StaleElementReferenceException,
                TimeoutException,
            ) as error:
                last = error
            time.sleep(pause)
            pause = min(1.5 * pause, LATE)
        raise TimeoutException(f"after {SECONDS} seconds it is not so: {self.told()}") from last

    def told(self) -> str:
        """What the page says of itself, for whoever reads that a test failed."""
        from selenium.common.exceptions import WebDriverException

        try:
            said = [self.driver.execute_script(SAID), self.driver.get_log("browser")[-5:]]
        except WebDriverException as error:
            return f"the page does not answer: {error.msg}"
        return json.dumps(said, ensure_ascii=False)

    def actions(self) -> Any:
        """What a pointer and keys do, one after the other, once it is performed."""
        from selenium.webdriver.common.action_chains import ActionChains

        chains: Any = ActionChains
        return chains(self.driver)

    def text(self, place: str) -> str:
        return str(
            self.driver.execute_script(
                "return document.querySelector(arguments[0])?.innerText ?? ''", place
            )
        )

    def fact(self, term: str) -> str:
        """What is told of the choice by this term, or nothing."""
        script = (
            "return [...document.querySelectorAll('#what dt')].find((it) => it.innerText === "
            "arguments[0])?.nextElementSibling.innerText ?? ''"
        )
        return str(self.driver.execute_script(script, term))

    def value(self) -> int:
        return int(self.text("#value strong"))

    def reached(self, found: Any) -> Any:
        """An element, once the tab of the panel is open that has it."""
        self.driver.execute_script(REACH, found)
        return found

    def find(self, place: str) -> Any:
        return self.reached(self.driver.find_element("css selector", place))

    def act_on(self, find: Callable[[], Any], act: Callable[[Any], object]) -> None:
        """Does something to an element once it is there. Where it was replaced by another one, or
        was hidden, before this could be done to it, it is found again."""

        def is_done() -> bool:
            act(self.reached(find()))
            return True

        self.wait(is_done)

    def click(self, place: str) -> None:
        self.act_on(
            lambda: self.driver.find_element("css selector", place), lambda found: found.click()
        )

    def keys(self, place: str, *keys: str) -> None:
        """Sends keys to an element, once it can take them."""
        self.act_on(
            lambda: self.driver.find_element("css selector", place),
            lambda found: found.send_keys(*keys),
        )

    def press(self, word: str) -> None:
        """Presses the button of this name, once it is there."""
        self.act_on(lambda: self.button(word), lambda found: found.click())

    def button(self, word: str) -> Any:
        return self.driver.find_element(
            "xpath", f"//button[text()={word!r} or @aria-label={word!r}]"
        )

    def by_role(self, role: str, name: str) -> Any:
        """What is seen that has this role, and a name that begins with this, once it is there."""
        found: list[Any] = []

        def is_found() -> bool:
            for it in self.driver.find_elements("css selector", SEEN_ROLES):
                if it.aria_role == role and it.accessible_name.startswith(name):
                    found[:] = [it] if it.is_displayed() else []
                    if found:
                        return True
            return False

        self.wait(is_found)
        return found[0]

    def press_role(self, role: str, name: str) -> None:
        """Clicks what has this role, and a name that begins with this, once it is there."""
        self.act_on(lambda: self.by_role(role, name), lambda found: found.click())

    def focused_id(self) -> str:
        """The id of what has the focus, or nothing."""
        return str(self.driver.execute_script("return document.activeElement?.id ?? ''"))

    def write(self, place: str, *keys: str) -> None:
        """Types into a field, in place of what stands there."""

        def type_keys(field: Any) -> None:
            field.clear()
            field.send_keys(*keys)

        self.act_on(lambda: self.driver.find_element("css selector", place), type_keys)

    def choose(self, place: str, name: str) -> None:
        """Clicks a part of the picture until it is chosen: its label, or if that has no room the
        part itself. A label may move away under the pointer when others come."""
        from selenium.common.exceptions import ElementClickInterceptedException

        def click(label: Any) -> None:
            if not label.is_displayed():
                self.driver.execute_script(
                    "arguments[0].dispatchEvent(new MouseEvent('click', { bubbles: true }))", label
                )
                return
            try:
                label.click()
            except ElementClickInterceptedException:
                # The line of another part lies over it.
                self.actions().move_to_element(label).click().perform()

        def is_chosen() -> bool:
            click(self.driver.find_element("css selector", f"#{place} text"))
            self.settle()
            return self.text("#what h3") == name

        self.settle()
        self.wait(is_chosen)

    def choose_found(self, name: str) -> None:
        """Chooses what a typed text finds first. What is found may be redrawn under the pointer,
        so this is clicked until it is chosen."""

        def is_chosen() -> bool:
            if self.text("#what h3") == name:
                return True
            if self.text("#found button").startswith(name + ","):
                self.click("#found button")
            return False

        self.wait(is_chosen)

    def after(self, act: Callable[[], None]) -> int:
        """The value once a click has made a step, or has gone to one, and the picture shows it."""
        self.settle()
        act()
        self.settle()
        return self.value()

    def undo(self) -> int:
        return self.after(lambda: self.click("#undo"))
