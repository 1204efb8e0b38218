"""The notes in a browser, as a person uses them: chromium without a window, driven by selenium."""
import shutil
from typing import Any

from lib.program import lacks, lacks_modules

WIDTH, HEIGHT, SECONDS = 560, 420, 30


def lacking() -> list[str]:
    """Returns what this machine has not (Debian: chromium, chromium-driver, python3-selenium)."""
    return lacks("chromium", "chromedriver") + lacks_modules("selenium")


def browser() -> Any:
    """Returns a browser without a window. As root it needs to run without a sandbox of its own."""
    from selenium import webdriver
    from selenium.webdriver.chrome.service import Service

    options: Any = webdriver.ChromeOptions()
    for word in ["--headless=new", "--no-sandbox", "--disable-dev-shm-usage", "--hide-scrollbars", f"--window-size={WIDTH},{HEIGHT}"]:
        options.add_argument(word)
    return webdriver.Chrome(options=options, service=Service(shutil.which("chromedriver") or "chromedriver"))


class Page:
    """The page of notes in a browser, and the forms on it."""

    def __init__(self, driver: Any, port: int) -> None:
        self.driver, self.address = driver, f"http://127.0.0.1:{port}/Main/list/"

    def open(self, who: str) -> None:
        self.driver.get(self.address + who)

    def inputs(self, note: str | None = None) -> list[Any]:
        """Returns the forms after the text of a note, and the last form of the page without one: each the list of its inputs."""
        paths = ["//form[last()]"] if note is None else [f"//p[.='{note}']/following-sibling::form[{at}]" for at in (1, 2)]
        return [self.driver.find_elements("xpath", path + "/input") for path in paths]

    def send(self, button: Any, text: str | None = None) -> None:
        """Fills the field before a button, and clicks the button. Returns when the next page is there."""
        from selenium.common.exceptions import WebDriverException
        from selenium.webdriver.support import expected_conditions
        from selenium.webdriver.support.wait import WebDriverWait

        field, submit = (None, button[0]) if text is None else button
        if field is not None:
            field.send_keys(text)
        conditions: Any = expected_conditions
        submit.click()
        # (a button whose page is just being replaced is for some milliseconds one of no document: asked again, it is stale)
        WebDriverWait(self.driver, SECONDS, ignored_exceptions=[WebDriverException]).until(conditions.staleness_of(submit))

    def add(self, text: str) -> None:
        self.send(self.inputs()[0], text)

    def drop(self, note: str) -> None:
        self.send(self.inputs(note)[0])

    def move(self, note: str, to: str) -> None:
        self.send(self.inputs(note)[1], to)

    def shows(self) -> list[str]:
        """Returns the heading and the texts that the browser shows."""
        return [each.text for each in self.driver.find_elements("xpath", "//h1 | //p")]
