"""Chromium over the pages: signs in, looks at sizes and colours, and says what the console said."""
from __future__ import annotations

import base64
import contextlib
import pathlib
import time
from collections.abc import Callable, Iterator
from typing import Any

from harness import HubProcess, limit
from selenium import webdriver
from selenium.common.exceptions import JavascriptException, NoSuchElementException, StaleElementReferenceException
from selenium.webdriver.chrome.options import Options
from selenium.webdriver.chrome.service import Service as Driver
from selenium.webdriver.common.by import By
from selenium.webdriver.common.keys import Keys
from selenium.webdriver.remote.webelement import WebElement

WIDE, NARROW = (1280, 900), (390, 844)
SECONDS = 30.0
PASSING = (NoSuchElementException, StaleElementReferenceException, JavascriptException)


class Browser:
    """A window of Chromium, without a head."""

    def __init__(self) -> None:
        options = Options()
        options.binary_location = '/usr/bin/chromium'
        for word in ('--headless=new', '--no-sandbox', '--disable-dev-shm-usage', '--hide-scrollbars',
                     '--window-size=1280,900', '--force-color-profile=srgb'):
            options.add_argument(word)
        options.set_capability('goog:loggingPrefs', {'browser': 'ALL'})
        self.driver = webdriver.Chrome(service=Driver('/usr/bin/chromedriver'), options=options)
        self.driver.set_page_load_timeout(SECONDS)
        self.hub: HubProcess | None = None

    def command(self, name: str, **given: Any) -> Any:
        """A command of the DevTools protocol."""
        return self.driver.execute_cdp_cmd(name, given)

    def look(self, size: tuple[int, int] = WIDE, dark: bool = False, still: bool = False) -> None:
        """Sets the size of the window, and what the system prefers."""
        self.command('Emulation.setDeviceMetricsOverride', width=size[0], height=size[1], deviceScaleFactor=1,
                     mobile=False)
        features = [{'name': 'prefers-color-scheme', 'value': 'dark' if dark else 'light'},
                    {'name': 'prefers-reduced-motion', 'value': 'reduce' if still else ''}]
        self.command('Emulation.setEmulatedMedia', features=features)

    def open(self, path: str) -> None:
        """Opens a page of the hub."""
        assert self.hub is not None
        self.driver.get(f'{self.hub.url}{path}')

    def sign_in(self, hub: HubProcess, secret: str, back: str = '/') -> None:
        """Signs in by the form, as a person does."""
        self.hub = hub
        self.sign_out()
        self.open(back)
        self.one('#token').send_keys(secret)
        self.one('main button').click()
        self.until(lambda: '/sign-in' not in self.driver.current_url, 'signed in')

    def sign_out(self) -> None:
        """Forgets all cookies."""
        self.command('Network.clearBrowserCookies')

    def one(self, selector: str) -> WebElement:
        """The first element of a selector."""
        return self.driver.find_element(By.CSS_SELECTOR, selector)

    def all(self, selector: str) -> list[WebElement]:
        """The elements of a selector."""
        return self.driver.find_elements(By.CSS_SELECTOR, selector)

    def has(self, selector: str) -> bool:
        """Whether there is one."""
        return bool(self.all(selector))

    def named(self, words: str, tag: str = 'button') -> list[WebElement]:
        """The elements that show these words."""
        return [one for one in self.all(tag) if one.text.strip() == words]

    def text(self, selector: str = 'main') -> str:
        """The text that is shown."""
        return str(self.one(selector).text)

    def run(self, script: str, *given: Any) -> Any:
        """Runs a script in the page."""
        return self.driver.execute_script(script, *given)

    def until(self, test: Callable[[], Any], what: str, seconds: float = SECONDS) -> Any:
        """Waits until a test gives something."""
        late = limit(seconds)
        while time.monotonic() < late:
            with contextlib.suppress(*PASSING):
                if found := test():
                    return found
            time.sleep(0.01)
        raise AssertionError(f'it did not come: {what}\n{self.text("body")[:2000]}')

    def is_live(self) -> None:
        """Waits till the page follows changes."""
        self.until(lambda: self.run('return document.getElementById("live").dataset.state') == 'on',
                   'the page follows changes')

    def said(self) -> list[str]:
        """What the console said since the last time."""
        return [entry['message'] for entry in self.driver.get_log('browser')]

    def overflow(self) -> int:
        """How many pixels the page is wider than its window."""
        return int(self.run('return document.documentElement.scrollWidth - document.documentElement.clientWidth'))

    def press(self, *keys: str) -> WebElement:
        """Presses keys, and gives what has the focus."""
        for key in keys:
            self.driver.switch_to.active_element.send_keys(key)
        return self.driver.switch_to.active_element

    def tabs_to(self, words: str, most: int = 150) -> WebElement:
        """Presses Tab till what has the focus shows these words."""
        self.run('document.activeElement.blur(); window.scrollTo(0, 0)')
        self.one('body').send_keys(Keys.TAB)
        for _ in range(most):
            there = self.driver.switch_to.active_element
            if there.text.strip() == words:
                return there
            there.send_keys(Keys.TAB)
        raise AssertionError(f'Tab does not reach {words!r}')

    def picture(self, path: pathlib.Path) -> None:
        """Takes a picture of the window."""
        path.parent.mkdir(parents=True, exist_ok=True)
        path.write_bytes(base64.b64decode(self.command('Page.captureScreenshot', format='png')['data']))

    def close(self) -> None:
        """Ends Chromium."""
        self.driver.quit()


@contextlib.contextmanager
def chromium() -> Iterator[Browser]:
    """A browser that ends with its use."""
    made = Browser()
    try:
        yield made
    finally:
        made.close()
