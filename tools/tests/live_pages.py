"""The page that answers in a browser: its server in a thread, and what a test sees and does there."""

import asyncio
import threading
import time
from contextlib import contextmanager

from selenium import webdriver
from selenium.webdriver.chrome.service import Service
from selenium.webdriver.support.ui import WebDriverWait

from ctmtools.live.server import Server

PATIENCE = 120  # seconds, on a busy machine


def begun_browser():
    """A browser without a window, which reaches this machine alone."""
    options = webdriver.ChromeOptions()
    for word in ("--headless=new", "--no-sandbox", "--disable-gpu", "--hide-scrollbars", "--proxy-server=127.0.0.1:9",
                 "--proxy-bypass-list=127.0.0.1"):
        options.add_argument(word)
    options.set_capability("goog:loggingPrefs", {"browser": "ALL"})
    return webdriver.Chrome(service=Service("/usr/bin/chromedriver"), options=options)


@contextmanager
def serving(session, **terms):
    """A server of a session in a thread of its own; gives the address."""
    loop, begun, made = asyncio.new_event_loop(), threading.Event(), {}

    async def serve():
        server = made["server"] = Server(session, **terms)
        made["address"] = await server.begin()
        begun.set()
        await server.last()
        await server.end()

    thread = threading.Thread(target=lambda: loop.run_until_complete(serve()), daemon=True)
    thread.start()
    assert begun.wait(PATIENCE)
    try:
        yield made["address"]
    finally:
        if thread.is_alive():
            loop.call_soon_threadsafe(made["server"].ended.set)
            thread.join(PATIENCE)
        loop.close()


def until(browser, expression, *words):
    """Waits until an expression of the page holds, and gives its value."""
    return WebDriverWait(browser, PATIENCE, 0.05).until(lambda _: browser.execute_script(f"return {expression}", *words))


def opened(browser, address, width=1300, height=1000, scheme="light"):
    """Opens the page in a window of a size, and waits until it is drawn."""
    browser.execute_cdp_cmd("Emulation.setEmulatedMedia", {"features": [{"name": "prefers-color-scheme", "value": scheme}]})
    browser.execute_cdp_cmd("Emulation.setDeviceMetricsOverride", {"width": width, "height": height, "deviceScaleFactor": 1, "mobile": False})
    browser.get(address)
    until(browser, "document.body.dataset.drawn !== undefined && document.querySelector('#live-form input') !== null")


def is_drawn(browser, version):
    """Waits until the page has drawn a version of the study."""
    until(browser, "Number(document.body.dataset.drawn) >= arguments[0]", version)


def until_it_is(value, holds):
    """Waits until a value is as it is wanted, and gives it."""
    end = time.monotonic() + PATIENCE
    while not holds(found := value()):
        assert time.monotonic() < end, found
        time.sleep(0.02)
    return found
