"""Chromium, driven by Selenium, where Debian's chromium, chromium-driver and python3-selenium are here."""
import atexit
import functools
import importlib.util
import shutil
import sys
import tempfile
from typing import Any

DEBIAN = "/usr/lib/python3/dist-packages"  # which another Python than Debian's doesn't search
MISSING = "chromium, chromium-driver or python3-selenium isn't here"
WIDTH, HEIGHT = 1280, 1000  # of a window


def is_here() -> bool:
    if importlib.util.find_spec("selenium") is None and DEBIAN not in sys.path:
        sys.path.append(DEBIAN)
    return bool(shutil.which("chromium") and shutil.which("chromedriver") and importlib.util.find_spec("selenium"))


@functools.cache
def chromium() -> Any:
    """A browser without a window, in which all tests look at their pages one after another, since it starts slowly. As
    an app it has no bars, which take as long again."""
    from selenium import webdriver
    from selenium.webdriver.chrome.options import Options
    from selenium.webdriver.chrome.service import Service
    kept, options = tempfile.TemporaryDirectory(ignore_cleanup_errors=True), Options()
    for word in ("--headless", "--no-sandbox", "--disable-gpu", "--disable-dev-shm-usage",
                 f"--user-data-dir={kept.name}",
                 f"--window-size={WIDTH},{HEIGHT}", "--force-device-scale-factor=1", "--app=data:,"):
        options.add_argument(word)
    options.binary_location = shutil.which("chromium") or ""
    driver = webdriver.Chrome(service=Service(shutil.which("chromedriver") or ""), options=options)
    atexit.register(kept.cleanup)
    atexit.register(driver.quit)
    return driver
