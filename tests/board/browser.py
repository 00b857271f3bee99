"""A browser before the page: a static server, chromium without a window, and hands that touch and type."""

from __future__ import annotations

import functools
import http.server
import os
import shutil
import tempfile
import threading
import time
from pathlib import Path

from selenium import webdriver
from selenium.webdriver.chrome.options import Options
from selenium.webdriver.chrome.service import Service
from selenium.webdriver.common.actions import interaction
from selenium.webdriver.common.actions.action_builder import ActionBuilder
from selenium.webdriver.common.actions.pointer_input import PointerInput
from selenium.webdriver.common.by import By

CHECKOUT = Path(__file__).resolve().parents[2]
PAGE = CHECKOUT / "target" / "board"
PATIENCE = 40  # seconds: the machine may be busy


class _Quiet(http.server.SimpleHTTPRequestHandler):
    _KINDS = {".mjs": "text/javascript", ".wasm": "application/wasm"}
    extensions_map = {**http.server.SimpleHTTPRequestHandler.extensions_map, **_KINDS}

    def log_message(self, *_):
        pass


class Server:
    """Serves the assembled page until it is stopped."""

    def __init__(self, folder: Path = PAGE):
        handler = functools.partial(_Quiet, directory=str(folder))
        self._server = http.server.ThreadingHTTPServer(("127.0.0.1", 0), handler)
        self.url = f"http://127.0.0.1:{self._server.server_port}/"
        threading.Thread(target=self._server.serve_forever, daemon=True).start()

    def stop(self) -> None:
        self._server.shutdown()
        self._server.server_close()


class Browser:
    """One window; every element is found by CSS."""

    def __init__(self, width: int, height: int):
        options = Options()
        for argument in (
            "--headless=new",
            "--no-sandbox",
            "--disable-gpu",
            "--disable-dev-shm-usage",
            "--touch-events=enabled",
            "--force-device-scale-factor=1",
            "--hide-scrollbars",
            "--force-prefers-reduced-motion",
            f"--window-size={width},{height}",
        ):
            options.add_argument(argument)
        self.downloads = Path(tempfile.mkdtemp())
        options.add_experimental_option("prefs", {"download.default_directory": str(self.downloads)})
        options.set_capability("goog:loggingPrefs", {"browser": "ALL"})
        self.driver = webdriver.Chrome(service=Service(shutil.which("chromedriver"), log_path=os.devnull), options=options)
        self.driver.set_script_timeout(PATIENCE)
        size = {"width": width, "height": height, "deviceScaleFactor": 1, "mobile": False}
        self.driver.execute_cdp_cmd("Emulation.setDeviceMetricsOverride", size)

    def open(self, url: str) -> None:
        self.driver.get(url)
        self.wait("body[data-ready]")

    def forget(self, url: str) -> None:
        """Takes away what the page has kept."""
        kept = {"origin": url.rstrip("/"), "storageTypes": "local_storage"}
        self.driver.execute_cdp_cmd("Storage.clearDataForOrigin", kept)

    def close(self) -> None:
        self.driver.quit()

    def run(self, script: str, *arguments):
        return self.driver.execute_script(script, *arguments)

    def until(self, what, told: str):
        """Waits for something to be so."""
        end = time.monotonic() + PATIENCE
        while True:
            found = what()
            if found or time.monotonic() > end:
                break
            time.sleep(0.05)
        if not found:
            raise AssertionError(f"in vain: {told}")
        return found

    def wait(self, selector: str):
        return self.until(lambda: self.all(selector), selector)[0]

    def all(self, selector: str):
        return self.driver.find_elements(By.CSS_SELECTOR, selector)

    def text(self, selector: str) -> str:
        return self.run("return document.querySelector(arguments[0])?.textContent ?? ''", selector)

    def until_text(self, selector: str, wanted: str) -> None:
        self.until(lambda: wanted in self.text(selector), f"{wanted!r} in {selector}: {self.text(selector)!r}")

    def middle(self, selector: str) -> tuple[int, int]:
        """Where an element's middle is, once it is in sight; the board is brought there whole."""
        place = self.run(
            "const e = document.querySelector(arguments[0]);"
            "(e.closest('#canvas') ?? e).scrollIntoView({block: 'center', behavior: 'instant'});"
            "const r = e.getBoundingClientRect(); return [r.left + r.width / 2, r.top + r.height / 2]",
            selector,
        )
        return int(place[0]), int(place[1])

    def finger(self, *path: tuple[int, int]) -> None:
        """Touches the first place, goes through the others and lets go."""
        actions = ActionBuilder(self.driver, mouse=PointerInput(interaction.POINTER_TOUCH, "finger"), duration=20)
        pointer = actions.pointer_action
        pointer.move_to_location(*path[0])
        pointer.pointer_down()
        for place in path[1:]:
            pointer.move_to_location(*place)
        pointer.pointer_up()
        actions.perform()

    def tap(self, selector: str) -> None:
        self.wait(selector)
        self.finger(self.middle(selector))

    def keys(self, *keys: str) -> None:
        """Types into whatever has the focus."""
        self.driver.switch_to.active_element.send_keys(*keys)

    def give_files(self, selector: str, *paths: Path) -> None:
        self.all(selector)[0].send_keys("\n".join(map(str, paths)))

    def kept(self, name: str) -> str:
        """A file that was kept, once it is there."""
        path = self.downloads / name
        self.until(path.exists, f"{name} among the downloads")
        return path.read_text(encoding="utf-8")

    def until_kept(self, title: str) -> None:
        """Waits until the browser has the files of a world."""
        script = (
            "const done = arguments[0], opening = indexedDB.open('bahrufaz-board', 1); opening.onsuccess = () => {"
            "const get = opening.result.transaction('world').objectStore('world').get('last');"
            "get.onsuccess = () => done(get.result?.title ?? '') }"
        )
        self.until(lambda: self.driver.execute_async_script(script) == title, f"{title} kept")

    def picture(self, path: Path) -> None:
        self.driver.save_screenshot(str(path))

    def complaints(self) -> list[str]:
        """What the console has told since the last call, but for what is merely said."""
        return [entry["message"] for entry in self.driver.get_log("browser") if entry["level"] in ("SEVERE", "WARNING")]
