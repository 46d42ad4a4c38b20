"""Drives GrafX2 through its window, on a screen of its own: it has no command that saves.

`python3 grafx2.py OUT FILE..` opens each file and saves it as a PNG.
Needs Debian's grafx2, xvfb and xdotool. Places are those of the 640 by 480 window that version 2.8 opens.
"""

import os
import pathlib
import subprocess
import sys
import tempfile
import time

FORMAT, TEXT = (198, 107), (350, 187)
ITEMS = {"png": (192, 178), "lbm": (192, 241), "pbm": (192, 257)}
ENDINGS = {"png": ".png", "lbm": ".iff", "pbm": ".iff"}


def wait_for(seconds, ask):
    end = time.monotonic() + seconds
    while time.monotonic() < end:
        told = ask()
        if told:
            return told
        time.sleep(0.1)
    raise TimeoutError


class Screen:
    """A screen for `with`, on which `saved` opens a file and saves it in another format."""

    def __enter__(self):
        told, tell = os.pipe()
        words = ["Xvfb", "-displayfd", str(tell), "-noreset", "-screen", "0", "800x600x24"]
        self.server = subprocess.Popen(words, pass_fds=[tell], stderr=subprocess.DEVNULL)
        os.close(tell)
        with os.fdopen(told) as numbers:
            self.display = ":" + numbers.readline().strip()
        return self

    def __exit__(self, *_):
        self.server.terminate()
        self.server.wait()

    def do(self, *words):
        """xdotool, with what it prints."""
        given = {**os.environ, "DISPLAY": self.display}
        return subprocess.run(("xdotool", *words), env=given, capture_output=True, text=True).stdout

    def move(self, window, place, *then):
        self.do("mousemove", "--window", window, *map(str, place), "sleep", "0.3", *then, "sleep", "0.5")

    def fill_in(self, window, kind, comment):
        """The window `Save picture`: the format, by pulling its list down, and the comment."""
        self.move(window, FORMAT, "mousedown", "1")
        self.move(window, ITEMS[kind], "mouseup", "1")
        if comment:
            self.move(window, TEXT, "click", "1")
            self.do("type", "--delay", "60", comment)
            self.do("key", "Return", "sleep", "0.5")
        self.do("key", "Return", "sleep", "0.5")

    def saved(self, file, kind, comment=""):
        """What GrafX2 saves of a file that it opens; a key that came too early is pressed again."""
        for _ in range(3):
            try:
                return self.saved_once(file, kind, comment)
            except TimeoutError:
                print(f"{file.name}: again", file=sys.stderr)
        raise TimeoutError

    def saved_once(self, file, kind, comment):
        with tempfile.TemporaryDirectory() as home:
            opened = pathlib.Path(home, file.name)
            opened.write_bytes(file.read_bytes())
            saved = opened.with_suffix(ENDINGS[kind])
            program = self.started(opened.name, home)
            try:
                found = "search", "--onlyvisible", "--pid", str(program.pid)
                window = wait_for(20, lambda: self.do(*found).strip())
                time.sleep(1.5)
                self.do("key", "F2", "sleep", "1")
                self.fill_in(window, kind, comment)
                wait_for(5, saved.exists)
                time.sleep(0.3)
                return saved.read_bytes()
            finally:
                program.kill()
                program.wait()

    def started(self, name, home):
        given = {**os.environ, "DISPLAY": self.display, "HOME": home, "XDG_CONFIG_HOME": home}
        given["SDL_AUDIODRIVER"] = "dummy"
        quiet = {"stdout": subprocess.DEVNULL, "stderr": subprocess.DEVNULL}
        return subprocess.Popen(["grafx2", name], cwd=home, env=given, **quiet)


def main():
    out, *files = map(pathlib.Path, sys.argv[1:])
    with Screen() as screen:
        for file in files:
            (out / file.with_suffix(".png").name).write_bytes(screen.saved(file, "png"))


if __name__ == "__main__":
    main()
