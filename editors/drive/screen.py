"""A display of its own for an editor (Xvfb), keys for what is on it (xdotool), and its pictures as PNG."""
from __future__ import annotations

import collections
import os
import struct
import subprocess
import tempfile
import time
import zlib

NEEDED = ("Xvfb", "xdotool")
START = 30.0  # seconds that a display gets at most to start
MOST_COLORS = 256
LEVELS = (256, 86, 52, 35, 18, 16, 6)  # of red, green and blue, the finest that gives few enough colors; 6 always does


class Screen:
    """A display. Programs find it by `settings`, and see a home that is removed at the end."""

    def __init__(self, width: int, height: int):
        self.folder = tempfile.TemporaryDirectory()
        name = ":%d" % (os.getpid() % 10000 + 100)
        size = f"{width}x{height}x24"
        words = ["Xvfb", name, "-screen", "0", size, "-fbdir", self.folder.name, "-nolisten", "tcp"]
        self.server = subprocess.Popen(words, stderr=subprocess.DEVNULL)
        self.settings = {**os.environ, "DISPLAY": name, "HOME": self.folder.name, "XDG_RUNTIME_DIR": self.folder.name}
        for variable in ("XDG_CONFIG_HOME", "XDG_DATA_HOME", "WAYLAND_DISPLAY"):
            self.settings.pop(variable, None)

    def __enter__(self) -> "Screen":
        until = time.monotonic() + START
        while subprocess.run(["xdotool", "getdisplaygeometry"], env=self.settings, capture_output=True).returncode:
            if time.monotonic() > until:
                raise SystemExit("the display doesn't start")
            time.sleep(0.2)
        return self

    def __exit__(self, *_: object) -> None:
        self.server.terminate()
        self.server.wait()
        self.folder.cleanup()

    def do(self, *words: str) -> bool:
        """Lets xdotool do something, and answers whether it could."""
        return subprocess.run(["xdotool", *words], env=self.settings, capture_output=True).returncode == 0

    def take(self, place: str) -> None:
        """Writes what the display shows as a PNG, with the mouse out of the way."""
        self.do("mousemove", "4000", "4000")
        time.sleep(1)
        with open(os.path.join(self.folder.name, "Xvfb_screen0"), "rb") as file:
            width, height, pixels = dump(file.read())
        with open(place, "wb") as file:
            file.write(png(width, height, pixels))


def dump(text: bytes) -> tuple[int, int, bytes]:
    """The width, the height and the pixels, of three bytes each, of what Xvfb keeps in its file: an X window dump."""
    header = struct.unpack(">25I", text[:100])
    width, height, line, colors = header[4], header[5], header[12], header[19]
    start = header[0] + 12 * colors
    rows = (text[start + line * row:][: 4 * width] for row in range(height))
    pixels = bytearray(3 * width * height)
    whole = b"".join(rows)
    pixels[0::3], pixels[1::3], pixels[2::3] = whole[2::4], whole[1::4], whole[0::4]
    return width, height, bytes(pixels)


def part(kind: bytes, text: bytes) -> bytes:
    """A part of a PNG."""
    return struct.pack(">I", len(text)) + kind + text + struct.pack(">I", zlib.crc32(kind + text))


def reduced(pixels: bytes) -> tuple[bytes, list[bytes]]:
    """The pixels as numbers of colors, and these colors: at most 256, for which close ones are made one."""
    for levels in LEVELS:
        fewer = pixels.translate(bytes(round(value * (levels - 1) / 255) * 255 // (levels - 1) for value in range(256)))
        colors = collections.Counter(fewer[at:at + 3] for at in range(0, len(fewer), 3))
        if len(colors) <= MOST_COLORS:
            break
    listed = [color for color, _ in colors.most_common()]
    numbers = {color: number for number, color in enumerate(listed)}
    return bytes(numbers[fewer[at:at + 3]] for at in range(0, len(fewer), 3)), listed


def png(width: int, height: int, pixels: bytes) -> bytes:
    numbers, colors = reduced(pixels)
    rows = b"".join(b"\0" + numbers[width * row:][:width] for row in range(height))
    header = struct.pack(">IIBBBBB", width, height, 8, 3, 0, 0, 0)
    parts = ((b"IHDR", header), (b"PLTE", b"".join(colors)), (b"IDAT", zlib.compress(rows, 9)), (b"IEND", b""))
    return b"\x89PNG\r\n\x1a\n" + b"".join(part(*one) for one in parts)
