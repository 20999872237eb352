#!/usr/bin/env python3
"""forge.py IMAGE: writes an image of 2 MiB whose rows each name a blob that spans the whole ring of variable data.

No run leaves such an image, and it is sound. A check that followed each reference from page to page would read some 17 million pages.
"""
import struct
import sys

PAGE, BLOCK, BLOCKS = 4096, 2, 128
CONTENT = PAGE - 16
ROWS = (PAGE - 24) // 15
KEPT = (BLOCKS - 1) * BLOCK


def page(body):
    """A committed page: its body, FF behind it, the commit field and the void field."""
    return body.ljust(PAGE - 8, b"\xff") + b"\x00" * 4 + b"\xff" * 4


def data_page(number):
    rows = (struct.pack("<IBIHI", 1 + number * ROWS + i, 0, 0, 0, KEPT * CONTENT) for i in range(ROWS))
    return page(struct.pack("<IHHQ", number, ROWS, 0, 0) + b"".join(rows))


def content_page(number):
    return page(struct.pack("<IHH", number, CONTENT, 0) + b"x" * CONTENT)


with open(sys.argv[1], "wb") as image:
    image.write(f"device {PAGE} {BLOCK}\ntable t 4 u8 {BLOCKS} 0 {BLOCKS} 0 0 1 1 1500\n".encode().ljust(1024))
    for made in (data_page, content_page):
        for number in range(KEPT):
            image.write(made(number))
        image.write(b"\xff" * BLOCK * PAGE)
