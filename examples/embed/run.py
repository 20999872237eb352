"""The store from Python by ctypes: runs the script on standard input over a new image in memory, and prints the replies.

    run.py LIBRARY    LIBRARY is a shared object that was made from libflashts.a (docs/EMBED.md)
"""
import ctypes
import os
import sys

flashts = ctypes.CDLL(os.path.abspath(sys.argv[1]))
flashts.flashts_run.restype = ctypes.c_uint32

script = sys.stdin.buffer.read()
image_room, replies_room = 1 << 24, 1 << 24
image, replies = ctypes.create_string_buffer(image_room), ctypes.create_string_buffer(replies_room)
image_len, replies_len, line = ctypes.c_size_t(), ctypes.c_size_t(), ctypes.c_uint64()

status = flashts.flashts_run(
    image, ctypes.c_size_t(image_room), ctypes.byref(image_len), script, ctypes.c_size_t(len(script)),
    replies, ctypes.c_size_t(replies_room), ctypes.byref(replies_len), ctypes.byref(line))

sys.stdout.buffer.write(replies.raw[:replies_len.value])
sys.exit(status)
