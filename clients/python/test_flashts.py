#!/usr/bin/env python3
"""test_flashts.py PROGRAM: tries each call of the client over the built program. The last line counts the tests."""
import pathlib
import sys
import tempfile
import unittest

sys.path.insert(0, str(pathlib.Path(__file__).resolve().parent))
import flashts

PROGRAM = "flashts"
LINES = ["device 128 4", "table env 4 i16,u8 8 0 0 16 -200 25 2 0", "table notes 4 u8 4 0 4 0 0 1 1 60"]


class Client(unittest.TestCase):
    def setUp(self):
        self.folder = tempfile.TemporaryDirectory()
        self.addCleanup(self.folder.cleanup)
        self.image = f"{self.folder.name}/sensor.img"

    def open(self, lines=LINES, **words):
        store = flashts.open(self.image, lines, PROGRAM, **words)
        self.addCleanup(store.kill)
        return store

    def test_rows_come_back(self):
        with self.open() as store:
            self.assertIsNone(store.last("env"))
            store.put("env", 10, -31, 52)
            store.put("env", 70, -30, 52)
            store.flush("env")
            store.put("env", 130, 12, 40)
            self.assertEqual(store.scan("env"), [(10, -31, 52), (70, -30, 52), (130, 12, 40)])
            self.assertEqual(store.scan("env", 11, 70), [(70, -30, 52)])
            self.assertEqual(store.scan("env", span=(0, 100)), [(130, 12, 40)])
            self.assertEqual(store.get("env", 70), (70, -30, 52))
            self.assertIsNone(store.get("env", 71))
            self.assertEqual((store.first("env"), store.last("env")), (10, 130))
            self.assertEqual(store.counts("env"), (3, 1, 1, 0))

    def test_operators(self):
        with self.open() as store:
            self.assertEqual(store.put_all("env", [(k, k % 7, 1) for k in range(1, 301)]), 300)
            self.assertEqual(store.select("env", 1, "eq", 6, 1, 20), [(6, 6, 1), (13, 6, 1), (20, 6, 1)])
            self.assertEqual(store.project("env", [1, 0], 1, 2), [(1, 1), (2, 2)])
            self.assertEqual(store.groups("env", 1, 10, 10, 19), [flashts.Group(1, 10, 0, 6, 33, 3)])
            store.put("notes", 6, 9)
            self.assertEqual(store.join("env", "notes"), [(6, 6, 1, 9)])

    def test_blobs(self):
        with self.open() as store:
            store.put("notes", 1, 5, blob=b"hello")
            store.put("notes", 2, 6, blob=b"")
            store.put("notes", 3, 7)
            self.assertEqual(store.scan("notes"), [(1, 5, 5), (2, 6, 0), (3, 7, None)])
            self.assertEqual([store.blob("notes", key) for key in (1, 2, 3, 4)], [b"hello", b"", None, None])

    def test_refusals_are_exceptions(self):
        with self.open() as store:
            store.put("env", 10, 1, 2)
            with self.assertRaises(flashts.Refused) as refused:
                store.put("env", 10, 1, 2)
            self.assertEqual((refused.exception.cause, refused.exception.wanted), ("key", 10))
            with self.assertRaises(flashts.Refused):
                store.put("env", 11, 1)
            with self.assertRaises(flashts.NoTable):
                store.flush("envy")
            with self.assertRaises(flashts.BadCommand):
                store.get("5", 1)
            with self.assertRaises(TypeError):
                store.put("env", 12, 1.5, 2)
            with self.assertRaises(ValueError):
                store.ask("off\noff")
            self.assertEqual(store.last("env"), 10)

    def test_the_end_flushes(self):
        with self.open() as store:
            store.put("env", 10, 1, 2)
        with self.assertRaises(ValueError):
            store.last("env")
        with self.open(lines=()) as store:
            self.assertEqual(list(store.tables), ["env", "notes"])
            self.assertEqual(store.scan("env"), [(10, 1, 2)])

    def test_off_loses_what_is_pending(self):
        with self.open() as store:
            store.put("env", 10, 1, 2)
            store.off()
            with self.assertRaises(flashts.NotMounted):
                store.scan("env")
            store.mount()
            self.assertEqual(store.scan("env"), [])

    def test_a_cut_is_an_exception(self):
        with self.open() as store:
            store.put("env", 10, 1, 2)
            store.flush("env")
            store.put("env", 20, 1, 2)
            store.ask("cut 1 half")
            with self.assertRaises(flashts.PowerLost):
                store.flush("env")
            store.mount()
            self.assertEqual(store.scan("env"), [(10, 1, 2)])

    def test_a_configuration_is_told(self):
        with self.open() as store:
            self.assertEqual(store.describe(), LINES)
            self.assertEqual(store.tables["notes"], flashts.Table("notes", 4, ("u8",), True))
        with self.open(), self.assertRaises(flashts.Ended) as ended:
            self.open()
        self.assertIn("call again if that one has ended", str(ended.exception))
        with self.assertRaises(flashts.BadCommand):
            self.open(lines=["device 256 4"])

    def test_a_bad_configuration_leaves_no_file(self):
        with self.assertRaises(flashts.BadCommand):
            self.open(lines=["device 100 4"])
        self.assertFalse(pathlib.Path(self.image).exists())

    def test_synced(self):
        with self.open(sync=True) as store:
            store.put("env", 10, 1, 2)
            store.flush()
            self.assertEqual(store.scan("env"), [(10, 1, 2)])

    def test_reading_and_writing_of_many_lines(self):
        with self.open(["device 256 16", "table env 4 i16,u8 64 0 0 16 -200 25 2 0"]) as store:
            rows = [(key, key % 100, key % 3) for key in range(1, 20001)]
            self.assertEqual(store.put_all("env", rows), len(rows))
            self.assertEqual(store.scan("env"), rows)


if __name__ == "__main__":
    if len(sys.argv) != 2:
        sys.exit("usage: test_flashts.py PROGRAM")
    PROGRAM = sys.argv.pop()
    unittest.main()
