"""The sample, and a file of the same table in other words, written at several widths."""
import unittest

from support import FILE, MODEL, ROOT, vendorfinch

DATA = ROOT / "tests/command/data"
SAME_TABLE = DATA / "same_table.itf"
NARROW = DATA / "sample_16.out"


class WriteSample(unittest.TestCase):
    def written(self, file, width, expected):
        status, out, err = vendorfinch("write", "--width", str(width), MODEL, file)
        self.assertEqual((status, out, err), (0, expected.read_bytes(), b""))

    def test_lines_cut_at_16(self):
        self.written(FILE, 16, NARROW)
        self.written(SAME_TABLE, 16, NARROW)

    def test_lines_whole_from_21(self):
        for width in (21, 80, 65535):
            with self.subTest(width=width):
                self.written(FILE, width, FILE)
                self.written(SAME_TABLE, width, FILE)

    def test_cut_lines_read_again(self):
        self.written(NARROW, 80, FILE)


if __name__ == "__main__":
    unittest.main()
