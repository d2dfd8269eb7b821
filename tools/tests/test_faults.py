"""What is seen of a fault of files and outputs."""
import fcntl
import os
import time
import unittest

import faults
from tests.rooms import Room


class Faults(Room):
    def setUp(self) -> None:
        super().setUp()
        self.image = f"{self.room}/d.img"
        self.begun = time.time() + 60
        self.put("d.img", bytes(100))

    def why(self, *words: str) -> str:
        return faults.why_fault(words, self.begun)

    def test_files_that_cannot_be_read(self) -> None:
        self.assertIn("is a folder", self.why("try", self.room))
        self.assertIn("Not a directory", self.why("run", self.image, f"{self.image}/c.txt"))
        self.assertIn("File name too long", self.why("explain", "x" * 300))

    def test_images_that_cannot_be_saved(self) -> None:
        self.assertIn("there is no folder", self.why("format", f"{self.room}/no/d.img"))
        for number in ("", *range(2, 100)):
            os.symlink("nowhere", f"{self.image}.saving{number}")
        self.assertIn("are taken", self.why("retire", self.image, "0"))

    def test_another_run(self) -> None:
        with open(self.image, "rb") as file:
            fcntl.flock(file, fcntl.LOCK_EX)
            self.assertIn("another program has the lock", self.why("run", self.image, "c.txt"))
        self.begun = 0.0
        self.assertIn("was written while this call worked", self.why("run", self.image, "c.txt"))

    def test_outputs(self) -> None:
        with open("/dev/full", "wb") as full:
            self.assertIn("/dev/full", faults.why_not_said(full.fileno()))
        reader, writer = os.pipe()
        self.assertIsNone(faults.why_not_said(writer))
        os.close(reader)
        self.assertIn("nobody reads", faults.why_not_said(writer))
        os.close(writer)
        self.assertIn("closed", faults.why_not_said(writer))

    def test_what_cannot_be_seen(self) -> None:
        self.assertIn("cannot be seen", self.why("try", self.image))


if __name__ == "__main__":
    unittest.main()
