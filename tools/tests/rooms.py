"""A test that has a folder for its files."""
import os
import tempfile
import unittest


class Room(unittest.TestCase):
    def setUp(self) -> None:
        room = tempfile.TemporaryDirectory()
        self.addCleanup(room.cleanup)
        self.room = room.name

    def put(self, name: str, data: bytes, mode: int = 0o644) -> None:
        """Writes a file, in a folder that is made if it is not there."""
        path = os.path.join(self.room, name)
        os.makedirs(os.path.dirname(path), exist_ok=True)
        with open(path, "wb") as file:
            file.write(data)
        os.chmod(path, mode)

    def get(self, name: str) -> bytes:
        """The bytes of a file."""
        with open(os.path.join(self.room, name), "rb") as file:
            return file.read()
