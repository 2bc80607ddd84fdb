"""Tests the package: python3 -m unittest, with the pictures of tests/make_files.py."""

import concurrent.futures
import importlib.util
import pathlib
import tempfile
import unittest

import mexaldor
from mexaldor import Refused, Status

ROOT = pathlib.Path(__file__).resolve().parents[3]


def pictures(folder):
    spec = importlib.util.spec_from_file_location("make_files", ROOT / "tests" / "make_files.py")
    made = importlib.util.module_from_spec(spec)
    spec.loader.exec_module(made)
    made.main(folder)


class Pictures(unittest.TestCase):
    @classmethod
    def setUpClass(cls):
        cls.room = tempfile.TemporaryDirectory()
        cls.folder = pathlib.Path(cls.room.name)
        pictures(cls.folder)

    @classmethod
    def tearDownClass(cls):
        cls.room.cleanup()

    def refused(self, status, call, *words, **named):
        with self.assertRaises(Refused) as caught:
            call(*words, **named)
        self.assertEqual(caught.exception.status, status)
        return str(caught.exception)

    def test_each_container_is_read_from_a_path_and_from_bytes(self):
        for name, kind in [
            ("whole.jpg", "JPEG"),
            ("whole.webp", "WebP"),
            ("whole.heic", "HEIF"),
            ("whole.tif", "TIFF"),
        ]:
            path = self.folder / name
            told = mexaldor.read(path)
            self.assertEqual(told["format"], kind)
            self.assertEqual(told["summary"]["orientation"], 6)
            self.assertEqual(told, mexaldor.read(str(path)))
            self.assertEqual(told, mexaldor.read(path.read_bytes()))
            self.assertEqual(told["faults"], [])

    def test_faults_are_passed_over_or_refused(self):
        self.assertEqual(len(mexaldor.read(self.folder / "faulty.jpg")["faults"]), 1)
        self.refused(Status.INVALID_FORMAT, mexaldor.read, self.folder / "faulty.jpg", strict=True)
        self.assertEqual(len(mexaldor.read(self.folder / "whole.jpg", limit=3)["faults"]), 1)

    def test_a_limit_has_64_bits(self):
        for limit in [-1, 2**64]:
            with self.assertRaises(ValueError):
                mexaldor.read(self.folder / "whole.jpg", limit=limit)

    def test_what_is_no_picture_is_refused(self):
        self.assertEqual(self.refused(Status.INVALID_FORMAT, mexaldor.read, b""), "Unknown image format")
        self.refused(Status.INVALID_FORMAT, mexaldor.scrub, b"no picture")
        self.refused(Status.INVALID_FORMAT, mexaldor.set, b"no picture", "Orientation=6")
        self.refused(Status.INVALID_FORMAT, mexaldor.erase_gps, b"")

    def test_a_picture_without_exif_data_has_no_fields(self):
        for name, form in [("plain.jpg", "JPEG"), ("plain.webp", "WebP")]:
            for strict in [False, True]:
                self.assertEqual(
                    mexaldor.read(self.folder / name, strict=strict),
                    {"path": "", "format": form, "summary": {}, "fields": [], "faults": []},
                )
        self.assertEqual(
            self.refused(Status.NOT_FOUND, mexaldor.set, self.folder / "plain.jpg", "Orientation=6"),
            "No Exif data found",
        )

    def test_gps_data_are_erased(self):
        for name in ["whole.jpg", "whole.webp", "whole.heic", "whole.tif"]:
            old = (self.folder / name).read_bytes()
            new = mexaldor.erase_gps(old)
            self.assertEqual(len(new), len(old))
            self.assertIn("latitude", mexaldor.read(old)["summary"])
            summary = mexaldor.read(new)["summary"]
            self.assertNotIn("latitude", summary)
            self.assertEqual(summary["orientation"], 6)

    def test_locations_are_found_and_erased(self):
        for name in ["whole.jpg", "whole.webp"]:
            old = (self.folder / name).read_bytes()
            checked = mexaldor.check(old)
            self.assertEqual(checked["location"], "yes")
            self.assertEqual(sum(part["length"] for part in checked["parts"]), len(old))
            new, stays = mexaldor.erase_locations(old)
            self.assertEqual(len(new), len(old))
            self.assertNotIn("latitude", mexaldor.read(new)["summary"])
            self.assertEqual(mexaldor.check(new)["location"], "unknown" if stays else "no")
        plain = (self.folder / "plain.jpg").read_bytes()
        self.assertEqual(mexaldor.check(plain)["location"], "no")
        self.assertEqual(mexaldor.erase_locations(plain), (plain, False))
        unread = plain[:2] + b"\xff\xe1\0\x24http://ns.adobe.com/xap/1.0/\0<City" + plain[2:]
        self.assertEqual(mexaldor.erase_locations(unread), (unread, True))
        blank = unread.replace(b"<City", b" " * 5)
        self.assertEqual(mexaldor.erase_locations(unread, force_blank=True), (blank, False))
        self.refused(Status.INVALID_FORMAT, mexaldor.check, b"no picture")
        self.refused(Status.INVALID_FORMAT, mexaldor.erase_locations, b"no picture")

    def test_a_field_is_set_where_it_stands(self):
        old = (self.folder / "whole.jpg").read_bytes()
        new = mexaldor.set(old, "Orientation=1")
        self.assertEqual(mexaldor.read(new)["summary"]["orientation"], 1)
        self.assertEqual(len([1 for a, b in zip(old, new) if a != b]), 1)
        self.assertEqual(mexaldor.set(new, "Orientation=6"), old)

    def test_what_can_not_be_set_is_refused(self):
        path = self.folder / "whole.jpg"
        for status, assignment in [
            (Status.NO_ASSIGNMENT, "Orientation"),
            (Status.NO_ASSIGNMENT, "Würde=1"),
            (Status.NOT_OF_ITS_TYPE, "Orientation=up"),
            (Status.FIELD_NOT_FOUND, "Artist=me"),
            (Status.VALUE_TOO_LONG, "Make=a much longer maker"),
        ]:
            self.refused(status, mexaldor.set, path, assignment)

    def test_metadata_are_taken_out(self):
        for name in ["whole.jpg", "whole.webp", "whole.heic", "whole.tif"]:
            old = (self.folder / name).read_bytes()
            new = mexaldor.scrub(old)
            self.assertLessEqual(len(new), len(old))
            self.assertNotIn(b"Maker", new)
            self.assertEqual(mexaldor.scrub(new), new)

    def test_a_webp_file_without_its_last_pad_byte_gets_it(self):
        image = b"WEBPVP8L\x05\0\0\0/\x01\x80\0\x10"
        self.assertEqual(mexaldor.scrub(b"RIFF\x11\0\0\0" + image), b"RIFF\x12\0\0\0" + image + b"\0")

    def test_threads_answer_the_same(self):
        data = (self.folder / "whole.heic").read_bytes()
        wanted = mexaldor.read(data)
        with concurrent.futures.ThreadPoolExecutor(8) as pool:
            for told in pool.map(lambda _: mexaldor.read(data), range(400)):
                self.assertEqual(told, wanted)


if __name__ == "__main__":
    unittest.main()
