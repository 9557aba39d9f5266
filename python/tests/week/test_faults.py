"""Tests of the lines in which faults are reported."""

import unittest

import pytest
from ward import HISTORY, SCENARIO, HelperTest, files, run

from inrc2pb.week.faults import FileFault, fault_line


class Lines(HelperTest):
    def test_signs_that_no_terminal_shows_are_codes(self):
        for text, shown in (
            ("a\x1b[2Jb", "a\\x1b[2Jb"),
            ("\udcff", "\\xff"),
            ("\u202e", "\\u202e"),
            ("G\u00fcl", "G\u00fcl"),
            ("a\nb", "a b"),
        ):
            self.assertEqual(fault_line(FileFault("f", 1, text)), f"f line 1: {shown}")

    def test_a_name_with_the_codes_of_a_terminal(self):
        history = self.changed(HISTORY, "Bruno", "\x1b[2J")
        status, printed, _ = run("roster", "check", "--sce", SCENARIO, "--his", history)
        self.assertEqual((status, printed.split(": ")[1]), (1, "'\\x1b[2J' is no nurse of NURSES"))


def fault_of(folder, data):
    """The fault of a ward's file with these bytes."""
    path = folder / "ward.txt"
    path.write_bytes(data)
    with pytest.raises(FileFault) as caught:
        files.read_scenario(path)
    return caught.value


def test_a_byte_order_mark_is_in_the_first_line(tmp_path):
    fault = fault_of(tmp_path, b"\xef\xbb\xbf" + SCENARIO.read_bytes())
    assert (fault.line, "byte order mark" in fault.message) == (1, True)


@pytest.mark.parametrize(
    ("old", "new", "is_in_a_name"),
    [
        ("SCENARIO = ward", "SCENARIO = wa(rd", True),
        ("SCENARIO = ward", "SCENARIO = ward (", False),
        ("Amara Full", "Am=ara Full", True),
        ("Amara Full", "Amara( Full", True),
        ("Amara Full", "Amara = Full", False),
        ("Amara Full", "Amara 2, Full", False),
    ],
)
def test_a_sign_in_a_name_is_told_from_one_beside_it(tmp_path, old, new, is_in_a_name):
    fault = fault_of(tmp_path, SCENARIO.read_text().replace(old, new, 1).encode())
    assert ("a name may have none of ( ) , =" in fault.message) == is_in_a_name


if __name__ == "__main__":
    unittest.main()
