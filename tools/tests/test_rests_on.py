"""What tools/rests_on counts: small definitions were counted by hand, and the table in docs/PROVED.md has to be the one that is made."""
import os, subprocess, unittest

TOP = os.path.dirname(os.path.dirname(os.path.dirname(os.path.abspath(__file__))))
TOOL = f"{TOP}/tools/rests_on"


def told(*words):
    return subprocess.run([TOOL, *words], capture_output=True, check=True, encoding="utf-8").stdout


class RestsOn(unittest.TestCase):
    def test_a_definition_of_plain_numbers_rests_on_itself(self):
        # `Rose` is a head and three fields, and names nothing but the kit's words.
        self.assertEqual(told("rr_base", "Faults", "Rose").split("\n")[2:4], ["| `rr_base` | 1 | 4 |", "| in all 1 crates | 1 | 4 |"])

    def test_a_definition_rests_on_what_it_names(self):
        # `RoseBy` of crew, and what it names: nothing of another crate.
        self.assertIn("| in all 1 crates |", told("crew", "Counts", "RoseBy"))

    def test_the_page_has_the_table(self):
        with open(f"{TOP}/docs/PROVED.md", encoding="utf-8") as it:
            self.assertIn(told(), it.read())


if __name__ == "__main__":
    unittest.main()
