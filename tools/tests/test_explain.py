"""What tools/explain makes of answers: each expected text was written by hand from the source below and the tables of docs/LANGUAGE.md and docs/LOG.md."""
import os, subprocess, tempfile, unittest

EXPLAIN = os.path.join(os.path.dirname(os.path.dirname(os.path.abspath(__file__))), "explain")
SOURCE = b"""int x;
int main(void) {
\tint *p; x = *p;
  /* \xc3\xa9 */ x = 1; return 0; }
"""
LOG = """chimera log 2
slots 2
cells 16384
limit 16777216
profile all
input 0

0 3 take w0.0-3
0 4 give w0.0-3
0 5 halt H
1 0 close s1
"""


def explained(answer, log=None):
    """What is written of an answer; the names of the files are s.c and s.log."""
    with tempfile.TemporaryDirectory() as folder:
        with open(f"{folder}/s.c", "wb") as it:
            it.write(SOURCE)
        with open(f"{folder}/s.log", "w", encoding="ascii") as it:
            it.write(log or LOG)
        words = [EXPLAIN, "s.c", *(["--log", "s.log"] if log else [])]
        it = subprocess.run(words, cwd=folder, input=answer.encode(), capture_output=True, check=True)
    return it.stdout.decode()


class Explained(unittest.TestCase):
    def test_a_pair_is_a_warning_and_a_note(self):
        wanted = """s.c:3:12: warning: this store of x+0 may race with a load at 3:14
    3 | \tint *p; x = *p;
      | \t          ^
s.c:3:14: note: the load is here
    3 | \tint *p; x = *p;
      | \t            ^
1 pair of accesses may race
"""
        self.assertEqual(explained("race x+0 store 3:12 load 3:14\nraces 1\n"), wanted)

    def test_an_access_that_races_with_itself_is_shown_once(self):
        wanted = """s.c:3:12: warning: this store of x+0 may race with itself in another thread
    3 | \tint *p; x = *p;
      | \t          ^
0 pairs of accesses may race
"""
        self.assertEqual(explained("race x+0 store 3:12 store 3:12\nraces 0\n"), wanted)

    def test_a_column_counts_bytes(self):
        # The letter before it has two bytes, so the caret stands one further left than the column says.
        wanted = "s.c:4:14: error: fault 12: the operand of `&`, `++`, `--`, or the left side of an assignment, is no place\n    4 |   /* é */ x = 1; return 0; }\n      |             ^\n"
        self.assertEqual(explained("source refused 12 4 14\n"), wanted)

    def test_rows_of_one_fault_are_told_together(self):
        told = explained("source refused 20 1 1\n").splitlines()
        self.assertTrue(told[0].startswith("s.c:1:1: error: fault 20: a word of C that isn't taken; or a `malloc` doesn't show for which type;"), told[0])
        self.assertEqual(told[1:], ["    1 | int x;", "      | ^"])

    def test_a_fault_behind_the_last_byte_has_no_line_to_show(self):
        self.assertEqual(explained("source refused 7 9 1\n"), "s.c:9:1: error: fault 7: no program goes on with this token; or the text ends too early\n")

    def test_a_trap_stands_behind_what_was_printed(self):
        wanted = "one\ntwos.c:1: error: trap 1 in thread 2: a divisor is 0\n    1 | int x;\n".replace("two", "two\n")
        self.assertEqual(explained("one\ntwotrap 1 thread 2 line 1\n"), wanted)

    def test_every_trap_and_fault_has_a_sentence(self):
        for number in range(1, 19):
            self.assertNotIn("is known", explained(f"trap {number} thread 0 line 1\n"))
        for number in range(1, 21):
            self.assertNotIn("is known", explained(f"source refused {number} 1 1\n"))
        self.assertIn("no such trap is known", explained("trap 19 thread 0 line 1\n"))

    def test_a_wrong_entry_is_a_line_of_the_log(self):
        # The first line below the head, the 8th, has the entries 0 to 3, the next one 4 to 7.
        for position, line, text in ((0, 8, "0 3 take w0.0-3"), (3, 8, "0 3 take w0.0-3"), (4, 9, "0 4 give w0.0-3"), (8, 10, "0 5 halt H"), (9, 11, "1 0 close s1")):
            self.assertEqual(explained(f"wrong entry {position}\n", LOG), f"s.log:{line}: error: entry {position} is wrong\n{line:>5} | {text}\n")
        self.assertEqual(explained("wrong entry 10\n", LOG), "s.log:12: error: entry 10 is missing: the log ends while a thread hasn't ended\n")

    def test_a_refused_log_has_its_sentence(self):
        told = explained("log refused 23 8\n", LOG).splitlines()
        self.assertEqual(told[1], "    8 | 0 3 take w0.0-3")
        self.assertTrue(told[0].startswith("s.log:8: error: 23: no log of the first line's version begins with the lines up to this one"), told[0])

    def test_other_lines_stay(self):
        self.assertEqual(explained("20\nusage\nshelf fault\n"), "20\nusage\nshelf fault\n")


if __name__ == "__main__":
    unittest.main()
