"""What tools/timeline draws: which entries, arrows, bars and lines of the source, each list written by hand from the source and the log above it."""
import os, re, subprocess, tempfile, unittest
import xml.etree.ElementTree as tree

TIMELINE = os.path.join(os.path.dirname(os.path.dirname(os.path.abspath(__file__))), "timeline")
SVG = "{http://www.w3.org/1999/xhtml}"
HEAD = "chimera log {}\nslots {}\ncells 16384\nlimit 16777216\nprofile all\ninput 0\n\n"


class Drawn:
    """A timeline as it was drawn."""

    def __init__(self, source, entries, slots, version=2):
        with tempfile.TemporaryDirectory() as folder:
            with open(f"{folder}/s.c", "w", encoding="ascii") as it:
                it.write(source)
            with open(f"{folder}/s.log", "w", encoding="ascii") as it:
                it.write(HEAD.format(version, slots) + "".join(f"{entry}\n" for entry in entries))
            self.ran = subprocess.run([TIMELINE, "s.c", "s.log", "out.html"], cwd=folder, capture_output=True, text=True)
            if self.ran.returncode == 0:
                # Read as XML: it has to be well-formed.
                self.page = tree.parse(f"{folder}/out.html").getroot()

    def all(self, name, **wanted):
        return [it for it in self.page.iter(SVG + name) if all(it.get(key.replace("_", "-")) == value for key, value in wanted.items())]

    def entries(self):
        """Where each row's entries are, and what stands there."""
        return [(it.get("data-entries"), "".join(it.itertext()).split(": ", 1)[1]) for it in self.all("text") if it.get("data-entries")]

    def arrows(self):
        return sorted((int(it.get("data-from")), int(it.get("data-to"))) for it in self.all("path") if it.get("data-from"))

    def bars(self):
        return [(it.get("class"), "".join(it.itertext())) for it in self.all("rect") if it.get("class").startswith("bar-")]

    def lines(self):
        """What stands as the line of the source, row by row from above."""
        found = [it for it in self.all("text", **{"class": "line"})]
        return [(int(it.get("y")) // 22, re.sub(r"\s+", " ", "".join(it.itertext()).strip())) for it in found]

    def roots(self):
        return ["".join(it.itertext()) for it in self.all("text", **{"class": "root"})]


LOCKED = """#include <pthread.h>
#include <stdio.h>
struct account { int owner; pthread_mutex_t lock; };
int total[3];
struct account accounts[2];
void *pay(void *p) {
  pthread_mutex_lock(&accounts[1].lock);
  total[0] = 1;
  pthread_mutex_unlock(&accounts[1].lock);
  return NULL;
}
int main(void) {
  pthread_t t;
  pthread_create(&t, NULL, pay, NULL);
  pthread_mutex_lock(&accounts[1].lock);
  total[0] = 2;
  pthread_mutex_unlock(&accounts[1].lock);
  pthread_join(t, NULL);
  puts("end");
  return 0;
}
"""
# Two slots have 4 cells, total 3, and an account 2: the second account's lock is cell 4 + 3 + 2 + 1.
LOCKED_LOG = ["0 1 draw T", "0 4 start s1", "1 0 begin s1", "0 5 lock m10", "0 7 unlock m10", "1 3 lock m10", "1 5 unlock m10", "1 7 end s1", "1 8 leave T", "0 9 join s1", "0 10 print O", "0 11 halt H"]


class Timeline(unittest.TestCase):
    def test_each_entry_is_there_once(self):
        drawn = Drawn(LOCKED, LOCKED_LOG, 2)
        self.assertEqual([it for it, _ in drawn.entries()], [str(it) for it in range(12)])
        self.assertEqual([text[: len(entry)] for (_, text), entry in zip(drawn.entries(), LOCKED_LOG)], LOCKED_LOG)

    def test_hand_overs(self):
        # start to begin, unlock to the other's lock, end to join.
        self.assertEqual(Drawn(LOCKED, LOCKED_LOG, 2).arrows(), [(1, 2), (4, 5), (7, 9)])

    def test_names_and_lines(self):
        drawn = Drawn(LOCKED, LOCKED_LOG, 2)
        told = [text for _, text in drawn.entries()]
        self.assertTrue(told[3].endswith("lock accounts[1].lock"), told[3])
        wanted = {0: "14 pthread_create(&t, NULL, pay, NULL);", 2: "6 void *pay(void *p) {", 3: "15 pthread_mutex_lock(&accounts[1].lock);", 5: "7 pthread_mutex_lock(&accounts[1].lock);", 6: "9 pthread_mutex_unlock(&accounts[1].lock);", 9: "18 pthread_join(t, NULL);", 10: '19 puts("end");'}
        lines = dict(drawn.lines())
        self.assertEqual({row: lines.get(row) for row in wanted}, wanted)
        self.assertEqual(drawn.roots()[:2], ["main", "pay"])

    def test_bars(self):
        self.assertEqual(Drawn(LOCKED, LOCKED_LOG, 2).bars(), [("bar-lock", "thread 0 holds m10"), ("bar-lock", "thread 1 holds m10")])

    def test_revokes_of_weak_locks(self):
        log = ["0 1 draw T", "0 4 start s1", "0 5 take w0.0", "0 6 revoke w0.0", "1 0 begin s1", "1 3 take w0.0", "1 4 give w0.0", "0 6 retake w0.0", "0 7 give w0.0"]
        drawn = Drawn(LOCKED, log, 2)
        self.assertEqual(drawn.arrows(), [(1, 4), (3, 5), (6, 7)])
        self.assertEqual([it for it, _ in drawn.bars()], ["bar-revoked", "bar-weak", "bar-weak"])

    def test_a_line_of_some_stripes_in_both_versions(self):
        together = ["0 3 take w0.2-4", "0 4 give w0.2-4", "1 0 begin s1", "1 3 take w0.3-4", "1 4 give w0.3-4"]
        drawn = Drawn(LOCKED, together, 2)
        self.assertEqual([it for it, _ in drawn.entries()], ["0-2", "3-5", "6", "7-8", "9-10"])
        self.assertEqual(drawn.arrows(), [(1, 3)])
        self.assertEqual(len(drawn.bars()), 5)
        apart = ["0 3 take w0.2", "0 3 take w0.3", "0 4 give w0.2", "0 4 give w0.3", "1 0 begin s1", "1 3 take w0.3"]
        drawn = Drawn(LOCKED, apart, 2, version=1)
        self.assertEqual([it for it, _ in drawn.entries()], ["0", "1", "2", "3", "4", "5"])
        self.assertEqual(drawn.arrows(), [(3, 5)])

    def test_read_write_locks(self):
        # Two readers hand over to the writer, each with its last unlock; the writer hands over to both.
        log = ["1 0 begin s1", "2 0 begin s2", "1 3 rdlock r6", "2 3 rdlock r6", "1 4 rwunlock r6", "1 5 rdlock r6", "1 6 rwunlock r6", "2 5 rwunlock r6", "0 9 wrlock r6", "0 10 rwunlock r6", "1 7 rdlock r6", "2 6 rdlock r6"]
        drawn = Drawn(LOCKED, log, 3)
        self.assertEqual(drawn.arrows(), [(6, 8), (7, 8), (9, 10), (9, 11)])
        self.assertEqual([it for it, _ in drawn.bars()], ["bar-read", "bar-read", "bar-read", "bar-write", "bar-read", "bar-read"])

    def test_a_wait_of_a_condition(self):
        # The first signal behind the wait wakes it, and the wait's lock comes behind the signaller's unlock.
        log = ["0 1 lock m4", "0 2 center c5", "0 3 unlock m4", "1 0 begin s1", "1 3 lock m4", "1 4 signal c5", "1 5 signal c5", "1 6 unlock m4", "0 4 cwake c5", "0 5 lock m4"]
        self.assertEqual(Drawn(LOCKED, log, 2).arrows(), [(2, 4), (5, 8), (7, 9)])

    def test_a_barrier(self):
        # Thread 2 comes last and makes no pass; thread 1 is at the barrier again before thread 0 has passed it.
        log = ["0 1 arrive b6", "1 3 arrive b6", "2 3 arrive b6", "1 4 pass b6", "1 5 arrive b6", "0 2 pass b6", "2 4 arrive b6", "0 3 arrive b6", "1 6 pass b6", "2 5 pass b6", "0 4 halt H", "1 7 stop H", "2 6 stop H"]
        self.assertEqual(Drawn(LOCKED, log, 3).arrows(), [(2, 3), (2, 5), (7, 8), (7, 9)])

    def test_what_is_no_log_is_refused(self):
        ran = Drawn(LOCKED, ["0 1 lock"], 2).ran
        self.assertEqual((ran.returncode, ran.stderr), (1, "tools/timeline: s.log: line 8: this is no entry\n"))


if __name__ == "__main__":
    unittest.main()
