"""What tools/map makes of groups, heads and sources: each expected answer was written by hand from the small texts below."""
import importlib.machinery, importlib.util, os, unittest

PATH = os.path.join(os.path.dirname(os.path.dirname(os.path.abspath(__file__))), "map")
LOADER = importlib.machinery.SourceFileLoader("map_tool", PATH)
SPEC = importlib.util.spec_from_loader("map_tool", LOADER)
tool = importlib.util.module_from_spec(SPEC)
LOADER.exec_module(tool)

GROUPS = [
    ("base", {"low": []}),
    ("middle: between", {"half": ["low"]}),
    ("top", {"high": ["low", "half"], "beside": ["low", "rows_of_low"]}),
    ("rows", {"rows_of_low": ["low"]}),
]
TEXT = """use crate::other;

/// What it counts: so many. More is told here.
#[inline]
pub fn counted(of: &[u8]) -> usize
    requires { length of.now < 4 }
    ensures is { result ≡ length of.now }
    ensures { result < 4 }
{
    of.len()
}

impl Kept {
    /// Its size.
    pub fn size(&self) -> u32
        ensures { result ≡ self.now }
    {
        self.size
    }
}

impl Hidden {
    /// Not handed out.
    pub fn lost(&self) -> u32 {
        0
    }
}
"""


class Map(unittest.TestCase):
    def test_a_group_stands_on_what_no_other_one_gives(self):
        self.assertEqual(tool.below(GROUPS), {"base": [], "middle": ["base"], "top": ["middle"]})

    def test_boxes_go_from_the_top_down(self):
        lines = [it.strip("| ") for it in tool.picture(GROUPS).split("\n") if it.startswith("| ")]
        self.assertEqual(lines, ["top", "high  beside", "middle: between", "half", "base", "low"])

    def test_names_that_a_root_hands_out(self):
        self.assertEqual(tool.exported("pub use a::{One, two};\npub use b::c::Three;\nuse d::four;\n"), {"One", "two", "Three"})

    def test_calls_with_their_clauses(self):
        self.assertEqual(
            tool.calls_in(TEXT, {"counted", "Kept"}, False),
            [("counted", ["is", "its one clause"], "What it counts: so many."), ("Kept::size", ["its one clause"], "Its size.")],
        )


if __name__ == "__main__":
    unittest.main()
