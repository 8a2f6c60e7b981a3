"""Which program a trial runs.

The file that `--program` names. Without it the proved program, which `rt run` leaves as crates/chimera/out/chimera. Where that isn't there, one that
`tools/quick-build` makes, unproved; it is kept in ~/.cache/chimera (or in $XDG_CACHE_HOME/chimera) under a name that the text decides, for the next trial."""
import hashlib, os, subprocess, sys

TOP = os.path.dirname(os.path.dirname(os.path.abspath(__file__)))
PROVED = f"{TOP}/crates/chimera/out/chimera"
BUILD = f"{TOP}/tools/quick-build"


def text_sum():
    """A checksum of the kit's identity, the way of building, and the text that becomes the program."""
    files = [BUILD, f"{TOP}/crates.txt"]
    for crate in sorted(os.listdir(f"{TOP}/crates")):
        for folder, _, names in os.walk(f"{TOP}/crates/{crate}/src"):
            files += [f"{folder}/{name}" for name in names]
    it = hashlib.sha256(subprocess.run(["rt", "version"], capture_output=True).stdout)
    for file in sorted(files):
        with open(file, "rb") as text:
            content = text.read()
        it.update(f"{os.path.relpath(file, TOP)} {len(content)}\n".encode() + content)
    return it.hexdigest()[:16]


def program(given=None):
    """The path of the program; builds one where none is there."""
    if given:
        return os.path.abspath(given)
    if os.path.isfile(PROVED):
        return PROVED
    folder = os.path.join(os.environ.get("XDG_CACHE_HOME") or os.path.expanduser("~/.cache"), "chimera")
    os.makedirs(folder, exist_ok=True)
    kept = f"{folder}/unproved-chimera-{text_sum()}"
    if not os.path.isfile(kept):
        print("no proved program is there, so an unproved one is built, in some minutes", file=sys.stderr, flush=True)
        if subprocess.run([BUILD, kept], stdout=sys.stderr).returncode:
            sys.exit("no program could be built")
    print(f"this trial runs an UNPROVED program: {kept}", file=sys.stderr, flush=True)
    return kept


def add_program(words):
    """Adds the option `--program` to a parser of words: its value is the program's path."""
    words.add_argument("--program", metavar="FILE", help="the program; docs/TOOLS.md says which is taken without this")
