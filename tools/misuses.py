#!/usr/bin/env python3
"""Shows that a listing cannot be used out of its order: each misuse below is refused by the compiler, by its types.

    python3 tools/misuses.py

Must-fail edits cannot show this, since an edit that does not compile is taken for a mistake in the edit. So each
misuse is put into a crate of its own beside a copy of the repository's crates, and `rt check` must give the message that stands
with it. The right use, with which it begins, must be proved.
"""

import pathlib
import shutil
import subprocess
import sys
import tempfile

ROOT = pathlib.Path(__file__).resolve().parent.parent

HEAD = """#![tactic(auto)]

use cubes::Cube;
use cubes::Decider;
use cubes::Entry;
use listing::Draft;
use listing::Finished;
use listing::Running;

"""

# what is done, the code, and the message that refuses it
USES = [
    ("a waiver in a draft", "fn f(mut draft: Draft, register: &mut [Entry]) { let _ = draft.waive(register, Cube::low(0, 0)); }", None),
    ("a waiver in a begun listing", "fn f(mut running: Running, register: &mut [Entry]) { let _ = running.waive(register, Cube::low(0, 0)); }",
     "no method named `waive`"),
    ("a waiver in the draft of a begun listing",
     "fn f(mut draft: Draft, register: &mut [Entry]) { let _running = draft.begin(); let _ = draft.waive(register, Cube::low(0, 0)); }",
     "borrow of moved value: `draft`"),
    ("the total of an unfinished listing", "fn f(running: Running, register: &[Entry]) { let _ = running.total(register); }", "no method named `total`"),
    ("the text of an unfinished listing", "fn f(running: Running, register: &[Entry], text: &mut [u8]) { let _ = pla::print(&running, register, text); }",
     "expected `&Finished`, found `&Running`"),
    ("a next in a finished listing",
     "fn f<D: Decider>(finished: Finished, register: &mut [Entry], decider: &mut D) { let _ = finished.next(register, decider); }", "the method `next` exists for `Finished`, but its bounds are not met"),
    ("a listing that goes on twice",
     "fn f<D: Decider>(running: Running, register: &mut [Entry], decider: &mut D) { let _ = running.next(register, decider); let _ = running.next(register, decider); }",
     "use of moved value: `running`"),
    ("a copy of a listing", "fn f(running: Running) { let _other = running.clone(); let _ = running; }", "the method `clone` exists for `Running`, but its bounds are not met"),
    ("a made-up finished listing", "fn f(running: Running) { let _ = Finished { listing: running }; }", "private"),
]


# the crates that a misuse stands on, and their line of crates.txt
BELOW = {"faults": "", "cubes": "", "listing": "faults cubes", "pla": "faults cubes listing", "misuse": "faults cubes listing pla"}


def main():
    wrong = 0
    with tempfile.TemporaryDirectory() as folder:
        copy = pathlib.Path(folder)
        for crate in BELOW:
            if crate != "misuse":
                shutil.copytree(ROOT / "crates" / crate, copy / "crates" / crate)
        (copy / "crates.txt").write_text("".join("%s: %s\n" % line for line in BELOW.items()))
        source = copy / "crates/misuse/src/lib.rt"
        source.parent.mkdir(parents=True)
        for name, code, message in USES:
            source.write_text(HEAD + code + "\n")
            run = subprocess.run(["rt", "check"], cwd=copy / "crates/misuse", capture_output=True, text=True)
            said = run.stdout + run.stderr
            if message is None:
                fine = run.returncode == 0
                print(name + ":", "proved" if fine else "NOT PROVED\n" + said)
            else:
                fine = run.returncode != 0 and message in said
                print(name + ":", "does not compile (%s)" % message if fine else "OTHER THAN IT SHOULD BE\n" + said)
            wrong += not fine
    sys.exit(1 if wrong else 0)


if __name__ == "__main__":
    if sys.argv[1:]:
        sys.exit(__doc__)
    main()
