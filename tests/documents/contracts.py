"""tools/contracts reads every clause, definition and limit of the sources, and lists what differs between two revisions and
nothing else."""
import os
import re
import shutil
import subprocess
import tempfile

from tests.library.checks import expect, main
from tests.library.paths import TOP

TOOL = os.path.join(TOP, "tools/contracts")
BEFORE = """\
pub struct Sum {
    pence: u64,
}

impl Sum {
    /// The pence.
    pub fn get(&self) -> u64
        ensures value { result ≡ pence_of self.now }
        ensures low { result ≤ 9 }
    {
        self.pence
    }

    pub fn old(&self) -> u64
        ensures value { result ≡ 1 }
    {
        1
    }
}

pub(crate) fn stays(
    sum: u64,
) -> u64
    requires low { sum ≤ 9 }
    ensures value { made_of (record {
      pence = sum;
    }) result }
{
    sum
}
"""
AFTER = BEFORE.replace("result ≤ 9", "result ≤ 10").replace("fn old", "fn new")
LIMITS = """\
//! The limits.

/// The largest sum, in pence.
pub const MOST_PENCE: u64 = 7_500;

// A name.
pub(crate) const NAME: &str =
    "sum";

#[cfg(test)]
mod tests {
    const SEED: u64 = 1;
}
"""
SPECS = """\
-- What a sum is.
use Rattle.std.specs.Prelude.{ℕ, ◌≤◌}

-- the largest sum
abbrev pub most_pence : ℕ
most_pence = 7500

-- a sum within it
pub record IsSum (n : ℕ) : Type 0 where
  -- it is not above
  pub low : n ≤ most_pence

module _ {S : Type 0} where

  abbrev pub kept : S → S
  kept s = s
"""
RAISED = {
    "crates/one/src/limits.rt": LIMITS.replace("7_500", "10_000").replace("SEED: u64 = 1", "SEED: u64 = 2"),
    "crates/one/specs/Sums.antt": SPECS.replace("= 7500", "= 10000").replace("n ≤", "n <").replace("-- the largest", "-- the most"),
}
TOLD = """\
changed  one: constant: MOST_PENCE
    - MOST_PENCE: u64 = 7_500
    + MOST_PENCE: u64 = 10_000
changed  one: definition: IsSum
    - pub record IsSum (n : ℕ) : Type 0 where pub low : n ≤ most_pence
    + pub record IsSum (n : ℕ) : Type 0 where pub low : n < most_pence
changed  one: definition: most_pence
    - abbrev pub most_pence : ℕ most_pence = 7500
    + abbrev pub most_pence : ℕ most_pence = 10000
"""
WANTED = """\
gone     one: Sum: old
    - ensures value { result ≡ 1 }
new      one: Sum: new
    + ensures value { result ≡ 1 }
changed  one: Sum: get
    - ensures low { result ≤ 9 }
    + ensures low { result ≤ 10 }
"""


def git(folder, *words):
    name = ["-c", "user.name=Nobody", "-c", "user.email=nobody@localhost"]
    subprocess.run(["git", "-C", folder, *name, *words], check=True, stdout=subprocess.DEVNULL)


def told(tool, *words):
    """What the tool prints, with its exit status."""
    made = subprocess.run([tool, *words], capture_output=True, timeout=60, text=True)
    return made.returncode, made.stdout


def commit(folder, files):
    """Commits these texts of sources as all that a repository has."""
    shutil.rmtree(os.path.join(folder, "crates"), ignore_errors=True)
    for path, text in files.items():
        os.makedirs(os.path.join(folder, os.path.dirname(path)), exist_ok=True)
        with open(os.path.join(folder, path), "w", encoding="utf-8") as it:
            it.write(text)
    git(folder, "add", "-A")
    git(folder, "commit", "-q", "--allow-empty", "-m", "a revision")


def it_lists_what_differs():
    with tempfile.TemporaryDirectory() as folder:
        os.makedirs(os.path.join(folder, "tools"))
        tool = shutil.copy(TOOL, os.path.join(folder, "tools/contracts"))
        git(folder, "init", "-q")
        commit(folder, {"crates/one/src/lib.rt": BEFORE})
        commit(folder, {"crates/one/src/lib.rt": AFTER})
        expect("what differs", told(tool, "HEAD~1"), (0, WANTED))
        commit(folder, {"crates/two/src/sum.rt": AFTER})
        expect("what moved is not listed", told(tool, "HEAD~1", "HEAD"), (0, ""))
        expect("a revision that is not there", told(tool, "elsewhere")[0], 2)
        commit(folder, {"crates/one/src/limits.rt": LIMITS, "crates/one/specs/Sums.antt": SPECS})
        commit(folder, RAISED)
        expect("a limit and a definition, without comments and tests", told(tool, "HEAD~1"), (0, TOLD))
        commit(folder, {path.replace("Sums", "Others").replace("limits", "most"): text for path, text in RAISED.items()})
        expect("what moved to another file is not listed", told(tool, "HEAD~1"), (0, ""))


def it_reads_every_clause_and_definition():
    """Against a tree without sources each clause and each definition of this one is gone."""
    with tempfile.TemporaryDirectory() as folder:
        shutil.copytree(os.path.join(TOP, "crates"), os.path.join(folder, "crates"), ignore=shutil.ignore_patterns("out"))
        os.makedirs(os.path.join(folder, "tools"))
        tool = shutil.copy(TOOL, os.path.join(folder, "tools/contracts"))
        git(folder, "init", "-q")
        git(folder, "add", "-A")
        git(folder, "commit", "-q", "-m", "the sources")
        clauses = subprocess.run(["git", "-C", folder, "grep", "-hoE", r"\b(requires|ensures)\*? [a-z_0-9]+ \{", "--",
                                  "crates/*.rt"], capture_output=True, text=True).stdout.split("\n")
        commit(folder, {"crates/one/src/lib.rt": ""})
        status, lines = told(tool, "HEAD~1")
        gone = re.findall(r"(?m)^    - (?:requires|ensures) ", lines)
        expect("how many clauses are reported", (status, len(gone)), (0, len(clauses) - 1))
        form = r"^(abbrev )?pub (abbrev |record |data )?(?!use\b|mod\b)"
        defined = subprocess.run(["git", "-C", folder, "grep", "-hP", form, "HEAD~1", "--", "crates/*/specs/*.antt"],
                                 capture_output=True, text=True).stdout.split("\n")
        names = {re.sub(r"^(?:(?:abbrev|pub|record|data) )*", "", line).split(" ")[0] for line in defined if line}
        listed = set(re.findall(r"(?m)^gone     \w+: definition: (\S+)$", lines))
        expect("definitions that are not reported", (sorted(names - listed)[:5], len(names) > 500), ([], True))
        constants = set(re.findall(r"(?m)^gone     \w+: constant: (\w+)$", lines))
        expect("limits that are reported", {"SMALL_CREDIT", "MOST_PENCE", "MOST_TERMS", "MOST_BODY"} <= constants, True)


main(it_lists_what_differs, it_reads_every_clause_and_definition)
