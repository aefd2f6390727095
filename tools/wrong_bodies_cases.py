"""What `tools/wrong_bodies --selftest` judges: lines that a check printed, and the verdict on one edit.

Each case has a name, the function of the edit, what was printed, and the verdict: as `judge` returns it.
"""

CASES = (
    (
        "an answer names a field that the edit took away",
        "canonicalize::canonical",
        """\
./proofs/canonicalize/canonical/Answers.antt:13:34: error: `returns-in_err-text-clause-invalid`: record `Rattle.miniserde_canonical.proofs.canonicalize.canonical.Lts.View.In-After-from_residual-in_err-text` (nearest: .from_residual-in_err-text, .from_str)
  has no field `from_residual`
  the fields that can be named here are `before`, `type_inv`, `from_residual-in_err-text`, `in_err-text`, `branch-text`
./proofs/canonicalize/canonical/Answers.antt:27:5: error: 5 declarations that depend on `returns-clause-ok`, which was rejected, were not checked: returns-clause-text, returns-clause-spells and 3 more
fn miniserde_canonical::canonicalize::canonical: not proved
""",
        (False, "refused for another reason: not proved"),
    ),
    (
        "an answer proves a goal that the edit took away",
        "canonicalize::canonical_unique",
        """\
./proofs/canonicalize/canonical_unique/Answers.antt:30:44: error: `returns-then-is_distinct-clause-text`: `goal.returns-then-is_distinct-clause-text`: module `Rattle.miniserde_canonical.proofs.canonicalize.canonical_unique.Goals`
  has no `returns-then-is_distinct-clause-text` that can be named from here (names in it that begin alike: `returns-in_err-text-clause-again`)
fn miniserde_canonical::canonicalize::canonical_unique: not proved
""",
        (False, "refused for another reason: not proved"),
    ),
    (
        "an answer proves another statement",
        "read::read",
        """\
./proofs/read/read/Answers.antt:66:133: error: `returns-in_err-end-clause-invalid`: expected type `c.new.result.refused ≡ None`, but this has type `c.loop-kind.lexer.refused ≡ None`
  computed as far as they go, the two types differ only where one has `c.new.result.refused` (expected) and the other has `c.loop-kind.lexer.refused` (found)
  one side (expected) is shown computed, as a hole's goal is
fn miniserde_canonical::read::read: not proved
""",
        (True, "an answer by hand broke at `returns-in_err-end-clause-invalid`"),
    ),
    (
        "a name that another function's answer misses",
        "read::read",
        """\
./proofs/read/read/Answers.antt:66:133: error: `returns-in_err-end-clause-invalid`: expected type `c.new.result.refused ≡ None`, but this has type `c.loop-kind.lexer.refused ≡ None`
./proofs/read/turn/Answers.antt:13:34: error: `returns-clause-ok`: record `Rattle.miniserde_canonical.proofs.read.turn.Lts.View.Returns`
  has no field `from_residual`
fn miniserde_canonical::read::read: not proved
""",
        (True, "an answer by hand broke at `returns-in_err-end-clause-invalid`"),
    ),
    (
        "a clause is left unproved",
        "write::put_front",
        """\
note: src/write.rt:134:1: it is not proved that what the function ensures holds when it returns (`returns-in_ok-push-in-Decoded-2-clause-ok`)
note: to see how far a `search` got, write `search rules` in place of that hole
fn miniserde_canonical::write::put_front: no proof: expected answers in ./proofs/write/put_front/Answers.antt; `search` did not prove `returns-in_ok-push-in-Decoded-2-clause-ok`
""",
        (True, "refused at `returns-in_ok-push-in-Decoded-2-clause-ok`"),
    ),
    (
        "the function waits for a callee's proof",
        "arrange::sort",
        "fn miniserde_canonical::arrange::sort: no proof: it calls `miniserde_canonical::arrange::compare`, which is not proved\n",
        (None, "not judged: no proof: it calls `miniserde_canonical::arrange::compare`, which is not proved"),
    ),
    (
        "the borrow checker's part waits for a callee's proof",
        "arrange::sort",
        "fn miniserde_canonical::arrange::sort: no proof: the borrow checker's part in its proof is not made yet: a call of `miniserde_canonical::arrange::compare`, which has no proof: help: prove it first\n",
        (None, "not judged: no proof: the borrow checker's part in its proof is not made yet: a call of `miniserde_canonical::arrange::compare`, which has no proof: help: prove it first"),
    ),
    (
        "the borrow checker's part waits for nothing",
        "arrange::sort",
        "fn miniserde_canonical::arrange::sort: no proof: the borrow checker does not cover this function yet\n",
        (False, "refused for another reason: no proof: the borrow checker does not cover this function yet"),
    ),
)
