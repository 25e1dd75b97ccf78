"""Compares the definitions in crates/meaning/specs with the oracle, by computing.

    python3 tests/oracle/compare.py FOLDER [CALL ..]

Run it in the repository's root. It makes a repository of its own in FOLDER, with a copy of the definitions and one
crate for some hundred cases: each crate has theorems that the list of the cases on which definitions and oracle
disagree is empty, proved by `refl`. `rt check` then computes the definitions on every case, with all buffers. A
crate that is refused is tried again case by case, and the cases that disagree are named. CALL is one of listing,
check, unfold, read, write; without it all cases are compared.
"""

import os
import shutil
import subprocess
import sys
import time

sys.path.insert(0, os.path.join(os.path.dirname(os.path.abspath(__file__)), "..", "cases"))
import generated  # noqa: E402
import language  # noqa: E402
import oracle  # noqa: E402

CALLS = {"listing": oracle.listing, "check": oracle.check, "unfold": oracle.unfold, "read": oracle.read,
         "write": oracle.write}
PER_THEOREM = {"listing": 60, "check": 150, "unfold": 100, "read": 30, "write": 40}
PER_CRATE = {"listing": 600, "check": 1500, "unfold": 700, "read": 120, "write": 400}

USES = """use Rattle.std.specs.Prelude.{ℕ, ◌≡◌, refl, Bool, true, false, ◌&&◌, List, [], ◌∷◌, ◌++◌}
use Rattle.std.specs.Prelude.{eqb, ℤ, pos, negsuc, replicate}
use Rattle.meaning.specs.Bytes.{bytes_of}
use Rattle.meaning.specs.Answer.{Answer, accepted, refusal, TextResult}
use Rattle.meaning.specs.Reading.{Rooms}
use Rattle.meaning.specs.Table.{Result}
use Rattle.meaning.specs.Writing.{Lent}
use Rattle.meaning.specs.Width.{Written}
use Rattle.meaning.specs.Listing.{listing_rooms}
use Rattle.meaning.specs.Compute.{compute_listing, compute_read, compute_write, compute_check, compute_unfold}
"""

COMMON = "-- Tests of equality, and one test for each call.\n" + USES + """
unfoldable pub eq_nats : List ℕ → List ℕ → Bool
eq_nats [] [] = true
eq_nats [] (b ∷ k) = false
eq_nats (a ∷ l) [] = false
eq_nats (a ∷ l) (b ∷ k) = eqb a b && eq_nats l k

unfoldable pub eq_int : ℤ → ℤ → Bool
eq_int (pos a) (pos b) = eqb a b
eq_int (pos a) (negsuc b) = false
eq_int (negsuc a) (pos b) = false
eq_int (negsuc a) (negsuc b) = eqb a b

unfoldable pub eq_ints : List ℤ → List ℤ → Bool
eq_ints [] [] = true
eq_ints [] (b ∷ k) = false
eq_ints (a ∷ l) [] = false
eq_ints (a ∷ l) (b ∷ k) = eq_int a b && eq_ints l k

unfoldable pub numbers : Answer → List ℕ
numbers (accepted a b c) = 0 ∷ a ∷ b ∷ c ∷ []
numbers (refusal n a b) = n ∷ a ∷ b ∷ 0 ∷ []

-- the number of a case that does not agree, before the others
unfoldable pub note : ℕ → Bool → List ℕ → List ℕ
note n true others = others
note n false others = n ∷ others

unfoldable pub as_listing : List ℕ → List ℕ → Bool
unfolding eq_nats compute_listing
as_listing input output = eq_nats (compute_listing listing_rooms input) output

unfoldable pub as_check : List ℕ → List ℕ → Bool
unfolding eq_nats numbers compute_check
as_check model answer = eq_nats (numbers (compute_check model)) answer

unfoldable pub same_text : TextResult → List ℕ → List ℕ → Bool
unfolding eq_nats numbers
same_text r answer text = eq_nats (numbers r.answer) answer && eq_nats r.text text

unfoldable pub as_unfold : List ℕ → List ℕ → ℕ → List ℕ → List ℕ → Bool
unfolding same_text compute_unfold
as_unfold model file room answer text = same_text (compute_unfold model file room) answer text

unfoldable pub same_result : Result → List ℕ → List ℕ → List ℕ → List ℕ → List ℤ → List ℤ → Bool
unfolding eq_nats eq_ints eq_int numbers
same_result r answer text marks rows cells points =
    eq_nats (numbers r.answer) answer && eq_nats r.text text && eq_nats r.marks marks && eq_nats r.rows rows
    && eq_ints r.cells cells && eq_ints r.points points

unfoldable pub as_read : List ℕ → List ℕ → Rooms → List ℕ → List ℕ → List ℕ → List ℕ → List ℤ → List ℤ → Bool
unfolding same_result compute_read
as_read model file rooms answer text marks rows cells points =
    same_result (compute_read model file rooms) answer text marks rows cells points

unfoldable pub same_written : Written → List ℕ → List ℕ → Bool
unfolding eq_nats numbers
same_written r answer output = eq_nats (numbers r.answer) answer && eq_nats r.output output

unfoldable pub as_write : List ℕ → Lent → ℕ → ℕ → List ℕ → List ℕ → Bool
unfolding same_written compute_write
as_write model t width room answer output = same_written (compute_write model t width room) answer output
"""

NAMES = ("eq_nats, eq_int, eq_ints, numbers, note, as_listing, as_check, as_unfold, as_read, as_write, same_text, "
         "same_result, same_written")


# ---- Values as expressions of the definitions -----------------------------------------------------------------

def listed(items):
    return " ∷ ".join(list(items) + ["[]"])


def nats(values):
    return listed(str(v) for v in values)


def ints(values):
    return listed("pos %d" % v if v >= 0 else "negsuc %d" % (-v - 1) for v in values)


def is_plain(b):
    """May the byte stand in a quoted text?"""
    return b == 10 or (0x20 <= b <= 0x7E and b not in b'"\\')


def quoted(content):
    return 'bytes_of "%s"' % "".join("\\n" if b == 10 else chr(b) for b in content)


def byte_list(content):
    """Bytes as an expression: plain runs of eight and more quoted, the others as numbers."""
    content, parts, plain_from = bytes(content), [], 0
    numbers = []
    for at in range(len(content) + 1):
        if at < len(content) and is_plain(content[at]):
            continue
        run = content[plain_from:at]
        if len(run) >= 8:
            parts += ["(%s)" % nats(numbers)] if numbers else []
            parts.append(quoted(run))
            numbers = []
        else:
            numbers += run
        numbers += content[at:at + 1]
        plain_from = at + 1
    parts += ["(%s)" % nats(numbers)] if numbers else []
    return "(%s)" % " ++ (".join(parts) + ")" * (len(parts) - 1) if parts else "[]"


def buffer(values, show, zero):
    """A buffer's content, its zeros at the end by their count."""
    used = len(values)
    while used and values[used - 1] == 0:
        used -= 1
    return "((%s) ++ replicate %d %s)" % (show(values[:used]), len(values) - used, zero)


def rooms_of(r):
    return "(record { text = %d; marks = %d; rows = %d; cells = %d; points = %d })" % (
        r.text, r.marks, r.rows, r.cells, r.points)


def lent_of(t):
    return ("(record { text = %s; marks = %s; rows = %s; cells = %s; points = %s; objects = %d; cell_count = %d; "
            "point_count = %d })" % (byte_list(t.text), nats(t.marks), nats(t.rows), ints(t.cells), ints(t.points),
                                    t.objects, t.cells_used, t.points_used))


def test_of(call, arguments, models):
    """The test that the definitions give what the oracle gives. `models` collects the models by name."""
    def model(m):
        return models.setdefault(bytes(m), "model%d" % len(models))

    got = CALLS[call](*arguments)
    if call == "listing":
        m, f = oracle.split_input(arguments[0])
        return "as_listing (%s ++ %s) %s" % (model(m), byte_list(f), byte_list(got.encode()))
    if call == "check":
        return "as_check (%s) (%s)" % (nats(arguments[0]), nats(got))
    if call == "unfold":
        m, f, room = arguments
        return "as_unfold %s %s %d (%s) %s" % (model(m), byte_list(f), room, nats(got[0]), buffer(got[1], nats, "0"))
    if call == "read":
        m, f, r = arguments
        return "as_read %s %s %s (%s) %s %s %s %s %s" % (
            model(m), byte_list(f), rooms_of(r), nats(got.answer), buffer(got.text, nats, "0"),
            buffer(got.marks, nats, "0"), buffer(got.rows, nats, "0"), buffer(got.cells, ints, "(pos 0)"),
            buffer(got.points, ints, "(pos 0)"))
    m, t, width, room = arguments
    return "as_write %s %s %d %d (%s) (%s ++ replicate %d 0)" % (
        model(m), lent_of(t), width, room, nats(got[0]), byte_list(got[1][:got[0][1] if got[0][0] == 0 else 0]),
        room - (got[0][1] if got[0][0] == 0 else 0))


# ---- Crates ---------------------------------------------------------------------------------------------------

def theorem(crate, items):
    """A file with one theorem: no case of these disagrees."""
    models = {}
    tests = ["note %d (%s)" % (number, test_of(call, arguments, models)) for number, call, arguments in items]
    out = "-- Cases compared with the oracle.\n" + USES
    out += "use Rattle.%s.specs.Common.{%s}\n" % (crate, NAMES)
    for content, name in models.items():
        out += "\nunfoldable pub %s : List ℕ\n%s = %s\n" % (name, name, nats(content))
    out += "\nunfoldable pub disagreeing : List ℕ\nunfolding note as_listing as_check as_unfold as_read as_write %s\n" % (
        " ".join(models.values()))
    out += "disagreeing =\n    " + "\n    (".join(tests) + "\n    []" + ")" * (len(tests) - 1) + "\n"
    return out + "\npub agreed : disagreeing ≡ []\nunfolding disagreeing\nagreed = refl\n"


def write_file(path, content):
    os.makedirs(os.path.dirname(path), exist_ok=True)
    with open(path, "w", encoding="utf-8") as f:
        f.write(content)


def make_crate(folder, crate, items, per_theorem):
    base = os.path.join(folder, "crates", crate)
    shutil.rmtree(base, ignore_errors=True)
    write_file(os.path.join(base, "src", "lib.rt"), "//! No code: cases compared with the oracle.\n#![tactic(auto)]\n")
    write_file(os.path.join(base, "specs", "Common.antt"), COMMON)
    modules = ["Common"]
    for at in range(0, len(items), per_theorem):
        modules.append("Cases%d" % (at // per_theorem))
        write_file(os.path.join(base, "specs", modules[-1] + ".antt"), theorem(crate, items[at:at + per_theorem]))
    write_file(os.path.join(base, "specs", "Lib.antt"), "".join("pub mod %s\n" % m for m in modules))
    write_file(os.path.join(folder, "crates.txt"), "meaning:\n%s: meaning\n" % crate)


def is_proved(folder, crate):
    log = subprocess.run(["rt", "check"], cwd=os.path.join(folder, "crates", crate), stdin=subprocess.DEVNULL,
                         stdout=subprocess.PIPE, stderr=subprocess.STDOUT, check=False)
    with open(os.path.join(folder, crate + ".out"), "wb") as f:
        f.write(log.stdout)
    return log.returncode == 0


def find_disagreeing(folder, items):
    """The items of a refused crate that are refused alone too."""
    make_crate(folder, "narrowed", items, len(items))
    if is_proved(folder, "narrowed"):
        return []
    if len(items) == 1:
        return items
    half = len(items) // 2
    return find_disagreeing(folder, items[:half]) + find_disagreeing(folder, items[half:])


def known():
    """The cases of tests/cases but the large ones, which are for compiled code."""
    for case in language.all_cases():
        rooms = case.rooms
        arguments = {"check": lambda: (case.model,), "list": lambda: (case.model + case.file,),
                     "unfold": lambda: (case.model, case.file, rooms["text"]),
                     "read": lambda: (case.model, case.file, language.rooms_of(case)),
                     "write": lambda: (case.model, case.table, case.width, rooms["output"])}[case.call]()
        if len(case.model) + len(case.file) < 2000 and rooms["text"] < 2000:
            yield case.name, "listing" if case.call == "list" else case.call, arguments


def main():
    if len(sys.argv) < 2:
        print(__doc__)
        return 2
    folder, wanted = sys.argv[1], sys.argv[2:] or list(PER_CRATE)
    shutil.rmtree(os.path.join(folder, "crates"), ignore_errors=True)
    shutil.copytree("crates/meaning/specs", os.path.join(folder, "crates", "meaning", "specs"))
    shutil.copytree("crates/meaning/src", os.path.join(folder, "crates", "meaning", "src"))
    names, by_call = [], {}
    for item in list(known()) + list(generated.generated()):
        by_call.setdefault(item[1], []).append((len(names), item[1], item[2]))
        names.append(item[0])
    disagreeing = 0
    for call in wanted:
        items, size = by_call[call], PER_CRATE[call]
        for at in range(0, len(items), size):
            crate, part, begun = "%s%d" % (call, at // size), items[at:at + size], time.time()
            make_crate(folder, crate, part, PER_THEOREM[call])
            agrees = is_proved(folder, crate)
            print("%s: %d cases %s (%d s)" % (crate, len(part), "agree" if agrees else "DISAGREE",
                                              time.time() - begun), flush=True)
            shutil.rmtree(os.path.join(folder, "crates", crate))
            if not agrees:
                for number, _, _ in find_disagreeing(folder, part):
                    disagreeing += 1
                    print("  %s" % names[number], flush=True)
    print("%d cases, %d disagree" % (sum(len(by_call[c]) for c in wanted), disagreeing))
    return 1 if disagreeing else 0


if __name__ == "__main__":
    raise SystemExit(main())
