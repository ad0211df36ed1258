#!/usr/bin/env python3
"""Brings the must-fail edits of a commit in an older Rattle's spelling to today's, by turning each edited text as the texts were turned.

usage, in a checkout that has that commit in its history and tools/respell.py:
    python3 tools/turn_edits.py rounds COMMIT FOLDER    makes FOLDER/round0, round1, ..: clones of COMMIT with edits applied, those of
                                                        one clone on lines that are apart from one another, with the crates that
                                                        these rest on, then runs port.py in each
    python3 tools/turn_edits.py write COMMIT FOLDER TURNED
                                                        TURNED is a checkout of COMMIT after port.py (committed, HEAD~1) and respell.py
                                                        (HEAD). Respells each round with TURNED's names and writes crates/*/must-fail/*.edit
                                                        here from the differences. Prints each edit that it leaves to a hand.

crates/streams is left out.
"""
import difflib
import glob
import importlib.util
import os
import re
import subprocess
import sys

LEFT_OUT = ("streams",)
# Edits that change what a file imports, or that name a word of the old library in full; and one that kept no name.
HAND = {
    "capi_day/incomplete_last_step_taken_for_none.edit": [
        ("(day_outcome (settings_of settings) steps (step_count steps) room)", "(day_outcome (settings_of settings) steps (whole_steps steps) room)"),
        ("use Rattle.judging_in_place.specs.Notes.{day_outcome, notes_after}", "use Rattle.judging_in_place.specs.Notes.{whole_steps, day_outcome, notes_after}"),
    ],
    "capi_files/settings_of_a_refused_file_written.edit": [
        ("settings_buffer file buffer = if_done (read_of file).reading", "settings_buffer file buffer = if_done (Done 0)"),
        ("use Rattle.section.specs.declared.Outcome.TheVariants.{Refused}", "use Rattle.section.specs.declared.Outcome.TheVariants.{Done, Refused}"),
    ],
    "judging/says_0_to_all.edit": [
        ("        verdict: verdict,", "        verdict: Verdict::Accepted(Said::Nothing),"),
        ("use rules::Line;", "use rules::Line; use section::Said;"),
    ],
    "run/a_refused_step_ends_the_run.edit": [
        (
            "written buffer 0 (entries_of Answers s steps (step_count steps))",
            "written buffer 0 (entries_of Answers s steps (leading (λ (i : ℕ). eqb (get_or (entry_on Answers s steps i) 0 0) 0) (step_count steps)))",
        ),
        ("ltb, length}", "ltb, eqb, length, get_or}"),
        ("use Rattle.file_tests.specs.Tests.{first_malformed, some_malformed}", "use Rattle.file_tests.specs.Tests.{leading, first_malformed, some_malformed}"),
        ("use Rattle.judging_in_place.specs.Entries.{entries_of}", "use Rattle.judging_in_place.specs.Entries.{entry_on, entries_of}"),
    ],
    "run/incomplete_last_step_ignored.edit": [
        (
            "    (cond (some_malformed s.settings.posts steps) (Malformed",
            "    (cond (ltb (first_malformed s.settings.posts steps) (length steps / 8)) (Malformed",
        ),
        ("{ℕ, ◌*◌, ", "{ℕ, ◌*◌, ◌/◌, "),
    ],
    # the constant keeps its name, which the proof of the function cites
    "run/steps_4097_taken.edit": [
        ("    if count > MOST_STEPS {", "    const MOST_STEPS: usize = 4097; if count > MOST_STEPS {"),
    ],
    "steps/known_steps_misread.edit": [
        ("requires { known ≡ true → well_formed n s.now ≡ true }", "requires { known ≡ false → well_formed n s.now ≡ true }"),
        ("ghost use Rattle.std.specs.Prelude.{true, ", "ghost use Rattle.std.specs.Prelude.{true, false, "),
    ],
    "rules/set_keeps_the_caution_form.edit": [
        (
            "effect (Set p) e = setting e e.own",
            "effect (Set p) e = record { own = cautioned e.own.caution (setting e e.own).own; walk = (setting e e.own).walk; cvt = (setting e e.own).cvt; train = Stays; said = Nothing }",
        ),
    ],
    "rules/troncon_of_the_block_section_of_the_same_number.edit": [
        ("  occupied = watched_occupied c e trains;", "  occupied = not (eqb (get_or trains e.post 0) 0);"),
        ("List, eqb, ltb}", "List, get_or, eqb, ltb}"),
    ],
    "rules/the_end_is_the_same_on_a_only.edit": [("Performs s done [] end = s ≡ end", "Performs s done [] end = s.a ≡ end.a")],
    "rules/a_step_stores_the_record_of_the_next_post.edit": [
        ("    posts = set t.posts e.post (effect x e).own;", "    posts = set t.posts (suc e.post) (effect x e).own;"),
        ("use Rattle.std.specs.Prelude.{ℕ, ", "use Rattle.std.specs.Prelude.{ℕ, suc, "),
    ],
    "rules/a_pass_notes_a_cell_past_the_end.edit": [
        (
            "  cells_after clears (Moves number) e l = set (vacated clears e l) (block_ahead c e) number",
            "  cells_after clears (Moves number) e l = set (vacated clears e l) (block_ahead c e) (cond clears number (get_or l c.posts number))",
        ),
        (", set, eqb}", ", set, get_or, eqb}"),
    ],
}
# The kit's scripts, beside the page that `rt doc` names.
PORT = os.path.join(os.path.dirname(subprocess.run(["rt", "doc"], capture_output=True, text=True, check=True).stdout.strip()), "port")
APART = 3


def read(path):
    with open(path, encoding="utf-8") as f:
        return f.read()


def git(where, *words):
    return subprocess.run(["git", *words], cwd=where, check=True, capture_output=True, text=True).stdout


def parse(text):
    """(comment lines, file, [(old, new)..])"""
    notes, path, pairs, old = [], None, [], None
    for line in text.split("\n"):
        if line.startswith("#"):
            notes.append(line)
        elif line.startswith("file: "):
            assert path is None
            path = line[6:]
        elif line.startswith("old: "):
            old = line[5:]
        elif line.startswith("new: ") or line == "new:":
            pairs.append((old, line[5:]))
        else:
            assert not line, line
    return notes, path, pairs


def unparse(notes, path, pairs):
    return "\n".join(notes + ["file: " + path] + [w for o, n in pairs for w in ("old: " + o, "new: " + n)]) + "\n"


def applied(text, pairs):
    for old, new in pairs:
        assert text.count(old) == 1, (old, text.count(old))
        text = text.replace(old, new)
    return text


def changed(a, b):
    """The lines of a that differ from b, which has as many."""
    a, b = a.split("\n"), b.split("\n")
    assert len(a) == len(b)
    return [i for i in range(len(a)) if a[i] != b[i]]


def edits(folder):
    for p in sorted(glob.glob(os.path.join(folder, "crates/*/must-fail/*.edit"))):
        crate = p.split("/")[-3]
        if crate not in LEFT_OUT:
            yield crate, os.path.basename(p), parse(read(p))


def plan(folder):
    """Rounds: lists of (crate, edit's name, file, pairs, changed lines)."""
    rounds = []
    for crate, name, (_, path, pairs) in edits(folder):
        full = os.path.join("crates", crate, path)
        text = read(os.path.join(folder, full))
        lines = changed(text, applied(text, pairs))
        for r in rounds:
            if not any(f == full and any(abs(i - j) < APART for i in lines for j in ls) for _, _, f, _, ls in r):
                r.append((crate, name, full, pairs, lines))
                break
        else:
            rounds.append([(crate, name, full, pairs, lines)])
    return rounds


def below(folder, crates):
    """These crates and all that they rest on, by crates.txt."""
    rests = {}
    for line in read(os.path.join(folder, "crates.txt")).split("\n"):
        words = line.split("#")[0].split()
        if words:
            name = words[0].rstrip(":")
            rests[name] = [w for w in words[1:] if "=" not in w]
    todo, out = list(crates), set()
    while todo:
        c = todo.pop()
        if c in rests and c not in out:
            out.add(c)
            todo += rests[c]
    return out


def make_rounds(commit, folder):
    folder = os.path.abspath(folder)
    os.makedirs(folder, exist_ok=True)
    base = os.path.join(folder, "base")
    if not os.path.isdir(base):
        git(".", "clone", "-q", ".", base)
        git(base, "checkout", "-q", commit)
    runs = []
    for k, r in enumerate(plan(base)):
        to = os.path.join(folder, "round%d" % k)
        if os.path.isdir(to):
            continue
        git(".", "clone", "-q", ".", to)
        git(to, "checkout", "-q", commit)
        texts = {}
        for _, _, full, pairs, at in r:
            old = read(os.path.join(base, full))
            new = applied(old, pairs).split("\n")
            lines = texts.setdefault(full, old.split("\n"))
            for i in at:
                lines[i] = new[i]
        for full, lines in texts.items():
            with open(os.path.join(to, full), "w", encoding="utf-8") as f:
                f.write("\n".join(lines))
        keep = below(to, {e[0] for e in r})
        gone = [c for c in os.listdir(os.path.join(to, "crates")) if c not in keep]
        if gone:
            git(to, "rm", "-rqf", *["crates/" + c for c in gone])
            with open(os.path.join(to, "crates.txt"), encoding="utf-8") as f:
                lines = [l for l in f if not l.strip() or l.startswith("#") or l.split(":")[0].split()[0] in keep]
            with open(os.path.join(to, "crates.txt"), "w", encoding="utf-8") as f:
                f.write("".join(lines))
        git(to, "-c", "user.name=r", "-c", "user.email=r@r", "commit", "-qam", "edits of round %d" % k)
        print("round %d: %d edits" % (k, len(r)), flush=True)
        runs.append((to, k))
    running = []
    for to, k in runs:
        if len(running) == 3:
            running.pop(0).wait()
        start = "import sys; sys.path.insert(0, %r); import port; port.SAID = %r; sys.exit(port.main([]) or 0)" % (PORT, os.path.join(folder, "said%d" % k))
        log = open(os.path.join(folder, "port%d.log" % k), "w")
        running.append(subprocess.Popen([sys.executable, "-B", "-c", start], cwd=to, stdout=log, stderr=subprocess.STDOUT))
    for p in running:
        p.wait()


def respell():
    """tools/respell.py's functions, without a run of it."""
    source = read("tools/respell.py")
    assert source.rstrip().endswith("\nmain()")
    it = {"__name__": "respell"}
    exec(compile(source.rstrip()[: -len("main()")], "respell.py", "exec"), it)
    return it


def turned_names(turned, folder):
    """The names that respell.py gave what port.py had left of the commit itself, and which of them may follow a dot."""
    ported = os.path.join(folder, "ported")
    if not os.path.isdir(ported):
        git(".", "clone", "-q", turned, ported)
        git(ported, "checkout", "-q", "HEAD~1")
    said = subprocess.run([sys.executable, "-B", os.path.abspath("tools/respell.py"), "--list"], cwd=ported, check=True, capture_output=True, text=True).stdout
    names = dict(l.split(" ") for l in said.splitlines() if not l.startswith("falls together"))
    return names, {n for n in names if "-" in n}


def hunks(a, b):
    for tag, i1, i2, j1, j2 in difflib.SequenceMatcher(None, a, b, autojunk=False).get_opcodes():
        if tag != "equal":
            yield i1, i2, j1, j2


def groups(lines):
    """Runs of lines that follow one another."""
    out = []
    for i in lines:
        if out and i == out[-1][-1] + 1:
            out[-1].append(i)
        else:
            out.append([i])
    return out


WORDS = re.compile(r"[\w']+")


def tightest(line, new, text, before, after, ends):
    """The part of a line that an edit names: without so many words before and after it, but with all that differs; once in the text."""
    left = 0
    while left < min(len(line), len(new)) and line[left] == new[left]:
        left += 1
    right = 0
    while right < min(len(line), len(new)) - left and line[-1 - right] == new[-1 - right]:
        right += 1
    words = list(WORDS.finditer(line))
    stripped = len(line) - len(line.lstrip())

    def at(b, a):
        start = words[b].start() if b < len(words) else stripped
        stop = words[len(words) - 1 - a].end() if a < len(words) else len(line)
        if b == 0:
            start = stripped
        if a == 0:
            stop = len(line)
        start = min(start, left)
        stop = max(stop, len(line) - right)
        # not within a word
        while start > stripped and re.match(r"[\w'.]", line[start - 1]) and start < len(line) and re.match(r"[\w'.]", line[start]):
            start -= 1
        while stop < len(line) and re.match(r"[\w'.]", line[stop]) and re.match(r"[\w'.]", line[stop - 1]):
            stop += 1
        return start, stop

    tries = [at(before, after)]
    if ends[0] == "(" and tries[0][0] > 0 and line[tries[0][0] - 1] == "(":
        tries[0] = (tries[0][0] - 1, tries[0][1])
    while tries[0][1] < len(line) and line[tries[0][1]] in ends[1]:
        tries[0] = (tries[0][0], tries[0][1] + 1)
    for k in range(max(before, after) + 1):
        tries.append(at(max(before - k, 0), max(after - k, 0)))
    tries.append((0, len(line)))
    for start, stop in tries:
        old = line[start:stop]
        if old and text.count(old) == 1 and old == old.rstrip():
            return old, new[start : len(new) - (len(line) - stop)]
    return None


def plain(full, text, it, names, fields):
    """An edit's text word for word: names, and projections written tight."""
    text = text.replace("⌜ ", "").replace(" ⌝", "").replace("«", "").replace("»", "")
    if full.endswith(".antt") or "requires" in text or "ensures" in text:
        for _ in range(4):
            text = re.sub(r"\(([\w']+(?:\.[\w']+)*) \.([\w']+)\)(?=[\s)};,]|$)", r"\1.\2", text)
            text = re.sub(r"(?<![\w'.)] )(?<![\w'.)])([\w']+(?:\.[\w']+)*) \.([\w']+)(?=[\s)}|&;]|$)", r"\1.\2", text)
    return it["respelled"](full, text, names, fields)


def stands(text, pairs):
    """The text after an edit, or None where an old text does not stand once."""
    for old, new in pairs:
        if text.count(old) != 1:
            return None
        text = text.replace(old, new)
    return text


def same(a, b):
    """Whether two texts are the same but for layout."""
    a, b = (re.sub(r",(?=[)}\]])", "", re.sub(r"\s+", "", x)) for x in (a, b))
    return a == b


def is_import(line):
    return re.match(r"\s*(ghost )?use |}", line) is not None


def write_edits(commit, folder, turned):
    folder, turned = os.path.abspath(folder), os.path.abspath(turned)
    base = os.path.join(folder, "base")
    names, fields = turned_names(turned, folder)
    it = respell()
    counts = {"as they were": 0, "word for word": 0, "from the turned text": 0, "by hand": 0}
    said, seen = [], set()

    def put(crate, name, kind, pairs):
        p = os.path.join("crates", crate, "must-fail", name)
        notes, path, _ = parse(read(os.path.join(base, p)))
        with open(p, "w", encoding="utf-8") as f:
            f.write(unparse(notes, path, pairs))
        counts[kind] += 1
        seen.add(crate + "/" + name)

    for k, r in enumerate(plan(base)):
        to = os.path.join(folder, "round%d" % k)
        log = os.path.join(folder, "port%d.log" % k)
        is_turned = os.path.exists(log) and "paths changed" in read(log)
        if not is_turned:
            print("round %d is not turned: word for word" % k)
        files = {}
        for crate, name, full, pairs, at in r:
            files.setdefault(full, []).append((crate, name, pairs, at))
        for full, those in sorted(files.items()):
            before = read(os.path.join(turned, full))
            after = it["respelled"](full, read(os.path.join(to, full)), names, fields) if is_turned else before
            a, b = before.split("\n"), after.split("\n")
            old_lines = read(os.path.join(base, full)).split("\n")
            found = [h for h in hunks(a, b) if not any(is_import(l) for l in a[h[0] : h[1]] + b[h[2] : h[3]])]
            wanted = sorted((g[0], g, e) for e in those for g in groups([i for i in e[3] if not is_import(old_lines[i])]))
            of = {}
            if len(found) == len(wanted):
                for (_, g, e), h in zip(wanted, found):
                    of.setdefault(e[1], []).append((g, h))
            else:
                said.append((full, [e[1] for e in those], "%d hunks for %d" % (len(found), len(wanted)), [(a[h[0] : h[1]], b[h[2] : h[3]]) for h in found]))
            for crate, name, pairs, at in those:
                if crate + "/" + name in HAND:
                    if stands(before, HAND[crate + "/" + name]) in (None, before):
                        said.append((full, name, "the text by hand does not stand", []))
                    put(crate, name, "by hand", HAND[crate + "/" + name])
                    continue
                goal = None
                if name in of:
                    goal, shift = list(a), 0
                    for _, (i1, i2, j1, j2) in sorted(of[name], key=lambda x: x[1]):
                        goal[i1 + shift : i2 + shift] = b[j1:j2]
                        shift += (j2 - j1) - (i2 - i1)
                    goal = "\n".join(goal)
                word = [(plain(full, o, it, names, fields), plain(full, n, it, names, fields)) for o, n in pairs]
                chosen = None
                for kind, those_pairs in (("as they were", pairs), ("word for word", word)):
                    got = stands(before, those_pairs)
                    if got is not None and got != before and (same(got, goal) if goal is not None else kind == "word for word"):
                        chosen = kind, those_pairs
                        break
                if chosen:
                    if goal is None:
                        said.append((full, name, "word for word, not compared", [([o], [n]) for o, n in chosen[1]]))
                    put(crate, name, *chosen)
                    continue
                text, out = before, []
                for g, (i1, i2, j1, j2) in of.get(name, []):
                    if i2 - i1 != j2 - j1:
                        out = None
                        break
                    for x, y in zip(a[i1:i2], b[j1:j2]):
                        # what the old edit left out on its line
                        out_before = out_after = 0
                        ends = ("", "")
                        for old, _ in pairs:
                            for line in old_lines[g[0] : g[-1] + 1]:
                                if line.count(old) == 1 and line != old:
                                    s = line.index(old)
                                    out_before = len(WORDS.findall(line[:s]))
                                    out_after = len(WORDS.findall(line[s + len(old) :]))
                                    ends = (old[0], re.search(r"[^\w']*$", old).group(0))
                        got = tightest(x, y, text, out_before, out_after, ends)
                        if got is None:
                            out = None
                            break
                        out.append(got)
                        text = text.replace(*got)
                    if out is None:
                        break
                if out and text != before:
                    put(crate, name, "from the turned text", out)
                    said.append((full, name, "from the turned text", [([o], [n]) for o, n in out]))
                else:
                    said.append((full, name, "LEFT", [(a[h[0] : h[1]], b[h[2] : h[3]]) for _, h in of.get(name, [])]))
    print(", ".join("%d %s" % (v, k) for k, v in counts.items()))
    for full, name, why, more in said:
        print("%s %s: %s" % (full, name, why))
        for x, y in more:
            print("    " + "\n    ".join(["- " + l for l in x] + ["+ " + l for l in y]))


if __name__ == "__main__":
    if sys.argv[1] == "rounds":
        make_rounds(*sys.argv[2:])
    else:
        write_edits(*sys.argv[2:])
