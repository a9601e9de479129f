#!/usr/bin/env python3
"""Brings the repository's own antt names to today's spelling.

usage: python3 tools/respell.py     at the top of the repository, once, after the kit's port.py

Two kinds of names turn, where crates/*/specs or crates/*/proofs declare them:
  lowerCamelCase   `tasksOf` becomes `tasks_of`, `descentP` becomes `descent_p`
  kebab-case       `demand-three` becomes `demand_three`, `eqZ-same` becomes `eq_z_same`
and a function proof's `X-spec` takes the spelling of its folder: proofs/add_lesser has `add_lesser_spec`.

What turns: antt code; in .rt files `ghost use` items, clauses and ghost blocks; in comments, in pages and in .ci the code spans; in must-fail edits the lines
old, new and refused. Quoted text, Rust code and escaped names («x») stay.

What stays: names that a file imports from outside the repository or from a module that Rattle makes, and names that Rattle makes in function proofs: all
behind `tie.`, a field whose name is one of Rust's, and locals that are called as their goal. OTHER has the names whose plain turn would meet another name.

The report counts what was turned. A name that would meet another one in a file is printed as a collision, and then nothing is written.
"""

import collections
import glob
import os
import re
import sys

# Old names whose plain turn is taken, or no word, and the name that each gets in the whole repository.
OTHER = {
    # A Rust item, parameter or field of a file that uses the definition has the plain name.
    "allBarsFit": "all_bars_are_fit",
    "allIntegers": "every_integer",
    "atomAt": "atom_place",
    "atomCount": "count_of_atoms",
    "barsFit": "bars_are_fit",
    "beforeBar": "before_the_bar",
    "boundAfter": "bound_stepped",
    "boundNumbers": "numbers_of_bound",
    "boundsOf": "bounds_among",
    "boundsOfWords": "bounds_in_words",
    "busiestNumbers": "numbers_of_busiest",
    "changeNumbers": "numbers_of_change",
    "chargesAnswer": "answer_of_charges",
    "checkAnswer": "answer_of_check",
    "checkAs": "check_towards",
    "conflictAnswer": "answer_of_conflict",
    "conflictPageNumbers": "numbers_of_conflict_page",
    "costOf": "cost_of_minutes",
    "countAnswer": "answer_of_count",
    "countFits": "count_within",
    "creationNumber": "number_of_creation",
    "descentEct": "descent_by_ect",
    "descentP": "descent_by_p",
    "durationOf": "duration_for",
    "ect-bar": "ect_bar_of",
    "extNumbers": "numbers_of_ext",
    "firstAtom": "first_atom_of",
    "firstFrom": "first_at_or_after",
    "givenAt": "given_in",
    "isTrue": "true_of",
    "isWhite": "white_run",
    "lastUpTo": "last_at_or_before",
    "lengthFits": "length_within",
    "lowerWord": "word_of_lower",
    "minutesLate": "late_minutes",
    "mirrorStart": "start_mirrored",
    "mirrorStarts": "starts_mirrored",
    "mirroredAnswer": "answer_of_mirrored",
    "mirroredMoment": "moment_mirrored",
    "momentFits": "moment_within",
    "movedBack": "moved_backward",
    "movedOn": "moved_onward",
    "neighboursApart": "neighbours_are_apart",
    "noCharges": "without_charges",
    "noConflict": "without_conflict",
    "noWork": "without_work",
    "numbersOf": "numbers_in",
    "overloadNumbers": "numbers_of_overload",
    "pageNumbers": "numbers_of_page",
    "pastBar": "past_the_bar",
    "postNumber": "number_of_post",
    "precedencesNumbers": "numbers_of_precedences",
    "raisedAt": "raised_there",
    "readPost": "post_read_back",
    "reasonNumbers": "numbers_of_reason",
    "runAnswer": "answer_of_run",
    "startAnswer": "answer_of_start",
    "startsOf": "starts_taken",
    "startsWithBars": "starts_and_bars",
    "stepDown": "step_downward",
    "stepUp": "step_upward",
    "storedLatest": "latest_stored",
    "storedStart": "start_stored",
    "suffixTo": "suffix_up_to",
    "sumFits": "sum_within",
    "taskAt": "task_place",
    "taskBounds": "bounds_of_task",
    "taskBoundsOfWords": "bounds_of_task_in_words",
    "taskWord": "word_of_task",
    "totalTrue": "total_of_true",
    "truthAfter": "truth_stepped",
    "truthNumbers": "numbers_of_truth",
    "unusedZero": "unused_is_zero",
    "upperWord": "word_of_upper",
    "variableAt": "variable_place",
    "verdictNumbers": "numbers_of_verdict",
    "withHole": "hole_added",
    "withReading": "reading_added",
    "withoutLower": "less_lower",
    "withoutUpper": "less_upper",
    # A lemma, field or local beside the definition of the same words: `atom-words` beside `atomWords`.
    "applied-words": "applied_words_are",
    "around-over": "around_over_is",
    "atom-words": "atom_words_are",
    "atoms-after": "atoms_after_are",
    "bars-fit": "bars_fit_is",
    "bound-number": "bound_number_is",
    "bounds-at": "bounds_at_are",
    "by-completion": "by_completion_is",
    "by-earliest": "by_earliest_is",
    "ect-of": "ect_of_is",
    "env-of": "env_of_is",
    "gray-at": "gray_at_is",
    "lasts-at": "lasts_at_is",
    "leaf-node": "leaf_node_is",
    "mirrored-moment": "mirrored_moment_is",
    "negated-kind": "negated_kind_is",
    "negated-value": "negated_value_is",
    "plain-leaf": "plain_leaf_is",
    "plain-leaves": "plain_leaves_are",
    "post-words": "post_words_are",
    "posts-after": "posts_after_are",
    "ranges-at": "ranges_at_are",
    "refused-by": "refused_by_is",
    "reverse-mapping": "reverse_mapping_is",
    "right-atom": "right_atom_is",
    "right-lists": "right_lists_are",
    "right-variable": "right_variable_is",
    "start-at": "start_at_is",
    "starts-of": "starts_of_are",
    "unused-at": "unused_at_is",
    "upper-word": "upper_word_is",
    "white-at": "white_at_is",
    # Types, which are in UpperCamelCase.
    "Responsible-for": "ResponsibleFor",
    "Out-of": "OutOf",
}

# Words of the command language that pages and comments of .rt files have in code spans.
COMMANDS = {"conflict-page", "not-passed"}

TOKEN = re.compile(r'«[^»]*»|"(?:\\.|[^"\\\n])*"|--[^\n]*|[^\s(){},;\[\]|.`"«»]+|\s+|.', re.S)
RUST = re.compile(r'//[^\n]*|r(#*)".*?"\1|b?"(?:\\.|[^"\\])*"|b?\'(?:\\[^\']*|[^\'\\])\'|[\s\S]')
CLAUSE = re.compile(r"(?:requires|ensures)\b\s*\*?\s*(?:\w+\s*)?\{|ghost\s*(?:\w+\s*)*(?::\s*(?:(?:owns|lends)\s*)?|=\s*)?\{")
GHOST_USE = re.compile(r"ghost\s+use\b[^;]*;")
SPAN = re.compile(r"`[^`\n]+`")
USE = re.compile(r"^[ \t]*(?:pub )?use ([^\s{]+?)(?:\.\{([^}]*)\})?(?: as (\S+))?[ \t]*$", re.M)
SIGNATURE = re.compile(r"^[ \t]*(?:(?:pub|abbrev|unfoldable|field|instance|variable) )*([^\s(){}.,:]+(?: [^\s(){}.,:]+)*) :(?= )", re.M)
BEGIN = re.compile(r"^[ \t]*(?!use |pub use )(?:(?:pub|abbrev|unfoldable|record|data|ruleset) )*([^\s(){}.,:]+)", re.M)
MADE = {"Tie", "Statement", "Symbol", "Key", "Met", "Code", "Goals", "Need", "TheLaws", "TheVariants", "declared", "contracts"}
CRATES = set(os.listdir("crates"))


def read(path):
    with open(path, encoding="utf-8") as f:
        return f.read()


def paths(*patterns):
    found = sorted(p for q in patterns for p in glob.glob(q, recursive=True) if os.path.isfile(p))
    return [p for p in found if "/out/" not in p and "/target/" not in p]


def hump(part):
    """A part of a name without dashes: lowerCamelCase becomes snake_case."""
    if not re.match(r"[a-zα-ω]", part):
        return part
    return re.sub(r"(?<=[a-z0-9])[A-Z]", lambda m: "_" + m[0].lower(), part)


def plain(name):
    """The name in today's spelling; the name itself if nothing turns."""
    if not re.search(r"\w", name) or re.match(r'[-◌«"<≤≡]', name) or "·" in name or "::" in name:
        return name
    return "_".join(hump(p) for p in re.sub(r"(?<=[\w'₀-₉])-(?=\w)|(?<=[←→<])-(?=\w)", "\0", name).split("\0"))


def code(text):
    """The tokens of antt code, each with whether it stands behind a dot, and what stands before that dot."""
    before = [" ", " "]
    for m in TOKEN.finditer(text):
        s = m[0]
        yield s, (before[0] if before[1] == "." and not before[0].isspace() else None)
        before = [before[1], s]


def is_word(s):
    return not s.isspace() and not s.startswith(('"', "«")) and not s.startswith("--")


class Names:
    def __init__(self):
        self.antt = {p: read(p) for p in paths("crates/*/specs/**/*.antt", "crates/*/proofs/**/*.antt")}
        self.rt = {p: read(p) for p in paths("crates/**/*.rt")}
        self.proof = {p for p, t in self.antt.items() if p.endswith("/Proof.antt") or re.search(r"\.Tie as tie$", t, re.M)}
        self.rust = {w for t in self.rt.values() for w in re.findall(r"[a-z]\w*", self.outside(t))}
        foreign, aliases, imported, declared, self.uses = set(), set(), set(), set(), {}
        for p, t in self.antt.items():
            mine = set()
            for m in USE.finditer(t):
                seg = m[1].split(".")
                own = seg[0] == "Prelude" or (seg[0] == "Rattle" and len(seg) > 1 and seg[1] in CRATES and not MADE & set(seg[2:]))
                if m[3]:
                    aliases.add(m[3])
                for item in (m[2] or "").split(","):
                    names = item.split(" as ")
                    if len(names) == 2:
                        aliases.add(names[1].strip())
                    (mine if own else foreign).add(names[0].strip())
                    if len(names) == 2:
                        mine.add(names[1].strip())
            self.uses[p] = mine
            imported |= mine
        self.laws, self.locals, self.fields = set(aliases), set(), set()
        for p, t in self.antt.items():
            into = self.locals if p in self.proof else self.laws
            bare = re.sub(r"--[^\n]*", "", t)
            for s, head in code(bare):
                if is_word(s) and head is None and plain(s) != s:
                    into.add(s)
            for m in SIGNATURE.finditer(bare):
                self.fields |= set(m[1].split())
            declared |= set(BEGIN.findall(bare))
        # A name that own modules pass on, and that none of them declares, is the library's.
        self.foreign = foreign | (imported - self.fields - declared - aliases)
        self.map = {}
        for n in sorted(self.laws | self.locals):
            if n in self.foreign or n.startswith("Need-"):
                continue
            self.map[n] = OTHER.get(n, plain(n))
        self.map.update(OTHER)

    def outside(self, text):
        """The text of a .rt file without its clauses and comments."""
        return "".join(s for kind, s in regions(text) if kind == "rust")

    def goals(self, path):
        """The names in a function proof that Rattle makes: behind `tie.`, and those of goals."""
        made = {s for s, head in code(self.antt[path]) if head == "tie"}
        return made | {n[k + 1:] for n in made for k in range(len(n)) if n[k] == "-"}

    def turned(self, path):
        """How the names of a file turn: one table for names that stand free, one for those behind a dot."""
        free, dotted = dict(self.map), dict(self.map)
        if path in self.proof:
            text = self.antt[path]
            toks = list(code(text))
            behind = {s for s, head in toks if head is not None}
            goals = self.goals(path)
            dotted = {n: v for n, v in self.map.items() if "-" not in n or (n in self.laws and n in self.fields and n.replace("-", "_") not in self.rust)}
            for s, head in toks:
                if head is None and s in free and s not in self.uses[path]:
                    stays = s in goals or (s in behind and s not in dotted)
                    if "-" in s and stays:
                        del free[s]
                if head is None and s.endswith("-spec") and re.search(r"^pub " + re.escape(s) + " :", text, re.M):
                    free[s] = os.path.basename(os.path.dirname(path)).lstrip("+") + "_spec"
        return free, dotted


def regions(text):
    """A .rt file in pieces: ('rust', ..), ('clause', ..), ('comment', ..), ('text', ..)."""
    i, start, n = 0, 0, len(text)
    while i < n:
        m = GHOST_USE.match(text, i) or CLAUSE.match(text, i)
        if m and not (i and (text[i - 1].isalnum() or text[i - 1] == "_")):
            if start < i:
                yield "rust", text[start:i]
            end = m.end()
            if m[0].endswith("{"):
                depth = 1
                while depth:
                    q = re.compile(r'//[^\n]*|"(?:\\.|[^"\\\n])*"|[\s\S]').match(text, end)
                    depth += (q[0] == "{") - (q[0] == "}")
                    end = q.end()
            yield "clause", text[i:end]
            i = start = end
            continue
        q = RUST.match(text, i)
        if len(q[0]) > 1:
            if start < i:
                yield "rust", text[start:i]
            yield ("comment" if q[0].startswith("//") else "text"), q[0]
            start = q.end()
        i = q.end()
    if start < n:
        yield "rust", text[start:]


def turn_spans(text, free, dotted):
    return SPAN.sub(lambda m: turn_code(m[0], free, dotted), text)


def turn_code(text, free, dotted):
    out = []
    for s, head in code(text):
        if s.startswith("--"):
            out.append(turn_spans(s, free, dotted))
        elif not is_word(s) or s == ".":
            out.append(s)
        elif head is not None:
            out.append(s if head == "tie" else dotted.get(s, s))
        else:
            out.append(free.get(s, s))
    return "".join(out)


def turn_clause(text, free, dotted):
    parts = re.split(r"(//[^\n]*)", text)
    return "".join(turn_spans(p, free, dotted) if p.startswith("//") else turn_code(p, free, dotted) for p in parts)


def turn_rt(text, free, dotted):
    out, spans = [], {n: v for n, v in free.items() if n not in COMMANDS}
    for kind, s in regions(text):
        out.append(turn_clause(s, free, dotted) if kind == "clause" else turn_spans(s, spans, dotted) if kind == "comment" else s)
    return "".join(out)


def turn_edit(path, text, names):
    lines, target = [], None
    folder = path.split("/must-fail/")[0]
    for line in text.split("\n"):
        m = re.match(r"(file|old|new|refused): ?(.*)$", line)
        if m and m[1] == "file":
            target = os.path.join(folder, m[2].strip())
        elif m and m[1] == "refused":
            where, _, what = m[2].partition(" ")
            free, dotted = names.turned(os.path.join(folder, where))
            line = f"refused: {where} {turn_code(what, free, dotted)}" if what else line
        elif m and line.startswith(m[1] + ":"):
            free, dotted = names.turned(target or path)
            head = m[1] + ":"
            line = head + turn_code(line[len(head):], free, dotted)
        lines.append(line)
    return "\n".join(lines)


def heads(text, clause_only=False):
    """The names that stand free in a file, without the paths of its use lines."""
    if clause_only:
        text = "\n".join(s for kind, s in regions(text) if kind == "clause")
        text = re.sub(r"//[^\n]*", "", text)
    text = re.sub(r"(?m)((?:pub |ghost )?use )([^\s{;]+)", r"\1", text)
    free, behind = set(), set()
    for s, head in code(text):
        if is_word(s):
            (free if head is None else behind).add(s)
    return free, behind


def collisions(path, old, free, dotted, names):
    """Names of a file that the turn would make one."""
    rt = path.endswith(".rt")
    f, b = heads(old, rt)
    if rt:
        f |= set(re.findall(r"\w+", names.outside(old)))
    found = []
    for have, table in ((f, free), (b, dotted)):
        into = collections.defaultdict(set)
        for n in have:
            into[table.get(n, n)].add(n)
        for new, olds in into.items():
            if len(olds) > 1:
                found.append((new, tuple(sorted(olds))))
    return found


def main():
    if not os.path.isdir("crates"):
        sys.exit("respell: no folder crates here")
    names = Names()
    written, bad, used = {}, [], set()
    for p, old in {**names.antt, **names.rt}.items():
        free, dotted = names.turned(p)
        bad += [(p, c) for c in collisions(p, old, free, dotted, names)]
        new = turn_rt(old, free, dotted) if p.endswith(".rt") else turn_code(old, free, dotted)
        written[p] = new
        for s, head in code(old):
            if s in names.map and (free if head is None else dotted).get(s, s) != s:
                used.add(s)
    for p in paths("crates/*/must-fail/*.edit"):
        written[p] = turn_edit(p, read(p), names)
    pages = {n: v for n, v in names.map.items() if n in names.laws and n not in COMMANDS}
    for p in paths("README.md", "CONTRIBUTING.md", "docs/**/*.md", "crates/**/*.md", ".ci/*"):
        written[p] = turn_spans(read(p), pages, pages)
    for p, (new, olds) in bad:
        print(f"collision: {p}: {' and '.join(olds)} would both be {new}")
    kebab = sum("-" in n for n in used)
    print(f"respell: {len(used) - kebab} lowerCamelCase names, {kebab} kebab-case names, {len(OTHER)} by OTHER, {len(bad)} collisions")
    if bad:
        sys.exit(1)
    changed = 0
    for p, new in written.items():
        if new != read(p):
            changed += 1
            with open(p, "w", encoding="utf-8") as f:
                f.write(new)
    print(f"respell: {changed} files written")


if __name__ == "__main__":
    main()
