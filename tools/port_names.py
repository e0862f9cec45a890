#!/usr/bin/env python3
"""Brings the repository's own definitions and lemmas to today's spelling: snake case, and modules in upper camel case.

usage: python3 tools/port_names.py            at the top: rewrites crates/ in place; a second run changes
                                              nothing
       python3 tools/port_names.py --table    prints old name, tab, new name, of all that were ever turned

A name is turned where this repository declares it: each file's names are resolved by its `use` lines, to a file of
crates/, to a library, or to what Rattle makes of a function (Tie, Reads, ..); only the first kind and what the file
binds itself is turned.
"""

import collections
import io
import os
import re
import subprocess
import sys
import tarfile

ORIGINAL = "008ce71d"  # before port.py
PORTED = "c2bf680f"  # after it, and before this script

# Names that Rattle makes, and that a Proof.antt declares again under the same spelling.
MADE = re.compile(r"(invariant|decreases)-")

FOLDERS = {"laws": "Laws", "promises": "Promises"}

# The rule would give these a name that something else in a file with them has: (file or *, old): new.
# A lemma gives way to the definition that it is about.
SPECIAL = {
    # beside the tests isLess, isMore, isSame, which become is_less, is_more, is_same
    ("*", "is-less"): "is_less_means",
    ("*", "is-more"): "is_more_means",
    # beside noFeed, the feed that is not there
    ("*", "no-feed"): "no_feed_holds",
    # beside feedValid, datedOk, rawOk, the tests
    ("*", "feed-valid"): "feed_valid_holds",
    ("*", "dated-ok"): "dated_ok_holds",
    ("*", "raw-ok"): "raw_ok_holds",
    # beside the kinds of a field, aMessage, aText, a_number
    ("crates/realtime_read/proofs/Turn.antt", "a-message"): "a_message_turn",
    ("crates/realtime_read/proofs/Turn.antt", "a-text"): "a_text_turn",
    ("crates/realtime_read/proofs/Turn.antt", "a-number"): "a_number_turn",
    # the alias of a function's Reads, beside judgeMany of the promise
    ("*", "judge-many"): "judge_many_reads",
    # beside tripId, routeId, stopId, the fields' readers
    ("crates/alerts_views/proofs/Ids.antt", "trip-id"): "trip_id_read",
    ("crates/alerts_views/proofs/Ids.antt", "route-id"): "route_id_read",
    ("crates/alerts_views/proofs/Ids.antt", "stop-id"): "stop_id_read",
    ("crates/panel/specs/laws/SheetTexts.antt", "trip-id"): "trip_id_printed",
    # beside incompleteKey
    ("*", "incomplete-key"): "incomplete_key_agrees",
    # beside alertsAt
    ("*", "alerts-at"): "alerts_at_places",
    # beside textsFit
    ("*", "texts-fit"): "texts_fit_holds",
    # a transit's alerts, beside alertsOf, a feed's
    ("crates/journey/specs/Enrich.antt", "alerts-of"): "alerts_of_transit",
    # beside statusByIndex, disruptedByIndex, headersByIndex
    ("*", "status-by-index"): "status_by_index_same",
    ("*", "disrupted-by-index"): "disrupted_by_index_same",
    ("*", "headers-by-index"): "headers_by_index_same",
    # beside subjectRows and bareRows
    ("*", "subject-rows"): "subject_rows_table",
    ("crates/alerts_lines/specs/laws/Rows.antt", "bare_rows"): "bare_rows_table",
    # beside firstNo
    ("crates/panel/specs/laws/Answers.antt", "first-no"): "first_no_holds",
    # beside pastNumber and pastText of the promise
    ("crates/wire/proofs/Skip.antt", "past-number"): "past_number_holds",
    ("crates/wire/proofs/Skip.antt", "past-text"): "past_text_holds",
    # beside tripGood, routeGood, timeGood
    ("*", "trip-good"): "trip_good_holds",
    ("*", "route-good"): "route_good_holds",
    ("*", "time-good"): "time_good_holds",
    # beside upperByte, firstToken, updateAt, ofWhole, unlessAsked, monthDays, isNew
    ("*", "upper-byte"): "upper_byte_twice",
    ("*", "first-token"): "first_token_first",
    ("*", "update-at"): "update_at_holds",
    ("*", "of-whole"): "of_whole_holds",
    ("*", "unless-asked"): "unless_asked_holds",
    ("*", "month-days"): "month_days_same",
    ("*", "is-new"): "is_new_holds",
    # beside label_at, labelsAt, tag_at, said_here, seenHere, noBody
    ("*", "label-at"): "label_at_holds",
    ("crates/journey_labels/specs/laws/Labels.antt", "labels_at"): "labels_at_holds",
    ("*", "tag-at"): "tag_at_fits",
    ("*", "said-here"): "said_here_all",
    ("crates/replay_script/specs/laws/Told.antt", "seen_here"): "seen_here_then",
    ("crates/overlay_frame/specs/laws/Body.antt", "no_body"): "no_body_holds",
    # beside nan_bits of std
    ("*", "nan-bits"): "nan_bits_are",
    # an abbreviation, beside the lemma front_of
    ("crates/overlay_ids/specs/laws/Fits.antt", "frontOf"): "front_bytes",
    # a value that a let binds, and no type
    ("crates/alerts_text/proofs/Folding.antt", "All-three"): "all_three",
    # the lemma, beside the test isSame
    ("crates/decode_slots/proofs/Settling.antt", "is_same"): "is_same_means",
    ("crates/overlay_seek/specs/laws/First.antt", "is_same"): "is_same_means",
}
# A special name that is in snake case already is turned only in a tree in which its other half is still in camel case.
HALF = {
    "bare_rows": "bareRows", "labels_at": "labelsAt", "seen_here": "seenHere", "no_body": "noBody", "is_same": "isSame",
}

TOKEN = re.compile(
    r'(?P<com>--[^\n]*)|(?P<str>"(?:\\.|[^"\\\n])*")|(?P<ws>\s+)|(?P<del>[(){}\[\];,.])|'
    r'(?P<id>[^\s(){}\[\];,."]+)|(?P<odd>.)', re.S)
USE = re.compile(r"^[ \t]*(?:pub )?use[ \t]+([^\s{]+?)(?:\.\{([^}]*)\}|[ \t]+as[ \t]+(\S+))?[ \t]*(?:--.*)?$", re.M)
GHOST = re.compile(r"^[ \t]*(?:pub )?ghost use[ \t]+([^\s{;]+?)(?:\.\{([^}]*)\}|[ \t]+as[ \t]+([^\s;]+))?[ \t]*;", re.M)
CLAUSE = re.compile(r"\b(?:requires|ensures|invariant|decreases|measure|ghost)\b[^{};()\n]*\{")
FOLDER = re.compile(r"\b(Rattle\.(\w+)\.specs\.)(laws|promises)(?![\w'-])")


def old(word):
    """A word with a hyphen, or in lower camel case."""
    if not re.fullmatch(r"\+?[a-zα-ω][\w'\-₀-₉]*", word) or re.match(r"\d", word):
        return False
    return bool(re.search(r"\w-\w", word) or re.search(r"[a-z0-9][A-Z]", word))


def snake(word):
    word = re.sub(r"([A-Z])([A-Z][a-z])", r"\1_\2", word.replace("-", "_"))
    word = re.sub(r"([a-z0-9])([A-Z])", r"\1_\2", word)
    return re.sub(r"_+", "_", word).lower()


class Names:
    """The renaming of one tree: a dictionary of texts by path."""

    def __init__(self, texts):
        self.texts = texts
        self.crates = {p.split("/")[1] for p in texts}
        self.table = collections.defaultdict(set)  # old: news
        self.used = {p: self.uses(p, t) for p, t in texts.items() if p.endswith((".antt", ".rt"))}
        self.words = {p: set(re.findall(r"[\w'\-₀-₉]+", t)) for p, t in texts.items() if p.endswith(".antt")}
        self.fields = self.record_fields()

    def module(self, path):
        p = path.split(".")
        if p[0] == "Rattle" and len(p) > 2 and p[1] in self.crates:
            for it in (p, [FOLDERS.get(x, x) for x in p]):
                f = "crates/" + "/".join(it[1:]) + ".antt"
                if f in self.texts:
                    return f
        return None

    def uses(self, p, t):
        """What a file imports: name: (None for a library's or Rattle's, else the file, and the name there)."""
        names, heads, spans = {}, {}, []
        for m in (USE if p.endswith(".antt") else GHOST).finditer(t):
            spans.append(m.span())
            home = self.module(m[1])
            if m[2] is not None:
                for it in m[2].split(","):
                    a, _, b = (x.strip() for x in it.strip().partition(" as "))
                    if a:
                        names[b or a] = (home, a)
            else:
                heads[m[3] or m[1].split(".")[-1]] = home
        return names, heads, spans

    def record_fields(self):
        out = set()
        for p, t in self.texts.items():
            if not p.endswith(".antt"):
                continue
            indent = None
            for line in t.split("\n"):
                n = len(line) - len(line.lstrip())
                if re.match(r"\s*(pub |abbrev )*record ", line):
                    indent = n
                elif indent is not None and line.strip():
                    if n <= indent:
                        indent = None
                    elif m := re.match(r"\s*(?:pub )?([^:]+?) :", line):
                        if not line.lstrip().startswith("--"):
                            out.update(m[1].split())
        return out

    def turned(self, home, word):
        """The new spelling of a word that the file home declares, or the word."""
        was = re.sub(r"/specs/(Laws|Promises)/", lambda m: f"/specs/{m[1].lower()}/", home)
        for key in ((home, word), (was, word)):
            if key in SPECIAL:
                if word in HALF and HALF[word] not in self.words.get(home, ()):
                    return word
                return self.note(word, SPECIAL[key])
        if not old(word) or MADE.match(word):
            return word
        return self.note(word, SPECIAL.get(("*", word)) or snake(word))

    def note(self, word, new):
        self.table[word].add(new)
        return new

    def bare(self, p, word):
        names, heads, _ = self.used[p]
        if word in names:
            home, a = names[word]
            if home is None:
                return word if word == a else self.turned(p, word)
            return self.turned(home, a) if word == a else self.turned(p, word)
        return self.turned(p, word)

    def use_line(self, p, text):
        def inner(m):
            return re.sub(r"[^\s,]+( as [^\s,]+)?", one, m[0])

        def one(m):
            a, _, b = m[0].partition(" as ")
            home = self.used[p][0].get(b or a, (None, a))[0]
            return (self.turned(home, a) if home else a) + (" as " + self.turned(p, b) if b else "")

        if "{" in text:
            return re.sub(r"(?<=\{)[^}]*", inner, text)
        return re.sub(r"(?<= as )[^\s;]+", lambda m: self.turned(p, m[0]), text)

    def terms(self, p, t, at, start, end):
        """The text t[start:end] of terms, turned; at: where no token is to be turned (spans of use lines)."""
        out, i = [], start
        names, heads, _ = self.used[p]
        chain = []  # the words of the path or projection that ends before i
        while i < end:
            if i in at:
                out.append(self.use_line(p, t[i : at[i]]))
                i, chain = at[i], []
                continue
            m = TOKEN.match(t, i, end)
            kind, w = m.lastgroup, m[0]
            if kind == "id":
                if i and t[i - 1] == "." and (i < 2 or not t[i - 2].isspace()):
                    if len(chain) == 1 and chain[0] in heads and chain[0] not in names:
                        out.append(self.turned(heads[chain[0]], w) if heads[chain[0]] else w)
                    elif len(chain) >= 1 and chain[0] in heads and heads[chain[0]] is None:
                        out.append(w)
                    else:
                        out.append(self.note(w, snake(w)) if w in self.fields and old(w) else w)
                    chain = chain + [w]
                else:
                    out.append(self.bare(p, w))
                    chain = [w]
            elif kind == "com":
                out.append(self.comment(p, w))
                chain = []
            else:
                out.append(w)
                if w != ".":
                    chain = ["("] if w in ")]}" else []
            i = m.end()
        return "".join(out)

    def comment(self, p, text):
        """Kept for the end, when the table is whole."""
        return "\ue000" + text + "\ue001"

    def finish(self, p, text):
        table = {a: next(iter(b)) for a, b in self.table.items() if len(b) == 1}
        for (home, a), b in SPECIAL.items():
            if home == p and a in self.table:
                table[a] = b

        def in_ticks(m):
            return re.sub(r"[\w'\-₀-₉+]+", lambda x: table[x[0]] if old(x[0]) and x[0] in table else x[0], m[0])

        def one(m):
            t = re.sub(r"`[^`\n]*`", in_ticks, m[1])
            t = re.sub(r"(?<![\w'./-])[a-z]+[a-z0-9]*[A-Z]\w*(?![\w'/-])", lambda x: table.get(x[0], x[0]), t)
            return re.sub(r"\b(laws|promises)/(?=[A-Z])", lambda x: FOLDERS[x[1]] + "/", t)

        return re.sub("\ue000([^\ue001]*)\ue001", one, text)

    def antt(self, p):
        t = self.texts[p]
        at = dict(self.used[p][2])
        t = self.terms(p, t, at, 0, len(t))
        t = re.sub(r"(?m)^(\s*(?:pub )?mod )(laws|promises)\b", lambda m: m[1] + FOLDERS[m[2]], t)
        return self.folders(t)

    def folders(self, t):
        return FOLDER.sub(lambda m: m[1] + FOLDERS[m[3]] if m[2] in self.crates else m[0], t)

    def rt(self, p):
        t = self.texts[p]
        mask = re.sub(r'"(?:\\.|[^"\\])*"|//[^\n]*|\'(?:\\.|[^\'\\])\'', lambda m: re.sub(r"[^\n]", " ", m[0]), t)
        parts = [(a, b, "use") for a, b in self.used[p][2]]
        parts += [(m.start(), m.end(), "com") for m in re.finditer(r"//[^\n]*", t) if mask[m.start()] == " "]
        parts += [(m.start(), m.end(), "attr") for m in re.finditer(r"#!?\[[^\]]*\]", mask)]
        for m in CLAUSE.finditer(mask):
            depth, i = 1, m.end()
            while depth:
                depth += {"{": 1, "}": -1}.get(mask[i], 0)
                i += 1
            parts.append((m.end(), i - 1, "clause"))
        out, i = [], 0
        for a, b, kind in sorted(parts):
            if a < i:
                continue
            out.append(t[i:a])
            if kind == "use":
                out.append(self.use_line(p, t[a:b]))
            elif kind == "com":
                out.append(self.comment(p, t[a:b]))
            elif kind == "attr":
                turned = lambda m: self.bare(p, m[0]) if m[0] in self.used[p][0] else m[0]
                out.append(re.sub(r"[\w'\-]+", turned, t[a:b]))
            else:
                out.append(self.terms(p, t, {}, a, b))
            i = b
        return self.folders("".join(out) + t[i:])

    def all(self):
        out = {}
        for p in self.texts:
            if p.endswith(".antt"):
                out[p] = self.antt(p)
            elif p.endswith(".rt"):
                out[p] = self.rt(p)
        out = {p: self.finish(p, t) for p, t in out.items()}
        return out

    def move(self, p):
        return re.sub(r"^(crates/\w+/specs/)(laws|promises)(?=[./])", lambda m: m[1] + FOLDERS[m[2]], p)


def disk():
    out = {}
    for folder, dirs, files in os.walk("crates"):
        dirs[:] = [d for d in dirs if d != "out"]
        for f in files:
            if f.endswith((".antt", ".rt")):
                p = os.path.join(folder, f)
                with open(p, encoding="utf-8") as it:
                    out[p] = it.read()
    return out


def commit(name, ends=(".antt", ".rt")):
    data = subprocess.run(["git", "archive", name, "crates"], check=True, stdout=subprocess.PIPE).stdout
    out = {}
    with tarfile.open(fileobj=io.BytesIO(data)) as tar:
        for m in tar:
            if m.isfile() and m.name.endswith(ends):
                out[m.name] = tar.extractfile(m).read().decode()
    return out


def table():
    """old: news, of the commit after port.py, and of what port.py had turned already."""
    names = Names(commit(PORTED))
    new = names.all()
    rows = {a: set(b) for a, b in names.table.items()}
    now = set()
    for t in new.values():
        now.update(re.findall(r"[\w'₀-₉+]+", t))
    was = set()
    for p, t in commit(ORIGINAL).items():
        if p.endswith(".antt"):
            heads = re.findall(r"(?m)^\s*(?:(?:pub|abbrev|unfoldable) )*([^\s(){}:]+(?: [^\s(){}:]+)*) :", t)
            was.update(w for it in heads for w in it.split())
    for w in was:
        if old(w) and w not in rows and snake(w) in now and not MADE.match(w):
            rows[w] = {snake(w)}
    return rows


def main(argv):
    if not os.path.isdir("crates"):
        print("port_names: run it at the top of the repository", file=sys.stderr)
        return 2
    if argv == ["--table"]:
        for a, b in sorted(table().items()):
            for it in sorted(b):
                print(f"{a}\t{it}")
        return 0
    if argv:
        print(__doc__)
        return 2
    names = Names(disk())
    changed = moved = 0
    for p, t in names.all().items():
        if t != names.texts[p]:
            changed += 1
            with open(p, "w", encoding="utf-8") as it:
                it.write(t)
    for p in list(names.texts):
        q = names.move(p)
        if p != q:
            moved += 1
            os.makedirs(os.path.dirname(q), exist_ok=True)
            os.rename(p, q)
    for c in names.crates:
        for f in FOLDERS:
            d = f"crates/{c}/specs/{f}"
            if os.path.isdir(d) and not os.listdir(d):
                os.rmdir(d)
    print(f"port_names: {len(names.table)} names, {changed} files changed, {moved} moved")
    return 0


if __name__ == "__main__":
    raise SystemExit(main(sys.argv[1:]))
