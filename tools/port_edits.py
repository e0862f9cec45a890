#!/usr/bin/env python3
"""Turns the texts of crates/*/must-fail/*.edit to the spelling of the files that they edit.

usage: python3 tools/port_edits.py            at the top of the repository, after port_names.py: rewrites the edits that
                                              can be turned
       python3 tools/port_edits.py --list     only says which edits do not match

The commit 008ce71d has both the edits and the files that they fit. Each line of a file there is laid beside the line
that it is now, which gives the new spelling of its words. An edit is rewritten where each turned 'old:' text stands
once in its file; any other stays
as it is. No edit is removed, and a text keeps its meaning: 'old:' and 'new:' are turned by the same words.
"""

import collections
import difflib
import os
import re
import sys

sys.path.insert(0, os.path.dirname(os.path.realpath(__file__)))
import port_names

ORIGINAL = port_names.ORIGINAL
WORD = re.compile(r"[^\s(){}\[\];,.\"·]+|\"(?:\\.|[^\"\\])*\"")


def plain(line):
    """A line without what the scripts respelled."""
    line = re.sub(r"Rattle·\w+·(specs|proofs)\.\1", lambda m: "Rattle." + m[0].split("·")[1] + "." + m[1], line)
    return re.sub(r"[\s_\-·◌().′'\"]", "", line).lower()


def here(path):
    """The file's path now, from its path in ORIGINAL."""
    return re.sub(r"^(crates/\w+/specs/)(laws|promises)(?=[./])", lambda m: m[1] + port_names.FOLDERS[m[2]], path)


def aligned(old, new):
    """Pairs of line numbers, of lines that say the same."""
    a, b = old.split("\n"), new.split("\n")
    out = {}
    same = difflib.SequenceMatcher(None, [plain(x) for x in a], [plain(x) for x in b], autojunk=False)
    for tag, i, j, k, n in same.get_opcodes():
        if tag == "equal" or tag == "replace" and j - i == n - k:
            out.update(zip(range(i, j), range(k, n)))
    return a, b, out


def learn(pairs):
    """For each file and for all: the new spelling of each word."""
    each, every = {}, collections.defaultdict(collections.Counter)
    for p, (a, b, lines) in pairs.items():
        mine = collections.defaultdict(collections.Counter)
        for i, k in lines.items():
            if re.match(r"\s*(pub )?(ghost )?use ", a[i]):
                continue
            x, y = WORD.findall(a[i]), WORD.findall(b[k])
            if len(x) == len(y):
                for v, w in zip(x, y):
                    mine[v][w] += 1
                    every[v][w] += 1
        each[p] = {v: c.most_common(1)[0][0] for v, c in mine.items()}
    return each, {v: c.most_common(1)[0][0] for v, c in every.items()}


def turn(text, mine, every):
    text = re.sub(r"Rattle·(\w+)·(specs|proofs)\.\2", r"Rattle.\1.\2", text)
    text = text.replace("Rattle·", "Rattle.").replace("′", "'")
    text = re.sub(r"\b(Rattle\.\w+\.specs\.)(laws|promises)\b", lambda m: m[1] + port_names.FOLDERS[m[2]], text)
    text = re.sub(r"(?<![\w_])_([^\w\s(){},;.]+)_(?![\w_])", r"◌\1◌", text)
    text = WORD.sub(lambda m: m[0] if m[0][0] == '"' else mine.get(m[0]) or every.get(m[0], m[0]), text)
    return text


def atoms(text, end):
    """Where the application starts that ends before end, and how many atoms it has."""
    i, n = end, 0
    while i > 0:
        j = i
        if text[i - 1] == ")":
            depth = 0
            while j > 0:
                j -= 1
                depth += {")": 1, "(": -1}.get(text[j], 0)
                if not depth:
                    break
            if depth:
                break
        else:
            while j > 0 and not re.match(r"[\s(){}\[\];,]", text[j - 1]):
                j -= 1
            word = text[j:i]
            if not re.match(r"[\w\[]", word) or word.endswith(".") or word in ("in", "let", "of", "do"):
                break
        n, start = n + 1, j
        if j == 0 or text[j - 1] != " " or text[:j].isspace():
            return start, n
        i = j - 1
    return (start if n else end), n


def tight(text):
    """`(f .next)` is `f.next`, and a projection of an application, `g x .next`, is `(g x).next`."""
    while m := re.search(r"(?<=[\w)'\u2080-\u2089]) \.(?=\w)", text):
        start, n = atoms(text, m.start())
        arg = text[start : m.start()]
        name = re.match(r"[^\s(){}\[\];,.]+", text[m.end() :])[0]
        rest = text[m.end() + len(name) :]
        it = (arg if n < 2 else "(" + arg + ")") + "." + name
        front = text[:start]
        # parentheses around that alone go
        if front.endswith("(") and rest.startswith(")") and not re.search(r"[\w)]$", front[:-1]):
            front, rest = front[:-1], rest[1:]
        text = front + it + rest
    return text


def ways(text, mine, every):
    """The spellings to try, the likeliest first."""
    t = turn(text, mine, every)
    out = [tight(t), t]
    for it in list(out):
        out.append(it.strip())
    return out


def imports(old, new, text, home):
    """A pair that adds names to an import, for the import lines of today; None where the names are there already, False
    if it can't."""
    a, b = (set(x.strip() for x in re.search(r"\{([^}]*)\}", t)[1].split(",") if x.strip()) for t in (old, new))
    if not a <= b or re.sub(r"\{.*", "", old) != re.sub(r"\{.*", "", new):
        return False
    had = set(x for m in port_names.USE.finditer(text) for x in re.split(r",\s*", m[2] or ""))
    want = [x for x in sorted(b - a) if x not in had]
    if not want:
        return None
    for m in port_names.USE.finditer(text):
        if m[2] is not None and all(x in home.get(m[1], ()) for x in want):
            line = m[0].strip()
            if text.count(line) == 1:
                return line, line.replace("}", ", " + ", ".join(want) + "}")
    return False


def edits(folder="crates"):
    for c in sorted(os.listdir(folder)):
        d = os.path.join(folder, c, "must-fail")
        if os.path.isdir(d):
            for f in sorted(os.listdir(d)):
                if f.endswith(".edit"):
                    yield c, os.path.join(d, f)


def read(text):
    lines = text.split("\n")
    file = next((x[6:] for x in lines if x.startswith("file: ")), "")
    return file, [x[5:] for x in lines if x.startswith("old: ")], [x[5:] for x in lines if x.startswith("new: ")]


def fits(file, olds, news, texts):
    t = texts.get(file)
    if t is None:
        return "there is no file " + file
    for a, b in zip(olds, news):
        if t.count(a) != 1:
            return f"{t.count(a)} times: {a}"
        t = t.replace(a, b)
    return None


def main(argv):
    texts = port_names.disk()
    was = port_names.commit(ORIGINAL, (".antt", ".rt", ".edit"))
    both = [p for p in was if p.endswith((".antt", ".rt")) and here(p) in texts and argv != ["--list"]]
    pairs = {p: aligned(was[p], texts[here(p)]) for p in both}
    each, every = learn(pairs) if pairs else ({}, {})
    home = collections.defaultdict(set)  # the names that some file imports from a path
    for t in texts.values():
        for m in port_names.USE.finditer(t):
            home[m[1]].update(x.strip() for x in (m[2] or "").split(","))
    good = turned = 0
    left = []
    total = 0
    for c, p in edits():
        total += 1
        with open(p, encoding="utf-8") as it:
            text = it.read()
        file, olds, news = read(text)
        path = here(f"crates/{c}/{file}")
        if fits(path, olds, news, texts) is None:
            good += 1
            # an old text that has its spelling, with a new one that has not
            if path.endswith(".antt") and was.get(p) == text and pairs:
                mine = each.get(f"crates/{c}/{file}", {})
                for a, b in zip(olds, news):
                    it = tight(turn(b, mine, every))
                    if tight(turn(a, mine, every)) == a and it != b:
                        text = text.replace("new: " + b + "\n", "new: " + it + "\n")
                if text != was[p]:
                    turned += 1
                    with open(p, "w", encoding="utf-8") as it:
                        it.write(text)
            continue
        if argv == ["--list"] or p not in was or was[p] != text or path not in texts:
            left.append((p, fits(path, olds, news, texts)))
            continue
        source = f"crates/{c}/{file}"
        mine = each.get(source, {})
        old_text, now = was[source], texts[path]
        result, why = [], None
        for a, b in zip(olds, news):
            if re.match(r"\s*(pub )?use ", a) and "{" in a and "{" in b:
                x, y = turn(a, mine, every), turn(b, mine, every)
                if now.count(x) != 1:
                    got = imports(x, y, now, home)
                    if got is None:
                        result.append(None)
                        continue
                    if got is False:
                        why = "an import: " + x
                        break
                    x, y = got
                result.append((x, y))
                now = now.replace(x, y)
                continue
            found = None
            for x, y in zip(ways(a, mine, every), ways(b, mine, every)):
                if now.count(x) == 1 and x != y:
                    found = x, y
                    break
            if not found:
                found = by_line(a, b, source, old_text, pairs, mine, every, now)
            if not found:
                why = f"{now.count(ways(a, mine, every)[0])} times: {ways(a, mine, every)[0]}"
                break
            result.append(found)
            now = now.replace(found[0], found[1])
            old_text = old_text.replace(a, b)
        if why is None and any(result):
            out, n, m = [], 0, 0
            for line in text.split("\n"):
                if line.startswith("file: "):
                    out.append("file: " + path.split("/", 2)[2])
                elif line.startswith("old: "):
                    if result[n]:
                        out.append("old: " + result[n][0])
                    n += 1
                elif line.startswith("new: "):
                    if result[m]:
                        out.append("new: " + result[m][1])
                    m += 1
                else:
                    out.append(line)
            new = "\n".join(out)
            if fits(path, *read(new)[1:], texts) is None:
                with open(p, "w", encoding="utf-8") as it:
                    it.write(new)
                good += 1
                turned += 1
                continue
            why = "after turning " + fits(path, *read(new)[1:], texts)
        left.append((p, why))
    for p, why in left:
        print(f"left: {p}: {why}")
    print(f"port_edits: {total} edits, {good} match, {turned} of them turned now, {len(left)} left")
    return 0


def by_line(a, b, source, old_text, pairs, mine, every, now):
    """By the line that the old text stands in: the words in front of it and behind it say which part of today's line it
    is."""
    lines = pairs[source][2]
    at = old_text.find(a)
    if at < 0:
        return None
    row = old_text.count("\n", 0, at)
    start = at - (old_text.rfind("\n", 0, at) + 1)
    if row not in lines or pairs[source][0][row] != old_text.split("\n")[row]:
        return None
    line, fresh = pairs[source][0][row], pairs[source][1][lines[row]]
    x, y = list(WORD.finditer(line)), list(WORD.finditer(fresh))
    if len(x) != len(y):
        return None
    inside = [k for k, m in enumerate(x) if m.start() >= start and m.end() <= start + len(a)]
    end = start + len(a)
    cut = (m for m in x if m.start() < end and m.end() > start and not (m.start() >= start and m.end() <= end))
    if not inside or any(cut):
        return None
    # the part that changes, in whole words with what is between them
    p = 0
    s = 0
    while p < min(len(a), len(b)) and a[p] == b[p]:
        p += 1
    while s < min(len(a), len(b)) - p and a[len(a) - 1 - s] == b[len(b) - 1 - s]:
        s += 1
    middle = [k for k, m in enumerate(x) if m.end() > start + p and m.start() < start + len(a) - s]
    apart = re.compile(r"[\s(){}\[\];,.]")
    edge = lambda t, i: 0 < i < len(t) and not apart.match(t[i - 1]) and not apart.match(t[i])
    while p and (edge(a, p) or edge(b, p)):
        p -= 1
    while s and (edge(a, len(a) - s) or edge(b, len(b) - s)):
        s -= 1
    middle = [k for k, m in enumerate(x) if m.end() > start + p and m.start() < start + len(a) - s]
    if not middle:
        return None
    i, j = y[middle[0]].start(), y[middle[-1]].end()
    part, other = tight(turn(a[p : len(a) - s], mine, every)), tight(turn(b[p : len(b) - s], mine, every))
    lo, hi = i - (len(part) - len(part.lstrip("( ."))), j + (len(part) - len(part.rstrip(") .")))
    if fresh[max(lo, 0) : hi] != part:
        return None
    changed = fresh[:lo] + other + fresh[hi:]
    if now.count(fresh.strip()) == 1:
        return fresh.strip(), changed.strip()
    return (fresh, changed) if now.count(fresh) == 1 else None


if __name__ == "__main__":
    raise SystemExit(main(sys.argv[1:]))
