#!/usr/bin/env python3
"""Turns the walks proofs/F/Proof.antt of a crate into Invariants.antt and Answers.antt.

usage: python3 tools/port_proofs.py [FUNCTION..]    in the crate's folder, where all that it stands on is proved
A walk lists its answers in the order of the goals; `rt check --generated FOLDER --old-names` says each goal's name and
what every place before it is called now. What a walk had is kept below target/walks; a line 'hand:' says what is left.
"""
import json
import os
import re
import shutil
import subprocess
import sys
import tempfile

ID = r"(?:«[^»]*»|[^\s(){}\[\];,.@\"«»]+)"
TRIV = re.compile(r"^(search rules|omega arith|refl|tt|search \(rules\))$")


def norm(n):
    n = n.replace("-", "_")
    return re.sub(r"_(\d+)$", r"\1", n)


def split_atoms(t):
    """atoms of an application: names or balanced groups"""
    out, i = [], 0
    while i < len(t):
        if t[i].isspace():
            i += 1
            continue
        if t[i] in "([{":
            d, j = 0, i
            while j < len(t):
                if t[j] in "([{":
                    d += 1
                if t[j] in ")]}":
                    d -= 1
                    if d == 0:
                        break
                j += 1
            j += 1
            while j < len(t) and not t[j].isspace():
                j += 1
            out.append(t[i:j])
            i = j
        else:
            j = i
            while j < len(t) and not t[j].isspace():
                j += 1
            out.append(t[i:j])
            i = j
    return out


def balanced(t, i):
    """t[i] opens; index past the closing"""
    d = 0
    for j in range(i, len(t)):
        if t[j] in "([{":
            d += 1
        if t[j] in ")]}":
            d -= 1
            if d == 0:
                return j + 1
    raise ValueError("unbalanced")


def split_tuple(b):
    b = b.strip()
    if not (b.startswith("(") and balanced(b, 0) == len(b)):
        return None
    inner, parts, d, last = b[1:-1], [], 0, 0
    for j, ch in enumerate(inner):
        if ch in "([{":
            d += 1
        if ch in ")]}":
            d -= 1
        if ch == "," and d == 0:
            parts.append(inner[last:j])
            last = j + 1
    parts.append(inner[last:])
    parts = [p.strip() for p in parts]
    if len(parts) > 1 and parts[-1] == "":
        parts.pop()
    return parts if len(parts) > 1 else None


def trivial(b):
    try:
        return trivial1(b)
    except ValueError:
        return False


def trivial1(b):
    b = " ".join(b.split())
    while b.startswith("(") and balanced(b, 0) == len(b) and split_tuple(b) is None:
        b = b[1:-1].strip()
    if TRIV.match(b):
        return True
    p = split_tuple(b)
    return bool(p) and all(trivial(x) for x in p)


ROOT = os.path.dirname(os.path.abspath("."))


class Fn:
    def __init__(s, names):
        s.n = names

    def ancestors(s, p):
        out = []
        while p is not None:
            out.append(p)
            par = s.n["places"][p][1]
            p = s.index(par)
        return out

    def index(s, name):
        if name is None:
            return None
        for i, x in enumerate(s.n["places"]):
            if x[0] == name:
                return i
        return None

    def path(s, place, fields, goalplace):
        """new path below c for fields (list) from place"""
        p, i = place, 0
        while i < len(fields) and fields[i] == "before":
            q = s.index(s.n["places"][p][1])
            if q is not None:
                p = q
            i += 1
        rest = fields[i:]
        if not rest:
            return ("place", p), []
        f = rest[0]
        f = f.strip("«»")
        rest[0] = f
        if f == "fits":
            return None, ["ranges"] + rest[1:]
        if f in ("pre", "requires"):
            req = getattr(s, "req", [])
            rest = [rest[0]] + labelled(rest[1:], req)
            return None, ["requires"] + rest[1:]
        if f in ("args", "requires", "ranges", "lifetimes", "utf8", "type_inv", "bounds", "well_formed"):
            return None, rest
        for a in s.ancestors(p) + s.ancestors(goalplace):
            old, new = s.n["places"][a][2]
            if norm(old) == norm(f):
                # arms
                best = None
                for g in s.ancestors(goalplace):
                    arm = s.n["arms"][g] if g < len(s.n["arms"]) else None
                    if not arm:
                        continue
                    for nf, st, pt in arm[2]:
                        if nf.endswith("-own"):
                            continue
                        if (
                            norm(st) == norm(f)
                            and rest[1 : 1 + len(pt)] == pt
                            and (best is None or len(pt) > len(best[2]))
                        ):
                            best = (arm[0], nf, pt)
                    if best:
                        break
                if len(rest) > 2 and rest[1] == "rest":
                    sib = [
                        x[2][1]
                        for x in s.n["places"]
                        if x[1] == s.n["places"][a][1] and norm(x[2][0]) == norm(f) and x[2][1] != new
                    ]
                    z = 0
                    while z + 2 < len(rest) and rest[2 + z] == "0":
                        z += 1
                    if z + 2 < len(rest) and rest[2 + z] == "1" and z < len(sib):
                        k = sib[len(sib) - 1 - z]
                        return None, [new, "not-" + re.sub(r"^in[-_]", "", k)] + rest[3 + z :]
                if not best and rest[1:2] == ["given"] and len(rest) == 2:
                    for g in s.ancestors(goalplace):
                        arm = s.n["arms"][g] if g < len(s.n["arms"]) else None
                        if arm and any(
                            norm(st) == norm(f) and pt and pt[0] == "given" for nf, st, pt in arm[2]
                        ):
                            return None, [arm[0], "is"]
                if best:
                    return None, [best[0], best[1]] + rest[1 + len(best[2]) :]
                tail = ["type_inv" if x == "type-inv" else "invariant" if x == "inv" else x for x in rest[1:]]
                if (new.startswith("if-") or new.endswith("-test")) and tail and tail[0] in ("taken", "left"):
                    tail[0] = {"taken": "true", "left": "false"}[tail[0]]
                callee = s.n["places"][a][3]
                if callee and len(tail) > 1 and tail[0] == "new" and tail[1].isdigit():
                    ps, i = muts(callee), 1
                    while i < len(tail) and tail[i] == "1":
                        i += 1
                    if i < len(tail) and tail[i] == "0" and i - 1 < len(ps):
                        tail = ["new", ps[i - 1]] + tail[i + 1 :]
                if callee and tail and tail[0] == "ensures":
                    tail = ["ensures"] + labelled(tail[1:], callee_labels(callee)[0])
                return None, [new] + tail
        return None, None

    def translate(s, body, goalplace, said, var="c"):
        env = {var: goalplace}
        # an alias of what a pattern gave is written out
        while True:
            m = re.search(rf"let ({ID}) = ({ID}(?:\.{ID})*\.(?:given|rest)(?:\.{ID})*)\s+in\s", body)
            if not m:
                break
            body = body[: m.start()] + re.sub(
                rf"(?<![^\s(){{}}\[\];,@]){re.escape(m.group(1))}(?=[\s(){{}}\[\];,@.]|$)",
                lambda q: m.group(2),
                body[m.end() :],
            )
        if len(getattr(s, "req", [])) > 1:
            while True:
                m = re.search(rf"let ({ID}) = ([^\s]+\.(?:requires|pre)(?:\.\d)*)\s+in\s", body)
                if not m:
                    break
                body = body[: m.start()] + re.sub(
                    rf"(?<![^\s(){{}}\[\];,@]){re.escape(m.group(1))}(?=[\s(){{}}\[\];,@.]|$)",
                    lambda q: m.group(2),
                    body[m.end() :],
                )
        body = re.sub(rf", {ID}(?:\.before)*\.requires\.0(?=[,)])", "", body)
        body = re.sub(r"\(arith\)", "arith", body)

        # let x = PATH in
        def lets(m):
            name, base, fl = m.group(1), m.group(2), [x for x in m.group(3).split(".") if x]
            if base not in env:
                return m.group(0)
            at, new = s.path(env[base], fl, goalplace)
            if at:
                env[name] = at[1]
                return ""
            return m.group(0)

        # resolve lets one after the other, since they may build on one another
        while True:
            m = None
            for m in re.finditer(rf"let ({ID}) = ({ID})((?:\.before)*)\s+in\s", body):
                if m.group(2) in env:
                    break
            else:
                break
            env[m.group(1)] = s.path(env[m.group(2)], [x for x in m.group(3).split(".") if x], goalplace)[0]
            if env[m.group(1)] is None:
                said.append("path " + m.group(0))
                return body
            env[m.group(1)] = env[m.group(1)][1]
            body = body[: m.start()] + body[m.end() :]

        def sub(m):
            base, fl = m.group(1), [x for x in m.group(2).split(".") if x]
            if base not in env:
                return m.group(0)
            at, new = s.path(env[base], fl, goalplace)
            if at:
                return "c"
            if new is None:
                said.append("path " + m.group(0))
                return m.group(0)
            return "c." + ".".join(new)

        body = re.sub(rf"(?<![^\s(){{}}\[\];,@])({ID})((?:\.{ID})+)", sub, body)
        for e in env:
            if e != var:
                body = re.sub(rf"(?<![^\s(){{}}\[\];,@]){re.escape(e)}(?![^\s(){{}}\[\];,@])", "c", body)
        return body


def functions_labels(crate):
    """Rust name -> list of ensures labels, requires labels"""
    out = {}
    for r, d, fs in os.walk(os.path.join(crate, "src")):
        for f in fs:
            if not f.endswith(".rt"):
                continue
            t = open(os.path.join(r, f)).read()
            for m in re.finditer(r"\bfn (\w+)", t):
                # header: up to the body
                j = m.end()
                ens, req = [], []
                while True:
                    mm = (
                        re.compile(r"\s*(requires|ensures)\*?\s*(\w+)?\s*\{|[^{]").match(t, j)
                        if False
                        else None
                    )
                    break
                k = m.end()
                while k < len(t) and t[k] != "(":
                    k += 1
                k = balanced(t, k)
                while True:
                    mm = re.compile(
                        r"(?:\[[^\]{}]*\]|[^{};])*?\b(requires|ensures|ghost)\*?(?:\s+(\w+))?\s*(?::\s*)?\{"
                    ).match(t, k)
                    if not mm:
                        break
                    e = balanced(t, mm.end() - 1)
                    (ens if mm.group(1) == "ensures" else req if mm.group(1) == "requires" else []).append(
                        mm.group(2)
                    )
                    k = e
                out.setdefault(m.group(1), (ens, req))
    return out


def definitions(t):
    """top-level definitions of a file: name -> (type text, unfolding, params, body)"""
    defs, order = {}, []
    blocks = re.split(r"\n(?=[^\s)])", t)
    cur = None
    for b in blocks:
        m = re.match(rf"(?:abbrev |pub |unfoldable )*({ID}) :\s*([\s\S]*)", b)
        if m and not b.startswith("use ") and not b.startswith("--"):
            cur = m.group(1)
            defs[cur] = [m.group(2).strip(), "", [], None, b]
            order.append(cur)
            continue
        m = re.match(r"unfolding (.*)", b)
        if m and cur:
            defs[cur][1] = b.strip()
            continue
        m = re.match(rf"({ID})((?:\s+{ID})*?)\s+=\s*([\s\S]*)", b)
        if m and m.group(1) == cur:
            defs[cur][2] = m.group(2).split()
            defs[cur][3] = m.group(3).rstrip() if defs[cur][3] is None else defs[cur][3]
            continue
    return defs, order


def lam(atom):
    a = atom.strip()
    if not (a.startswith("(") and balanced(a, 0) == len(a)):
        return None
    inner = a[1:-1].strip()
    m = re.match(rf"λ (c|{ID})((?: {ID})*)\. ?([\s\S]*)", inner)
    if not m:
        return None
    return m.group(1), m.group(2).split(), m.group(3).rstrip()


def dedent(b):
    lines = b.split("\n")
    if len(lines) == 1:
        return b
    out = [lines[0]]
    for l in lines[1:]:
        out.append("    " + l.strip() if l.strip() else l)
    return "\n".join(out)


def convert(crate, only, names):
    cname = os.path.basename(os.path.abspath(crate))
    labels = functions_labels(crate)
    proofs = os.path.join(crate, "proofs")
    hand = []
    done = set()
    for key in names:
        pre = "Rattle-" + cname + "-proofs."
        if not key.startswith(pre):
            continue
        m = re.fullmatch(re.escape(pre) + r"(.+)\.Lts(?:-(.+))?", key)
        if not m:
            continue
        fn, member = m.group(1), m.group(2)
        if only and not any(o in fn for o in only):
            continue
        folder = os.path.join(proofs, *fn.split("."))
        if not os.path.isfile(os.path.join(folder, "Proof.antt")):
            continue
        if fn in done:
            continue
        done.add(fn)
        members = (
            [
                (q.group(1), names[k])
                for k in names
                for q in [re.fullmatch(re.escape(pre + fn) + r"\.Lts-(.+)", k)]
                if q
            ]
            if member
            else [(None, names[key])]
        )
        one(crate, cname, fn, folder, members, labels, hand)
    return hand


LABELS = {}


def labelled(path, labels):
    """a path into right-nested pairs, as a label and the rest"""
    if len(labels) < 2 or not all(labels) or not path or not path[0].isdigit():
        return path
    i, k = 0, 0
    while i < len(labels) - 1 and k < len(path) and path[k] == "1":
        i += 1
        k += 1
    if i < len(labels) - 1:
        if k < len(path) and path[k] == "0":
            k += 1
        else:
            return path
    return [labels[i]] + path[k:]


def lets_of(body):
    """the lets before a term, as (name, text), and the term"""
    out, b = [], body.strip()
    while b.startswith("let "):
        d, j = 0, 0
        while j < len(b):
            if b[j] in "([{":
                d += 1
            if b[j] in ")]}":
                d -= 1
            if d == 0 and re.match(r"\sin(?=[\s(])", b[j : j + 4]):
                break
            j += 1
        else:
            return None, body
        m = re.match(r"let (\(?[^\s:=]+)", b)
        if b[4] == "(":
            return None, body
        out.append((m.group(1), b[:j] + " in"))
        b = b[j + 3 :].strip()
    return out, b


def with_lets(lets, part):
    keep, words = [], set(re.findall(ID, part))
    for name, text in reversed(lets):
        if name in words or re.search(r"\b(omega|search|grind|cc|assumption|simp)\b", part):
            keep.append(text)
            words |= set(re.findall(ID, text))
    return "\n    ".join(list(reversed(keep)) + [part])


def nested(b, n):
    """the n parts of a nested tuple"""
    p = split_tuple(b)
    if n == 1:
        return [b]
    if not p:
        return None
    if len(p) == n:
        return p
    if len(p) == 2:
        r = nested(p[1], n - 1)
        if r:
            return [p[0]] + r
        r = nested(p[0], n - 1)
        if r:
            return r + [p[1]]
        for k in range(2, n - 1):
            x, y = nested(p[0], k), nested(p[1], n - k)
            if x and y:
                return x + y
    return None


def callee_labels(callee):
    c, f = callee.split("::")[0], callee.split("::")[-1]
    if c not in LABELS:
        LABELS[c] = functions_labels(os.path.join(ROOT, c))
    return LABELS[c].get(f, ([], []))


def muts(callee):
    c, f = callee.split("::")[0], callee.split("::")[-1]
    for r, d, fs in os.walk(os.path.join(ROOT, c, "src")):
        for x in fs:
            t = open(os.path.join(r, x)).read()
            m = re.search(rf"\bfn {f}\b[^(]*\(", t)
            if m:
                inner = t[m.end() : balanced(t, m.end() - 1) - 1]
                return [
                    p.split(":")[0].strip() for p in re.findall(r"[a-z_0-9]+\s*:\s*&(?:'\w+ )?mut", inner)
                ] or (["self"] if "&mut self" in inner else [])
    return []


def params_of(crate, name):
    for r, d, fs in os.walk(os.path.join(crate, "src")):
        for f in fs:
            if not f.endswith(".rt"):
                continue
            t = open(os.path.join(r, f)).read()
            m = re.search(rf"\bfn {name}\b[^(]*\(", t)
            if m:
                e = balanced(t, m.end() - 1)
                inner, parts, d, last = t[m.end() : e - 1], [], 0, 0
                for j, ch in enumerate(inner):
                    if ch in "([{<":
                        d += 1
                    if ch in ")]}>":
                        d -= 1
                    if ch == "," and d == 0:
                        parts.append(inner[last:j])
                        last = j + 1
                parts.append(inner[last:])
                return [
                    re.sub(r"^(&mut |&|mut )*", "", p.strip()).split(":")[0].strip()
                    for p in parts
                    if p.strip()
                ]
    return []


def one(crate, cname, fn, folder, members, labels, hand):
    pf = os.path.join(folder, "Proof.antt")
    t = open(pf).read()
    defs, order = definitions(t)
    specname = [x for x in order if defs[x][0].find("statement") >= 0]
    specunf = defs[specname[0]][1] if specname else ""
    inv_text, answers, said, taken = [], [], [], set(specname)
    backs = [
        x
        for x in order
        if re.search(r"(tie|lts)\.\S+[\s\S]* → [\s\S]*(tie|lts)\.", defs[x][0]) and "Need" not in defs[x][0]
    ]
    taken.update(backs)
    for member, n in members:
        F = Fn(n)
        if member:
            m = re.search(rf"use \S*\.Lts-{re.escape(member)} as (\S+)", t)
            alias = m.group(1) if m else None
            m = alias and re.search(rf"(?<![^\s(]){re.escape(alias)}\.spec(?=[\s)(])", t)
        else:
            m = re.search(r"tie\.spec(?=[\s)])", t)
        if not m:
            said.append("no spec of " + str(member))
            continue
        i = m.end()
        d = 0
        j = i
        while j < len(t):
            if t[j] in "([{":
                d += 1
            if t[j] in ")]}":
                if d == 0:
                    break
                d -= 1
            j += 1
        atoms = split_atoms(t[i:j])
        if "λ" in atoms:
            atoms = atoms[: atoms.index("λ")]
        stem = ""
        if member:
            atoms = atoms[3:]
            stem = n["stem"]
            ps = params_of(crate, member)
            for x in order:
                if re.match(r"Measures", defs[x][0]) and norm(x) == norm("μ-" + member):
                    body = defs[x][3]

                    def p(q):
                        k = q.group(1).count(".1")
                        return "l." + ps[k] if k < len(ps) else q.group(0)

                    body = re.sub(r"\ba((?:\.1)*)\.0(?!\.)", p, body)
                    if re.search(r"\ba\.", body):
                        said.append("measure " + body)
                    inv_text.append(
                        f"abbrev pub decreases-{member} : goal.decreases-{member}\ndecreases-{member} l = {body}"
                    )
        loops = n["loops"]
        loopdefs = atoms[: 2 * len(loops)]
        atoms = atoms[2 * len(loops) :]
        taken.update(loopdefs)
        needs = n["needs"]
        settled = list(n["settled"])

        def inv_of(atom, k, kind):
            (oldn, newn), vars_ = loops[k]
            ch = n["changed"][k]
            if atom in defs and defs[atom][3] is not None:
                params, body = defs[atom][2], defs[atom][3]
            else:
                l = lam(atom)
                if not l:
                    said.append("loop " + atom)
                    return
                params, body = [l[0]] + l[1], l[2]
            newp = [("l.initial." + v if c else "l." + v) for v, c in zip(vars_, ch)] + [
                "l." + v for v, c in zip(vars_, ch) if c
            ]
            if len(params) != len(newp):
                said.append(f"loop params {atom} {params} {newp}")
                return
            mp = dict(zip(params, newp))
            body = re.sub(
                rf"(?<![^\s(){{}}\[\];,@])({ID})(?=[\s(){{}}\[\];,@.]|$)(?! [=:] )",
                lambda q: mp.get(q.group(1), q.group(1)),
                body,
            )
            nm = f"{kind}-{stem}{newn}"
            inv_text.append(
                f"abbrev pub {nm} : goal.{nm}\n{nm} l ="
                + (f"\n    {dedent(body).lstrip()}" if "\n" in body or len(body) > 70 else " " + body)
            )

        for k in range(len(loops)):
            if 2 * k + 1 < len(loopdefs):
                inv_of(loopdefs[2 * k], k, "invariant")
                inv_of(loopdefs[2 * k + 1], k, "decreases")
        old_named = {}
        for a in atoms:
            if a in defs:
                q = re.match(r"\S*\.?Need-([^\s]+)", defs[a][0])
                if q:
                    old_named[a] = q.group(1)
        if len(atoms) == len(needs):
            pairs = list(zip(atoms, range(len(needs))))
        else:
            pairs = align(atoms, needs, old_named, settled, defs)
            if pairs is None:
                said.append(f"count {len(atoms)} old answers, {len(needs)} goals, settled {settled}")
                pairs = []
        taken.update(a for a in atoms)
        base = member or fn.split(".")[-1]
        ens, req = labels.get(base, ([], []))
        F.req = req
        lead = "t " if member else ""
        for a, k in pairs:
            unf = ""
            if a in defs and defs[a][3] is not None:
                params, body, unf = defs[a][2], defs[a][3], defs[a][1]
                var = params[0] if params else "c"
                if not params:
                    body = "(" + body + ") c"
                    var = "c"
            else:
                l = lam(a)
                if l is None:
                    said.append("atom " + a[:80])
                    continue
                var, params, body = l[0], [l[0]] + l[1], l[2]
                unf = specunf
            more = [p for p in params[1:] if p not in ("κs", "ks", "t")]
            if more:
                body = "λ " + " ".join(more) + ". " + body
            if trivial(body):
                continue
            at = n["asked_at"][k][0] if k < len(n["asked_at"]) else None
            gp = F.index(at)
            if gp is None:
                said.append(f"place of {needs[k]}")
                gp = 0
            while True:
                was = body
                for x in backs:
                    body = re.sub(rf"\({re.escape(x)} ([^\s()]+)\)", r"\1", body)
                    body = re.sub(rf"= {re.escape(x)} ([^\s()]+)(\s+in\s)", r"= \1\2", body)
                if body == was:
                    break
            body = F.translate(body, gp, said, var)
            if ".in_default.not-" in body:
                q = re.search(rf"(?:^|in\s)\s*({ID})\s[^=]*$", body)
                if q:
                    body = "search " + q.group(1)
                else:
                    said.append("rest " + needs[k][1])
            g = stem + needs[k][1]
            labs = ens if needs[k][1].startswith("returns") else []
            q = re.fullmatch(r"(.+)-requires(-\d+)?", needs[k][0])
            if q:
                cal = [
                    x[3] for x in n["places"] if x[3] and norm(x[3].split("::")[-1]) == norm(q.group(1))
                ] or [y for y in n["params"] if norm(y.split("::")[-1]) == norm(q.group(1))]
                labs = callee_labels(cal[0])[1] if cal else []
            body1 = body
            if q and not member:
                w = split_tuple(body)
                if w and w[-1] == "tt" and len(w) == 2 and len(labs) < 2:
                    body1 = w[0]
            lets, tail = lets_of(body1)
            parts = nested(tail, len(labs)) if len(labs) > 1 and all(labs) and lets is not None else None
            if parts:
                parts = [p if trivial(p) else with_lets(lets, p) for p in parts]
            if parts:
                for lab, p in zip(labs, parts):
                    if trivial(p):
                        continue
                    answers.append(emit(f"{g}-clause-{lab}", p, unf, lead))
            else:
                body = body1
                if trivial(body):
                    continue
                answers.append(emit(g, body, unf, lead))
    if said:
        hand.append((fn, "; ".join(said)))
    uses = [
        x
        for x in re.findall(r"^use [^\n]*(?:\n [^\n]*)*", t, re.M)
        if not re.search(r"\.proofs\.\S*\.(Tie|Statement|Kinds|Reads|Lts\S*)\b(?=[.\s]|$)", x)
        and ".{statement}" not in x
        and "PlainCycle" not in x
    ]
    other = [x for x in order if x not in taken]
    helper = ""
    for x in other:
        if "Need-" in defs[x][0] or not defs[x][3] or re.match(r"Measures|ℕ → In ", defs[x][0]):
            continue
        helper += (
            defs[x][4].rstrip()
            + "\n"
            + (defs[x][1] + "\n" if defs[x][1] else "")
            + x
            + " "
            + " ".join(defs[x][2])
            + " = "
            + defs[x][3]
            + "\n\n"
        )
    head = re.match(r"((?:--[^\n]*\n)*)", t).group(1)
    stemp = "Rattle." + cname + ".proofs." + fn
    if inv_text:
        body = "\n\n".join(inv_text) + "\n"
        open(os.path.join(folder, "Invariants.antt"), "w").write(
            head + "\n".join(pick(uses, body)) + f"\nuse {stemp}.Given as goal\n\n" + body
        )
    if answers or helper:
        body = helper + "\n\n".join(answers) + "\n"
        open(os.path.join(folder, "Answers.antt"), "w").write(
            head + "\n".join(pick(uses, body)) + f"\nuse {stemp}.Goals as goal\n\n" + body
        )
    keep = os.path.join(crate, "..", "..", "target", "walks", cname, *fn.split("."))
    os.makedirs(keep, exist_ok=True)
    shutil.move(pf, os.path.join(keep, "Proof.antt"))
    if not os.listdir(folder):
        os.removedirs(folder)


def emit(g, body, unf, lead=""):
    body = dedent(body.strip())
    one = f"{g} {lead}c = {body}"
    if "\n" in body or len(one) > 110:
        one = f"{g} {lead}c =\n    {body}"
    return f"pub {g} : goal.{g}\n" + (unf + "\n" if unf else "") + one


def pick(uses, body):
    return [re.sub(r"\s+", " ", u) for u in uses]


def align(atoms, needs, named, settled, defs):
    """monotone matching of atoms to needs by names where known; unnamed trivial atoms may be dropped"""
    A, N = len(atoms), len(needs)
    INF = 10**9
    import functools

    sys.setrecursionlimit(10000)

    def isdrop(a):
        if a in defs and defs[a][3] is not None:
            b = defs[a][3]
        else:
            l = lam(a)
            if not l:
                return 5
            b = l[2]
        if trivial(b):
            return 0
        if re.match(r"^\(?(simp length|omega|search)", b.strip()):
            return 2
        return 5

    def cost(a, k):
        if a in named:
            o = norm(named[a])
            w = norm(needs[k][0])
            if o == w:
                return -2
            kind = lambda x: re.sub(r"\d+$", "", x).split("_")[0]
            if kind(o) == kind(w):
                return 1
            return 6
        return 0

    memo = {}

    def go(i, k):
        if (i, k) in memo:
            return memo[i, k]
        if i == A:
            r = (0 if k == N else INF, None)
        else:
            r = (INF, None)
            # drop atom i
            if A - i > N - k:
                c = go(i + 1, k)[0] + isdrop(atoms[i]) + 0.1
                # prefer dropping before returns for shape_of
                if c < r[0]:
                    r = (c, "d")
            if k < N:
                c = go(i + 1, k + 1)[0] + cost(atoms[i], k)
                if c < r[0]:
                    r = (c, "m")
        memo[i, k] = r
        return r

    if go(0, 0)[0] >= INF:
        return None
    out, i, k = [], 0, 0
    while i < A:
        how = go(i, k)[1]
        if how == "m":
            out.append((atoms[i], k))
            k += 1
        i += 1
    return out


def main():
    crate, only = ".", sys.argv[1:]
    with tempfile.TemporaryDirectory() as room:
        said = subprocess.run(
            ["rt", "check", "--generated", room + "/names", "--old-names"], capture_output=True, text=True
        )
        try:
            with open(room + "/names/names.json", encoding="utf-8") as f:
                names = json.load(f)
        except OSError:
            print(said.stdout[-2000:], said.stderr[-1000:])
            raise SystemExit(2) from None
    for fn, why in convert(crate, only, names):
        print("hand:", fn, why)


if __name__ == "__main__":
    main()
