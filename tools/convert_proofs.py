#!/usr/bin/env python3
"""Turns a crate's Proof.antt files, as port.py leaves them, to Invariants.antt and Answers.antt.

usage: convert_proofs.py CRATE_FOLDER NAMES_JSON [FUNCTION_PATH...]

NAMES_JSON is what `rt check --generated DIR --old-names` writes. A Proof.antt that it can't read is left, and a line says why.
"""
import json
import os
import re
import sys

SEG = r"[^\s(){}.;,@\"«»\[\]|]+"
TRIVIAL = {"omega arith", "search rules", "search needs", "tt", "refl", "search common", "(omega arith)", "omega (arith)"}
ROOT = {"args", "requires", "ranges", "lifetimes", "well_formed", "utf8", "type_inv", "blocks"}


def norm(s):
    return s.replace("-", "_")


def nested(fields, segs):
    """Several clauses were pairs nested to the right: (a, (b, c))."""
    if segs and segs[0] in fields:
        return segs
    k, i = 0, 0
    while k < len(fields) - 1 and i < len(segs):
        if segs[i] == "0":
            return [fields[k]] + segs[i + 1 :]
        if segs[i] != "1":
            break
        k += 1
        i += 1
    return ([fields[k]] if k == len(fields) - 1 else ["?" + str(k)]) + segs[i:]


def rest_of(base, fields, k):
    """The clauses from k on, as the pairs that they were."""
    text = f"{base}.{fields[-1]}"
    for f in reversed(fields[k:-1]):
        text = f"({base}.{f}, {text})"
    return text


def lent(params, segs):
    """new.1.1.0 was what the third parameter holds after the call."""
    if len(segs) > 1 and segs[0] == "new":
        k = 1
        while k < len(segs) and segs[k] == "1":
            k += 1
        if k < len(segs) and segs[k] == "0" and k - 1 < len(params):
            return ["new", params[k - 1]] + segs[k + 1 :]
    return segs


def split_decls(text):
    """Header (comments and uses) and a list of (comment, [lines])."""
    lines = text.rstrip("\n").split("\n")
    head, i = [], 0
    while i < len(lines) and (lines[i].startswith("--") or lines[i].startswith("use ") or lines[i].startswith("pub use") or not lines[i].strip()):
        head.append(lines[i])
        i += 1
    # comments that stand right before the first declaration belong to it
    tail = []
    while head and (head[-1].startswith("--") or not head[-1].strip()) and any(h.startswith("use ") for h in head):
        if head[-1].startswith("--"):
            tail.insert(0, head.pop())
        else:
            head.pop()
    decls, comment, cur = [], tail, []

    def flush():
        nonlocal cur, comment
        if cur:
            while cur and not cur[-1].strip():
                cur.pop()
            decls.append((comment, cur))
            cur, comment = [], []

    k = i
    while k < len(lines):
        l = lines[k]
        if not l.strip():
            if cur and (k + 1 < len(lines) and not lines[k + 1].startswith((" ", "\t"))):
                flush()
            elif cur:
                cur.append(l)
        elif l.startswith("--"):
            if cur:
                flush()
            comment.append(l)
        else:
            cur.append(l)
        k += 1
    flush()
    return head, decls


def top_args(text):
    """Splits an application's arguments at top level."""
    out, depth, cur = [], 0, ""
    i = 0
    while i < len(text):
        ch = text[i]
        if ch in "([{":
            depth += 1
        if ch in ")]}":
            depth -= 1
        if ch.isspace() and depth == 0:
            if cur:
                out.append(cur)
                cur = ""
        else:
            cur += ch
        i += 1
    if cur:
        out.append(cur)
    return out


class Function:
    def __init__(self, entry, own=()):
        self.e = entry
        self.own = list(own)
        self.last_params = []
        self.opens = False
        self.answers, self.busy = {}, set()
        self.parent, self.step, self.new_place, self.callee = {}, {}, {}, {}
        for (old, par, field, callee, extra), new in zip(entry["places"], entry["places_by_name"]):
            self.parent[old] = par
            self.step[old] = field
            self.callee[old] = callee or ""
            self.new_place[old] = new
        self.arms = dict(zip(self.parent, entry.get("arms") or []))
        self.typed = dict(zip(self.parent, entry.get("typed") or []))
        self.clauses = dict(zip(self.parent, entry.get("clauses") or []))
        self.by_norm = {norm(o): o for o in self.parent}
        self.loop_vars = {v for _, vs in entry["loops"] for v in vs}
        self.args = {}
        self.named = set()
        for a in entry.get("args") or []:
            if isinstance(a, list) and len(a) == 2:
                self.args[a[0]] = a[1]

    def pre_fields(self):
        pre = self.e.get("pre")
        return pre.get("fields") if isinstance(pre, dict) else pre

    def place(self, name):
        return self.by_norm.get(norm(name))

    def resolve(self, place, segs):
        """As resolve_at; where the places that it counts are fewer today, by the step's name alone."""
        r = self.resolve_at(place, segs)
        if r is None and segs and segs[0] == "before":
            rest = list(segs)
            while rest and rest[0] == "before":
                rest.pop(0)
            if rest:
                r = self.resolve_at(place, rest)
            else:
                r = ("place", "Start")
        if r and r[0] == "path":
            return ("path", [norm(x) if "-" in x and (norm(x) in self.own or norm(x) in self.loop_vars) else x for x in r[1]])
        return r

    def resolve_at(self, place, segs):
        """('place', p) or ('path', [segs]) behind c; None where it can't be read."""
        segs = list(segs)
        while segs and segs[0] == "before":
            place = self.parent.get(place)
            if place is None:
                return None
            segs.pop(0)
        if not segs:
            return ("place", place)
        s = segs[0]
        if s.endswith("_lem") and not any(norm(s) in (norm(o), norm(n)) for o, n in self.step.values() if o):
            s = s[:-4]
        if s == "pre":
            s = segs[0] = "requires"
        if s in ROOT:
            pre = self.pre_fields()
            if s == "requires" and pre and len(segs) > 1 and len(pre) > 1:
                segs = ["requires"] + nested(pre, segs[1:])
            if s == "args" and len(segs) > 1 and norm(segs[1]) in self.own:
                segs[1] = norm(segs[1])
            if s == "args" and len(segs) > 1 and re.fullmatch(r"t\d+", segs[1]) and segs[1] not in self.own:
                k = int(segs[1][1:]) - 1
                if k < len(self.own):
                    segs[1] = self.own[k]
            return ("path", segs)
        # what the type of a slice says of its items
        for var, old in (self.typed.get(place) or []):
            if norm(old) == norm(s) and segs[1:2] == ["given"] and norm(old).startswith("shared"):
                return ("path", ["type_inv", var] + segs[2:])
        # an arm's names
        p = place
        while p is not None:
            arm = self.arms.get(p)
            if arm:
                best = None
                for newf, oldf, path in arm[2]:
                    if path and norm(oldf) == norm(s) and segs[1 : 1 + len(path)] == path and (best is None or len(path) > len(best[1])):
                        best = (newf, path)
                if best:
                    return ("path", [arm[0], best[0]] + segs[1 + len(best[1]) :])
            p = self.parent[p]
        p = place
        while p is not None:
            old, new = self.step[p]
            if old and (norm(old) == norm(s) or norm(new) == norm(s)):
                rest = segs[1:]
                if rest and re.fullmatch(r"keys\d*", rest[0]):
                    rest = [new + "-own"] + rest
                fields = (self.clauses.get(p) or {}).get("fields") or []
                self.last_fields = fields
                if rest[:1] == ["ensures"] and fields:
                    if len(rest) > 1 and len(fields) > 1:
                        rest = ["ensures"] + nested(fields, rest[1:])
                    elif len(fields) == 1 and (len(rest) < 2 or rest[1] != fields[0]):
                        rest[1:1] = fields
                self.last_params = self.e["params"].get(self.callee[p]) or []
                rest = lent(self.last_params, rest)
                if rest and rest[0] in ("taken", "left") and re.match(r"(Then|Else|In-loop|After-loop)", p):
                    rest[0] = "false" if p.startswith("Else") or p.startswith("After-loop") else "true"
                return ("path", [new] + rest)
            p = self.parent[p]
        return None


def convert_body(fn, text, env, goal, problems, record_vars=()):
    """Rewrites paths from context variables. env: variable -> place."""
    env = dict(env)
    start_env = dict(env)
    aliases, wanted = {}, []
    text = re.sub(r"\.«([^»\s]+)»", r".\1", text)
    # another goal's answer, cited: its own text
    for name, (params, expr, place) in fn.answers.items():
        if re.search(r"(?<![^\s(){};,\[\]|@])" + re.escape(name) + r" " + SEG, text):
            own = expr.strip()
            if params and params[0] in env or params:
                sub_text = convert_body(fn, own, {params[0]: place}, goal, problems) if name not in fn.busy else own
                m = re.fullmatch(r"\s*let " + SEG + r" = " + re.escape(name) + r" " + SEG + r"(?:\." + SEG + r")* in\s+omega \(?arith\)?\s*", text)
                if m:
                    return " " + sub_text if not sub_text.startswith("\n") else sub_text
                text = re.sub(r"(?<![^\s(){};,\[\]|@])" + re.escape(name) + r" " + SEG + r"(?:\." + SEG + r")*", lambda q: "(" + " ".join(sub_text.split()) + ")", text)
    # lets that name a context
    changed = True
    while changed:
        changed = False
        for m in re.finditer(r"\blet (" + SEG + r") = (" + SEG + r"(?:\." + SEG + r")*) in[ \n]\s*", text):
            var, path = m[1], m[2].split(".")
            if path[0] in env:
                r = fn.resolve(env[path[0]], path[1:])
                if r and r[0] == "place":
                    env[var] = aliases[var] = r[1]
                    text = text[: m.start()] + text[m.end():]
                    changed = True
                    break

    args_names, clause_names, step_names, given_names = set(), {}, {}, {}
    whole_answer = bool(re.fullmatch(r"\s*" + SEG + r"(?:\." + SEG + r")*\s*", text))
    bound = set(w for b in re.findall(r"λ ([^.]*)\.", text) for w in re.findall(SEG, b))
    for m in re.finditer(r"\blet (" + SEG + r") = (" + SEG + r"(?:\." + SEG + r")*) in[ \n]\s*", text):
        path = m[2].split(".")
        if path[0] in env:
            r = fn.resolve(env[path[0]], path[1:])
            if r and r[0] == "path" and r[1] == ["args"]:
                args_names.add(m[1])
            names = None
            if path[-1] == "given":
                given_names[m[1]] = (env[path[0]], path[1:])
            if r and r[0] == "path" and r[1] == ["requires"]:
                names = fn.pre_fields()
            elif r and r[0] == "path" and r[1][-1] == "ensures":
                names = fn.last_fields
            elif r and r[0] == "path" and len(r[1]) == 1 and r[1][0] not in ROOT:
                fn.last_fields, fn.last_params = [], []
                fn.resolve(env[path[0]], path[1:] + ["ensures"])
                step_names[m[1]] = (fn.last_fields, fn.last_params)
            if names and len(names) > 1:
                clause_names[m[1]] = names

    def sub(m):
        var, rest = m[1], m[2]
        if var in args_names:
            segs = [s for s in rest.split(".") if s]
            if segs and norm(segs[0]) in fn.own and segs[0] not in fn.own:
                return ".".join([var, norm(segs[0])] + segs[1:])
            if segs and re.fullmatch(r"t\d+", segs[0]) and segs[0] not in fn.own and int(segs[0][1:]) <= len(fn.own):
                segs[0] = fn.own[int(segs[0][1:]) - 1]
                return ".".join([var] + segs)
        if var in given_names and rest:
            place, path = given_names[var]
            r = fn.resolve(place, path + [s for s in rest.split(".") if s])
            if r and r[0] == "path":
                return ("c" if not record_vars else record_vars[0]) + "." + ".".join(r[1])
        if var in step_names and rest.startswith(".ensures.") and len(step_names[var][0]) > 1:
            return ".".join([var, "ensures"] + nested(step_names[var][0], [s for s in rest.split(".") if s][1:]))
        if var in step_names and rest.startswith(".new."):
            return ".".join([var] + lent(step_names[var][1], [s for s in rest.split(".") if s]))
        if var not in env and rest:
            segs = rest.split(".")
            if len(segs) > 1 and "-" in segs[1] and norm(segs[1]) in (fn.loop_vars | set(fn.own)):
                segs[1] = norm(segs[1])
                rest = ".".join(segs)
        if var in clause_names:
            got = nested(clause_names[var], [s for s in rest.split(".") if s]) if rest else ["?0"]
            if got[-1].startswith("?"):
                if m.string[max(0, m.start() - 4):m.start()].endswith("let "):
                    return m[0]
                return rest_of(".".join([var] + got[:-1]), clause_names[var], int(got[-1][1:]))
            return ".".join([var] + got)
        if var not in env:
            return var + rest
        if not rest and var in bound:
            return m[0]
        segs = [s for s in rest.split(".") if s]
        fn.last_fields = []
        r = fn.resolve(env[var], segs)
        if r is None and segs:
            r = fn.resolve(next(iter(env.values())), segs)
        if r is None:
            problems.append(f"path {var}{rest}")
            return m[0]
        base = var if var in record_vars else "c"
        if r[0] == "path" and len(fn.last_fields) > 1 and r[1][-1] in ("ensures", "?1", "?2", "?3", "?4") and (r[1][-1] == "ensures" or r[1][-2] == "ensures") and not whole_answer and m.string[max(0, m.start() - 3):m.start()] != " = ":
            k = 0 if r[1][-1] == "ensures" else int(r[1][-1][1:])
            segs2 = r[1] if k == 0 else r[1][:-1]
            return rest_of(base + "." + ".".join(segs2), fn.last_fields, k)
        if r[0] == "path" and re.fullmatch(r"keys\d*", r[1][-1]):
            fn.opens = True
            return "(opened " + base + "." + ".".join(r[1]) + ")"
        if r[0] == "path":
            if base not in record_vars and record_vars:
                base = record_vars[0]
            return base + "." + ".".join(r[1])
        if record_vars:
            if var in aliases and not segs:
                base_var = record_vars[0]
                k, p = 0, start_env[base_var]
                while p is not None and p != r[1]:
                    k, p = k + 1, fn.parent.get(p)
                return base_var + ".before" * k
            depth, p = 0, env[var]
            while fn.parent.get(p) is not None:
                depth, p = depth + 1, fn.parent[p]
            return m[0] if len(segs) <= depth else var + ".before" * depth
        if not segs and var in aliases:
            fn.named.add(fn.new_place[r[1]])
            if var not in wanted:
                wanted.append(var)
            return var
        fn.named.add(fn.new_place[r[1]])
        return f"(goal.at.{goal} c).{fn.new_place[r[1]]}"

    text = re.sub(r"(?<![^\s(){};,\[\]|@])(" + SEG + r")((?:\." + SEG + r")*)", sub, text)
    # the test of `!x` says what x is
    text = re.sub(r"\(not-(?:false|true) \S+\.result (c\.if-not-[^\s()]*\.(?:false|true))\)", r"\1", text)
    for var in given_names:
        if not re.search(r"(?<![^\s(){};,\[\]|@])" + re.escape(var) + r"(?![^\s(){};,\[\]|.])", re.sub(r"\blet " + re.escape(var) + r" = \S+ in", "", text)):
            text = re.sub(r"\blet " + re.escape(var) + r" = \S+ in[ \n]\s*", "", text)
    for var in reversed(wanted):
        text = f"\n    let {var} = (goal.at.{goal} c).{fn.new_place[aliases[var]]} in" + (text if text.startswith("\n") else " " + text.lstrip())
    return text


def fix_tie_types(fn, text, problems):
    """tie.PLACE inv μ -> goal.NEWPLACE; answers the text and the places that were met."""
    met = []

    def sub(m):
        p = fn.place(m[1])
        if p is None:
            problems.append(f"type tie.{m[1]}")
            return m[0]
        met.append(p)
        fn.named.add(fn.new_place[p])
        return fn.new_place[p]

    text = re.sub(r"tie\.((?:After|At|In|Then|Else|Start)[^\s(){}.;,]*)((?: (?:invariant|decreases)[^\s(){}.;,]*)*)", sub, text)
    return text, met


def convert(path, base, fn, inv_names):
    problems = []
    text = open(path, encoding="utf-8").read()
    head, decls = split_decls(text)
    e = fn.e
    m = re.search(r"tie\.close\s*\(\s*tie\.spec\b", text)
    if not m:
        m2 = re.search(r"tie\.close\s+tie\.spec\b", text)
        if not m2:
            return None, ["no tie.spec"]
        args = []
    else:
        tail = text[m.end():]
        depth, k = 1, 0
        while k < len(tail) and depth > 0:
            depth += (tail[k] in "([{") - (tail[k] in ")]}")
            k += 1
        args = top_args(tail[: k - 1])
    loops = e["loops"]
    nl = len(loops)
    needs = e["needs"]
    extra = len(args) - len(needs)
    if extra != 2 * nl and not (extra == 1 and nl == 0) and extra != nl:
        return None, [f"tie.spec has {len(args)} arguments, {len(needs)} needs, {nl} loops"]
    need_args = args[extra:]
    loop_args = args[:extra]
    by_decl = {}
    inline = {}
    for i, a in enumerate(need_args):
        if re.fullmatch(SEG, a):
            by_decl.setdefault(a, []).append(i)
        else:
            inline[i] = a
    inv_out, ans_out, helpers, late = [], [], [], []
    for comment, lines in decls:
        body = "\n".join(lines)
        m = re.match(r"(" + SEG + r") :\s+tie\.Need-", body)
        if m and m[1] in by_decl:
            rest = body.split("\n", 1)[1] if "\n" in body else ""
            while rest.startswith("unfolding"):
                rest = rest.split("\n", 1)[1]
            mm = re.match(re.escape(m[1]) + r"((?:\s+" + SEG + r")*?)\s+=(?=\s)", rest)
            if mm and mm[1].split():
                fn.answers[m[1]] = (mm[1].split(), rest[mm.end():], e["asked_at"][by_decl[m[1]][0]][0])
    local_inv_helpers = set()
    old_of_new = {}
    done = set()
    # what stands under the last declaration's `where` stands by itself
    more = []
    for comment, lines in decls:
        if any("tie.close" in l for l in lines):
            for k, l in enumerate(lines):
                if l.strip() == "where":
                    block = [x[4:] if x.startswith("    ") else x for x in lines[k + 1 :]]
                    more += split_decls("\n".join(block))[1]
    for comment, lines in more + decls:
        body = "\n".join(lines)
        m = re.match(r"(?:(?:abbrev|unfoldable|pub)\s+)*(" + SEG + r")((?: \{[^}]*\})*) :\s", body)
        name = m[1] if m else None
        if "tie.close" in body:
            continue
        if m and re.search(r":\s+tie\.(invariant|decreases)\b", body.split("\n")[0]):
            kind = re.search(r":\s+tie\.(invariant|decreases)[^\s]*", body)[0]
            if name not in loop_args:
                problems.append(f"{name} is not in tie.spec")
                return None, problems
            at = loop_args.index(name)
            # tie.spec takes the invariants first, then the measures, or pairs: told by the kind
            same = [a for a in loop_args if ("decreases" in a or a.startswith("μ")) == ("decreases" in kind)]
            li = [a for a in loop_args if re.search(r"^abbrev " + re.escape(a) + r" : tie\." + ("decreases" if "decreases" in kind else "invariant"), text, re.M)].index(name)
            (oldl, newl), vars_ = loops[li]
            changed = e["changed"][li]
            rest = body.split("\n", 1)[1]
            mm = re.match(re.escape(name) + r"((?:\s+" + SEG + r")*?)\s+=(?=\s)", rest)
            if not mm:
                problems.append(f"{name}: no parameters")
                return None, problems
            params = mm[1].split()
            expr = rest[mm.end():]
            want = len(vars_) + sum(changed)
            if len(params) != want:
                problems.append(f"{name}: {len(params)} parameters, {want} wanted: {vars_} {changed}")
                return None, problems
            repl = {}
            for i, v in enumerate(vars_):
                repl[params[i]] = f"l.initial.{v}" if changed[i] else f"l.{v}"
            ch = [v for i, v in enumerate(vars_) if changed[i]]
            for j, v in enumerate(ch):
                repl[params[len(vars_) + j]] = f"l.{v}"
            repl.pop("_", None)
            binders = set(w for b in re.findall(r"λ ([^.]*)\.", expr) for w in re.findall(SEG, b)) | set(re.findall(r"\((" + SEG + r") :", expr)) | set(re.findall(r"\blet (" + SEG + r") [=:]", expr))
            lets = [p for p in repl if p in binders]
            for p in lets:
                expr = re.sub(r"^(\s*)", lambda q: f"{q[1]}let {p} = {repl[p]} in ", expr, count=1)
            def psub(q):
                return repl[q[1]] + q[2] if q[1] in repl and q[1] not in lets else q[0]
            expr = re.sub(r"(?<![^\s(){};,\[\]|@])(" + SEG + r")((?:\." + SEG + r")*)", psub, expr)
            word = "decreases" if "decreases" in kind else "invariant"
            inv_out.append(("\n".join(comment) + "\n" if comment else "") + f"abbrev pub {word}-{newl} : goal.{word}-{newl}\n{word}-{newl} l ={expr}")
            continue
        if m and re.search(r":\s+tie\.Need-", body.split("\n")[0]):
            idx = by_decl.get(name)
            if not idx:
                problems.append(f"{name}: not used in tie.spec")
                continue
            for i in idx:
                new = needs[i][1]
                place = e["asked_at"][i][0]
                rest = body.split("\n", 1)[1]
                unf = ""
                while rest.startswith("unfolding"):
                    u, rest = rest.split("\n", 1)
                    unf += u + "\n"
                mm = re.match(re.escape(name) + r"((?:\s+" + SEG + r")*?)\s+=(?=\s)", rest)
                if not mm:
                    problems.append(f"{name}: clause")
                    return None, problems
                params = mm[1].split()
                expr = rest[mm.end():]
                if not params:
                    params = ["c"]
                cvar = params[0]
                expr = convert_body(fn, expr, {cvar: place}, new, problems)
                if expr.strip() in TRIVIAL and not unf:
                    continue
                ans_out.append(("\n".join(comment) + "\n" if comment else "") + f"pub {new} : goal.{new}\n{unf}{new} c ={expr}")
            continue
        # a helper, which may answer a goal too
        for i in by_decl.get(name, []):
            b = re.search(r"\((" + SEG + r") : tie\.((?:After|At|In|Then|Else|Start)[^\s(){}.;,]*)", body)
            if b and fn.place(b[2]):
                g, p = needs[i][1], fn.new_place[fn.place(b[2])]
                fn.named.add(p)
                late.append(f"pub {g} : goal.{g}\n{g} c = {name} (goal.at.{g} c).{p}")
            else:
                problems.append(f"{name} answers {needs[i][1]}")
        if "tie." in body:
            body2, met = fix_tie_types(fn, body, problems)
            env = {}
            k = 0
            for b in re.finditer(r"\((" + SEG + r"(?: " + SEG + r")*) : tie\.((?:After|At|In|Then|Else|Start)[^\s(){}.;,]*)", body):
                p = fn.place(b[2])
                if p:
                    for v in b[1].split():
                        env[v] = p
            b = re.match(r"(?:(?:abbrev|unfoldable|pub)\s+)*" + SEG + r" : tie\.((?:After|At|In|Then|Else|Start)[^\s(){}.;,]*)(?: (?:invariant|decreases)[^\s]*)* →", body)
            if b and fn.place(b[1]):
                for l in body.split("\n")[1:]:
                    mm = re.match(re.escape(name or "?") + r" (" + SEG + r")", l)
                    if mm:
                        env[mm[1]] = fn.place(b[1])
            # the clause's own names for these
            if env:
                lines2 = body2.split("\n")
                cut = next((k for k, l in enumerate(lines2) if k and re.match(r"\s*(unfolding |" + re.escape(name or "?") + r" )", l)), len(lines2))
                parts = ["\n".join(lines2[:cut]), "\n".join(lines2[cut:])]
                body2 = "\n".join(convert_body(fn, q, env, "?", problems, record_vars=tuple(env)) if q else q for q in parts)
            body = body2
        helpers.append((comment, name, body))
    # inline answers
    for i, a in inline.items():
        new = needs[i][1]
        place = e["asked_at"][i][0]
        mm = re.match(r"\(λ\s+(" + SEG + r"(?: " + SEG + r")*)\.\s*", a)
        if not mm:
            problems.append(f"inline {new}: {a[:60]}")
            continue
        expr = a[mm.end():-1]
        cvar = mm[1].split()[0]
        expr = convert_body(fn, expr, {cvar: place}, new, problems)
        if expr.strip() in TRIVIAL:
            continue
        ans_out.append(f"pub {new} : goal.{new}\n{new} c = {expr}")
    ans_out += late
    # helpers that an invariant names
    inv_text = "\n".join(inv_out)
    need_in_inv, grew = set(), True
    while grew:
        grew = False
        for comment, name, body in helpers:
            if name and name not in need_in_inv and not any(w in body for w in fn.named):
                src = inv_text + "\n".join(b for c, n, b in helpers if n in need_in_inv)
                if re.search(r"(?<![^\s(){};,\[\]|@.])" + re.escape(name) + r"(?![^\s(){};,\[\]|.])", src):
                    need_in_inv.add(name)
                    grew = True
    uses = [h for h in head if h.startswith("use ") and ".Statement." not in h and not h.endswith(".Tie as tie")]
    comments = [h for h in head if h.startswith("--")]
    inv_parts, ans_parts = [], []
    for comment, name, body in helpers:
        t = ("\n".join(comment) + "\n" if comment else "")
        if name in need_in_inv:
            if not body.startswith(("pub ", "abbrev pub", "unfoldable pub")):
                if body.startswith("abbrev "):
                    body = "abbrev pub " + body[len("abbrev "):]
                elif body.startswith("unfoldable "):
                    body = "unfoldable pub " + body[len("unfoldable "):]
                else:
                    body = "unfoldable pub " + body
            inv_parts.append(t + body)
        else:
            ans_parts.append(t + body)
    inv_parts += inv_out
    ans_parts += ans_out
    out = {}
    if inv_parts:
        out["Invariants.antt"] = "\n".join(comments + uses + [f"use {base}.Given as goal"]) + "\n\n" + "\n\n".join(inv_parts) + "\n"
    if ans_out or (ans_parts and not inv_parts and ans_out):
        if fn.opens:
            uses = uses + ["use borrow.Enum.Refused.{opened}"]
        if fn.named:
            uses = uses + [f"use {base}.Goals.{{{', '.join(sorted(fn.named))}}}"]
        extra_use = [f"use {base}.Invariants.{{{', '.join(sorted(need_in_inv))}}}"] if need_in_inv else []
        body = "\n\n".join(ans_parts)
        out["Answers.antt"] = "\n".join(([] if inv_parts else comments) + uses + extra_use + [f"use {base}.Goals as goal"]) + "\n\n" + body + "\n"
    return out, problems


def parameters_of(crate, rel):
    """The names of a function's parameters, from its source."""
    parts = rel.split(".")
    name, owner, mods = parts[-1], None, parts[:-1]
    if mods and mods[-1][:1].isupper():
        owner, mods = mods[-1], mods[:-1]
    places = [os.path.join(crate, "src", *mods) + ".rt", os.path.join(crate, "src", *mods, "mod.rt")] if mods else [os.path.join(crate, "src", "lib.rt"), os.path.join(crate, "src", "main.rt")]
    for place in places:
        if not os.path.isfile(place):
            continue
        text = open(place, encoding="utf-8").read()
        if owner:
            m = re.search(r"impl(?:<[^>]*>)? " + owner + r"\b", text)
            text = text[m.start():] if m else text
        m = re.search(r"fn " + re.escape(name) + r"(?:<[^>]*>)?\(", text)
        if not m:
            continue
        depth, k, cur, out = 1, m.end(), "", []
        while depth and k < len(text):
            ch = text[k]
            depth += (ch in "([{<") - (ch in ")]}>")
            if depth == 0 or (ch == "," and depth == 1):
                if cur.strip():
                    w = re.match(r"\s*(?:&(?:'\w+ )?)?(?:mut )?(?:&mut )?(\w+)", cur)
                    out.append(w[1])
                cur = ""
            else:
                cur += ch
            k += 1
        return out
    return []


def main(argv):
    crate, names = argv[0].rstrip("/"), json.load(open(argv[1]))
    only = argv[2:]
    for folder, dirs, files in os.walk(os.path.join(crate, "proofs")):
        if "Proof.antt" not in files:
            continue
        rel = os.path.relpath(folder, os.path.join(crate, "proofs")).replace(os.sep, ".")
        if only and rel not in only:
            continue
        name = os.path.basename(crate)
        key = f"Rattle-{name}-proofs.{rel}.Lts"
        path = os.path.join(folder, "Proof.antt")
        text = open(path, encoding="utf-8").read()
        if key not in names:
            print("left:", rel, "has no names")
            continue
        if "tie.spec" not in text:
            print("left:", rel, "is a walk")
            continue
        try:
            out, problems = convert(path, f"Rattle.{name}.proofs.{rel}", Function(names[key], parameters_of(crate, rel)), None)
        except Exception as ex:
            print("left:", rel, "failed:", repr(ex))
            continue
        if out is None:
            print("left:", rel, "; ".join(problems))
            continue
        for p in problems:
            print("look:", rel, p)
        os.remove(path)
        for f, t in out.items():
            with open(os.path.join(folder, f), "w", encoding="utf-8") as g:
                g.write(t)
        if not os.listdir(folder):
            os.rmdir(folder)


main(sys.argv[1:])
