#!/usr/bin/env python3
"""Turns the proofs of an older Rattle, proofs/F/Proof.antt, to Invariants.antt and Answers.antt.

usage, in a crate's folder, after port.py and the other scripts of tools/:
  turn_proofs.py            moves each Proof.antt to /tmp/old-proofs/CRATE, writes Invariants.antt where there are loops, then checks and fills in rounds
  turn_proofs.py more       the same without the first step, after mends by hand: a goal that the check newly asks for gets its old answer
  turn_proofs.py show F     prints the turned proof of F whole

Only goals that the check does not find by itself get an answer. What is left is printed, to be mended by hand: remove a wrong Answers.antt and run it
again with `more`. It goes by text and by the names that `rt check --generated DIR --old-names` lists. It stays for the work in docs/change-5-begun.patch,
whose proofs have the older form, and goes with it.
"""

import json, os, re, subprocess, sys, shutil

CRATE = os.path.basename(os.getcwd())
STORE = f"/tmp/old-proofs/{CRATE}"
W = r"[^\s(){}.;,@\"«»\[\]\\]+"


def norm(s):
    return re.sub(r"[-_·.]+", "-", s).lower()


def names():
    p = os.path.join(STORE, "names.json")
    with open(p) as f:
        return json.load(f)


def key_of(path):
    return path.replace("/", ".")


class Fn:
    def __init__(self, path, data):
        self.path = path
        self.d = data
        P = data["places"]
        self.places = {}
        for i, (old, parent, step, callee, inner) in enumerate(P):
            self.places[norm(old)] = dict(i=i, old=old, parent=parent and norm(parent), oldstep=norm(step[0]), newstep=step[1], inner=inner, new=data["places_by_name"][i] if i < len(data["places_by_name"]) else old, callee=callee)
        self.needs = {}
        for i, (old, new) in enumerate(data["needs"]):
            self.needs[norm(old)] = (new, norm(data["asked_at"][i][0]))
            self.needs.setdefault(norm(new), (new, norm(data["asked_at"][i][0])))
        self.loops = [(a, v) for a, v in data["loops"]]
        self.changed = data["changed"]
        self.final = {}
        for k, arm in zip(self.places, data["arms"]):
            if arm:
                name = "In-" + arm[0][len("in-"):] if arm[0].startswith("in-") else None
                m = re.fullmatch(r"(In-.*)-\d+", self.places[k]["new"])
                if m and name and m.group(1) == name:
                    for k2 in self.places:
                        if self.places[k2]["new"] == name:
                            self.final[k] = k2
        self.views = set()
        g = os.path.join(STORE, "goals", f"Rattle-{CRATE}-proofs", path, "Goals.antt")
        if os.path.exists(g):
            self.views = set(re.findall(r"(?m)^abbrev pub (\S+) : Type 0\n\1 =\s+View\.In-", open(g, encoding="utf-8").read()))
        self.arms = {}
        for arm in data["arms"]:
            if arm:
                for newf, oldstep, p in arm[2]:
                    self.arms.setdefault(norm(oldstep), []).append((p, arm[0], newf))

    def need(self, word):
        w = norm(word)
        w = re.sub(r"^need-", "", w)
        for c in (w, re.sub(r"^overflow-", "", w), re.sub(r"^nonzero-", "", w)):
            if c in self.needs:
                return self.needs[c]
        # instance: by loop holds names
        return None

    def place(self, word):
        w = norm(word)
        if w in self.places:
            return w
        for k in self.places.values():
            if norm(k["new"]) == w:
                return norm(k["old"])
        return None

    def walk(self, place, fields, rootplace=None):
        """Returns ('place', p, text) or ('field', text)."""
        fields = list(fields)
        n = 0
        while fields and fields[0] == "before":
            par = self.places[place]["parent"] if place in self.places else None
            if par is not None:
                place = par
            fields.pop(0)
            n += 1
        if not fields:
            return ("place", place, ".before" * n)
        f = {"type-size": "size-of"}.get(norm(fields[0]), norm(fields[0]))
        rest = fields[1:]
        pl = self.places.get(place)
        if pl and f == pl["oldstep"]:
            return ("field", self.step(pl, f, rest))
        # perhaps a step of an ancestor (flat)
        q = place
        while q and q in self.places:
            if self.places[q]["oldstep"] == f:
                return ("field", self.step(self.places[q], f, rest))
            q = self.places[q]["parent"]
        q = rootplace
        while q and q in self.places:
            if self.places[q]["oldstep"] == f:
                return ("field", self.step(self.places[q], f, rest))
            q = self.places[q]["parent"]
        if f in ("pre", "requires") and self.d.get("pre"):
            rest = self.clause(self.d["pre"]["fields"], rest)
        f0 = {"pre": "requires", "fits": "ranges", "well-formed": "well_formed", "type-inv": "type_inv", "type-size": "size_of"}.get(f, fields[0])
        return ("field", "." + ".".join([f0] + rest))

    def clause(self, labels, rest):
        """The label of a clause that was cited by its position."""
        n = len(labels)
        k = 0
        while k < len(rest) and rest[k] == "1" and k < n - 1:
            k += 1
        if k == n - 1 and n > 1:
            return [labels[k]] + rest[k:]
        if n > 1 and k < len(rest) and rest[k] == "0":
            return [labels[k]] + rest[k + 1 :]
        return rest

    def params_of(self, pl, rest):
        params = self.d["params"].get(pl["callee"]) if pl["callee"] else None
        if rest[0] == "last":
            rest = ["new"] + rest[1:]
        labels = self.d["clauses"][pl["i"]] if pl["i"] < len(self.d["clauses"]) else None
        if isinstance(labels, dict):
            labels = labels.get("fields")
        if rest[0] == "ensures" and labels and len(labels) > 1:
            return ["ensures"] + self.clause(labels, rest[1:])
        if params and rest[0] in ("new", "auto") and len(rest) > 1 and rest[1] in "01":
            k = 1
            while k < len(rest) and rest[k] == "1":
                k += 1
            if k < len(rest) and rest[k] == "0" and k - 1 < len(params):
                return [rest[0], params[k - 1]] + rest[k + 1 :]
        return rest

    def step(self, pl, f, rest):
        if f in self.arms:
            best = None
            for p, arm, newf in self.arms[f]:
                if rest[: len(p)] == p and (best is None or len(p) > len(best[0])):
                    best = (p, arm, newf)
            if best:
                return "." + ".".join([best[1], best[2]] + rest[len(best[0]):])
        ren = {"inv": "invariant", "taken": "true", "left": "false", "fits": "fits"}
        if rest:
            inner = {norm(a): b for a, b in pl["inner"]}
            ren["type-inv"] = "type_inv"
            if pl["callee"]:
                ren["kept"] = "auto"
            if not re.search(r"^if\d*$|-test\d*$", pl["oldstep"]):
                ren.pop("left", None)
                ren.pop("taken", None)
            r0 = inner.get(norm(rest[0]), ren.get(rest[0], rest[0]))
            rest = [r0] + rest[1:]
            rest = self.params_of(pl, rest)
        return "." + ".".join([pl["newstep"]] + rest)


def blocks(text):
    """Returns (head lines, [(name, comment, text)])."""
    lines = text.split("\n")
    head, out, cur, pend = [], [], None, []
    i = 0
    sig = re.compile(r"^(?:abbrev |unfoldable )?(?:pub )?(\S+)(?: \S+)* :(?: |$)|^(?:abbrev |unfoldable )?(?:pub )?(\S+) :(?: |$)")
    for l in lines:
        if l.startswith("use ") and cur is None:
            head.append(l)
            continue
        if l.startswith("--"):
            pend.append(l)
            continue
        m = re.match(r"^(?:abbrev |unfoldable )?(?:pub )?([^\s:]+) :(?:\s|$)", l)
        mod = l.startswith("module ")
        if m or mod:
            cur = [m.group(1) if m else "module", pend, [l]]
            pend = []
            out.append(cur)
        elif cur is not None:
            if pend and l.strip():
                cur[2] += pend
                pend = []
            cur[2].append(l)
    for c in out:
        while c[2] and not c[2][-1].strip():
            c[2].pop()
        if c[0] == "module":
            inner = re.findall(r"(?m)^\s+(?:abbrev |unfoldable )?(?:pub )?([^\s:(]+) :(?:\s|$)", "\n".join(c[2]))
            c[0] = "module:" + "|".join(inner)
    return head, [(c[0], c[1], "\n".join(c[2])) for c in out]


def unmodule(text, nested=False):
    """Takes the sections `module _ (c : tie.P) where` apart: each definition takes the section's parameters."""
    lines = text.split("\n")
    out, i = [], 0
    while i < len(lines):
        m = re.match(r"^module _ ((?:\([^()]*(?:\([^()]*\))*[^()]*\)\s*|\{[^{}]*\}\s*)+)where\s*$", lines[i])
        if not m or ("tie." not in m.group(1) and not nested):
            out.append(lines[i])
            i += 1
            continue
        params = m.group(1).strip()
        names = [n for g in re.findall(r"\(([^():]+) :", params) for n in g.split()]
        i += 1
        body = []
        while i < len(lines) and (lines[i].startswith("  ") or not lines[i].strip()):
            body.append(lines[i][2:] if lines[i].startswith("  ") else "")
            i += 1
        body = unmodule("\n".join(body), True).split("\n")
        defs = [d for d in re.findall(r"(?m)^(?:abbrev |unfoldable )?(?:pub )?([^\s:(]+) :(?:\s|$)", "\n".join(body)) if d not in ("use", "module")]
        word = re.compile(r"(?<![\w.'’-])(%s)(?![\w'’-])" % "|".join(map(re.escape, sorted(defs, key=len, reverse=True)))) if defs else None
        res = []
        for l in body:
            if word is None or l.startswith(("--", "unfolding")):
                res.append(l)
                continue
            h = re.match(r"^((?:abbrev |unfoldable )?(?:pub )?)([^\s:(]+) :(\s|$)", l)
            e = re.match(r"^([^\s:(]+)((?: [^=]*)?) =(\s|$)", l)
            sub = lambda t: word.sub(lambda k: k.group(0) if k.group(1) == "at" and not t[k.end():].startswith((".", ")")) else "(%s %s)" % (k.group(1), " ".join(names)), t)
            if h and h.group(2) in defs:
                res.append("%s%s : %s →%s%s" % (h.group(1), h.group(2), params, h.group(3) or " ", sub(l[h.end():])))
            elif e and e.group(1) in defs:
                res.append("%s %s%s =%s%s" % (e.group(1), " ".join(names), e.group(2), e.group(3), sub(l[e.end():])))
            else:
                res.append(sub(l))
        out += res
    return "\n".join(out)


def balanced(s):
    d = 0
    for ch in s:
        if ch in "([{":
            d += 1
        elif ch in ")]}":
            d -= 1
            if d < 0:
                return False
    return d == 0


def split_arrows(sig):
    parts, d, cur = [], 0, ""
    i = 0
    while i < len(sig):
        ch = sig[i]
        if ch in "([{":
            d += 1
        if ch in ")]}":
            d -= 1
        if ch == "→" and d == 0:
            parts.append(cur)
            cur = ""
        else:
            cur += ch
        i += 1
    parts.append(cur)
    return [p.strip() for p in parts]


class Conv:
    def __init__(self, fn, text):
        self.fn = fn
        self.used = set()
        self.head, self.blocks = blocks(unmodule(text))
        self.invnames = set()
        for n, _, b in self.blocks:
            if re.match(r"^abbrev (pub )?(invariant|decreases)\S* : tie\.", b) or re.match(r"^(?:abbrev |unfoldable )?(?:pub )?\S+ : tie\.(invariant|decreases)", b):
                self.invnames.add(n)
        self.goal_names = {}
        self.funs = {}
        for n, _, b in self.blocks:
            m = re.match(r"^(?:abbrev |unfoldable )?(?:pub )?(\S+) : tie\.Need-(\S+)", b)
            if m:
                nd = fn.need(m.group(2))
                self.goal_names[n] = (nd[0] if nd else None, nd[1] if nd else None, m.group(2))
        for n, _, b in self.blocks:
            sig = self.signature(n, b)
            if sig is None:
                continue
            parts = split_arrows(sig)
            ps = []
            for p in parts[:-1]:
                # binders like (c : T) (d : U) or T
                bs = re.findall(r"\(([^():]+) : ([^()]+)\)", p)
                if p.startswith("("):
                    for names_, t in bs:
                        for _ in names_.split():
                            ps.append(self.place_of_type(t))
                else:
                    ps.append(self.place_of_type(p))
            self.funs[n] = (ps, self.place_of_type(parts[-1]))

        self.chains = set()
        for n, (ps, res) in self.funs.items():
            if res and len(ps) == 1 and ps[0]:
                b = next(x for k, _, x in self.blocks if k == n)
                _, eqs = self.equations(n, b)
                if re.fullmatch(r"%s (\S+) =\s+\1((\.before)*)\s*" % re.escape(n), eqs):
                    self.chains.add(n)

        for _ in range(3):
            for n, (ps, res) in self.funs.items():
                if res and len(ps) == 1 and ps[0] and n not in self.chains and n not in self.goal_names:
                    b = next(x for k, _, x in self.blocks if k == n)
                    _, eqs = self.equations(n, b)
                    m = re.fullmatch(r"%s (\S+) =\s+(.*?)\s*" % re.escape(n), eqs, re.S)
                    if m:
                        v = self.value(m.group(2), {m.group(1): ("place", ps[0], m.group(1), ps[0], "x")})
                        if v and v[0] == "place":
                            self.chains.add(n)

    def signature(self, n, b):
        m = re.match(r"^(?:abbrev |unfoldable )?(?:pub )?%s :\s*(.*?)(?=\n(?:unfolding|%s\b|\S))" % (re.escape(n), re.escape(n)), b + "\n\u0000", re.S)
        return m.group(1) if m else None

    def place_of_type(self, t):
        m = re.match(r"^\s*tie\.(\S+)", t)
        return self.fn.place(m.group(1)) if m else None

    def types(self, s):
        inv = "|".join(map(re.escape, sorted(self.invnames, key=len, reverse=True)))

        def one(m):
            w = m.group(1)
            if w.startswith("Need-"):
                nd = self.fn.need(w[5:])
                return "goal." + (nd[0] if nd else w[5:])
            p = self.fn.place(w)
            p = self.fn.final.get(p, p)
            name = self.fn.places[p]["new"] if p else w
            self.used.add(name)
            return name

        pat = r"tie\.([^\s(){},;]+)" + (r"((?: (?:%s)(?![\w'.-]))*)" % inv if inv else "()")
        return re.sub(pat, one, s)

    def bare(self, val):
        """The text of a place as a value."""
        _, p, root, rootplace, ctx = val
        p = self.fn.final.get(p, p)
        if p == rootplace:
            return root
        name = self.fn.places[p]["new"]
        self.used.add(name)
        return f"(goal.at.{ctx} {root}).{name}"

    def fields(self, val, fields):
        """The text of a path off a value."""
        fn = self.fn
        if val[0] == "place":
            _, p, root, rootplace, ctx = val
            r = fn.walk(p, fields, rootplace)
            if r[0] == "place":
                return self.bare(("place", r[1], root, rootplace, ctx))
            return root + r[1]
        if val[0] == "req":
            return val[1] + "." + ".".join(fn.clause(fn.d["pre"]["fields"], val[2] + fields))
        _, pl, f, sofar, name, _ = val
        whole = fn.step(pl, f, sofar + fields)
        base = fn.step(pl, f, sofar)
        if f in fn.arms and not whole.startswith("." + pl["newstep"]):
            return val[5] + whole
        if whole.startswith(base + "."):
            return name + whole[len(base):]
        return val[5] + whole

    def body(self, text, env):
        """Turns paths in the text. env: variable -> ('place', p, root, rootplace, ctx) or ('step', pl, f, sofar, name, root)."""
        env = dict(env)
        out = ""
        i = 0
        VAR = re.compile(r"(?<![\w.'’-])([A-Za-z_][\w'₀-₉-]*)((?:\.[^\s(){}.,;\[\]]+)*)")
        while i < len(text):
            ch = text[i]
            if text.startswith("--", i) and (i == 0 or text[i-1] in " \n"):
                j = text.find("\n", i)
                j = len(text) if j < 0 else j
                out += text[i:j]
                i = j
                continue
            if ch == "λ":
                j, d = i + 1, 0
                while j < len(text):
                    d += (text[j] in "([{") - (text[j] in ")]}")
                    if text[j] == "." and d == 0 and not re.match(r"[\w]", text[j + 1 : j + 2]):
                        break
                    j += 1
                binder = text[i + 1 : j]
                bound = set(re.findall(r"[A-Za-z_][\w'₀-₉-]*", re.sub(r":[^()]*(?=\))", "", binder)))
                k, d = j, 0
                while k < len(text):
                    d += (text[k] in "([{") - (text[k] in ")]}")
                    if d < 0 or (d == 0 and text[k] in ",;|" ):
                        break
                    k += 1
                inner = {a: b for a, b in env.items() if a not in bound}
                btext = re.sub(r":([^()]*)(?=\))", lambda q: ":" + self.body(q.group(1), env), binder)
                out += "λ" + btext + "." + self.body(text[j + 1 : k], inner)
                i = k
                continue
            if ch == "(":
                d, j = 0, i
                while j < len(text):
                    if text[j] == "(":
                        d += 1
                    elif text[j] == ")":
                        d -= 1
                        if d == 0:
                            break
                    j += 1
                if j < len(text):
                    inner = text[i + 1 : j]
                    v = self.value(inner, env)
                    m = re.match(r"\)((?:\.[^\s(){}.,;\[\]]+)*)", text[j:])
                    if v and v[0] == "place":
                        fs = m.group(1)[1:].split(".") if m.group(1) else []
                        out += self.fields(v, fs) if fs else self.bare(v)
                        i = j + m.end()
                        continue
                out += ch
                i += 1
                continue
            m = VAR.match(text, i)
            if m and (i == 0 or not re.match(r"[\w.'’-]", text[i - 1])):
                v, path = m.group(1), m.group(2)
                if v == "let":
                    lm = re.match(r"let (\S+)( : [^=]*?)? =\s+", text[i:])
                    if lm:
                        k = i + lm.end()
                        d, e, nest = 0, k, 0
                        while e < len(text):
                            if text[e] in "([{":
                                d += 1
                            elif text[e] in ")]}":
                                d -= 1
                                if d < 0:
                                    break
                            elif d == 0 and re.match(r"let ", text[e:]) and not re.match(r"[\w-]", text[e-1:e]):
                                nest += 1
                            elif d == 0 and re.match(r"in(?=[\s)])", text[e:]) and text[e-1] in " \n)":
                                if nest == 0:
                                    break
                                nest -= 1
                            e += 1
                        expr = text[k:e].strip()
                        val = self.value(expr, env)
                        if val and val[0] == "req" and not re.search(r"(?<![\w.'-])%s(?![\w.'-])" % re.escape(lm.group(1)), text[e:]):
                            env[lm.group(1)] = val
                            i = e + 2
                            mm = re.match(r"[ \t]*\n[ \t]*| ", text[i:])
                            i += mm.end() if mm else 0
                            continue
                        if val and val[0] == "req":
                            val = None
                        if val and val[0] == "place":
                            env[lm.group(1)] = val
                            i = e + 2
                            if re.match(r" (?=\()", text[i:]) and out.endswith("= "):
                                i += 1
                            elif re.match(r"\s*\n", text[i:]):
                                mm = re.match(r"[ \t]*\n[ \t]*", text[i:])
                                i += mm.end()
                            elif text[i:i+1] == " ":
                                i += 1
                            continue
                        if val and val[0] == "step" and val[3] and val[2] in self.fn.arms:
                            known = [a for a in self.fn.arms[val[2]] if a[0] and val[3][: len(a[0])] == a[0]]
                            inside = [a for a in self.fn.arms[val[2]] if a[0][: len(val[3])] == val[3]]
                            if inside and not known:
                                env[lm.group(1)] = val[:4] + (lm.group(1),) + val[5:]
                                i = e + 2
                                mm = re.match(r"[ \t]*\n[ \t]*| ", text[i:])
                                i += mm.end() if mm else 0
                                continue
                        out += text[i : i + 4] + lm.group(1)
                        if lm.group(2):
                            out += self.body(lm.group(2), env)
                        out += " = " + self.body(text[k:e], env)
                        if val:
                            env[lm.group(1)] = val[:4] + (lm.group(1),) + val[5:]
                        else:
                            env.pop(lm.group(1), None)
                        i = e
                        continue
                if v in env:
                    fs = path[1:].split(".") if path else []
                    val = env[v]
                    if fs:
                        out += self.fields(val, fs)
                    elif val[0] == "place":
                        out += self.bare(val)
                    else:
                        out += v
                    i = m.end()
                    continue
                if not path and (v in self.goal_names or v in self.funs):
                    out += (self.goal_names[v][0] or v) if v in self.goal_names else v
                    i = m.end()
                    wanted = self.goal_names[v][1] if v in self.goal_names else (self.funs[v][0] or [None])[0]
                    am = re.match(r"\s+", text[i:])
                    if wanted and am:
                        j = i + am.end()
                        e = None
                        if text[j : j + 1] == "(":
                            d, e = 0, j
                            while e < len(text):
                                d += (text[e] == "(") - (text[e] == ")")
                                e += 1
                                if d == 0:
                                    break
                            tail = re.match(r"(?:\.[^\s(){}.,;\[\]]+)*", text[e:])
                            e += tail.end()
                        else:
                            tm = VAR.match(text, j)
                            e = tm.end() if tm else None
                        if e:
                            val = self.value(text[j:e], env)
                            if val and val[0] == "place":
                                out += text[i:j] + self.bare(("place", wanted) + val[2:])
                                i = e
                    continue
                out += m.group(0)
                i = m.end()
                continue
            out += ch
            i += 1
        return out

    def value(self, expr, env):
        expr = expr.strip()
        m = re.fullmatch(r"([A-Za-z_][\w'₀-₉-]*)((?:\.[^\s(){}.,;\[\]]+)*)", expr)
        if m:
            v, path = m.group(1), m.group(2)
            if v not in env:
                return None
            return self.off(env[v], path[1:].split(".") if path else [])
        m = re.match(r"(?s)^let (\S+) = ([^=]*?) in\s+(.*)$", expr)
        if m:
            v = self.value(m.group(2), env)
            return self.value(m.group(3), {**env, m.group(1): v}) if v else None
        m = re.match(r"^([A-Za-z_][\w'₀-₉-]*) (.+)$", expr, re.S)
        if m and m.group(1) in self.chains:
            v = self.value(m.group(2), env)
            if v and v[0] == "place":
                return ("place", self.funs[m.group(1)][1], v[2], v[3], v[4])
        if expr.startswith("(") and expr.endswith(")") and balanced(expr[1:-1]):
            return self.value(expr[1:-1], env)
        m = re.fullmatch(r"\((.+)\)((?:\.[^\s(){}.,;\[\]]+)+)", expr, re.S)
        if m and balanced(m.group(1)):
            v = self.value(m.group(1), env)
            return self.off(v, m.group(2)[1:].split(".")) if v else None
        return None

    def off(self, val, fields):
        if val[0] == "step":
            return ("step", val[1], val[2], val[3] + fields, None, val[5])
        if val[0] == "req":
            return None
        _, p, root, rootplace, ctx = val
        fs = list(fields)
        while fs and fs[0] == "before":
            par = self.fn.places[p]["parent"] if p in self.fn.places else None
            if par is not None:
                p = par
            fs.pop(0)
        if not fs:
            return ("place", p, root, rootplace, ctx)
        if norm(fs[0]) == "type-size":
            fs[0] = "size-of"
        if norm(fs[0]) in ("pre", "requires") and self.fn.d.get("pre"):
            n = len(self.fn.d["pre"]["fields"])
            if all(x == "1" for x in fs[1:]) and len(fs) - 1 < n - 1:
                return ("req", root + "." + "requires", fs[1:])
            return None
        q = p
        while q and q in self.fn.places:
            pl = self.fn.places[q]
            if norm(fs[0]) == pl["oldstep"]:
                return ("step", pl, norm(fs[0]), fs[1:], None, root)
            q = pl["parent"]
        q = rootplace
        while q and q in self.fn.places:
            pl = self.fn.places[q]
            if norm(fs[0]) == pl["oldstep"]:
                return ("step", pl, norm(fs[0]), fs[1:], None, root)
            q = pl["parent"]
        return None

    def words(self, t):
        """Integers are what they were read as."""
        arg = r"(?:\((?:[^()]|\((?:[^()]|\([^()]*\))*\))*\)|[^\s()]+)"
        t = re.sub(r"\(read_back w64 %s %s\)" % (arg, arg), "refl", t)
        t = re.sub(r"read_back w64 %s %s" % (arg, arg), "refl", t)
        t = re.sub(r"(?<![\w])(?:to_z|of_z) w64 (%s)" % arg, r"\1", t)
        return t

    def tuple_to_record(self, rest, labels):
        m = re.match(r"(?s)^((?:\s*let .*? in(?=\s))*\s*)(\(.*\))\s*$", rest)
        if not m or not balanced(m.group(2)[1:-1]):
            m = re.match(r"(?s)^((?:\s*let .*? in(?=\s))*\s*)(.*?)\s*$", rest)
            term = m.group(2)
            if re.match(r"(search|omega|rw|simp|grind|record|elim|cc|\u03bb|\()", term):
                return rest
            at = ["0"] + ["1." * k + "0" for k in range(1, len(labels) - 1)] + ["1." * (len(labels) - 2) + "1"]
            return m.group(1) + "let h = " + term + " in record { " + "; ".join("%s = h.%s" % (l, a) for l, a in zip(labels, at)) + " }"
        parts = []
        cur = m.group(2)
        for k in range(len(labels) - 1):
            inner = cur[1:-1]
            d, at = 0, None
            for i, ch in enumerate(inner):
                if ch in "([{":
                    d += 1
                elif ch in ")]}":
                    d -= 1
                elif ch == "," and d == 0:
                    at = i
                    break
            if at is None:
                return rest
            parts.append(inner[:at].strip())
            cur = inner[at + 1 :].strip().rstrip(",").strip()
            if k < len(labels) - 2:
                # the rest of an n-ary tuple, or a tuple of its own
                d, more = 0, False
                for ch in cur:
                    if ch in "([{":
                        d += 1
                    elif ch in ")]}":
                        d -= 1
                    elif ch == "," and d == 0:
                        more = True
                if more:
                    cur = "(" + cur + ")"
                elif not (cur.startswith("(") and cur.endswith(")") and balanced(cur[1:-1])):
                    return rest
        parts.append(cur)
        return m.group(1) + "record { " + "; ".join("%s = %s" % (l, p) for l, p in zip(labels, parts)) + " }"

    def equations(self, n, b):
        """Splits a block into signature part and equations."""
        lines = b.split("\n")
        k = 1
        while k < len(lines) and not re.match(r"^%s(?![\w'-])" % re.escape(n), lines[k]):
            k += 1
        return "\n".join(lines[:k]), "\n".join(lines[k:])

    def convert(self, n, comment, b):
        cm, t, newn = self.convert1(n, comment, b)
        for old, new in self.fn.d["args"]:
            m = re.fullmatch(r"\.args \.(t\d+)", old)
            if m:
                t = re.sub(r"\.%s(?![\w'-])" % m.group(1), "." + new.split(".")[-1], t)
        return cm, t, newn

    def convert1(self, n, comment, b):
        sig, eqs = self.equations(n, b)
        if n in self.goal_names:
            new, place, old = self.goal_names[n]
            newn = new or n
            sig = re.sub(r"^(?:pub )?%s : tie\.\S+.*" % re.escape(n), "pub %s : goal.%s" % (newn, newn), sig, flags=re.S if "unfolding" not in sig else 0)
            m = re.match(r"^%s((?: [^\s=]+)*) =" % re.escape(n), eqs)
            if not m:
                return comment, sig + "\n" + eqs, newn
            args = m.group(1).split()
            isreq = "requires" in newn
            args = [a for a in args if a not in ("κs", "ks")]
            env = {}
            if args and place:
                env[args[0]] = ("place", place, args[0], place, newn)
            rest = self.body(eqs[m.end():], env)
            rest = re.sub(r" κs(?![\w])", "", rest)
            if os.environ.get("WORDS") == "1":
                rest = self.words(rest)
            olds = [o for o, w in self.fn.d["needs"] if w == newn]
            labels = self.fn.d["asked"].get(olds[0]) if olds else None
            if labels is None and isreq:
                keys = [k for k in self.fn.d["asked"] if newn.startswith(k)]
                labels = self.fn.d["asked"][max(keys, key=len)] if keys else None
            if labels and len(labels) > 1:
                rest = self.tuple_to_record(rest, labels)
            return comment, sig + "\n" + newn + "".join(" " + a for a in args) + " =" + rest, newn
        env0 = {}
        # other definitions: parameters by type
        ps, _ = self.funs.get(n, ([], None))
        out = []
        pieces = re.split(r"(?m)^(?=%s(?![\w'-]))" % re.escape(n), eqs)
        for piece in pieces:
            m = re.match(r"^%s((?:[^=\n]*?)) =(?=\s)" % re.escape(n), piece)
            env = {}
            if m:
                args = re.findall(r"\([^()]*\)|\{[^{}]*\}|\S+", m.group(1))
                args = [a for a in args if not a.startswith("{")]
                for a, p in zip(args, ps):
                    if p:
                        p = self.fn.final.get(p, p)
                        env[a] = ("place", p, a, p, self.fn.places[p]["new"])
                        self.used.add(self.fn.places[p]["new"])
                out.append(piece[: m.end()] + self.body(piece[m.end():], env))
            else:
                out.append(piece)
        # signature with binder of a place
        senv = {}
        for nm, t in re.findall(r"\(([^():]+) : (tie\.[^()]+)\)", sig):
            p = self.place_of_type(t)
            for v in nm.split():
                if p:
                    p = self.fn.final.get(p, p)
                    senv[v] = ("place", p, v, p, self.fn.places[p]["new"])
        sig2 = self.body(sig, senv) if senv else sig
        return comment, self.types(sig2) + ("\n" if out and out != [""] else "") + self.types("".join(out)), n

    def invariants(self):
        fn = self.fn
        res = []
        for n, comment, b in self.blocks:
            m = re.match(r"^(?:abbrev |unfoldable )?(?:pub )?(\S+) : tie\.((?:invariant|decreases)\S*)", b)
            if not m:
                continue
            old = m.group(2)
            kind, _, loop = old.partition("-")
            # which loop
            idx = 0
            found = None
            for j, (lp, vs) in enumerate(fn.loops):
                if norm(lp[0]) == norm(loop):
                    found = j
            if found is None:
                found = 0 if len(fn.loops) == 1 else None
            if found is None:
                res.append(("-- " + b.replace("\n", "\n-- "), None))
                continue
            lp, vs = fn.loops[found]
            ch = fn.changed[found] if found < len(fn.changed) else [True] * len(vs)
            sig, eqs = self.equations(n, b)
            m = re.match(r"^%s((?: [^\s=]+)*) =" % re.escape(n), eqs)
            args = m.group(1).split()
            cur = [v for v, c in zip(vs, ch) if c]
            sub = {}
            if len(args) == len(vs) + len(cur):
                for a, v, c in zip(args[: len(vs)], vs, ch):
                    if a != "_":
                        sub[a] = ("l.initial." + v) if c else ("l." + v)
                for a, v in zip(args[len(vs):], cur):
                    if a != "_":
                        sub[a] = "l." + v
            elif len(args) == 2 * len(vs):
                for a, v in zip(args[: len(vs)], vs):
                    sub[a] = "l.initial." + v
                for a, v in zip(args[len(vs):], vs):
                    sub[a] = "l." + v
            else:
                res.append(("-- ARGS %s VARS %s %s\n-- " % (args, vs, ch) + b.replace("\n", "\n-- "), None))
                continue
            body = eqs[m.end():]
            newn = ("invariant-" if kind == "invariant" else "decreases-") + lp[1]

            def one(mm):
                return sub.get(mm.group(1), mm.group(1))

            body = re.sub(r"(?<![\w.'’-])([A-Za-z_][\w'₀-₉]*(?:-[\w'₀-₉]+)*)(?![\w'’-])", one, body)
            body = self.words(body)
            unf = re.findall(r"(?m)^unfolding .*$", sig)
            res.append(("abbrev pub %s : goal.%s\n%s%s l =%s" % (newn, newn, "".join(u + "\n" for u in unf), newn, body), newn))
        return res


def load(f):
    d = names()
    k = f"Rattle-{CRATE}-proofs.{key_of(f)}.Lts"
    if k not in d:
        return None
    p = os.path.join(STORE, "proofs", f, "Proof.antt")
    with open(p, encoding="utf-8") as fh:
        return Conv(Fn(f, d[k]), re.sub(r"\.(\w+)_lem(?![\w-])", r".\1", fh.read()))


def uselines(head, f, invs):
    out = []
    for l in head:
        if re.search(r"\.(Statement|Tie)\b", l):
            continue
        if l.startswith("-- "):
            continue
        out.append(l)
    return out


def functions():
    root = os.path.join(STORE, "proofs")
    for d, ds, fs in os.walk(root):
        if "Proof.antt" in fs:
            yield os.path.relpath(d, root)


def begin():
    os.makedirs(STORE, exist_ok=True)
    for d, ds, fs in os.walk("proofs"):
        if "Proof.antt" in fs:
            to = os.path.join(STORE, d)
            os.makedirs(to, exist_ok=True)
            shutil.move(os.path.join(d, "Proof.antt"), os.path.join(to, "Proof.antt"))
            if not os.listdir(d):
                os.rmdir(d)
    relist()
    for f in sorted(functions()):
        c = load(f)
        if c is None:
            print("no names for", f)
            continue
        inv = c.invariants()
        if inv:
            os.makedirs(os.path.join("proofs", f), exist_ok=True)
            p = os.path.join("proofs", f, "Invariants.antt")
            helpers = []
            text = "\n".join(uselines(c.head, f, True) + [f"use Rattle.{CRATE}.proofs.{key_of(f)}.Given as goal"]) + "\n\n" + "\n\n".join(t for t, _ in inv) + "\n"
            with open(p, "w", encoding="utf-8") as fh:
                fh.write(text)
            print("invariants", f, [n for _, n in inv])


def relist():
    to = os.path.join(STORE, "gen")
    shutil.rmtree(to, ignore_errors=True)
    r = subprocess.run(["rt", "check", "--generated", to, "--old-names"], capture_output=True, text=True)
    if not os.path.exists(os.path.join(to, "names.json")):
        print(r.stdout[-3000:], r.stderr[-2000:])
        sys.exit(1)
    shutil.copy(os.path.join(to, "names.json"), os.path.join(STORE, "names.json"))


def wanted(log):
    """Returns {function path: [goals]} of goals that a check asks for."""
    out = {}
    text = open(log, encoding="utf-8").read()
    text = re.sub(r"(?m)^so far: ", "", text)
    for m in re.finditer(r"help: write (?:\./)?proofs/(\S+)/Answers\.antt with these lines.*?\n((?:    .*\n|\n)*)", text):
        f = m.group(1)
        gs = re.findall(r"(?m)^    pub (\S+) : goal\.(\S+)", m.group(2))
        out.setdefault(f, [])
        out[f] += [g[1] for g in gs if g[1] not in out[f]]
    for m in re.finditer(r"help: add (?:these lines )?to (?:\./)?proofs/(\S+)/Answers\.antt.*?\n((?:    .*\n|\n)*)", text):
        f = m.group(1)
        gs = re.findall(r"(?m)^    pub (\S+) : goal\.(\S+)", m.group(2))
        out.setdefault(f, [])
        out[f] += [g[1] for g in gs if g[1] not in out[f]]
    for m in re.finditer(r"expected answers in (?:\./)?proofs/(\S+)/Answers\.antt; `search` did not prove (.*)", text):
        f = m.group(1)
        out.setdefault(f, [])
        for g in re.findall(r"`([^`]+)`", m.group(2)):
            if g not in out[f]:
                out[f].append(g)
    return out


def fill(log):
    any_added = False
    for f, goals in sorted(wanted(log).items()):
        if not os.path.exists(os.path.join(STORE, "proofs", f, "Proof.antt")):
            print("no old proof:", f, goals)
            continue
        c = load(f)
        conv = {}
        order = []
        for n, comment, b in c.blocks:
            if n in c.invnames or n in c.chains or re.search(r"tie\.close", b):
                continue
            cm, t, newn = c.convert(n, comment, b)
            for ch in c.chains:
                t = re.sub(r"(?m)^(unfolding.*) %s(?=\s)" % re.escape(ch), r"\1", t)
                t = re.sub(r"(?m)^unfolding %s\n" % re.escape(ch), "", t)
            t = re.sub(r"(?m)^unfolding\s*\n", "", t)
            t = re.sub(r"not-(true|false) _ (c\.if-[A-Za-z0-9_-]+)\.\1-raw", r"\2.\1", t)
            conv[newn] = ("\n".join(cm + [t]), n)
            order.append(newn)
        p = os.path.join("proofs", f, "Answers.antt")
        have = ""
        if os.path.exists(p):
            have = open(p, encoding="utf-8").read()
        need, missing = [], []
        for g in goals:
            base = re.sub(r"-clause-\w+$", "", g)
            if base in conv:
                if base not in need:
                    need.append(base)
            else:
                missing.append(g)
        # helpers, transitively
        seen = set()
        todo = list(need)
        while todo:
            x = todo.pop()
            if x in seen:
                continue
            seen.add(x)
            for y in order:
                pat = "(?:" + "|".join(map(re.escape, y[7:].split("|"))) + ")" if y.startswith("module:") else re.escape(y)
                if y not in seen and y != x and re.search(r"(?<![\w.'-])%s(?![\w'-])" % pat, conv[x][0]):
                    todo.append(y)
        add = [conv[y][0] for y in order if y in seen and not (y.startswith("module:") and conv[y][0] in have) and not re.search(r"(?m)^pub %s :|^%s :" % (re.escape(y), re.escape(y)), have)]
        if not have:
            c.head.append("use mathlib.Core.Path.{refl}") if any(re.search(r"(?<![\w.'-])refl(?![\w'-])", a) for a in add) and not any(re.search(r"[{ ,]refl[,}]", h) for h in c.head) else None
            have = "\n".join(uselines(c.head, f, False) + [f"use Rattle.{CRATE}.proofs.{key_of(f)}.Goals as goal"]) + "\n"
        places = sorted(x for x in c.used if any(re.search(r"(?<![\w'-])%s(?![\w'-])" % re.escape(x), a) for a in add))
        if places:
            old = re.search(r"(?m)^use Rattle\.%s\.proofs\.%s\.Goals\.\{([^}]*)\}\n" % (CRATE, re.escape(key_of(f))), have)
            if old:
                places = sorted(set(places) | {x.strip() for x in old.group(1).split(",")})
                have = have.replace(old.group(0), "")
            line = f"use Rattle.{CRATE}.proofs.{key_of(f)}.Goals as goal\n"
            have = have.replace(line, line + f"use Rattle.{CRATE}.proofs.{key_of(f)}.Goals.{{{', '.join(places)}}}\n")
        if add:
            os.makedirs(os.path.dirname(p), exist_ok=True)
            with open(p, "w", encoding="utf-8") as fh:
                fh.write(have.rstrip("\n") + "\n\n" + "\n\n".join(add) + "\n")
            any_added = True
        print(("added" if add else "NOTHING NEW"), f, [y for y in order if y in seen], "MISSING" if missing else "", missing or "")
    return any_added


def show(f, goal=None):
    c = load(f)
    for n, comment, b in c.blocks:
        if n in c.invnames or n in c.chains:
            continue
        cm, t, newn = c.convert(n, comment, b)
        if goal is None or goal in (newn, n):
            print("\n".join(cm + [t]) + "\n")
    if goal is None:
        print("-- needs:", json.dumps(c.fn.d["needs"]))


def rounds():
    log = os.path.join(STORE, "check.log")
    for _ in range(6):
        with open(log, "w", encoding="utf-8") as f:
            subprocess.run(["rt", "check"], stdout=f, stderr=subprocess.STDOUT)
        with open(log, encoding="utf-8") as f:
            said = f.read()
        if re.search("(?m)^logic=proved", said) or not fill(log):
            break
    quiet = re.compile(r"statements|checked|library|help: `|note: finished|so far|.*: proved$")
    print("\n".join(it[:600] for it in said.split("\n") if not quiet.match(it)))


def main():
    words = sys.argv[1:]
    if words[:1] == ["show"]:
        show(*words[1:])
    elif words in ([], ["more"]):
        if not words:
            begin()
        rounds()
    else:
        sys.exit(__doc__)


if __name__ == "__main__":
    main()
