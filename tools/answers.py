#!/usr/bin/env python3
"""Turns the hand walks of a crate, proofs/**/Proof.antt, to Invariants.antt and Answers.antt.

usage: tools/answers.py CRATE_FOLDER NAMES

NAMES is the crate's names.json, which `rt names OUT` writes at the top of the repository. Answers that were `search rules` are
left out, since the check finds them; what it prints is to be looked at by hand.
"""
import json, os, re, sys
LET = r"A-Za-z\u0370-\u03ff\u2080-\u2089"
ID = "[" + LET + r"_][" + LET + r"0-9_'\u2032-]*"
PATH = re.compile(r"(?<![\w.'\u2032-])(" + ID + r")((?:\.(?:" + ID + r"|\d+))*)")
norm = lambda s: s.replace("-", "_").replace("_", "_")

def blocks(text):
    out, cur = [], []
    for line in text.split("\n"):
        if line.strip() == "":
            if cur: out.append(cur); cur = []
        else: cur.append(line)
    if cur: out.append(cur)
    # join comment-only blocks etc.
    res = []
    for b in out:
        if b[0].startswith((" ", ")")) and res: res[-1] += [""] + b
        else: res.append(b)
    return res

class F:
    def __init__(self, d):
        self.d = d
        self.parent, self.newplace, self.step, self.clauses, self.arms = {}, {}, {}, {}, {}
        self.stepof = {}
        for i, (p, par, (o, n), callee, _) in enumerate(d["places"]):
            self.parent[p] = par
            self.newplace[p] = d["places_by_name"][i]
            if o: self.step[norm(o)] = n; self.stepof[p] = norm(o)
            if d["clauses"][i] and d["clauses"][i].get("fields"): self.clauses[norm(o)] = d["clauses"][i]["fields"]
            arm = d["arms"][i]
            if arm:
                for f in arm[2]:
                    name, ostep, path = f[0], f[1], f[2]
                    self.arms.setdefault((norm(ostep),) + tuple(path), arm[0] + ("." + name if not name.endswith("-own") else ""))
        self.needs = {norm(o): n for o, n in d["needs"]}
        self.needold = {norm(o): o for o, n in d["needs"]}
        self.asked = {norm(o): f for o, f in d["asked"].items()}
        self.at = {}
        for (o, n), a in zip(d["needs"], d["asked_at"]): self.at[norm(o)] = a[0]
        pre = d.get("pre")
        self.pre = pre.get("fields") if isinstance(pre, dict) else pre

    def path(self, fields, goal, place, notes):
        """fields after c; returns new text"""
        up = 0
        fs = list(fields)
        pl = place
        while fs and fs[0] == "before":
            fs.pop(0)
            if pl is not None: pl = self.parent.get(pl)
        if not fs:
            if goal is None and len(fields) == 0: return "c"
            if pl and goal: return "(goal.at.%s c).%s" % (goal, self.newplace.get(pl, "??" + str(pl)))
            notes.append("bare context " + ".".join(fields)); return "c"
        s = norm(fs[0])
        # longest arm match
        for k in range(len(fs), 1, -1):
            key = (s,) + tuple(fs[1:k])
            if key in self.arms:
                return ".".join(["c", self.arms[key]] + fs[k:])
        if s in self.step:
            new = self.step[s]
            rest = fs[1:]
            if len(rest) >= 2 and rest[0] == "ensures" and rest[1].isdigit() and s in self.clauses:
                fl = self.clauses[s]
                if int(rest[1]) < len(fl): rest[1] = fl[int(rest[1])]
            elif rest[:1] == ["ensures"] and s in self.clauses and len(rest) == 1:
                notes.append("whole ensures of " + s)
            return ".".join(["c", new] + rest)
        if fs[0] == "requires" and len(fs) > 1 and fs[1].isdigit() and self.pre:
            fs[1] = self.pre[int(fs[1])]
        return ".".join(["c"] + fs)

    def body(self, text, goal, place, notes):
        alias = {"c": []}
        # collect aliases in order, inline them
        pat = re.compile(r"\blet (" + ID + r") = (" + ID + r")((?:\.(?:" + ID + r"|\d+))*) in[ \n]*")
        while True:
            m = None
            for mm in pat.finditer(text):
                if mm.group(2) in alias: m = mm; break
            if not m: break
            fl = alias[m.group(2)] + [x for x in m.group(3).split(".") if x]
            alias[m.group(1)] = fl
            before, after = text[: m.start()], text[m.end():]
            name = m.group(1)
            # inline in the remainder
            def rep(mm):
                if mm.group(1) == name: return "c" + "".join("." + x for x in fl) + mm.group(2)
                return mm.group(0)
            after = PATH.sub(rep, after)
            del alias[name]
            text = before + after
        def one(m):
            if m.group(1) != "c": return m.group(0)
            fl = [x for x in m.group(2).split(".") if x]
            return self.path(fl, goal, place, notes)
        return PATH.sub(one, text)

def split_final(body):
    """(head, final) at the last top-level ' in'."""
    depth, last = 0, 0
    i = 0
    while i < len(body):
        ch = body[i]
        if ch in "([{": depth += 1
        elif ch in ")]}": depth -= 1
        elif depth == 0 and re.match(r"\bin\b", body[i:]) and (i == 0 or body[i-1] in " \n") and body[i+2:i+3] in (" ", "\n"):
            last = i + 2; i += 2; continue
        i += 1
    return body[:last], body[last:]

def tuple_parts(e):
    e = e.strip()
    if not (e.startswith("(") and e.endswith(")")): return None
    depth, parts, cur = 0, [], ""
    for i, ch in enumerate(e):
        if ch in "([{":
            depth += 1
            if depth == 1: continue
        elif ch in ")]}":
            depth -= 1
            if depth == 0:
                if i != len(e) - 1: return None
                if cur.strip() or not parts: parts.append(cur)
                break
        elif ch == "," and depth == 1:
            parts.append(cur); cur = ""; continue
        cur += ch
    return [p.strip() for p in parts]

OPS = re.compile(r"\u25cc(.+?)\u25cc")
def prune(uses, body):
    toks = set(re.findall(ID, body))
    out = []
    for u in uses:
        m = re.match(r"(use [^{]*\.)\{(.*)\}$", u)
        if not m:
            out.append(u); continue
        keep = []
        for it in m.group(2).split(","):
            it = it.strip()
            nm = it.split(" as ")[-1]
            op = OPS.fullmatch(nm)
            if op: ok = op.group(1).strip() in body
            elif re.fullmatch(ID, nm): ok = nm in toks
            else: ok = nm in body
            if nm in ("statement",): ok = False
            if ok: keep.append(it)
        if keep: out.append(m.group(1) + "{" + ", ".join(keep) + "}")
    return out

def convert(crate, cdir, key, d):
    path = key[len("Rattle-%s-proofs." % crate): -len(".Lts")]
    pdir = os.path.join(cdir, "proofs", *path.split("."))
    pf = os.path.join(pdir, "Proof.antt")
    if not os.path.exists(pf): return None
    f = F(d)
    text = open(pf).read()
    uses, ans, inv, notes, places = [], [], [], [], set()
    for b in blocks(text):
        if all(l.startswith("use ") for l in b):
            uses += [l for l in b if ".Tie as tie" not in l and ".Statement.{" not in l]
            continue
        ci = 0
        while ci < len(b) and (b[ci].startswith("--") or b[ci].startswith("use ")):
            if b[ci].startswith("use "): uses.append(b[ci])
            ci += 1
        b = b[ci:]
        if not b: continue
        s = "\n".join(b)
        m = re.match(r"(?:(?:abbrev|unfoldable|pub) )*(" + ID + r") :", s)
        if not m: notes.append("unknown block: " + b[0]); ans.append((None, s)); continue
        name = m.group(1)
        if "tie.close" in s: continue
        im = re.match(r"(invariant|decreases)-(.*)$", name)
        if im and "tie.invariant" in s or im and "tie.decreases" in s:
            lp = norm(im.group(2))
            new = vars = None
            for j, (l, vs) in enumerate(d["loops"]):
                if norm(l[0]) == lp: new, vars, ch = l[1], vs, d["changed"][j]
            if new is None: notes.append("no loop " + name); inv.append(s); continue
            lines = b
            k = next(i for i, l in enumerate(lines) if re.match(re.escape(name) + r"\b.*=", l) or re.match(re.escape(name) + r" [^:]*$", l))
            eqn = "\n".join(lines[k:])
            lhs, rhs = eqn.split("=", 1)
            pats = lhs.split()[1:]
            exp = []
            for v, c in zip(vars, ch): exp.append(("l.initial." if c else "l.") + v)
            for v, c in zip(vars, ch):
                if c: exp.append("l." + v)
            if len(exp) != len(pats): notes.append("loop %s: %s against %s" % (name, pats, exp))
            mp = dict(zip(pats, exp))
            rhs = PATH.sub(lambda m: mp.get(m.group(1), m.group(1)) + m.group(2), rhs)
            nm = "%s-%s" % (im.group(1), new)
            extra = [l for l in lines[:k] if l.startswith("unfolding")]
            inv.append("\n".join(["abbrev pub %s : goal.%s" % (nm, nm)] + extra + ["%s l =%s" % (nm, rhs)]))
            continue
        gm = re.search(r"tie\.Need-", s.split("\n")[0]) or re.match(r"[^\n]*:\s*\n\s+tie\.Need-", s)
        if gm:
            o = norm(name)
            if o not in f.needs:
                t = norm(re.search(r"tie\.Need-(%s)" % ID, s).group(1))
                if t in f.needs: o = t
            if o not in f.needs:
                notes.append("goal %s isn't asked any more" % name)
            new = f.needs.get(o, name)
            lines = s.split("\n")
            k = next(i for i, l in enumerate(lines) if i > 0 and re.match(re.escape(name) + r"(\s|$)", l))
            sig, eqn = lines[:k], "\n".join(lines[k:])
            unf = [l for l in sig if l.startswith("unfolding")]
            lhs, rhs = eqn.split("=", 1)
            if rhs.strip() in ("search rules",) : continue
            place = f.at.get(o)
            rhs = f.body(rhs, new, place, notes)
            if o in f.asked:
                head, fin = split_final(rhs)
                parts = tuple_parts(fin)
                fl = f.asked[o]
                if parts and len(parts) == len(fl):
                    rhs = head + (" " if head and not head.endswith((" ", "\n")) else "") + "record { " + "; ".join("%s = %s" % (a, p) for a, p in zip(fl, parts)) + " }"
                    if not head: rhs = " " + rhs.strip()
                else: notes.append("goal %s has clauses %s" % (new, fl))
            pats = [x for x in lhs.split()[1:] if x != "\u03bas"]
            ans.append((new, "\n".join(["pub %s : goal.%s" % (new, new)] + unf + ["%s %s =%s" % (new, " ".join(pats), rhs)])))
            continue
        # a helper
        pm = re.search(r"\((" + ID + r") : tie\.(" + ID + r")(?: invariant-[\w-]+ decreases-[\w-]+)*\)", s)
        if pm:
            v, pl = pm.group(1), pm.group(2)
            real = next((p for p in f.newplace if norm(p) == norm(pl)), None)
            if real is None: notes.append("helper %s: no place %s" % (name, pl)); real = pl
            else: places.add(f.newplace[real])
            s = s.replace(pm.group(0), "(%s : %s)" % (v, f.newplace.get(real, pl)))
            if v == "c":
                sig, eq = s.split("\n", 1) if "\n" in s else (s, "")
                # signature may span lines; convert all paths
                head = s[: s.index(pm.group(0)) if pm.group(0) in s else 0]
                s = f.body(s, None, real, notes)
        elif "tie." in s: notes.append("helper %s cites tie" % name)
        ans.append((None, s))
    outs = {}
    mod = "Rattle.%s.proofs.%s" % (crate, path)
    if any(n for n, _ in ans):
        body = "\n\n".join(t for _, t in ans)
        us = prune(uses, body)
        gp = sorted(p for p in places)
        us.append("use %s.Goals as goal" % mod)
        if gp: us.append("use %s.Goals.{%s}" % (mod, ", ".join(gp)))
        outs["Answers.antt"] = "\n".join(us) + "\n\n" + body + "\n"
    if inv:
        body = "\n\n".join(inv)
        us = prune(uses, body) + ["use %s.Given as goal" % mod]
        outs["Invariants.antt"] = "\n".join(us) + "\n\n" + body + "\n"
    for n, t in outs.items():
        with open(os.path.join(pdir, n), "w") as fh: fh.write(t)
    os.remove(pf)
    if not os.listdir(pdir):
        os.rmdir(pdir)
        up = os.path.dirname(pdir)
        if up.endswith("proofs") is False and not os.listdir(up): os.rmdir(up)
    return notes

def main():
    cdir, names = sys.argv[1], sys.argv[2]
    crate = os.path.basename(os.path.abspath(cdir))
    d = json.load(open(names))
    for key in sorted(d):
        if key.startswith("Rattle-%s-proofs." % crate) and key.endswith(".Lts"):
            notes = convert(crate, cdir, key, d[key])
            if notes: print(key, *notes, sep="\n    ")
main()
