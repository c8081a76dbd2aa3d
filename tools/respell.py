#!/usr/bin/env python3
"""The second script of the port: brings this repository's own antt names (camelCase, hyphens) to snake_case, everywhere they are used.

usage: tools/respell.py [--check] [REPO]      once, after the kit's port.py and before any edit by hand

Own names are those that specs/ and proofs/ of the repository's crates declare: definitions, lemmas, record fields, constructors, and,
file by file, parameters, let names and pattern variables. Changed: *.antt, clauses and `ghost use` lines and comments of src/*.rt,
must-fail/*.edit, and backquoted names in README.md and docs/**.md. Left: Rust's names, types and modules (a capital first),
strings, names imported from the kit, names that Rattle makes (Goals, Given, Tie, Lts, Statement; c.STEP fields; an Answers.antt's goals).

A definition keeps the plain name, and a lemma that would have its definition's name gets `_lem`. port.py has turned some lemmas' names
already; of those the ones that would take a definition's name stand in FIRST. Names that fall together are printed, and the second gets another.
--check writes nothing. It goes by tokens, and a name that is declared in one crate is turned wherever it is used, so read its lines
`collision` and `hidden?` (a parameter of a Rust function that hides a word of its clauses), and the diff of src/ and specs/.
"""
import os, re, sys, collections

OTHER = {}      # old -> new by hand, before any rule
# (file, name there, its name from now on): lemmas that have a definition's name
FIRST = [
    ("crates/validation/proofs/Steps.antt", "at_leaf", "at_leaf_lem"),
    ("crates/validation/proofs/visit/visit_all/Proof.antt", "at_leaf", "at_leaf_lem"),
    ("crates/session/proofs/Granted.antt", "has_width", "has_width_lem"),
]
KEEP = set()

TOKEN = re.compile(r'--[^\n]*|"(?:[^"\\]|\\.)*"|«[^»]*»|\.(?=[^\s.])|[^\s(){}.;,@"«»\[\]\\]+|.|\n', re.S)
NAME = re.compile(r"^[a-z][\w'′₀-₉⁰-⁹·-]*$")

def wants(n):
    """Is this a name of the kind that is respelled?"""
    return bool(NAME.match(n)) and n not in KEEP and (bool(re.search(r"[a-z0-9][A-Z]", n)) or ("-" in n and "◌" not in n and not n.endswith("-")))

def snake(n):
    if n in OTHER:
        return OTHER[n]
    n = re.sub(r"([a-z0-9])([A-Z])", r"\1_\2", n)
    n = re.sub(r"([A-Z]+)([A-Z][a-z])", r"\1_\2", n)
    return n.replace("-", "_").lower()

GENERATED = re.compile(r"\.proofs\..*\.(Goals|Given|Tie|Lts|Statement|Code|Met|Reads|Kinds|Invariants|Answers)(\.|$|\s)|\.specs\.(declared|contracts)(\.|$|\s)")

class File:
    def __init__(self, path, text):
        self.path, self.text = path, text
        self.uses = []          # (path, [(name, as)], alias)
        self.own = set()        # declared here: names that want respelling
        self.fields = set()
        self.locals = set()
        self.kit = set()        # imported from the kit or from a generated module
        self.goals = set()      # names of an Answers/Invariants file that Rattle gives

def uses_of(text, prefix=r"(?:pub |unfoldable |ghost )*use "):
    for m in re.finditer(r"^[ \t]*" + prefix + r"([^\s;{]+?)(?:\.\{([^}]*)\})?(?:\s+as\s+([^\s;]+))?;?[ \t]*$", text, re.M):
        names = []
        for it in (m[2] or "").split(","):
            w = it.split()
            if w:
                names.append((w[0], w[2] if len(w) == 3 and w[1] == "as" else w[0]))
        yield m[1], names, m[3]

def scan(f, crates):
    t = re.sub(r'"(?:[^"\\\n]|\\.)*"', lambda m: " " * len(m[0]), re.sub(r"--[^\n]*", lambda m: " " * len(m[0]), f.text))
    for path, names, alias in uses_of(t):
        top = path.split(".")
        own = len(top) > 1 and top[0] == "Rattle" and top[1] in crates and not GENERATED.search("." + path + " ")
        f.uses.append((path, names, alias, own))
        if not own:
            for a, b in names:
                f.kit.add(b)
        else:
            for a, b in names:
                if a != b:
                    f.locals.add(b)
    answers = os.path.basename(f.path) in ("Answers.antt", "Invariants.antt")
    # signatures: NAME : ..  (several names may share one); clauses: NAME pattern .. = ..
    bad = ("use", "mod", "let", "in", "module", "elim", "rw", "record", "data", "syntax", "|", "[")
    for line in t.split("\n"):
        words = line.split()
        while words and words[0] in ("abbrev", "unfoldable", "pub", "ghost", "opaque"):
            words.pop(0)
        if not words or words[0] in bad:
            continue
        if ":" in words:
            k = words.index(":")
            head = words[:k]
            if head and not any(re.search(r"[(){}=.;,]", w) for w in head):
                for w in head:
                    if wants(w):
                        if answers and " ".join(words[k + 1:]).startswith("goal."):
                            f.goals.add(w)
                        else:
                            (f.own if not line[:1].isspace() else f.fields).add(w)
        if "=" in words and not line.lstrip().startswith(("let ", "|", "[")):
            for w in re.findall(r"[^\s(){}=.;,]+", " ".join(words[1:words.index("=")])):
                if wants(w):
                    f.locals.add(w)
    # binders: (x y : T), {x : T}, λ x y., let x = / let x :
    for m in re.finditer(r"[({]([^(){}:=.;,\n]+) :\s", t):
        for w in m[1].split():
            if wants(w):
                f.locals.add(w)
    for m in re.finditer(r"λ([^(){}:=.;,λ\n]+)\.", t):
        for w in m[1].split():
            if wants(w):
                f.locals.add(w)
    for m in re.finditer(r"\blet[ \t]+([^\s:(){}=.;,]+)", t):
        if wants(m[1]):
            f.locals.add(m[1])
    # arms of an elim: | C x y ↦
    for m in re.finditer(r"[|\[][ \t]*([^|\[\]\n]*?)↦", t):
        for w in re.findall(r"[^\s:(){}=.;,]+", m[1])[1:]:
            if wants(w):
                f.locals.add(w)

def main():
    args = [a for a in sys.argv[1:] if a != "--check"]
    check = "--check" in sys.argv
    root = os.path.abspath(args[0] if args else ".")
    cdir = os.path.join(root, "crates")
    crates = set(os.listdir(cdir))
    antts, rts, edits, mds = [], [], [], []
    for folder, dirs, files in os.walk(root):
        dirs[:] = sorted(d for d in dirs if d not in ("out", ".git", "target"))
        for fn in sorted(files):
            p = os.path.join(folder, fn)
            inside = folder.startswith(cdir)
            if fn.endswith(".antt") and inside: antts.append(p)
            elif fn.endswith(".rt") and inside: rts.append(p)
            elif fn.endswith(".edit"): edits.append(p)
            elif fn.endswith(".md"): mds.append(p)
    F = {}
    for p in antts:
        text = open(p, encoding="utf-8").read()
        for file, a, b in FIRST:
            if os.path.relpath(p, root) == file:
                text = re.sub(r"(?<![\w'.-])" + a + r"(?![\w'-])", b, text)
        f = File(p, text)
        scan(f, crates)
        F[p] = f
    # exported names: those of files that are no function's proof, and all of them as far as other files import them
    glob = set()
    for f in F.values():
        glob |= {n for n in f.own | f.fields}
    # record fields and constructors stand indented: of those keep the ones that are reached by a path or an import
    alltoks = collections.Counter()
    toks = {}
    for p, f in F.items():
        s = set(TOKEN.findall(f.text))
        toks[p] = s
        alltoks.update(s)
    src = {p: open(p, encoding="utf-8").read() for p in rts}
    for p, t in src.items():
        toks[p] = set(TOKEN.findall(t))
    # what may clash: names in scope, so no part of a path after a dot, no module of a use line, and of src what is bound there
    # (a function of src may have its definition's name: the kit's own crates do so)
    bound = {}
    for p, f in F.items():
        s = set()
        for line in re.sub(r"--[^\n]*", "", f.text).split("\n"):
            m = re.match(r"^[ \t]*(?:pub |unfoldable )*use [^\s;{]+?(?:\.\{([^}]*)\})?(?: as (\S+))?[ \t]*$", line)
            if m:
                s |= {w.split()[-1] for w in (m[1] or "").split(",") if w.split()} | ({m[2]} if m[2] else set())
            else:
                parts = TOKEN.findall(line)
                s |= {w for k, w in enumerate(parts) if k == 0 or parts[k - 1] != "."}
        bound[p] = s
    for p, t in src.items():
        code = re.sub(r"//[^\n]*", "", t)
        g = set()
        for m in re.finditer(r"ghost use [^;]*;", code):
            g |= set(re.findall(r"[^\s,{};]+", m[0]))
        bound[p] = g | set(re.findall(r"\b([a-z_]\w*)\s*:(?!:)", code)) | set(re.findall(r"\blet (?:mut )?([a-z_]\w*)", code)) | set(re.findall(r"\bmod (\w+)", code))
    names = sorted(glob | set().union(*(f.locals for f in F.values())))
    names = [n for n in names if wants(n)]
    # the new name of each, and collisions: within a file where both are used, or in one module's exports
    new, taken = {}, {}
    clashes = []
    index = collections.defaultdict(set)
    for p, s in toks.items():
        for w in s:
            index[w].add(p)
    def users(n):
        return index[n]
    for n in sorted(names, key=lambda n: ("-" in n, n)):
        s = snake(n)
        def clash(s):
            u = users(n)
            for p in u:
                if s in bound[p]:
                    return os.path.relpath(p, root), s
                for o in taken.get(s, ()):
                    if o in toks[p]:
                        return os.path.relpath(p, root), o
            # exported by two modules of one crate's use is fine; by one module it is the same file
            if n in glob:
                for o in taken.get(s, ()):
                    if o in glob and o != n:
                        return "exports", o
            return None
        c = clash(s)
        if c:
            first = s
            for alt in (s + "_lem" if "-" in n else s + "_of", s + "_2", s + "_3"):
                if not clash(alt):
                    s = alt
                    break
            clashes.append((n, first, c, s))
        new[n] = s
        taken.setdefault(s, set()).add(n)
    for n, first, c, s in clashes:
        print(f"collision: {n} -> {first} is {c[1]} in {c[0]}; taken: {s}")
    # parameters of Rust functions that would hide a word of their clauses
    for p, t in src.items():
        params = set(re.findall(r"\b([a-z_][a-z0-9_]*)\s*:\s*(?!:)", re.sub(r"//[^\n]*", "", t)))
        for n in names:
            if n in toks[p] and new[n] in params:
                print(f"hidden?: {os.path.relpath(p, root)}: {n} -> {new[n]} is also a field or parameter there")

    def turn_tokens(text, ok, after_dot_ok, comment):
        out, prev, prevprev = [], "", ""
        parts = TOKEN.findall(text)
        for i, w in enumerate(parts):
            if w.startswith("--") and len(w) > 2 and not re.match(r"--\S*[^\s-]", w) or w.startswith("-- ") or w.startswith("--") and w[2:3] in (" ", "-", ""):
                out.append(comment(w))
            elif w[0] in '"«':
                out.append(w)
            elif w in new and wants(w):
                dotted = i > 0 and parts[i - 1] == "."
                if dotted:
                    # the base of the path
                    j = i - 1
                    comp = []
                    while j > 0 and parts[j] == ".":
                        comp.append(parts[j - 1]); j -= 2
                    out.append(new[w] if after_dot_ok(w, comp[::-1]) else w)
                else:
                    out.append(new[w] if ok(w) else w)
            else:
                out.append(w)
        return "".join(out)

    camel = {n for n in new if re.search(r"[a-z0-9][A-Z]", n) and n in glob}
    W = r"(?<![\w·.'/-])([a-z][\w'-]*)(?![\w'/-])"
    declared = set()
    for f in F.values():
        declared |= set(re.findall(r"^[ \t]*(?:abbrev |unfoldable |pub )*([a-z][\w'-]*) :", f.text, re.M))
    def quoted(text):
        # a name that an earlier script turned in the files, and not in prose, is turned too
        def one(k):
            w = k[1]
            return new[w] if w in new and w in glob else snake(w) if wants(w) and w not in declared and snake(w) in declared else w
        return re.sub(r"`([^`\n]*)`", lambda m: "`" + re.sub(W, one, m[1]) + "`", text)
    def prose(text):
        text = quoted(text)
        return re.sub(W, lambda k: new[k[1]] if k[1] in camel else k[1], text)

    changed = 0
    def write(p, old, text):
        nonlocal changed
        if text != old:
            changed += 1
            if not check:
                open(p, "w", encoding="utf-8").write(text)

    # what may stand after a dot: fields, as `record`s and modules of the repository's files declare them; in a function's proof by ties
    # (`c.before.in-range.ensures`) a call's step goes by the source's name, so there only fields of records
    field_names = set().union(*(g.fields for g in F.values()))
    record_fields = set()
    for f in F.values():
        for m in re.finditer(r"^[ \t]*(?:pub )?record [^\n]* where\n((?:[ \t]+[^\n]*\n|\n)*)", f.text + "\n", re.M):
            record_fields |= set(re.findall(r"^[ \t]*(?:pub )?([^\s:(){}=.;,]+) :\s", m[1], re.M))
    for p, f in F.items():
        aliases = {a: own for path, ns, a, own in f.uses if a}
        here = f.own | f.fields | f.locals
        imported = {b for path, ns, a, own in f.uses if own for _, b in ns}
        def ok(w):
            if w in f.goals: return False
            if w in f.kit and w not in f.own: return False
            return w in here or w in imported or w in glob
        def dot(w, comp, f=f, aliases=aliases):
            base = comp[0] if comp else ""
            if base in aliases: return aliases[base]
            if base == "Rattle" or base in ("tie", "goal"): return base == "Rattle" and len(comp) > 1 and comp[1] in crates
            if base in ("c", "l") and len(comp) == 1 and w not in field_names: return False
            return w in (record_fields if ".Tie as tie" in f.text else field_names)
        lines, out = f.text.split("\n"), []
        def useline(m, own):
            def one(k):
                a, b = k[1], k[3]
                a2 = new[a] if own and a in new and a in glob else a
                return a2 + (f" as {new[b] if b in new else b}" if b else "")
            return re.sub(r"([^\s,{}]+)( as ([^\s,{}]+))?", one, m)
        i = 0
        for line in lines:
            m = re.match(r"^([ \t]*(?:pub |unfoldable )*use )([^\s;{]+?)\.\{([^}]*)\}[ \t]*$", line)
            if m:
                top = m[2].split(".")
                own = len(top) > 1 and top[0] == "Rattle" and top[1] in crates and not GENERATED.search("." + m[2] + " ")
                out.append(m[1] + m[2] + ".{" + useline(m[3], own) + "}")
            elif re.match(r"^[ \t]*(pub |unfoldable )*use ", line):
                out.append(re.sub(r" as (\S+)$", lambda k: " as " + new.get(k[1], k[1]), line))
            else:
                out.append(None)
        # the rest is turned whole, with use lines cut out
        keep = [l for l in out if l is not None]
        body = "\n".join("\0" if o is not None else l for l, o in zip(lines, out))
        body = turn_tokens(body, ok, dot, prose)
        it = iter(keep)
        write(p, f.text, re.sub("\0", lambda m: next(it), body))

    for p, t in src.items():
        kit, own = set(), set()
        flat = re.sub(r"ghost use [^;]*;", lambda m: re.sub(r"\s+", " ", m[0]).replace(",}", "}"), t)
        for path, ns, a in uses_of(flat):
            top = path.split(".")
            isown = len(top) > 1 and top[0] == "Rattle" and top[1] in crates
            (own if isown else kit).update(b for _, b in ns)
        def line_prose(m):
            return prose(m[0])
        parts = re.split(r'("(?:[^"\\\n]|\\.)*"|//[^\n]*)', t)
        res = []
        for k, part in enumerate(parts):
            if k % 2:
                res.append(prose(part) if part.startswith("//") else part)
            else:
                def one(m):
                    w = m[0]
                    return new[w] if w in new and w in glob and w not in kit and wants(w) and (w in camel or w in own) else w
                res.append(re.sub(r"(?<![\w'.·-])[a-z][\w'-]*(?<!-)(?![\w'-])", one, part))
        write(p, t, "".join(res))

    for p in edits:
        t = open(p, encoding="utf-8").read()
        def one(m):
            w = m[0]
            return new[w] if w in new and w in glob and (w in camel or "file: src" not in t) else w
        out = []
        for line in t.split("\n"):
            out.append(re.sub(r"(?<![\w'·-])[a-z][\w'-]*(?<!-)(?![\w'-])", one, line) if re.match(r"(old|new): ", line) else prose(line) if not line.startswith("file:") else line)
        write(p, t, "\n".join(out))
    for p in mds:
        t = open(p, encoding="utf-8").read()
        out, fence = [], False
        for line in t.split("\n"):
            if line.startswith("```"): fence = not fence
            out.append(quoted(line))
        write(p, t, "\n".join(out))
    left = collections.Counter()
    for p in antts:
        for w in set(TOKEN.findall(open(p, encoding="utf-8").read())):
            if wants(w) and re.search(r"[a-z0-9][A-Z]", w): left[w] += 1
    print(f"names: {len(new)} ({len([n for n in new if n in glob])} declared, {len(camel)} in camel case); files changed: {changed}; collisions: {len(clashes)}; camelCase left in .antt: {len(left)}: {' '.join(sorted(left)[:40])}")

main()
