#!/usr/bin/env python3
"""Brings the repository's own definitions and lemmas to the spelling of today's Rattle. Run once, after port.py, at the top of the repository.

Types and facts (functions into Type) are in upper camel case, everything else is in snake case. Names of src/ keep their spelling.
A lemma that would then have the name of a definition ends in `_lem`. The definition `result` is `with_block`, since `result` now is what a
function returns, and the crate `log` is `log_entry`, since Rattle has a library named log.
"""
import os
import re
import sys

ROOT = os.getcwd()
CRATES = sorted(c for c in os.listdir("crates") if os.path.isdir(os.path.join("crates", c)))
FIXED = {"result": "with_block", "Result": "Result"}
# A token of antt: what stands between blanks, brackets, commas, dots.
TOKEN = re.compile(r"[^\s(){}\[\],;.«»`\"]+")
DECLARED = re.compile(r"^(\s*)((?:pattern |unfoldable |abbrev |axiom |pub )*)(data |record |ruleset )?(?:pub )?([^\s(){}:]+(?: [^\s(){}:]+)*?)((?:\s*[({][^)}]*[)}])*) :(\s|$)(.*)")
RESERVED = {"as", "data", "elim", "else", "if", "in", "let", "open", "record", "ruleset", "then", "where", "use", "mod", "result"}


def files(*endings):
    for c in CRATES:
        for folder, dirs, names in os.walk(os.path.join("crates", c)):
            dirs[:] = sorted(d for d in dirs if d != "out")
            for n in sorted(names):
                if n.endswith(endings):
                    yield os.path.join(folder, n)


def snake(word):
    word = re.sub(r"([a-z0-9])([A-Z])", r"\1_\2", word)
    return word.lower()


def turned(name, is_type):
    if not re.search(r"[A-Za-z]", name) or name.startswith("◌"):
        return name
    parts = name.split("-")
    if is_type:
        return "".join(p[:1].upper() + p[1:] for p in parts)
    out = ""
    for i, p in enumerate(parts):
        type_part = p[:1].isupper() and len(parts) > 1
        word = p if type_part else snake(p) if re.match(r"^[a-z]", p) else p
        if i:
            dash = type_part or (parts[i - 1][:1].isupper())
            out += "-" if dash else "_"
        out += word
    return out


def declarations():
    """name -> (is it a type, is it a definition of specs/)"""
    found = {}
    for path in files(".antt"):
        parts = path.split(os.sep)
        if parts[2] not in ("specs", "proofs") or os.path.basename(path) in ("Proof.antt", "Lib.antt"):
            continue
        lines = open(path, encoding="utf-8").read().split("\n")
        for i, line in enumerate(lines):
            if line.strip().startswith("--") or line.startswith("use "):
                continue
            m = DECLARED.match(line)
            if not m:
                m2 = re.match(r"^(\s*)((?:unfoldable |abbrev |pub )*)([^\s(){}:]+) :$", line)
                if not m2:
                    continue
                names, rest, kind = [m2.group(3)], "", ""
            else:
                if m.group(1) and not re.match(r"^\s*(pub )?[^\s=]+( [^\s=]+)* :", line):
                    continue
                names, rest, kind = m.group(4).split(" "), m.group(7), m.group(3) or ""
                if kind and kind.strip() in ("data", "record", "ruleset"):
                    names = names[:1]
            sig = rest
            j = i + 1
            while j < len(lines) and lines[j].startswith((m.group(1) if m else "") + "    ") and not re.search(r" = |where$", sig):
                sig += " " + lines[j].strip()
                j += 1
            sig = re.split(r" where$| = ", sig)[0].strip()
            last = re.split(r"→", sig)[-1].strip()
            is_type = bool(re.match(r"^Type( \S+|\{.*)?$", last)) or kind.strip() in ("data", "record")
            for n in names:
                if n in ("let", "λ") or not re.match(r"^[^\W\d]", n):
                    continue
                was = found.get(n, (False, False))
                found[n] = (was[0] or is_type, was[1] or parts[2] == "specs")
    return found


def mapping(found):
    to = {}
    for n, (is_type, of_specs) in found.items():
        t = FIXED.get(n) or turned(n, is_type)
        if t != n:
            to[n] = t
    # names that fall together
    taken = {}
    for n in sorted(found, key=lambda n: ("-" in n, n)):
        t = to.get(n, n)
        if t in taken and taken[t] != n:
            to[n] = t + "_lem"
            print(f"together: {taken[t]} and {n}: {to[n]}")
        else:
            taken[t] = n
        if to.get(n) in RESERVED:
            print(f"reserved: {n}: {to[n]}")
    return to


def own(module):
    m = re.match(r"Rattle\.(\w+)\.", module)
    return bool(m) and m.group(1) in CRATES


def foreign(text):
    """The names that a file imports from elsewhere, which keep their spelling."""
    out = set()
    for m in re.finditer(r"use ([^\s{;]+?)\.\{([^}]*)\}", text):
        if not own(m.group(1) + "."):
            out |= {x.strip() for x in m.group(2).split(",")}
    return out


def imports_result(text):
    return bool(re.search(r"use Rattle\.access\.specs\.Block\.\{[^}]*\bresult\b", text)) or "abbrev pub result :" in text


def respell_antt(path, text, to):
    keep = foreign(text)
    if os.path.basename(path) == "Proof.antt":
        keep |= set(re.findall(r"(?m)^(?:abbrev |pub )*(\S+) : ", text))

    if not imports_result(text):
        keep.add("result")

    def sub(m):
        w = m.group(0)
        if w == "result" and m.string[m.start() - 1 : m.start()] == ".":
            return w
        return to[w] if w in to and w not in keep else w

    out = []
    for line in text.split("\n"):
        code, dash, comment = line, "", ""
        k = 0 if line.lstrip().startswith("--") else line.find(" -- ")
        if line.lstrip().startswith("--"):
            code, comment = "", line
        elif k > 0:
            code, comment = line[:k], line[k:]
        comment = re.sub(r"`[^`]*`", lambda m: TOKEN.sub(sub, m.group(0)), comment)
        comment = re.sub(r"\b[a-z]+[0-9a-z]*[A-Z]\w*", sub, comment)
        out.append(TOKEN.sub(sub, code) + comment)
    return "\n".join(out)


GHOST = re.compile(r"ghost use [^;]*;|(?:ensures|requires)[^{\n]*\{.*\}|ghost \w+: \{.*\}", re.S)


def respell_rt(path, text, to):
    keep = foreign(text)
    if not imports_result(text):
        keep.add("result")
    names = {n: t for n, t in to.items() if n not in keep}

    def sub(m):
        w = m.group(0)
        return names.get(w, w)

    out = []
    ghost = False
    depth = 0
    for line in text.split("\n"):
        s = line.strip()
        if s.startswith("//"):
            line = re.sub(r"`[^`]*`", lambda m: TOKEN.sub(sub, m.group(0)), line)
            line = re.sub(r"\b[a-z]+[0-9a-z]*[A-Z]\w*", sub, line)
        elif ghost or re.match(r"(ghost use|ensures|requires|ghost )", s):
            line = TOKEN.sub(sub, line)
            depth += line.count("{") - line.count("}")
            ghost = depth > 0
            if not ghost:
                depth = 0
        out.append(line)
    return "\n".join(out)


def clauses(text):
    """Clauses that port.py left because the file had a definition `result`: ensures* { λ r. ⌜ P ⌝ } is ensures { P }, with result for r."""

    def sub(m):
        body = re.sub(r"(?<![\w'.-])%s(?![\w'-])" % re.escape(m.group(3)), "result", m.group(4).strip())
        return f"{m.group(1)}{m.group(2) or ''} {{ {body} }}"

    return re.sub(r"(ensures)\*( \w+)? \{ λ (\w+)\. ⌜(.*?)⌝ \}", sub, text, flags=re.S)


def respell_edit(text, to):
    """In an edit the lines old: and new:, and names in its comment. Code of src/ has none of these names but in clauses."""
    proofs = ".antt" in "".join(re.findall(r"(?m)^file:(.*)$", text))

    def sub(m):
        w = m.group(0)
        return to[w] if w in to and (proofs or re.match(r"[a-z0-9]+[A-Z]", w)) else w

    out = []
    for line in text.split("\n"):
        if line.startswith(("old:", "new:")):
            line = line[:4] + TOKEN.sub(sub, line[4:])
        elif line.startswith("#"):
            line = re.sub(r"`[^`]*`", lambda m: TOKEN.sub(sub, m.group(0)), line)
        out.append(line)
    return "\n".join(out)


def pages():
    yield from (p for p in ("README.md", "CONTRIBUTING.md", "bench/README.md", "reference/README.md") if os.path.exists(p))
    yield from sorted(os.path.join("docs", n) for n in os.listdir("docs") if n.endswith(".md") and not n.startswith("PORT"))


def respell_page(text, to):
    """In a page what stands between backticks."""

    def sub(m):
        w = m.group(0)
        return to.get(w, w)

    return re.sub(r"`[^`\n]*`", lambda m: TOKEN.sub(sub, m.group(0)), text)


def rename_log():
    if not os.path.isdir("crates/log"):
        return
    os.rename("crates/log", "crates/log_entry")
    text = open("crates.txt", encoding="utf-8").read()
    text = re.sub(r"(?m)^(?!#)(.*)$", lambda m: re.sub(r"(?<![\w])log(?![\w])", "log_entry", m.group(0)), text)
    open("crates.txt", "w", encoding="utf-8").write(text)
    global CRATES
    CRATES = sorted(c for c in os.listdir("crates") if os.path.isdir(os.path.join("crates", c)))
    for path in files(".antt", ".rt", ".edit"):
        old = open(path, encoding="utf-8").read()
        new = old.replace("Rattle.log.", "Rattle.log_entry.")
        if path.endswith((".rt", ".edit")):
            new = re.sub(r"(?<![\w:])log::", "log_entry::", new)
        if new != old:
            open(path, "w", encoding="utf-8").write(new)
    for path in pages():
        old = open(path, encoding="utf-8").read()
        new = old.replace("crates/log/", "crates/log_entry/").replace("`crates/log`", "`crates/log_entry`")
        if new != old:
            open(path, "w", encoding="utf-8").write(new)


def main():
    found = declarations()
    to = mapping(found)
    if "--list" in sys.argv:
        for n, t in sorted(to.items()):
            print(n, t, "type" if found[n][0] else "")
        return
    for path in files(".antt"):
        old = open(path, encoding="utf-8").read()
        new = respell_antt(path, old, to)
        if new != old:
            open(path, "w", encoding="utf-8").write(new)
    for path in files(".rt"):
        old = open(path, encoding="utf-8").read()
        new = clauses(respell_rt(path, old, to))
        if new != old:
            open(path, "w", encoding="utf-8").write(new)
    for path in files(".edit"):
        old = open(path, encoding="utf-8").read()
        new = respell_edit(old, to)
        if new != old:
            open(path, "w", encoding="utf-8").write(new)
    for path in pages():
        old = open(path, encoding="utf-8").read()
        new = respell_page(old, to)
        if new != old:
            open(path, "w", encoding="utf-8").write(new)
    rename_log()


if __name__ == "__main__":
    main()
