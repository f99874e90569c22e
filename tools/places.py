#!/usr/bin/env python3
"""Lists the places in crates/*/src that docs/DESIGN-PASS.md counts, one section for each of its points.

usage: tools/places.py [FOLDER]     the folder of a checkout; this one where none is named

It reads text, not syntax trees: what it prints is to be read, and the page says which lines are places."""
import re
import sys
from collections import defaultdict
from pathlib import Path

ROOT = Path(sys.argv[1] if len(sys.argv) > 1 else Path(__file__).resolve().parent.parent)
FILES = sorted(ROOT.glob("crates/*/src/**/*.rt"))
TEXT = {path: path.read_text() for path in FILES}


def name(path):
    return str(path.relative_to(ROOT / "crates"))


def bare(text):
    """A text whose comments are blanked, line for line."""
    return re.sub(r"//[^\n]*", "", text)


def grep(pattern, skip=None):
    """The lines that a pattern is found in."""
    for path in FILES:
        for number, line in enumerate(bare(TEXT[path]).splitlines(), 1):
            if re.search(pattern, line) and not (skip and re.search(skip, line)):
                yield f"{name(path)}:{number}: {line.strip()}"


def functions():
    """Each function that has a body: file, line, head up to the body, body."""
    for path in FILES:
        text = bare(TEXT[path])
        for found in re.finditer(r"\bfn ([a-z_0-9]+)", text):
            at = found.end()
            # the body opens at a brace that begins a line, or that ends the line of the head
            body = re.compile(r"(^\s*\{|\{)\s*$", re.M).search(text, at)
            semicolon = re.compile(r";\s*$", re.M).search(text, at)
            if not body or (semicolon and semicolon.start() < body.start()):
                continue
            start = body.end()
            depth, end = 1, start
            while depth and end < len(text):
                depth += {"{": 1, "}": -1}.get(text[end], 0)
                end += 1
            line = text.count("\n", 0, found.start()) + 1
            yield path, line, found.group(1), text[found.start():body.start()], text[start:end - 1]


def section(title, lines):
    lines = list(lines)
    print(f"== {title}: {len(lines)}")
    for line in lines:
        print("  " + line)


def loops():
    """Loops over numbers or conditions, with whether the number indexes something in the body."""
    for path in FILES:
        text = bare(TEXT[path])
        for found in re.finditer(r"\bfor (\w+) in ([^{\n]*\.\.[^{\n]*)\{|\bwhile ([^{\n]*)\{|\bfor \(\w+, [^)]*\) in [^{\n]*enumerate\(\)[^{\n]*\{", text):
            depth, end = 1, found.end()
            while depth and end < len(text):
                depth += {"{": 1, "}": -1}.get(text[end], 0)
                end += 1
            body = text[found.end():end]
            head = " ".join(found.group(0).split())
            line = text.count("\n", 0, found.start()) + 1
            var = found.group(1)
            if var:
                wrapped = rf"(usize::from\({var}\)|{var}( as usize)?)"
                indexed = re.search(rf"\[[^\]]*\b{var}\b|byte_at\([^)]*\b{var}\b|\.(get|get_mut|nth)\({wrapped}", body)
                if indexed and var != "_":
                    yield f"{name(path)}:{line}: {head} (indexes by {var})"
            elif "enumerate" in head:
                yield f"{name(path)}:{line}: {head}"
            elif re.search(r"\+= 1;", body) or re.search(r"<", head):
                yield f"{name(path)}:{line}: {head}"


def counters():
    return grep(r"\b\w+ \+= 1;|\b(\w+) = \1\.saturating_add\((1|u\d+::from)")


def normal(body):
    """A body with each name and literal replaced by the number of its first coming."""
    seen, out = {}, []
    for token in re.findall(r'"[^"]*"|\w+|[^\w\s]', body):
        if re.fullmatch(r'\w+|"[^"]*"', token) and token not in {"if", "else", "for", "in", "match", "let", "mut", "while", "return", "self", "Some", "None", "Ok", "Err", "true", "false"}:
            out.append(f"#{seen.setdefault(token, len(seen))}")
        else:
            out.append(token)
    return " ".join(out), len(out)


def twins():
    groups = defaultdict(list)
    for path, line, fn, _, body in functions():
        form, size = normal(body)
        form = re.sub(r"(< =|> =|<|>)", "<>", form)
        form = re.sub(r"(saturating_add|saturating_sub)", "sat", form)
        if size >= 12:
            groups[form].append(f"{name(path)}:{line} {fn}")
    for group in groups.values():
        if len(group) > 1:
            yield " | ".join(group)


def repeated_clauses():
    groups = defaultdict(list)
    for path, line, fn, head, _ in functions():
        for kind, clause in re.findall(r"(requires|ensures)\*?\s*\w*\s*\{(.*)\}", head):
            groups[" ".join(clause.split())].append(f"{name(path)}:{line} {fn}")
    for clause, group in sorted(groups.items(), key=lambda item: -len(item[1])):
        if len(group) >= 3:
            yield f"{len(group)} times {{ {clause} }}: " + ", ".join(entry.split()[-1] for entry in group)


def parameters():
    groups = defaultdict(list)
    for path, line, fn, head, _ in functions():
        inner = head[head.find("("):].split("->")[0]
        params = re.findall(r"(\w+): (&?(?:mut )?[\[\]A-Za-z0-9_<>, ;&']+?)(?=,\s*\w+:|,?\s*\))", inner)
        params = [f"{p}: {t.strip()}" for p, t in params if p not in {"rt", "heap"}]
        for i, one in enumerate(params):
            for other in params[i + 1:]:
                groups[(one, other)].append(fn)
    for pair, group in sorted(groups.items(), key=lambda item: -len(item[1])):
        if len(group) >= 3:
            yield f"{len(group)} times ({pair[0]}, {pair[1]}): " + ", ".join(group)


print("# point 1")
section("enums (read for the shape of Option or Result)", grep(r"^\s*(pub(\([a-z]+\))? )?enum "))
section("results with a flag or a length beside a value", grep(r"-> .*\b(bool|usize)\)|-> \(bool,"))
section("kinds of frames as bare numbers", grep(r"0x[0-9A-F]{2}\b(?!_)|\((1|2|15), [0-9.=]+\) =>|PROGRAM: u8 = 2|put_frame\(area, \w+, [0-9]+", r"Step::|_cases/src/.*Step"))
section("refusals as bare numbers", grep(r"cause\(.*, [0-9]+, "))
print("# point 2")
section("functions that differ only in names, literals or a comparison", twins())
print("# point 3")
section("loops that index by their number, count by hand, or enumerate", loops())
section("counters", counters())
print("# point 4")
section("fields compared in the place of values", grep(r"\.0 (==|!=) [a-z_.]+\.0\b|(\w+)\.\w+ == (\w+)\.\w+ && \2\.\w+ == \3\."))
section("bytes of numbers by arithmetic", grep(r"\* 256\b|/ 256\b|% 256\b|65_536", r"ensures"))
section("numbers taken out to be printed", grep(r"let \w+ = [a-z_.]+\.0;"))
section("refusals taken apart or wrapped", grep(r"refusal\.(number|place)\(\)|Err\(refusal\) => .*Reply::Refused"))
print("# point 5")
section("clauses that stand three times or more", repeated_clauses())
section("parameters that go together three times or more", parameters())
print("# point 6")
section("arrays in structs", grep(r"^\s+(pub(\([a-z]+\))? )?\w+: \[[^\]]+; \w+\],"))
section("lengths beside buffers", grep(r"^\s+(pub(\([a-z]+\))? )?(len|length|count): (usize|u8|u16),|\[u8; \d+\], usize\)"))
print("# point 7")
section("closures and function parameters", grep(r"\bdyn \b|impl Fn|: Fn(Mut|Once)?\(|\|[a-z_&(][^|]*\| "))
print("# point 8")
answers = [path for path in ROOT.glob("crates/*/proofs/**/Answers.antt")]
print(f"== answer files: {len(answers)}, answers: {sum(len(re.findall(r'^pub ', p.read_text(), re.M)) for p in answers)}")
proofs = [path for path in ROOT.glob("crates/*/proofs/**/*.antt")]
print(f"== lines of proofs: {sum(len(p.read_text().splitlines()) for p in proofs)}")
