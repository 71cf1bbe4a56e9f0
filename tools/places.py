"""Lists the places of crates/*/src that could wear a newer form of the language, point by point.

python3 tools/places.py [POINT] [--twin TOKENS]: every place as file:line with what it is, then the counts.
It reads the sources as text: a row is a place to look at, and a form that no row names may still be there.
"""
import difflib, itertools, pathlib, re, sys
from collections import defaultdict

# how alike the texts of twins are, names and numbers aside
ALIKE = 0.9
TOP = pathlib.Path(__file__).resolve().parent.parent
WORD = re.compile(r"[A-Za-z_][A-Za-z_0-9]*|0x[0-9A-Fa-f_]+|[0-9][0-9_]*[a-z0-9]*|\"[^\"]*\"|'[^']'|[^\s]")
KEYS = set("fn let mut for in while if else match return impl struct enum pub crate self Self ref move as where const type "
           "true false Some None Ok Err requires ensures ghost use mod loop break continue".split())


def sources():
    for path in sorted(TOP.glob("crates/*/src/**/*.rt")):
        yield path.relative_to(TOP), path.read_text().split("\n")


def bare(line):
    return re.sub(r"//.*", "", line)


def code():
    """each line without its comment, with its file and number"""
    for path, lines in sources():
        for k, line in enumerate(lines):
            yield path, k + 1, bare(line)


def items(lines, word):
    """each `word` item: its first line and the text to its closing brace"""
    for start, line in enumerate(lines):
        if not re.match(r"\s*(pub(\([a-z]+\))? )?(final |const |unsafe )*" + word + r" ", line):
            continue
        depth, seen, text = 0, False, []
        for k in range(start, len(lines)):
            text.append(bare(lines[k]))
            depth += bare(lines[k]).count("{") - bare(lines[k]).count("}")
            seen = seen or "{" in lines[k]
            last = bare(lines[k]).rstrip()
            # a contract's lines open and close their braces: the body's brace stands alone or ends the line
            if seen and depth == 0 and last.endswith(("}", "{}")) and not re.match(r"\s*(requires|ensures|ghost)", last):
                break
            if not seen and last.endswith(";"):
                break
            if seen and depth == 0 and last.endswith(";"):
                break
        yield start + 1, "\n".join(text)


def name_of(text, word):
    return re.search(word + r"\s+(\w+)", text).group(1)


def shape(text):
    """the text with names and numbers blotted out"""
    out = []
    for w in WORD.findall(text):
        if w in KEYS:
            out.append(w)
        elif re.match(r"[A-Za-z_]", w):
            out.append("i")
        elif re.match(r"[0-9\"']", w):
            out.append("n")
        else:
            out.append(w)
    return " ".join(out)


def clauses(text):
    return re.findall(r"(?:requires|ensures)\*?\s*(?:\w+\s*)?\{(.*?)\}\s*$", text, re.M)


def point1():
    for path, lines in sources():
        for at, text in items(lines, "enum"):
            body = text[text.index("{") + 1:text.rindex("}")]
            variants = [v.strip() for v in re.split(r",(?![^({]*[)}])", re.sub(r"#\[.*?\]", "", body)) if v.strip()]
            held = [len(re.findall(r"[\w>\])]\s*(?:,|\)|$)", v[v.index("("):])) if "(" in v else 0 for v in variants]
            if len(variants) == 2 and sorted(held) in ([0, 1], [1, 1]):
                yield path, at, "enum of the shape of Option or Result: " + name_of(text, "enum")
        for at, text in items(lines, "fn"):
            head = text.split("{")[0].split("ensures")[0]
            if re.search(r"->\s*(?:\w+<)?\(.*\bbool\b.*\)", head):
                yield path, at, "flag beside a value: " + name_of(text, "fn")
            if re.search(r"fn \w*(number|code|kind)\w*\(&?self\) -> u", head):
                yield path, at, "number for a kind or a refusal: " + name_of(text, "fn")
        for at, text in items(lines, "struct"):
            if re.search(r":\s*bool,", text) and text.count(",") > 1:
                yield path, at, "flag beside a value: " + name_of(text, "struct")
        for k, line in enumerate(lines):
            if re.search(r"Result<Result<|Option<Option<", line):
                yield path, k + 1, "nested Result or Option"


def point2(least):
    found = []
    for path, lines in sources():
        for word in ("fn", "struct", "enum", "trait"):
            for at, text in items(lines, word):
                words = shape(text).split()
                if len(words) >= least:
                    found.append((word, path, at, name_of(text, word), words))
    for k, (word, path, at, name, words) in enumerate(found):
        for other in found[k + 1:]:
            if other[0] != word or not 0.8 < len(words) / len(other[4]) < 1.25:
                continue
            match = difflib.SequenceMatcher(None, words, other[4], autojunk=False)
            if match.quick_ratio() >= ALIKE and match.ratio() >= ALIKE:
                yield path, at, f"twins {word} {name} and {other[3]} of {other[1]}:{other[2]}"


def point3():
    for path, at, line in code():
        if re.match(r"\s*while ", line):
            yield path, at, "while: " + line.strip()
        if re.match(r"\s*for \w+ in [^{]*\.\.", line):
            yield path, at, "for over numbers: " + line.strip()
        if ".enumerate()" in line and re.match(r"\s*for ", line):
            yield path, at, "for with its index: " + line.strip()
        if re.match(r"\s*\w+ \+= 1;", line):
            yield path, at, "counter: " + line.strip()


def point4():
    for path, at, line in code():
        m = re.search(r"impl(?:<.*?>)? (?:fmt::)?(PartialEq|Eq|PartialOrd|Ord|Clone|Copy|Default|Debug|Hash) for (\w+)", line)
        if m:
            yield path, at, f"{m.group(1)} by hand: {m.group(2)}"
    for path, lines in sources():
        for at, text in items(lines, "fn"):
            head = text.split("{")[0]
            name = name_of(text, "fn")
            if re.search(r"fn (new|from_\w+|to_\w+)\(\w+: [\w&\[\]]+\) -> (Result|Option)<", head):
                yield path, at, "conversion by hand: " + name
            if re.search(r"fn \w+\(self\) -> u\d+", head) and not name.startswith("fmt"):
                yield path, at, "conversion or view by hand: " + name
            if "fn unpack(" in head or "fn pack(" in head or "fn digit(" in head:
                yield path, at, "conversion by hand: " + name
            if re.search(r"-> Result<String", head) or re.search(r"text: &mut String", head):
                yield path, at, "printing by hand: " + name


def point5():
    facts, uses = defaultdict(set), defaultdict(set)
    for path, lines in sources():
        for at, text in items(lines, "fn"):
            name = name_of(text, "fn")
            for fact in set(re.sub(r"\.(old|new|now)\b", "", c).strip() for c in clauses(text)):
                facts[fact].add((path, at, name))
            head = text[re.search(r"fn \w+(?:<[^(]*>)?", text).end():]
            head = re.split(r"\)\s*(?:->|where|requires|ensures|\{|;|$)", head, maxsplit=1)[0]
            for given in re.findall(r"(\w+): ([^,()]+)", head):
                if given[0] not in ("heap", "rt"):
                    uses[(given[0], given[1].strip())].add((path, at, name))
    for fact, places in sorted(facts.items()):
        if len(places) >= 3:
            path, at, _ = min(places, key=str)
            yield path, at, f"fact of {len(places)} contracts, {{ {fact} }}: " + ", ".join(sorted({n for _, _, n in places}))
    for a, b in itertools.combinations(sorted(uses), 2):
        both = uses[a] & uses[b]
        if len(both) >= 3 and 4 * len(both) >= 3 * min(len(uses[a]), len(uses[b])):
            path, at, _ = min(both, key=str)
            yield path, at, f"{a[0]}: {a[1]} beside {b[0]}: {b[1]} in {len(both)} of {len(uses[a] | uses[b])} functions: " + ", ".join(sorted({n for _, _, n in both}))


def point6():
    for path, lines in sources():
        for at, text in items(lines, "struct"):
            if re.search(r":\s*\[[^;\]]+;\s*\w+\]", text) and re.search(r":\s*usize", text):
                yield path, at, "array with numbers beside it: " + name_of(text, "struct")
            if len(re.findall(r":\s*(?:Vec<|\[)", text)) > 1:
                yield path, at, "parallel arrays: " + name_of(text, "struct")
            if re.search(r"\b(next|parent|left|right|index):\s*(?:Option<)?usize", text):
                yield path, at, "arena of indices: " + name_of(text, "struct")
        for at, text in items(lines, "fn"):
            head = text.split("{")[0]
            if re.search(r"\b(n|len|count|rows): usize", head) and re.search(r"&(mut )?self|&(mut )?\[", head):
                yield path, at, "length handed beside what has it: " + name_of(text, "fn")
    for path, at, line in code():
        if re.search(r"binary_search|\.sort|Box<|Box::new", line):
            yield path, at, "sorting, searching or boxing: " + line.strip()


def point7():
    for path, at, line in code():
        if re.search(r"\bdyn |: fn\(|\[fn\(|Box<dyn", line):
            yield path, at, "function value: " + line.strip()
    for path, lines in sources():
        for at, text in items(lines, "enum"):
            if re.search(r"\b(Call|Step|Op|Command|Action|Mode)\b", text.split("{")[0]):
                yield path, at, "enum of steps: " + name_of(text, "enum")
        for at, text in items(lines, "fn"):
            arms = re.findall(r"=>\s*(?:Ok\()*(?:Ok\()*\w+(?:\.|::)?\w*\(", text)
            if len(arms) >= 4:
                yield path, at, "switch over steps: " + name_of(text, "fn")


def point8():
    for path in sorted(TOP.glob("crates/*/proofs/**/*.antt")):
        text = path.read_text()
        n = len(re.findall(r"^(?:pub )?[\w'-]+ :", text, re.M)) if path.name not in ("Answers.antt", "Invariants.antt") else 0
        a = len(re.findall(r"^(?:abbrev )?pub [\w'-]+ : goal\.", text, re.M))
        if path.name in ("Answers.antt", "Invariants.antt"):
            yield path.relative_to(TOP), a, "answers"
        elif path.name != "Lib.antt":
            yield path.relative_to(TOP), n, "lemmas"


def main():
    args = sys.argv[1:]
    least = 24
    if "--twin" in args:
        k = args.index("--twin")
        least = int(args[k + 1])
        del args[k:k + 2]
    points = {1: point1, 2: lambda: point2(least), 3: point3, 4: point4, 5: point5, 6: point6, 7: point7}
    totals = []
    for p, find in points.items():
        if args and str(p) not in args:
            continue
        found = sorted(set(find()), key=str)
        for path, at, what in found:
            print(f"{p}  {path}:{at}  {what}")
        totals.append((p, f"{len(found)} rows"))
    if not args or "8" in args:
        rows = list(point8())
        answers = sum(n for _, n, w in rows if w == "answers")
        lemmas = sum(n for _, n, w in rows if w == "lemmas")
        size = sum(len((TOP / path).read_text().split("\n")) - 1 for path, _, _ in rows)
        totals.append((8, f"{answers} answers and {lemmas} lemmas, {size} lines of proofs"))
    for p, n in totals:
        print(f"point {p}: {n}")


main()
