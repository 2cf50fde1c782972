#!/usr/bin/env python3
"""places.py [-l] [COMMIT]: how many places of each point of docs/DESIGN-PASS.md there are in crates/*/src (point 8: crates/*/proofs) at COMMIT, or in the working tree;
-l lists them. A place is a function, a type, a fact or a group of parameters; a point counts it once. Patterns find them, so a place is one to look at, no verdict."""
import collections, difflib, itertools, re, subprocess, sys

FOR_C = ("branmuslin_c", "lanes_c", "frames_c")  # their functions are the libraries' again, which tests/promises.sh asks
NUMBER = r"(number|refusal|refused|kind|fault|stop)"
NOTHING = r"\b(Refused?|Unread|Untaken|Impossible|Ragged|TooShort|Bad|Stopped|Sure)\b"  # cases for which there is no value, or no doubt
KEYWORDS = set("fn let mut if else match while loop for in return break continue as".split())


def sources(commit):
    """The text of each file below crates/ that is code or a proof."""
    git = lambda *words: subprocess.run(["git", *words], check=True, capture_output=True, text=True).stdout
    listed = git("ls-tree", "-r", "--name-only", commit, "--", "crates") if commit else git("ls-files", "--", "crates")
    for path in listed.splitlines():
        if re.fullmatch(r"crates/\w+/(src|proofs)/.*\.(rt|antt)", path):
            yield path, git("show", f"{commit}:{path}") if commit else open(path).read()


def items(path, text):
    """Each function and type of a file of code: its place, kind, signature, clauses and body."""
    text = re.sub(r"//.*|#\[.*\]", "", text)
    head = r"^( *)(?:pub(?:\(\w+\))? )?(?:extern \"C\" )?(fn|struct|enum) (\w+)(.*?)(^ *(?:requires|ensures) .*?)?\{$\n(.*?)^\1\}$"
    for _, kind, name, signature, clauses, body in re.findall(head, text, re.M | re.S):
        if path.split("/")[1] not in FOR_C:
            parameters = re.findall(r"(\w+: [^,()]+?)\s*(?=,|\)|$)", signature.rsplit("->", 1)[0], re.M) if kind == "fn" else ()
            yield {"at": f"{path[7:]}: {name}", "kind": kind, "name": name, "signature": signature, "clauses": clauses, "body": body, "parameters": set(parameters)}


def own_results(all_items):
    """1: enums of the shape of Option or Result, flags beside values, numbers for refusals and kinds."""
    for i in all_items:
        held, said = i["body"] if i["kind"] != "fn" else i["signature"], i["body"] if i["kind"] == "fn" else ""
        if i["kind"] == "enum" and re.search(NOTHING, held) and re.search(r"^\s+(?!" + NOTHING + r")\w+ ?[({]", held, re.M):
            yield i["at"], "an enum of the shape of Option or Result"
        elif re.search(NUMBER + r"s?: u8|Refused?\(u8\)", held) or i["name"] != "from" and "-> u8" in held and re.search(NUMBER, i["name"] + i["clauses"]):
            yield i["at"], "a number for a refusal or a kind"
        elif re.search(r"\b(?!given_up|walks)\w+: bool", held) and held.count(":") > 1:  # these two say something by themselves
            yield i["at"], "a flag with values beside it"
        elif re.search(r"\b(\w+\.)?" + NUMBER + r" [=!]= [A-Z\d]", said):
            yield i["at"], "a test of a number that says what happened"


def twins(all_items):
    """2: functions that are alike, or nearly, but for names, types and numbers; enums of the same shape with a case of the same name; structs that share two fields in three."""
    for i in all_items:
        i["shape"] = [w if w in KEYWORDS or not re.match(r"\w", w) else "x" for w in re.findall(r"\w+|[^\w\s]", i["signature"] + i["body"])]
    fields = lambda i: set(re.findall(r"^\s+(?:pub )?(\w+):", i["body"], re.M))
    cases = lambda i: set(re.findall(r"^\s+(\w+)", i["body"], re.M))
    for i, k in itertools.combinations([i for i in all_items if i["name"] not in ("main", "from", "fmt")], 2):
        if i["kind"] != k["kind"]:
            continue
        a, b, same_name = i["shape"], k["shape"], i["name"] == k["name"]
        if i["kind"] == "fn":
            match = difflib.SequenceMatcher(None, a, b, False)
            least = 0.8 if same_name else 0.945
            alike = min(len(a), len(b)) > (9 if same_name else 24) and abs(len(a) - len(b)) < 9 and match.quick_ratio() >= least and match.ratio() >= least
        elif i["kind"] == "enum":
            alike = a == b and bool(cases(i) & cases(k))
        else:
            alike = len(fields(i) & fields(k)) > 2 and len(fields(i) & fields(k)) * 3 >= max(len(fields(i)), len(fields(k))) * 2
        if alike:
            yield k["at"], f"as {i['at']}"


def loops(all_items):
    """3: loops that aren't a `for`, and smaller and larger ones worked out by hand."""
    for i in all_items:
        for loop in re.findall(r"\b(?:while [^{]*|loop )(?=\{)", i["body"]):
            yield i["at"], "loop: " + loop.strip()
        if re.search(r"\b(smaller|larger)\(|if ([\w.()]+) <=? ([\w.()]+) \{\s+(\w*\(?&?(mut )?\w*\[?[\w.]*\2.*\s+\} else \{\s+(\3|.*\bs\b.*|out|text|.*out.*)|\3 \} else \{ \2) ?\}", i["body"]):
            yield i["at"], "the smaller or the larger of two by hand"


def conversions(all_items):
    """4: values turned into another type, or copied field by field, by hand."""
    for i in all_items:
        body = i["body"].strip()
        if i["kind"] != "fn" or i["name"] in ("from", "try_from", "fmt"):
            continue
        if re.fullmatch(r"\w+ as \w+|if [^{]+ \{ 1 \} else \{ 0 \}", body) or re.match(r"match (?!self\b)\w+ \{\s+\w+::", body) and ";" not in body:
            yield i["at"], "a conversion by hand"
        elif len(re.findall(r"(\w+): \w+\.\1\b", body)) > 2 or re.search(r"let (\w+) = \w+\.\1;", body):
            yield i["at"], "fields copied one by one"
        elif "one_if(" in body:
            yield i["at"], "yes or no made a number by hand"


def facts(all_items):
    """5: facts and forms of promises in the clauses of three functions or more; and three parameters or more that three functions or more have."""
    used = collections.defaultdict(set)
    for i in all_items:
        for kind, clause in re.findall(r"(requires|ensures) (?:\w+ )?\{ (.*) \}", i["clauses"] or ""):
            for part in clause.split(" × ") if kind == "requires" else [re.sub(r" \(.*\)", " (..)", clause)]:
                used[f"{kind} {part.strip('() ')}"].add(i["at"])
    yield from ((part, ", ".join(sorted(where))) for part, where in used.items() if len(where) > 2 and not re.fullmatch(r"ensures result ≡ \S+ (s\.now|\(\.\.)", part))
    left = {i["at"]: set(i["parameters"]) for i in all_items}
    while True:
        groups = {frozenset(a & b) for a, b in itertools.combinations(left.values(), 2) if len(a & b) > 2}
        counted = [(n * (len(g) - 1), n, sorted(g)) for g in groups if (n := sum(g <= p for p in left.values())) > 2]
        if not counted:
            return
        group = max(counted)[2]
        yield "together: " + ", ".join(group), ", ".join(at for at, p in left.items() if set(group) <= p)
        left = {at: p - set(group) if set(group) <= p else p for at, p in left.items()}


def buffers(all_items):
    """6: a slice or an array with a length or a place beside it."""
    for i in all_items:
        held = i["body"] if i["kind"] == "struct" else i["signature"]
        if re.search(r": &?(mut )?\[\w+", held) and re.search(r"\b(n|at|to|from|kept|octets|count|size|room|place): usize", held):
            yield i["at"], "a slice with a length or a place beside it"


def switches(all_items):
    """7: a number, or a flag, that says which step to run."""
    for i in all_items:
        tests = collections.Counter(re.findall(r"\bif (?:\w+\.)?(\w+) == (?:[A-Z]\w*|b'|\d)", i["body"]))
        if any(n > 1 for n in tests.values()) or re.search(r"=> \w+\(", i["body"]) and re.search(r"^ *([A-Z_]{3,}|\d+)( \|.*)? =>", i["body"], re.M) or "[fn(" in i["body"]:
            yield i["at"], "a number chooses"


def main():
    words = [w for w in sys.argv[1:] if w != "-l"]
    texts = dict(sources(words[0] if words else None))
    all_items = [i for path, text in texts.items() if "/src/" in path for i in items(path, text)]
    for point, find in enumerate((own_results, twins, loops, conversions, facts, buffers, switches), 1):
        found = collections.defaultdict(list)
        for place, what in find(all_items):
            found[place].append(what)
        print(f"{point}  {len(found)} places  {find.__doc__[3:]}")
        for place, what in found.items() if "-l" in sys.argv else ():
            print(f"   {place}  | {'; '.join(dict.fromkeys(what))}")
    answers = {path: text.count("\n") for path, text in texts.items() if path.count("/") > 3 and path.endswith(("/Answers.antt", "/Invariants.antt"))}
    lemmas = {path: text.count("\n") for path, text in texts.items() if re.fullmatch(r"crates/\w+/proofs/\w+\.antt", path)}
    print(f"8  {len(answers)} files of answers and invariants, {sum(answers.values())} lines; {len(lemmas)} files of laws, {sum(lemmas.values())} lines")


if __name__ == "__main__":
    main()
