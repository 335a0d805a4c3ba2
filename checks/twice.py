#!/usr/bin/env python3
"""Lists what is stated in two or more places: lemmas with one statement, and definitions with one type and one body.

Reads the files of crates/*/proofs and crates/*/specs. Two statements are one if they differ only in the names and the order
of their variables, in white space, in needless parentheses, and in which arguments are implicit. A name is what the imports of its file make of it.
A definition inside a module block that is not handed on is a local name, and does not count.
Prints a block for each statement that stands twice and is not explained, and at the end `N statements stand twice`.
Ends with 1 if one of them is not explained, or if an explained one no longer stands twice.
"""
import argparse
import collections
import pathlib
import re
import sys

# What stands twice for a reason: the names of the places, sorted, as `crate/path:name`, and why. At most ten.
EXPLAINED = {
    "wf_model/specs/Grammar:Position, wf_model/specs/Run:Instance": "a position of a body and an instance of a run are two things, though both are a name and a module",
    "wf_laws/proofs/Parts:child, wf_spec/specs/GivenRows:rows_in": "the name of a child and a row of pairs are two readings of a list of lists",
    "wf_body/specs/Body:at_port, wf_laws/specs/Examples:port": "the examples have a short form of their own, which no other definition is to rest on",
    "wf_form/specs/Assembling:origin, wf_json/specs/Writing:first_port": "each says what its own reader gets where a list has no element",
    "wf_laws/proofs/SkewedGrammar:first, wf_laws/proofs/TwistingGrammar:first": "two worked runs that begin alike by chance",
    "wf_laws/proofs/SkewedGrammar:second, wf_laws/proofs/TwistingGrammar:second": "two worked runs that begin alike by chance",
    "bit_pack/proofs/Numbers:digit, wf_inbox/proofs/Times:one_if": "the digit of a bit and the one of a test are two readings of one small function, and neither crate stands on the other",
    "compare_model/specs/Routes:IsEarlier, wf_recur/specs/Loops:IsBefore": "steps are compared by production and position where loops are told and where routes are, and neither crate stands on the other",
    "compare_model/proofs/WorkedComparisons:place_no, wf_safe/specs/BodyGraph:owner_place": "the places of a body are numbered for a worked example and for the vertices of a graph, and the worked one stands on no code",
    "wf_form/proofs/Pushing:gathered_more, wf_lift/proofs/Growing:made_more": "a list that a loop makes of another one grows so where parts are formed and where a grammar is lifted, and neither crate stands on the other",
}

TOKEN = re.compile(r'"(?:[^"\\]|\\.)*"|[(){}\[\],;]|[^\s(){}\[\],;"]+')
SIGNATURE = re.compile(r"(?P<kind>(?:(?:abbrev|unfoldable|pub)\s+)*)(?P<name>[^\s(){}\[\],;:]+)\s+:\s+(?P<type>.+)\Z", re.S)
BLOCK = re.compile(r"(?:pub\s+)?(?P<kind>record|data)\s+(?P<name>\S+)\s*(?P<rest>.*)\Z", re.S)
MODULE = re.compile(r"module\s+_\s+(?P<telescope>.*?)\s+where\s*\Z", re.S)
CLOSING = {"(": ")", "{": "}", "[": "]"}
RELATIONS = {"≡", "≢", "<", "≤", "↔", "⊎", "×", "⊥", "¬", "≐"}

Item = collections.namedtuple("Item", "place line name kind handed_on telescope type body scope")


class Scope:
    """What the names of one file stand for."""

    def __init__(self, module):
        self.module = module
        self.names = {}
        self.passed_on = {}

    def import_from(self, path, listed):
        if listed is None:
            alias = path.split(" as ")
            whole = alias[0].strip()
            self.names[alias[-1].strip().split(".")[-1]] = whole
            return
        for word in listed.split(","):
            if not word.strip():
                continue
            alias = word.split(" as ")
            name = alias[0].strip()
            # The library hands many names on from several modules, so there the last part is the name.
            own = path.startswith("Rattle.") and path.split(".")[1] not in ("std", "indexmap", "serde_json", "sha2", "bumpalo", "hex", "itoa")
            self.names[alias[-1].strip()] = f"{path}.{name}" if own else name


def tokens(text):
    """The tokens of a text; the dot that ends the names after a lambda is a token of its own."""
    text = re.sub(r"¬ \(?([^()→]+?)\)?(?= →|\)|$)", r"(\1 → ⊥)", text)
    for token in TOKEN.findall(re.sub(r"\((\w+) ≢ (\w+)\)|(?<= → )(\w+) ≢ (\w+)(?= →|\)|$)", lambda m: f"({m[1] or m[3]} ≡ {m[2] or m[4]} → ⊥)", text)):
        if len(token) > 1 and token.endswith(".") and not token.startswith('"'):
            yield token[:-1]
            yield "."
        else:
            yield token


def tree(words):
    """Nested lists of tokens: a bracket is a pair of its opening and what it holds."""
    stack = [("", [])]
    for word in words:
        if word in CLOSING:
            stack.append((word, []))
        elif word in CLOSING.values():
            if len(stack) > 1:
                bracket, inner = stack.pop()
                stack[-1][1].append((bracket, inner))
        else:
            stack[-1][1].append(word)
    while len(stack) > 1:
        bracket, inner = stack.pop()
        stack[-1][1].append((bracket, inner))
    return stack[0][1]


def split(nodes, mark):
    parts = [[]]
    for node in nodes:
        if node == mark:
            parts.append([])
        else:
            parts[-1].append(node)
    return parts


def binder(node):
    """The names and the type of a bracket such as `(x y : A)`, or None."""
    if not isinstance(node, tuple) or node[0] not in "({" or ":" not in node[1]:
        return None
    at = node[1].index(":")
    names = node[1][:at]
    if not names or not all(isinstance(name, str) for name in names):
        return None
    return names, node[1][at + 1 :]


class Form:
    """Writes types and terms so that one statement has one text."""

    def __init__(self, scope, same):
        self.scope = scope
        self.same = same
        self.used = set()

    def word(self, token, bound):
        head, dot, rest = token.partition(".")
        if head in bound:
            self.used.add(bound[head])
            return f"§{bound[head]}{dot}{rest}"
        if head in self.scope.names:
            whole = self.scope.names[head] + dot + rest
            return self.same.get(whole, whole)
        return token

    def parts(self, nodes):
        """What stands before the last arrow, as pairs of names and a type (no name: a premise), and what stands behind it."""
        domains, parts = [], split(nodes, "→")
        for number, part in enumerate(parts):
            while part and binder(part[0]) and not (len(part) > 1 and part[1] == "×"):
                names, inner = binder(part[0])
                domains += [(name, inner) for name in names]
                part = part[1:]
            if number + 1 < len(parts):
                if part:
                    domains.append((None, part))
            else:
                return domains, part
        return domains, []

    def type(self, nodes, bound, depth):
        domains, last = self.parts(nodes)
        if not domains:
            return self.term(last, bound, depth)
        texts, now = [], dict(bound)
        for name, inner in domains:
            texts.append(self.type(inner, now, depth))
            if name is not None:
                now[name] = depth
            depth += 1
        return "Π[" + " → ".join(texts + [self.term(last, now, depth)]) + "]"

    def statement(self, nodes):
        """A type whose variables are listed apart, in the order in which its premises and its conclusion name them."""
        domains, last = self.parts(nodes)
        named = {name: inner for name, inner in domains if name is not None}
        if len(named) < sum(name is not None for name, _ in domains):
            return self.type(nodes, {}, 0)
        spoken = collections.Counter(word.split(".")[0] for _, inner in domains for word in flat(inner))
        spoken.update(word.split(".")[0] for word in flat(last))
        variables, order = {name for name in named if spoken[name]}, []

        def meet(words):
            for word in words:
                head = word.split(".")[0]
                if head in variables and head not in order:
                    order.append(head)
                    meet(flat(named[head]))

        premises = [inner for name, inner in domains if name not in variables]
        for inner in premises + [last]:
            meet(flat(inner))
        bound = {name: number for number, name in enumerate(order)}
        texts = [self.type(named[name], bound, len(order)) for name in order]
        texts += [self.type(inner, bound, len(order)) for inner in premises]
        return "Π[" + " → ".join(texts + [self.term(last, bound, len(order))]) + "]" if texts else self.term(last, bound, 0)

    def term(self, nodes, bound, depth):
        if len(nodes) == 1 and isinstance(nodes[0], tuple) and nodes[0][0] == "(" and not binder(nodes[0]):
            return self.bracket(nodes[0], bound, depth)
        out, at, bound = [], 0, dict(bound)
        while at < len(nodes):
            node = nodes[at]
            if node == "λ":
                at += 1
                while at < len(nodes) and nodes[at] != ".":
                    names, inner = binder(nodes[at]) or ([nodes[at]], None)
                    for name in names:
                        if isinstance(name, str):
                            bound[name] = depth
                            depth += 1
                            out.append("λ")
                    at += 1
                out.append(self.type(nodes[at + 1 :], bound, depth))
                break
            if node == "let" and at + 1 < len(nodes) and isinstance(nodes[at + 1], str):
                out.append("let")
                bound[nodes[at + 1]] = depth
                depth += 1
                at += 2
                continue
            if binder(node):
                names, inner = binder(node)
                out.append("Σ" + self.type(inner, bound, depth) * len(names))
                for name in names:
                    bound[name] = depth
                    depth += 1
            elif isinstance(node, tuple):
                out.append(self.bracket(node, bound, depth))
            else:
                out.append(self.word(node, bound))
            at += 1
        return " ".join(out)

    def bracket(self, node, bound, depth):
        bracket, inner = node
        if bracket == "(" and "," not in inner and ";" not in inner:
            text = self.type(inner, bound, depth)
            single = len(inner) == 1 or text.startswith("Π[") and text.endswith("]") and "→" in inner
            return text if single else f"({text})"
        parts = []
        for part in split([";" if node == "," else node for node in inner], ";"):
            if len(part) > 1 and isinstance(part[0], str) and part[1] in ("=", ":"):
                parts.append(f"{part[0]} {part[1]} {self.type(part[2:], bound, depth)}")
            elif part:
                parts.append(self.type(part, bound, depth))
        return bracket + ", ".join(parts) + CLOSING[bracket]


def stripped(text):
    """The text with blanks in place of comments, line by line."""
    text = re.sub(r"\{-.*?-\}", lambda found: re.sub(r"[^\n]", " ", found.group()), text, flags=re.S)
    return [re.sub(r"(^|\s)--( .*|$)", "", line).rstrip() for line in text.split("\n")]


def chunks(lines, indent):
    """Each run of lines that begins at this indent, with its number."""
    found = []
    for number, line in lines:
        if not line.strip():
            continue
        depth = len(line) - len(line.lstrip())
        if depth <= indent or not found:
            found.append((number, [(number, line)]))
        else:
            found[-1][1].append((number, line))
    return found


def joined(chunk):
    return "\n".join(line for _, line in chunk).strip()


def items_in(lines, indent, scope, place, telescope, found):
    last = None
    for number, chunk in chunks(lines, indent):
        text = joined(chunk)
        if text.startswith(("use ", "pub use ", "mod ", "pub mod ")):
            continue
        module = MODULE.match(joined([line for line in chunk if line[1].startswith(" " * (indent + 2)) is False]))
        if module:
            inner = [line for line in chunk if line[1].startswith(" " * (indent + 2))]
            items_in(inner, indent + 2, scope, place, telescope + module.group("telescope") + " ", found)
            continue
        block = BLOCK.match(text)
        if block:
            found.append(Item(place, number, block.group("name"), block.group("kind"), True, telescope, block.group("rest"), "", scope))
            last = None
            continue
        signature = SIGNATURE.match(text)
        if signature and "=" not in text.split(":")[0]:
            kind = "abbrev" if "abbrev" in signature.group("kind") else "name"
            handed_on = indent == 0 or "pub" in signature.group("kind")
            found.append(Item(place, number, signature.group("name"), kind, handed_on, telescope, signature.group("type"), "", scope))
            last = signature.group("name")
        elif last and text.split()[0] == last:
            found[-1] = found[-1]._replace(body=found[-1].body + "\n" + text)


def imports(lines, scope):
    text = "\n".join(lines)
    for found in re.finditer(r"^(pub )?use ([^\s{]+?)(?:\.\{([^}]*)\}|((?: as \S+)?))[ ]*$", text, re.M):
        passed_on, path, listed, alias = found.groups()
        before = set(scope.names)
        scope.import_from(path + (alias or ""), listed)
        if passed_on:
            scope.passed_on |= {f"{scope.module}.{name}": whole for name, whole in scope.names.items() if name not in before}


def read(root):
    found = []
    for path in sorted(root.glob("crates/*/proofs/**/*.antt")) + sorted(root.glob("crates/*/specs/**/*.antt")):
        place = path.relative_to(root / "crates")
        scope = Scope("Rattle." + ".".join(place.with_suffix("").parts))
        lines = stripped(path.read_text(encoding="utf-8"))
        imports(lines, scope)
        first = len(found)
        items_in(list(enumerate(lines, 1)), 0, scope, str(place), "", found)
        for item in found[first:]:
            scope.names.setdefault(item.name, f"{scope.module}.{item.name}")
    return found


def pattern_names(node, scope, out):
    if isinstance(node, tuple):
        for inner in node[1]:
            pattern_names(inner, scope, out)
    elif node not in scope.names and re.match(r"[a-zA-Z_αβ]", node):
        out.append(node)


def clauses(item, form):
    """The body of a definition, with the names of each clause by their order."""
    texts = []
    for clause in re.split(rf"\n(?={re.escape(item.name)}(?:\s|$))", item.body):
        if not clause.strip():
            continue
        nodes = tree(tokens(clause))
        at = nodes.index("=") if "=" in nodes else len(nodes)
        names = []
        for node in nodes[1:at]:
            pattern_names(node, item.scope, names)
        bound = {name: number for number, name in enumerate(names)}
        bound[item.name] = "self"
        texts.append(form.term(nodes[1:at], bound, len(names)) + " = " + form.type(nodes[at + 1 :], bound, len(names)))
    return " | ".join(texts)


def telescope_of(item):
    """The parts of the telescope that the item needs, as a text before its type."""
    nodes = tree(tokens(item.telescope))
    needed = {word.split(".")[0] for word in tokens(item.type + item.body)}
    kept = []
    for node in reversed(nodes):
        named = binder(node)
        if named and any(name in needed for name in named[0]):
            kept.append(node)
            needed |= {word.split(".")[0] for word in flat(named[1])}
    return list(reversed(kept))


def flat(nodes):
    for node in nodes:
        if isinstance(node, tuple):
            yield from flat(node[1])
        else:
            yield node


def is_lemma(item, nodes):
    """Whether the type is a statement: what it ends in speaks of a value, or is a relation."""
    if item.kind != "name":
        return False
    last = split(nodes, "→")[-1]
    while last and binder(last[0]) and len(last) > 1 and last[1] != "×":
        last = last[1:]
    words = [word.split(".")[0] for word in flat(last)]
    if any(word in RELATIONS for word in words):
        return True
    if words and words[0] == "Type":
        return False
    values = set()
    for part in split(nodes, "→"):
        for node in part:
            if binder(node) and binder(node)[1][:1] != ["Type"]:
                values |= set(binder(node)[0])
    return any(word in values for word in words) or bool(words) and bool(re.match(r"(Is|Are|Has|Can|All|No)[A-Z]", words[0]))


def text_of(item, same):
    """One text for each statement or definition; None for what the check makes, as the type of a goal."""
    form = Form(item.scope, same)
    if item.kind in ("record", "data"):
        head, _, fields = item.type.partition("where")
        nodes = telescope_of(item) + tree(tokens(head))
        return item.kind + form.type(nodes, {item.name: "self"}, 0) + " where " + " ".join(fields.split())
    if re.match(r"goal\.|given\.", item.type):
        return None
    nodes = telescope_of(item) + tree(tokens(item.type))
    if is_lemma(item, nodes):
        return "lemma " + form.statement(nodes)
    if not item.handed_on:
        return None
    return "definition " + form.type(nodes, {}, 0) + " := " + clauses(item, form)


def families(found):
    """The items by text. Definitions that are one count as one in what speaks of them, so this goes on until nothing changes."""
    passed_on = {}
    for item in found:
        passed_on |= item.scope.passed_on
    same = passed_on
    while True:
        by_text = collections.defaultdict(list)
        for item in found:
            text = text_of(item, same)
            if text:
                by_text[text].append(item)
        now = dict(passed_on)
        for text, items in by_text.items():
            if len(items) > 1 and not text.startswith("lemma "):
                first = f"{items[0].scope.module}.{items[0].name}"
                for item in items[1:]:
                    now[f"{item.scope.module}.{item.name}"] = first
        if now == same:
            return by_text
        same = now


def place_key(items):
    return ", ".join(sorted(f"{item.place.removesuffix('.antt')}:{item.name}" for item in items))


def main():
    parser = argparse.ArgumentParser(description=__doc__, formatter_class=argparse.RawDescriptionHelpFormatter)
    parser.add_argument("--root", default=pathlib.Path(__file__).resolve().parent.parent, type=pathlib.Path, help="the top of the repository")
    parser.add_argument("--all", action="store_true", help="list the explained ones too")
    parser.add_argument("--brief", action="store_true", help="one line for each statement: its places")
    parser.add_argument("--crate", help="only statements with a place in this crate")
    options = parser.parse_args()

    twice = [(text, items) for text, items in families(read(options.root)).items() if len(items) > 1]
    unexplained = 0
    keys = set()
    for text, items in twice:
        key = place_key(items)
        keys.add(key)
        reason = EXPLAINED.get(key)
        if reason is None:
            unexplained += 1
        if reason is not None and not options.all:
            continue
        if options.crate and not any(item.place.startswith(options.crate + "/") for item in items):
            continue
        if options.brief:
            print("  ".join(f"{item.place}:{item.line}:{item.name}" for item in items))
            continue
        print(text if len(text) < 300 else text[:300] + " ..")
        for item in items:
            print(f"    crates/{item.place}:{item.line} {item.name}")
        if reason is not None:
            print(f"    explained: {reason}")
    stale = [key for key in EXPLAINED if key not in keys]
    for key in stale:
        print(f"explained, but it does not stand twice: {key}")
    print(f"{len(twice)} statements stand twice" + (f", {len(twice) - unexplained} of them explained" if EXPLAINED else ""))
    return 1 if unexplained or stale else 0


if __name__ == "__main__":
    sys.exit(main())
