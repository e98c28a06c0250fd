"""Whether the files of editors/ know the words and symbols of the language, and how its texts look by them.

The words and symbols are read from the sources of the readers: the reserved ones of aioc_tokens, and those that stand only in
their place, of the crates that read bundles, rules, choreographies and traces.
"""
import json
import os
import re

from pages.shown import blocks_of_markdown
from pages.table import read

TOKENS = "crates/aioc_tokens/src/words.rt"
READERS = ("bundle_text", "rule_syntax", "dioc_syntax", "trace_syntax")
TEXTMATE = "editors/aioc.tmLanguage.json"
VIM = "editors/aioc.vim"
NAME = "[A-Za-z][A-Za-z0-9_]*"


def reserved_words():
    return set(re.findall(r'Word::\w+ => b"([A-Za-z]+)"', read(TOKENS)))


def symbols():
    text = read(TOKENS)
    lone = re.findall(r"b'(.)' => Some\(Punctuator::", text)
    pairs = re.findall(r"\(b'(.)', b'(.)'\) => Some\(Punctuator::", text)
    return set(lone) | {first + second for first, second in pairs}


def placed_words():
    """The words that are none of the reserved, and stand in a place of their own."""
    found = set()
    for crate in READERS:
        for folder, _, files in os.walk(f"crates/{crate}/src"):
            for file in files:
                text = read(f"{folder}/{file}")
                found |= set(re.findall(r'(?:\bnamed\([^()]*, |\bword_at\([^()]*, |== )b"([a-z]+)"', text))
    return found


def words_in(pattern):
    """The words that a regular expression spells out, without its classes and escapes."""
    pattern = re.sub(r"\\.|\[[^\]]*\]|\(\?[:=!<]+", " ", pattern)
    return set(re.findall("[A-Za-z]+", pattern))


# ---- TextMate

class Highlighter:
    """As much of TextMate as the grammar uses: patterns with `match`, and with `begin` and `end`, line by line."""

    def __init__(self, grammar):
        self.top = {"patterns": grammar["patterns"]}
        self.spelled = [it[key] for it in self.all_patterns(grammar["patterns"]) for key in ("match", "begin", "end") if key in it]

    def all_patterns(self, patterns):
        for it in patterns:
            yield it
            yield from self.all_patterns(it.get("patterns", []))

    def of_text(self, text):
        """The scope of each byte of a text."""
        scopes, stack = [], [self.top]
        for line in text.split("\n"):
            scopes += self.of_line(line, stack) + [None]
        return scopes[:-1]

    def of_line(self, line, stack):
        scopes, at = [None] * len(line), 0
        while at <= len(line):
            best, rule, kind = None, None, None
            ending = [(stack[-1], "end")] if "end" in stack[-1] else []
            for it, key in ending + [(it, "match" if "match" in it else "begin") for it in stack[-1]["patterns"]]:
                found = re.compile(it[key]).search(line, at)
                if found and (best is None or found.start() < best.start()):
                    best, rule, kind = found, it, key
            if best is None:
                break
            self.paint(scopes, best, rule.get("name") if kind == "match" else None,
                       rule.get({"match": "captures", "begin": "beginCaptures", "end": "endCaptures"}[kind], {}))
            if kind == "begin":
                stack.append(rule)
            elif kind == "end":
                stack.pop()
            at = max(best.end(), at + 1 if kind == "match" and best.end() == best.start() else at)
        return scopes

    @staticmethod
    def paint(scopes, found, name, captures):
        if name:
            scopes[found.start():found.end()] = [name] * (found.end() - found.start())
        for number, it in captures.items():
            start, end = found.span(int(number))
            scopes[max(start, 0):max(end, 0)] = [it["name"]] * (end - start)


def lexemes(text):
    """The tokens and comments of a text, each with where it begins."""
    pattern = rf'//[^\n]*|{NAME}|[0-9]+|"(?:[^"\\]|\\.)*"|->|==|!=|<=|>=|\+\+|\S'
    return [(it.group(), it.start()) for it in re.finditer(pattern, text)]


def wanted_scope(tokens, at, reserved):
    """How the scope of a token begins, by the tokens around it."""
    def token(place):
        return tokens[place][0] if 0 <= place < len(tokens) else ""
    word = token(at)
    if word.startswith("//"):
        return "comment."
    if word.startswith('"'):
        return "string."
    if word.isdigit():
        return "constant.numeric."
    if word in reserved:
        return ("keyword.", "constant.language.", "variable.language.")
    if token(at - 1) in ("@", "->") or (token(at + 1) == "->" and token(at - 1) in ("put", "take")):
        return "entity.name.type.role."
    if token(at + 1) == "(" and token(at - 1) == ":":
        return "entity.name.type.role."
    if re.fullmatch(NAME, word):
        return ("variable.", "entity.", "keyword.other.")
    return ("keyword.operator.", "punctuation.", "constant.numeric.", "keyword.other.tag.")


def check_texts(highlighter, reserved):
    """Each token of the examples, and of the bundles on the pages, is seen as what it is."""
    texts = [(f"examples/{it}", read(f"examples/{it}")) for it in sorted(os.listdir("examples"))]
    for page in ("docs/LANGUAGE.md", "docs/TUTORIAL.md", "docs/REFUSALS.md"):
        texts += [(f"{page}, line {number}", "\n".join(lines)) for number, kind, lines in blocks_of_markdown(read(page))
                  if kind[:1] == ["aioc"] and not {"quotes.aioc", "reserved.aioc"} & set(kind)]
    for where, text in texts:
        scopes, tokens = highlighter.of_text(text), lexemes(text)
        for at, (token, start) in enumerate(tokens):
            seen = set(scopes[start:start + len(token)])
            if len(seen) != 1 or not str(seen.pop()).startswith(wanted_scope(tokens, at, reserved)):
                yield f"{where}: {TEXTMATE} takes `{token}` at byte {start} for {scopes[start]}"
                break


def check_textmate(reserved, placed):
    highlighter = Highlighter(json.loads(read(TEXTMATE)))
    known = set().union(*map(words_in, highlighter.spelled))
    yield from compared(TEXTMATE, known, reserved | placed)
    for word in sorted(reserved):
        scope = set(highlighter.of_text(word))
        if len(scope) != 1 or not scope.pop().startswith(("keyword.", "constant.language.", "variable.language.")):
            yield f"{TEXTMATE}: the reserved word `{word}` is taken for something else"
    for symbol in sorted(symbols()):
        scope = set(highlighter.of_text(symbol))
        longest = [it for it in highlighter.spelled if re.match(it, symbol) and re.match(it, symbol).end() == len(symbol)]
        if not longest or len(scope) != 1 or not scope.pop().startswith(("keyword.operator.", "punctuation.")):
            yield f"{TEXTMATE}: the symbol `{symbol}` is taken for something else"
    yield from check_texts(highlighter, reserved)


# ---- Vim

def check_vim(reserved, placed):
    keywords, spelled, literal = set(), [], set()
    for line in read(VIM).split("\n"):
        keyword = re.fullmatch(r"syn keyword \w+ (.+)", line)
        match = re.fullmatch(r'syn match \w+ (["+])(.*)\1', line)
        if keyword:
            keywords |= set(keyword[1].split())
        elif match and match[2].startswith("\\V"):
            literal.add(match[2][2:])
        elif match:
            spelled.append(re.sub(r"\\(ze|@<=|%\(|[<>(){}|+?=])", " ", match[2]))
    yield from compared(f"{VIM}, `syn keyword`", keywords, reserved)
    others = set().union(*map(words_in, spelled))
    yield from compared(f"{VIM}, `syn match`", others - reserved, placed)
    yield from compared(f"{VIM}, symbols", literal, symbols())


def compared(where, known, wanted):
    for it in sorted(wanted - known):
        yield f"{where}: `{it}` is missing"
    for it in sorted(known - wanted):
        yield f"{where}: the language has no `{it}`"


def check_editors():
    reserved, placed = reserved_words(), placed_words()
    if len(reserved) < 2 or len(placed) < 2 or len(symbols()) < 2:
        return [f"the words and symbols can't be read from {TOKENS} and the readers"]
    return [*check_textmate(reserved, placed), *check_vim(reserved, placed)]
