"""The spelling from before the port (docs/PORT.md), for tools/moved: texts of a commit from then are read as today's.

`today` brings names, primes, operators and the clauses of a contract to today's spelling; `folded` writes a text so that it does not
matter how a field is taken: behind a space of all that stands before it (then), or tight of the last word (since). What else was
spelled anew, as most words of the library, stays a difference.
"""

import re

# Of the library the words that definitions use most.
LIBRARY = {"getD": "get_or", "vec-len": "length"}
NAME = r"(?<![\w'])[A-Za-z][\w'-]*"
OPERATORS = {"if", "then", "else", "λ", "let", "in", "where", "record", "data", "→", "≡", "≢", "×", "⊎", "↔", "∷", "++", "+", "-", "*", "/", "%", "^"}
OPERATORS |= {"<", "≤", "&&", "||", "==", "=", ":", ".", ",", ";", "->", "requires", "ensures"}
TOKEN = re.compile(r'(\s*)("(?:\\.|[^"\\])*"|[(){},;]|\.[\w\'][\w\']*|[^\s(){},;."]+|\.)')


def is_older(texts):
    return any("use Rattle·" in text for text in texts)


def snake(name):
    """A name of our own; one that begins with a capital stays."""
    if name in LIBRARY or name[0].isupper():
        return LIBRARY.get(name, name)
    return re.sub(r"(?<=[a-z0-9])([A-Z])", lambda found: "_" + found[1].lower(), name.replace("-", "_"))


def today(path, text):
    text = text.replace("′", "'").replace("″", "''").replace("#[no_mangle]", "#[unsafe(no_mangle)]")
    if path.endswith(".antt"):
        text = re.sub(r"(?<![\w'])_([^\w\s(){}]+)_(?![\w'])", r"◌\1◌", text).replace("if_then_else_", "if◌then◌else◌")
    else:
        text = re.sub(r"\bfn \w+.*?(?=\n *\{\n|\Z)", lambda found: contract(found[0]), text, flags=re.S)
    return re.sub(rf'--.*|//.*|"[^"]*"|{NAME}', lambda found: found[0] if found[0][:1] in '-/"' else snake(found[0]), text)


def contract(text):
    """A signature and its clauses. Of a value that is lent to be read there is only now, of one that is lent to be changed old and new."""
    changed = set(re.findall(r"\b(\w+): &mut\b", text))
    when = lambda name, state: f"{name}.{state}" if name in changed else f"{name}.now"
    text = re.sub(r"λ [r_]\. ⌜(.*?)⌝", lambda found: re.sub(r"(?<![\w.])r(?![\w'])", "result", found[1]).strip(), text, flags=re.S)
    text = re.sub(r"⌜ ?(.*?) ?⌝", r"\1", text, flags=re.S)
    text = re.sub(r"\bnow \((\w+) \.entry\)", lambda found: when(found[1], "old"), text)
    text = re.sub(r"\bnow \((\w+) \.exit\)", lambda found: when(found[1], "new"), text)
    return re.sub(r"\bnow (\w+)\b(?!\.)", lambda found: when(found[1], "old"), text)


def folded(text):
    """A text without the brackets that only hold one word, or what stands before a field."""
    tokens = [(not space, token) for space, token in TOKEN.findall(text)]
    return group(tokens, [0])[0]


def group(tokens, at):
    """What stands up to a closing bracket, as text, and whether it is a single word, or words without an operator."""
    out, chain, pure = [], [], True

    def flush():
        if len(chain) == 1 and chain[0][1] == "words":
            out.append(chain[0][0][1:-1])
        elif chain:
            out.append(" ".join(text for text, _ in chain))
        chain.clear()

    def whole(items):
        text = " ".join(text for text, _ in items)
        return text if len(items) == 1 else f"({text})"

    while at[0] < len(tokens):
        tight, token = tokens[at[0]]
        at[0] += 1
        if token in ")}":
            break
        if token in "({":
            inner, kind = group(tokens, at)
            bracketed = f"({inner})" if token == "(" else f"{{{inner}}}"
            chain.append((inner, "word") if token == "(" and kind == "word" else (bracketed, kind if token == "(" else "word"))
        elif token.startswith(".") and len(token) > 1 and chain:
            taken = chain[-1:] if tight else chain[:]
            del chain[-len(taken) :]
            chain.append((whole(taken) + token, "word"))
        elif token in OPERATORS:
            flush()
            out.append(token)
            pure = False
        else:
            chain.append((token, "word"))
    kind = "operators" if not pure else "word" if len(chain) == 1 and chain[0][1] == "word" else "words"
    flush()
    return " ".join(out), kind
