#!/usr/bin/env python3
"""Groups of functions in crates/*/src whose bodies have one shape: the same words of the language and
the same signs, once names, numbers and texts are blanked. Tests are left out, unless --tests is given."""
import glob
import re
import sys

KEYWORDS = set(
    "as break const continue else enum false fn for if impl in let loop match mod move mut pub ref return self Self "
    "struct trait true type use where while Some None Ok Err".split()
)
TOKEN = re.compile(r'"(?:\\.|[^"\\])*"|[A-Za-z_][A-Za-z_0-9]*!?|[0-9][0-9_a-z]*|\'.\'|::|->|=>|&&|\|\||[-+*/<>=!]=|\.\.=?|\S')
START = re.compile(r"^ *(?:pub(?:\(crate\))? )?(?:const )?fn (\w+)", re.M)


def without_comments(text):
    return re.sub(r"^ *//.*$|^ *(?:ensures|requires|ghost)\b.*$|^ *#\[.*$", "", text, flags=re.M)


def body(text, at):
    """The text between the braces of the function that starts here, or None where it has no body."""
    depth = 0
    for i in range(at, len(text)):
        if text[i] in "([":
            depth += 1
        elif text[i] in ")]":
            depth -= 1
        elif text[i] == ";" and depth == 0:
            return None
        elif text[i] == "{" and depth == 0:
            break
    level = 0
    for j in range(i, len(text)):
        level += {"{": 1, "}": -1}.get(text[j], 0)
        if level == 0:
            return text[i : j + 1]
    return None


def shape(text):
    out = []
    for token in TOKEN.findall(text):
        if token[0] == '"' or token[0].isdigit():
            token = "0"
        elif token[0].isalpha() or token[0] == "_":
            token = token if token in KEYWORDS or token.endswith("!") else "x"
        out.append(token)
    return " ".join(out)


def main():
    shapes = {}
    for path in sorted(glob.glob("crates/*/src/**/*.rt", recursive=True)):
        if "tests" in path and "--tests" not in sys.argv:
            continue
        text = without_comments(open(path).read())
        for found in START.finditer(text):
            inner = body(text, found.end())
            if inner and len(TOKEN.findall(inner)) >= 8:
                shapes.setdefault(shape(inner), []).append(f"{path}: {found.group(1)}")
    groups = [names for names in shapes.values() if len(names) > 1]
    for names in groups:
        print(", ".join(names))
    print(f"{len(groups)} groups, {sum(map(len, groups))} functions")


if __name__ == "__main__":
    main()
