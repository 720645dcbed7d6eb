"""What the programs of this folder that are written in Python share about how they are called. The text at a program's top is its help."""
import sys


def wrong(sentence):
    name = "tools/" + sys.argv[0].rsplit("/", 1)[-1]
    print(f"{name}: {sentence}; see {name} --help", file=sys.stderr)
    sys.exit(2)


def arguments(doc, names, least, most=None):
    """The words of the command line: from least to most of them, called so in a sentence that asks for them."""
    words = sys.argv[1:]
    if "--help" in words:
        print(doc.strip())
        sys.exit(0)
    for i, word in enumerate(words):
        if word.startswith("-") or (most is not None and i >= most):
            wrong(f"unknown argument '{word}'")
    if len(words) < least:
        wrong(f"{names} must be named")
    return words
