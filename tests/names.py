"""Finds names in the documents that the repository does not have.

    python3 tests/names.py

Each word in backticks of `README.md` and of `docs/`, in a line or in a block, has to stand in the tree: as a file or a
folder, or as a word of what is written there, comments left out; an edit of `must-fail/` also by the end of its name.
What comes from elsewhere is listed in `tests/names.txt`, a word a line. Prints each word that is missing, with its
place, and ends with status 1 where there is one.
"""
import os
import re
import subprocess
import sys

TOP = os.path.join(os.path.dirname(os.path.abspath(__file__)), "..")
# How a comment begins in files with that ending.
COMMENTS = {".rt": "//", ".rs": "//", ".c": "//", ".h": "//", ".antt": "--", ".py": "#", ".sh": "#", ".toml": "#"}
WORD = re.compile(r"[A-Za-z_][A-Za-z0-9_]*(?:-[A-Za-z0-9_]+)*")
PLACEHOLDER = re.compile(r"[A-Z]+|[a-z]")
MADE = ("bin/", "out/")
BLOCK = re.compile(r"/\*.*?\*/|\"\"\".*?\"\"\"", re.DOTALL)


def tree():
    """The files of the repository: those that git knows, and new ones."""
    listed = subprocess.run(["git", "ls-files", "--cached", "--others", "--exclude-standard"], cwd=TOP,
                            capture_output=True, check=True, text=True).stdout.split("\n")
    return [path for path in listed if path and os.path.isfile(os.path.join(TOP, path))]


def read(path):
    with open(os.path.join(TOP, path), encoding="utf-8", errors="replace") as file:
        return file.read()


def words_of(text):
    """Each name, and of one with dashes its parts, too."""
    for word in WORD.findall(text):
        yield word
        if "-" in word:
            yield from word.split("-")


def code_of(path):
    """What is written there, without comments."""
    ending = os.path.splitext(path)[1]
    text = read(path)
    if ending in (".c", ".h", ".py"):
        text = BLOCK.sub(" ", text)
    mark = COMMENTS.get(ending)
    if mark:
        text = "\n".join(line.split(mark, 1)[0] for line in text.split("\n"))
    return text


def known_words(files):
    words = set()
    for path in files:
        for part in path.split("/"):
            words.update(words_of(part))
            words.add(part.split(".")[0])
        if path.endswith(".edit"):
            parts = os.path.basename(path)[:-len(".edit")].split("-")
            words.update("-".join(parts[begin:]) for begin in range(len(parts)))
        if not path.endswith((".md", ".txt", ".svg")) or path == "crates.txt":
            words.update(words_of(code_of(path)))
    return words


def known_paths(files):
    """Each file and each folder, from any folder on, also without the file's ending."""
    paths = set()
    for path in files:
        parts = path.split("/")
        for end in range(1, len(parts) + 1):
            for begin in range(end):
                here = "/".join(parts[begin:end])
                paths.add(here)
                paths.add(os.path.splitext(here)[0])
    return paths


def spans(text):
    """What stands in backticks, with the number of its line."""
    is_block = False
    for number, line in enumerate(text.split("\n"), 1):
        if line.startswith("```"):
            is_block = not is_block
        elif is_block or line.startswith("    "):
            yield number, re.split(r" -- | // | # |/\*", line)[0]
        else:
            for span in re.findall(r"``(.+?)``|`([^`]+)`", line):
                yield number, span[0] or span[1]


def is_path(span, paths):
    """Whether the tree has the path, or none where it is no path: what a build leaves, or a name in a file, is none."""
    path = span.strip("/")
    if re.search(r"[^A-Za-z0-9_./*-]", path) or path.startswith(MADE) or not ("/" in path or "*" in path):
        return None
    if "*" in path or any(PLACEHOLDER.fullmatch(part) for part in path.split("/")):
        pattern = re.compile(re.sub(r"\\\*|\b[A-Z]+\b", "[^/]+", re.escape(path)))
        return any(pattern.fullmatch(one) for one in paths)
    return True if path in paths else None if path.rpartition(".")[0] in paths else False


def main():
    files = tree()
    documents = [path for path in files if path == "README.md" or path.startswith("docs/") and path.endswith(".md")]
    words, paths = known_words(files), known_paths(files)
    elsewhere = set(read("tests/names.txt").split())
    missing = []
    for document in documents:
        for number, span in spans(read(document)):
            found = is_path(span, paths)
            if found is not None:
                if not found:
                    missing.append("%s:%d: `%s` is no file of the tree" % (document, number, span))
                continue
            for word in WORD.findall(re.sub(r"(?<!\S)-[A-Z](?=\w)", " ", span)):
                word = re.sub(r"-[A-Z]+$", "", word)
                if word not in words and word not in elsewhere and not PLACEHOLDER.fullmatch(word):
                    missing.append("%s:%d: `%s` is not in the tree" % (document, number, word))
    for line in missing:
        print(line)
    print("%d documents, %d names missing" % (len(documents), len(missing)))
    return 1 if missing else 0


if __name__ == "__main__":
    sys.exit(main())
