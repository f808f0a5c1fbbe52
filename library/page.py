#!/usr/bin/env python3
"""Writes the page with the program in it: the viewer's files, the module, the examples, and the edit box, as a folder that opens from the
file system and makes no request.

    library/page.py [FOLDER]    the folder is library/out/page, unless another is named

It takes library/out/fedcm.wasm, which `library/build wasm` makes."""
import base64
import glob
import gzip
import json
import os
import shutil
import sys

HERE = os.path.dirname(os.path.abspath(__file__))
TOP = os.path.dirname(HERE)
MODULE = os.path.join(HERE, "out", "fedcm.wasm")
OWN = ("runner.js", "edit.js", "edit.css")
DRAWN = (["run"], ["twin"], ["audit"], ["compare"])


def read(path):
    with open(path, encoding="utf-8") as file:
        return file.read()


def write(path, text):
    with open(path, "w", encoding="utf-8") as file:
        file.write(text)


def examples():
    """The scripts of the examples, by their names; those of `check` and `make` draw nothing."""
    found = {}
    for path in sorted(glob.glob(os.path.join(TOP, "examples", "*.jsonl"))):
        name = os.path.basename(path)[: -len(".jsonl")]
        words = os.path.join(TOP, "examples", name + ".words")
        if not name.endswith(".out") and (read(words).split() if os.path.exists(words) else ["run"]) in DRAWN:
            found[name] = read(path)
    return found


def put(text, before, added):
    """The text with something added before a part that stands in it once."""
    if text.count(before) != 1:
        sys.exit(f"library/page.py: viewer/index.html has {before!r} {text.count(before)} times, and not once")
    return text.replace(before, added + before)


def index():
    text = read(os.path.join(TOP, "viewer", "index.html"))
    text = put(text, "; style-src", " 'wasm-unsafe-eval'")
    text = put(text, "</head>", '<link rel="stylesheet" href="edit.css">\n')
    text = put(text, '<p id="said"', read(os.path.join(HERE, "page", "edit.html")))
    scripts = ("module.js", "scripts.js", "runner.js", "edit.js")
    return put(text, "</body>", "".join(f'<script src="{name}"></script>\n' for name in scripts))


def main():
    folder = sys.argv[1] if len(sys.argv) > 1 else os.path.join(HERE, "out", "page")
    if not os.path.exists(MODULE):
        sys.exit("library/page.py: there is no library/out/fedcm.wasm; 'library/build wasm' makes it")
    os.makedirs(folder, exist_ok=True)
    for path in glob.glob(os.path.join(TOP, "viewer", "*.js")) + [os.path.join(TOP, "viewer", "style.css")]:
        shutil.copy(path, folder)
    for name in OWN:
        shutil.copy(os.path.join(HERE, "page", name), folder)
    with open(MODULE, "rb") as file:
        packed = base64.b64encode(gzip.compress(file.read(), mtime=0)).decode()
    write(os.path.join(folder, "module.js"), f"globalThis.FEDCM_MODULE = '{packed}';\n")
    write(os.path.join(folder, "scripts.js"), f"globalThis.FEDCM_EXAMPLES = {json.dumps(examples())};\n")
    write(os.path.join(folder, "index.html"), index())
    print(os.path.join(folder, "index.html"))


main()
