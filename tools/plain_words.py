#!/usr/bin/env python3
"""Calls two words of the library by their own names, where they were brought in under others; and turns a name that an earlier script had turned half."""
import glob
import re

for path in sorted(glob.glob("crates/**/*.antt*", recursive=True) + glob.glob("crates/**/*.rt*", recursive=True)):
    if "/out/" in path:
        continue
    with open(path, encoding="utf-8") as f:
        text = was = f.read()
    for own, other in (("AllByRecursion", "All"), ("ContainsAt", "Has")):
        if f"{own} as {other}" in text:
            text = text.replace(f"{own} as {other}", own)
            text = re.sub(rf"(?<![\w'.-]){other}(?![\w'-])", own, text)
    text = re.sub(r"\bGoes_on\b", "GoesOn", text)
    if text != was:
        with open(path, "w", encoding="utf-8") as f:
            f.write(text)
