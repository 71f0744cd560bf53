"""Texts, and what else caper reads, for the tools that run it on them."""

import json
import os
import re

TOP = os.path.dirname(os.path.dirname(os.path.abspath(__file__)))


def runs_of(table):
    """The runs of a table: for each its name, its words, and its files by name."""
    with open(table, encoding="utf-8") as lines:
        for entry in map(json.loads, filter(str.strip, lines)):
            files = {}
            for name, text in entry.get("files", {}).items():
                text = text if isinstance(text, str) else "".join(part * times for part, times in text)
                files[name] = text.encode()
            yield f"{os.path.basename(table)[:-6]} {entry.get('name', '')}", entry.get("words", []), files


def texts_of(place):
    """The texts of a place, by their names."""
    if os.path.isdir(place):
        for name in sorted(os.listdir(place)):
            if name.endswith((".cap", ".jsonl")):
                yield from texts_of(f"{place}/{name}")
    elif place.endswith(".jsonl"):
        for run, _, files in runs_of(place):
            for name, text in files.items():
                yield f"{run} {name}", text
    else:
        with open(place, "rb") as file:
            yield os.path.basename(place), file.read()


def tables_of(place):
    """The tables of a place."""
    if os.path.isdir(place):
        return [f"{place}/{name}" for name in sorted(os.listdir(place)) if name.endswith(".jsonl")]
    return [place] if place.endswith(".jsonl") else []


def has_region(text):
    """Whether a text has a region type."""
    return re.search(rb"^\s*region\b", text, re.M) is not None


def region_texts(places):
    """The texts with a region type of the places and of examples/, each different text once."""
    seen = set()
    for place in [*places, f"{TOP}/examples"]:
        for name, text in texts_of(place):
            if text not in seen and has_region(text):
                seen.add(text)
                yield name, text
