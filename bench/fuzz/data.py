"""The repository's own programs, lines and connections."""
import functools
import pathlib
import sys

BENCH = pathlib.Path(__file__).resolve().parent.parent
TOP = BENCH.parent
sys.path.append(str(BENCH))
import pages  # noqa: E402

EXAMPLES = sorted((TOP / "examples").glob("*.ol"))


@functools.cache
def rows(crate):
    """The fields of each row of a crate of tests, without the rows that try how rows are read."""
    files = [it for it in sorted((TOP / "crates" / crate / "data").glob("*.txt")) if it.stem != "forms"]
    return [fields for _, fields in pages.rows_in(files)]


def encoded(texts):
    """Each text once, as bytes."""
    return [it.encode() for it in dict.fromkeys(texts)]


def programs():
    """The texts of programs, whether they are accepted or not."""
    found = [it.read_text(encoding="utf-8") for it in sorted((TOP / "examples").rglob("*.ol"))]
    found += [it["file"] for it in rows("test_program") if it.get("file")]
    for it in rows("test_texts"):
        if it.get("of") in ("parse", "checks", "explained"):
            found.append("".join(it.get(part, "") for part in ("before", "text", "behind")).replace("^", ""))
    return encoded(found)


def lines():
    """Lines of requests, and texts that are none."""
    found = [line for it in EXAMPLES for line in it.with_suffix(".jsonl").read_text(encoding="utf-8").splitlines()]
    found += [line for it in rows("test_program") for line in it.get("input", "").split("\n")]
    found += [it["text"] for it in rows("test_texts") if it.get("of") == "texts" and "text" in it]
    return [it for it in encoded(found) if it]


def connections():
    """What connections bring, as the tests of requests have it."""
    found = [it["bytes"] for it in rows("test_outside") if it.get("of") in ("readings", "talks") and it.get("bytes")]
    found += [it[name] for it in rows("test_program") if it.get("call") == "serve" for name in "ab" if it.get(name)]
    return [it for it in encoded(found) if len(it) < 10_000]
