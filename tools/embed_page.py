#!/usr/bin/env python3
"""Write crates/page_server/src/html.rt from the files of page/: there is no `include_bytes!`.

    python3 tools/embed_page.py            writes it
    python3 tools/embed_page.py --check    ends with status 1 where it is not up to date

page/page.html has the markup, and names the style and the scripts beside it. Where it names them they are put in, the
style as one <style>, and the scripts in their order as one <script>, with an empty line between two. The page is
compressed, as it is sent: the prover reads a constant byte by byte. Beside it stands the page's content security policy,
which allows its one script and its one style by their SHA-256, and requests to where the page came from. A worker it may
make of its own text alone.

Another zlib may write other bytes of the same page. So what is checked is the page that they hold.
"""

import argparse
import base64
import gzip
import hashlib
import pathlib
import re
import sys

TOP = pathlib.Path(__file__).resolve().parent.parent
SOURCE, TARGET = TOP / "page", TOP / "crates" / "page_server" / "src" / "html.rt"
MOST_LINES = 600  # of each file of the page

# How page.html names the style, and the scripts, one behind the other.
STYLE = re.compile(r'<link rel="stylesheet" href="(\w+\.css)">\n')
SCRIPTS = re.compile(r'(?:<script src="\w+\.js"></script>\n)+')

# The widest line of the page's literal before the sign that it goes on, and what begins it, which does not count.
WIDTH, INDENT = 119, "     "
NAMED = {0: "\\0", 9: "\\t", 10: "\\n", 13: "\\r", 34: '\\"', 92: "\\\\"}  # bytes that have an escape of their own

MODULE = '''//! The page and its policy, written by tools/embed_page.py from the files of page/.

/// The page: HTML with its style and its script, as a gzip file (RFC 1952).
pub const PAGE: &[u8] = b"{page}";

/// The value of its `Content-Security-Policy` (W3C CSP Level 3): its one style and its one script by their SHA-256, and
/// requests to its own origin alone.
pub const POLICY: &str = "{policy}";
'''


def text_of(name):
    """The text of a file of the page."""
    text = (SOURCE / name).read_text(encoding="utf-8")
    if text.count("\n") > MOST_LINES:
        sys.exit(f"embed_page.py: page/{name} has more than {MOST_LINES} lines")
    if not text.endswith("\n"):
        sys.exit(f"embed_page.py: the last line of page/{name} does not end")
    return text


def put_together():
    """The page as one text of HTML, which holds each file of the page once."""
    page = text_of("page.html")
    styles, scripts = STYLE.findall(page), re.findall(r'src="(\w+\.js)"', "".join(SCRIPTS.findall(page)))
    named = sorted(styles + scripts)
    there = sorted(path.name for path in [*SOURCE.glob("*.css"), *SOURCE.glob("*.js")])
    if named != there:
        sys.exit(f"embed_page.py: page/page.html names {named}, and there are {there}")
    style, script = "".join(map(text_of, styles)), "\n".join(map(text_of, scripts))
    page = STYLE.sub(lambda _: f"<style>\n{style}</style>\n", page)
    return SCRIPTS.sub(lambda _: f"<script>\n{script}</script>\n", page)


def hash_of(page, name):
    """The source expression that allows the one element of this name."""
    texts = re.findall(f"<{name}>(.*?)</{name}>", page, re.DOTALL)
    if len(texts) != 1:
        sys.exit(f"embed_page.py: the page has {len(texts)} times <{name}>, not once")
    return "'sha256-" + base64.b64encode(hashlib.sha256(texts[0].encode()).digest()).decode() + "'"


def policy_of(page):
    """The content security policy of a page."""
    return "; ".join(["default-src 'none'", f"script-src {hash_of(page, 'script')}",
                      f"style-src {hash_of(page, 'style')}", "connect-src 'self'", "img-src data:",
                      "worker-src blob:", "frame-ancestors 'none'", "base-uri 'none'", "form-action 'none'"])


def literal_of(data):
    """What stands between the quotes of a byte string, in few lines, none of which begins with a blank of the bytes."""
    signs = "".join(map(escaped, data))
    lines = [""]
    for sign in re.findall(r"(?:\\x..|\\.|[^ ]) *", signs):
        if len(INDENT + lines[-1] + sign) > WIDTH:
            lines.append("")
        lines[-1] += sign
    return f"\\\n{INDENT}".join(["", *lines])


def escaped(byte):
    """How a byte string spells a byte."""
    if byte in NAMED:
        return NAMED[byte]
    return chr(byte) if 32 <= byte < 127 else f"\\x{byte:02x}"


def unescaped(literal):
    """The bytes of a literal as `literal_of` writes it."""
    codes = {spelled: byte for byte, spelled in NAMED.items()}
    signs = re.findall(r"\\x..|\\.|.", re.sub(r"\\\n *", "", literal))
    return bytes(codes[sign] if sign in codes else int(sign[2:], 16) if sign.startswith("\\x") else ord(sign)
                 for sign in signs)


def module_of(page):
    """The module that holds a page."""
    data = gzip.compress(page.encode(), 9, mtime=0)
    return MODULE.format(page=literal_of(data), policy=policy_of(page).replace("; ", "; \\\n     "))


def is_up_to_date(page):
    """Whether the module that is there holds this page, and its policy."""
    text = TARGET.read_text(encoding="utf-8") if TARGET.is_file() else ""
    held, = re.findall(r'PAGE: &\[u8\] = b"(.*?)";\n', text, re.DOTALL) or [""]
    try:
        rest = text.replace(held, literal_of(gzip.compress(page.encode(), 9, mtime=0)))
        return gzip.decompress(unescaped(held)) == page.encode() and rest == module_of(page)
    except (ValueError, OSError, EOFError):
        return False


def main():
    """Write the module, or check it."""
    parser = argparse.ArgumentParser(description="Write the page's module from the page.")
    parser.add_argument("--check", action="store_true", help="write nothing; status 1 where the module is another")
    words = parser.parse_args()
    page = put_together()
    if not words.check:
        TARGET.write_text(module_of(page), encoding="utf-8")
    elif not is_up_to_date(page):
        sys.exit(f"embed_page.py: {TARGET} is not up to date; run it without --check")


if __name__ == "__main__":
    main()
