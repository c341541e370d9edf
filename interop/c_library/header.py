"""docs/compare_header over the header and its changes, and the header under compilers."""

import os
import re
import shutil

from checks import expect, say
from commands import WARNINGS, run
from script import TOP


def changed_headers(header):
    """Headers with one thing changed, and what it is."""
    for found in re.finditer(r"(?:krb_status|size_t) (krb_\w+)\(([^()]*)\);", header):
        words = [word.strip() for word in re.sub(r"\s+", " ", found[2]).split(",")]

        def with_words(changed):
            return header[: found.start(2)] + ", ".join(changed) + header[found.end(2) :]

        for k in range(len(words) - 1):
            yield with_words(words[:k] + [words[k + 1], words[k]] + words[k + 2 :]), "parameters %d of %s exchanged" % (k, found[1])
        for k in range(len(words)):
            yield with_words(words[:k] + words[k + 1 :]), "parameter %d of %s left out" % (k, found[1])
            for old, new in (("const uint8_t", "uint8_t"), ("size_t", "int32_t"), ("int32_t", "uint32_t"), ("uint8_t *", "int8_t *")):
                if old in words[k]:
                    yield with_words(words[:k] + [words[k].replace(old, new, 1)] + words[k + 1 :]), "%s of %s is %s" % (words[k], found[1], new)
        pairs = [k for k in range(len(words) - 3) if re.match(r"const uint8_t \*", words[k]) and re.match(r"const uint8_t \*", words[k + 2])]
        for k in pairs:
            yield with_words(words[:k] + words[k + 2 : k + 4] + words[k : k + 2] + words[k + 4 :]), "octets %d of %s exchanged" % (k, found[1])
        yield header[: found.start()] + header[found.end() :], "%s not declared" % found[1]
        yield header[: found.end()] + "\nkrb_status krb_more(int32_t number);" + header[found.end() :], "a call more"
        yield header.replace(found[0], found[0].replace("krb_status", "size_t") if "krb_status" in found[0] else found[0].replace("size_t", "int32_t", 1)), "%s answers another type" % found[1]
    for found in re.finditer(r"(KRB_\w+) = (\d+)", header):
        yield header[: found.start(2)] + str(int(found[2]) + 1) + header[found.end(2) :], "%s is another number" % found[1]


def changed_statuses(text):
    """The refusals of the code, or the statuses of the Python package, with one number or name another, and what it is."""
    for found in re.finditer(r"(?m)^(?:    |pub const )(\w+)(?:: u32)? = (\d+)[,;]?$", text):
        yield text[: found.start(2)] + str(int(found[2]) + 100) + text[found.end(2) :], "%s is another number" % found[1]
        yield text[: found.start(1)] + found[1] + "X" + text[found.end(1) :], "%s has another name" % found[1]


def try_header(scratch):
    whole = run(os.path.join(TOP, "docs", "compare_header"))
    expect(whole.returncode == 0, "compare_header: %s" % whole.stdout)
    copy = os.path.join(scratch, "compared")
    os.makedirs(os.path.join(copy, "include"))
    os.makedirs(os.path.join(copy, "crates"))
    for crate in ("krb_c", "krb_c_client", "krb_c_negotiation", "krb_c_pages", "krb_registry"):
        os.symlink(os.path.join(TOP, "crates", crate), os.path.join(copy, "crates", crate))
    for folder in (("crates", "krb_c_calls", "src"), ("crates", "krb_c_accept", "src"), ("python", "krb")):
        shutil.copytree(os.path.join(TOP, *folder), os.path.join(copy, *folder))
    with open(os.path.join(TOP, "include", "krb.h"), encoding="utf-8") as file:
        header = file.read()
    tried = 0
    for changed, what in changed_headers(header):
        with open(os.path.join(copy, "include", "krb.h"), "w", encoding="utf-8") as file:
            file.write(changed)
        found = run(os.path.join(TOP, "docs", "compare_header"), copy)
        expect(found.returncode == 1 and "compare_header: " in found.stdout and "Traceback" not in found.stdout, "compare_header does not find: %s" % what)
        tried += 1
    with open(os.path.join(copy, "include", "krb.h"), "w", encoding="utf-8") as file:
        file.write(header)
    found = run(os.path.join(TOP, "docs", "compare_header"), copy)
    expect(found.returncode == 0, "compare_header of the copy: %s" % found.stdout)
    for place in (("crates", "krb_c_calls", "src", "call_error.rt"), ("crates", "krb_c_accept", "src", "call.rt"), ("python", "krb", "_library.py")):
        path = os.path.join(copy, *place)
        with open(path, encoding="utf-8") as file:
            text = file.read()
        for changed, what in changed_statuses(text):
            with open(path, "w", encoding="utf-8") as file:
                file.write(changed)
            found = run(os.path.join(TOP, "docs", "compare_header"), copy)
            expect(found.returncode == 1 and "compare_header: " in found.stdout and "Traceback" not in found.stdout, "compare_header does not find in %s: %s" % (place[-1], what))
            tried += 1
        with open(path, "w", encoding="utf-8") as file:
            file.write(text)
    say("compare_header: %d changes of the header and of statuses tried" % tried)
    source = os.path.join(scratch, "header.c")
    with open(source, "w", encoding="utf-8") as file:
        file.write('#include "krb.h"\nint main(void) { return krb_status_text(KRB_DONE)[0] == 0; }\n')
    for compiler in ("gcc -std=c99 -xc", "gcc -std=c11 -xc", "g++ -std=c++98 -xc++", "g++ -std=c++17 -xc++"):
        done = run(*compiler.split(), "-pedantic", *WARNINGS, "-I" + os.path.join(TOP, "include"), "-fsyntax-only", source)
        expect(done.returncode == 0, "%s: %s" % (compiler, done.stdout))
