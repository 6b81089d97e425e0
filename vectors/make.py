#!/usr/bin/env python3
"""Writes the vectors of this folder anew, each answer by `reference.py`, and none by the library.

    make.py               writes the files
    make.py --check       writes nothing, and fails if a file would change

README.md says how the inputs were chosen.
"""
import itertools
import json
import pathlib
import random
import sys

sys.dont_write_bytecode = True
import reference

HERE = pathlib.Path(__file__).resolve().parent
ROW = "data:;charset=x;base64,Y%51%3D=#x y"


def joined(*choices):
    """Each way to take one of each choice, joined."""
    return ["".join(it) for it in itertools.product(*choices)]


def beginnings(text):
    return [text[:n] for n in range(len(text) + 1)]


def with_each(text, bits):
    """The text with each bit at each place."""
    return [text[:n] + bit + text[n:] for bit in bits for n in range(len(text) + 1)]


def mixed(seed, bits, count, most, front=""):
    """`count` random texts of at most `most` bits each, from a seed."""
    rng = random.Random(seed)
    return [front + "".join(rng.choice(bits) for _ in range(rng.randrange(1, most + 1))) for _ in range(count)]


def schemes():
    yield from joined(["data", "DATA", "dAtA", "date", "dat", "datas", "data ", "d ata", "\u0434ata", ""], [":", "", ";", "::", " :"], [",x", "", ",", "x"])
    yield from with_each("data:,x", ["\t", "\n", "\r", " ", "\x0b", "\x0c", "\0", "\u00a0"])
    yield from joined(["", " ", "\0", "\x1f", "\x1f \t", "\x7f", "\u00a0", "\ufeff"], ["data:,x"], ["", " ", "\0", "\x1f\r\n", "\x7f", "\u00a0"])
    yield from ["http:,x", "blob:,x", "data//,x", "data:data:,x", "javascript:,x", "://data:,x", "data%3A,x", "%64ata:,x"]


def commas():
    yield from ("data:" + it for it in joined(["", ",", "#", "?", "a/b"], [",", "#", "?", ";", ""], [",", "#", "%2C", "%23", ""], ["", "x", ",x"]))
    yield from ["data:" + it for it in ("/,x", "//,x", "//h/p,x", "///,x", "/p?q#f,x", "?q,x", "#f,x", "a/b,c,d", ",,,", "\\,x", "a\\b,x", "..,x", "%2e%2e/,x", "a/../b,x")]


def paths():
    """Texts that a parser of other schemes resolves: an authority, a port, dot segments."""
    yield from ["data:/,a/../b", "data://a b/,x", "data://h:99999/,x", "data:/text/plain,x/../y,z", "data:/./,x", "data:/a/..,x/..", "data:/%2e%2e/text/plain,x/%2E", "data://H/TEXT,x", "data:///,a//b", "data://u:p@h/a/b,c", "data://[::1]/,x", "data:/\\,a\\..\\b"]


def headers():
    suffixes = ["base64", "BASE64", "BaSe64", "base64 ", "base 64", "base46", "base64x", "xbase64", "ba%73e64"]
    yield from ("data:" + it + ",QQ" for it in joined(["", "text/html", "text/html;charset=x", "x"], [";", "; ", ";  ", " ;", "", ";;"], suffixes))
    yield from ("data:" + it + ",QQ" for it in (";base64;", ";base64;x=y", ";base64=", ";base64=x", ";base64;base64", "base64", ";x=base64", ";x=;base64", ' ;base64', "a/b;c=\"d;base64", "a/b;c=\"d\";base64", "a/b;c=\"d\"base64", "?;base64", "?;base64 ", "?base64", "a?b;base64", ";base64?", ";base64%20", "%20;base64", ";%20base64"))


def header_types():
    types = ["text/html", "TEXT/HTML", " text/html ", "text/", "/html", "text", "text/html/x", "te xt/html", "text/ht ml", "text /html", "text/ html", "(/x", "a/{", "a/b,c", "!#$%&'*+-.^_`|~/x", "a/%62", "", ";", "\"/\""]
    parameters = ["", ";charset=utf-8", ";c=d;e", ";c=\"d e\"", ";=d", "; c = d"]
    yield from ("data:" + it + ",x" for it in joined(types, parameters))


def header_parameters():
    names = ["a", "A", "a b", "", "a%62", "\u00e9", "a\"", "!"]
    values = ["b", "B", "", " b ", "\"b\"", "\"b", "\"b\\\"c\"", "\"\"", "%62", "\u00e9", "b=c", "\"b\"c", "b\"c\"", "<b>", "b?c"]
    yield from ("data:a/b;" + name + "=" + value + ",x" for name in names for value in values)
    yield from ("data:a/b" + it + ",x" for it in (";a=1;A=2", ";a=;a=2", ";a;a=2", ";b=1;a=2", ";a=1;b=2;a=3", ";;;a=1;;", "; a=1 ; b=2 ", ";a=1 b=2", ";charset=utf-8;charset=x", ";a=\"1;b=2\";c=3", ";a=\"1\\;b=2\";c=3"))


def tokens():
    """The characters of tokens that are neither letters nor digits, without `#`, in each part of a MIME type."""
    yield from ("data:" + it.replace("*", c) + ",x" for c in "!$%&'*+-.^_`|~" for it in ("*/b", "a/*", "a/b;*=d", "a/b;c=*"))
    yield from ("data:" + it + ",x" for it in joined(["a", "a`", "`a"], ["/"], ["b", "b`c"], ["", ";c=d", ";c`=d", ";`c=d;e=f", ";c=`d`", ";c=\"`\""]))


def escapes():
    digits = ["4", "1", "a", "F", "g", "%", "", "\t", "#"]
    yield from ("data:," + it for it in joined(["%"], digits, digits, ["1", ""]))
    yield from ("data:," + "%%%02x" % n for n in (0, 9, 10, 13, 31, 32, 35, 37, 44, 63, 126, 127, 128, 195, 255))
    yield from ("data:," + it for it in ("%41%42%43", "%4142", "%25%34%31", "%2541", "a%41b%zz%4", "%%%%", "%u0041", "+%2B+", "&amp;", "%e2%82%ac", "%ff%fe", "%C3%A9", "\u00e9%C3%A9"))


def base64_bodies():
    texts = ["QQ", "QQ==", "QQ=", "Q", "QUI", "QUI=", "QUJD", "QUJD=", "QUJDQ", "Y Q", "Y%20Q", "Y%51", "%51%51%3D%3D", "Q%0AQ", "Q%0CQ", "QQ%", "QQ%3", "QQ%3D=", "QQ=%3D", "-_", "+/", "%2B%2F", "QUJD!", "QUJD%21QUJD", "QQ==QQ", "=", "==", "====", "\u00e9", "QUI=\u00e9", "QQ?", "QQ,", "QQ\t=\n=", "YR==", "YX", "//8="]
    yield from (head + text + end for head in ("data:;base64,", "data:a/b;base64,") for text in texts for end in ("", "#f"))


def spaces():
    yield from ("data:" + it for it in joined(["a/b;c=x", "a/b", ""], [" ", "  ", ""], ["?", "#", ",", ";base64,"], ["", " ", "y"], [" ,Y", ",Y", ",Y "]))
    yield from with_each("data:a/b;c=?x,y#z", [" "])


def tabs_and_newlines():
    yield from with_each("data:;base64,QQ%3D=#f", ["\t", "\n", "\r\n"])
    yield from with_each("data:a/b;c=\"d\",%41", ["\t"])
    yield from ("data:," + it for it in ("%09", "%0A", "a%09b", "a\tb\nc\rd", "%4\t\t1", "%\r\n41", "\t", "\t,x", "#\tf\n", "%\t#1"))


def non_ascii():
    letters = ["\u0080", "\u00e9", "\u00ff", "\u0100", "\u20ac", "\ud7ff", "\ufffd", "\uffff", "\U0001f600", "\U0010ffff", "e\u0301"]
    yield from (it for c in letters for it in ("data:," + c, "data:a/b;c=" + c + ",x", "data:a/b;c=\"" + c + "\",x", "data:" + c + ",x", "data:,#" + c, "data:;base64," + c, "data:a/b;c=?" + c + ",x", "data:a/b;" + c + "=d,x", c + "data:,x", "data:,x" + c))


def fragments():
    bits = ["", "a b", "`", "\"<>", "^{|}", "%", "%41", "%4", "#", "\u00e9", "\t", "?", ",", "\x7f", "\x01", "~!$&'()*+,;=:@/?", "[]\\", "'", "\0"]
    yield from (url + "#" + bit for url in ("data:,x", "data:;base64,QQ", "data:a/b?c,d") for bit in bits)
    yield from ["data:,x#a#b", "data:,x# ", "data:,x# a ", "data:,x#%20", "data:,x##", "data:;base64,!#f", "data:,%23#%23"]


def truncations():
    for text in (ROW, "data:text/html;a=\"b;c\";base64 ,QUI%3D#\u00e9"):
        yield from beginnings(text)


def long_ones():
    for unit in ("x", "%41", "%", "QUJD", "\t", " ", "\u20ac"):
        yield from ("data:," + unit * 100, "data:;base64," + unit * 100, "data:,#" + unit * 100)
    yield from ("data:a/b;c=" + "x" * 200 + ",x", "data:a/b" + ";" * 200 + ",x", "data:a/b" + "".join(";p%d=v" % n for n in range(40)) + ",x", "data:a/b;c=\"" + "\\" * 100 + ",x", "d" + "\t" * 100 + "ata:,x", "data:" + " " * 100 + ",x", "data:" + "?" * 100 + ",x", "data:;base64," + "QUJD" * 40 + "!" + "QUJD" * 40)


URL_BITS = ["%", "%4", "%41", "%2C", "%23", "\t", "\n", " ", "#", "?", ",", ";", "=", "\"", "\\", "/", "base64", ";base64", "; BASE64 ", "a", "Q", "QQ", "QUJD", "+", "!", "\x7f", "\u00e9", "\u20ac", "charset", "x/y", "<", "`", "\0"]
MIME_BITS = [";", "=", "\"", "\\", "/", " ", "\t", "\n", "\x0c", "a", "B", "z=y", ";a=1", ";A=\"", "\u00e9", "\u0100", "\x7f", "\x1f", "!", "(", ",", "charset", "\U0001f600"]
BASE64_BITS = ["QUJD", "Q", "QQ", "QQ==", "=", "==", "\n", " ", "\x0c", "\x0b", "\0", "!", "-", "_", "\u00e9", "+", "/", "z9"]


def types():
    yield from joined(["", "\t\r\n "], ["a", "A", "a b", "", "a(", "\u00e9", "!#$%&'*+-.^_`|~09"], ["/", ""], ["b", "B ", "b c", ""], ["", ";c=d"])
    yield from with_each("a/b;c=d", [" ", "\x0c", "/", "\0", "\u20ac"])


def parameters():
    yield from ("x/x;" + it for it in joined(["a", "A", "", " a", "a ", "a/"], ["=", "", "=="], ["b", "", " b ", "\u00e9", "\u0100", "\x7f", "\t"], ["", ";c=d"]))
    yield from ("x/x;" + it for it in ("a=1;A=2", "A=1;a=2", "a;a=2", "a=;a=2", "a=\u0100;a=2", "a=1;b=2;a=3", "b=1;a=2", ";;;a=1;;", "a=1 b=2", "a=\"1;b=2\";c=3", "a=\"1", "charset=utf-8;charset=x"))


def quoted():
    values = ["", "b", "b;c", "b;\u0100", "\\", "\\\\", "\\\"", "b\\c", "\u00e9", "\u0100", "\n", "\x1f", "=", " b ", "\x7f", "\t"]
    yield from ("x/x;a=" + it for it in joined(["\""], values, ["\"", "", "\"\""], ["", "y", "\u0100", " ", ";c=d", "y;c=d"]))


def base64_texts():
    yield from joined(["", "QUJD", "Q U\tJ\nD\r", "\x0c"], ["", "Q", "QQ", "QUI", "QUJD", "YR", "YWJ", "+/+/"], ["", "=", "==", " = =", "===", "===="])
    yield from beginnings("MTIzNDU2Nzg5MA==")


def base64_faults():
    yield from with_each("QUJDQQ==", ["!", "=", "Q", "\0", "-"])
    yield from (front + chr(n) for n in (*range(0, 48), 58, 64, 91, 96, 123, 127, 128, 255, 0x20AC) for front in ("QUJD",))
    yield from ("=!", "!=", "=Q!", "Q=!Q", "=Q", "==Q", "QQ=Q", "QQ==Q", "QQ==\n", "QQ==\x0b", "Q=", "Q==", "Q===", "QUI==", "=" * 5, "=" * 256, "QQ" + "=" * 258, "\x0b", "QUJD" * 17 + "!", "QUJDQ", "QUJDQUJDQ=")


def texts_of(bits, seed, count, most, front=""):
    return lambda: mixed(seed, bits, count, most, front)


SUBJECTS = {
    "url": {
        "schemes": schemes, "commas": commas, "paths": paths, "headers": headers, "header_types": header_types,
        "header_parameters": header_parameters, "tokens": tokens, "escapes": escapes, "base64_bodies": base64_bodies, "spaces": spaces,
        "tabs_and_newlines": tabs_and_newlines, "non_ascii": non_ascii, "fragments": fragments, "truncations": truncations,
        "long": long_ones, "mixed_urls": texts_of(URL_BITS, 1, 250, 12, "data:"),
        "mixed_base64_bodies": texts_of(URL_BITS + ["QUJD", "Q", "=", "%3D"] * 4, 4, 120, 9, "data:;base64,"),
    },
    "mime": {"mime_types": types, "mime_parameters": parameters, "mime_quoted": quoted, "mixed_mimes": texts_of(MIME_BITS, 2, 150, 10, "x/y")},
    "base64": {"base64_texts": base64_texts, "base64_faults": base64_faults, "mixed_base64": texts_of(BASE64_BITS, 3, 150, 9)},
}


def fault_in(text):
    """The keys of base64 that is not valid."""
    fault, byte = reference.fault_of(text)
    return {"fault": fault, **({} if byte is None else {"byte": byte}), "before": reference.complete_bytes(text).hex()}


def answer(kind, text):
    """The keys of an input beside `input`."""
    data = text.encode()
    if kind == "base64":
        return {"bytes": reference.decoded_base64(data).hex()} if reference.is_valid_base64(data) else fault_in(data)
    if kind == "mime":
        record = reference.record_of(text)
        if record is None:
            return {"refusal": "no MIME type"}
        return {"type": record[0], "subtype": record[1], "parameters": [list(it) for it in record[2]], "printed": reference.printed(record)}
    url = reference.url_of(data)
    if isinstance(url, str):
        return {"refusal": url}
    record, body, is_base64, fragment = url
    mime = {"mime": reference.printed(record)}
    if is_base64 and not reference.is_valid_base64(body):
        return {**mime, **fault_in(body)}
    body = reference.decoded_base64(body) if is_base64 else body
    return {**mime, "body": body.hex(), "fragment": None if fragment is None else fragment.decode()}


def main():
    if sys.argv[1:] not in ([], ["--check"]):
        sys.exit(__doc__)
    is_check = bool(sys.argv[1:])
    made = {HERE / kind / (name + ".json") for kind, subjects in SUBJECTS.items() for name in subjects}
    others = set(HERE.glob("*/*.json")) - made
    for path in others:
        print(f"{path.relative_to(HERE)} is of no subject")
    count, wrong = 0, len(others)
    for kind, subjects in SUBJECTS.items():
        seen = set()
        for name, texts in subjects.items():
            fresh = [it for it in dict.fromkeys(texts()) if it not in seen]
            seen.update(fresh)
            lines = [json.dumps({"input": it, **answer(kind, it)}) for it in fresh]
            path = HERE / kind / (name + ".json")
            written = "[\n" + ",\n".join(lines) + "\n]\n"
            count += len(lines)
            if not is_check:
                path.parent.mkdir(exist_ok=True)
                path.write_text(written)
            elif not path.exists() or path.read_text() != written:
                wrong += 1
                print(f"{kind}/{name}.json differs from what the reference gives")
    print(f"vectors: {count} vectors by the reference, {wrong} files differ")
    return 1 if wrong else 0


if __name__ == "__main__":
    sys.exit(main())
