"""What the standards say of a data: URL, a MIME type and base64: stage by stage, over whole texts.

It was written from docs/RULES.md and the standards, apart from the library. It is slow and short. The numbers are those of the
rules in docs/RULES.md.
"""
import re
import string

ALPHABET = (string.ascii_uppercase + string.ascii_lowercase + string.digits + "+/").encode()
BASE64_SPACES = b"\t\n\x0c\r "
MIME_SPACES = "\t\n\r "
TOKEN = re.compile(r"[A-Za-z0-9!#$%&'*+\-.^_`|~]+")
QUOTABLE = re.compile("[\t -~\u0080-\u00ff]*")
DEFAULT_RECORD = ("text", "plain", [("charset", "US-ASCII")])


# The text: rules 1 to 4.


def cleaned_text(text):
    """Returns a text without C0 controls and spaces at its ends, and without tabs and newlines."""
    return text.strip(bytes(range(33))).translate(None, b"\t\n\r")


def after_scheme(text):
    """Returns what follows `data:` in a cleaned text, or None."""
    return text[5:] if text[:5].lower() == b"data:" else None


# Front and fragment: rules 5 to 8 and 37.


def percent_encoded(text, others):
    """Returns a text with C0 controls, bytes from 127 on and some others percent-encoded."""
    return b"".join(b"%%%02X" % byte if byte < 32 or byte > 126 or byte in others else bytes([byte]) for byte in text)


def serialised(front, has_fragment):
    """Returns the path and query before the fragment, as a URL parser writes them."""
    path, mark, query = front.partition(b"?")
    written = percent_encoded(path, b"")
    if (mark or has_fragment) and written.endswith(b" "):
        written = written[:-1] + b"%20"
    return written + mark + percent_encoded(query, b' "#<>')


# The header: rules 9 to 13.


def split_header(header):
    """Returns the text of a header's MIME type, and whether the body is base64."""
    stripped = header.strip(b" ")
    suffix = re.search(rb"; *base64\Z", stripped, re.IGNORECASE)
    media = stripped[: suffix.start()] if suffix else stripped
    text = b"text/plain" + media if media.startswith(b";") else media
    return text.decode("ascii"), suffix is not None


# The body: rules 14 and 15.


def percent_decoded(text):
    return re.sub(rb"%([0-9A-Fa-f]{2})", lambda found: bytes([int(found[1], 16)]), text)


# Base64: rules 16 to 21.


def is_valid_base64(text):
    left = text.translate(None, BASE64_SPACES)
    if len(left) % 4 == 0:
        left = left[:-2] if left.endswith(b"==") else left[:-1] if left.endswith(b"=") else left
    return len(left) % 4 != 1 and all(byte in ALPHABET for byte in left)


def bytes_of(symbols):
    """Returns the bytes of symbols. Bits that are left over are dropped."""
    bits = "".join(f"{ALPHABET.index(symbol):06b}" for symbol in symbols)
    return bytes(int(bits[at : at + 8], 2) for at in range(0, len(bits) // 8 * 8, 8))


def symbols_of(text):
    return bytes(byte for byte in text if byte in ALPHABET)


def decoded_base64(text):
    """Returns the bytes of valid base64."""
    return bytes_of(symbols_of(text))


def first_fault(text):
    """Returns the place of the first byte that is unexpected or follows padding, or None."""
    found = re.search(rb"[^\t\n\x0c\r =A-Za-z0-9+/]|(?<==)[A-Za-z0-9+/]", text.translate(None, BASE64_SPACES))
    if not found:
        return None
    after = re.compile(rb"[\t\n\x0c\r ]*([^\t\n\x0c\r ])").finditer(text)
    return [it.start(1) for it in after][found.start()]


def complete_bytes(text):
    """Returns the bytes of the complete groups before the first fault, or of the whole text if it has none."""
    symbols = symbols_of(text[: first_fault(text)])
    return bytes_of(symbols[: len(symbols) // 4 * 4])


def fault_of(text):
    """Returns why base64 is not valid: the name of the fault, and the unexpected byte or None."""
    place = first_fault(text)
    if place is None:
        return ("lone symbol" if len(symbols_of(text)) % 4 == 1 else "padding"), None
    return ("symbol after padding", None) if text[place] in ALPHABET else ("unexpected symbol", text[place])


# MIME types: rules 23 to 36.


def record_of(text):
    """Returns the record of a MIME type, which is its type, its subtype and its parameters, or None."""
    text = text.strip(MIME_SPACES)
    type_, slash, rest = text.partition("/")
    subtype, semicolon, parameters = rest.partition(";")
    subtype = subtype.rstrip(MIME_SPACES)
    if not slash or not TOKEN.fullmatch(type_) or not TOKEN.fullmatch(subtype):
        return None
    return lower(type_), lower(subtype), kept_parameters(semicolon + parameters)


def lower(text):
    """Returns a text of ASCII characters in lower case."""
    return text.encode("ascii").lower().decode("ascii")


def kept_parameters(text):
    """Returns the pairs that are kept of a text that is empty or begins with `;`."""
    pairs = {}
    while text:
        name, value, text = parameter(text[1:].lstrip(MIME_SPACES))
        if TOKEN.fullmatch(name) and value is not None and QUOTABLE.fullmatch(value):
            pairs.setdefault(lower(name), value)
    return list(pairs.items())


def parameter(text):
    """Returns the name that a text begins with, its value or None, and the text from the next `;` on."""
    name, text = cut(text, "[^;=]*")
    if not text.startswith("="):
        return name, None, text
    if text.startswith('="'):
        value, text = quoted_string(text[2:])
        return name, value, cut(text, "[^;]*")[1]
    value, text = cut(text[1:], "[^;]*")
    return name, value.rstrip(MIME_SPACES) or None, text


def cut(text, pattern):
    """Splits a text after what matches at its start."""
    end = re.match(pattern, text).end()
    return text[:end], text[end:]


def quoted_string(text):
    """Returns the value of a quoted string, after its first quote, and the text after it."""
    inner, text = cut(text, r'(?:[^"\\]|\\[\s\S])*')
    value = re.sub(r"\\([\s\S])", r"\1", inner)
    return (value + "\\", "") if text == "\\" else (value, text[1:])


def printed(record):
    """Returns the text of a record."""
    type_, subtype, pairs = record
    return f"{type_}/{subtype}" + "".join(f";{name}={written(value)}" for name, value in pairs)


def written(value):
    return value if TOKEN.fullmatch(value) else '"' + re.sub(r'(["\\])', r"\\\1", value) + '"'


# The whole: Fetch Standard, section 6.


def url_of(text):
    """Returns the record, the body before base64 is decoded, whether it is base64, and the encoded fragment or None of a data: URL.
    For any other text, returns why it is none."""
    rest = after_scheme(cleaned_text(text))
    if rest is None:
        return "no scheme"
    front, mark, fragment = rest.partition(b"#")
    header, comma, encoded_body = serialised(front, bool(mark)).partition(b",")
    if not comma:
        return "no comma"
    mime_text, is_base64 = split_header(header)
    encoded_fragment = percent_encoded(fragment, b' "<>`') if mark else None
    return record_of(mime_text) or DEFAULT_RECORD, percent_decoded(encoded_body), is_base64, encoded_fragment
