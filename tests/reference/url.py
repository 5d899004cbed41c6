"""URLs as the URL Standard parses, joins and prints them, as far as schemas need it.

Left out: names of hosts that aren't ASCII, IPv4 addresses in other than four decimal numbers, and the special rules
for drive letters of `file`. An answer of none stands for what is refused.
"""
import ipaddress
import re
from dataclasses import dataclass, replace

PORTS = {"http": "80", "https": "443", "ws": "80", "wss": "443", "ftp": "21", "file": None}
FORBIDDEN = set("\0\t\n\r #/:<>?@[\\]^|")


@dataclass(frozen=True)
class Url:
    scheme: str
    authority: str | None
    path: str | tuple
    query: str | None
    fragment: str | None

    def is_opaque(self):
        return isinstance(self.path, str)

    def without_fragment(self):
        return replace(self, fragment=None)

    def text(self):
        path = self.path if self.is_opaque() else "".join("/" + it for it in self.path)
        if self.authority is not None:
            path = "//" + self.authority + path
        elif path.startswith("//"):
            path = "/." + path
        query = "" if self.query is None else "?" + self.query
        return self.scheme + ":" + path + query + ("" if self.fragment is None else "#" + self.fragment)


def escaped(text, also):
    return "".join(it if " " <= it <= "~" and it not in also else "".join(f"%{b:02X}" for b in it.encode())
                   for it in text)


def host(text, is_special):
    if text.startswith("["):
        try:
            if not text.endswith("]") or "%" in text:
                return None
            return f"[{ipaddress.IPv6Address(text[1:-1]).compressed}]"
        except ValueError:
            return None
    if not is_special:
        return None if FORBIDDEN & set(text) else escaped(text, "")
    text = re.sub("%([0-9a-fA-F]{2})", lambda it: chr(int(it[1], 16)), text).lower()
    if not text or not text.isascii() or (FORBIDDEN | {"%", "\x7f"}) & set(text) or min(text) < " ":
        return None
    last = text.rstrip(".").rsplit(".", 1)[-1]
    if last.isdigit() or re.fullmatch("0x[0-9a-f]*", last):
        try:
            return str(ipaddress.IPv4Address(text))
        except ValueError:
            return None
    return text


def authority(text, scheme):
    user, at, rest = text.rpartition("@")
    found = re.fullmatch(r"(\[[^\]]*\]|[^:\[\]]*)(?::([0-9]*))?", rest, re.S)
    if not found:
        return None
    name, port = found[1], found[2]
    if not name and (scheme in PORTS and scheme != "file" or at or port):
        return None
    name = host(name, scheme in PORTS) if name else ""
    if name is None or port and int(port) > 65535:
        return None
    port = str(int(port)) if port else ""
    if port == PORTS.get(scheme):
        port = ""
    if at:
        user = ":".join(escaped(it, ' "#<>?`{}/:;=@[\\]^|') for it in user.split(":", 1)).rstrip(":")
        name = user + "@" + name if user else name
    return name + (":" + port if port else "")


def segments(text, above, is_special):
    """The path that a text leads to from the segments above it."""
    if is_special:
        text = text.replace("\\", "/")
    path = list(above)
    parts = text.split("/")
    for i, part in enumerate(parts):
        plain = part.lower().replace("%2e", ".")
        is_last = i == len(parts) - 1
        if plain == "..":
            del path[-1:]
        if plain in (".", ".."):
            if is_last:
                path.append("")
        else:
            path.append(escaped(part, ' "#<>?`{}'))
    return tuple(path)


def parse(text, base=None):
    """The URL that a text is, joined with a base where there is one."""
    text = text.strip("".join(map(chr, range(33))))
    text = re.sub("[\t\n\r]", "", text)
    text, has_fragment, fragment = text.partition("#")
    fragment = escaped(fragment, ' "<>`') if has_fragment else None
    found = re.match(r"([A-Za-z][A-Za-z0-9+.\-]*):", text)
    scheme = found[1].lower() if found else None
    rest = text[found.end():] if found else text
    is_special = (scheme or (base.scheme if base else "")) in PORTS
    slashes = "/\\" if is_special else "/"
    if scheme and is_special and not (rest[:1] and rest[0] in slashes) and base and base.scheme == scheme:
        scheme = None
    if scheme is None:
        if base is None:
            return None
        if base.is_opaque():
            return replace(base, fragment=fragment) if not text and has_fragment else None
        scheme, is_special = base.scheme, base.scheme in PORTS
        begins = rest[:1] and rest[0] in slashes
        if not begins:
            path, has_query, query = rest.partition("?")
            query = escaped(query, ' "#<>' + "'" * is_special) if has_query else None
            if not path:
                return replace(base, query=query if has_query else base.query, fragment=fragment)
            return Url(scheme, base.authority, segments(path, base.path[:-1], is_special), query, fragment)
        inherited = base.authority
    else:
        inherited = None
        if is_special and scheme != "file":
            rest = "//" + rest.lstrip("/\\")
    rest, has_query, query = rest.partition("?")
    query = escaped(query, ' "#<>' + "'" * is_special) if has_query else None
    if len(rest) > 1 and rest[0] in slashes and rest[1] in slashes:
        end = next((i for i in range(2, len(rest)) if rest[i] in slashes), len(rest))
        inherited = authority(rest[2:end], scheme)
        if inherited is None:
            return None
        rest = rest[end:]
    elif not (rest[:1] and rest[0] in slashes):
        if is_special:
            return Url(scheme, "", segments(rest, (), True), query, fragment)
        return Url(scheme, None, escaped(rest, ""), query, fragment)
    elif is_special and inherited is None:
        inherited = ""
    path = segments(rest[1:], (), is_special) if rest or is_special else ()
    return Url(scheme, inherited, path, query, fragment)
