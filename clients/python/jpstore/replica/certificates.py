"""The files for TLS: they may be renewed while a node runs, and it is known when certificates end."""
import calendar
import os
import re
import ssl
import time
from typing import List, Optional, Tuple

from ..errors import JpstoreError
from ..wire.standard_streams import complain

__all__ = ["Secure", "warning_of"]

# How long before the end of a certificate that is said, in days of so many seconds.
_DAYS, _DAY = 30, 86_400

# The tag of a date with two digits of the year, and the one before the version in a certificate.
_SHORT_DATE, _VERSION = 0x17, 0xA0


class Secure:
    """The context for TLS by the files of an authority, of a certificate and of its key, which may be renewed."""

    def __init__(self, ca: Optional[str], cert: Optional[str], key: Optional[str]) -> None:
        self._ca, self._cert, self._key = ca, cert, key
        self._end: Optional[int] = None
        self._seen = self._times()
        try:
            self._context = self._made()
        except OSError as error:
            raise JpstoreError(f"the files for TLS cannot be used: {error}") from None

    def context(self) -> ssl.SSLContext:
        """The context of the files as they are now; of those before, if these can't be used."""
        seen = self._times()
        if seen != self._seen:
            self._seen = seen
            try:
                self._context = self._made()
            except OSError as error:
                # Perhaps some of them are still to be written.
                complain(f"the files for TLS cannot be used, and what they were before is: {error}")
        return self._context

    @property
    def end(self) -> Optional[int]:
        """When the first of its certificates ends, in seconds since 1970; None if it has none."""
        self.context()
        return self._end

    def _times(self) -> List[Optional[Tuple[int, int]]]:
        return [_time_of(path) for path in (self._ca, self._cert, self._key) if path is not None]

    def _made(self) -> ssl.SSLContext:
        made = ssl.create_default_context(cafile=self._ca)
        if self._cert is not None:
            made.load_cert_chain(self._cert, self._key)
        # A file may have the authority that is to come too, and after a certificate those that it is by.
        self._end = min([*_ends_in(self._ca)[-1:], *_ends_in(self._cert, 1)], default=None)
        return made


def _time_of(path: str) -> Optional[Tuple[int, int]]:
    """When a file was written, and its number, as another may have taken its name."""
    try:
        found = os.stat(path)
    except OSError:
        return None
    return found.st_mtime_ns, found.st_ino


def warning_of(what: str, end: Optional[int]) -> List[str]:
    """What is said of certificates of which the first ends then: nothing, as long as there is time."""
    left = None if end is None else (end - time.time()) / _DAY
    if left is None or left >= _DAYS:
        return []
    return [f"{what}: a certificate {f'ends in {left:.0f} days' if left > 0 else 'has ended'}: renew it"]


def _ends_in(path: Optional[str], most: Optional[int] = None) -> List[int]:
    """When the first certificates in a file end, the earliest first."""
    if path is None:
        return []
    with open(path, encoding="utf-8", errors="replace") as file:
        found = re.findall(f"{ssl.PEM_HEADER}.*?{ssl.PEM_FOOTER}", file.read(), re.DOTALL)
    return sorted(_end_in(ssl.PEM_cert_to_DER_cert(each)) for each in found[:most])


def _end_in(certificate: bytes) -> int:
    """When a certificate ends, whose form is that of RFC 5280, section 4.1."""
    (_, whole), = _elements(certificate)
    fields = [content for tag, content in _elements(_elements(whole)[0][1]) if tag != _VERSION]
    tag, date = _elements(fields[3])[1]
    digits = date.decode("ascii")
    if tag == _SHORT_DATE:
        digits = ("20" if digits < "5" else "19") + digits
    return calendar.timegm(time.strptime(digits, "%Y%m%d%H%M%SZ"))


def _elements(text: bytes) -> List[Tuple[int, bytes]]:
    """The tags and contents of the elements of a text in DER."""
    found, at = [], 0
    while at < len(text):
        tag, length, at = text[at], text[at + 1], at + 2
        if length & 0x80:
            size = length & 0x7F
            length, at = int.from_bytes(text[at:at + size], "big"), at + size
        found.append((tag, text[at:at + length]))
        at += length
    return found
