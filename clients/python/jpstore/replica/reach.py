"""Whether etcd can be reached, and what each of its members says if not."""
import asyncio
import os
import re
import ssl
import time
from typing import Dict, List, Optional

from ..wire.standard_streams import complain

__all__ = ["Reach"]

# After how many seconds without an answer that is said, and how many tries have failed then at least.
_SILENCE, _TRIES = 3.5, 2

# How soon other reasons are said, in seconds.
_AGAIN = 60.0

_REFUSED = "refused certificate"


class Reach:
    """What those who ask etcd see of it. It is said on standard error when nobody has an answer for a while, and when
    there is one again."""

    def __init__(self, members: List[str], is_said: bool) -> None:
        self._members, self._is_said = members, is_said
        self._errors: Dict[int, str] = {}
        # Since when there is no answer, how many tries have failed since, what was said of that, and when.
        self._since: Optional[float] = None
        self._failed, self._said, self._said_at = 0, "", 0.0

    def answered(self) -> None:
        """A member has answered."""
        if self._said:
            complain("etcd answers again")
        self._errors.clear()
        self._since, self._failed, self._said = None, 0, ""

    def failed(self, member: int, error: BaseException, asked: float) -> None:
        """A member did not answer what was asked at this time."""
        reason = _reason_of(error)
        # A connection that is closed may have been refused by an alert that was lost, and came for another one.
        if not (isinstance(error, (ConnectionError, EOFError)) and self._errors.get(member, "").startswith(_REFUSED)):
            self._errors[member] = reason
        self._since = asked if self._since is None else self._since
        self._failed += 1
        now = time.monotonic()
        is_due = now >= self._said_at + _AGAIN if self._said else now >= self._since + _SILENCE
        if self._is_said and is_due and self._failed >= _TRIES and self.told() != self._said:
            self._said, self._said_at = self.told(), now
            complain(self._said)

    def told(self) -> str:
        """That there is no answer, and why, by members."""
        reasons = [f"{name}: {self._errors.get(member, 'not asked yet')}" for member, name in enumerate(self._members)]
        return "etcd does not answer; " + "; ".join(reasons)


def _reason_of(error: BaseException) -> str:
    """Why a member gave no answer."""
    if isinstance(error, ssl.SSLCertVerificationError):
        return f"{_REFUSED}: that of the member is not good here: {error.verify_message}"
    if isinstance(error, ssl.SSLError):
        return _reason_of_tls(error)
    if isinstance(error, asyncio.TimeoutError):
        return "no answer in time"
    if isinstance(error, EOFError):
        return "it closes the connection"
    if isinstance(error, OSError) and error.errno is not None:
        return os.strerror(error.errno)
    return str(error) or type(error).__name__


def _reason_of_tls(error: ssl.SSLError) -> str:
    reason = getattr(error, "reason", None) or str(error)
    alert = re.search(r"ALERT_(\w*(?:CERTIFICATE|UNKNOWN_CA)\w*)", reason)
    if alert:
        return f"{_REFUSED}: it does not take that of this node: {alert.group(1).replace('_', ' ').lower()}"
    return f"TLS: {reason}"
