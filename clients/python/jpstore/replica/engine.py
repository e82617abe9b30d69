"""Calls of etcd by the gateway that each member has: JSON over HTTP/1.1, to one member after another."""
import asyncio
import base64
import contextlib
import json
import re
import socket
import time
from typing import Any, AsyncGenerator, AsyncIterator, Dict, List, NamedTuple, Optional, Sequence, Tuple, Type

from ..errors import JpstoreError
from .certificates import Secure
from .errors import MustBeMadeAnew
from .reach import Reach
from .tasks import apart, started, within

__all__ = [
    "Engine", "Member", "NoAnswer", "NoSpace", "Rejected", "Trimmed", "end_of_certificates", "members_in", "packed",
    "unpacked",
]

Answer = Dict[str, Any]

# How long one member may take for an answer, in seconds, and the pauses between tries.
_TRY = 2.0
_FIRST_PAUSE, _LONGEST_PAUSE = 0.01, 0.2

# How long an alert may take, in seconds.
_ALERT = 1.0

# Longer than the head of any answer.
_MOST_HEAD = 1 << 16

# What may go wrong on the way to a member, or with what it sends.
_FAILURES = (OSError, EOFError, ValueError, asyncio.TimeoutError, asyncio.LimitOverrunError)


class NoAnswer(JpstoreError):
    """No member answered in time: they can't be reached, or there is no majority of them."""


class Rejected(JpstoreError):
    """A member refused, and another try would be refused too."""


class NoSpace(Rejected):
    """The quota of etcd is used up: it takes no entries until the log is trimmed and the alarm is disarmed."""


class Trimmed(Rejected, MustBeMadeAnew):
    """The log was trimmed after the place that is asked for."""


# The codes of gRPC that another try doesn't change: invalid argument, not found, permission denied, resource
# exhausted, out of range, unauthenticated.
_FINAL: Dict[Any, Type[Rejected]] = {3: Rejected, 5: Rejected, 7: Rejected, 8: NoSpace, 11: Trimmed, 16: Rejected}


class Member(NamedTuple):
    """Where a member of the cluster is asked."""

    host: str
    port: int
    secure: Optional[Secure] = None

    @property
    def name(self) -> str:
        """Its address."""
        return f"[{self.host}]:{self.port}" if ":" in self.host else f"{self.host}:{self.port}"


def members_in(text: str, ca: Optional[str] = None, cert: Optional[str] = None,
               key: Optional[str] = None) -> List[Member]:
    """The members of a list such as `https://a:2379,https://b:2379`; `ca`, `cert` and `key` are files for TLS."""
    found = [re.fullmatch(r"(?:(https?)://)?(?:\[([0-9A-Fa-f:.]+)\]|([^:/\[\]]+)):([0-9]{1,5})/?", word)
             for word in text.split(",")]
    if None in found:
        raise JpstoreError(f"`{text}` is not a list of members, such as https://a:2379,https://b:2379")
    secure = Secure(ca, cert, key) if any(each and each.group(1) == "https" for each in found) else None
    return [Member(each.group(2) or each.group(3), int(each.group(4)), secure if each.group(1) == "https" else None)
            for each in found if each]


def end_of_certificates(members: Sequence[Member]) -> Optional[int]:
    """When the first certificate ends by which these members are asked, in seconds since 1970."""
    return next((member.secure.end for member in members if member.secure), None)


def packed(data: bytes) -> str:
    """Bytes as a JSON text of the gateway has them."""
    return base64.b64encode(data).decode("ascii")


def unpacked(text: str) -> bytes:
    """The bytes that a JSON text of the gateway has."""
    return base64.b64decode(text)


class _Connection:
    """A connection to a member, for one request after another."""

    def __init__(self, reader: asyncio.StreamReader, writer: asyncio.StreamWriter) -> None:
        self._reader, self._writer = reader, writer
        # Somebody takes the fault by which it is lost, or Python tells it when it lets the connection go.
        self._lost = started(writer.wait_closed())

    @classmethod
    async def open(cls, member: Member) -> "_Connection":
        failed: List[OSError] = []
        for address in await _addresses_of(member.host):
            try:
                return cls(*await asyncio.open_connection(
                    address, member.port, ssl=member.secure and member.secure.context(), limit=_MOST_HEAD,
                    server_hostname=member.host if member.secure else None))
            except OSError as error:
                failed.append(error)
        raise failed[0]

    async def ask(self, path: str, body: bytes) -> Tuple[int, Dict[str, str]]:
        """Sends a request, and returns the status and the fields of the answer."""
        self._writer.write(b"POST /v3%b HTTP/1.1\r\nHost: etcd\r\nContent-Type: application/json\r\n"
                           b"Content-Length: %d\r\n\r\n" % (path.encode("ascii"), len(body)) + body)
        await self._writer.drain()
        first, *rest = (await self._reader.readuntil(b"\r\n\r\n")).decode("latin-1").split("\r\n")
        fields = {name.lower(): value.strip() for name, _, value in (line.partition(":") for line in rest)}
        return int(first.split()[1]), fields

    async def pieces(self, fields: Dict[str, str]) -> AsyncIterator[bytes]:
        """The body of an answer, piece by piece."""
        if "content-length" in fields:
            yield await self._reader.readexactly(int(fields["content-length"]))
            return
        while True:
            size = int((await self._reader.readuntil(b"\r\n")).split(b";")[0], 16)
            piece = await self._reader.readexactly(size + 2)
            if not size:
                return
            yield piece[:-2]

    async def hear(self) -> None:
        """Waits for what a member sends that wasn't asked: an alert is raised."""
        await self._reader.read(1)

    def close(self) -> None:
        self._writer.close()


async def _check_taken(member: Member) -> None:
    """Raises the alert of a member that doesn't take the certificate of this side.

    By TLS 1.3 it judges that after the handshake, and its alert is lost if it has been sent something by then.
    """
    connection = await _Connection.open(member)
    try:
        await within(_ALERT, connection.hear())
    except asyncio.TimeoutError:
        pass
    finally:
        connection.close()


async def _addresses_of(host: str) -> List[str]:
    """The addresses of a host; to look up a name may take long."""
    def look(flags: int = 0) -> List[str]:
        found = socket.getaddrinfo(host, None, type=socket.SOCK_STREAM, flags=flags)
        return [str(address[0]) for _, _, _, _, address in found]
    try:
        return look(socket.AI_NUMERICHOST)
    except OSError:
        return await apart(look)


class Engine:
    """A cluster of etcd, for one call at a time. It keeps to a member that answers, and goes to the next one else."""

    def __init__(self, members: Sequence[Member], first: int = 0, reach: Optional[Reach] = None) -> None:
        self._members, self._at = list(members), first
        self._reach = reach or Reach([member.name for member in members], False)
        self._connection: Optional[_Connection] = None

    async def call(self, path: str, body: Answer, patience: Optional[float] = None) -> Answer:
        """What a member answers; tried for this many seconds, or until one answers. `Rejected` if that is a refusal."""
        sent = json.dumps(body).encode("ascii")
        asked, pause = time.monotonic(), _FIRST_PAUSE
        while True:
            try:
                answer = await within(_TRY, self._once(path, sent))
                self._reach.answered()
                return answer
            except Rejected:
                self._reach.answered()
                raise
            except _FAILURES as error:
                self._reach.failed(self._at % len(self._members), error, asked)
                self.leave()
                if patience is not None and time.monotonic() + pause > asked + patience:
                    raise NoAnswer(self._reach.told()) from None
            await asyncio.sleep(pause)
            pause = min(_LONGEST_PAUSE, 2 * pause)

    async def _once(self, path: str, sent: bytes) -> Answer:
        is_new = self._connection is None
        if self._connection is None:
            self._connection = await _Connection.open(self._member())
        try:
            status, fields = await self._connection.ask(path, sent)
        except (ConnectionError, EOFError):
            if is_new and self._member().secure:
                await _check_taken(self._member())
            raise
        answer = _read(b"".join([piece async for piece in self._connection.pieces(fields)]))
        if status != 200:
            raise _refusal_in(answer)
        return answer

    async def stream(self, path: str, body: Answer) -> AsyncGenerator[Answer, None]:
        """The messages that a member sends as the answer, until the connection ends."""
        connection = await within(_TRY, _Connection.open(self._member()))
        try:
            asked = connection.ask(path, json.dumps(body).encode("ascii"))
            status, fields = await within(_TRY, asked)
            rest = b""
            async for piece in connection.pieces(fields):
                *lines, rest = (rest + piece).split(b"\n") if b"\n" in piece else (rest + piece,)
                for line in lines:
                    message = _read(line)
                    if status != 200 or "error" in message:
                        raise _refusal_in(message.get("error", message))
                    yield message["result"]
        finally:
            connection.close()

    def leave(self) -> None:
        """Goes to the next member."""
        self.close()
        self._at += 1

    def close(self) -> None:
        """Closes the connection."""
        if self._connection is not None:
            with contextlib.suppress(OSError, RuntimeError):
                self._connection.close()
        self._connection = None

    def _member(self) -> Member:
        return self._members[self._at % len(self._members)]


def _read(text: bytes) -> Answer:
    answer = json.loads(text)
    if not isinstance(answer, dict):
        raise ValueError("a member sent no object")
    return answer


def _refusal_in(answer: Answer) -> Exception:
    """A refusal that is final, or an error that another try may not meet."""
    told = answer.get("error") or answer.get("message") or json.dumps(answer)
    final = _FINAL.get(answer.get("code", answer.get("grpc_code")))
    # The same code says that there are too many requests, which passes.
    if final is None or final is NoSpace and "space" not in str(told):
        return OSError(str(told))
    return final(f"etcd refuses: {told}")
