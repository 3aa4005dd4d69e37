"""Who may do what: tokens with roles. A file keeps their hashes, a line for each; it may change while the desk runs."""

from __future__ import annotations

import hashlib
import json
import os
import pathlib
import secrets
import sys
from dataclasses import asdict, dataclass
from typing import Dict, List, Mapping, Optional, Tuple

from ridepool.desk import log
from ridepool.desk.folder import write_whole
from ridepool.words import Fault, number

DISPATCHER, DRIVER, RIDER, READER = ROLES = ("dispatcher", "driver", "rider", "reader")
NUMBERED = {DRIVER: "vehicle", RIDER: "ride"}
READS = ("GET", "HEAD")
LEAST_LETTERS = 16


@dataclass(frozen=True)
class Holder:
    """Who has a token: a role, for drivers their vehicle, for riders their ride. `id` names the token in logs."""

    role: str
    vehicle: Optional[int] = None
    ride: Optional[int] = None
    id: str = ""

    def may(self, method: str, path: str) -> bool:
        """Whether this call is one of the role's."""
        if self.role == DISPATCHER or path == "/me":
            return True
        if self.role == READER:
            return method in READS
        if self.role == DRIVER:
            own = f"/vehicles/{self.vehicle}"
            return (path == own and method in READS) or path.startswith(own + "/")
        own = f"/rides/{self.ride}"
        return path == own and method in (*READS, "DELETE") or path.startswith(own + "/") and method in READS


ANYONE = Holder(DISPATCHER)


def hash_of(token: str) -> str:
    """What is kept of a token. Tokens are drawn, so that nobody finds one of a hash."""
    return hashlib.sha256(token.encode()).hexdigest()


def read_tokens(path: pathlib.Path) -> Dict[str, Holder]:
    """The tokens of a file by their hashes."""
    found = {}
    for count, line in enumerate(path.read_text(encoding="utf-8").splitlines(), 1):
        try:
            value = json.loads(line)
            holder = Holder(value["role"], value.get("vehicle"), value.get("ride"), value["id"])
            if holder.role not in ROLES or len(value["sha256"]) != 64:
                raise ValueError
            found[value["sha256"]] = holder
        except (ValueError, TypeError, KeyError, AttributeError):
            raise Fault(f"{path}: line {count} is not that of a token") from None
    return found


def write_tokens(path: pathlib.Path, tokens: Mapping[str, Holder]) -> None:
    """Keeps tokens, for their owner alone to read."""
    lines = [json.dumps({key: it for key, it in {**asdict(holder), "sha256": sha256}.items() if it is not None})
             for sha256, holder in tokens.items()]
    write_whole(path, "".join(line + "\n" for line in lines), 0o600)


class Tokens:
    """The tokens that the desk takes: the one word of `token=`, and those of the file of `tokens=`."""

    def __init__(self, word: Optional[str], path: Optional[pathlib.Path]) -> None:
        self.path, self.seen = path, (0, 0, 0)
        self.fixed = {} if word is None else {hash_of(word): Holder(DISPATCHER, id="token")}
        self.known = dict(self.fixed)
        if path is not None:
            self.known.update(read_tokens(path))
            self.seen = seen_of(path)

    def holder(self, token: str) -> Optional[Holder]:
        """Who has a token; None where nobody has, or has no more."""
        self.look()
        return self.known.get(hash_of(token))

    def look(self) -> None:
        """Reads the file again where it has changed. One that can't be read has no tokens."""
        if self.path is None:
            return
        try:
            seen = seen_of(self.path)
            if seen == self.seen:
                return
            self.known = {**self.fixed, **read_tokens(self.path)}
            self.seen = seen
        except (OSError, Fault) as fault:
            if self.seen != (0, 0, 0):
                log.say(f"no token of {self.path} is taken: {fault}", log.ERROR)
            self.known, self.seen = dict(self.fixed), (0, 0, 0)


def seen_of(path: pathlib.Path) -> Tuple[int, int, int]:
    """What tells a changed file."""
    found = os.stat(path)
    return found.st_mtime_ns, found.st_ino, found.st_size


def token_tool(values: Mapping[str, str]) -> None:
    """Makes a token, withdraws one, or lists all."""
    path = pathlib.Path(values.get("tokens", "tokens"))
    tokens = read_tokens(path) if path.exists() else {}
    if "withdraw" in values:
        left = {sha256: it for sha256, it in tokens.items() if it.id != values["withdraw"]}
        if len(left) == len(tokens):
            raise Fault(f"{path}: there is no token {values['withdraw']}")
        write_tokens(path, left)
    elif "role" in values:
        sha256, holder, token = made(values)
        write_tokens(path, {**tokens, sha256: holder})
        print(f"token {holder.id} of {path}, which isn't shown again:", file=sys.stderr)
        print(token)
    else:
        for line in listed(tokens):
            print(line)


def made(values: Mapping[str, str]) -> Tuple[str, Holder, str]:
    """A new token with its hash and its holder."""
    role = values["role"]
    if role not in ROLES:
        raise Fault(f"role={role} is none of {', '.join(ROLES)}")
    numbers = {key: number(values, key, 0, 1_000_000_000, None) for key in ("vehicle", "ride")}
    for key, it in numbers.items():
        if (it is not None) != (NUMBERED.get(role) == key):
            raise Fault(f"a {role}'s token needs {NUMBERED[role]}=" if role in NUMBERED else f"a {role} has no {key}=")
    token = secrets.token_urlsafe(24)
    sha256 = hash_of(token)
    return sha256, Holder(role, numbers["vehicle"], numbers["ride"], sha256[:8]), token


def listed(tokens: Mapping[str, Holder]) -> List[str]:
    """A line for each token."""
    return [" ".join([it.id, it.role, *(f"{key}={value}" for key, value in (("vehicle", it.vehicle), ("ride", it.ride))
                                        if value is not None)]) for it in tokens.values()]
