"""The address of a server: a URL, which is shown without what is secret in it."""

from __future__ import annotations

import os
from dataclasses import dataclass, field
from typing import Dict
from urllib.parse import SplitResult, parse_qsl, quote, unquote, urlencode, urlsplit

__all__ = ['Address', 'SERVERS']

# The servers by the schemes of their URLs, each with the module beside this one that reads it.
SERVERS: Dict[str, str] = {
    'redis': 'redis_server', 'rediss': 'redis_server', 'memcached': 'memcached_server', 'memcacheds': 'memcached_server',
    'postgresql': 'postgresql_server', 'postgres': 'postgresql_server', 'mysql': 'mysql_server', 'mariadb': 'mysql_server'}

# What a URL asks for besides the server, and how it is asked.
_OWN = ('table', 'column', 'stream')
_SETTINGS = ('timeout',)

# Where client libraries find passwords besides the URL. (A short word is not taken out of texts.)
_VARIABLES = ('REDISCLI_AUTH', 'PGPASSWORD', 'MYSQL_PWD')
_SHORT = 4


@dataclass(frozen=True)
class Address:
    """A URL. Neither its text nor its form for debugging has the password."""

    url: str = field(repr=False)

    def __str__(self) -> str:
        """The URL without passwords, and with those parts of its query alone that name what is looked at.

        >>> str(Address('redis://:secret@host:6379/0?ssl_keyfile=k'))
        'redis://host:6379/0'
        """
        split = self.split
        place = split.netloc.rpartition('@')[2]
        user = split.username
        asked = urlencode([(name, value) for name, value in parse_qsl(split.query) if name in _OWN], quote_via=quote)
        return f'{split.scheme}://{f"{user}@" if user else ""}{place}{split.path}{f"?{asked}" if asked else ""}'

    @property
    def split(self) -> SplitResult:
        """The parts of the URL."""
        return urlsplit(self.url)

    @property
    def asked(self) -> Dict[str, str]:
        """What the URL asks for: `table`, `column`, `stream`."""
        return {name: value for name, value in parse_qsl(self.split.query) if name in _OWN}

    @property
    def plain(self) -> str:
        """The URL for a client library: without what this package alone understands."""
        split = self.split
        return split._replace(query=urlencode([pair for pair in parse_qsl(split.query) if pair[0] not in _OWN + _SETTINGS])).geturl()

    @property
    def password(self) -> str:
        """The password of the URL, or nothing."""
        return unquote(self.split.password or '')

    def seconds(self, usual: float) -> float:
        """How long an answer may take: what `?timeout=` says, or as usual. Raises ValueError where it says no such number.

        >>> Address('redis://host?timeout=5').seconds(60), Address('redis://host').seconds(60)
        (5.0, 60)
        """
        given = dict(parse_qsl(self.split.query)).get('timeout')
        if given is None:
            return usual
        seconds = float(given)
        if not 0 < seconds < 1e6:
            raise ValueError(f'{given!r} is no number of seconds')
        return seconds

    def cleaned(self, text: str) -> str:
        """A text of a library without the passwords, should they be in it.

        >>> Address('redis://:a%20word@host').cleaned('no access with a word')
        'no access with ***'
        """
        given = [value for name, value in parse_qsl(self.split.query) if 'password' in name.lower()]
        held = [word for word in map(os.environ.get, _VARIABLES) if word is not None and len(word) >= _SHORT]
        for secret in {self.password, self.split.password or '', *given, *held} - {''}:
            text = text.replace(secret, '***')
        return ' '.join(text.split())
