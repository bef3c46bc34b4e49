"""Names of concepts, found by words and prefixes of words. An index of SQLite's FTS5 has the names that the engine
answers to `*`. The number of a row is the identifier of its concept."""
from __future__ import annotations

import fcntl
import hashlib
import os
import sqlite3
import tempfile
import threading
from typing import Callable, Iterator, Optional

from hosecrag import Concept

_INDEX = """
    CREATE VIRTUAL TABLE name USING fts5(
        term, content='', columnsize=0, detail=none, prefix='1 2 3', tokenize='unicode61 remove_diacritics 2'
    );
    CREATE TABLE made_of (digest TEXT);
"""

# A table that cuts a text into words as the index does.
_WORDS = """
    CREATE VIRTUAL TABLE asked USING fts5(term, tokenize='unicode61 remove_diacritics 2');
    CREATE VIRTUAL TABLE word USING fts5vocab('asked', 'row');
"""

# The most words of a filter.
MOST_WORDS = 32

# Reads all concepts of a release, with their names, by rising identifier.
ReadAll = Callable[[], Iterator[Concept]]


class Names:
    """The names of a release. Several threads may use an object, one at a time."""

    def __init__(self, path: Optional[str]) -> None:
        """`path` is that of the file of names, which several processes may share. Without one, the names stand in a
        temporary file that SQLite removes."""
        self._path = path
        self._turn = threading.Lock()
        self._index: Optional[sqlite3.Connection] = None
        self._words = sqlite3.connect(":memory:", check_same_thread=False)
        self._words.executescript(_WORDS)

    @property
    def is_made(self) -> bool:
        return self._index is not None

    def make(self, read_all: ReadAll) -> None:
        """Makes the index of the concepts that `read_all` gives."""
        self._index = _private(read_all) if self._path is None else _shared(self._path, read_all)

    def find(self, text: str, most: int) -> Optional[list[int]]:
        """Returns the concepts in whose names each word of the text begins a word, by rising identifier; or None if
        there are more than `most`, or too many words. A text without a word finds nothing."""
        assert self._index is not None
        with self._turn:
            words = self._words_of(text)
            if not words:
                return []
            if len(words) > MOST_WORDS:
                return None
            # a word has letters and digits alone, so the quotes hold all of it
            query = " ".join(f'"{word}"*' for word in words)
            found = self._index.execute(
                "SELECT rowid FROM name WHERE name MATCH ? ORDER BY rowid LIMIT ?", (query, most + 1)
            ).fetchall()
        return None if len(found) > most else [identifier for (identifier,) in found]

    def close(self) -> None:
        with self._turn:
            self._words.close()
            if self._index is not None:
                self._index.close()

    def _words_of(self, text: str) -> list[str]:
        """Returns the words of a text, as the index has them: without accents, in small letters, each once. A word that
        begins another one is left out, since whatever has the other has it too."""
        self._words.execute("INSERT INTO asked VALUES (?)", (text,))
        words = [word for (word,) in self._words.execute("SELECT term FROM word ORDER BY term")]
        self._words.rollback()
        return [word for word, after in zip(words, [*words[1:], ""]) if not after.startswith(word)]


def _private(read_all: ReadAll) -> sqlite3.Connection:
    """Makes the index in a temporary file."""
    return _made("", read_all(), "")


def _shared(path: str, read_all: ReadAll) -> sqlite3.Connection:
    """Opens the file of names, and makes it anew if it was made of other concepts. One process makes it at a time."""
    digest = _digest(read_all())
    with open(f"{path}.lock", "w") as lock:
        fcntl.flock(lock, fcntl.LOCK_EX)
        index = _opened(path)
        if _is_made_of(index, digest):
            return index
        index.close()
        handle, new = tempfile.mkstemp(dir=os.path.dirname(os.path.abspath(path)))
        os.close(handle)
        try:
            _made(new, read_all(), digest).close()
            os.replace(new, path)
        except BaseException:
            os.unlink(new)
            raise
        return _opened(path)


def _opened(path: str) -> sqlite3.Connection:
    return sqlite3.connect(path, check_same_thread=False)


def _digest(concepts: Iterator[Concept]) -> str:
    """Returns a digest of all identifiers and names."""
    digest = hashlib.sha256()
    for identifier, name in concepts:
        digest.update(f"{identifier} {name}\n".encode())
    return digest.hexdigest()


def _is_made_of(index: sqlite3.Connection, digest: str) -> bool:
    """Returns whether a file has the index of the concepts of this digest. A file that is no such database has none."""
    try:
        return index.execute("SELECT digest FROM made_of").fetchall() == [(digest,)]
    except sqlite3.DatabaseError:
        return False


def _made(path: str, concepts: Iterator[Concept], digest: str) -> sqlite3.Connection:
    """Makes the index of names in an empty file. The digest is written last, so a file that has one is whole."""
    index = _opened(path)
    try:
        index.execute("PRAGMA journal_mode = OFF")
        index.execute("PRAGMA synchronous = OFF")
        index.executescript(_INDEX)
        named = (concept for concept in concepts if concept.name is not None)
        index.executemany("INSERT INTO name (rowid, term) VALUES (?, ?)", named)
        index.execute("INSERT INTO made_of VALUES (?)", (digest,))
        index.commit()
    except BaseException:
        index.close()
        raise
    return index
