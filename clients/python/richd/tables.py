"""The tables of an archive, in SQLite or PostgreSQL.

    files      what was followed: its path and numbers, when it was joined and why, and the first and last batch that this gave
    at         one row: the file, the place of its next record, whose turn it is to write, and when was last looked
    batches    the committed order: where each record stood, its digest, the look before (`after`) and the one that saw it
    waiting    the bytes of batches that aren't rows of `revisions` yet
    documents  number, name and newest revision
    revisions  what made each revision; `kind` as in docs/FORMATS.md, `delta` as JSON
    snapshots  milestones of the server, as it spelled them
    gaps       revisions that aren't held, and why
    aside      revisions that were seen, and that the store doesn't have
    restores   the milestones of stores that were made of this archive: revision `rev` shows what `shows` does, and stands above `had`
    notes      what happened
"""

from __future__ import annotations

import importlib
import os
import sqlite3
from typing import Any, Iterable, List, Sequence, Tuple

from .spelling import StoreError

Row = Tuple[Any, ...]

TABLES = """
CREATE TABLE files (file INTEGER PRIMARY KEY, path TEXT NOT NULL, slots INTEGER NOT NULL, slot INTEGER NOT NULL, docs INTEGER NOT NULL,
    cell INTEGER NOT NULL, sources INTEGER NOT NULL, keep INTEGER NOT NULL, joined REAL NOT NULL, why TEXT NOT NULL,
    first INTEGER NOT NULL, last INTEGER NOT NULL);
CREATE TABLE at (one INTEGER PRIMARY KEY, file INTEGER NOT NULL, segment INTEGER, place INTEGER, turn INTEGER NOT NULL,
    looked REAL NOT NULL);
CREATE TABLE batches (batch INTEGER PRIMARY KEY, file INTEGER NOT NULL, segment INTEGER NOT NULL, place INTEGER NOT NULL,
    digest BLOB NOT NULL, after REAL, seen REAL NOT NULL);
CREATE TABLE waiting (batch INTEGER PRIMARY KEY, body BLOB NOT NULL);
CREATE TABLE documents (doc INTEGER PRIMARY KEY, name TEXT NOT NULL UNIQUE, newest INTEGER NOT NULL);
CREATE TABLE revisions (doc INTEGER NOT NULL, rev INTEGER NOT NULL, kind INTEGER NOT NULL, source TEXT NOT NULL, number INTEGER NOT NULL,
    delta TEXT NOT NULL, batch INTEGER NOT NULL, PRIMARY KEY (doc, rev)) WITHOUT ROWID;
CREATE TABLE snapshots (doc INTEGER NOT NULL, rev INTEGER NOT NULL, body BLOB NOT NULL, batch INTEGER, PRIMARY KEY (doc, rev));
CREATE TABLE gaps (doc INTEGER NOT NULL, first INTEGER NOT NULL, last INTEGER NOT NULL, noted REAL NOT NULL, why TEXT NOT NULL,
    PRIMARY KEY (doc, first));
CREATE TABLE aside (doc INTEGER NOT NULL, rev INTEGER NOT NULL, kind INTEGER NOT NULL, source TEXT NOT NULL, number INTEGER NOT NULL,
    delta TEXT NOT NULL, seen REAL, noted REAL NOT NULL, why TEXT NOT NULL);
CREATE TABLE restores (doc INTEGER NOT NULL, rev INTEGER NOT NULL, shows INTEGER NOT NULL, had INTEGER NOT NULL, noted REAL NOT NULL,
    body BLOB NOT NULL, PRIMARY KEY (doc, rev));
CREATE TABLE notes (noted REAL NOT NULL, what TEXT NOT NULL);
"""
COLUMNS = {"files": 12, "batches": 7, "waiting": 2, "documents": 3, "revisions": 7, "snapshots": 4, "gaps": 5, "aside": 9, "restores": 6, "notes": 2}
# What PostgreSQL spells otherwise than SQLite.
SPELLINGS = (("?", "%s"), (" BLOB", " BYTEA"), (" REAL", " DOUBLE PRECISION"), (" INTEGER", " BIGINT"), (" WITHOUT ROWID", ""))


class ArchiveError(StoreError):
    """An archive can't be had, or doesn't hold what was asked for."""


class Stolen(ArchiveError):
    """Another archiver works on this archive."""

    def __str__(self) -> str:
        return "another archiver works on this archive now"


class Database:
    """A connection to an archive, in a transaction from its first write on until `commit`. `name` is the path of an SQLite file or a URL of
    PostgreSQL; with `make` the tables are made where there are none."""

    def __init__(self, name: str, make: bool = False):
        self.name = name
        self.is_postgres = name.startswith(("postgres://", "postgresql://"))
        try:
            self._connect(make)
            if not self._is_there():
                if not make:
                    raise ArchiveError("there is no archive in it")
                for statement in TABLES.split(";"):
                    if statement.strip():
                        self.run(statement)
            self.commit()
        except self._broken as fault:
            raise ArchiveError(_line(fault)) from None

    def _connect(self, make: bool) -> None:
        self._broken: Any = sqlite3.Error
        if self.is_postgres:
            try:
                postgres = importlib.import_module("psycopg2")
                self._put = importlib.import_module("psycopg2.extras").execute_values
            except ImportError:
                raise ArchiveError("PostgreSQL needs psycopg2 (Debian: python3-psycopg2)") from None
            self._broken = postgres.Error
            self._connection: Any = postgres.connect(self.name)
            return
        if not make and not os.path.exists(self.name):
            raise ArchiveError("there is no such file")
        if make:  # what it holds is its owner's alone, as a store is; SQLite gives its log the same rights
            os.close(os.open(self.name, os.O_RDWR | os.O_CREAT | os.O_CLOEXEC, 0o600))
        self._connection = sqlite3.connect(self.name, isolation_level=None, timeout=60)
        self._connection.execute("PRAGMA journal_mode=WAL")
        self._connection.execute("PRAGMA synchronous=FULL")
        self._connection.execute("PRAGMA wal_autocheckpoint=4000")  # pages: the same ones are written again and again

    def _is_there(self) -> bool:
        if self.is_postgres:
            return bool(self.one("SELECT to_regclass('revisions') IS NOT NULL")[0])
        return bool(self.one("SELECT count(*) FROM sqlite_master WHERE name = 'revisions'")[0])

    def close(self) -> None:
        self._connection.close()

    def run(self, sql: str, values: Sequence[Any] = ()) -> int:
        """Makes a change, and returns how many rows it was made to."""
        try:
            if self.is_postgres:
                with self._connection.cursor() as cursor:
                    cursor.execute(self._said(sql), values or None)
                    return int(cursor.rowcount)
            self._begin()
            return int(self._connection.execute(sql, values).rowcount)
        except self._broken as fault:
            raise ArchiveError(_line(fault)) from None

    def put(self, table: str, rows: Iterable[Sequence[Any]]) -> None:
        """Adds rows to a table."""
        rows = list(rows)
        if not rows:
            return
        try:
            if self.is_postgres:
                with self._connection.cursor() as cursor:
                    self._put(cursor, f"INSERT INTO {table} VALUES %s", rows, page_size=1000)
                return
            self._begin()
            self._connection.executemany(f"INSERT INTO {table} VALUES ({','.join('?' * COLUMNS[table])})", rows)
        except self._broken as fault:
            raise ArchiveError(_line(fault)) from None

    def all(self, sql: str, values: Sequence[Any] = ()) -> List[Any]:
        """The rows that a question gives."""
        try:
            if self.is_postgres:
                with self._connection.cursor() as cursor:
                    cursor.execute(self._said(sql), values or None)
                    return [tuple(bytes(it) if isinstance(it, memoryview) else it for it in row) for row in cursor.fetchall()]
            return list(self._connection.execute(sql, values))
        except self._broken as fault:
            raise ArchiveError(_line(fault)) from None

    def one(self, sql: str, values: Sequence[Any] = ()) -> Any:
        """The first row that a question gives, None where it gives none."""
        found = self.all(sql, values)
        return found[0] if found else None

    def commit(self) -> None:
        try:
            if self.is_postgres:
                self._connection.commit()
            elif self._connection.in_transaction:
                self._connection.execute("COMMIT")
        except self._broken as fault:
            raise ArchiveError(_line(fault)) from None

    def rollback(self) -> None:
        if self.is_postgres:
            self._connection.rollback()
        elif self._connection.in_transaction:
            self._connection.execute("ROLLBACK")

    def _begin(self) -> None:
        if not self._connection.in_transaction:
            self._connection.execute("BEGIN IMMEDIATE")

    def _said(self, sql: str) -> str:
        for one, other in SPELLINGS:
            sql = sql.replace(one, other)
        return sql


def _line(fault: Exception) -> str:
    return (str(fault) or type(fault).__name__).splitlines()[0]
