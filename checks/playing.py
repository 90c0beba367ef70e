"""The rows that no_memory.py and faults.py both play: `format`, `dump`, `migrate`, `copy`, the scripts of scripts.py, three sessions at once."""
import functools
import os
import shutil
import subprocess
import tempfile

from first_format import in_first_format
from refusing import S, Tally, agree, arguments, content_of, richd, try_each, undisturbed
from scripts import SCRIPTS, dumped, learn, play
from three import play_three

ALREADY_FORMATTED = (1, b"", b"error 31 AlreadyFormatted\n")
DONE = (0, b"", b"")


def run_as_wanted(refusal, words):
    """A run gives what it does undisturbed, at last."""
    wanted = subprocess.run([richd, *words], capture_output=True)
    ended = refusal.run_till_done(words, wanted.stdout)
    wanted = wanted.returncode, wanted.stdout, wanted.stderr
    agree(ended == wanted, f"`{' '.join(words)}` gives {ended} and not {wanted}")


def format_store(refusal, options, there):
    """`format` of a file that is missing, or is there and holds nothing."""
    wanted = refusal.store + ".wanted"
    undisturbed("format", wanted, *options)
    if there:
        with open(refusal.store, "wb") as file:
            file.write(bytes(os.path.getsize(wanted)))
    ended = refusal.run_till_done(["format", refusal.store, *options])
    if refusal.is_of_the_file() and refusal.has_shown and ended == ALREADY_FORMATTED:
        ended = DONE  # its last call failed, and did what it should
    agree(ended == DONE, f"`format` gives {ended}")
    agree(content_of(refusal.store) == content_of(wanted), "the file isn't the one that the undisturbed run makes")
    agree(dumped(refusal.store, "newer") == {}, "the store isn't empty")


def dump_store(refusal, script):
    """`dump` of what a script leaves, by either pick, which leaves the file alone."""
    shutil.copyfile(script.left, refusal.store)
    before = content_of(refusal.store)
    for pick in ("newer", "older"):
        run_as_wanted(refusal, ["dump", refusal.store, "--pick", pick])
        agree(content_of(refusal.store) == before, f"`dump --pick {pick}` changed the file")


def move_store(refusal, script, there, command, is_old=False, options=()):
    """`migrate` or `copy` of what a script leaves, to a file that is missing, or is there and holds nothing. `migrate` wants the first format."""
    old, wanted = refusal.store + ".old", refusal.store + ".wanted"
    words = [command, old, refusal.store, *options]
    content = in_first_format(content_of(script.left)) if is_old else content_of(script.left)
    with open(old, "wb") as file:
        file.write(content)
    undisturbed(command, old, wanted, *options)
    if there:
        with open(refusal.store, "wb") as file:
            file.write(bytes(os.path.getsize(wanted)))
    ended = refusal.run(words)
    if refusal.shows_in(ended):
        is_made = os.path.exists(refusal.store) and content_of(refusal.store)[:1] == b"\xa5"
        agree(not is_made or refusal.is_of_the_file(), "what was refused has left a store")
        ended = refusal.run(words)
    if refusal.is_of_the_file() and refusal.has_shown and ended == ALREADY_FORMATTED:
        ended = DONE  # its last call failed, and did what it should
    agree(ended == DONE, f"`{command}` gives {ended}")
    agree(content_of(old) == content, f"`{command}` changed the old file")
    agree(content_of(refusal.store) == content_of(wanted), "the file isn't the one that the undisturbed run makes")
    for pick in ("newer", "older"):
        agree(dumped(refusal.store, pick) == script.ends, f"by the {pick} pick it holds {dumped(refusal.store, pick)}")


migrate_store = functools.partial(move_store, command="migrate", is_old=True)
copy_store = functools.partial(move_store, command="copy", options=["--slots", "4"])
OLD = [script for script in SCRIPTS if not script.has_deletions]  # the first format has no deletions
FILES = [
    ("format of a small store", functools.partial(format_store, options=S, there=False)),
    ("format of a file that is there", functools.partial(format_store, options=S, there=True)),
    ("format of the default shape", functools.partial(format_store, options=[], there=False)),
    *((f"dump of {script.name}", functools.partial(dump_store, script=script)) for script in SCRIPTS),
    *((f"migration of {script.name}", functools.partial(migrate_store, script=script, there=False)) for script in OLD),
    ("migration to a file that is there", functools.partial(migrate_store, script=SCRIPTS[0], there=True)),
    *((f"copy of {script.name}", functools.partial(copy_store, script=script, there=False)) for script in SCRIPTS),
    ("copy to a file that is there", functools.partial(copy_store, script=SCRIPTS[0], there=True)),
]
SESSIONS = [
    *((script.name, functools.partial(play, script=script)) for script in SCRIPTS),
    ("three sessions at once", play_three),
    ("three sessions at once, milestones two revisions apart", functools.partial(play_three, options=["--every", "2"])),
]
ROWS = [*FILES, *SESSIONS]


def check(what, *tables):
    """Plays tables, each some rows with the kinds of requests that are refused in them, and ends the program."""
    most, runs = arguments()
    tally = Tally()
    with tempfile.TemporaryDirectory() as folder:
        learn(folder)
        for rows, kinds in tables:
            try_each(tally, rows, kinds, most, runs)
    tally.end(what)
