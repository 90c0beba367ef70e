#!/usr/bin/env python3
"""Lists the public functions that nothing calls which `rt ci` runs. It isn't part of the gate.

usage: checks/uncalled.py [--direct]     in any folder; it prints a line for each function, and its status is 1 where there is one

A public function is to be called by a program, a test or a law, or by what these call; what isn't has to stand in ALLOWED, with the reason why
it is there. And no clause can say that memory is there, so a body that always answers NoMemory meets each contract. Hence a public call that may
answer it is to be made once with ample memory: by a program or a test, or by what these call. With --direct the calls count alone that stand in
crates of tests, in programs, and of the others in laws.

It reads the sources of crates/, in the layout that `rt fmt` gives them. A call may answer NoMemory where its signature or its clauses name
that or AllocError, or where it takes an allocator and returns a Result. It is called where its name stands before a bracket: a method behind
a dot or its type's name. What type stands before a dot isn't known. So where several types have a method of one name, the file that calls
it has to name the type too, or none of these types. A law is a function of a file laws.rt: its contract is what it is there for.
"""
import collections
import functools
import re
import sys

from sources import CRATES, code, crate_of, functions_of, is_shown

# What nobody calls, and why it is there.
ALLOWED = {
    "Ticket::order": "tells who has a ticket where its command stands in the order",
    "Flusher::covers_moments": "its contract says which moments a token at hand has, as that of a law does",
    "Publisher::covers_moments": "`Flusher::covers_moments` calls it",
    "Log::covers_moments": "`Publisher::covers_moments` calls it",
    "Hub::submit_all_after": "a session calls it through `Desk::ask_all`, a trait's method, by which no type is named",
}


def may_want_memory(function):
    takes = re.search(r"\b(Global|AllocGlobal|Allocator)\b", function.head)
    return re.search(r"\b(AllocError|AllocFailed|NoMemory)\b", function.head) or takes and "Result<" in function.head.split("->")[-1]


paths = [it for it in sorted(CRATES.rglob("src/**/*.rt")) if "out" not in it.parts]
texts = {it: code(it.read_text()) for it in paths}
words = {it: set(re.findall(r"\w+", text)) for it, text in texts.items()}
functions = [it for path in paths for it in functions_of(path)]
named = collections.defaultdict(list)
owners = collections.defaultdict(set)
for it in functions:
    named[it.name].append(it)
    owners[it.name].add(it.owner)


@functools.cache
def body_of(function):
    return code(function.body)


# What a text in this file, within what belongs to this type, may call.
@functools.cache
def called(path, text, owner):
    return list(calls_in(path, text, owner))


def calls_in(path, text, owner):
    for before, name in re.findall(r"((?:\w+::)+(?:<[^()]*>::)?|\.)?\b(\w+)(?:::<[^()]*>)?\(", text):
        for function in named[name]:
            is_only = len(owners[name]) == 1
            if before == ".":
                near = owners[name] & words[path]
                is_it = function.owner and (is_only or not near or function.owner in near)
            elif before and re.split("::", before.rstrip(":").split("::<")[0])[-1][0].isupper():
                it = before.rstrip(":").split("::<")[0].split("::")[-1]
                is_it = function.owner == (owner if it == "Self" else it)
            else:
                is_it = not function.owner
            if is_it:
                yield function


# What others can name.
def is_public(function):
    return function.head.lstrip().startswith("pub fn") and is_shown(function.path, function.owner or function.name)


# The crates of tests, and the programs.
def runs(path):
    crate = crate_of(path)
    return crate.name.startswith("test_") or (crate / "src/main.rt").exists()


# The functions that these call, directly or not.
def reached_from(begin):
    reached, todo = set(), [it for path in begin for it in called(path, texts[path], None)]
    while todo:
        function = todo.pop()
        if function not in reached:
            reached.add(function)
            if "--direct" not in sys.argv:
                todo.extend(called(function.path, body_of(function), function.owner))
    return reached


def is_missing(function):
    if runs(function.path) or function.path in laws or not is_public(function):
        return False
    return function not in (run if may_want_memory(function) else run_or_law)


laws = [it for it in paths if it.name == "laws.rt"]
run = reached_from([it for it in paths if runs(it)])
run_or_law = run | reached_from(laws)
names = {it: f"{it.owner + '::' if it.owner else ''}{it.name}" for it in functions}
missing = [it for it in functions if is_missing(it)]
for it in missing:
    if names[it] not in ALLOWED:
        print(f"{it.path.relative_to(CRATES.parent)}: {names[it]}")
stale = set(ALLOWED) - {names[it] for it in missing}
for name in sorted(stale):
    print(f"{name} stands in ALLOWED, and is called or gone")
sys.exit(1 if stale or any(names[it] not in ALLOWED for it in missing) else 0)
