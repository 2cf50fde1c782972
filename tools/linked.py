#!/usr/bin/env python3
# Writes crates/*/proofs/Linked.antt and crates/entries/{specs,proofs}/Built.antt anew, where a public function, or what it calls of other crates, has changed. The tables and
# laws that they cite are made by the toolchain: for each of LIBRARIES run `rt check --generated GENERATED/NAME` in its folder first, and then, at the top,
# python3 tools/linked.py GENERATED, and `rt fmt` in crates/entries. Read the changes of crates/entries/specs/Built.antt, which a reader must believe.
import re
import sys

GENERATED = sys.argv[1]
LIBRARIES = ('octets refusal putting packet reading marks record text adler walk lane pool writing telling state branmuslin grouping listing pieces frames intake '
             'runfile lanes deframing replaying').split()
FUNCTIONS = open('crates/entries/specs/Functions.antt').read()
OWN = re.compile(r"Rattle\.(\w+)\.proofs\.(.+)\.Symbol$")
# What compares and prints a `Found` calls these two of the `Result` in it. No function of `Public` does, so no build is asked for them.
UNASKED = {'walk': ('ResultPartialEq_eq', 'ResultDebug_fmt')}


def of_library(symbol):
    """The library and the function, or the impl and its function, that a symbol's module is of, if it is ours."""
    m = OWN.match(symbol)
    return m.groups() if m and m[1] in LIBRARIES else None


def word(function):
    """The function's name as one word."""
    return function.replace('.', '_')


def link(library):
    """The toolchain's module of the library's table, and of the laws that its functions' code is there."""
    return open(f'{GENERATED}/{library}/Rattle-{library}-proofs/TheLink.antt').read()


def called(library):
    """The modules of the symbols that the library calls of other crates, in the order of its table."""
    text = link(library)
    modules = {m[2] or 'Symbol': m[1].replace('Rattle.io.below', 'Rattle.std.below') for m in re.finditer(r"^use (Rattle\.\S+\.Symbol)(?: as (\S+))?$", text, re.M)}
    below = re.search(r"^Below =(.*?)\n\n", text, re.M | re.S)[1]
    return [modules[it] for it in re.findall(r"Bool\.true (Symbol\S*)\.code", below)]


def name(symbol):
    """One word for a symbol: of the standard library's, the last two names of its path, as usize_min."""
    of = of_library(symbol)
    return f'{of[0]}_{word(of[1])}' if of else '_'.join(re.sub(r'[+]\w+', '', it) for it in symbol.split('.')[-3:-1])


CALLED = {it: called(it) for it in LIBRARIES}
for library, unasked in UNASKED.items():
    if not set(unasked) <= set(map(name, CALLED.get(library, ()))):
        sys.exit(f'{library} does not call all of {", ".join(unasked)}')
ASKED = {library: [it for it in symbols if name(it) not in UNASKED.get(library, ())] for library, symbols in CALLED.items()}
TOLD = {it: [] for it in LIBRARIES}
for library, function in re.findall(r"use Rattle\.(\w+)\.specs\.contracts\.([\w.]+) as \w+", FUNCTIONS):
    TOLD[library].append(function)
for symbols in ASKED.values():
    for library, function in filter(None, map(of_library, symbols)):
        if function not in TOLD[library]:
            TOLD[library].append(function)


def by_all(library, function):
    """That the function's code is there where all that the library calls is: the toolchain's law."""
    return f'Link.linked-{library}::{function.replace(".", "::")} W here {"calls" if CALLED[library] else "tt"}'


def by_its_own(library, function):
    """That the function's code is there where what it calls directly is, which the toolchain's law names by place: for a library of which not all is asked."""
    own = function.replace('.', '::')
    law = re.search(rf"^linked-{library}::{own} =\s.*?\(found-{library}::{own} W h\)(.*?)(?:\n\n|\Z)", link(library), re.M | re.S)[1]
    facts = []
    for of_own, place in re.findall(r"\(linked-\w+::(\S+) W h b\)|\bb((?:\.1)*)\.0", law):
        has_law, it = (TOLD, of_own.replace('::', '.')) if of_own else (ASKED, CALLED[library][place.count('1')])
        if it not in has_law[library]:
            sys.exit(f'{library}: {function} calls {it}, of which no law can be cited here')
        facts.append(f'(has_{word(it)} W here calls)' if of_own else f'calls{".1" * ASKED[library].index(it)}.0')
    return ' '.join([f'of_{word(function)}.has (in_world W) true (Link.found-{library}::{own} W here)', *facts])


def but_for(libraries):
    """Which of what the libraries call no build is asked for, as a clause."""
    unasked = [it for library in libraries for it in UNASKED.get(library, ())]
    return f', but for {" and ".join(unasked)}, which no function of `Public` runs' if unasked else ''


def linked(library):
    """The file of a library: its table, what it calls, and that each function's code is there where these are."""
    calls = ASKED[library]
    lines = ["-- The crate's code as the table that a program is linked from: wherever it is, and what it calls of other crates is, so is the code of each public function.",
             'use mathlib.Core.Bool.{true}', 'use prog.Linked.{Tree, World, Holds, in_world}', 'use prog.LinkedThreads.{HasT}', f'use Rattle.{library}.proofs.TheLink as Link']
    if library in UNASKED:
        lines += [f'use Rattle.{library}.proofs.{it}.TheLink as of_{word(it)}' for it in TOLD[library]]
    lines += [f'use {it} as {name(it)}' for it in calls] + [f'use Rattle.{library}.proofs.{it}.Symbol as own_{word(it)}' for it in TOLD[library]]
    lines += ['', 'pub table : Tree', 'table = Link.table']
    if calls:
        lines += ['', f'-- what it calls of other crates{but_for([library])}', 'abbrev pub Calls : World → Type 0', 'Calls W =']
        lines += [f"    {'(' if at else ''}HasT (in_world W) true {name(it)}.code ×" for at, it in enumerate(calls)] + ['    Unit {0}' + ')' * (len(calls) - 1)]
    for it in TOLD[library]:
        lines += ['', f'pub has_{word(it)} : (W : World) → Holds W "{library}" table {"→ Calls W " if calls else ""}→ HasT (in_world W) true own_{word(it)}.code',
                  'unfolding table', f'has_{word(it)} W here{" calls" if calls else ""} = {(by_its_own if library in UNASKED else by_all)(library, it)}']
    return '\n'.join(lines) + '\n'


STD = {name(it): it for symbols in ASKED.values() for it in symbols if not of_library(it)}


def believed():
    """What a build is: the tables of the libraries, and the code that they call of the standard library."""
    lines = ["-- A build of the repository, as the toolchain links one: the crates' tables of code are in it, under their names, and so is the code of each function of the",
             f"-- standard library that they call{but_for(LIBRARIES)}. Its own table can't be named here. `linked` is the machine of it.",
             'use Rattle.std.specs.Prelude.{true}',
             'use prog.Linked.{World, Holds, in_world}', 'use prog.LinkedThreads.{HasT, tie_t}', 'use prog.Routine.{Env}']
    lines += [f'use {STD[it]} as {it}' for it in sorted(STD)] + [f'use Rattle.{it}.proofs.Linked as the_{it}' for it in LIBRARIES]
    lines += ['', 'pub record Built (W : World) : Type 0 where'] + [f'  pub {it}_table : Holds W "{it}" the_{it}.table' for it in LIBRARIES]
    lines += [f'  pub {it}_code : HasT (in_world W) true {it}.code' for it in sorted(STD)]
    lines += ['', '-- what each name means in it: its code there', 'abbrev pub linked : World → Env', 'linked W = tie_t (in_world W)']
    return '\n'.join(lines) + '\n'


def has(library, function):
    return f'the_{library}.has_{word(function)} W b.{library}_table' + (f' {library}_calls' if ASKED[library] else '')


def built():
    """The file of all: crate by crate, from the lowest."""
    lines = ["-- In every build of the repository each public function's name means its code: crate by crate, from the lowest.", 'use mathlib.Core.Bool.{true}',
             'use prog.Linked.{World, in_world}', 'use prog.LinkedThreads.{HasT, tie_t, tie_t-follows, tie_t-threads, has-wired_t}', 'use prog.Wired.{Wired}']
    lines += [f'use Rattle.{it}.proofs.Linked as the_{it}' for it in LIBRARIES]
    lines += ['use Rattle.entries.specs.Exported as name', 'use Rattle.entries.specs.Exported.{Name}', 'use Rattle.entries.specs.Functions as public',
              'use Rattle.entries.specs.Functions.{Public, the_entry, function}', 'use Rattle.entries.specs.Built.{Built}', '', 'module _ (W : World) (b : Built W) where']
    for library in filter(ASKED.get, LIBRARIES):
        facts = [has(*of_library(it)) if of_library(it) else f'b.{name(it)}_code' for it in ASKED[library]]
        lines += [f'  {library}_calls : the_{library}.Calls W', f'  {library}_calls ='] + [f'      ({it},' for it in facts]
        lines[-1] += ' tt' + ')' * len(facts)
        lines.append('')
    of = {alias: (library, function) for library, function, alias in re.findall(r"use Rattle\.(\w+)\.specs\.contracts\.([\w.]+) as (\w+)", FUNCTIONS)}
    arms = lambda head: [(at, has(*of[alias])) for at, alias in re.findall(rf"^{head}(\w+) =\s+(?:valued |record {{ ended = )(\w+)", FUNCTIONS, re.M)]
    lines.append('  of_entry : (n : Name) → HasT (in_world W) true (function (the_entry n)).code')
    lines += [f'  of_entry name.{at} = {fact}' for at, fact in arms(r'named name\.')]
    lines += ['', '  has : (p : Public) → HasT (in_world W) true (function p).code', '  has (the_entry n) = of_entry n']
    lines += [f'  has public.{at} = {fact}' for at, fact in arms('function ')]
    lines += ['', '  pub there : (p : Public) → Wired (tie_t (in_world W)) (function p).code',
              '  there p = has-wired_t (in_world W) (tie_t (in_world W)) (tie_t-follows (in_world W)) (tie_t-threads (in_world W)) (function p).code (has p)']
    return '\n'.join(lines) + '\n'


FILES = {f'crates/{it}/proofs/Linked.antt': linked(it) for it in LIBRARIES} | {'crates/entries/specs/Built.antt': believed(), 'crates/entries/proofs/Built.antt': built()}
for path, text in FILES.items():
    open(path, 'w').write(text)
