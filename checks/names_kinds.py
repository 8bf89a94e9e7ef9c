"""How our program and SCons may differ on a script: by kinds, of which each stands in a line of docs/differences-from-scons.md."""
import os
import re
from collections import namedtuple

UP_TO_DATE = re.compile(r"scons: (?:`(.*)' is up to date|Nothing to be done for `(.*)')\.$")
# Why a run ends behind its reading.
CAUSES = {"not found, needed by": "missing", "ependency cycle": "cycle", "Do not know how to make": "no such target"}


class Outcome:
    """What a run came to: its lines, its status, and where and why it was refused."""

    def __init__(self, run):
        done = [UP_TO_DATE.match(it) for it in run.out.splitlines()]
        self.status = run.status
        self.lines = [it for it, found in zip(run.out.splitlines(), done) if not found]
        # (what is up to date is told at other times)
        self.done = sorted(found[1] or found[2] for found in done if found)
        told = [it for it in run.err.splitlines() if it.startswith("scons: ***")]
        self.fault = told[0] if told else run.err.strip().split("\n")[-1] if run.status else ""
        ours = re.match(r"scons: \*\*\* (\S+), line (\d+): (\w+)", self.fault)
        # The kind of a refusal of a script by ours, and the places that are told.
        self.kind = ours[3] if ours else None
        faults = re.sub(r"(?s)scons: warning: .*?\nFile .*?\n", "", run.err)
        places = [ours.groups()[:2]] if ours else re.findall(r'File "([^"]*/S[Cc]on\w+)", line (\d+)', faults)
        self.places = [(os.path.basename(path), line) for path, line in places]

    def cause(self):
        """Why a run ended behind its reading, but for the words."""
        return next((cause for words, cause in CAUSES.items() if words in self.fault), self.fault)

    def told(self):
        done = [f"`{it}' is up to date" for it in self.done]
        return "".join(f"  {it}\n" for it in [*self.lines, *done]) + f"  status {self.status} {self.fault}\n"


def verdict(mine, theirs):
    """How the two differ, or nothing."""
    if mine.kind == "OutOfProfile":
        return "ours refuses: OutOfProfile"
    if mine.status and theirs.status:
        return of_refusals(mine, theirs)
    if mine.status:
        return f"ours refuses: {mine.kind or mine.cause()}"
    if theirs.status:
        return "SCons refuses"
    if mine.lines != theirs.lines:
        return "other order" if sorted(mine.lines) == sorted(theirs.lines) else "other lines"
    return None if mine.done == theirs.done else "other words done"


def of_refusals(mine, theirs):
    """How two refusals differ, or nothing: both are told of one line, or behind the reading for one cause; a rule that needs its own target is
    told by ours at its line, and by SCons where it builds."""
    if mine.kind == "SelfSource" and theirs.cause() == "cycle":
        return None
    if bool(mine.kind) != bool(theirs.places):
        return f"refused at another time: {mine.kind}"
    if mine.kind:
        return None if mine.places[0] in theirs.places else f"other place of {mine.kind}"
    return None if mine.cause() == theirs.cause() else f"other fault: {mine.cause()}"


def defines_in_order(case, mine, theirs):
    """Whether lines differ but in the order of defines, and in those that stand twice."""
    def lines(outcome):
        words = [it.split(" ") for it in outcome.lines]
        return [([it for it in line if not it.startswith("-D")], {it for it in line if it.startswith("-D")}) for line in words]
    return lines(mine) == lines(theirs)


def names_an_alias(case, mine, theirs):
    """Whether the source that ours misses is the name of an alias."""
    name = re.search("Source `(?:[^']*/)?([^'/]+)' not found", mine.fault)
    return bool(name) and bool(re.search(rf"Alias\(\[?'{name[1]}'", case.text()))


def has_same_sources(case, mine, theirs):
    """Whether SCons refuses two rules of which the sources are the same paths."""
    found = re.search(r"Multiple ways to build the same target were specified for: \S+  \(from (\[.*\]) and from (\[.*\])\)", theirs.fault)
    return bool(found) and found[1] == found[2]


def removes_more(case, mine, theirs):
    """Whether SCons removes what ours does, and perhaps headers with what they are made of."""
    return set(mine.lines) <= set(theirs.lines)


def has_folder_beside(case, mine, theirs):
    """Whether lines name a path below a directory, and one that begins with the directory's name and a byte below `/`."""
    paths = set(re.findall(r"[\w./-]+", " ".join(mine.lines)))
    folders = {path[:place] for path in paths for place, sign in enumerate(path) if sign == "/"}
    return any(path.startswith((f"{folder}.", f"{folder}-")) for folder in folders for path in paths)


def names_twice(case, mine, theirs):
    """Whether a line of SCons has a path twice, one behind the other, and is else ours."""
    return mine.lines == [re.sub(r"(\S+)( \1)+(?= |$)", r"\1", it) for it in theirs.lines]


def has_empty_words(case, mine, theirs):
    """Whether a line of SCons has an empty word, and is else ours."""
    return mine.lines == [re.sub(" +", " ", it).strip() for it in theirs.lines]


def names_nothing(case, mine, theirs):
    return not theirs.lines


# How small a case has to be before a kind can be told: the faults alone tell it, or which statements are left, or which parts of them.
ANY, STATEMENTS, PARTS = range(3)

# A kind: how the two differ, the beginning of the sentence that tells of it; what our fault, SCons's run and the script have, and what else.
Kind = namedtuple("Kind", "size how line ours scons script also", defaults=("", "", "", None))

LISTS = "CPPPATH|LIBS|LIBPATH|CPPDEFINES"
NAMES = r"OutOfProfile (env\.)?(Precious|Value|SharedLibrary|NoClean|Entry|SideEffect|Clean)$"
KINDS = [
    Kind(ANY, "ours refuses: OutOfProfile", "What isn't built is refused by name", ours=NAMES),
    Kind(ANY, "ours refuses: NoRule", "`Depends`, `Requires` and `Ignore` of a target that no rule makes"),
    Kind(ANY, "ours refuses: NoSource", "`Program`, `Library` and `Object` of an empty list"),
    Kind(ANY, "ours refuses: Nested", "A variant directory below or above another one"),
    Kind(ANY, "ours refuses: BadSuffix", "`Program` and `Library` take C and C++"),
    Kind(ANY, "ours refuses: BadArgument", "`InstallAs` takes as many", ours="InstallAs"),
    Kind(ANY, "SCons refuses|refused at another time", "A builder's suffix is put behind", scons=r"trying to evaluate `\$LIB"),
    Kind(ANY, "SCons refuses", "`File` and `Dir` name a file and a directory", scons="Tried to lookup"),
    Kind(ANY, "SCons refuses", "`$SOURCE` is nothing where", scons="IndexError : list index"),
    Kind(ANY, "SCons refuses", "Two rules for one target are a fault", also=has_same_sources),
    Kind(ANY, "ours refuses: SelfSource", "A target that is its own source is refused"),
    Kind(ANY, "SCons refuses", "Two rules for one target are a fault", scons="Two environments with different actions"),
    Kind(ANY, "other fault: missing", "An alias is no source of a rule", scons="'Alias' object has no attribute"),
    Kind(ANY, "ours refuses: missing", "An alias is no source of a rule", also=names_an_alias),
    Kind(STATEMENTS, "(ours refuses|refused at another time): TwoRules", "Two rules for one target are a fault"),
    Kind(STATEMENTS, "ours refuses: no such target", "A directory that isn't there, with no targets", also=names_nothing),
    Kind(STATEMENTS, "(ours refuses|other fault): (missing|no such target)", "An alias or a default without members", script=r"Alias\(.*'out'"),
    Kind(STATEMENTS, "SCons refuses", "Aliases that are members of one another", scons="cycle", script=r"(?s)Alias\(.*Alias\("),
    Kind(STATEMENTS, "ours refuses: BadArgument", "`Alias` of one name", ours=r"BadArgument [a-z]\w*$", script=r"Alias\("),
    Kind(STATEMENTS, "other order", "A directory as a word, and `.`, stand", also=has_folder_beside),
    Kind(STATEMENTS, "other order", "`-c` removes what a target requires", script=r"(?s)Requires\(.* -c$"),
    Kind(STATEMENTS, "SCons refuses", "`Requires` of an alias", scons="not found, needed by target", script=r"(?s)Alias\(.*Requires\("),
    Kind(STATEMENTS, "SCons refuses", "`Glob` finds no node", scons="cycle", script=r"(?s)File\(.*Glob\("),
    Kind(STATEMENTS, "other lines", "A target that is named twice in one call", also=names_twice),
    Kind(STATEMENTS, "other lines", "An attribute of a target or source that is empty", also=has_empty_words),
    Kind(STATEMENTS, "SCons refuses", "`scons -c` with an unknown word", scons="cycle", script=r" -c$"),
    Kind(STATEMENTS, "other (lines|order)", "`scons -c` with an unknown word", script=r"(?s)^(?=.*\.h').* -c$", also=removes_more),
    Kind(PARTS, "ours refuses: BadArgument", "A dict in the list of `CPPDEFINES`", script=r"CPPDEFINES=\[.*\{'E': 1\}"),
    Kind(PARTS, "ours refuses: BadArgument", "An alias is no source of a rule", ours=r"BadArgument (\w+\.)?[A-Z]", script=r"Alias\("),
    Kind(PARTS, "other lines", "A dict in `CPPDEFINES` keeps its order", script=r"CPPDEFINES=\{", also=defines_in_order),
    Kind(PARTS, "other lines", "A text in `CPPPATH`, `LIBS`", script=rf"({LISTS})(=|'\] = )'"),
    Kind(PARTS, "SCons refuses", "A text in `CPPPATH`, `LIBS`", scons=r"orig\.insert", script=r"Prepend\(CPPDEFINES=\{"),
    Kind(PARTS, "other lines", "A tuple in `CPPPATH`, `LIBS`", script=rf"({LISTS})(=|'\] = )\("),
    Kind(PARTS, "other lines", "A tuple in `CPPPATH`, `LIBS`", script=rf"AppendUnique\(({LISTS})=\[.*\["),
    Kind(PARTS, "SCons refuses|refused at another time", "A tuple in `CPPPATH`, `LIBS`", scons=r"(orig|val)\.insert|dk \+ val", script=rf"({LISTS})(=|'\] = )\("),
    Kind(PARTS, "other lines", "A text in `CCFLAGS`", script=r"FLAGS(=|'\] = )'"),
    Kind(PARTS, "other (lines|order)", "An alias in `Ignore` stands", script=r"(?s)^(?=.*Ignore\().*Alias\("),
    Kind(PARTS, "other (lines|order)|ours refuses: cycle", "What is installed or written", script=r"(?s)^(?=.*Ignore\().*(Install|file\()"),
    Kind(PARTS, "other lines", "`DefaultEnvironment(X='x')` sets", script=r"(?m)^DefaultEnvironment\(\w"),
    Kind(PARTS, "other lines", "A directory of `CPPPATH` or `LIBPATH` that is a node", script=r"(?s)^(?=.*PATH=.*Dir\().*variant_dir"),
    Kind(PARTS, "other (lines|order)", "`Glob` in a variant directory without copies", script=r"(?s)^(?=.*Glob\().*duplicate="),
    Kind(PARTS, "other lines", "`Glob('*')` gives files", script=r"\*'"),
]


def kind_of(how, case, mine, theirs, size):
    """The kind of a difference, if a case of this size tells it."""
    for kind in KINDS:
        if kind.size <= size and re.match(kind.how, how):
            told = re.search(kind.ours, mine.fault) and re.search(kind.scons, theirs.told()) and re.search(kind.script, case.text())
            if told and (not kind.also or kind.also(case, mine, theirs)):
                return kind.line
    return None
