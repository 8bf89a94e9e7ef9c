"""What random scripts are made of: a tree of C sources, values of variables, and texts of which parts may be left out.

In a statement marks stand round each part that may be left out, so that a script can be made smaller while it still shows a difference.
"""
import re

# Round a part that may be left out.
OPEN, CLOSE = "\ue000", "\ue001"

C = "int f_%s(void) { return 0; }\n"
MAIN = "int main(void) { return 0; }\n"
# The files of each tree. What includes several headers names them in byte order.
FILES = {"main.c": '#include "gen.h"\n' + MAIN, "a.c": '#include "a.h"\n#include "k.h"\n' + C % "a", "b.c": '#include "h.h"\n' + C % "b",
         "c.cc": C % "c", "a.h": "#define A 1\n", "in.txt": "in\n", "one.txt": "one\n", "two.txt": "two\n", "v.h.in": "#define V @V@\n",
         "inc/h.h": '#include "k.h"\n', "inc/k.in": "#define K 1\n", "src/main.c": MAIN,
         "src/a.c": '#include "a.h"\n#include "gen.h"\n' + C % "sa", "src/b.c": '#include "h.h"\n' + C % "sb",
         "src/x.cc": '#include "gen.h"\n' + C % "sx", "src/a.h": "#define SA 1\n", "src/data.txt": "data\n", "src/one.txt": "one\n",
         "src/v.h.in": "#define V @V@\n", "src/sub/s.c": '#include "h.h"\n' + C % "s", "src/sub/a.c": C % "ta", "src/sub/data.txt": "data\n",
         "lib/u.c": '#include "u.h"\n' + C % "u", "lib/v.c": '#include "gen.h"\n' + C % "v", "lib/u.h": "#define U 1\n", "lib/data.txt": "data\n"}


def part(text):
    """A text that may be left out."""
    return OPEN + text + CLOSE


def parts(texts):
    """Items or arguments, each of which may be left out."""
    return "".join(part(f"{it}, ") for it in texts)


def plain(text):
    return text.replace(OPEN, "").replace(CLOSE, "")


def parts_of(text):
    """The places of the parts of a text, the larger ones first."""
    found, begun = [], []
    for place, sign in enumerate(text):
        if sign == OPEN:
            begun.append(place)
        elif sign == CLOSE:
            found.append((begun.pop(), place + 1))
    return sorted(found, key=lambda it: it[0] - it[1])


def quoted(names):
    return [f"'{it}'" for it in names]


class Env:
    """An environment that a script knows: the lists of SCons that are texts in it, further variables, its builders, the suffix of its objects."""

    def __init__(self, name, like=None):
        self.name = name
        self.texts = set(like.texts) if like else set()
        self.has = set(like.has) if like else set()
        self.builders = dict(like.builders) if like else {}
        self.suffix = like.suffix if like else ".o"


class Values:
    """Random values, of variables and of what names files."""

    def __init__(self, dice, folder):
        self.dice, self.folder = dice, folder
        self.is_first = not folder
        # What is declared, each with its kind: names of nodes, and names of targets.
        self.nodes, self.targets = [], []

    def chance(self, share):
        return self.dice.random() < share

    def pick(self, *choices):
        return self.dice.choice(choices)

    def some(self, items, least=1, most=2):
        """A few of these in any order."""
        most = min(most, len(items))
        return self.dice.sample(items, self.dice.randint(min(least, most), most))

    def files(self, pattern):
        """The files of the script's folder."""
        start = f"{self.folder}/" if self.folder else ""
        names = [it[len(start):] for it in FILES if it.startswith(start)]
        return [it for it in names if "/" not in it and re.search(pattern, it)]

    def listed(self, items):
        return f"[{parts(self.some(items, 1, 3))}]"

    def flags(self):
        words = ["'-O2'", "'-g'", "'-Wall'", "'-DX'", "'$MORE'", "'-f${WIDTH}'"]
        return self.pick(self.listed(words), self.listed(words), "Split('-O2 -g')", "['-O2'] + ['-v']", "[f'-m{1 + 1}']")

    def folders(self):
        words = ["'lib'" if self.is_first else "'../lib'", "'inc'", "'#inc'", "'.'", "'#'", "'$WHERE'", "Dir('inc')", "Dir('#inc')", "'#bld'"]
        return self.pick(self.listed(words), self.listed(words), "Split('inc #lib')", "('inc', '.')", "['inc', ['.']]")

    def defines(self):
        words = ["'A'", "('B', 1)", "'C=2'", "['D', 'x']", "('F', '$WIDTH')", "'$MORE'", "('G',)"]
        words += ["{'E': 1}"] if self.chance(0.02) else []
        return self.pick(self.listed(words), self.listed(words), "{'A': 1, 'B': '$WIDTH'}", "{'H': 2}", "['A'] * 2")

    def libraries(self):
        words = ["'u'", "'z'", "'m'", "'$LIB'", "'q'"] + [it for it, kind in self.nodes if kind == "library"]
        return self.pick(self.listed(words), self.listed(words), "Split('u m')", "['u', ['z']]")

    def library_folders(self):
        words = ["'.'", "'#'", "'lib'", "'#lib'", "'#bld'", "Dir('.')", "'$WHERE'", "'#bld/lib'", "'bld'"]
        return self.pick(self.listed(words), self.listed(words), "Split('. #lib')")

    # The lists of SCons, what makes a value of each, and a text for it; and variables of the script's own.
    LISTS = {"CCFLAGS": flags, "CFLAGS": flags, "CXXFLAGS": flags, "CPPFLAGS": flags, "LINKFLAGS": flags, "ARFLAGS": flags, "CPPPATH": folders,
             "CPPDEFINES": defines, "LIBS": libraries, "LIBPATH": library_folders}
    TEXTS = {"CCFLAGS": "-O3 -s", "CFLAGS": "-std=c11", "CXXFLAGS": "-x", "CPPFLAGS": "-MD", "LINKFLAGS": "-s", "ARFLAGS": "cr", "CPPPATH": "inc",
             "CPPDEFINES": "T", "LIBS": "u", "LIBPATH": "#lib"}
    OWN = {"WIDTH": ["72", "8", "'9'"], "TITLE": ["'News'", "'a $WIDTH'", "'b ${WIDTH}'"], "MORE": ["['-p', '-q']", "'-r'", "[]"],
           "WHERE": ["'inc'", "'#lib'", "'src'"], "LIB": ["'u'", "'z'"], "CMDS": ["['@echo $TARGET', 'touch $TARGET']", "['one $SOURCE', '-two']"],
           "PREFIX": ["'out'", "'#out'"], "NAME": ["'nm'", "'nn'"]}

    def variable(self, env, text_share):
        """A variable and a value for it."""
        if self.chance(0.35):
            name = self.dice.choice(list(self.OWN))
            env.has.add(name)
            return name, self.dice.choice(self.OWN[name])
        name = self.dice.choice(list(self.LISTS))
        if self.chance(text_share):
            env.texts.add(name)
            return name, repr(self.TEXTS[name])
        env.texts.discard(name)
        return name, self.LISTS[name](self)

    def variables(self, env, most, text_share=0.15, but=None):
        """Named arguments, each of which may be left out."""
        found = dict(self.variable(env, text_share) for _ in range(self.dice.randint(0, most)))
        return parts(f"{name}={value}" for name, value in found.items() if name != but)
