"""A random script over all names of SCons that docs/names.md has: a list of statements.

Names of targets are mostly chosen so that both programs take the script; now and then one is taken that stands already, since there errors
hide. Now and then too a name is used that isn't here.
"""
import re

from names_values import FILES, Env, Values, parts, quoted

# How often a name is taken that stands already.
CLASH = 0.005

# Kinds of what builders make.
MADE = ["text", "program", "library", "object"]

VARIABLES = ["CC='gcc-9'", "LINK='ld'", "CCCOM='compile $CCFLAGS $_CCCOMCOM -o $TARGET $SOURCES'", "PROGSUFFIX='.bin'", "LIBPREFIX=''",
             "LIBSUFFIX='.lib'", "RANLIBCOM=''", "INCPREFIX='-isystem '", "LIBLINKPREFIX='-l:'", "ARCOM='archive $TARGET $SOURCES'",
             "LINKCOM=['link $SOURCES -o $TARGET $_LIBDIRFLAGS $_LIBFLAGS', 'strip $TARGET']"]
# In `Clone`, for what a variable was.
LONGER = ["CCFLAGS='$CCFLAGS -g'", "CPPPATH=['$CPPPATH', 'x']", "LIBS=['$LIBS', 'z']", "CPPDEFINES=['$CPPDEFINES', 'N']", "LIBPATH=['#', '$LIBPATH']",
          "CFLAGS=['$CFLAGS', '-c99']"]
# In one call.
OVERLAYS = ["CCFLAGS='$CCFLAGS -g'", "CPPPATH=['$CPPPATH', 'x']", "CPPDEFINES={'V': 1}", "LIBS=['u']", "LIBS=['$LIBS', 'q'], LIBPATH='.'",
            "LINKFLAGS='-v'", "CCFLAGS=['-O0']", "CPPDEFINES=['$CPPDEFINES', ('W', '$WIDTH')]", "WIDTH=3", "CC='tcc'"]
ACTIONS = ["cat $SOURCES > $TARGET", "gen ${SOURCE.file} $TARGET", "make-it ${TARGETS[0].base} $SOURCES", "x $( $WIDTH $) $TITLE ${TARGET.dir}",
           "$CC $CCFLAGS $_CPPINCFLAGS -E $SOURCE", "l $_LIBDIRFLAGS $_LIBFLAGS $TARGETS", "-false", "@echo $TARGET", "touch $TARGETS",
           "s ${SOURCE.srcpath} ${SOURCE.base} ${SOURCE.suffix}", "a ${SOURCES[1].file} ${TARGET.filebase}", "d $_CPPDEFFLAGS ${MORE[0]}"]
PRINTED = ["print([it.name for it in Glob('*.c')], len(Glob('*.txt')))", "print([it.path for it in Glob('*') if it.name.endswith('.txt')])",
           "print(Split(' a b '), Flatten([1, ['b', ('c', [])]]))", "print(File('a.x').path, Dir('out').path, File('#q').name)",
           "print([it.path for it in Glob('sub/*.c') + Glob('#lib/*.c')])", "print([it.path for it in Glob('out/*.txt')])"]
RARE = ["Help('help')", "EnsureSConsVersion(3, 0)", "EnsurePythonVersion(3, 6)", "from SCons.Script import *", "Decider('MD5')", "Decider('content')",
        "Decider('timestamp-newer')", "Decider('make')", "env.Decider('timestamp-match')"]
# Names that docs/names.md says aren't here.
LEFT_OUT = ["Precious('x')", "Value(1)", "env.SharedLibrary('s', 'a.c')", "NoClean('x')", "Entry('x')", "SideEffect('log', 'x')", "Clean('x', 'y')"]


def object_of(source, env):
    return source.rpartition(".")[0] + env.suffix


class Script(Values):
    """A script that is being made."""

    def __init__(self, project, path, env=None, twice=False):
        super().__init__(project.dice, path.rpartition("/")[0])
        self.project, self.path, self.twice = project, path, twice
        self.lines, self.envs, self.returns = [], [Env("env", env)] if env else [], []
        # The environment or call that makes each object, names that are taken, and in which order names were declared.
        self.owners, self.taken, self.serials, self.count = {}, set(), {}, 0

    def put(self, text):
        self.lines.append(text)

    def new_name(self, stem):
        self.count += 1
        return f"{stem}{self.count}"

    def env(self):
        return self.dice.choice(self.envs)

    def method(self, name, share=0.5):
        """A name by itself, or as a method of an environment."""
        return f"{self.env().name}.{name}" if self.chance(share) else name

    # Environments.

    def environment(self):
        made = Env(self.new_name("e"))
        given = self.variables(made, 4)
        if self.chance(0.12):
            made.builders["Table"] = (".tab", ".txt")
            given += parts(["BUILDERS={'Table': Builder(action='sort $SOURCES > $TARGET', suffix='.tab', src_suffix='.txt')}"])
        if self.chance(0.1):
            made.suffix = self.pick(".obj", ".e.o")
            given += f"OBJSUFFIX='{made.suffix}', "
        if self.chance(0.08):
            given += parts([self.dice.choice(VARIABLES)])
        self.put(f"{made.name} = Environment({given})")
        self.envs.append(made)

    def clone(self):
        old = self.env()
        made = Env(old.name if "(" not in old.name and self.chance(0.1) else self.new_name("e"), old)
        more = self.dice.choice(LONGER) if self.chance(0.4) else ""
        given = self.variables(made, 3, but=more.partition("=")[0])
        if more:
            given += parts([more])
            made.texts |= {"CCFLAGS"} if more.startswith("CCFLAGS") else set()
        if self.chance(0.5):
            made.suffix = self.pick(".obj", ".c.o", ".d.o")
            given += f"OBJSUFFIX='{made.suffix}', "
        self.put(f"{made.name} = {old.name}.Clone({given})")
        self.envs = [it for it in self.envs if it.name != made.name] + [made]

    def default_environment(self):
        self.put(f"DefaultEnvironment({self.variables(Env('DefaultEnvironment()'), 2, 0)})")

    def change(self):
        env, call = self.env(), self.pick("Append", "Append", "Prepend", "AppendUnique", "Replace", "SetDefault", "item")
        if call == "item":
            name, value = self.variable(env, 0.1)
            return self.put(f"{env.name}['{name}'] = {value}")
        if call in ("Replace", "SetDefault"):
            return self.put(f"{env.name}.{call}({self.variables(env, 2)})")
        given = {it: self.LISTS[it](self) if it in env.texts or self.chance(0.9) else repr(self.TEXTS[it]) for it in self.some(list(self.LISTS))}
        if "MORE" not in env.has and self.chance(0.2):
            given["MORE"] = "['-more']"
            env.has.add("MORE")
        return self.put(f"{env.name}.{call}({parts(f'{name}={value}' for name, value in given.items())})")

    def new_builder(self):
        env = self.env()
        name, suffix, source = self.pick(("Table", ".tab", ".txt"), ("Page", ".page", ".txt"), ("Copy3", "", ""), ("Lines", ".lines", ".in"))
        env.builders[name] = (suffix, source)
        affixes = [f"suffix='{suffix}'"] * bool(suffix) + [f"src_suffix='{source}'"] * bool(source) + ["prefix='pre-'"] * self.chance(0.2)
        action = self.pick("'sort $SOURCES > $TARGET'", "['@echo $TARGET', 'page -w $WIDTH $SOURCE > $TARGET']",
                           "'$TITLE ${TARGET.file} ${SOURCE.dir}'")
        self.put(f"{env.name}.Append(BUILDERS={{'{name}': Builder(action={action}, {parts(affixes)})}})")

    # Names of targets and sources.

    def free(self, names):
        """One of these names that isn't taken, and now and then one that is."""
        left = [it for it in names if it not in self.taken]
        if not left:
            left = names if self.chance(CLASH) else [f"{self.new_name('t')}{names[0]}"]
        name = self.dice.choice(names if self.chance(CLASH) else left)
        self.taken.add(name)
        return name

    def place(self):
        """What may stand in front of a target's name."""
        return self.pick("", "", "", "out/", "bld/", "#out/" if self.is_first or self.chance(CLASH if self.twice else 0.3) else "")

    def target(self, *names):
        place = self.place()
        return self.free([place + it for it in names])

    def sources(self, env, owner, prefix="", most=3):
        """C sources whose objects this owner may make; behind a prefix those of `src`."""
        names = self.files(r"\.(c|cc)$") if not prefix else [it[4:] for it in FILES if re.match(r"src/\w+\.(c|cc)$", it)]
        names = [it for it in (prefix + it for it in names) if self.owners.get(object_of(it, env), owner) == owner or self.chance(CLASH)]
        chosen = self.some(names, 1, most)
        self.owners.update({object_of(it, env): owner for it in chosen})
        return chosen

    def source_list(self, chosen):
        """How sources are given."""
        if len(chosen) == 1 and self.chance(0.6):
            return f"'{chosen[0]}'"
        items = parts(quoted(chosen))
        forms = [f"Split('{' '.join(chosen)}')", f"[File(it) for it in [{items}]]", f"[[{items}]]", f"({items})" if len(chosen) > 1 else f"[{items}]"]
        return self.dice.choice([*forms, *[f"[{items}]"] * 4])

    def known(self, kinds, most=2):
        """Expressions for a few nodes that are declared."""
        for it, _ in [*self.nodes, *self.targets]:
            self.serials.setdefault(it, len(self.serials))
        found = [it for it, kind in self.nodes if kind in kinds]
        found += [f"'{it}'" for it, kind in self.targets if kind in kinds]
        found += [f"File('{it}')" for it, kind in self.targets if kind in kinds and kind != "alias" and self.chance(0.2)]
        found += [f"{it}[0]" for it, kind in self.nodes if kind in kinds and self.chance(0.3 if kind != "alias" else CLASH)]
        chosen = self.some(found, 1, most)
        by_node = any((it, "alias") in self.nodes for it in chosen)
        self.project.used |= {it for it in self.project.aliases if by_node or repr(it) in chosen}
        return chosen

    def call(self, env, name, given, kind, target=None):
        """A call of a builder, whose nodes may get a name."""
        text = f"{name}({given})" if env.name == "DefaultEnvironment()" and self.chance(0.9) else f"{env.name}.{name}({given})"
        if target:
            self.targets.append((target, kind))
        if self.chance(0.5):
            node = self.new_name("n")
            self.put(f"{node} = {text}")
            self.nodes.append((node, kind))
        else:
            self.put(text)

    def overlay(self, env):
        """Variables of one call, and who owns the objects that it makes."""
        if not self.chance(0.2):
            return "", env.name
        return parts([self.dice.choice(OVERLAYS)]), self.new_name("overlay")

    # Builders.

    def object(self, prefix=""):
        env = self.env()
        given, owner = self.overlay(env)
        if self.chance(0.3):
            return self.named_object(env, given, prefix)
        if self.chance(0.15) and not prefix and not self.owners:
            self.owners = {object_of(it, env): owner for it in self.files(r"\.c$")}
            return self.call(env, "Object", f"Glob('{self.pick('*.c', '[ab].c', '?.c', '[!m].c')}'), {given}", "object")
        chosen = self.sources(env, owner, prefix)
        if chosen:
            self.call(env, "Object", f"{self.source_list(chosen)}, {given}", "object")

    def named_object(self, env, given, prefix):
        """An object with a name of its own."""
        chosen = self.sources(env, self.new_name("one"), prefix, 1)
        if chosen:
            self.owners.pop(object_of(chosen[0], env))
            target = self.free([f"{prefix}{it}" for it in ("x1", "x2.o", "out/x3", "y")])
            self.call(env, "Object", f"'{target}', {self.source_list(chosen)}, {given}", "object", target if target.endswith(".o") else None)

    def members(self, env, owner, prefix):
        """Sources of a program or a library: C sources, and objects of the environment's suffix."""
        chosen, objects = self.sources(env, owner, prefix), self.known(["object"], 1) if self.chance(0.4) else []
        if not objects:
            return self.source_list(chosen) if chosen else None
        return f"[{parts([self.source_list(chosen)] if chosen else [])}{', '.join(objects)}]"

    def program(self, prefix=""):
        env = self.env()
        given, owner = self.overlay(env)
        if self.chance(0.12):
            chosen = self.sources(env, owner, prefix, 2)
            name = chosen and chosen[0].rpartition(".")[0]
            if chosen and name not in self.taken:
                self.taken.add(name)
                self.call(env, "Program", f"{self.source_list(chosen)}, {given}", "program", name)
            return
        text = self.members(env, owner, prefix)
        if text:
            target = self.free([f"{prefix}{it}" for it in ("p", "q")]) if prefix else self.target("p", "q", "prog", "main", "tool")
            self.call(env, "Program", self.arguments(f"'{target}'", text, given), "program", target)

    def arguments(self, target, source, given):
        """How a target and its sources are given."""
        named, listed = f"source={source}, target={target}, {given}", f"[{target}], {source}, {given}"
        return self.pick(named, listed, *[f"{target}, {source}, {given}"] * 8)

    def library(self, prefix=""):
        env = self.env()
        given, owner = self.overlay(env)
        text = self.members(env, owner, prefix)
        if text:
            name = self.target("u", "z", "q", "$LIB" if "LIB" in env.has and self.chance(0.03) else "m")
            self.call(env, self.pick("Library", "StaticLibrary"), self.arguments(f"'{name}'", text, given), "library")

    def command(self):
        env = self.env()
        headers = ["gen.h", "inc/gen.h", "k.h", "inc/k.h"]
        names = [self.target("k.dat", "o.txt", "w.out", "data2.txt", "s1.c", "o2.txt", *headers) for _ in range(self.pick(1, 1, 1, 2))]
        source, has_source = self.command_sources(any(it.endswith(".h") for it in names))
        target = f"'{names[0]}'" if len(names) == 1 else f"[{', '.join(quoted(names))}]"
        target = f"File({target})" if len(names) == 1 and self.chance(0.05) else target
        given = parts([self.pick("WIDTH=5", "TITLE='own'", "CCFLAGS='-z'", "CPPPATH=['inc']")]) if self.chance(0.2) else ""
        action = self.action(env, has_source)
        text = f"target={target}, source={source}, action={action}, {given}" if self.chance(0.08) else f"{target}, {source}, {action}, {given}"
        self.call(env, "Command", text, "text", names[0])

    def command_sources(self, makes_header):
        """Sources of a command, and whether there are any; headers are made of files alone, since objects may need them."""
        found = quoted(self.some(self.files(r"\.(txt|in)$" if makes_header else r"\.(txt|in|c)$"), 0, 2))
        if not makes_header and self.chance(0.4):
            found += self.known(MADE + ["alias"] * self.chance(0.1), 2)
        if self.chance(0.12):
            found.append(f"Glob('{self.pick('*.txt', '*.in', '?n.txt', 'sub/*.txt', 'out/*.*', '[a-o]*.txt')}')")
        return found[0] if len(found) == 1 and self.chance(0.7) else f"[{parts(found)}]", bool(found)

    def action(self, env, has_source):
        lines = ACTIONS if has_source else [it for it in ACTIONS if not re.search(r"SOURCE\.|SOURCE |\$SOURCE$", it)]
        if "CMDS" in env.has and has_source and self.chance(0.2):
            return "'$CMDS'"
        if self.chance(0.2):
            return f"[{parts(quoted(self.dice.sample(lines, 2)))}'{self.dice.choice(lines)}']"
        if self.chance(0.08):
            return "'" + "\\n".join(self.dice.sample(lines, 2)) + "'"
        return f"'{self.dice.choice(lines)}'"

    def install(self):
        env, sources = self.env(), self.known(MADE)
        if not sources or self.chance(0.3):
            sources += quoted(self.some(self.files(r"\.(txt|h)$"), 1, 1))
        if self.chance(0.4):
            places = ["out/bin", "out/lib", "out/etc"] + ["#out/bin", "#out/lib"] * (not self.twice) + ["$PREFIX/bin"] * ("PREFIX" in env.has)
            place = self.free(places)
            text = f"'{place}'"
            text = self.pick(text, text, text, text if "$" in place else f"Dir('{place}')", f"[{text}]")
            return self.call(env, "Install", f"{text}, [{parts(sources)}]", "text")
        target = self.target("as.txt", "deep/as.txt", "as2.txt")
        is_list = sources[0] in [it for it, _ in self.nodes] and not self.chance(CLASH)
        return self.call(env, "InstallAs", f"'{target}', {f'Flatten([{sources[0]}])[0]' if is_list else sources[0]}", "text", target)

    def written(self):
        env = self.env()
        value = self.pick("'3'", "'$WIDTH'", "'text'")
        values = parts([f"SUBST_DICT={{'@V@': {value}, '@W@': 4}}"])
        if self.chance(0.5):
            target = self.target("notes", "gen.h", "t.cfg")
            name = target if "." in target.rpartition("/")[2] else f"{target}.txt"
            return self.call(env, "Textfile", f"'{target}', {self.pick(repr('one'), repr(['one', 'two @V@']), '[]')}, {values}", "text", name)
        if self.files(r"\.in$") and self.chance(0.5) and "v.h" not in self.taken:
            self.taken.add("v.h")
            given = "'v.h.in'" if self.files(r"^v\.h\.in$") else "'v.h', 'data.txt'"
            return self.call(env, "Substfile", f"{given}, {values}", "text", "v.h")
        target = self.target("v2.h", "v3.h", "k.h")
        sources = quoted(self.some(self.files(r"\.(in|txt)$"), 1, 9))
        return self.call(env, "Substfile", f"'{target}', [{', '.join(sources)}], {values}", "text", target)

    def own_builder(self):
        env = self.env()
        if not env.builders:
            return
        name, (suffix, source) = self.dice.choice(list(env.builders.items()))
        files = self.some(self.files(r"\.(txt|in)$"), 1, 2)
        files = [it[:-4] if it.endswith(".txt") and source == ".txt" and self.chance(0.3) else it for it in files]
        suffix = suffix or ".out"
        target = self.target("tt", "t2", f"t3{suffix}")
        self.call(env, name, f"'{target}', [{parts(quoted(files))}]", "text", target if target.endswith(suffix) else None)

    # What is said of nodes.

    def serial(self, text):
        """How many names of nodes are older."""
        return self.serials[re.sub(r"^(File\()?'|'\)?$|\[0\]$", "", text)]

    def said(self):
        targets, call = self.known(MADE, 1), self.method(self.pick("Depends", "Depends", "Requires", "Ignore", "AlwaysBuild"), 0.4)
        if targets and call.endswith("AlwaysBuild"):
            self.put(f"{call}({targets[0]})")
        elif targets:
            others = [it for it in self.known([*MADE, "alias"], 2) if self.serial(it) < self.serial(targets[0]) or self.chance(CLASH)]
            others += quoted(self.some(self.files(r"\.(txt|h)$"), 1, 1)) if self.chance(0.5) or not others else []
            self.put(f"{call}({targets[0]}, [{parts(others)}])")

    def alias(self):
        """An alias, of which mostly only those behind it in the alphabet of names have been members."""
        names = ["extra", "docs", "things", "install", "all"]
        name = self.dice.choice([it for it in names if it not in self.project.used or self.chance(CLASH)] or names)
        members = self.known(MADE, 3)
        aliases = [it for it in self.project.aliases if names.index(it) < names.index(name) or self.chance(CLASH)]
        members += [repr(self.dice.choice(aliases))] if aliases and self.chance(0.4) else []
        members += [self.pick("'out'", "Dir('out')", "'in.txt'" if self.is_first else "'data.txt'")] if self.chance(0.1) else []
        if not members and self.chance(0.7):
            return
        self.project.aliases.append(name)
        text = f"{self.method('Alias')}({self.pick(*[repr(name)] * 11, repr([name, name + '2']))}, [{parts(members)}])"
        if self.chance(0.2):
            node = self.new_name("n")
            self.nodes.append((node, "alias"))
            self.put(f"{node} = {text}")
        else:
            self.targets.append((name, "alias"))
            self.put(text)

    def default(self):
        members = self.known([*MADE, "alias"], 2)
        if members:
            self.put(f"{self.method('Default')}({', '.join(members)})")

    # What is printed, and Python.

    def printed(self):
        env, nodes = self.env(), [it for it, kind in self.nodes if kind != "alias"]
        text = self.pick("$CCFLAGS", "$CC -c", "$TITLE/$WIDTH", "${MORE[0]}", "$LINKFLAGS|", "$NONE")
        choices = [*PRINTED, f"print({env.name}.subst('{text}'))", f"print({env.name}.subst('$_CPPDEFFLAGS', raw=1))",
                   f"print({env.name}.get('{self.pick('TITLE', 'WIDTH', 'NONE', 'MORE')}', 'unset'))",
                   f"print({env.name}.File('$NAME.x').path, {env.name}.Dir('more/$NAME').name)" if "NAME" in env.has else "print(File('#xx').path)",
                   "print(ARGUMENTS.get('debug', 'no'))" if self.is_first else "print(Dir('../more').path)"]
        if nodes:
            node = self.dice.choice(nodes)
            choices += [f"print([it.path for it in {node}])", f"print(len({node}), {node}[0].name)", f"print({node}[0].abspath)"] * 2
            choices += [f"print(str({node}[0]))"] if self.is_first else []
        self.put(self.dice.choice(choices))

    def python(self):
        """A loop, a function, a condition or a list of calls."""
        env, name, file = self.env().name, self.new_name("l"), self.files("txt")[0]
        forms = [f"for it in [{parts(quoted([f'{name}a', f'{name}b']))}]:\n    {env}.Command(it + '.out', '{file}', 'loop $SOURCE $TARGET $WIDTH')",
                 f"def {name}(it, e={env}):\n    return e.Command(f'{{it}}.fun', '{file}', 'fun $TARGET ' + it)\n{name}n = {name}('{name}')",
                 f"if ARGUMENTS.get('debug', 0):\n    {env}.Append(CCFLAGS=['-ggdb'])\nelse:\n    {env}.Append(CCFLAGS=['-DNDEBUG'])",
                 f"{name}n = Flatten([{env}.Command(it.name + '.{name}', it, 'each $SOURCE') for it in Glob('*.txt')])",
                 f"for it in Glob('{self.pick('*.h', '*.txt', '*.in')}'):\n    {env}.Install('{self.place()}glob{name}', it)"]
        form = self.dice.choice(forms)
        if f"{name}n = " in form:
            self.nodes.append((f"{name}n", "text"))
        self.put(form)

    def rare(self):
        self.put(self.dice.choice(RARE))

    def left_out(self):
        self.put(self.dice.choice(LEFT_OUT))

    STEPS = [(environment, 2), (clone, 4), (default_environment, 0.2), (change, 8), (new_builder, 2), (object, 5), (program, 6), (library, 5),
             (command, 9), (install, 4), (written, 3), (own_builder, 3), (said, 6), (alias, 4), (default, 0.8), (printed, 5), (python, 3),
             (rare, 0.4), (left_out, 0.05)]

    def body(self, least, most):
        """So many statements at random."""
        steps, weights = zip(*self.STEPS)
        wanted = len(self.lines) + self.dice.randint(least, most)
        for _ in range(4 * most):
            if len(self.lines) >= wanted:
                break
            self.dice.choices(steps, weights)[0](self)

    def ends(self):
        """What the script gives back."""
        nodes = [it for it, _ in self.nodes]
        if nodes and self.chance(0.7):
            self.returns = self.dice.sample(nodes, 1 if self.chance(0.7) else min(2, len(nodes)))
            self.put(f"Return({self.pick(', '.join(quoted(self.returns)), repr(' '.join(self.returns)))})")
