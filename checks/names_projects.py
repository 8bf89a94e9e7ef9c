"""A random project: scripts over all names of SCons, below one another and in variant directories, and the words of a run."""
import random

from names_scripts import Script
from names_values import Env, parts

PATHS = ["src/SConscript", "lib/SConscript", "src/sub/SConscript"]


class Project:
    """The scripts of a project, each a list of statements."""

    def __init__(self, seed):
        self.dice = random.Random(seed)
        # Aliases, those that are members already, and the directories of scripts.
        self.scripts, self.aliases, self.used, self.places = {}, [], set(), []
        self.variants = self.dice.sample(["bld/s", "bld/l", "var", "var2", "bld/t"], 5)
        self.first = first = Script(self, "SConstruct")
        self.starts(first)
        first.body(2, 7)
        for path in self.dice.sample(PATHS, self.dice.choice([0, 1, 1, 2, 2, 3])):
            self.below(first, path, first.chance(0.25))
            first.body(0, 3)
        if self.variants and first.chance(0.25):
            self.variant(first)
        first.body(1, 5)
        self.scripts["SConstruct"] = first.lines

    def starts(self, first):
        if first.chance(0.15):
            first.envs.append(Env("DefaultEnvironment()"))
        made = Env("env")
        first.put(f"env = Environment({first.variables(made, 4)})")
        first.envs.append(made)

    def below(self, above, path, twice):
        """A script below another one, and its calls."""
        env = above.env() if above.is_first else above.envs[0]
        env = next((it for it in above.envs if it.name == "env"), env) if above.chance(0.5) else env
        script = Script(self, path, env, twice)
        how = script.pick("Export('env')", "list", "Export(env=..)", "exports")
        script.put(script.pick("Import('env')", "Import('*')", "Import(['env'])"))
        script.body(2, 6)
        if path == "src/SConscript" and "src/sub/SConscript" not in self.scripts and script.chance(0.3):
            self.below(script, "src/sub/SConscript", False)
            script.body(0, 2)
        script.ends()
        self.scripts[path] = script.lines
        for turn in range(2 if twice else 1):
            self.calls(above, script, env.name, how, turn or twice and above.chance(0.5))

    def exports(self, above, name, how):
        """How a call hands an environment on, in the call or in a statement before it."""
        if how == "Export('env')" and name == "env":
            above.put("Export('env')")
        elif how == "Export(env=..)":
            above.put(f"Export(env={name})")
        elif how == "list":
            return f"exports=[{{'env': {name}}}], "
        else:
            return "exports='env', " if name == "env" else f"exports={{'env': {name}}}, "
        return ""

    def calls(self, above, script, env, how, needs_variant):
        """One call of a script."""
        path = script.path[len(above.folder) + 1:] if above.folder else f"{above.pick('', '#')}{script.path}"
        given, place = self.exports(above, env, how), script.folder
        if self.variants and above.is_first and (needs_variant or above.chance(0.5)):
            place = self.variants.pop()
            given += f"variant_dir='{above.pick('', '#')}{place}', " + parts([above.pick("duplicate=0", "duplicate=False", "duplicate=1")])
        call = f"{above.method('SConscript', 0.3)}('{path}', {given})"
        if script.returns and above.chance(0.8):
            names, kinds = [above.new_name("r") for _ in script.returns], dict(script.nodes)
            call = f"{', '.join(names)} = {call}"
            above.nodes += [(it, kinds[old]) for it, old in zip(names, script.returns)]
        above.put(call)
        if above.is_first:
            above.targets += [(self.from_top(it, kind, place), kind) for it, kind in script.targets]
            self.places.append(place)

    def from_top(self, target, kind, place):
        """How the first script names a target of a script of this directory."""
        return target if kind == "alias" else target[1:] if target[0] == "#" else f"{place}/{target}"

    def variant(self, first):
        """A variant directory in the first script."""
        place = self.variants.pop()
        first.put(f"VariantDir('{first.pick('', '#')}{place}', 'src', {parts([first.pick('duplicate=0', 'duplicate=1', 'duplicate=False')])})")
        self.places.append(place)
        for _ in range(first.dice.randint(1, 3)):
            first.pick(first.object, first.program, first.library)(f"{place}/")

    def words(self):
        """The words of a run beside `-n -Q`."""
        known = [it for it, kind in self.first.targets if it[0] not in "#$" and kind != "alias"]
        known += [*sorted(set(self.aliases)), *(it for it in self.places if it not in ("src", "lib", "src/sub")), "."]
        words = self.first.some(list(dict.fromkeys(known)), 1, 3) if self.first.chance(0.5) else []
        return words + ["debug=1"] * self.first.chance(0.05) + ["-c"] * self.first.chance(0.06)
