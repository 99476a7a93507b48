"""Whether a function of the reader calls itself, directly or through others (document 02, P6): by the calls in what the
compiler made of each library, from which it links the program, and by the proofs that the prover asks for where functions
call each other in a cycle."""

import json
import os
import re
import signal
import subprocess

import support

CRATES_LIST = support.REPOSITORY / "crates.txt"
PROGRAM = "panel_service"
# The reading crates: the one that tests bytes eight at a time, by which the end of a line, its bytes and its runs are found, and
# all that use it, directly or through others, `text` and `input` among them.
LOWEST = "lanes"

# Some calls on a line's way through the reader. The graph must have them, or it is not the program's.
KNOWN_CALLS = [
    ("panel::step", "panel::take"),
    ("lines::take_lines", "lines::take_line"),
    ("lines::take_line", "panel::take"),
    ("panel::take", "hearing::hear"),
    ("hearing::hear", "line_codes::test_bytes"),
    ("hearing::hear", "request::request_of"),
    ("hearing::hear", "line_codes::test_form"),
    ("line_codes::test_bytes", "line_codes::only_allowed"),
    ("line_codes::only_allowed", "lanes::all"),
    ("lanes::all", "lanes::all_eights"),
    ("line_codes::test_form", "line_codes::walked"),
    ("line_codes::walked", "line_codes::is_sound"),
    ("line_codes::is_number_if_digit", "text::number_of"),
    ("text::first_piece", "text::run_length"),
    ("input::line_end", "input::bytes_before"),
]

# What stands in a crate's source where a function begins, and, behind the spaces, one that stands in something.
FUNCTION = re.compile(r"^([^/\n]*)\bfn (\w+)", re.MULTILINE)
# The name that functions in a cycle have for their one proof.
CYCLE = re.compile(r"#\[cycle\((\w+)\)\](?:\s*#\[[^\n]*\])*\s*[^/\n]*\bfn (\w+)")
# What is no code in a source: comments, and texts in quotes.
NO_CODE = re.compile(r'//[^\n]*|"(?:[^"\\]|\\.)*"')

# A call in what the compiler made: of a named function, of one that the caller's caller chose, or of an instruction. Any
# other, and a function whose address is taken, so that any other can call it, would not say which function is called.
CALLS = {"Fn", "Method", "Prim"}
NOT_SAID = {"CallV", "FnAddr", "Vtable", "Fork"}


# What stands in the graph between a function's name and those that are handed to it.
WITH = " with "


class NoGraph(Exception):
    """Why it is not known which function calls which."""


# ---- the program's functions


def check_calls(results):
    """The functions of the reading crates, in the program as it was last proved."""
    uses = crates_used()
    in_program = set(uses) & ({PROGRAM} | reached(uses, PROGRAM))
    crates = sorted(in_program & reading_crates(uses))
    try:
        graph = program_graph(sorted(in_program), set(uses))
    except NoGraph as why:
        results.report("calls of the program", str(why))
        return
    lost = [f"{crate}::{name}" for crate in crates for name in sorted(not_in(graph, crate))]
    results.report(f"calls: every function of the reading crates among {len(graph)}", f"not {lost}" if lost else None)
    lost = [f"{caller} to {called}" for caller, called in KNOWN_CALLS if called not in graph.get(caller, ())]
    results.report(f"calls: {len(KNOWN_CALLS)} known ones", f"not {lost}" if lost else None)
    results.report("calls: a call back would be found", call_back_not_found(graph))
    results.report("calls: the prover has the same cycles", other_cycles(graph, in_program))
    for crate in crates:
        count = len([function for function in graph if crate_of(function) == crate])
        why = cycles(graph, crate) if count else "the graph has none"
        results.report(f"calls: no cycle in {crate} ({count} of {len(graph)} functions)", why)


def program_graph(crates, own):
    """The calls of all functions of these crates, those that the program leaves out too. Of a library they are in what the
    compiler made of it; of the program, from which nothing is linked, they are in its text."""
    programs = [crate for crate in crates if is_program(crate)]
    libraries = [crate for crate in crates if crate not in programs]
    build_changed(libraries)
    graph = graph_of([compiled(crate) for crate in libraries], own)
    for crate in programs:
        graph.update(written_graph(crate, sources(crate), graph))
    return graph


def compiled(crate):
    """What the compiler made of a library's functions, as it lies beside its proof: a program is linked from that."""
    path = library_folder(crate) / f"{crate}.rlib" / "toolchain" / "mir.json"
    if not path.is_file():
        raise NoGraph(f"there is no {path}: run rt lib in crates/{crate}, or rt ci")
    return path.read_text()


def library_folder(crate):
    return support.CRATES / crate / "out" / "rlib"


def build_changed(crates):
    """Has a library proved and built anew where a file has changed since. `rt ci` leaves libraries that are not older than
    their sources; those that `rt check` left have a stamp, and `rt lib` goes by it, in those below too."""
    uses = crates_used()
    stamped = {crate for crate in crates if (library_folder(crate) / "stamp").exists()}
    below = set().union(*(reached(uses, crate) for crate in stamped))
    for crate in sorted(stamped - below):
        build(crate)


def build(crate):
    command, folder = ["rt", "lib"], support.CRATES / crate
    words = f"{' '.join(command)} in crates/{crate}"
    try:
        process = subprocess.Popen(command, cwd=folder, stdin=subprocess.DEVNULL, stdout=subprocess.PIPE,
                                   stderr=subprocess.STDOUT, encoding="utf-8", errors="replace", start_new_session=True)
    except OSError as failed:
        raise NoGraph(f"{words} was not run: {failed}")
    try:
        said, _ = process.communicate(timeout=support.PATIENCE)
    except subprocess.TimeoutExpired:
        raise NoGraph(f"{words} did not end within {support.PATIENCE} s; run it first")
    finally:
        # rt is a script: what it started has to end with it.
        if process.poll() is None:
            os.killpg(process.pid, signal.SIGKILL)
            process.communicate()
    if process.returncode != 0:
        last = (said.strip() or "nothing said").splitlines()[-1]
        raise NoGraph(f"{words} ended with status {process.returncode}: {last[:300]}")


def not_in(graph, crate):
    """The functions in a crate's source that the graph does not have. The crate's own tests, at the end of a file, are no part of
    the program; a function that a trait only declares stands there with a mark."""
    written = {name for text in sources(crate) for _, name in FUNCTION.findall(text.partition("#[cfg(test)]")[0])}
    return written - {last_name(function).removesuffix("+decl") for function in graph if crate_of(function) == crate}


def call_back_not_found(graph):
    """What is wrong, if a known call with a call back put beside it is not found as a cycle in both crates."""
    for caller, called in KNOWN_CALLS:
        with_call_back = {**graph, called: graph.get(called, set()) | {caller}}
        for function in (caller, called):
            if not cycles(with_call_back, crate_of(function)):
                return f"not that from {called} to {caller} in {crate_of(function)}"
    return None


# ---- the crates


def crates_used():
    """Each crate of crates.txt with those that it uses."""
    lines = [line.partition("#")[0] for line in CRATES_LIST.read_text().splitlines()]
    parts = [line.partition(":") for line in lines if line.strip()]
    return {crate.split()[0]: set(used.split()) for crate, _, used in parts}


def reading_crates(uses):
    return {crate for crate in uses if crate == LOWEST or LOWEST in reached(uses, crate)}


def is_program(crate):
    return (support.CRATES / crate / "src" / "main.rt").is_file()


def sources(crate):
    return [path.read_text() for path in sorted((support.CRATES / crate / "src").rglob("*.rt"))]


def check_proofs(results):
    """The prover asks for one proof of all functions in a cycle, and for one name of all in their source, where they are more
    than one: the reader has neither."""
    crates = reading_crates(crates_used())
    found = [str(folder.relative_to(support.CRATES)) for crate in sorted(crates) for folder in cycle_proofs(crate)]
    found += [f"{crate}, #[cycle({name})]" for crate in sorted(crates) for name in cycle_names(crate)]
    results.report(f"calls: no proof of a cycle in {len(crates)} reading crates", f"there is {found}" if found else None)


def cycle_proofs(crate):
    """The folders proofs/+NAME of a crate."""
    return sorted(folder for folder in (support.CRATES / crate / "proofs").rglob("+*") if folder.is_dir())


def cycle_names(crate):
    """Each name of a cycle in a crate's sources, with its functions."""
    names = {}
    for text in sources(crate):
        for name, function in CYCLE.findall(text):
            names.setdefault(name, []).append(function)
    return names


def other_cycles(graph, crates):
    """Which functions of these crates are in a cycle and have no such proof, or have one and are in none. The one that
    calls itself (`reply::put_digits`) is in a crate that does not use the reader: that it is found here shows that such a
    call is seen in what the compiler made."""
    called = [function for function in graph if crate_of(function) in crates and way_back(graph, function)]
    found = {f"{crate_of(function)}::{last_name(function)}" for function in called}
    proved = set()
    for crate in crates:
        named = cycle_names(crate)
        for folder in cycle_proofs(crate):
            name = folder.name[1:]
            proved |= {f"{crate}::{function}" for function in named.get(name, name.split("+"))}
    return None if found == proved else f"{sorted(found)} are in cycles, and the prover has {sorted(proved)}"


# ---- which function calls which


def graph_of(texts, own=()):
    """Each function that the compiler made, with those that it can call: those that its body names, those that it hands on,
    and those that are handed to it. One that calls what it is handed stands there once for each set of functions that a call
    hands to it, as it is another function for each. The functions of other crates than these are the toolchain's: they can call
    back only what is handed to them."""
    made = {}
    for text in texts:
        for name, body in definitions(text):
            if name in made:
                raise NoGraph(f"{name} is there twice")
            made[name] = Function(name, body)
    if not made:
        raise NoGraph("there is no function")
    pass_on(made)
    crates = {crate_of(name) for name in made} | set(own)
    graph, ahead = {}, [(function, function.at_hand(None)) for function in made.values()]
    while ahead:
        function, handed = ahead.pop()
        if label(function, handed) in graph:
            continue
        calls = function.calls(handed)
        ours = {name for name, _ in calls if crate_of(name) in crates}
        if not ours <= set(made):
            raise NoGraph(f"functions are called that are not there: {sorted(ours - set(made))}")
        met = [(made[name], made[name].at_hand(given)) for name, given in calls if name in ours]
        graph[label(function, handed)] = {label(*one) for one in met}
        ahead += met
    return graph


def label(function, handed):
    """A function's name; where it calls what it is handed, and some caller hands it less than all its callers together, with that."""
    return function.name if handed == function.at_hand(None) else f"{function.name}{WITH}{', '.join(sorted(handed))}"


def definitions(text):
    """Each function in what the compiler made of a library, by its name."""
    try:
        found = json.loads(text)
    except json.JSONDecodeError as failed:
        raise NoGraph(f"what the compiler made cannot be read: {failed}")
    if not isinstance(found, list):
        raise NoGraph("what the compiler made is no list")
    for one in found:
        if not (isinstance(one, list) and len(one) == 2 and isinstance(one[0], str) and "::" in one[0]):
            raise NoGraph(f"no function with its name: {str(one)[:100]}")
        if not (isinstance(one[1], dict) and isinstance(one[1].get("body"), list) and isinstance(one[1].get("generics"), dict)):
            raise NoGraph(f"{one[0]} is in a form that is not known")
    return found


class Function:
    """What a function's body names. A function is handed on with an `impl` that has it, at a call of what takes such a one;
    `Given` is one that the function itself was handed."""

    def __init__(self, name, made):
        self.name = name
        self.body = made["body"]
        for word in NOT_SAID:
            if any(True for _ in standing(self.body, word)):
                raise NoGraph(f"{name} has a call that does not say of which function, or the address of one ({word})")
        self.methods = {impl["name"]: set(impl["methods"]) for impl in made["generics"].get("impls", [])}
        self.is_given = any(True for _ in standing(self.body, "Given"))
        # What this function's callers hand to it, all together.
        self.handed = frozenset()
        # What is handed: to which functions (None: those that were handed to this one), which, and whether those too that were handed to this one.
        self.hands = []
        try:
            self.named = self._read()
        except (KeyError, TypeError, ValueError, IndexError):
            raise NoGraph(f"{name} names a function in a form that is not known")

    def _read(self):
        for called, *_ in standing(self.body, "Call"):
            if not (isinstance(called, dict) and len(called) == 1 and set(called) <= CALLS):
                raise NoGraph(f"{self.name} has a call that does not say of which function")
        # Each with what is handed to it there, and whether that too which is handed to this function.
        named = set()
        for name, at in standing(self.body, "Fn"):
            if not isinstance(name, str):
                raise TypeError
            named.add((name, *self._hand({name}, at["dicts"])))
        for name, _, inside in standing(self.body, "Impl"):
            named |= {(method, None, False) for method in self.methods[name] - self._provided()}
            self._hand(self.methods[name], inside)
        for of, _, at in standing(self.body, "Method"):
            self._hand(self.methods[of["Impl"][0]] if "Impl" in of else None, at["dicts"])
        return named

    def _provided(self):
        """This function, where all that it does is to call the toolchain's method of its own name: one that a trait provides, which an `impl` without
        one of its own has so. That method is handed the `impl`, and can call each of its methods but this one, as the toolchain proves that it ends."""
        called = [call["Fn"][0] if "Fn" in call else "" for call, *_ in standing(self.body, "Call")]
        alone = len(called) == 1 and called[0].startswith("core::") and last_name(called[0]) == last_name(self.name)
        return {self.name} if alone else set()

    def calls(self, handed):
        """The functions that it can call where these are handed to it, each with what it hands to that one (None: what any does)."""
        through = {(name, None) for name in (handed if self.is_given else ())}
        return through | {(name, None if given is None else given | (handed if on else frozenset())) for name, given, on in self.named}

    def at_hand(self, given):
        """What it is handed at such a call; nothing where it calls none of it. A call that hands nothing to one that needs something is
        taken for one that hands it all that it is handed anywhere."""
        return frozenset() if not self.is_given else given or self.handed

    def _hand(self, to, given):
        handed = frozenset().union(*(self.methods[impl[0]] for impl in standing(given, "Impl")))
        passes_on = any(True for _ in standing(given, "Given"))
        if handed or passes_on:
            self.hands.append((to, handed, passes_on))
        return handed, passes_on


def standing(tree, word):
    """All that stands under this word, at any depth."""
    if isinstance(tree, dict):
        for key, below in tree.items():
            if key == word:
                yield below
            yield from standing(below, word)
    elif isinstance(tree, list):
        for below in tree:
            yield from standing(below, word)


def pass_on(made):
    """Has each function know what it is handed, also from callers of its callers."""
    grows = True
    while grows:
        grows = False
        for function in made.values():
            for to, handed, passes_on in function.hands:
                all_handed = handed | (function.handed if passes_on else set())
                for name in (function.handed if to is None else to) & set(made):
                    if not all_handed <= made[name].handed:
                        made[name].handed |= all_handed
                        grows = True


def written_graph(crate, texts, graph):
    """The functions of a program, each with those of its crate, and those of a library, that its text names. Any function of
    the program can call one that does not stand at the margin, as a method of an `impl`, without naming it."""
    bodies, called_by_all = {}, set()
    for text in texts:
        code = NO_CODE.sub("", text)
        begins = list(FUNCTION.finditer(code))
        for begin, next_one in zip(begins, begins[1:] + [None]):
            name = begin[2]
            bodies[name] = bodies.get(name, "") + code[begin.end():next_one.start() if next_one else None]
            if begin[1].startswith((" ", "\t")):
                called_by_all.add(f"{crate}::{name}")
    written = {}
    for name, body in bodies.items():
        words = set(re.findall(r"\w+", body))
        named = {f"{crate}::{other}" for other in bodies if other in words} | called_by_all
        written[f"{crate}::{name}"] = named | {f for f in graph if {crate_of(f), last_name(f)} <= words}
    return written


def crate_of(function):
    return function.split("::")[0]


def last_name(function):
    """A function's name without its crate, the modules that it stands in and what it is handed."""
    return function.partition(WITH)[0].split("::")[-1]


def reached(graph, start):
    """All that can be reached from here in one step or more."""
    found, ahead = set(), [start]
    while ahead:
        new = graph.get(ahead.pop(), set()) - found
        found |= new
        ahead += new
    return found


def way_back(graph, function):
    """A shortest way of calls from a function back to it; None if there is none."""
    ways, seen = [[function]], set()
    while ways:
        longer = []
        for way in ways:
            called = graph.get(way[-1], set())
            if function in called:
                return way + [function]
            longer += [way + [name] for name in sorted(called - seen)]
            seen |= called
        ways = longer
    return None


def cycles(graph, crate):
    """The cycles of calls that go through a function of this crate, in words."""
    ways = [way_back(graph, function) for function in sorted(graph) if crate_of(function) == crate]
    return "; ".join(" calls ".join(way) for way in ways if way) or None


# ---- made-up programs, to see that a cycle is found


# What is made up, who calls whom, and the crates in which there is a cycle.
MADE_UP = [
    ("no cycle", {"c::main": ["b::f", "b::g", "a::h"], "b::f": ["b::g", "a::h"], "b::g": ["a::h"], "a::h": []}, []),
    ("names that begin alike", {"a::f": ["a::ff", "aa::f"], "a::ff": [], "aa::f": []}, []),
    ("a function that calls itself", {"b::main": ["a::f"], "a::f": ["a::g", "a::f"], "a::g": []}, ["a"]),
    ("two that call each other", {"b::main": ["a::f"], "a::f": ["a::g"], "a::g": ["a::h", "a::f"], "a::h": []}, ["a"]),
    ("three of three crates", {"a::f": ["b::g"], "b::g": ["d::i", "c::m::h"], "c::m::h": ["a::f"], "d::i": []},
     ["a", "b", "c"]),
    ("two cycles", {"a::f": ["a::f", "b::g"], "b::g": ["c::h"], "c::h": ["b::g"], "d::i": ["a::f"]}, ["a", "b", "c"]),
]
EMPTY = {"types": [], "dicts": []}
PLACE = {"local": 0, "steps": []}


def made_of(name, body, impls=()):
    """A function as the compiler makes it. Types are told by names in quotes, and these may have brackets."""
    return [name, {"params": 0, "generics": {"types": [], "impls": list(impls)}, "locals": [{"ty": {"Struct": ["&[](", []]}}],
                   "body": [*body, "Return"]}]


def call(function, at=EMPTY):
    return ["Seq", {"Call": [{"Fn": [function, at]}, [{"Copy": {"local": 1, "steps": []}}], PLACE]}]


def handing(*given):
    return {"types": [], "dicts": list(given)}


def impl_of(function):
    return {"Impl": [f"{function} at a call", [], []]}


def table_of(*functions):
    return [{"name": f"{function} at a call", "methods": [function]} for function in functions]


# A call of what was handed, and how one function is handed on to another function of the program, or to one of the toolchain.
GIVEN = {"Given": 0}
CALL_GIVEN = ["Seq", {"Call": [{"Method": [GIVEN, 0, EMPTY]}, [], PLACE]}]


def called(name, others):
    return made_of(name, [step for other in others for step in call(other)])


def handed_on(name, others):
    steps = [step for other in others for step in call("core::option::Option::map", handing(impl_of(other)))]
    return made_of(name, steps, table_of(*others))


# Made-up programs in which a function calls what it is handed: what is made up, the functions, the crates with a cycle.
HANDED = [
    ("one that calls nothing back",
     [made_of("a::by", CALL_GIVEN), made_of("b::f", call("a::by", handing(impl_of("b::g"))), table_of("b::g")), made_of("b::g", [])],
     []),
    ("one that calls back where it was handed to",
     [made_of("a::by", CALL_GIVEN), made_of("b::f", call("a::by", handing(impl_of("b::g"))), table_of("b::g")),
      called("b::g", ["a::by"])],
     ["a", "b"]),
    ("one that calls back where it was passed on to",
     [made_of("a::by", CALL_GIVEN), made_of("c::on", call("a::by", handing(GIVEN))),
      made_of("b::f", call("c::on", handing(impl_of("b::g"))), table_of("b::g")), called("b::g", ["a::by"])],
     ["a", "b"]),
    ("one inside another",
     [made_of("a::by", CALL_GIVEN),
      made_of("b::f", call("a::by", handing({"Impl": ["a::m at a call", [], [impl_of("b::g")]]})), table_of("a::m", "b::g")),
      made_of("a::m", CALL_GIVEN), called("b::g", ["a::m"])],
     ["a", "b"]),
    ("one that is made for one at hand",
     [made_of("c::by", ["Seq", {"Call": [{"Method": [GIVEN, 0, handing(impl_of("c::h"))]}, [], PLACE]}], table_of("c::h")),
      made_of("b::f", call("c::by", handing(impl_of("b::m"))), table_of("b::m")), made_of("b::m", CALL_GIVEN),
      called("c::h", ["b::m"])],
     ["b", "c"]),
    ("one that calls back with another in hand",
     [made_of("a::by", CALL_GIVEN), made_of("b::f", call("a::by", handing(impl_of("b::g"))), table_of("b::g")),
      made_of("b::g", call("a::by", handing(impl_of("b::h"))), table_of("b::h")), made_of("b::h", [])],
     []),
    ("one that a trait of the toolchain provides, by that very one",
     [made_of("a::m", call("core::t::m", handing(impl_of("a::m"))), table_of("a::m"))],
     []),
    ("one that a trait of the toolchain provides, beside one that calls it",
     [made_of("a::m", call("core::t::m", handing(impl_of("a::m"))), [{"name": "a::m at a call", "methods": ["a::m", "b::next"]}]),
      called("b::next", ["a::m"])],
     ["a", "b"]),
    ("one that a trait of the toolchain provides, by another",
     [made_of("a::m", call("core::t::other", handing(impl_of("a::m"))), table_of("a::m"))],
     ["a"]),
    ("one that calls back with itself in hand, behind another",
     [made_of("a::by", CALL_GIVEN), made_of("b::f", call("a::by", handing(impl_of("b::g"))), table_of("b::g")),
      made_of("b::g", call("a::by", handing(impl_of("b::h"))), table_of("b::h")),
      made_of("b::h", call("a::by", handing(impl_of("b::g"))), table_of("b::g"))],
     ["a", "b"]),
]

# Texts of made-up programs from which nothing is linked, and the crates with a cycle.
WRITTEN = [
    ("no cycle", "// main is named here\nfn main() {\n    helper(\"main\");\n}\n\nfn helper(n: u8) {}\n", []),
    ("a function that calls itself", "fn main() {\n    if true {\n        main();\n    }\n}\n", ["p"]),
    ("two that call each other", "fn main() {\n    go();\n}\n\nfn go() {\n    s::m::serve(|| main());\n}\n", ["p"]),
    ("a method that calls back", "fn main() {\n    s::show(X {});\n}\n\nimpl S for X {\n    fn shown(&self) {\n        main();\n    }\n}\n",
     ["p"]),
]

# Texts that are no graph.
NO_GRAPHS = [
    ("nothing", ""),
    ("another form", "fn main() { f(); }"),
    ("a program in no list", json.dumps({"a::f": made_of("a::f", [])[1]})),
    ("no function", "[]"),
    ("a bracket that is not closed", json.dumps([made_of("a::f", [])])[:-1]),
    ("a bracket too many", json.dumps([made_of("a::f", [])]) + "]"),
    ("a quote too many", json.dumps([made_of("a::f", [])]) + '"'),
    ("a function that is not there", json.dumps([called("a::f", ["a::g"])])),
    ("a function handed on that is not there", json.dumps([handed_on("a::f", ["a::g"])])),
    ("a function that is there twice", json.dumps([called("a::f", []), called("a::f", [])])),
    ("a call of a function that was handed on",
     json.dumps([made_of("a::f", ["Seq", {"CallV": [{"Copy": PLACE}, {"abi": "Rattle", "types": []}, [], PLACE]}])])),
    ("a function's address",
     json.dumps([made_of("a::f", ["Seq", {"Assign": [PLACE, {"Opd": {"FnAddr": {"callee": {"Fn": ["a::f", EMPTY]}}}}]}])])),
    ("a table of functions",
     json.dumps([made_of("a::f", ["Seq", {"Assign": [PLACE, {"Aggregate": [{"Vtable": [[], [{"callee": {"Fn": ["a::f", EMPTY]}}]]}]}]}])])),
    ("a call in another form", json.dumps([made_of("a::f", ["Seq", {"Call": [{"Direct": ["a::f", EMPTY]}, [], PLACE]}])])),
    ("a function named in another form", json.dumps([made_of("a::f", ["Seq", {"Call": [{"Fn": {"name": "a::f"}}, [], PLACE]}])])),
    ("a function handed on in a form that is not told", json.dumps([made_of("a::f", call("a::f", handing(impl_of("a::g"))))])),
    ("a definition in another form", json.dumps([called("a::f", []), {"a::g": called("a::g", [])[1]}])),
    ("a function with no body", json.dumps([["a::f", {"generics": {}}]])),
]


def check_finder(results):
    """Cycles in made-up programs are found where they are, and a text that cannot be read is not taken for a graph."""
    for what, calls, wanted in MADE_UP:
        for how, form in [("called", called), ("handed on", handed_on)]:
            text = json.dumps([form(name, others) for name, others in calls.items()])
            results.report(f"calls made up, {what}, {how}", wrong_crates(lambda: graph_of([text]), wanted))
    for what, functions, wanted in HANDED:
        for how, texts in [("in one text", [functions]), ("in a text each", [[function] for function in functions])]:
            graph = lambda: graph_of([json.dumps(text) for text in texts], ["a", "b", "c"])
            results.report(f"calls made up, a function is handed {what}, {how}", wrong_crates(graph, wanted))
    for what, text, wanted in WRITTEN:
        libraries = {"s::m::serve": set(), "s::show": set()}
        graph = lambda: {**libraries, **written_graph("p", [text], libraries)}
        results.report(f"calls made up, {what}, in the text of a program", wrong_crates(graph, wanted))
    for what, text in NO_GRAPHS:
        results.report(f"calls made up, {what}, is no graph", taken_for_graph(text))


def wrong_crates(make, wanted):
    """What is wrong, if cycles are found in other crates than these."""
    try:
        graph = make()
    except NoGraph as why:
        return str(why)
    found = [crate for crate in sorted({crate_of(function) for function in graph}) if cycles(graph, crate)]
    return None if found == wanted else f"found in {found} instead of {wanted}"


def taken_for_graph(text):
    try:
        return f"taken for {graph_of([text])}"
    except NoGraph:
        return None
