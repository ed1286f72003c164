"""What the benchmarks run: published programs on growing families of hosts, with procedures written out, and long cases."""
import dataclasses
import sys

from building import GP2, ROOT, WORK, run


@dataclasses.dataclass(frozen=True)
class Core:
    """A core, by the name that gp2 gives it, and the most that it may be lent."""

    name: str
    nodes: int
    edges: int
    records: int


WIDE = Core("wide", 512, 1024, 1024)
SMALL = Core("small", 128, 255, 255)


# Host graphs, in the text notation.

def graph(count, edges, mark="", label=lambda k: "empty"):
    nodes = " ".join(f"(n{i}, empty{mark})" for i in range(count))
    joined = " ".join(f"(e{k}, n{s}, n{t}, {label(k)})" for k, (s, t) in enumerate(edges))
    return f"[ {nodes} | {joined} ]"


def edges_of(host):
    return host.count("(e")


def line(count):
    return [(i, i + 1) for i in range(count - 1)]


def ring(count):
    return line(count) + [(count - 1, 0)]


def binary_tree(count):
    return [((i - 1) // 2, i) for i in range(1, count)]


def grid(count):
    width = int(count ** 0.5)
    across = [(i, i + 1) for i in range(width * width) if (i + 1) % width]
    down = [(i, i + width) for i in range(width * width - width)]
    return width * width, across + down


def two_rings(count):
    """A ring, and an edge from each node to the seventh behind it."""
    return ring(count) + [(i, (i + 7) % count) for i in range(count)]


GREY = " # grey"


def colouring(count):
    size, edges = grid(count)
    return size, graph(size, edges, GREY)


# The free edge slots that a program takes on a host of n nodes.
ROOM = {"transitive-closure": lambda n: n * n, "topological-sorting": lambda n: 2 * n}

# A program, its family of hosts, the sizes, and whether the plot shows it (the rooted ones).
FAMILIES = [
    ("2-colouring", "grid", colouring, (9, 16, 36, 64, 121), True),
    ("is-connected", "line", lambda n: (n, graph(n, line(n), GREY)), (8, 16, 32, 64, 120), True),
    ("is-tree", "binary tree", lambda n: (n, graph(n, binary_tree(n), GREY)), (7, 15, 31, 63, 100), True),
    ("is-cycle", "ring", lambda n: (n, graph(n, ring(n), GREY)), (8, 16, 32, 64, 128), True),
    ("is-binary-dag", "binary tree", lambda n: (n, graph(n, binary_tree(n), GREY)), (7, 15, 31, 63, 100), True),
    ("topological-sorting", "line", lambda n: (n, graph(n, line(n), GREY)), (4, 8, 16, 24, 31), True),
    ("transitive-closure", "line", lambda n: (n, graph(n, line(n))), (4, 8, 12, 16), False),
    ("minimum-spanning-tree", "ring", lambda n: (n, graph(n, ring(n), "", lambda k: str(k * 7 % 11))), (4, 6, 8, 10), False),
    ("is-discrete", "discrete", lambda n: (n, graph(n, [])), (64, 128, 256, 512), False),
]

SKIPS = "Main = skip!\n"
# calls of the last of sixteen procedures, behind as many rules as there may be
CALLS = (
    "Main = P15!\n"
    + "".join(f"P{k} = skip\n" for k in range(16))
    + "".join(f"r{k}(x: list) [ (n1, x) | ] => [ (n1, x # red) | ] interface = {{n1}}\n" for k in range(32))
)
MARKS = "Main = mark!\nmark(x: list) [ (n1, x) | ] => [ (n1, x # red) | ] interface = {n1}\n"
# six nodes in a line, of which the last is nowhere: the search looks everywhere
NOWHERE = (
    "Main = if path then skip else skip\n"
    "path(a, b, c, d, e, x: list) [ (n1, x) (n2, x) (n3, x) (n4, x) (n5, x) (n6, x # red) "
    "| (e1, n1, n2, a) (e2, n2, n3, b) (e3, n3, n4, c) (e4, n4, n5, d) (e5, n5, n6, e) ] => "
    "[ (n1, x) (n2, x) (n3, x) (n4, x) (n5, x) (n6, x # red) "
    "| (e1, n1, n2, a) (e2, n2, n3, b) (e3, n3, n4, c) (e4, n4, n5, d) (e5, n5, n6, e) ] "
    "interface = {n1, n2, n3, n4, n5, n6}\n"
)
MOST_FUEL, LONG_FUEL = 1000000, 100000
# A name, a program, its host for a core: family, nodes and text; the fuel.
LONG = [
    ("loop of skip", SKIPS, "no node", lambda core: (0, "[ | ]"), MOST_FUEL),
    ("loop of calls", CALLS, "no node", lambda core: (0, "[ | ]"), MOST_FUEL),
    ("mark all nodes", MARKS, "discrete", lambda core: (core.nodes, graph(core.nodes, [])), LONG_FUEL),
    (
        "path of six, nowhere",
        NOWHERE,
        "ring",
        lambda core: (core.edges // 2, graph(core.edges // 2, two_rings(core.edges // 2))),
        LONG_FUEL,
    ),
]
NAMES = [name for name, *_ in FAMILIES + LONG]


@dataclasses.dataclass
class Case:
    """A program on a host of a size, with free edge slots as far as there may be so many. The families have procedures written out."""

    name: str
    family: str
    size: int
    program: str
    host: str
    fuel: int
    room: int = 0
    written_out: bool = False
    plotted: bool = False

    def image(self, core, within=None):
        """A runner image for a core, with slots and records within what a core may be lent; its own where none is named."""
        within = within or core
        stem = f"{self.name.replace(' ', '-')}-{self.size}"
        source, host = WORK / f"{stem}.gp2", WORK / f"{stem}.host"
        image = WORK / f"{stem}-{core.name}.image"
        source.write_text(self.program)
        host.write_text(self.host)
        slots = min(edges_of(self.host) + self.room, within.edges)
        numbers = ["--fuel", self.fuel, "--records", within.records, "--edges", slots, "--core", core.name]
        run([GP2, "asm", source, "--host", host, *numbers, *["--write-out"] * self.written_out, "-o", image])
        return image


def asked_for(programs):
    """The programs named, all where none is."""
    if unknown := set(programs) - set(NAMES):
        sys.exit(f"bench: no program is named {', '.join(sorted(unknown))}; there are: {', '.join(NAMES)}")
    return programs or NAMES


def cases(asked, core):
    """The cases of the programs asked for whose hosts a core may be lent, in the order of the table."""
    for name, family, make, sizes, plotted in (one for one in FAMILIES if one[0] in asked):
        program = (ROOT / "programs" / name / f"{name}.gp2").read_text()
        for size, host in map(make, sizes):
            if size <= core.nodes and edges_of(host) <= core.edges:
                room = ROOM[name](size) if name in ROOM else 0
                yield Case(name, family, size, program, host, MOST_FUEL, room, True, plotted)
    for name, program, family, make, fuel in (one for one in LONG if one[0] in asked):
        size, host = make(core)
        yield Case(name, family, size, program, host, fuel)
