"""Types that hold themselves."""

from typing import Dict, Iterator, List, Optional, Tuple

from .recursive import holders, refusals
from .recursive.endless import check_ends
from .model import Declaration, Refused, Type

POINTERS = {"Box", "BoxSlice", "Vec", "BTreeMap", "Shared", "SharedSlice", "WeakShared"}
# For each parameter of a declaration that a value of it holds: whether only behind a pointer.
Reach = Dict[str, bool]
# A declaration that a field holds, whether behind a pointer, and the field's line.
Edge = Tuple[Declaration, bool, int]


def leaves(it: Type, behind: bool, reach: Dict[int, Reach]) -> Iterator[Tuple[Type, bool]]:
    """The own types and parameters that a type holds, each with whether it is behind a pointer."""
    if it.name == "PhantomData" and it.own is None:
        return
    if it.parameter:
        yield it, behind
        return
    if it.own is None:
        for x in it.args:
            yield from leaves(x, behind or it.name in POINTERS, reach)
        return
    yield it, behind
    held = reach.get(id(it.own), {})
    for parameter, x in zip(it.own.parameters, it.args):
        if parameter.name in held:
            yield from leaves(x, behind or held[parameter.name], reach)


def all_of(declarations: List[Declaration]) -> List[Declaration]:
    """These and all that their fields name."""
    out: List[Declaration] = []

    def go(it: Declaration):
        if not any(x is it for x in out):
            out.append(it)
            for field in it.all_fields():
                go_type(field.type)

    def go_type(it: Type):
        if it.own is not None:
            go(it.own)
        for x in it.args:
            go_type(x)

    for it in declarations:
        go(it)
    return out


def reach_of(declarations: List[Declaration]) -> Dict[int, Reach]:
    """For each declaration, the parameters that it holds."""
    reach: Dict[int, Reach] = {id(it): {} for it in declarations}
    changed = True
    while changed:
        changed = False
        for it in declarations:
            for field in it.all_fields():
                for leaf, behind in leaves(field.type, False, reach):
                    held = reach[id(it)]
                    if leaf.parameter and (leaf.name not in held or held[leaf.name] and not behind):
                        held[leaf.name] = behind
                        changed = True
    return reach


def circle(start: Declaration, edges: Dict[int, List[Edge]], behind: bool) -> Optional[List[Edge]]:
    """The shortest way from a declaration back to itself; only over what isn't behind a pointer, unless `behind`."""
    ways: List[List[Edge]] = [[]]
    seen = set()
    while ways:
        way = ways.pop(0)
        for edge in edges[id(way[-1][0] if way else start)]:
            if edge[1] and not behind:
                continue
            if edge[0] is start:
                return way + [edge]
            if id(edge[0]) not in seen:
                seen.add(id(edge[0]))
                ways.append(way + [edge])
    return None


def reached_from(start: Declaration, edges: Dict[int, List[Edge]]) -> List[Declaration]:
    """The declarations that this one holds, behind pointers or not, through others or not."""
    out: List[Declaration] = []
    left = [start]
    while left:
        for other, _, _ in edges[id(left.pop())]:
            if not any(x is other for x in out):
                out.append(other)
                left.append(other)
    return out


def check_circles(declarations: List[Declaration]):
    every = all_of(declarations)
    reach = reach_of(every)
    edges: Dict[int, List[Edge]] = {
        id(it): [
            (leaf.own, behind, field.line) for field in it.all_fields() for leaf, behind in leaves(field.type, False, reach) if leaf.own is not None
        ]
        for it in every
    }
    for it in every:
        way = circle(it, edges, False)
        if way:
            names = " > ".join([it.name] + [edge[0].name for edge in way])
            raise Refused(it.path, way[0][2], f"`{it.name}` contains itself with no pointer between ({names}); put a `Box`, a `Vec` or a `Shared` between")
    for it in every:
        way = circle(it, edges, True)
        it.recursive = way is not None
    check_ends(every)
    reached = {id(it): reached_from(it, edges) for it in every}
    for it in every:
        it.holds_recursive = not it.recursive and any(x.recursive for x in reached[id(it)])
        if it.recursive:
            it.family = sorted((x for x in reached[id(it)] if any(y is it for y in reached[id(x)])), key=lambda x: (x.path, x.line))
    check_marks(every)
    for it in every:
        holders.tell(it)
    for it in every:
        way = circle(it, edges, True)
        if way:
            refuse_recursive(it, way)
        else:
            holders.check(it)


def named(it: Declaration, type: Type, every: List[Declaration]) -> Iterator[Declaration]:
    """The declarations that a type names, those in a `PhantomData` as well, which are looked for in the file of the declaration."""
    if type.own is not None:
        yield type.own
    elif type.path == ("Self",):
        yield it
    elif len(type.path) == 1 and not type.parameter:
        yield from (x for x in every if x.name == type.name and x.path == it.path)
    for x in type.args:
        yield from named(it, x, every)


def check_marks(every: List[Declaration]):
    """Refuses a type that no value of it holds and that names itself: to the toolchain it is recursive."""
    edges: Dict[int, List[Edge]] = {
        id(it): [(x, False, field.line) for field in it.all_fields() for x in named(it, field.type, every)] for it in every
    }
    for it in every:
        way = None if it.recursive else circle(it, edges, True)
        if way and not any(x.recursive for x, _, _ in way):
            names = " > ".join([it.name] + [edge[0].name for edge in way])
            said = f"`{it.name}` names itself, though it holds none ({names}); mark it by a type of its own, as `struct {it.name}Mark;`"
            raise Refused(it.path, way[0][2], said)


def refuse_recursive(it: Declaration, way: List[Edge]):
    """What isn't written yet of types that hold themselves behind a pointer."""
    names = " > ".join([it.name] + [edge[0].name for edge in way])
    refusals.check_recursive(it, way[0][2], names)
