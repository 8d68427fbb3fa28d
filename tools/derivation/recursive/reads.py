"""The names by which proofs know parts that are read one after another."""

from ..common import numbered


def is_made(type):
    """Whether a plain part is a tuple or made of some: then it is read by a function of its own, since what the toolchain makes of the call grows fast."""
    return type.own is None and (type.name == "tuple" or any(map(is_made, type.args)))


def word_of(it, type):
    """The function that reads a part back: where the part leads back or is made of tuples, one of the module."""
    if it.terms.leads_back(type):
        return f"read_{it.word(type)}"
    return f"read_{it.word(type)}_of_{it.family.n}" if is_made(type) else "read_part"


def skips_none(it, type):
    """Whether a vector with no elements is read back by no call: one of values of the family. Most nodes of a tree are leaves, and a result that a call returns
    goes through memory."""
    return type.name == "Vec" and it.terms.is_member(type.args[0]) and not it.family.shares


class Reads:
    """The calls that read parts, each by its index. They go by a `match` each, which has fewer variables than a `?`: the check writes out the type of each at each
    step, and an error's in a hundred lines."""

    def __init__(self, it, names, types):
        # the first arms are named alone, those behind them by the call
        words = [word_of(it, type) for type in types]
        arms = [""] + [f"-{word}" for word in numbered(words[1:])]
        self.oks = [f"in-Ok{arm}" for arm, _ in zip(arms, names)]
        self.errs = [f"in-Err{arm}" for arm, _ in zip(arms, names)]
        self.values = [f"c.{ok}.{name}" for ok, name in zip(self.oks, names)]
