"""The answers on `resolve`."""

from . import proofs, resolved, resolvers, weak
from .refusals import keeps_memory


def files(it):
    """None where a variant's fields are lent to a call of the module."""
    answers = proofs.Answers(it.family, f"{it.name}Archive/resolve")
    if any(case.is_long for case in it.cases):
        return {}
    if it.is_record:
        if not resolved.is_told(it) or weak.is_resolved(it):
            return {}
        answers.answer("", "returns", resolved.record(it), "g")
        return answers.files()
    if len(it.cases) < 2 or is_split(it):
        return {}
    ends = resolved.arms(it) if resolved.is_told(it) else [end(it, case) for case in it.cases]
    arms = "".join(f"  | {arm(case)} w ↦ {its}\n" for case, its in zip(it.cases, ends))
    answers.answer("", "returns", f"elim g.match-self.branch [\n{arms}]", "g")
    return {path: with_arms(text, map(arm, it.cases)) for path, text in answers.files().items()}


def is_split(it):
    """Whether the arm of a variant without fields is more than one: what was kept is let go there, which tells the variants apart where that has memory."""
    return any(not case.count for case in it.cases) and any(keeps_memory(field.type) for field in it.declaration.all_fields())


def arm(case):
    """The arm that a variant is resolved in, by the check's name."""
    return f"in-{case.name}+in-{case.name}-resolver" if case.count else f"in-{case.name}"


def end(it, case):
    """What a variant's arm comes to."""
    here = f"w.in-{case.name}"
    opened = " ".join([f"{case.n}_opens"] + [f"{here}.{name}" for name in resolvers.bound(it, case)])
    steps = [f"{here}.is", f"{here}-resolver.is", opened] if case.count else [f"{here}.is", opened]
    return f"rw ({', '.join(steps + ['w.bytes-is', 'w.result-is'])}) (search rules)"


def with_arms(text, arms):
    """An answer's file, which brings in the arms."""
    before, goals, after = text.rpartition(".Goals as goal\n")
    path = before[before.rindex("use ") :]
    return f"{before}{goals}{path}.Goals.{{{', '.join(arms)}}}\n{after}"
