"""Types whose values have to be dropped: where a value isn't read back whole, what was read of it before is let go. A value that no other holds is handed to the
caller, who may take it apart.
"""

from .model import Declaration, Module, Refused, Type
from .recursive.chains import is_chain
from .recursive.terms import Terms

# The traits by which a value may be let go.
DROPPED = {"Copy", "Drop"}


def is_dropped(it: Declaration) -> bool:
    """Whether values of a type may be let go. Of a list `drop` is written."""
    return it.is_dropped or it.recursive and not Terms(it).inner and is_chain(it, Terms(it).leads_back)


def check_drops(module: Module):
    """Refuses a type that another one holds, or that holds itself, if it can't be dropped."""
    for it in module.declarations:
        for field in it.all_fields():
            check_type(it, field.type)


def check_type(holder: Declaration, type: Type):
    if type.name == "PhantomData" and type.own is None:
        return
    own = type.own
    if own is not None and not is_dropped(own):
        where = "itself" if own is holder else f"`{holder.name}`"
        raise Refused(own.path, own.line, f"`{own.declared_name}` is held by {where}, so what was read of it is dropped where reading fails; derive `Drop`, or `Copy`")
    for arg in type.args:
        check_type(holder, arg)
