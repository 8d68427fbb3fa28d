"""Arrays in fields. In another type those of integers, `bool` and `char` are read back as they are: the library has an impl for each. Others are read back as
`OwnedArray`s, of which functions of the module make the arrays, for each type one: no call for any length that may fail returns an array that may own memory,
and a user's crate may have no impl for an array of its own type.

    fn f<const N: usize>(x: [String; N]) -> Result<[String; N], Error> { Ok(x) }

So is a field that is an array itself: the check covers none that is taken out of what was read and made part of a value.

What an `Option`, a `Result`, a tuple or an array holds goes from one to the other as it is, so these functions return just what they were given. What is behind
a pointer would take memory anew, so it isn't made.
"""

from dataclasses import replace

from . import formats

# An array of so many arrays is taken apart by a pattern of its elements: of sixteen the search did not prove that they are the same.
MOST_APART = 3
# Of what is no integer by its name, arrays are read back as they are, too.
SINGLE = {"bool", "char", "usize", "isize"}


def is_array(type):
    return type.own is None and type.name == "array"


def is_read(type):
    """Whether arrays of this type are read back as they are."""
    return type.own is None and not type.parameter and (type.name in formats.INTEGERS or type.name in SINGLE)


def is_remade(type):
    """Whether a type within another one has an array that isn't read back as it is."""
    if type.own is not None or type.parameter or type.name == "PhantomData":
        return False
    return is_array(type) and not is_read(type.args[0]) or any(map(is_remade, type.args))


def is_made(type):
    """Whether a field of this type is made of what was read back."""
    return is_array(type) or is_remade(type)


def within(type):
    """What a type within another one is read back as."""
    if not is_remade(type):
        return type
    name = "OwnedArray" if is_array(type) else type.name
    return replace(type, name=name, args=[within(arg) for arg in type.args], text="")


def as_read(type):
    """What a field is read back as."""
    return replace(type, name="OwnedArray", args=[within(type.args[0])], text="") if is_array(type) else within(type)


def unmade(type):
    """Why an array in a field of this type isn't made of what is read back, if so."""
    if type.parameter or type.name == "PhantomData":
        return None
    of_parameter = array_of_parameter(type)
    if of_parameter:
        return f"an array of a type parameter isn't read back; write a `Vec` in place of `{of_parameter.text}`"
    if not holds(type):
        return None
    if type.own is not None:
        return f"an array in the arguments of a struct isn't read back; write a `Vec` in place of `{first(type).text}`"
    is_long = is_array(type) and int(type.length) > MOST_APART
    if is_remade(type) and type.name in formats.POINTERS | {"OwnedArray"} or is_long and is_remade(type.args[0]):
        array = made_in(type.args[0]) if is_long else made_in(type)
        item, where = array.args[0].text, f"more than {MOST_APART} others" if is_long else f"`{type.name}`"
        return f"an array of `{item}` in {where} is read back as an `OwnedArray`; write `OwnedArray<{item}, {array.length}>`, of `archive_core::core_impls`"
    return next((why for arg in type.args if (why := unmade(arg))), None)


def holds(type):
    """Whether a type has an array, other than in a type that the user declared."""
    return is_array(type) or not type.parameter and type.name != "PhantomData" and any(map(holds, type.args))


def has_array(type):
    """Whether a value of this type has an array in it, which isn't behind a pointer."""
    return holds(type) and (is_array(type) or type.name not in formats.POINTERS and any(map(has_array, type.args)))


def has_parameter(type):
    return type.parameter or any(map(has_parameter, type.args))


def array_of_parameter(type):
    """The first array in a type of what has a type parameter, also one that is read back."""
    if type.own is None and type.name in ("array", "OwnedArray") and has_parameter(type):
        return type
    return next((found for arg in type.args if (found := array_of_parameter(arg))), None)


def first(type):
    """The first array in a type."""
    return type if is_array(type) else next(map(first, filter(holds, type.args)))


def made_in(type):
    """The first array in a type that isn't read back as it is."""
    return type if is_array(type) else next(map(made_in, filter(is_remade, type.args)))


def words(type):
    """A type as a part of a name."""
    name = f"array{type.length}" if is_array(type) else f"tuple{len(type.args)}" if type.own is None and type.name == "tuple" else type.name
    return "_".join(["unit" if name == "()" else formats.snake(name)] + [words(arg) for arg in type.args])


class Arrays:
    """The functions of a module that make what has arrays."""

    def __init__(self, its):
        self.formats = its
        self.names = {}  # of each function by its type, with that type in words
        self.texts = {}  # of each function by its name

    def called(self, type):
        """The name of the call that makes a value of this type of what is read back in its place."""
        if is_array(type) and not is_remade(type.args[0]):
            return "into_array"
        spelled = self.formats.spelled(type)
        if spelled not in self.names:
            alike = sum(words(type) == it for it, _ in self.names.values())
            name = f"made_{words(type)}" + (f"_{alike + 1}" if alike else "")
            self.names[spelled] = (words(type), name)
            self.texts[name] = self.text(name, type)
        return self.names[spelled][1]

    def value(self, type, name):
        """A value of this type, of what was read back under this name."""
        if not is_made(type):
            return name
        call = self.called(type)
        return f"{name}.into_array()" if call == "into_array" else f"{call}({name})"

    def text(self, name, type):
        spelled = self.formats.spelled
        made, read = spelled(type), spelled(as_read(type))
        return f"""// A `{made}` of what is read back in its place.
fn {name}(read: {read}) -> {made}
    ensures {{ result ≡ read }}
{{
{self.body(type)}}}
"""

    def body(self, type):
        if type.name in ("Option", "Result"):
            arms = [("Some", type.args[0])] if type.name == "Option" else list(zip(("Ok", "Err"), type.args))
            lines = "".join(f"        {variant}(value) => {variant}({self.within(it)}),\n" for variant, it in arms)
            none = "        None => None,\n" if type.name == "Option" else ""
            return f"    match read {{\n{lines}{none}    }}\n"
        count = int(type.length) if is_array(type) else len(type.args)
        types = type.args * count if is_array(type) else type.args
        names = [f"a{i}" for i in range(count)]
        open, close = "[]" if is_array(type) else "()"
        comma = "," if not is_array(type) and count == 1 else ""
        of = "read.into_array()" if is_array(type) else "read"
        made = [self.within(it, name) for it, name in zip(types, names)]
        return f"    let {open}{', '.join(names)}{comma}{close} = {of};\n    {open}{', '.join(made)}{comma}{close}\n"

    def within(self, type, name="value"):
        """The same of a value within another one, where arrays of numbers are read back as they are."""
        return self.value(type, name) if is_remade(type) else name

    def all(self):
        return "".join(f"{text}\n" for _, text in sorted(self.texts.items()))
