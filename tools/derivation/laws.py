"""The laws of values of each type: that their keys are those of their meaning, and that there is a plan of them."""

from . import formats


class Laws:
    """What `Formats` says of the laws of a type."""

    def law_lines(self):
        """The lines of an impl that bring in the laws named since the last call. Within the impl, since at the head of the file they would go in a circle."""
        lines = []
        for (crate, module, impl), laws in sorted(self.laws.items()):
            path = ".".join((crate, "specs", "contracts") + tuple(module) + (impl, "TheImpl", "Laws"))
            those = ", ".join(f"{law}-law as {name}" for law, name in sorted(laws))
            lines.append(f"    ghost use Rattle.{path}.{{{those}}};\n")
        self.laws = {}
        return "".join(lines) + "\n" if lines else ""

    def law(self, type, which):
        return self.law_of(type.own, which)

    def law_of(self, own, which):
        return self.impl_law(own, f"{own.name}Archive", which, f"{which}_of_{formats.snake(own.name)}")

    def impl_law(self, own, impl, law, name):
        """A law of an impl that was written for a declared type, under this name."""
        self.laws.setdefault((own.crate, tuple(own.module), impl), set()).add((law, name))
        return name

    def keyed(self, type, x):
        """A proof that the keys of `x` are those that its meaning leads to."""
        kind = self.kind(type)
        if kind == "parameter":
            return f"({type.name}.keyed {x})"
        if kind == "own" and type.args:
            return self.product_keyed(self.fields(type), self.parts_of(type, x))
        if kind == "own":
            return f"({self.law(type, 'keyed')} {x})"
        if kind == "integer" or kind in formats.NUMBERS:
            self.ghost("Keyed", "number_keyed")
            return "(number_keyed _)"
        if kind == "String":
            self.ghost("Keyed", "text_keyed")
            self.ghost("std.specs.Prelude", "string_bytes")
            return f"(text_keyed (string_bytes {x}))"
        if kind == "BoxStr":
            self.ghost("Keyed", "box_keyed", "text_keyed")
            self.ghost("Value", "text_value")
            self.ghost("std.specs.Prelude", "string_bytes")
            text = f"(string_bytes {x}.text)"
            return f"(box_keyed [] (text_value {text}) (text_keyed {text}))"
        if kind == "SharedStr":
            self.ghost("Keyed", "text_keyed")
            self.ghost("SharedSources", "rc_keyed")
            self.ghost("Shape", "text")
            self.ghost("Value", "text_value")
            self.ghost("std.specs.Rc", "rc_str_bytes")
            text = f"(rc_str_bytes {x}.value)"
            return f"(rc_keyed {x}.key text (length {text}) (text_value {text}) [] (text_keyed {text}))"
        if kind == "PhantomData":
            self.ghost("Nothing", "empty_product_keyed")
            return "empty_product_keyed"
        if kind == "tuple":
            return self.product_keyed(type.args, self.parts_of(type, x))
        if kind == "Result":
            self.ghost("Results", "result_keyed")
            a, b = type.args
            p, q = self.source(a), self.source(b)
            return f"(result_keyed {p}.keys {q}.keys {p}.meaning {q}.meaning {self.function('keyed', a)} {self.function('keyed', b)} {x})"
        if kind == "BTreeMap":
            self.ghost("PlannedMaps", "pairs_keyed")
            a, b = type.args
            p, q = self.source(a), self.source(b)
            return f"(pairs_keyed {p}.keys {q}.keys {p}.meaning {q}.meaning {self.function('keyed', a)} {self.function('keyed', b)} {x}.entries)"
        item = type.args[0]
        q = self.source(item)
        each = self.function("keyed", item)
        if kind == "Option":
            self.ghost("Options", "option_keyed")
            return f"(option_keyed {q}.keys {q}.meaning {each} {x})"
        if kind in ("array", "OwnedArray"):
            self.ghost("Arrays", "array_keyed")
            return f"(array_keyed {type.length} {q}.keys {q}.meaning {each} {x})"
        if kind == "Vec":
            self.ghost("Keyed", "each_keyed")
            return f"(each_keyed {q}.keys {q}.meaning {each} {x}.items)"
        if kind in ("BoxSlice", "SharedSlice"):
            self.ghost("Keyed", "each_keyed")
            self.ghost("Runs", "each_keys", "each_meaning")
            self.ghost("Value", "list")
            items = f"{x}.items.items" if kind == "BoxSlice" else f"(rc_slice_items {x}.value)"
            run = f"(each_keyed {q}.keys {q}.meaning {each} {items})"
            keys, meaning = f"(each_keys {q}.keys {items})", f"(list (each_meaning {q}.meaning {items}))"
            if kind == "BoxSlice":
                self.ghost("Keyed", "box_keyed")
                return f"(box_keyed {keys} {meaning} {run})"
            self.ghost("SharedSources", "rc_keyed")
            self.ghost("Shape", "run")
            self.ghost("std.specs.Rc", "rc_slice_items")
            return f"(rc_keyed {x}.key (run {self.shape(item)}) (length {items}) {meaning} {keys} {run})"
        if kind == "Box":
            self.ghost("Keyed", "box_keyed")
            y = f"{x}.value"
            return f"(box_keyed ({q}.keys {y}) ({q}.meaning {y}) {self.keyed(item, y)})"
        if kind == "Shared":
            return self.shared_keyed(item, x)
        if kind == "WeakShared":
            self.ghost("SharedLaws", "weak_keyed")
            keys, meaning = self.weak(item)
            return f"(weak_keyed {keys} {meaning} (λ s. {self.shared_keyed(item, 's')[1:-1]}) {x}.value)"
        self.refuse(type, f"`{self.rust(type)}` has no format")

    def parts_of(self, type, x):
        """The fields of a value, of a tuple or of a declared type."""
        if type.own is not None:
            return [f"{x}.{field.name}" for field in type.own.fields]
        return [f"{x}.{i}" for i in range(len(type.args))]

    def product_keyed(self, types, values):
        self.ghost("Keyed", "record_keyed", "part_keyed", "nothing_keyed")
        out = "nothing_keyed"
        for type, value in reversed(list(zip(types, values))):
            out = f"(part_keyed {self.keyed(type, value)} {out})"
        return f"(record_keyed {out})"

    def product_planned(self, types, values):
        """A plan of fields one after another, with all that it speaks of: it isn't found where a field has no key."""
        self.ghost("PartsPlanned", "product_planned", "part_planned", "no_part_planned")
        self.ghost("Value", "value", "no_value")
        self.ghost("std.specs.Prelude", "◌++◌", "[]")
        self.ghost("Shape", "part", "no_part")
        plan, definitions, parts, keys, meanings = "no_part_planned", "no_definition", "no_part", "[]", "no_value"
        for type, value in reversed(list(zip(types, values))):
            q, D, X = self.source(type), self.definitions(type), self.shape(type)
            plan = f"(part_planned {D} {X} ({q}.keys {value}) ({q}.meaning {value}) {self.planned(type, value)} {plan})"
            definitions, parts = f"(both {D} {definitions})", f"(part {X} {parts})"
            keys, meanings = f"({q}.keys {value} ++ {keys})", f"(value ({q}.meaning {value}) {meanings})"
        return f"(product_planned {definitions} {parts} {keys} {meanings} {plan})"

    def shared_keyed(self, item, x):
        self.ghost("SharedSources", "rc_keyed")
        q, y = self.source(item), f"{x}.value.value"
        return f"(rc_keyed {x}.key {self.pointee(item)} 0 ({q}.meaning {y}) ({q}.keys {y}) {self.keyed(item, y)})"

    def shared_planned(self, item, x):
        self.ghost("SharedSources", "rc_one_planned")
        q, y = self.source(item), f"{x}.value.value"
        return f"(rc_one_planned {self.definitions(item)} {x}.key {self.pointee(item)} {self.shape(item)} refl ({q}.meaning {y}) ({q}.keys {y}) {self.planned(item, y)})"

    def weak(self, item):
        self.ghost("SharedSources", "rc_keys")
        self.ghost("Value", "shared_value")
        q = self.source(item)
        y = "s.value.value"
        return f"(λ s. rc_keys s.key {self.pointee(item)} 0 ({q}.meaning {y}) ({q}.keys {y}))", "(λ s. shared_value s.key)"

    def function(self, which, type):
        """A law as a function of a value."""
        if self.kind(type) == "own" and not type.args:
            return self.law(type, which)
        if self.kind(type) == "parameter":
            return f"{type.name}.{which}"
        term = self.keyed(type, "x") if which == "keyed" else self.planned(type, "x")
        return f"(λ x. {term[1:-1] if term.startswith('(') else term})"

    def planned(self, type, x):
        """A proof that there is a plan of what `x` owns."""
        kind = self.kind(type)
        if kind == "parameter":
            return f"({type.name}.planned {x})"
        if kind == "own" and type.args:
            return self.product_planned(self.fields(type), self.parts_of(type, x))
        if kind == "own":
            return f"({self.law(type, 'planned')} {x})"
        D = self.definitions(type)
        if kind == "integer" or kind in formats.NUMBERS:
            self.ghost("Planned", "leaf_planned")
            return "(leaf_planned no_definition _ _ [] _ refl)"
        if kind == "String":
            self.ghost("Planned", "string_planned")
            self.ghost("std.specs.Prelude", "string_bytes")
            return f"(string_planned no_definition [] (string_bytes {x}))"
        if kind == "BoxStr":
            self.ghost("Planned", "text_planned")
            self.ghost("PlannedOwners", "box_planned")
            self.ghost("Shape", "text")
            self.ghost("Value", "text_value")
            self.ghost("std.specs.Prelude", "string_bytes")
            text = f"(string_bytes {x}.text)"
            return f"(box_planned no_definition text (length {text}) [] (text_value {text}) (text_planned no_definition [] {text}))"
        if kind == "SharedStr":
            self.ghost("Planned", "text_planned")
            self.ghost("SharedSources", "rc_planned")
            self.ghost("Shape", "text")
            self.ghost("Value", "text_value")
            self.ghost("std.specs.Rc", "rc_str_bytes")
            text = f"(rc_str_bytes {x}.value)"
            return f"(rc_planned no_definition {x}.key text (length {text}) (text_value {text}) [] (text_planned no_definition [] {text}))"
        if kind == "PhantomData":
            self.ghost("Nothing", "empty_product_planned")
            return "empty_product_planned"
        if kind == "tuple":
            return self.product_planned(type.args, self.parts_of(type, x))
        if kind == "Result":
            self.ghost("Results", "result_planned")
            a, b = type.args
            p, q = self.source(a), self.source(b)
            return (
                f"(result_planned {p}.keys {q}.keys {p}.meaning {q}.meaning {self.definitions(a)} {self.definitions(b)}"
                f" {self.shape(a)} {self.shape(b)} {self.function('planned', a)} {self.function('planned', b)} {x})"
            )
        if kind == "BTreeMap":
            self.ghost("PlannedMaps", "map_of_pairs_planned")
            self.use("archive_core::traits", "MapKey")
            a, b = type.args
            p, q, key = self.source(a), self.source(b), f"⟦<{self.archived(a)} as MapKey>⟧"
            return (
                f"(map_of_pairs_planned {p}.keys {q}.keys {p}.meaning {q}.meaning {self.definitions(a)} {self.definitions(b)}"
                f" {self.shape(a)} {self.shape(b)} {self.function('planned', a)} {self.function('planned', b)} {key}.key refl {x}.entries)"
            )
        item = type.args[0]
        q, X = self.source(item), self.shape(item)
        each = self.function("planned", item)
        if kind == "Option":
            self.ghost("Options", "option_planned")
            return f"(option_planned {D} {X} {q}.keys {q}.meaning {each} {x})"
        if kind in ("array", "OwnedArray"):
            self.ghost("Arrays", "array_planned")
            items = x
            return f"(array_planned {type.length} {D} {X} {q}.keys {q}.meaning {each} {items})"
        if kind == "Vec":
            self.ghost("PlannedOwners", "slice_planned", "vec_planned")
            return f"(vec_planned {D} {X} _ _ _ (slice_planned {D} {X} {q}.keys {q}.meaning {each} {x}.items))"
        if kind in ("BoxSlice", "SharedSlice"):
            self.ghost("PlannedOwners", "slice_planned")
            self.ghost("Shape", "run")
            items = f"{x}.items.items" if kind == "BoxSlice" else f"(rc_slice_items {x}.value)"
            run = f"(slice_planned {D} {X} {q}.keys {q}.meaning {each} {items})"
            if kind == "BoxSlice":
                self.ghost("PlannedOwners", "box_planned")
                return f"(box_planned {D} (run {X}) _ _ _ {run})"
            self.ghost("SharedSources", "rc_planned")
            self.ghost("Runs", "each_keys", "each_meaning")
            self.ghost("Value", "list")
            self.ghost("std.specs.Rc", "rc_slice_items")
            keys, meaning = f"(each_keys {q}.keys {items})", f"(list (each_meaning {q}.meaning {items}))"
            return f"(rc_planned {D} {x}.key (run {X}) (length {items}) {meaning} {keys} {run})"
        if kind == "Box":
            self.ghost("PlannedOwners", "boxed_one_planned")
            self.ghost("Shape", "one")
            y = f"{x}.value"
            return f"(boxed_one_planned {D} (one {X}) {X} refl ({q}.keys {y}) ({q}.meaning {y}) {self.planned(item, y)})"
        if kind == "Shared":
            return self.shared_planned(item, x)
        if kind == "WeakShared":
            self.ghost("SharedLaws", "weak_planned")
            self.ghost("SharedSources", "rc_flavor")
            keys, meaning = self.weak(item)
            return f"(weak_planned {D} rc_flavor {self.pointee(item)} {keys} {meaning} (λ s. {self.shared_planned(item, 's')[1:-1]}) {x}.value)"
        self.refuse(type, f"`{self.rust(type)}` has no format")
