"""What the view of an enum shows: its variants by their tags, of many group by group."""

import re

from derivation.variant_views import MOST_IN_BODY, MOST_IN_GROUP

from .repository import RepositoryTest


class VariantViews(RepositoryTest):
    def written(self, variants):
        path = self.put(f"pub enum A {{ {', '.join(variants)} }}")
        self.assertEqual(self.run_command(path), (0, ""))
        return self.text(path)

    def shown(self, text):
        """Of each body that shows variants: their tags, and the first tag of the group that it calls."""
        bodies = re.split(r"^    fn ", text[text.index("impl<'a> AView") : text.index("pub trait ASeal")], flags=re.M)
        return [
            ([int(it) for it in re.findall(r"ViewOfA::[UV](\d+)\b", body)], [int(it) for it in re.findall(r"::variant_from_(\d+)\(", body)])
            for body in bodies
            if "match " in body
        ]

    def test_few_are_shown_by_one_body(self):
        text = self.written([f"V{i}(u8)" for i in range(MOST_IN_BODY)])
        self.assertEqual(self.shown(text), [(list(range(MOST_IN_BODY)), [])])
        self.assertNotIn("ViewGroups", text)

    def test_many_are_shown_group_by_group(self):
        count = MOST_IN_BODY + 1
        text = self.written([f"V{i}(u8)" for i in range(count)])
        begins = list(range(0, count, MOST_IN_GROUP))
        wanted = [(list(range(begin, min(begin + MOST_IN_GROUP, count))), [it for it in [begin + MOST_IN_GROUP] if it < count]) for begin in begins]
        self.assertEqual(self.shown(text), wanted)
        groups = text[text.index("trait AViewGroups") : text.index("pub trait ASeal")]
        for begin in begins[1:]:
            self.assertEqual(groups.count(f"requires from {{ {begin} ≤ tag }}"), 2)

    def test_variants_without_fields_go_with_those_before_them(self):
        variants = ["U0"] + [f"V{i}(u8)" for i in range(1, MOST_IN_BODY + 2)]
        variants.insert(MOST_IN_GROUP + 1, f"U{MOST_IN_GROUP + 1}")
        variants = [re.sub(r"\d+", str(tag), it, count=1) for tag, it in enumerate(variants)]
        text = self.written(variants)
        first, second = self.shown(text)[:2]
        self.assertEqual(first, (list(range(MOST_IN_GROUP + 2)), [MOST_IN_GROUP + 2]))
        self.assertEqual(second[0][0], MOST_IN_GROUP + 2)
