"""Compares what `sqzlook top` prints with what is expected of the tree of an image."""

import typing

from tests.harness.json_rows import difference, rows_of
from tests.harness.look_checks import LookTest, warning_about
from tests.harness.sqzlook import look_at_all
from tests.reference.tree import Tree, folded


class Shape(typing.NamedTuple):
    """The depth and the percentage that are asked for. None is the default."""

    depth: int | None = None
    least: str | None = None

    @property
    def bounds(self):
        return {key: it for key, it in self._asdict().items() if it is not None}

    @property
    def words(self):
        names = {"depth": "--depth", "least": "--min"}
        return [word for key, it in self.bounds.items() for word in (names[key], str(it))]


USUAL = Shape()


class Asked(typing.NamedTuple):
    """The tree of an image at a path, if weak references are kept or cleared, from the object on
    that `words` stand for."""

    tree: Tree
    path: str
    options: tuple
    words: tuple = ()

    def below(self, number):
        """The tree from a live object on."""
        words = (self.tree.names.address(number),)
        return self._replace(tree=self.tree.below(number), words=words)


class TopTest(LookTest):
    """A test that compares what `top` prints with what is expected."""

    def check_trees(self, trees, shapes, folder=None):
        """Asks for trees in each form."""
        for form in ("--json", "--folded"):
            asked = [(it, shape) for it in trees for shape in shapes]
            lines = [
                ("top", form, *shape.words, *it.options, it.path, *it.words)
                for it, shape in asked
            ]
            outcomes = look_at_all(lines, folder or self.folder)
            for (it, shape), line, outcome in zip(asked, lines, outcomes):
                with self.subTest(" ".join(line)):
                    self.assert_warned(outcome, 0, warning_about(it.tree.answers, it.path))
                    self.check_form(form, it.tree, shape, outcome.stdout)

    def check_form(self, form, tree, shape, text):
        """Checks what is printed of a tree in a form."""
        if form == "--json":
            expected = tree.json(tree.rows(**shape.bounds))
            self.assertIsNone(difference(rows_of(text), expected))
        else:
            self.check_folded(tree, tree.rows(**shape.bounds), text.decode())

    def check_folded(self, tree, rows, text):
        """Each line has labels, `;` between them, a space, and bytes."""
        lines = text.removesuffix("\n").split("\n")
        self.assertEqual(lines, folded(rows))
        stacks = [line.rpartition(" ") for line in lines]
        self.assertEqual(sum(int(size) for _, _, size in stacks), tree.whole)
        depths = [row.depth for row in rows if row.apart]
        self.assertEqual([stack.count(";") for stack, _, _ in stacks], depths)
