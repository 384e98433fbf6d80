"""Small graphs whose dominators are compared with a brute force.

A graph has the nodes 0 to `count` - 1. Its successors are a list of nodes for each node, and paths
start at its roots."""

import typing

from tests.making.builder import Builder, Ref
from tests.reference.objects import Format

LARGEST = 24
# The compact index of all objects.
COMPACT = 1


class Shape(typing.NamedTuple):
    """The successors of each node, and the roots."""

    successors: list
    roots: list


def no_edges(count):
    return [[] for _ in range(count)]


def with_edges(generator, successors, extra):
    """Adds random edges, and puts the edges of each node into a random order."""
    for _ in range(extra):
        target = generator.randrange(len(successors))
        successors[generator.randrange(len(successors))].append(target)
    for each in successors:
        generator.shuffle(each)
    return successors


def random_graph(generator, factor):
    """A graph with `factor` random edges per node."""
    count = generator.randint(2, LARGEST)
    edges = with_edges(generator, no_edges(count), int(factor * count))
    return Shape(edges, [0] + [generator.randrange(count) for _ in range(generator.randrange(2))])


def sparse(generator):
    return random_graph(generator, generator.choice((1, 1.3, 1.7)))


def dense(generator):
    return random_graph(generator, generator.choice((2, 3, 5)))


def linked_list(generator):
    """A list with a few other edges."""
    count = generator.randint(2, LARGEST)
    successors = [[number + 1] for number in range(count - 1)] + [[]]
    return Shape(with_edges(generator, successors, generator.randrange(4)), [0])


def list_with_both_ends(count):
    """A doubly linked list whose ends are both roots. Passes that lower a tree reach one node more
    from each end in each pass."""
    successors = no_edges(count)
    for number in range(count - 1):
        successors[number].append(number + 1)
        successors[number + 1].append(number)
    return Shape(successors, [0, count - 1])


def list_with_owner(count):
    """A list whose nodes all point to node 2 too. It makes a tree that is as deep as the list is
    long, and each of these edges leads up all of it."""
    successors = [[number + 1, 2] for number in range(count - 1)] + [[2]]
    return Shape(successors, [0])


def doubly_linked_list(generator):
    """A doubly linked list with both ends or two nodes as roots."""
    shape = list_with_both_ends(generator.randint(2, LARGEST))
    count = len(shape.successors)
    roots = shape.roots if generator.random() < 0.5 else [generator.randrange(count) for _ in "ab"]
    return Shape(with_edges(generator, shape.successors, generator.randrange(2)), roots)


def ladder(generator):
    """Two lists with rungs between them, in one direction or in both."""
    length = generator.randint(1, LARGEST // 2)
    successors = no_edges(2 * length)
    for number in range(2 * length - 2):
        successors[number].append(number + 2)
        if generator.random() < 0.3:
            successors[number + 2].append(number)
    for number in range(0, 2 * length, 2):
        one, other = generator.choice(((0, 1), (1, 0)))
        successors[number + one].append(number + other)
    roots = [0, 1][: generator.randint(1, 2)]
    return Shape(with_edges(generator, successors, generator.randrange(2)), roots)


def grid(generator):
    """A grid with edges to the right and down, and some back."""
    width, height = generator.randint(1, 5), generator.randint(1, 5)
    successors = no_edges(width * height)
    for number in range(width * height):
        for is_inside, next_one in (
            (number % width + 1 < width, number + 1),
            (number + width < width * height, number + width),
        ):
            if is_inside:
                successors[number].append(next_one)
                if generator.random() < 0.2:
                    successors[next_one].append(number)
    return Shape(with_edges(generator, successors, generator.randrange(2)), [0])


def tree(generator):
    """A tree with edges back to ancestors and across."""
    count = generator.randint(2, LARGEST)
    parents = [0] + [generator.randrange(number) for number in range(1, count)]
    successors = no_edges(count)
    for number in range(1, count):
        successors[parents[number]].append(number)
        if generator.random() < 0.5:
            above = parents[number]
            while above and generator.random() < 0.5:
                above = parents[above]
            successors[number].append(above)
    return Shape(with_edges(generator, successors, generator.randrange(count)), [0])


SHAPES = (sparse, dense, linked_list, doubly_linked_list, ladder, grid, tree)


def graph_file(shape):
    """The file of an image whose objects point to each other as the nodes of a graph do. Object 0
    is nil, and the special objects array, the last object, points to it and to the roots."""
    builder = Builder()
    nil = builder.add(Format.EMPTY, None, compact=COMPACT)
    for successors in shape.successors:
        builder.add(Format.INDEXED, None, *map(node, successors), compact=COMPACT)
    builder.special = builder.add(
        Format.INDEXED, None, nil, *map(node, shape.roots), compact=COMPACT
    )
    return builder.file()


def node(number):
    """The object of a node."""
    return Ref(1 + number)
