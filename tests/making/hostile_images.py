"""Makes images that are small, but large for a search that looks at shared parts again and again:
long chains, and classes, methods and names that share dictionaries, arrays, selectors and
literals. Each has size `n` or a small multiple of it."""

import typing

from tests.making.named_image import BYTECODES, NamedImage
from tests.reference.fields import ClassField, SpecialField
from tests.reference.objects import CONTEXT_INDEXES, ZERO, Format

# The bytes of a selector or a literal for each class or method that has it.
BYTES_EACH = 64
# The bytecode that sends `+`.
PLUS = 0xB0


class Hostile(typing.NamedTuple):
    """An image, a class in it, and objects to ask about: addresses or names."""

    file: bytes
    a_class: str
    objects: tuple


class HostileImage(NamedImage):
    """An image with names of all kinds, to which more is added."""

    def keep(self, *refs):
        """Keeps objects, in an array in one more field of the special objects array."""
        self.fields_of(self.special).append(self.add_array(*refs))

    def add_object(self, a_class, *fields):
        return self.add(Format.FIXED, a_class, *fields)

    def add_instance_of(self, name, fields):
        """Adds a class with this name and these fields, and an instance of it."""
        fields = {**fields, ClassField.NAME: self.add_symbol(name)}
        places = range(ClassField.POOL + 1)
        a_class = self.add_object("Point class", *[fields.get(it, ZERO) for it in places])
        return self.add(Format.EMPTY, a_class)

    def add_many(self, count, fields_of):
        """Adds classes K0, K1 and so on. `fields_of` has the fields of each by its number."""
        its = [self.add_instance_of(f"K{it}", fields_of(it)) for it in range(count)]
        self.keep(*its)

    def add_method_dictionary(self, selector, method):
        """Adds a method dictionary with one method."""
        return self.add(Format.INDEXED, "MethodDictionary", ZERO, self.add_array(method), selector)

    def add_method(self, *literals):
        return self.add(
            Format.METHOD, "CompiledMethod", len(literals) << 10 | 1, *literals, BYTECODES
        )

    def add_long_method(self, words):
        """Adds a method without literals that sends `+` four times for each of these words."""
        return self.add(Format.METHOD, "CompiledMethod", 1, *[PLUS * 0x01010101] * words, BYTECODES)

    def add_context(self, sender):
        """Adds a context that returns to another one."""
        fields = sender, *[ZERO] * 5
        return self.add(Format.FIXED_AND_INDEXED, None, *fields, compact=CONTEXT_INDEXES[1])

    def add_stack(self, count, sender=ZERO):
        """Adds contexts, the last of which returns to another one. Returns them, the innermost
        last."""
        its = [self.add_context(sender)]
        while len(its) < count:
            its.append(self.add_context(its[-1]))
        return its

    def add_scheduler(self, *contexts):
        """Adds a process for each of these contexts, the first of which is active."""
        self.add_class("Process", "Object", ("nextLink", "suspendedContext"), 4)
        its = [self.add_object("Process", ZERO, it, ZERO, ZERO) for it in contexts]
        scheduler = self.add_object("Point", self.add_array(), its[0])
        association = self.add_object("Association", self.add_symbol("Processor"), scheduler)
        self.fields_of(self.special)[SpecialField.SCHEDULER] = association
        self.keep(*its)
        return its

    def address_of(self, ref):
        return f"{self.addresses()[ref.number]:08x}"

    def hostile(self, a_class, *objects):
        return Hostile(
            self.file(),
            a_class,
            tuple(it if isinstance(it, str) else self.address_of(it) for it in objects),
        )


def chain(n):
    """A chain of contexts that have one receiver, the last of which is in hand."""
    it = HostileImage()
    it.add_class("Context", "Object", ("sender", "receiver"), 2)
    receiver, last = it.add_object("Point", ZERO, ZERO), ZERO
    for _ in range(n):
        last = it.add_object("Context", last, receiver)
    it.keep(last)
    return it.hostile("Context", receiver, last)


def doubly_linked(n):
    """A doubly linked list, both ends of which are in hand."""
    it = HostileImage()
    it.add_class("Link", "Object", ("next", "previous"), 2)
    links = [it.add_object("Link", ZERO, ZERO) for _ in range(n)]
    for link, after in zip(links, links[1:]):
        it.fields_of(link)[0] = after
        it.fields_of(after)[1] = link
    it.keep(links[0], links[-1])
    return it.hostile("Link", links[0], links[n // 2])


def links_to_list(n):
    """A list whose links point to it."""
    it = HostileImage()
    it.add_class("Link", "Object", ("next", "list"), 2)
    it.add_class("List", "Object", ("first", "last"), 2)
    the_list, after = it.add_object("List", ZERO, ZERO), ZERO
    for _ in range(n):
        after = it.add_object("Link", after, the_list)
    it.fields_of(the_list)[0] = after
    it.keep(the_list)
    return it.hostile("Link", the_list, after)


def shared_methods(n):
    """Classes that share a method dictionary."""
    it = HostileImage()
    methods = it.add_methods([f"s{number}" for number in range(n)])
    it.add_many(n, lambda _: {ClassField.METHODS: methods})
    return it.hostile("K1", "K1>>s1", methods)


def shared_pool(n):
    """Classes that share a class pool."""
    it = HostileImage()
    pool = it.add_dictionary("Dictionary", {f"V{number}": ZERO for number in range(n)})
    it.add_many(n, lambda _: {ClassField.POOL: pool})
    return it.hostile("K1", "K1", pool)


def shared_array(n):
    """Classes whose class pools share an array of associations."""
    it = HostileImage()
    pool = it.add_dictionary("Dictionary", {f"V{number}": ZERO for number in range(n)})
    array = it.fields_of(pool)[1]
    it.add_many(n, lambda _: {ClassField.POOL: it.add_object("Dictionary", ZERO, array)})
    return it.hostile("K1", "K1", array)


def own_superclass(n):
    """A class that is its own superclass, with many names of instance variables."""
    it = HostileImage()
    own = [f"v{number}" for number in range(n)]
    it.add_class("Loop", "Loop", own, 2)
    target = it.add_object("Point", ZERO, ZERO)
    it.keep(*[it.add_object("Loop", target, ZERO) for _ in range(n)])
    return it.hostile("Loop", target, "Loop")


def many_variables(n):
    """A chain of instances of two classes, which have as many instance variables as fit."""
    it = HostileImage()
    own = [f"v{number}" for number in range(250)]
    for name in ("Odd", "Even"):
        it.add_class(name, "Object", own, 250)
    target, last = it.add_object("Point", ZERO, ZERO), ZERO
    for number in range(n):
        last = it.add_object(("Odd", "Even")[number // 50 % 2], last, target)
    it.keep(last)
    return it.hostile("Odd", target)


def long_selector(n):
    """Classes that share a long selector."""
    it = HostileImage()
    selector, method = it.add_symbol("x" * (BYTES_EACH * n)), it.add_method()
    it.add_many(n, lambda _: {ClassField.METHODS: it.add_method_dictionary(selector, method)})
    return it.hostile("K1", "K1>>x", method, selector)


def long_selectors(n):
    """Classes that have selectors of their own, which are of two texts."""
    it = HostileImage()
    selectors = [it.add_symbol("y" * BYTES_EACH * (1 + number % 2)) for number in range(n)]
    method = it.add_method()
    it.add_many(
        n, lambda number: {ClassField.METHODS: it.add_method_dictionary(selectors[number], method)}
    )
    return it.hostile("K1", "K1>>" + "y" * 2 * BYTES_EACH, method)


def shared_literals(n):
    """Methods that share a long string and an array in an array as literals."""
    it = HostileImage()
    string = it.add_bytes("String", b"z" * (BYTES_EACH * n))
    array = it.add_array(*[it.add_array(*[string, 3] * n)] * n)
    methods = [it.add_method(string, array, number << 1 | 1) for number in range(n)]
    selector = it.add_symbol("go")
    it.add_many(
        n, lambda number: {ClassField.METHODS: it.add_method_dictionary(selector, methods[number])}
    )
    return it.hostile("K1", "K1>>go", string, array)


def nested_literals(n):
    """Methods whose literals are a long chain of arrays in arrays, and a long cycle of them."""
    it = HostileImage()
    chain, cycle = [it.add_array(ZERO)], [it.add_array(3)]
    for _ in range(BYTES_EACH // 4 * n):
        chain.append(it.add_array(chain[-1], chain[0]))
        cycle.append(it.add_array(cycle[-1], cycle[0]))
    it.fields_of(cycle[0]).append(cycle[-1])
    selector = it.add_symbol("go")
    methods = [it.add_method(chain[-1 - number], cycle[number]) for number in range(n)]
    it.add_many(
        n, lambda number: {ClassField.METHODS: it.add_method_dictionary(selector, methods[number])}
    )
    return it.hostile("K1", "K1>>go", chain[-1], cycle[0])


def one_method(n):
    """Classes that share a method with many literals."""
    it = HostileImage()
    literals = it.add_array(*[number << 1 | 1 for number in range(BYTES_EACH // 4 * n)])
    method, selector = it.add_method(literals, *[ZERO] * 50), it.add_symbol("go")
    it.add_many(n, lambda _: {ClassField.METHODS: it.add_method_dictionary(selector, method)})
    return it.hostile("K1", "K1>>go", literals)


def long_method(n):
    """A method of many instructions, which two classes have."""
    it = HostileImage()
    method, selector = it.add_long_method(BYTES_EACH // 4 * n), it.add_symbol("go")
    it.add_many(2, lambda _: {ClassField.METHODS: it.add_method_dictionary(selector, method)})
    return it.hostile("K1", "K1>>go", method)


def shared_stack(n):
    """Processes that share a stack, each of which begins at another context."""
    it = HostileImage()
    its = it.add_scheduler(*reversed(it.add_stack(n)))
    return it.hostile("Process", its[0], its[-1])


def stack_in_a_cycle(n):
    """Processes whose stacks end in one cycle of contexts."""
    it = HostileImage()
    cycle = it.add_stack(n)
    it.fields_of(cycle[0])[0] = cycle[-1]
    its = it.add_scheduler(cycle[-1], *[it.add_context(cycle[at]) for at in range(n)])
    return it.hostile("Process", its[0], its[-1])


HOSTILE = {
    made.__name__: made
    for made in (
        chain,
        doubly_linked,
        links_to_list,
        shared_methods,
        shared_pool,
        shared_array,
        own_superclass,
        many_variables,
        long_selector,
        long_selectors,
        shared_literals,
        nested_literals,
        one_method,
        long_method,
        shared_stack,
        stack_in_a_cycle,
    )
}
