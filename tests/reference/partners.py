"""Which objects of two images are partners, and which objects without names retain more."""

import functools

# The numbers of references to a holder that are printed.
REFERRERS = 2


class Partners:
    """The partners of the live objects of two images."""

    def __init__(self, old, new):
        self.old, self.new = old, new
        self.new_of, self.old_of, self.pairs = {}, {}, []
        for name, number in old.named:
            if name in old.unique and name in new.unique:
                self.offer(number, new.unique[name])
        self.offer(old.image.special, new.image.special)
        self.offered = list(self.pairs)
        for pair in self.pairs:
            self.follow(*pair)

    def offer(self, old, new):
        """Makes two objects partners if they can be."""
        if old in self.new_of or new in self.old_of or self.old.kind(old) != self.new.kind(new):
            return
        self.new_of[old], self.old_of[new] = new, old
        self.pairs.append((old, new))

    def follow(self, old, new):
        """Offers what the same slots of partners lead to."""
        for word, other in zip(self.old.slots(old), self.new.slots(new)):
            targets = self.old.seen(word), self.new.seen(other)
            if None not in targets:
                self.offer(*targets)

    @functools.cached_property
    def new_bytes(self):
        """What each live object of the new image retains of the objects that have no partner."""
        tree, sizes = self.new.tree, self.new.answers.reach.sizes
        order = list(tree.retained)
        found = {it: 0 if it in self.old_of else sizes[it] for it in order}
        for number in reversed(order[1:]):
            found[tree.parents[number]] += found[number]
        return found

    def is_named(self, number):
        """Whether an object of the new image has more of a label than its class and address."""
        names = self.new.names
        unnamed = f"{names.class_name(number)} {names.address(number)}"
        return names.label(number) != unnamed

    def held(self, number):
        """What an object retains in the old image, if it has a partner, and in the new one."""
        partner = self.old_of.get(number)
        old = None if partner is None else self.old.tree.retained[partner]
        return old, self.new.tree.retained[number]

    def grew(self, number):
        """Whether an object is listed if it has no name."""
        old, new = self.held(number)
        if old is not None:
            return old < new
        above = self.new.tree.parents.get(number)
        return above is None or above in self.old_of or self.is_named(above)

    @functools.cached_property
    def holders(self):
        """The objects without names that retain more, or are new, those that grew most first."""
        numbers = [it for it in self.new.answers.live if self.grew(it) and not self.is_named(it)]
        held = {it: self.held(it) for it in numbers}
        return sorted(numbers, key=lambda it: ((held[it][0] or 0) - held[it][1], it))

    def referrers(self, number):
        """The first slots that hold an object: what each is in, and its data word."""
        return self.new.answers.references.get(number, [])[:REFERRERS]

    def row(self, number):
        """What `--json` prints of a holder."""
        answers, (old, new) = self.new.answers, self.held(number)
        return {
            "kind": "holder",
            "address": answers.names.address(number),
            "class": answers.names.class_name(number),
            "old": old,
            "new": new,
            "referrers": [
                {**answers.object_row(owner), **answers.slot_name(owner, place)}
                for owner, place in self.referrers(number)
            ],
        }

    def line(self, number):
        """The line of the text about a holder."""
        names, (old, new) = self.new.answers.names, self.held(number)
        note = " (new)" if old is None else ""
        slots = " and ".join(self.slot(*it) for it in self.referrers(number))
        held = f", in {slots}" if slots else ""
        address, name = names.address(number), names.class_name(number)
        return f"{new - (old or 0):+11} bytes  {address} {name}{note}{held}"

    def slot(self, owner, place):
        """A slot as text, with what it is in."""
        side = self.new
        address, label = side.names.address(owner), side.tree.short_label(owner)
        return f"{self.new.answers.slot_text(owner, place)} of {address} {label}"
