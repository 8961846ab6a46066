"""Why a rule is run: the chains that `--explain` may print; a second reading of docs/, not of the code."""
from language import label, show

BECAUSE = b'  because '


class Opening:
    """What stands before the first rule is run: the rules with what their last good runs asked and wrote, those that are to
    be run, and the files."""

    def __init__(self, kept):
        self.rules, self.runs = kept.rules, dict(kept.runs)
        self.due, self.seen = set(kept.flags), dict(kept.seen)

    def shown(self, at, text):
        return show(self.rules[at]['folder']) + b': ' + text

    def name(self, at):
        return self.shown(at, label(self.rules[at]))

    def named(self, name):
        """The rules of this name that are to be run."""
        return [at for at in sorted(self.due) if self.name(at) == name]

    def changed(self, at):
        """The paths that hold something else than a rule's last good run read or left there; an output isn't read by its rule."""
        asked, wrote = self.runs.get(at, ([], {}))
        asked = [(path, told) for path, told in asked if path not in self.rules[at]['outputs']]
        return {path for path, told in [*asked, *wrote.items()] if self.seen.get(path) != told}

    def reads(self, at):
        """The rules that are to be run and that make what a rule's last good run asked for, each with this path."""
        asked = {path for path, _ in self.runs.get(at, ([], {}))[0]}
        return [(other, path) for other in sorted(self.due) for path in self.rules[other]['outputs'] if path in asked]

    def is_unfinished(self, at):
        """Whether a rule had a good run, nothing is different since then, and it waits for no other that is to be run."""
        declared = self.rules[at]['inputs'] + self.rules[at]['order']
        return (at in self.runs and not self.changed(at)
                and all(other in self.runs and path not in declared for other, path in self.reads(at)))

    def roots(self, at):
        """The chains that go over no other rule."""
        rule = self.shown(at, self.rules[at]['text'])
        return ([b'new ' + rule] * (at not in self.runs) + [b'unfinished ' + rule] * self.is_unfinished(at)
                + [b'changed %s > %s' % (show(path), self.name(at)) for path in sorted(self.changed(at))])

    def ends(self, at):
        """How the other chains end, each behind a chain of this rule."""
        return [(other, b' > %s > %s' % (show(path), self.name(at))) for other, path in self.reads(at)]

    def holds(self, at, chain):
        """Whether a chain is a reason of a rule."""
        return at in self.due and (chain in self.roots(at) or any(
            chain.endswith(end) and self.holds(other, chain[:-len(end)]) for other, end in self.ends(at)))

    def chains(self, at, behind=()):
        """The reasons of a rule that go over no rule twice."""
        yield from self.roots(at)
        for other, end in self.ends(at):
            if other != at and other not in behind:
                yield from (chain + end for chain in self.chains(other, (*behind, at)))

    def only_chain(self, at):
        """The reason of a rule that has one alone."""
        chains = self.chains(at)
        first = next(chains, None)
        return first if next(chains, None) is None else None


def explained(lines, opening, ended):
    """Lines with the reason behind that of each rule that ended; None where a rule has several."""
    chains = iter([opening.only_chain(at) for at in ended])
    told = []
    for line in lines.splitlines():
        told.append(line)
        if line.startswith((b'run ', b'bad ')):
            chain = next(chains)
            if chain is None:
                return None
            told.append(BECAUSE + chain)
    return b'\n'.join(told) + b'\n'


def unexplained(lines, opening, ended=None):
    """Lines without the reasons; and what is wrong of these: each that is none, and each line that has none behind it. The rules
    that ended come in this order; where that isn't known, each is one that its line names."""
    told, wrong, before = [], [], b''
    order = None if ended is None else iter(ended)
    for line in lines.splitlines():
        awaits, rules = before.startswith((b'run ', b'bad ')), []
        if awaits:
            rules = opening.named(before[4:]) if order is None else [at for at in [next(order, None)] if at is not None]
        if not line.startswith(BECAUSE):
            told.append(line)
            wrong += [before] * awaits
        elif not any(opening.holds(at, line[len(BECAUSE):]) for at in rules):
            wrong.append(line)
        before = line
    return b'\n'.join(told) + b'\n', wrong
