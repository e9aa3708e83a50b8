"""Crates with their sources, and a sum of all that each of them is proved of."""
import hashlib
from functools import cache


def sum_of(parts):
    total = hashlib.sha256()
    for part in parts:
        total.update(len(part).to_bytes(8, "big") + part)
    return total.hexdigest()[:16]


class Crate:
    """A crate by its name and its folder, with the crates and the names of the kit's libraries that it uses."""

    def __init__(self, name, folder, uses, of_kit=(), said=""):
        self.name, self.folder, self.uses, self.of_kit, self.said = name, folder, uses, of_kit, said

    def sources(self):
        return [it for part in ("src", "specs", "proofs") for it in sorted((self.folder / part).rglob("*")) if it.suffix in (".rt", ".antt")]

    def size(self):
        return sum(it.stat().st_size for it in self.sources())

    @cache
    def below(self):
        """The crates that it stands on, each behind those that it uses itself."""
        found = {}
        for it in self.uses:
            found.update(dict.fromkeys(it.below() + [it]))
        return list(found)

    @cache
    def sum(self, version):
        """A sum of what it is proved of, by a toolchain's version: its own files, and those of the crates below."""
        texts = (bytes(it.relative_to(self.folder)) + b"\0" + it.read_bytes() for it in self.sources())
        said = " ".join([self.name, self.said, *self.of_kit])
        return sum_of([version, said.encode(), *(it.sum(version).encode() for it in self.uses), *texts])


def crates_of(top):
    """The crates of a checkout by their names, as crates.txt has them."""
    lines = {}
    for line in (top / "crates.txt").read_text().splitlines():
        head, colon, names = line.partition(":")
        if colon:
            name, *said = head.split()
            lines[name] = " ".join(said), names.split()
    found = {}

    def crate(name):
        if name not in found:
            said, names = lines[name]
            uses, of_kit = [crate(it) for it in names if it in lines], [it for it in names if it not in lines]
            found[name] = Crate(name, top / "crates" / name, uses, of_kit, said)
        return found[name]

    return {name: crate(name) for name in lines}
