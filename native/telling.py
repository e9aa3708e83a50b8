"""What people are told of a build, on standard error."""
import sys
import time

# What a crate's proof takes before any is timed: seconds of a processor, and seconds more for each megabyte of its sources.
CRATE_SECONDS, MEGABYTE_SECONDS = 10, 580


def say(text):
    print("dswp: " + text, file=sys.stderr, flush=True)


def duration(seconds):
    return "%d s" % seconds if seconds < 120 else "%d minutes" % (seconds / 60 + 0.5)


class Step:
    """A step, told with about how long it takes where it begins, and with how long it took where it ends."""

    def __init__(self, text, seconds):
        self.text, self.seconds = text, seconds

    def __enter__(self):
        say("%s, in about %s of a processor" % (self.text, duration(self.seconds)))
        self.began = time.monotonic()

    def __exit__(self, error, *_):
        if error is None:
            say("%s took %s" % (self.text, duration(time.monotonic() - self.began)))


class Progress:
    """Libraries that are proved: a line for each, with how long it took, and with about how long the others take."""

    def __init__(self, crates):
        self.size, self.done, self.number, self.count, self.began = sum(it.size() for it in crates), 0, 0, len(crates), time.monotonic()
        if crates:
            seconds = self.count * CRATE_SECONDS + self.size * MEGABYTE_SECONDS / 1e6
            say("proving %d libraries, once, in about %s of a processor" % (self.count, duration(seconds)))

    def tell(self, crate, seconds):
        self.number, self.done = self.number + 1, self.done + crate.size()
        left = (time.monotonic() - self.began) * (self.size - self.done) / self.done
        say("%d of %d: proved %s in %s; about %s are left" % (self.number, self.count, crate.name, duration(seconds), duration(left)))
