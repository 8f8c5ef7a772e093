"""What takes long says how far it is: on standard error, a line a second, once two seconds have gone."""
import sys
import time

# seconds without a word, and between two lines
PATIENCE, PACE = 2, 1


class Progress:
    """Of one call of a tool."""

    def __init__(self, out=None, clock=time.monotonic):
        self.out, self.clock = out or sys.stderr, clock
        self.began = self.said = clock()

    def __call__(self, doing, done=None, of=None):
        """Something is being done; `done` of so many, where that can be counted."""
        now = self.clock()
        if now - self.began < PATIENCE or now - self.said < PACE:
            return
        self.said = now
        count = '' if done is None else ', {:,} of {:,}'.format(done, of)
        print('geo: %s%s, %.0f s' % (doing, count, now - self.began), file=self.out, flush=True)


def silent(doing, done=None, of=None):
    """In the place of a Progress: says nothing."""
