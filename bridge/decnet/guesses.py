"""Wrong passwords: who of which node had too many of them isn't listened to for a while. Nobody else waits for that."""
import collections
import time

MAX_WRONG = 5  # wrong passwords within the time below, before the next tries aren't looked at
WITHIN_SECONDS = 60
FIRST_SECONDS, LAST_SECONDS = 1, 60  # how long they aren't: it doubles with each wrong password after that
MAX_KEPT = 1024  # pairs of a node and a user; the one whose password was wrong the longest time ago is forgotten


class Tries:
    """The wrong passwords of one node for one user."""

    def __init__(self):
        self.times = collections.deque(maxlen=MAX_WRONG)
        self.seconds, self.shut_until = 0, 0

    def note(self, now):
        self.times.append(now)
        is_often = len(self.times) == MAX_WRONG and now - self.times[0] < WITHIN_SECONDS
        if self.seconds or is_often:
            self.seconds = min(2 * self.seconds, LAST_SECONDS) or FIRST_SECONDS
            self.shut_until = now + self.seconds

    def are_over(self, now):
        """Whether all of it is so long ago that it doesn't count any more."""
        return now >= max(self.times[-1], self.shut_until) + WITHIN_SECONDS


class Guesses:
    """Those of all nodes and users."""

    def __init__(self, clock=time.monotonic):
        self.clock, self.kept = clock, collections.OrderedDict()

    def seconds_left(self, node, user):
        """How long the tries of this node for this user aren't looked at yet."""
        tries = self.kept.get((node, user))
        return max(0, tries.shut_until - self.clock()) if tries else 0

    def wrong(self, node, user):
        tries, now = self.kept.pop((node, user), None), self.clock()
        if tries is None or tries.are_over(now):
            tries = Tries()
        tries.note(now)
        self.kept[node, user] = tries
        if len(self.kept) > MAX_KEPT:
            self.kept.popitem(last=False)

    def right(self, node, user):
        self.kept.pop((node, user), None)
