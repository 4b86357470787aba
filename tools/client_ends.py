"""Items that end, by tools/clients/ends.py, under a clock of the test's own: for tools/test_clients.

usage: client_ends.py HOST:PORT ..
"""
import sys

sys.path.insert(0, f"{sys.path[0]}/clients")
from ends import HOUR, PARTS, SLACK, SWEPT, Ends, index  # noqa: E402

now = [500_000 * HOUR + 100]
ends = Ends(sys.argv[1:], clock=lambda: now[0])
begun = now[0]


def there(key):
    return ends.again.get(key) is not None


# an item ends, and is a miss then; one without an end stays; another one takes its place
ends.set("short", b"1", begun + 60)
ends.set("stays", b"2")
assert ends.get("short") == b"1" and not ends.add("short", b"3", begun + 60)
now[0] += 60
assert ends.get("short") is None and there("short") and not ends.touch("short", begun + 999)
assert ends.add("short", b"3", begun + 120) and ends.get("short") == b"3"
# it is prolonged beyond its hour, and then the sweep of that hour leaves it
ends.set("long", b"4", begun + 120)
assert ends.touch("long", begun + 2 * HOUR) and ends.sweep() == 0
now[0] = begun + HOUR - 101 + SLACK
assert ends.sweep() == 0 and there("short")
now[0] = begun + HOUR + SLACK
assert ends.sweep() == 1 and not there("short") and ends.get("long") == b"4" and ends.get("stays") == b"2"
assert ends.sweep() == 0
# many of one hour, which is swept late, after a while without sweeps
for i in range(100):
    ends.set(f"many{i}", b"5", begun + 5 * HOUR + i)
now[0] = begun + 9 * HOUR
assert ends.sweep() == 101 and not there("many7") and not there("long") and there("stays")
hours = range(begun // HOUR - 1, now[0] // HOUR + 1)
assert not any(there(index(hour, part)) for hour in hours for part in range(PARTS))
assert int(ends.again.get(SWEPT)[0]) == (now[0] - SLACK) // HOUR - 1
# a counter keeps its end
ends.set("n", b"5", now[0] + 60)
assert ends.once.incr("n", 2) == 7 and ends.get("n") == b"7"
now[0] += 60
assert ends.get("n") is None
print("works")
