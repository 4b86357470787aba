"""How much memory items take, and whether overwriting them makes it grow."""
from live_parts.peers import running

KEYS, SIZE = 100_000, 100
OVERWRITTEN, OVERWRITTEN_SIZE = 10_000, 4096
# How many times they are overwritten in all when the memory is looked at.
TIMES, QUICK_TIMES = [10, 50, 100], [2, 5, 10]


def a_key(generator, peer):
    """Bytes a key, all servers of the peer together."""
    with running([peer]):
        before = peer.memory()
        generator.fill(peer, SIZE, KEYS)
        return (peer.memory() - before) / KEYS


def overwritten(generator, peer, times):
    """Bytes in all after the keys were set once, and after they were set again, by four connections."""
    with running([peer]):
        generator.fill(peer, OVERWRITTEN_SIZE, OVERWRITTEN)
        shown, done = [peer.memory()], 0
        for whole in times:
            words = ["--sets", 1, "--connections", 4, "--depth", 16, "--keys", OVERWRITTEN]
            generator.run(peer, OVERWRITTEN_SIZE, *words, calls=(whole - done) * OVERWRITTEN)
            done = whole
            shown.append(peer.memory())
        return shown
