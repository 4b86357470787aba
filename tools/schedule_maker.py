"""Random schedules with failures (random_schedules, refused_steps)."""
import random

KEYS = ["a", "b", "n"]
STORAGE = ["set", "set", "set", "add", "replace", "append", "prepend"]
OTHERS = ["cas", "incr", "decr", "delete", "get", "get", "get", "gets", "gets", "flush_all", "expiry", "chunk",
          "unknown"]


def request(chosen):
    """One request, as the text of a `piece` line."""
    key = chosen.choice(KEYS)
    data = chosen.choice(["1", "7", "p", "", "42"])
    silent = chosen.choice(["", "", "", " noreply"])
    word = chosen.choice(STORAGE + OTHERS)
    if word in STORAGE:
        return rf"{word} {key} {chosen.randrange(9)} 0 {len(data)}{silent}\r\n{data}\r\n"
    if word == "cas":
        return rf"cas {key} 0 0 {len(data)} {chosen.randrange(1, 12)}{silent}\r\n{data}\r\n"
    if word in ("incr", "decr"):
        return rf"{word} {key} {chosen.randrange(5)}{silent}\r\n"
    if word == "delete":
        return rf"delete {key}{silent}\r\n"
    if word in ("get", "gets"):
        keys = [chosen.choice(KEYS) for _ in range(chosen.choice([1, 1, 2]))]
        return " ".join([word] + keys) + r"\r\n"
    if word == "flush_all":
        return rf"flush_all{silent}\r\n"
    return {"expiry": r"set a 0 1 1\r\nx\r\n", "chunk": r"set a 0 0 1\r\nxyz\r\n", "unknown": r"stop\r\n"}[word]


def event(chosen, servers, connections, may_fail):
    """One line. Most messages go between neighbours, and few servers fail."""
    connection, server = chosen.randrange(connections), chosen.randrange(servers)
    beside = min(max(server + chosen.choice([-1, 1]), 0), servers - 1)
    other = beside if chosen.random() < 0.7 else chosen.randrange(servers + 1)
    kind = chosen.random()
    if kind < 0.15:
        return f"piece {connection} {request(chosen)}"
    if kind < 0.27:
        return f"begin {connection}"
    if kind < 0.39:
        return f"work {connection}"
    if kind < 0.49:
        return f"hand {connection}"
    if kind < 0.50:
        return f"fail {server}" if may_fail else "# nobody fails"
    if kind < 0.56:
        return f"tell {server} {chosen.randrange(servers)}"
    if kind < 0.57:
        return "settle 1"
    return f"deliver {server} {other}"


def schedule(seed):
    """The text of a schedule, and whether it ends settled."""
    chosen = random.Random(seed)
    servers = chosen.choice([1, 2, 2, 3, 3, 3, 3, 4, 4, 5, 16])
    connections = chosen.randrange(1, 5)
    lines = [f"servers {servers}", "homes " + " ".join(str(chosen.randrange(servers)) for _ in range(connections))]
    failures = chosen.choice([0, 0, 1, 2, servers])
    for _ in range(chosen.choice([30, 100, 300])):
        failed = sum(line.startswith("fail") for line in lines)
        lines.append(event(chosen, servers, connections, failed < failures))
    settled = chosen.random() < 0.5
    if settled:
        lines.append("settle 200")
    return "\n".join(lines) + "\n", settled
