"""What was measured, as plain text and as Markdown: tables are lists of rows of texts, the first row the head."""
from live_parts.speeds import Case, quartiles


def plain(table):
    widths = [max(len(row[place]) for row in table) for place in range(len(table[0]))]
    return "\n".join("  ".join(text.rjust(width) for text, width in zip(row, widths)) for row in table)


def markdown(table):
    lines = ["| " + " | ".join(row) + " |" for row in table]
    return "\n".join([lines[0], "|" + "---|" * len(table[0]), *lines[1:]])


def head_of(cases):
    return next(iter(cases), Case).head


def short(number):
    return f"{number:.2f}" if number < 10 else f"{number:,.0f}"


def exact(ratio):
    """For ratios that are near to 1."""
    return f"{ratio:.3f}"


def ratio_text(ratios, shown=short):
    """The median, and the quartiles."""
    low, middle, high = map(shown, quartiles(ratios))
    return f"{middle} ({low} to {high})"


# What is compared: the unit, and how a number of it is shown.
COMPARED = {"rate": ("a second", "{:,.0f}"), "processor": ("microseconds", "{:.2f}")}


def ratio_table(samples, cases, names, base, field="rate", shown=short):
    """The base's median, and the ratio of each other peer to it: the median, and the quartiles."""
    unit, form = COMPARED[field]
    others = [name for name in names if name != base]
    table = [[*head_of(cases), f"{base}, {unit}", *others]]
    for case in cases:
        if samples.has(case, base):
            ratios = [samples.ratios(case, name, base, field) for name in others]
            table.append([*case.texts(), form.format(samples.median(case, base, field)),
                          *(ratio_text(each, shown) if each else "" for each in ratios)])
    return table


def field_table(samples, cases, names, shown):
    """Medians of each peer."""
    table = [[*head_of(cases), *names]]
    for case in cases:
        if any(samples.has(case, name) for name in names):
            table.append([*case.texts(), *(shown(case, name) if samples.has(case, name) else "" for name in names)])
    return table


def latency_table(samples, cases, names):
    def shown(case, name):
        return " / ".join(short(samples.median(case, name, field)) for field in ["p50", "p99", "p999"])
    return field_table(samples, cases, names, shown)


def processor_table(samples, cases, names):
    def shown(case, name):
        return f"{samples.median(case, name, 'processor'):.1f}"
    return field_table(samples, cases, names, shown)


def of_mix(mix, depth=None):
    return lambda case: case.mix == mix and depth in (None, case.depth)


def is_many(case):
    return case.connections >= 100


def is_few(case):
    return case.mix == "1 write in 10" and case.depth == 1 and not is_many(case)


def is_fast_get(case):
    return case.mix == "get" and case.depth == 16 and case.size == 100 and case.connections >= 4


def is_other_get(case):
    return case.mix == "get" and case.depth == 16 and not is_fast_get(case)


# What is asked: the peer, the one that it is compared with, the cases, and the least median ratio.
TARGETS = [
    ("get, one in flight", "craq, 1 server", "memcached", of_mix("get", 1), .95),
    ("get, 16 in flight, 100 bytes, 4 connections or more", "craq, 1 server", "memcached", is_fast_get, 2),
    ("get, 16 in flight, else", "craq, 1 server", "memcached", is_other_get, 1.3),
    ("set, one in flight", "craq, 1 server", "memcached", of_mix("set", 1), .7),
    ("set, 16 in flight", "craq, 1 server", "memcached", of_mix("set", 16), .3),
    ("set, one in flight", "craq, 3 servers", "memcached", of_mix("set", 1), .4),
    ("set", "craq, 3 servers", "redis", of_mix("set"), 1.3),
    ("1 write in 10, one in flight", "craq, 3 servers", "memcached", is_few, .75),
    ("1 write in 10, 100 and 1,000 connections", "craq, 1 server", "memcached", is_many, .95),
    ("1 write in 10, 100 and 1,000 connections", "craq, 3 servers", "memcached", is_many, .9),
]


def target_table(samples, cases):
    """For each target the least and the greatest of its cases' median ratios, and in how many cases it is met."""
    table = [["calls", "of", "compared with", "asked", "least case", "greatest case", "met in"]]
    for calls, name, base, suits, asked in TARGETS:
        ratios = [samples.ratios(case, name, base) for case in cases if suits(case)]
        medians = [quartiles(each)[1] for each in ratios if each]
        if medians:
            met = f"{sum(median >= asked for median in medians)} of {len(medians)} cases"
            table.append([calls, name, base, f"{asked}", short(min(medians)), short(max(medians)), met])
    return table


def mebibytes(count):
    return f"{count / 2**20:,.1f}"
