"""Reports with names, kinds and messages that could break XML, by a generator whose seed is fixed."""

import json
import random
import typing

# What could end or begin an element, or be taken for an escape; what XML forbids, and what its readers change; and plain text.
PIECES = ["]]>", "<![CDATA[", "<!--", "-->", "<?xml", "</testcase>", "<skipped/>", "<", ">", '"', "'"]
PIECES += ["&", "&amp;", "&#13;", "&lt;"]
PIECES += ["\\", "\\u", "\\u{", "\\u{1}", "\\u{5c}u{", "\\u{110000}", "\\\\u{a}", "u{", "{", "}", "\\n", '\\"', "\\u0001"]
PIECES += [chr(code) for code in range(32)] + ["\r\n", "\n\n", "\n\r", "  ", " ", "\t "]
PIECES += ["\x7f", "\x80", "\x85", "\xa0", "\u2028", "\ud7ff", "\ue000", "\ufdd0", "\ufeff", "\ufffd", "\ufffe", "\uffff"]
PIECES += ["\U0001fffe", "\U0010ffff", "\N{CRAB}", "\N{WOMAN}\u200d\N{ROCKET}", "e\u0301", "\u202e", "\u0661"]
PIECES += [".", ",", "a", "name", "bench", "failed", "0"]
EVENTS = ["ok", "failed", "ignored", "measured"]
NUMBERS = [0, 1, 999, 1000, (1 << 53) + 1, (1 << 64) - 1]


class Row(typing.NamedTuple):
    """What a report says of a trial. A measured one has two numbers, and a failed one may have a message."""

    kind: str
    name: str
    event: str
    numbers: tuple = ()
    message: str | None = None


class Report(typing.NamedTuple):
    """What a report says."""

    rows: list
    filtered_out: int
    nanos: int

    def count(self, event):
        return sum(row.event == event for row in self.rows)


def seconds(nanos):
    """Returns nanoseconds in exact seconds."""
    whole, rest = divmod(nanos, 10**9)
    return f"{whole}.{rest:09}".rstrip("0").rstrip(".")


def rounded(nanos):
    """Returns nanoseconds in seconds, to the nearest thousandth."""
    whole, rest = divmod((nanos + 500_000) // 1_000_000, 1000)
    return f"{whole}.{rest:03}"


def measured(average, deviation):
    """Returns what is printed of a measurement."""
    return f"{average:,} ns/iter (+/- {deviation:,})"


def lines_of_row(row):
    named = f'"name": {json.dumps(row.name, ensure_ascii=False)}'
    if row.kind:
        named += f', "kind": {json.dumps(row.kind, ensure_ascii=False)}'
    yield f'{{ "type": "test", "event": "started", {named} }}\n'
    if row.event == "measured":
        yield '{{ "type": "bench", {}, "median": {}, "deviation": {} }}\n'.format(named, *row.numbers)
        return
    said = "" if row.message is None else ', "stdout": ' + json.dumps(f'Error: "{row.message}"\n', ensure_ascii=False)
    yield f'{{ "type": "test", {named}, "event": "{row.event}"{said} }}\n'


def title(count):
    return f'{{ "type": "suite", "event": "started", "test_count": {count} }}\n'


def summary(counts, filtered_out, nanos):
    """Returns the last line of a report with these numbers of rows of each event."""
    verdict = "failed" if counts["failed"] else "ok"
    passed, failed, ignored, measured = (counts[event] for event in EVENTS)
    said = f'"passed": {passed}, "failed": {failed}, "ignored": {ignored}, "measured": {measured}'
    said += f', "filtered_out": {filtered_out}, "exec_time": {seconds(nanos)}'
    return f'{{ "type": "suite", "event": "{verdict}", {said} }}\n'


def lines_of(report):
    """Yields the lines of a report in JSON, as docs/formats.md has them."""
    yield title(len(report.rows))
    for row in report.rows:
        yield from lines_of_row(row)
    yield summary({event: report.count(event) for event in EVENTS}, report.filtered_out, report.nanos)


def hostile_text(source, most):
    return "".join(source.choices(PIECES, k=source.randint(0, most)))


def hostile_row(source):
    row = Row(hostile_text(source, 3), hostile_text(source, 6), source.choice(EVENTS))
    if row.event == "measured":
        return row._replace(numbers=tuple(source.choices(NUMBERS, k=2)))
    if row.event == "failed" and source.random() < 0.8:
        return row._replace(message=hostile_text(source, 12))
    return row


def hostile_reports(count):
    """Yields this number of reports, always the same ones, each with a name of its program."""
    source = random.Random(55)
    for _ in range(count):
        rows = [hostile_row(source) for _ in range(source.randint(0, 12))]
        name = hostile_text(source, 4).replace("\0", "")
        yield name, Report(rows, source.choice(NUMBERS), source.choice([0, 1, 500, 1_500_000_000, source.getrandbits(64)]))
