"""Whether what many processes were answered fits the one list of commands that the journal keeps."""

from collections import Counter
from dataclasses import dataclass

from beside_table.model import Table


@dataclass
class Asked:
    """A line, by which process it was asked and as which of its lines, from when to when, and its reply; None if none was seen.

    No two lines are the same text.
    """

    line: str
    process: int
    index: int
    begun: float
    ended: float
    reply: str | None


def tables_after(journal):
    """The table before the first line, and after each; and the reply to each line."""
    tables, replies = [Table()], []
    for line in journal:
        table = tables[-1].copy()
        replies.append(table.answer(line))
        tables.append(table)
    return tables, replies


def faults_of(asked, journal):
    """What does not fit: a line that nobody asked, one out of order, a reply that the table would not give."""
    tables, replies = tables_after(journal)
    by_line = {it.line: it for it in asked}
    faults = [f"journal line {place + 1} `{line}` was never asked" for place, line in enumerate(journal) if line not in by_line]
    faults += [f"`{line}` stands {count} times in the journal" for line, count in Counter(journal).items() if count > 1]
    if faults:
        return faults
    places = {line: place for place, line in enumerate(journal)}
    faults += out_of_time([by_line[line] for line in journal])
    faults += out_of_order(asked, places)
    for it in asked:
        if it.reply is not None and it.line in places and it.reply != replies[places[it.line]]:
            faults.append(f"`{it.line}` was answered `{it.reply}`, and at its place the reply is `{replies[places[it.line]]}`")
    return faults + lost(asked, places, tables)


def out_of_time(placed):
    """A line that stands after one that was begun only when it had ended."""
    now, faults = 0, []
    for it in placed:
        now = max(now, it.begun)
        if it.ended < now:
            faults.append(f"`{it.line}` had ended before a line was begun that stands before it")
    return faults


def out_of_order(asked, places):
    """The lines of a process that stand in another order."""
    latest, faults = {}, []
    for it in sorted(asked, key=lambda it: (it.process, it.index)):
        if it.line in places:
            if places[it.line] < latest.get(it.process, -1):
                faults.append(f"`{it.line}` stands before an earlier line of its process")
            latest[it.process] = places[it.line]
    return faults


def lost(asked, places, tables):
    """Replies without a place in the journal that no table of their time gives without a change."""
    ends = sorted((it.ended, places[it.line]) for it in asked if it.line in places and it.reply is not None)
    begins = sorted(((it.begun, places[it.line]) for it in asked if it.line in places), reverse=True)
    latest = running(ends, max)
    earliest = running(begins, min)
    faults = []
    for it in asked:
        if it.reply is None or it.line in places:
            continue
        first = latest_before(latest, it.begun) + 1
        last = earliest_after(earliest, it.ended, len(tables) - 1)
        if not any(gives(table, it) for table in tables[first : last + 1]):
            faults.append(f"`{it.line}` was answered `{it.reply}`, which no table from {first} to {last} answers and stays")
    return faults


def gives(table, it):
    after = table.copy()
    return after.answer(it.line) == it.reply and after == table


def running(pairs, choose):
    """Pairs of a time and the greatest or least place so far."""
    out = []
    for time, place in pairs:
        out.append((time, choose(place, out[-1][1]) if out else place))
    return out


def latest_before(pairs, time):
    """The last place of the lines that ended before a time, or -1."""
    return max((place for at, place in pairs if at < time), default=-1)


def earliest_after(pairs, time, otherwise):
    """The first place of the lines that were begun after a time."""
    return min((place for at, place in pairs if at > time), default=otherwise)
