"""A plain reading of cuts and excerpts: which chunks a new recording has, and which old moment each moment shows.

It is written from docs/COMMANDS.md alone and shares nothing with the program. Moments and delays are microseconds.
"""

LONGEST = 1_048_576


def timed(chunks):
    """Each chunk's moment and bytes."""
    time, out = 0, []
    for delay, text in chunks:
        time += delay
        out.append((time, text))
    return out


def untimed(all_of):
    """Chunks that are due so."""
    time, out = 0, []
    for moment, text in all_of:
        out.append([moment - time, text])
        time = moment
    return out


def pieces(text):
    return [text[at : at + LONGEST] for at in range(0, len(text), LONGEST)]


def is_gone(chunks, start, end):
    """Whether a chunk is due after one moment and by another."""
    return any(start < moment <= end for moment, _ in timed(chunks))


def cut(chunks, start, end, state):
    """The chunks without those due after `start` and by `end`, in whose place stands the state at `end`."""
    if end <= start:
        return [list(chunk) for chunk in chunks]
    stay = [one for one in timed(chunks) if one[0] <= start]
    if is_gone(chunks, start, end):
        stay += [(start, piece) for piece in pieces(state)]
    return untimed(stay + [(moment - (end - start), text) for moment, text in timed(chunks) if moment > end])


def excerpt(chunks, start, end, state):
    """The chunks due after `start` and by `end`, if that is told, behind the state at `start`."""
    kept = [
        (moment - start, text) for moment, text in timed(chunks) if start < moment and (end is None or moment <= end)
    ]
    return untimed([(0, piece) for piece in pieces(state)] + kept)


def before_cut(moment, start, end):
    """The old moment that a moment of the recording shows that was cut."""
    return moment if moment < start or end <= start else moment + (end - start)


def before_excerpt(moment, start, end):
    """The same of an excerpt: nothing behind `end`, or, where that lies before it, behind `start`."""
    return start + moment if end is None else min(start + moment, max(start, end))
