"""The requests that `STORE gen START N` makes, read a second time: by docs/RULES.md, and by nothing of the program."""
import hashlib

LARGEST_START, MOST_REQUESTS = 2**31 - 1, 100_000
FIRST = 10


def number_within(most, word):
    """The number that a word is, in decimal digits without leading zeros. None: it is none, or too large."""
    if not word.isascii() or not word.isdecimal() or word != str(int(word)) or int(word) > most:
        return None
    return int(word)


def numbers_of(first, second):
    """START and N of two words, or None."""
    numbers = number_within(LARGEST_START, first), number_within(MOST_REQUESTS, second)
    return None if None in numbers else numbers


def requests(start, count):
    """The requests, as the dicts of their keys."""
    number, cells = start, 0
    for k in range(1, count + 1):
        number = (1103515245 * number + 12345) % 2**31
        hundreds, tens, ones = (number // 65536 // place % 10 for place in (100, 10, 1))
        if k <= FIRST:
            text = f"v{k - 1} = [{k}]"
        elif hundreds == 9:
            yield {"op": "checkout", "to": str(number // 65536 % (cells + 1))}
            continue
        else:
            one, other = f"v{ones}", f"v{tens}"
            text = (
                [f"{one} = [{k}, {tens}]"] * 3 + [f"{one} = [{other}]"] * 2 + [f"{one}.append({k})"] * 2
                + [f"print({one} is {other}, len({other}))", f"{one} = {other}"]
            )[hundreds]
        cells += 1
        yield {"op": "cell", "text": text}


def summed_up(session, start, count):
    """What is told of the requests, once they are applied to a session."""
    digest = hashlib.sha256()
    for request in requests(start, count):
        digest.update(session.answer(request))
    return {"answer": "gen", "commits": len(session.graph.parents), "records": session.graph.records, "sha256": digest.hexdigest()}
