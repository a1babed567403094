"""Words and texts that are one tree or nearly so, for the test of one tree and for comparing."""

import random

import answers
import generate

WIDTH = 7
KINDS = [*range(0, 44), 255, 4294967295]


def fields(answer):
    """Words and texts of an answer `T words | texts`."""
    words, texts = answer[2:].split(" | ")
    return [int(word) for word in words.split(",")], bytes.fromhex(texts)


def line(*parts):
    """Words and texts by turns, as the programs take them."""
    return "|".join(part.hex() if isinstance(part, bytes) else ",".join(map(str, part)) for part in parts)


def subtrees(words, texts):
    """Each branch of a tree, as a tree of its own."""
    records = [words[at : at + WIDTH] for at in range(0, len(words), WIDTH)]
    sizes, found = [], []
    for last, record in enumerate(records):
        first = last
        for _ in range(record[6]):
            first -= sizes[first - 1]
        sizes.append(last + 1 - first)
        branch = [list(row) for row in records[first : last + 1]]
        begin = min([row[2] for row in branch if row[3]], default=0)
        for row in branch:
            row[2] -= begin if row[3] else 0
        end = begin + sum(row[3] for row in branch)
        found.append(([word for row in branch for word in row], texts[begin:end]))
    return found


def records(*rows):
    """Words of rows that are given as kind, text place, text length, value, second, children."""
    return [word for kind, *rest in rows for word in (kind, 9, *rest)]


ANY = (39, 0, 0, 0, 0, 0)


def span(first, past):
    return (38, 0, 0, first, past, 0)


# Each rule of what is one tree, with something that meets it and something that just does not.
HAND = [
    ([], b""),
    ([], b"x"),
    ([39], b""),
    (records(ANY), b""),
    (records(ANY)[:-1], b""),
    (records(ANY) + [0], b""),
    (records(ANY, ANY), b""),
    # bytes after the last text, and too few of them
    (records(ANY), b"more"),
    (records((30, 0, 2, 0, 0, 0)), b"ab"),
    (records((30, 0, 2, 0, 0, 0)), b"abc"),
    (records((30, 0, 2, 0, 0, 0)), b"a"),
    # any bytes, and none: an empty text has place 0
    (records((30, 0, 2, 0, 0, 0)), b"\xff\x00"),
    (records((30, 0, 0, 0, 0, 0)), b"a"),
    (records((30, 1, 0, 0, 0, 0)), b"a"),
    (records((36, 0, 0, 0, 0, 0)), b""),
    # a text where there is none, or at another place
    (records((39, 0, 1, 0, 0, 0)), b"a"),
    (records((30, 1, 1, 0, 0, 0)), b"ab"),
    (records((30, 0, 1, 0, 0, 0), (30, 1, 1, 0, 0, 1)), b"ab"),
    (records((30, 0, 1, 0, 0, 0), (30, 0, 1, 0, 0, 1)), b"ab"),
    (records((30, 4294967295, 1, 0, 0, 0)), b"a"),
    (records((30, 0, 4294967295, 0, 0, 0)), b"a"),
    # lists of any length
    (records((33, 0, 0, 0, 0, 0)), b""),
    (records(ANY, (33, 0, 0, 0, 0, 1)), b""),
    (records((34, 0, 0, 0, 0, 0)), b""),
    (records(ANY, (34, 0, 0, 0, 0, 1)), b""),
    (records((41, 0, 1, 0, 0, 0), ANY, (42, 1, 1, 0, 0, 0), (34, 0, 0, 0, 0, 3)), b"ab"),
    (records((34, 0, 0, 1, 0, 0)), b""),
    (records(ANY, (34, 0, 0, 1, 0, 1)), b""),
    (records((34, 0, 0, 2, 0, 0)), b""),
    # spans
    (records((37, 0, 0, 1, 0, 0)), b""),
    (records(span(5, 6), (37, 0, 0, 0, 0, 1)), b""),
    (records(span(5, 5), (37, 0, 0, 0, 0, 1)), b""),
    (records(span(6, 5), (37, 0, 0, 0, 0, 1)), b""),
    (records(span(0, 1114112), (37, 0, 0, 0, 0, 1)), b""),
    (records(span(0, 1114113), (37, 0, 0, 0, 0, 1)), b""),
    (records(span(7, 9), span(1, 8), (37, 0, 0, 0, 0, 2)), b""),
    (records(ANY, (37, 0, 0, 0, 0, 1)), b""),
    # fixed numbers of expressions
    (records((35, 0, 0, 1, 0, 0)), b""),
    (records(ANY, (35, 0, 0, 2, 0, 1)), b""),
    (records(ANY, (35, 0, 0, 3, 0, 1)), b""),
    (records(ANY, ANY, (35, 0, 0, 1, 0, 2)), b""),
    (records(ANY, (31, 0, 0, 1, 0, 1)), b""),
    (records(ANY, ANY, (31, 0, 0, 2, 0, 2)), b""),
    (records(ANY, ANY, (31, 0, 0, 0, 0, 2)), b""),
    (records(ANY, ANY, (31, 0, 0, 3, 0, 2)), b""),
    (records(ANY, ANY, ANY, (31, 0, 0, 1, 0, 3)), b""),
    (records((5, 0, 1, 1, 0, 0), ANY, ANY, (31, 0, 0, 1, 0, 3)), b"p"),
    (records(ANY, (5, 0, 1, 1, 0, 0), ANY, (31, 0, 0, 1, 0, 3)), b"p"),
    (records((32, 0, 1, 0, 0, 0)), b"n"),
    (records(ANY, (32, 0, 1, 0, 0, 1)), b"n"),
    (records((5, 0, 1, 2, 0, 0), ANY, (32, 1, 1, 0, 0, 2)), b"pn"),
    (records((6, 0, 1, 0, 0, 0), (7, 1, 1, 0, 0, 0), (5, 2, 1, 0, 0, 2), ANY, (32, 3, 1, 0, 0, 2)), b"abcd"),
    # values, zero words, kinds, and roots that are no expressions
    (records((40, 0, 0, 5, 0, 0)), b""),
    (records((40, 0, 0, 6, 0, 0)), b""),
    (records((39, 0, 0, 1, 0, 0)), b""),
    (records((39, 0, 0, 0, 1, 0)), b""),
    *((records((kind, 0, 0, 0, 0, 0)), b"") for kind in [0, 1, 4, 5, 15, 24, 26, 27, 28, 29, 41, 42, 43, 4294967295]),
    (records(span(1, 2)), b""),
    (records((39, 0, 0, 0, 0, 1)), b""),
    (records((39, 0, 0, 0, 0, 4294967295)), b""),
    # grammars: groups in their order, a fallback at most once
    (records(ANY, (2, 0, 1, 0, 0, 1), (1, 0, 0, 1, 0, 1)), b"T"),
    (records(ANY, (2, 0, 1, 0, 0, 1), (1, 0, 0, 2, 0, 1)), b"T"),
    (records(ANY, (3, 0, 1, 0, 0, 1), ANY, (2, 1, 1, 0, 0, 1), (1, 0, 0, 0, 0, 2)), b"rT"),
    (records(ANY, (2, 0, 1, 0, 0, 1), ANY, (3, 1, 1, 0, 0, 1), (1, 0, 0, 0, 0, 2)), b"Tr"),
    (records((13, 0, 1, 0, 0, 0), (12, 0, 0, 0, 0, 1), (1, 0, 0, 0, 0, 1)), b"n"),
    (records((13, 0, 1, 0, 0, 0), (13, 1, 1, 0, 0, 0), (12, 0, 0, 0, 0, 2), (1, 0, 0, 0, 0, 1)), b"nm"),
    (records((8, 0, 0, 0, 0, 0), (8, 0, 0, 0, 0, 0), (1, 0, 0, 0, 0, 2)), b""),
    (records((36, 0, 1, 0, 0, 0), (10, 0, 0, 0, 0, 1), (8, 0, 0, 0, 0, 1), (1, 0, 0, 0, 0, 1)), b"a"),
    (records(ANY, ANY, (10, 0, 0, 0, 0, 2), (8, 0, 0, 0, 0, 1), (1, 0, 0, 0, 0, 1)), b""),
]


def accepted(seed, count, longest=160):
    """Accepted texts with their trees."""
    found = []
    part = 0
    while len(found) < count:
        part += 1
        texts = generate.seeded(seed * 7919 + part, 500, longest)
        for text, answer in zip(texts, answers.second(texts)):
            if answer[0] == "T":
                found.append((text, *fields(answer)))
    return found[:count]


def is_expression(kind):
    return 30 <= kind <= 37 or kind in (39, 40)


def evenly(rng, branches, kind_of):
    """The branches in an order in which every kind has its share, the rare ones too."""
    rng.shuffle(branches)
    by_kind = {}
    for branch in branches:
        by_kind.setdefault(kind_of(branch), []).append(branch)
    order = []
    while any(by_kind.values()):
        for kind in sorted(by_kind):
            if by_kind[kind]:
                order.append(by_kind[kind].pop())
    return order


def branches(seed, most):
    """Expressions, grammars and other branches of at most so many records, no two alike."""
    rng = random.Random(seed)
    pool = {}
    for _, words, texts in accepted(seed, 1500):
        for branch in subtrees(words, texts):
            if len(branch[0]) <= most * WIDTH:
                pool[(tuple(branch[0]), branch[1])] = branch
    of_root = lambda branch: branch[0][-WIDTH]
    found = list(pool.values())
    expressions = [branch for branch in found if is_expression(of_root(branch))]
    grammars = [branch for branch in found if of_root(branch) == 1]
    others = [branch for branch in found if of_root(branch) != 1 and not is_expression(of_root(branch))]
    # Of grammars those with different kinds of declarations in them.
    within = lambda branch: tuple(sorted(set(branch[0][::WIDTH])))
    return evenly(rng, expressions, of_root)[:500], evenly(rng, grammars, within)[:500], evenly(rng, others, of_root)[:200]


def word_near(rng, word):
    return rng.choice([0, 1, 2, 3, 5, 6, max(word - 1, 0), word + 1, word + 1, 1114112, 1114113, 4294967295])


def changed(rng, words, texts):
    """A tree with something about it changed: mostly a single word."""
    words, at = list(words), rng.randrange(len(words))
    record = at - at % WIDTH
    roll = rng.random()
    if roll < 0.5:
        words[at] = word_near(rng, words[at])
    elif roll < 0.68:
        words[record] = rng.choice(KINDS)
    elif roll < 0.75:
        del words[record : record + WIDTH]
    elif roll < 0.8:
        words[record:record] = words[record : record + WIDTH]
    elif roll < 0.86:
        other = rng.randrange(0, len(words), WIDTH)
        one, two = words[record : record + WIDTH], words[other : other + WIDTH]
        words[record : record + WIDTH], words[other : other + WIDTH] = two, one
    elif roll < 0.9:
        del words[at]
    elif roll < 0.95:
        texts = texts[:-1]
    else:
        texts = texts + b"x"
    return words, texts


def random_words(rng):
    """Records with some sense, of leaves and of parents over what may stand before them."""
    words, end, complete = [], 0, 0
    for _ in range(rng.randint(0, 5)):
        kind = rng.choice([5, 6, 7, 30, 31, 32, 33, 34, 35, 36, 37, 38, 39, 40, 41, 42, rng.choice(KINDS)])
        children = rng.choice([0, complete, min(1, complete), min(2, complete), rng.randint(0, 3)])
        size = rng.choice([0, 0, 1, 2]) if kind in (5, 6, 7, 30, 32, 36, 41, 42) or rng.random() < 0.05 else 0
        value = rng.choice([0, 0, 1, 2, 3]) if kind in (5, 21, 31, 34, 35, 37, 38, 40) or rng.random() < 0.05 else 0
        second = rng.choice([1, 2, 4, 1114112, 1114113]) if kind == 38 or rng.random() < 0.02 else 0
        words += [kind, rng.randrange(9), end if size else 0, size, value, second, children]
        end += size
        complete = max(complete - children, 0) + 1
    return words, b"abcdefghij"[: max(end + rng.choice([-1, 0, 0, 0, 0, 3]), 0)]


def tested(seed, count):
    """Trees and what is nearly one, with expressions, grammars and anything else as root."""
    rng = random.Random(seed)
    expressions, grammars, others = branches(seed, 10)
    found = list(HAND)
    while len(found) < count:
        roll = rng.random()
        tree = rng.choice(expressions if roll < 0.5 else grammars if roll < 0.95 else others)
        roll = rng.random()
        if roll < 0.2:
            found.append(tree)
        elif roll < 0.85:
            found.append(changed(rng, *tree))
        else:
            found.append(random_words(rng))
    return found


def pairs(seed, count):
    """Pairs of trees to compare: equal ones with other starts, and pairs with something changed."""
    rng = random.Random(seed)
    expressions, grammars, _ = branches(seed, 10)
    found = []
    while len(found) < count:
        words, texts = rng.choice(grammars if rng.random() < 0.05 else expressions)
        other = list(words)
        for at in range(1, len(other), WIDTH):
            other[at] = rng.randrange(100)
        roll = rng.random()
        if roll < 0.2:
            right = (other, texts)
        elif roll < 0.35:
            # A prop's `@` turned round, which structurally_eq does not see.
            for at in range(0, len(other), WIDTH):
                if other[at] == 5:
                    other[at + 4] = 1 - other[at + 4]
            right = (other, texts + rng.choice([b"", b"x"]))
        elif roll < 0.55 and texts:
            at = rng.randrange(len(texts))
            right = (other, texts[:at] + b"~" + texts[at + 1 :])
        elif roll < 0.75:
            # A value or a span changed, or a text cut one byte earlier.
            at = rng.randrange(0, len(other), WIDTH) + rng.choice([4, 4, 5])
            other[at] = rng.randrange(4) if at % WIDTH == 4 else other[at] + (other[at] > 0)
            right = (other, texts)
        elif roll < 0.9:
            right = changed(rng, other, texts)
        else:
            right = rng.choice(expressions)
        pair = [(words, texts), right]
        rng.shuffle(pair)
        found.append((*pair[0], *pair[1]))
    return found


def body_like(rng, grammars, first):
    """Another text with a top rule, made from one: its body is the same, nearly so, or any."""
    inside = first[len("@top T{") : -1]
    same = [
        "@top T{(" + inside + ")}",
        "@top T{ " + inside + "/**/}",
        first.replace(" ", "\n "),
        first.replace(",", " , "),
        first.replace("()", '""'),
        first.replace("[@", "["),
        first.replace("[p", "[@p"),
    ]
    near = [
        first.replace("()", ""),
        first.replace("a", "b", 1),
        first.replace("*", "+", 1),
        first.replace("~", "!", 1),
        first.replace("|", " ", 1),
        first.replace(" ", " a ", 1),
        first.replace("-", "", 1),
        first.replace("<", "<a,", 1),
        first.replace("{n}", "n", 1),
        first.replace("=", "=.", 1),
        "@top T{" + inside + "*}",
        "@top T{a|" + inside + "}",
        "@top T{" + grammars.expression(rng.randint(0, 2)) + "}",
    ]
    return rng.choice([text for text in rng.choice([same, near]) if text != first] or [first])


def bodies(seed, count, met=None):
    """Pairs of texts whose only rule is a top rule, to compare their bodies: half are made to be alike. No pair has one text twice,
    and none comes twice, nor one of those already met."""
    rng = random.Random(seed)
    grammars = generate.Grammars(rng)
    met = set() if met is None else met
    found = []
    while len(found) < count:
        made = set()
        for _ in range(4 * (count - len(found)) + 400):
            first = "@top T{" + grammars.expression(rng.randint(0, 4)) + "}"
            second = body_like(rng, grammars, first)
            if len(first) < 120 and first != second:
                made.add((first.encode(), second.encode()))
        made = sorted(made - met)
        rng.shuffle(made)
        one = answers.second([pair[0] for pair in made])
        two = answers.second([pair[1] for pair in made])
        accepted = [pair for pair, a, b in zip(made, one, two) if a[0] == "T" and b[0] == "T"]
        found += accepted[: count - len(found)]
        met.update(found)
    return found
