"""Damage of a certificate: each function takes its lines and a source of random numbers, and gives other lines, or None
where it has nothing to turn. And damage of any text, byte by byte.

What the damaged text is worth is not said here: the program and the second checker each decide, and have to agree."""

LETTERS = [
    b'"',
    b"\n",
    b"\r",
    b",",
    b"(",
    b")",
    b" ",
    b".",
    b"+",
    b"-",
    b"0",
    b"1",
    b"9",
    b"A",
    b"\t",
    b";",
    b"\0",
    b"\xc3\xa4",
    b"\xff",
    b"\xef\xbb\xbf",
    b"\xc2\xa0",
    b"\x0c",
    b"\x85",
]


def edited(data, numbers):
    """The bytes with an edit or two: one more letter, one less, or another, often at the begin or the end; or other
    line ends."""
    if numbers.random() < 0.1:
        return data.replace(b"\n", numbers.choice([b"\r\n", b"\r", b"\n\n"]))
    for _ in range(numbers.choice([1, 1, 2])):
        at = numbers.choice(
            [0, len(data), data.find(b"\n"), data.find(b"\n") + 1, *[numbers.randint(0, len(data)) for _ in range(6)]]
        )
        data = (
            data[:at]
            + numbers.choice([b"", numbers.choice(LETTERS), numbers.choice(LETTERS)])
            + data[at + numbers.randint(0, 1) :]
        )
    return data


def places(lines, first):
    return [place for place, line in enumerate(lines) if line.startswith(first)]


def block_ends(lines, place):
    """The place behind the block that begins at a place."""
    end = place + 1
    while lines[end][:2] in ("t ", "f "):
        end += 1
    return end


def with_count(lines, place, word, change):
    """The lines with another count in a word of a block's head."""
    words = lines[place].split(" ")
    words[word] = str(int(words[word]) + change)
    return lines[:place] + [" ".join(words)] + lines[place + 1 :]


def without_pairs(lines):
    return [line for line in lines if line[:2] != "s "][:-2] + ["pairs 0", "end"]


def with_pairs(lines, change):
    """The lines with other pair lines, and their count."""
    first = places(lines, "pairs")[0]
    pairs = change([line for line in lines[first + 1 : -1]])
    return None if pairs is None else lines[:first] + [f"pairs {len(pairs)}", *pairs, "end"]


def chosen(numbers, lines, first):
    found = places(lines, first)
    return numbers.choice(found) if found else None


def blocks_exchanged(lines, numbers):
    heads = places(lines, numbers.choice(["piece", "parcel"]))
    if len(heads) < 2:
        return None
    one, other = sorted(numbers.sample(heads, 2))
    a, b, c, d = one, block_ends(lines, one), other, block_ends(lines, other)
    return lines[:a] + lines[c:d] + lines[b:c] + lines[a:b] + lines[d:]


def block_doubled(lines, numbers):
    place = chosen(numbers, lines, numbers.choice(["piece", "parcel"]))
    end = block_ends(lines, place)
    return lines[:end] + lines[place:]


def block_left_out(lines, numbers):
    place = chosen(numbers, lines, numbers.choice(["piece", "parcel"]))
    return lines[:place] + lines[block_ends(lines, place) :]


def other_identifier(lines, numbers):
    place = chosen(numbers, lines, numbers.choice(["piece", "parcel"]))
    words = lines[place].split(" ")
    words[1] = numbers.choice(["X", words[1] + "0", words[1].lower(), "a" * 40, "a" * 41, "ä", ""])
    return lines[:place] + [" ".join(words)] + lines[place + 1 :]


def emptied_piece(lines, numbers):
    place = chosen(numbers, lines, "piece")
    end, words = block_ends(lines, place), lines[place].split(" ")
    flats = [line for line in lines[place + 1 : end] if line[0] == "f"]
    return without_pairs(lines[:place] + [f"piece {words[1]} 0 {len(flats)}", *flats] + lines[end:])


def turned_triangle(lines, numbers):
    place = chosen(numbers, lines, "t ")
    words = lines[place].split(" ")
    return lines[:place] + [" ".join(words[:1] + words[5:7] + words[3:5] + words[1:3])] + lines[place + 1 :]


def added_flat(lines, numbers):
    """A flat of corners of a triangle, of one point thrice, or of a line beside everything."""
    heads = places(lines, "piece") + places(lines, "parcel")
    place = numbers.choice(heads)
    corners = lines[chosen(numbers, lines, "t ")].split(" ")[1:]
    flat = numbers.choice(
        [
            corners,
            corners[:2] * 3,
            corners[:2] * 2 + corners[2:4],
            ["0", "0", "7", "0", "3", "0"],
            corners[:2] + corners[2:4] + corners[:2],
        ]
    )
    lines = with_count(lines, place, -1, 1)
    end = block_ends(lines, place)
    return lines[:end] + [" ".join(["f", *flat])] + lines[end:]


def with_flats(lines, numbers, count):
    """The lines with a flat left out (0), or there twice."""
    place = chosen(numbers, lines, "f ")
    if place is None:
        return None
    head = max(head for head in places(lines, "p") if head < place)
    return with_count(lines[:place] + lines[place : place + 1] * count + lines[place + 1 :], head, -1, count - 1)


def flat_left_out(lines, numbers):
    return with_flats(lines, numbers, 0)


def flat_doubled(lines, numbers):
    return with_flats(lines, numbers, 2)


def triangle_doubled(lines, numbers):
    place = chosen(numbers, lines, "t ")
    head = max(head for head in places(lines, "piece") if head < place)
    return without_pairs(with_count(lines[:place] + lines[place : place + 1] + lines[place:], head, 2, 1))


def moved_corner(lines, numbers):
    place = chosen(numbers, lines, numbers.choice(["t ", "f "]))
    if place is None:
        return None
    words = lines[place].split(" ")
    word = numbers.randint(1, 6)
    words[word] = str(int(words[word]) + numbers.choice([-1, 1, 1000]))
    return lines[:place] + [" ".join(words)] + lines[place + 1 :]


def pair_left_out(lines, numbers):
    return with_pairs(
        lines,
        lambda pairs: (
            [pair for place, pair in enumerate(pairs) if place != drop]
            if (drop := numbers.randrange(len(pairs) or 1)) < len(pairs)
            else None
        ),
    )


def pair_added(lines, numbers):
    """One more pair line at its place in the order, most often of triangles that are apart."""
    count = len(places(lines, "t "))

    def change(pairs):
        given = {tuple(map(int, pair.split(" ")[1:3])) for pair in pairs}
        free = [(i, j) for i in range(count) for j in range(i + 1, count) if (i, j) not in given]
        if not free:
            return None
        more = "s {} {} {}".format(*numbers.choice(free), numbers.randint(0, 5))
        return sorted([*pairs, more], key=lambda pair: tuple(map(int, pair.split(" ")[1:])))

    return with_pairs(lines, change)


def pairs_out_of_order(lines, numbers):
    def change(pairs):
        if len(pairs) < 2:
            return None
        at = numbers.randrange(len(pairs) - 1)
        return numbers.choice([pairs[:at] + [pairs[at + 1], pairs[at]] + pairs[at + 2 :], pairs[: at + 1] + pairs[at:]])

    return with_pairs(lines, change)


def with_other_pair(lines, numbers, change):
    """The lines with one pair line changed, word by word."""

    def changed(pairs):
        if not pairs:
            return None
        at = numbers.randrange(len(pairs))
        return pairs[:at] + [" ".join(change(*pairs[at].split(" ")[1:]))] + pairs[at + 1 :]

    return with_pairs(lines, changed)


def other_pair(lines, numbers):
    """A pair of a triangle with itself, turned round, or with one that is not there."""
    return with_other_pair(
        lines,
        numbers,
        lambda i, j, k: [
            "s",
            *numbers.choice(
                [
                    (i, i, k),
                    (j, i, k),
                    (i, str(len(places(lines, "t "))), k),
                    (i, "4294967295", k),
                    (i, "4294967296", k),
                ]
            ),
        ],
    )


def other_edge(lines, numbers):
    return with_other_pair(lines, numbers, lambda i, j, k: ["s", i, j, str((int(k) + numbers.randint(1, 5)) % 6)])


def edge_past_five(lines, numbers):
    return with_other_pair(
        lines, numbers, lambda i, j, _: ["s", i, j, numbers.choice(["6", "7", "05", "-1", "+1", "10", "²", "1.0", ""])]
    )


def other_spelling(lines, numbers):
    """A number with a leading zero, a sign, a blank around it, another digit, or a line with another end."""
    place = numbers.randrange(len(lines))
    words = lines[place].split(" ")
    word = numbers.randrange(len(words))
    old = words[word]
    words[word] = numbers.choice(
        [
            f"0{old}",
            f"+{old}",
            f"-{old}",
            f"{old} ",
            f" {old}",
            f"{old}\r",
            f"{old}\t",
            f"{old}.0",
            f"{old}e0",
            f"{old}_0",
            old + "\x00",
            old.upper(),
            old.translate({48 + digit: 0x661 + digit - 1 for digit in range(10)}),
            "0" * 5000 + old,
            "9" * 5000,
            "20000000001",
            "-20000000001",
        ]
    )
    return lines[:place] + [" ".join(words)] + lines[place + 1 :]


def other_form(lines, numbers):
    """Another version, one more block that is no matter of a release, lines left out, doubled or exchanged, another
    count."""
    place = numbers.randrange(len(lines))
    at = places(lines, "pairs")[0]
    triangle = lines[chosen(numbers, lines, "t ")][2:]
    return numbers.choice(
        [
            ["lpis-cert 1", *lines[1:]],
            ["lpis-cert 3", *lines[1:]],
            ["\ufefflpis-cert 2", *lines[1:]],
            lines[:at] + ["exact split A 0", f"exact merge {'b' * 40} 1", f"f {triangle}"] + lines[at:],
            ["lpis-cert 1", *lines[1:at], "exact split A 0", *lines[at:]],
            lines[:at] + ["exact both A 0"] + lines[at:],
            lines[:1] + ["exact split A 0"] + lines[1:],
            lines[:place] + [""] + lines[place:],
            lines[:place] + lines[place + 1 :],
            lines[: place + 1] + lines[place:],
            lines[:-1] + ["end", "end"],
            lines[:-1],
            with_count(lines, chosen(numbers, lines, "p"), -1, numbers.choice([-1, 1, 2_000_001, 4_294_967_296])),
        ]
    )


CONDITIONS = [
    blocks_exchanged,
    block_doubled,
    block_left_out,
    other_identifier,
    emptied_piece,
    turned_triangle,
    added_flat,
    flat_left_out,
    flat_doubled,
    triangle_doubled,
    moved_corner,
    pair_left_out,
    pair_added,
    pairs_out_of_order,
    other_pair,
    other_edge,
]
TEXTS = [edge_past_five, other_spelling, other_form]
