"""How random scripts are spelled: blanks, comments and cases, and what is no statement at all."""

from random import Random

SEPARATORS = [" "] * 30 + ["  ", "\n", "\t", "\r\n", " -- a comment; of 'words'\n", "--\n", "\n\n "]
WORDS = """AND BETWEEN BIGINT BY COUNT CREATE DELETE DICTIONARY DROP FALSE FROM GROUP H HEADER IN INSERT INT
    INTEGER INTO IS LOAD MAX MEDIAN MIN NOT NULL OFFSET OPEN OR P REBUILD S SAVE SELECT SET STATS SUM TABLE
    TABLES TO TRUE UNKNOWN UPDATE USING V VALUES WHERE WITH a b t u""".split()
SYMBOLS = ["(", ")", ",", "*", "+", "-", "=", "<>", "!=", "<", "<=", ">", ">=", "'t.table'", "'", ";", "7", "00", "1x"]
ODD_BYTES = [b"\0", b"\x7f", b"\xc3", b"\xc3\xa9", b"\xff", b"!", b"#", b"_", b'"', b"\x0b", b"\x0c", b"\xa0"]
LONGEST_PART = 65_536


def joined(generator: Random, tokens: list[str]) -> bytes:
    """A statement of these tokens, with its `;`."""
    parts = [generator.choice(["", "", "", "\n", " "])]
    is_loud = generator.random() < 0.5
    for before, token in zip(["", *tokens], tokens, strict=False):
        if before and (must_part(before, token) or generator.random() < 0.7):
            parts.append(generator.choice(SEPARATORS))
        parts.append(token if token.startswith("'") else in_case(generator, token, is_loud))
    parts.append(generator.choice(["", "", "", " ", "\n", " -- the end\n"]))
    return ("".join(parts) + ";").encode()


def must_part(before: str, token: str) -> bool:
    """Whether the two would form another token, or begin a comment, without a blank between them."""
    ends = before[-1:], token[:1]
    are_words = all(end.isalnum() for end in ends) or "_" in ends
    return are_words or ends in (("-", "-"), ("'", "'")) or before + token in ("<=", ">=", "<>")


def in_case(generator: Random, token: str, is_loud: bool) -> str:
    """A token in upper case, in lower case, or now and then in both."""
    if generator.random() < 0.05:
        return "".join(generator.choice([letter.upper(), letter.lower()]) for letter in token)
    return token.upper() if is_loud else token.lower()


def broken(generator: Random, tokens: list[str]) -> bytes:
    """A statement with one or two tokens left out, doubled, exchanged or inserted, or with odd bytes."""
    tokens = list(tokens)
    for _ in range(generator.choice([1, 1, 1, 2])):
        place = generator.randrange(len(tokens) + 1)
        match generator.randrange(5):
            case 0:
                del tokens[place : place + 1]
            case 1:
                tokens[place:place] = tokens[max(0, place - 1) : place]
            case 2:
                tokens[place : place + 2] = reversed(tokens[place : place + 2])
            case 3:
                tokens.insert(place, generator.choice(WORDS))
            case _:
                tokens.insert(place, generator.choice(SYMBOLS))
    text = joined(generator, tokens)
    if generator.random() < 0.2:
        place = generator.randrange(len(text) + 1)
        text = text[:place] + generator.choice(ODD_BYTES) + text[place:]
    if generator.random() < 0.1:
        place = generator.randrange(len(text))
        text = text[:place] + text[place + 1 :]
    return text


def odd_parts(generator: Random) -> bytes:
    """Parts that are at a limit, or that only the rules of tokens and parts explain."""
    number = generator.choice(["9223372036854775807", "9223372036854775808", "0" * 30 + "12", "9" * 5_000, "0" * 5_000])
    sign = generator.choice(["", "-", "- ", "+", "--\n", "- --\n"])
    depth = generator.choice([1, 2, 63, 64, 65])
    word = "w" * generator.choice([127, 128, 129])
    text = generator.choice(["", "x", "\0", "é" * 127, "é" * 128, "x" * 255, "x" * 256, "''" * 255, "''" * 256])
    return generator.choice(
        [
            f"SELECT * FROM t WHERE a < {sign}{number};",
            f"SELECT a FROM t WHERE {'(' * depth}a = 1{')' * depth};",
            f"SELECT a FROM t WHERE {'(NOT ' * depth}a = 1{')' * depth};",
            f"SELECT a FROM t WHERE {'(' * depth}a = 1;",
            f"){'(' * (depth + 1)};",
            f"CREATE TABLE {word} ({word} INT);",
            f"LOAD t FROM '{text}';",
            f"OPEN v FROM '{text}';",
            ";;  ;--;\n;",
            "-- nothing\n;",
            " " * LONGEST_PART + ";",
            "TABLES" + " " * (LONGEST_PART - 6 + generator.choice([0, 0, 1])) + ";",
            f"SELECT a FROM t WHERE a IN ({','.join(['1'] * generator.choice([999, 1000, 1001]))});",
            f"UPDATE t SET a = a WHERE 1 NOT IN ({', '.join(['NULL'] * generator.choice([1000, 1001]))});",
            "STATS TABLES;",
            "STATS STATS SELECT a FROM t;",
            "SELECT a FROM t WHERE NOT NOT a = 1;",
            "SELECT a FROM t WHERE a IS TRUE;",
            "SELECT a FROM t WHERE a = 1 IS TRUE IS TRUE;",
            "SELECT a FROM t WHERE (a) = 1;",
            "SELECT a FROM t WHERE a IN (b);",
            "SELECT a FROM t WHERE a IN ();",
            "SELECT COUNT(*), COUNT( --\n *) FROM t;",
            "SELECT a FROM t GROUP BY a, b;",
            "create table tables (v integer using v, s int using s offset, stats bigint using p);",
            "SELECT v, stats, s FROM tables WHERE v IS NULL OR s = stats;",
        ]
    ).encode()


def last_part(generator: Random) -> bytes:
    """What follows the last `;`."""
    return generator.choice(
        [
            b"TABLES",
            b"SELECT a FROM t",
            b"-- ;",
            b"  \n",
            b"'",
            b"'never; closed",
            b"(" * 70,
            b" " * LONGEST_PART + b"x",
        ]
    )
