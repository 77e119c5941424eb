"""Breaks dumps for tests: cuts them, puts others in their place, or puts something else into a value."""

import json


def broken(rng, text, other):
    kind = rng.randrange(5)
    if kind == 0:
        return text[: rng.randrange(len(text))].encode()
    if kind == 1:
        return bytes(rng.randrange(256) for _ in range(rng.choice((0, 1, 300))))
    if kind == 2:
        return other.encode()
    try:
        value = json.loads(text)
    except ValueError:
        return text.replace(rng.choice("0123456789[]"), rng.choice(("", "99999999999", "x", "-1"))).encode()
    for _ in range(rng.randint(1, 3)):
        change(rng, value)
    return json.dumps(value).encode()


def change(rng, value):
    """Puts something else somewhere into a value."""
    other = rng.choice((None, True, -1, 0, 2**31, 2**70, 1e300, float("nan"), float("inf"), "", "x", "1'", "\ud800", [], {}, [[]], 0.5))
    while True:
        keys = list(value) if isinstance(value, dict) else list(range(len(value)))
        if not keys:
            return
        key = rng.choice(keys)
        if isinstance(value[key], (dict, list)) and value[key] and rng.random() < 0.85:
            value = value[key]
        elif rng.random() < 0.2:
            del value[key]
            return
        else:
            value[key] = other
            return
