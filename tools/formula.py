"""What a rule is written as: a class whose fields are the numbers of the rule, with its formula below them.

So the rules are values, and a tool can take them with one number changed.
"""
from dataclasses import dataclass, fields, is_dataclass, replace

rule = dataclass(frozen=True, eq=False)


def up(dividend, divisor):
    """The quotient, rounded up."""
    return -(-dividend // divisor)


def numbers_of(rules, place=()):
    """Each number of some rules with its place: the names of the fields that lead to it, and in a tuple the index."""
    if isinstance(rules, int):
        yield place, rules
    elif isinstance(rules, tuple):
        for index, part in enumerate(rules):
            yield from numbers_of(part, (*place, index))
    elif is_dataclass(rules):
        for field in fields(rules):
            yield from numbers_of(getattr(rules, field.name), (*place, field.name))


def value_at(rules, place):
    """What stands at a place of some rules."""
    for step in place:
        rules = rules[step] if isinstance(rules, tuple) else getattr(rules, step)
    return rules


def changed(rules, place, other):
    """The rules with something else at a place."""
    if not place:
        return other
    step, *rest = place
    if isinstance(rules, tuple):
        return (*rules[:step], changed(rules[step], rest, other), *rules[step + 1 :])
    return replace(rules, **{step: changed(getattr(rules, step), rest, other)})
