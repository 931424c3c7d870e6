"""The shapes of records that are put, and the same checks in Python: by pydantic where it is installed, else by hand.

Demonstration: one object (129 bytes a line). Order: an order that names ten lines, which aren't validated (1.7 KB). Patterns: an order whose ten lines are
validated, its number and their articles under patterns: eleven short texts (1.4 KB). Graph: twelve objects that refer to one another in a circle, each
validated (0.9 KB). Survey: a person and 24 answers, all validated and each question's number under a pattern (3.8 KB).
"""

import json
import re
from typing import Callable, NamedTuple


class Shape(NamedTuple):
    declarations: dict
    form: str
    bundle: Callable[[int], dict]
    # the object and field that a set changes, and its data
    change: tuple[str, str, Callable[[int], object]]


def compact(value):
    return json.dumps(value, separators=(",", ":"), sort_keys=True, ensure_ascii=False)


NOT_NULL = {"constraint": "NotNull"}
NOT_BLANK = {"constraint": "NotBlank"}
POSITIVE_OR_ZERO = {"constraint": "PositiveOrZero"}
AT_LEAST_ONE = {"constraint": "Min", "with": {"value": 1}}


def size(**limits):
    return {"constraint": "Size", "with": limits}


def pattern(regexp):
    return {"constraint": "Pattern", "with": {"regexp": regexp}}


def field(kind, *constraints, **more):
    return {"type": kind, **({"constraints": list(constraints)} if constraints else {}), **more}


DEMONSTRATION = {
    "types": {"Item": {"fields": {"count": field("integer", AT_LEAST_ONE), "name": field("text", NOT_NULL, size(min=1, max=3))}}},
    "forms": {"item": {"root": "Item"}},
}


def order_of(number, article, line):
    """Declarations of an order with ten lines: the constraints of its number and of a line's article, and what a line's place has."""
    return {
        "types": {
            "Order": {
                "fields": {
                    "city": field("text", NOT_BLANK),
                    "customer": field("text", NOT_BLANK, size(max=80)),
                    "number": field("text", NOT_NULL, *number),
                    "placed": field("date", NOT_NULL),
                    "total": field("decimal", NOT_NULL, POSITIVE_OR_ZERO),
                    **{f"line{at}": field({"ref": "Line"}, **line) for at in range(10)},
                }
            },
            "Line": {
                "fields": {
                    "article": field("text", *article),
                    "name": field("text", NOT_BLANK),
                    "price": field("decimal", NOT_NULL, POSITIVE_OR_ZERO),
                    "quantity": field("integer", AT_LEAST_ONE),
                }
            },
        },
        "forms": {"order": {"root": "Order"}},
    }


ORDER = order_of([size(min=8, max=8)], [NOT_BLANK], {})
PATTERNS = order_of([pattern("[0-9]{8}")], [NOT_NULL, pattern("[A-Z]{3}-[0-9]{4}")], {"valid": True})
GRAPH = {
    "types": {
        "Part": {
            "fields": {
                "code": field("text", NOT_NULL, size(min=1, max=12)),
                "next": field({"ref": "Part"}, valid=True),
                "weight": field("integer", AT_LEAST_ONE),
            }
        }
    },
    "forms": {"graph": {"root": "Part"}},
}
SURVEY = {
    "types": {
        "Survey": {
            "fields": {
                "filled": field("date", NOT_NULL),
                "person": field({"ref": "Person"}, NOT_NULL, valid=True),
                "subject": field("text", NOT_BLANK, size(max=80)),
                **{f"answer{at:02}": field({"ref": "Answer"}, valid=True) for at in range(24)},
            }
        },
        "Person": {"fields": {"age": field("integer", AT_LEAST_ONE), "name": field("text", NOT_BLANK, size(max=80))}},
        "Answer": {
            "fields": {
                "question": field("text", NOT_NULL, pattern("Q[0-9]{2}")),
                "score": field("integer", NOT_NULL, AT_LEAST_ONE),
                "text": field("text", NOT_BLANK, size(max=200)),
            }
        },
    },
    "forms": {"survey": {"root": "Survey"}},
}

SHARE = {"constraint": "Share"}
CODE = {"constraint": "Code"}
REPORT = {
    "constraints": {
        "Code": {
            "attributes": {"most": {"kind": "integer", "default": 12}},
            "compose": [NOT_BLANK, pattern("[A-Z]{2}-[0-9]{4}"), {"constraint": "Size", "override": {"max": "most"}}],
        },
        "Share": {"compose": [{"constraint": "Min", "with": {"value": 0}}, {"constraint": "Max", "with": {"value": 100}}]},
    },
    "types": {
        "Report": {
            "fields": {
                "code": field("text", NOT_NULL, CODE),
                "counts": field({"list": field({"list": field("integer", AT_LEAST_ONE)}, size(max=12))}, size(max=12)),
                "sections": field({"list": field({"ref": "Section"}, NOT_NULL, valid=True)}, size(max=20)),
                "shares": field({"map": field("integer", NOT_NULL, SHARE), "keys": [size(max=20)]}, size(max=40)),
                "summary": field("text", NOT_BLANK, size(max=4000)),
            }
        },
        "Section": {"fields": {"code": field("text", NOT_NULL, CODE), "share": field("integer", NOT_NULL, SHARE), "title": field("text", NOT_BLANK, size(max=80))}},
    },
    "forms": {"report": {"root": "Report"}},
}


def item(number):
    return {"root": "a", "objects": {"a": {"type": "Item", "fields": {"count": number % 97 + 1, "name": "abc"}}}}


def order_bundle(number, article, name):
    fields = {"number": f"{number % 10**8:08}", "customer": "Ada Lovelace", "city": "London", "placed": "2024-02-29", "total": f"{number % 900 + 100}.50"}
    objects = {}
    for line in range(10):
        fields[f"line{line}"] = f"line{line}"
        objects[f"line{line}"] = {
            "type": "Line",
            "fields": {"article": article(number, line), "name": name, "price": f"{line + 1}.25", "quantity": number % 7 + 1},
        }
    objects["order"] = {"type": "Order", "fields": fields}
    return {"root": "order", "objects": objects}


def order(number):
    return order_bundle(number, lambda number, line: f"A-{number % 977:04}-{line}", "Machine screw, steel, zinc plated, M4 x 20")


def patterned(number):
    return order_bundle(number, lambda number, line: f"ABC-{(number * 10 + line) % 9973:04}", "Screw M4 x 20")


def graph(number):
    names = [f"p{at:02}" for at in range(12)]
    objects = {name: {"type": "Part", "fields": {"code": f"C-{(number + at) % 9973}", "next": names[(at + 1) % 12], "weight": number % 89 + 1}} for at, name in enumerate(names)}
    return {"root": "p00", "objects": objects}


def survey(number):
    fields = {"filled": "2024-02-29", "person": "person", "subject": "How was the workshop?", **{f"answer{at:02}": f"answer{at:02}" for at in range(24)}}
    objects = {"person": {"type": "Person", "fields": {"age": number % 89 + 1, "name": "Ada Lovelace"}}, "survey": {"type": "Survey", "fields": fields}}
    for at in range(24):
        text = f"Reply {(number + at) % 9973}: the room was warm, the talks were good"
        objects[f"answer{at:02}"] = {"type": "Answer", "fields": {"question": f"Q{at:02}", "score": (number + at) % 5 + 1, "text": text}}
    return {"root": "survey", "objects": objects}


def report(number):
    sections = [f"section{at}" for at in range(8)]
    fields = {
        "code": f"RP-{number % 10_000:04}",
        "counts": [[(number + row * 10 + column) % 97 + 1 for column in range(10)] for row in range(10)],
        "sections": sections,
        "shares": {f"district {at:02}": (number + at) % 101 for at in range(24)},
        "summary": f"Report {number}. " + "The season was wet, and the paths along the river were closed twice. " * 29,
    }
    objects = {"report": {"type": "Report", "fields": fields}}
    for at, name in enumerate(sections):
        objects[name] = {"type": "Section", "fields": {"code": f"SE-{(number + at) % 10_000:04}", "share": (number + at) % 101, "title": f"Of the work in district {at}"}}
    return {"root": "report", "objects": objects}


SHAPES = {
    "demonstration": Shape(DEMONSTRATION, "item", item, ("a", "count", lambda number: number % 89 + 1)),
    "order": Shape(ORDER, "order", order, ("order", "customer", lambda number: f"Ada {number % 997}")),
    "patterns": Shape(PATTERNS, "order", patterned, ("order", "customer", lambda number: f"Ada {number % 997}")),
    "graph": Shape(GRAPH, "graph", graph, ("p07", "weight", lambda number: number % 89 + 1)),
    "survey": Shape(SURVEY, "survey", survey, ("person", "age", lambda number: number % 97 + 1)),
    "report": Shape(REPORT, "report", report, ("section3", "share", lambda number: number % 101)),
}


def reached(bundle, valid):
    """The objects that are validated, in the order in which they are met: the root, and what an object names in its valid fields."""
    objects, met, left = bundle["objects"], set(), [bundle["root"]]
    while left:
        name = left.pop()
        if name not in met:
            met.add(name)
            found = objects[name]
            yield found["type"], found["fields"]
            for name in valid.get(found["type"], ()):
                names = found["fields"].get(name)
                left += names if isinstance(names, list) else [] if names is None else [names]


VALID = {
    "demonstration": {},
    "order": {},
    "patterns": {"Order": [f"line{at}" for at in range(10)]},
    "graph": {"Part": ["next"]},
    "survey": {"Survey": ["person", *(f"answer{at:02}" for at in range(24))]},
    "report": {"Report": ["sections"]},
}


def units(text):
    return len(text.encode("utf-16-le")) // 2


def is_text(value, least=0, most=2**31 - 1):
    return isinstance(value, str) and least <= units(value) <= most


def is_filled(value, most=2**31 - 1):
    return is_text(value, 0, most) and value.strip() != ""


def is_at_least(value, least):
    return value is not None and float(value) >= least


def is_count(value):
    return value is None or value >= 1


def order_by_hand(is_number):
    return lambda fields: (
        is_filled(fields.get("city"))
        and is_filled(fields.get("customer"), 80)
        and is_number(fields.get("number"))
        and fields.get("placed") is not None
        and is_at_least(fields.get("total"), 0)
    )


def by_hand(shape):
    """For each type, whether an object's fields hold."""
    number, article, question, code = (re.compile(regexp) for regexp in (r"[0-9]{8}", r"[A-Z]{3}-[0-9]{4}", r"Q[0-9]{2}", r"[A-Z]{2}-[0-9]{4}"))

    def is_code(text):
        return text is not None and code.fullmatch(text) and is_filled(text, 12)

    def is_share(value):
        return value is not None and 0 <= value <= 100

    return {
        "demonstration": {"Item": lambda fields: is_count(fields.get("count")) and is_text(fields.get("name"), 1, 3)},
        "order": {"Order": order_by_hand(lambda text: is_text(text, 8, 8))},
        "patterns": {
            "Order": order_by_hand(lambda text: text is not None and number.fullmatch(text)),
            "Line": lambda fields: (
                fields.get("article") is not None
                and article.fullmatch(fields["article"])
                and is_filled(fields.get("name"))
                and is_at_least(fields.get("price"), 0)
                and is_count(fields.get("quantity"))
            ),
        },
        "graph": {"Part": lambda fields: is_text(fields.get("code"), 1, 12) and is_count(fields.get("weight"))},
        "survey": {
            "Survey": lambda fields: fields.get("filled") is not None and fields.get("person") is not None and is_filled(fields.get("subject"), 80),
            "Person": lambda fields: is_count(fields.get("age")) and is_filled(fields.get("name"), 80),
            "Answer": lambda fields: (
                fields.get("question") is not None
                and question.fullmatch(fields["question"])
                and is_at_least(fields.get("score"), 1)
                and is_filled(fields.get("text"), 200)
            ),
        },
        "report": {
            "Report": lambda fields: (
                is_code(fields.get("code"))
                and len(fields.get("counts") or []) <= 12
                and all(len(row) <= 12 and all(is_count(count) for count in row) for row in fields.get("counts") or [])
                and len(fields.get("sections") or []) <= 20
                and len(fields.get("shares") or {}) <= 40
                and all(is_text(key, 0, 20) and is_share(share) for key, share in (fields.get("shares") or {}).items())
                and is_filled(fields.get("summary"), 4000)
            ),
            "Section": lambda fields: is_code(fields.get("code")) and is_share(fields.get("share")) and is_filled(fields.get("title"), 80),
        },
    }[shape]


def by_pydantic(shape):
    """The same by a model of each type, whose validators are compiled."""
    from datetime import date
    from decimal import Decimal
    from typing import Annotated, Optional

    from pydantic import ConfigDict, Field, ValidationError, create_model

    filled = Annotated[str, Field(pattern=r"\S")]
    short = Annotated[str, Field(pattern=r"\S", max_length=80)]
    count = (Optional[Annotated[int, Field(ge=1)]], None)
    amount = Annotated[Decimal, Field(ge=0)]
    name = (Optional[str], None)
    code = Annotated[str, Field(pattern=r"^[A-Z]{2}-[0-9]{4}$", max_length=12)]
    share = Annotated[int, Field(ge=0, le=100)]

    def model(called, **fields):
        made = create_model(called, __config__=ConfigDict(extra="forbid"), **{key: kind if isinstance(kind, tuple) else (kind, ...) for key, kind in fields.items()})

        def holds(fields):
            try:
                made.model_validate(fields)
            except ValidationError:
                return False
            return True

        return holds

    def order_model(number):
        return model(
            "Order", city=filled, customer=Annotated[str, Field(pattern=r"\S", max_length=80)], number=number, placed=date, total=amount, **{f"line{at}": name for at in range(10)}
        )

    return {
        "demonstration": lambda: {"Item": model("Item", count=count, name=Annotated[str, Field(min_length=1, max_length=3)])},
        "order": lambda: {"Order": order_model(Annotated[str, Field(min_length=8, max_length=8)])},
        "patterns": lambda: {
            "Order": order_model(Annotated[str, Field(pattern=r"^[0-9]{8}$")]),
            "Line": model("Line", article=Annotated[str, Field(pattern=r"^[A-Z]{3}-[0-9]{4}$")], name=filled, price=amount, quantity=count),
        },
        "graph": lambda: {"Part": model("Part", code=Annotated[str, Field(min_length=1, max_length=12)], next=name, weight=count)},
        "survey": lambda: {
            "Survey": model("Survey", filled=date, person=str, subject=short, **{f"answer{at:02}": name for at in range(24)}),
            "Person": model("Person", age=count, name=short),
            "Answer": model("Answer", question=Annotated[str, Field(pattern=r"^Q[0-9]{2}$")], score=Annotated[int, Field(ge=1)], text=Annotated[str, Field(pattern=r"\S", max_length=200)]),
        },
        "report": lambda: {
            "Report": model(
                "Report",
                code=code,
                counts=Annotated[list[Annotated[list[Annotated[int, Field(ge=1)]], Field(max_length=12)]], Field(max_length=12)],
                sections=Annotated[list[str], Field(max_length=20)],
                shares=Annotated[dict[Annotated[str, Field(max_length=20)], share], Field(max_length=40)],
                summary=Annotated[str, Field(pattern=r"\S", max_length=4000)],
            ),
            "Section": model("Section", code=code, share=share, title=short),
        },
    }[shape]()


def checks(shape):
    """Whether a bundle of a shape holds, as a function."""
    try:
        by_type = by_pydantic(shape)
    except ImportError:
        by_type = by_hand(shape)
    valid = VALID[shape]
    return lambda bundle: all(by_type[kind](fields) for kind, fields in reached(bundle, valid))
