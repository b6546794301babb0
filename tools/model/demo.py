"""The text of crates/cascade_demo: a timer on a status mux under a PLIC under an 8259A."""

from model import Cascade, I8259, Plic, StatusMux
from walks import make

TIMER = 73

REASONS = {25: "there is no such line", 30: "the line is not in service", 31: "the line is wired"}

# The words of a step, and its call: none for a claim.
STEPS = [
    ("unmask line 73", ("unmask", 73)),
    ("drive line 73 high", ("high", 73)),
    ("claim", None),
    ("complete line 73", ("complete", 73)),
    ("claim", None),
    ("drive line 73 low", ("low", 73)),
    ("complete line 73", ("complete", 73)),
    ("claim", None),
    ("complete line 73", ("complete", 73)),
    ("unmask line 2", ("unmask", 2)),
    ("unmask line 76", ("unmask", 76)),
]


def either(is_set, yes, no):
    return yes if is_set else no


def record(line):
    return ", ".join(
        [
            line.sense,
            either(line.level, "high", "low"),
            either(line.request, "requested", "not requested"),
            either(line.service, "in service", "not in service"),
            either(line.mask, "masked", "unmasked"),
        ]
    )


def step(controller, words, call):
    """The line of text of one step: the answer, the timer's record and the offer."""
    if call is None:
        named = controller.claim()
        answer = "no line" if named is None else "line %d" % named
    else:
        refusal = make(controller, *call)
        answer = "done" if refusal is None else "refused with %d, %s" % (refusal, REASONS[refusal])
    offered = controller.offer()
    offer = "none" if offered is None else "line %d" % offered
    return "%s: %s; %s; offer %s" % (words, answer, record(controller.line(TIMER)), offer)


def text():
    inner = Cascade(I8259(), Cascade(Plic([1] * 64), StatusMux(4), 10), 2)
    outer = Cascade(Cascade(I8259(), Plic([1] * 64), 2), StatusMux(4), 8 + 10)
    lines = [
        "A timer drives line 1 of a status mux with 4 lines. The mux is wired to line 10 of a PLIC with 64 lines,",
        "and the PLIC to line 2 of an 8259A, which has 8. Together they are one controller with 76 lines, and the",
        "timer is at line 8 + 64 + 1 = 73. Each step says its answer, then the record of line 73, then the offer.",
    ]
    for title, controller in [
        ("The mux is cascaded into the PLIC, and that pair into the 8259A:", inner),
        ("The PLIC is cascaded into the 8259A, and the mux into that pair:", outer),
    ]:
        assert controller.width() == 76
        lines += ["", title] + [step(controller, words, call) for words, call in STEPS]
    return "\n".join(lines) + "\n"
