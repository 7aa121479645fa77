"""What is said of goals and faults: Boogie's words, and those of docs/LANGUAGE.md."""

# By the kind of a goal, without the number of a `requires`.
GOALS = {
    "assert": "This assertion might not hold.",
    "invariant-entry": "This loop invariant might not hold on entry.",
    "invariant-kept": "This loop invariant might not be maintained by the loop.",
    "requires": "A precondition for this call might not hold.",
    "ensures": "This is the postcondition that might not hold.",
}
PRECONDITION = "This is the precondition that might not hold."

# By a goal's verdict: why the search ended. Of `open` there is nothing more to say.
VERDICTS = {
    "open": "",
    "turns": " The search ran out of turns.",
    "wide": " A number of the search would leave 128 bits.",
}

FAULTS = {
    "Lex": "no token begins here, or a comment or string has no end",
    "Syntax": "with this token the text begins no program, or it ends too early",
    "Deep": "a token inside more than 200 nestings",
    "Wide": "a number of 2^127 or more",
    "Twice": "a name declared a second time in its scope, a label a second time in a body, a second body",
    "Unknown": "a name without declaration, a label that no statement of the body has, an out-parameter in a "
    "`requires`, a name that a `where` clause may not name",
    "Kind": "a name used as something that it isn't; a global in a function or axiom",
    "Sort": "an operand, argument, right side or condition of a wrong sort",
    "Arity": "a wrong number of arguments, outs or right sides; an implementation with other parameters",
    "NotAssignable": "a target that isn't a local, an out-parameter or a global",
    "NotModified": "a global that is set and that `modifies` lacks; a callee's `modifies` not among the caller's",
    "TargetTwice": "a variable twice among targets",
    "OldHere": "`old` outside bodies and `ensures`, or in a `where` clause",
    "QuantifierHere": "a quantifier or logical application not in a formula position",
    "Trigger": "a pattern that isn't one, a trigger that lacks a variable of its quantifier",
    "BreakHere": "`break` outside a loop, or with a label of no `if` or `while` around it",
    "Cycle": "a function or synonym that leads to itself",
    "Unbuilt": "a construct that isn't built",
    "GotoHere": "a label in a `goto` that doesn't stand ahead of it",
    "Labels": "a body in which gotos name more than 500 labels",
    "Carrier": "a value of a user type in place of an integer or of a value of another user type, or the reverse",
    "Large": "a program with more than 65,536 goals, or more than 67,108,864 bytes of obligations",
}

REFUSALS = {
    "Long": "the text is too long for one request of 1,048,576 bytes",
    "Memory": "the server ran out of memory; it goes on with the text before",
}


def of_goal(kind: str, verdict: str) -> str:
    """What is said of a goal that isn't proved."""
    return GOALS.get(kind.partition("(")[0], kind) + VERDICTS.get(verdict, "")


def of_fault(kind: str, word: str) -> str:
    """What is said of a fault at a word, `-` where no token begins."""
    said = FAULTS.get(kind, "a fault")
    return f"{kind}: {said}" + ("" if word == "-" else f" ({word})")


def of_refusal(error: str) -> str:
    """What is said where the server refuses a request."""
    return REFUSALS.get(error, f"the server refused the text: {error}")
