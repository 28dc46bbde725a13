"""Findings that the program's answers bear out."""

import shlex

from ..objects import address_of
from ..why.asked import Asker, Question
from .findings import findings_on

FROM_OUTSIDE = {4: address_of("192.0.2.1"), 6: address_of("2001:db8::1")}


def questions(state, nodes, finding):
    """What is asked for a finding: its places at one node, or at each."""
    for node in nodes if finding.is_of_all else nodes[:1]:
        own = state.addresses_of(node)
        for it in finding.targets:
            address = it.address or next((one for one in own if one.version == it.version), None)
            if address is not None:
                yield Question(node, it, address, FROM_OUTSIDE[it.version], False)


def borne_out(state, nodes):
    """Each finding that the answers bear out, with the consequence and the answer that has it."""
    asked = [(it, list(questions(state, nodes, it))) for it in findings_on(state)]
    asker = Asker(state, nodes)
    answers = iter(asker.answers([one for _, mine in asked for one in mine]))
    for finding, mine in asked:
        consequence, answer = finding.told(state, [next(answers) for _ in mine])
        if consequence:
            yield finding, consequence, answer


def text_of(finding, consequence, answer, path="STATE"):
    """A finding as lines; `path` is that of the state."""
    yield f"{finding.code}: {finding.key}: {finding.field}: {finding.says}"
    yield f"    so  {consequence}"
    yield f"    ask tools/why {shlex.quote(path)} {asked_text(answer)}"
    yield f"    do  {finding.mends}"


def asked_text(answer):
    """How tools/why is asked the same."""
    question = answer.question
    host = f"[{question.address}]" if question.address.version == 6 else question.address
    place = f"{host}:{question.target.number}/{question.target.protocol.lower()}"
    return f"--from {question.source} --to {place} --node {question.node}"


def object_of(finding, consequence, answer):
    """A finding as an object."""
    made = {"code": finding.code, "object": finding.key._asdict(), "field": finding.field}
    made |= {"says": finding.says, "becomes": consequence, "mends": finding.mends}
    return {**made, "node": answer.question.node, "question": answer.question.value()}
