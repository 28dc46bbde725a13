"""What the program answers: the questions that it is given, on each node, and what its mode `paths`
prints for them, as the reader of tools/json reads it."""

import os
import subprocess
from concurrent.futures import ThreadPoolExecutor
from dataclasses import dataclass, field
from typing import Any

from .. import printed, program
from ..objects import member, text
from ..state import Fault, encode
from .kept import Kept
from .said import own_source

SYNC = {"op": "sync"}


@dataclass(frozen=True, eq=False)
class Question:
    """A packet at a node; `target` and `source` are what it is made of."""

    node: str
    target: Any
    address: Any  # of the destination
    source: Any
    is_from_node: bool

    def value(self):
        given = {"op": "explain", "src": str(self.source), "dst": str(self.address)}
        given |= {"dport": self.target.number, "proto": self.target.protocol}
        return given | ({"from": "node"} if self.is_from_node else {})


@dataclass
class Answer:
    """What is printed for a question."""

    question: Question
    explain: dict = None
    paths: list = field(default_factory=list)
    asides: list = field(default_factory=list)
    sources: list = field(default_factory=list)
    own: dict = None  # of the sources the one that asks, where that is told
    health: dict = None
    trails: list = field(default_factory=list)

    def take(self, said):
        form = said["form"]
        if form == "explain":
            self.explain = said
        else:
            {"path": self.paths, "aside": self.asides, "source": self.sources}[form].append(said)

    @property
    def door(self):
        """The door that answers, if there is one."""
        first = self.paths[0]
        return (first.get("sent") or first).get("door") or (self.own or {}).get("door")

    @property
    def cause(self):
        """Why the source that asks gets nothing, as its kind says."""
        own = self.own or {}
        return own.get("cause") if own.get("verdict") == self.paths[0]["verdict"] else None

    def check(self):
        """Raises where something of an answer is missing."""
        if self.explain is None or not self.paths or len(self.paths) != self.paths[0]["of"]:
            raise Fault(f"the program has no whole answer to {encode(self.question.value())}")


class Program:
    """The program, as $KPROXY or the script beside the tools gives it."""

    def __init__(self):
        try:
            self._words = program.command()
        except program.Missing as error:
            raise Fault(str(error)) from error

    def said(self, mode, data):
        """What the program says in a mode, line by line."""
        pipe = subprocess.PIPE
        try:
            made = subprocess.run([*self._words, mode], input=data, stdout=pipe, stderr=pipe)
        except OSError as error:
            raise Fault(f"{self._words[0]} can't be run: {error.strerror}") from error
        if made.returncode == program.MISUSED:
            raise Fault(f"{self._words[0]} has no mode {mode}: set KPROXY to a program that has it")
        if made.returncode not in (program.OK, program.REFUSED):
            told = made.stderr.decode(errors="replace").strip() or "it said nothing"
            raise Fault(f"the program ended with status {made.returncode}: {told}")
        return read(made.stdout)


def read(output):
    """What each line says."""
    reader = printed.Reader()
    try:
        for line in output.decode().split("\n")[:-1]:
            yield reader.read(line)
    except (printed.Unknown, UnicodeError) as error:
        raise Fault(f"the program printed a line that isn't its own: {error}") from error


class Asker:
    """Asks the program about a state."""

    def __init__(self, state, nodes, is_whole=False):
        """Of many nodes each is given what decides alone, and one is given all but Pods, where
        these make no slices. With `is_whole` each is given all."""
        self.state, self.kept = state, Kept(state) if len(nodes) > 1 and not is_whole else None
        has_pods = is_whole or member(state.setting, "controller") is not False
        self.held = [it for key, it in state.held.items() if has_pods or key.kind != "Pod"]
        self.program = Program()
        self.refused = {}  # why lines of the state are refused, by their number

    def answers(self, questions, has_chains=False):
        """The answers, in the order of the questions: each node's at once, several beside each
        other."""
        by_node = {}
        for it in questions:
            by_node.setdefault(it.node, []).append(it)
        with ThreadPoolExecutor(len(os.sched_getaffinity(0))) as pool:
            found = list(pool.map(lambda it: self._at_node(*it, has_chains), by_node.items()))
        answers = {it.question: it for one in found for it in one}
        return [answers[it] for it in questions]

    def _at_node(self, node, questions, has_chains):
        run = Input(self.state, node, self._held_for(node, questions))
        answers = {run.ask(it.value()): Answer(it) for it in questions}
        for said in self.program.said("paths", run.data()):
            self._take(run, said, answers)
        for it in answers.values():
            it.check()
            it.own = own_source(self.state, it)
        if any(needs_health(self.state, it.question) for it in answers.values()):
            self._ask_health(node, answers.values())
        if has_chains:
            for it in answers.values():
                self._ask_chains(it)
        return list(answers.values())

    def _held_for(self, node, questions):
        """The objects that the program is given for a node."""
        if self.kept is None:
            return self.held
        asked = ((it.address, it.target.number, it.target.protocol) for it in questions)
        return self.kept.held(node, asked)

    def _take(self, run, said, answers):
        if said["form"] == "refused":
            self._refuse(run, said)
        elif said.get("line") in answers:
            answers[said["line"]].take(said)

    def _refuse(self, run, said):
        """Notes a refusal of an object; one of a question or of the sync ends all."""
        why = printed.refusal_text(said)
        number = run.line_of_state(said["line"])
        if number is None:
            raise Fault(f"the program refuses {run.lines[said['line'] - 1].decode()}: {why}")
        self.refused[number] = why

    def _ask_health(self, node, answers):
        asked = [it for it in answers if needs_health(self.state, it.question)]
        run = Input(self.state, node, self._held_for(node, [it.question for it in asked]))
        ports = [it for it in self.program.said("health", run.data()) if it["form"] == "health"]
        for it in asked:
            key = it.question.target.service
            mine = [port for port in ports if (port["namespace"], port["name"]) == key[1:]]
            it.health = mine[0] if mine else None

    def _ask_chains(self, answer):
        """Asks for the trail of each path: by draws, and each at a moment of its own."""
        question = answer.question
        run = Input(self.state, question.node, self._held_for(question.node, [question]))
        step = most_timeout(self.state) + 1
        packet = {**question.value(), "op": "packet", "trail": True}
        numbers = [
            run.ask({**packet, "draws": draws_for(place), "now": place * step})
            for place in range(1, min(len(answer.paths), MOST_DRAWS) + 1)
        ]
        said = [it for it in self.program.said("replay", run.data()) if it["form"] == "trail"]
        trails = {it["line"]: it["traversals"] for it in said}
        answer.trails = [trails[it] for it in numbers]


MOST_DRAWS, NO_HIT = 1000, 2147483647


def draws_for(place):
    """Draws that pick a place of a list: tests before it don't hold, and its own does."""
    return [NO_HIT] * (place - 1) + [0]


def most_timeout(state):
    """No client is kept for longer than this many seconds."""
    given = (timeout_of(it) for it in state.services.values())
    return max((it for it in given if it is not None), default=0)


DEFAULT_TIMEOUT = 10_800


def timeout_of(service):
    """The timeout of a Service's affinity in seconds, or None without it."""
    if text(service, "spec", "sessionAffinity") != "ClientIP":
        return None
    config = service["spec"].get("sessionAffinityConfig")
    given = config.get("clientIP") if isinstance(config, dict) else None
    seconds = given.get("timeoutSeconds") if isinstance(given, dict) else None
    return seconds if isinstance(seconds, int) else DEFAULT_TIMEOUT


def needs_health(state, question):
    """Whether a load balancer asks for the health of each node before it sends this packet."""
    target = question.target
    policy = text(state.services.get(target.service), "spec", "externalTrafficPolicy")
    return target.kind == "balancer" and policy == "Local"


class Input:
    """What the program reads: a node's setting, objects, a sync, and what is asked after it."""

    def __init__(self, state, node, held):
        held = list(held)
        self.lines = [encode(state.setting_of(node)).encode(), *(it.line for it in held)]
        self.lines.append(encode(SYNC).encode())
        self._numbers = [1, *(it.number for it in held)]

    def ask(self, value):
        """Adds a command; the number of its line."""
        self.lines.append(encode(value).encode())
        return len(self.lines)

    def data(self):
        return b"\n".join([*self.lines, b""])

    def line_of_state(self, number):
        """The line of the state that a line is of; None where it is another one."""
        return self._numbers[number - 1] if number <= len(self._numbers) else None
