"""Answers as objects, as docs/why.schema.json has them."""

import json
import re

from ..objects import address_of, text
from . import near
from .asked import timeout_of
from .order import either
from .said import key_of

whole = json.JSONEncoder(separators=(",", ":")).encode
chances = re.compile('"chance":"([01][.][0-9]{10})"')


def encode(value):
    """A value as JSON, with each chance as a number of ten decimals."""
    return chances.sub(r'"chance":\1', whole(value))


def object_of(state, source, answer):
    """All that an answer says, as JSON."""
    question, door = answer.question, answer.door
    return encode(
        {
            "node": question.node,
            "from": from_of(source, question) if source else None,
            "to": to_of(question),
            "paths": [with_end(state, bare(it)) for it in answer.paths],
            "asides": [with_end(state, bare(it)) for it in answer.asides],
            "sources": [bare(it) for it in answer.sources],
            "affinity": timeout_of(state.services.get(key_of(door))) if door else None,
            "health": answer.health and bare(answer.health),
            "either": [named(it) for it in either(state, answer)],
            "near": near.near_misses(state, answer),
            "chains": answer.trails,
        }
    )


def bare(said):
    """A line's object without what says which line it is."""
    return {name: it for name, it in said.items() if name not in ("form", "line")}


def with_end(state, said):
    """What is known of the endpoint, beside it."""
    sent = said.get("sent") or said
    owner = sent.get("door") or sent.get("servicePort")
    if "endpoint" not in sent:
        return said
    end = state.end(key_of(owner), address_of(sent["endpoint"]["address"]))
    return {**said, "pods": list(end.pods), "node": end.node or None, "zone": end.zone or None}


def from_of(source, question):
    origin = "node" if question.is_from_node else "wire"
    said = {"name": source.said, "address": str(question.source), "node": source.node or None}
    return {**said, "origin": origin}


def to_of(question):
    target = question.target
    said = {"kind": target.kind or None, "address": str(question.address), "port": target.number}
    said |= {"protocol": target.protocol, "service": None}
    if target.service:
        key, name = target.service, text(target.port, "name") or None
        said["service"] = {"namespace": key.namespace, "name": key.name, "port": name}
    return said


def without_places(state, key):
    """A Service that has no place at which it could be asked."""
    told = near.without_places(state, key)
    return encode({"service": named(key), "near": [told]})


def named(key):
    return {"namespace": key.namespace, "name": key.name}
