"""What is not modelled, or is otherwise than on a node with kube-proxy, and shows in an object. The
table here is the one of docs/KUBE-PROXY.md."""

from typing import NamedTuple

from .. import objects
from ..lines import shown
from ..objects import member, members, text
from .notes import OF_OBJECTS, Note


class Difference(NamedTuple):
    """A row of the table: the code of the note, and in words what has it, what becomes of it here
    and by kube-proxy, what mends it, and where the statement on kube-proxy comes from."""

    code: str
    what: str
    here: str
    kube_proxy: str
    mends: str
    mark: str


TABLE = (
    Difference(
        "service-proxy-name",
        "a Service or slice with the label `service.kubernetes.io/service-proxy-name`",
        "answered as any other",
        "passed over, for another proxy",
        "leave it out, as `tools/cluster` does",
        "S: `cmd/kube-proxy/app/server.go`, `Run`",
    ),
    Difference(
        "headless-label",
        "a Service or slice with the label `service.kubernetes.io/headless`",
        "answered as any other",
        "passed over",
        "leave it out, as `tools/cluster` does",
        "S: `cmd/kube-proxy/app/server.go`, `Run`",
    ),
    Difference(
        "hints-for-nodes",
        "`hints.forNodes` of a slice's endpoints",
        "not read",
        "from version 1.33 on endpoints with a hint for the node may be preferred",
        "nothing: ask with the endpoints of the node alone",
        "R",
    ),
    Difference(
        "prefer-same-zone",
        "`trafficDistribution` PreferSameZone, with `controller`",
        "slices that are made get no hints",
        "slices of the cluster have a hint for the own zone",
        "give the cluster's slices, with `\"controller\":false`; or write PreferClose",
        "R",
    ),
    Difference(
        "prefer-same-node",
        "`trafficDistribution` PreferSameNode, with `controller`",
        "slices that are made get no hints",
        "slices of the cluster have hints for the own node and zone",
        "give the cluster's slices, with `\"controller\":false`",
        "R",
    ),
    Difference(
        "topology-mode",
        "the annotation `service.kubernetes.io/topology-mode` Auto, with `controller`",
        "slices that are made get no hints",
        "slices of the cluster have hints by the zones' sizes",
        "give the cluster's slices, with `\"controller\":false`",
        "R",
    ),
    Difference(
        "ranges-of-one-family",
        "`loadBalancerSourceRanges` that are all of the other family",
        "the load balancer's addresses of this family are closed",
        "open: ranges of the other family are dropped first",
        "add `::/0` or `0.0.0.0/0`, as `tools/cluster` does",
        "S: `proxy/service.go`, `newBaseServiceInfo`",
    ),
    Difference(
        "serving-absent",
        "an endpoint that terminates, isn't ready, and has no `serving`",
        "not serving: `serving` is as `ready`",
        "serving",
        "write `\"serving\":true`, as `tools/cluster` does",
        "R",
    ),
    Difference(
        "external-ip",
        "an ExternalIP of the node that isn't among `nodeAddresses`",
        "not the node's own",
        "the node's own where an interface has it",
        "where an interface has it: `tools/cluster --address`",
        "R",
    ),
)
CODES = {it.code: it for it in TABLE}
OF_OBJECTS.update(CODES)
PREFERENCES = {"PreferSameZone": "prefer-same-zone", "PreferSameNode": "prefer-same-node"}
TOPOLOGY = ("service.kubernetes.io/topology-mode", "service.kubernetes.io/topology-aware-hints")


def of_object(key, item, setting):
    """The notes on an object as it came, in the order of the table."""
    if key.kind in ("Service", "EndpointSlice"):
        yield from _labels(key, item)
    if key.kind == "EndpointSlice":
        yield from _endpoints(key, item)
    elif key.kind == "Service":
        yield from _distribution(key, item, setting)
        yield from _ranges(key, item, setting)
    elif key.kind == "Node" and key.name == setting.node:
        yield from _external(key, item, setting)


def _note(code, key, name, value, says):
    row = CODES[code]
    becomes = f"here: {row.here}; kube-proxy: {row.kube_proxy}".replace("`", "")
    mends = row.mends.replace("`", "")
    return Note(code, says, key=key, member=name, value=value, becomes=becomes, mends=mends)


def _labels(key, item):
    named = ((objects.PROXY_NAME, "service-proxy-name"), (objects.HEADLESS, "headless-label"))
    for name, code in named:
        value = member(item, "metadata", "labels", name)
        if value is not None:
            says = f"label {name}: answered here; kube-proxy passes it over: leave it out"
            yield _note(code, key, f"metadata.labels.{name}", value, says)


def _endpoints(key, item):
    hinted, silent = [], []
    for at, endpoint in enumerate(members(item, "endpoints")):
        if members(endpoint, "hints", "forNodes"):
            hinted.append(at)
        conditions = member(endpoint, "conditions")
        if (
            isinstance(conditions, dict)
            and conditions.get("serving") is None
            and conditions.get("ready") is False
            and conditions.get("terminating") is True
        ):
            silent.append(at)
    if hinted:
        name = f"endpoints[{hinted[0]}].hints.forNodes"
        says = f"hints for nodes aren't read, of {_some(hinted)}; kube-proxy may follow them"
        yield _note("hints-for-nodes", key, name, [], says)
    if silent:
        name = f"endpoints[{silent[0]}].conditions.serving"
        says = f"serving is absent of {_some(silent)}, which terminates: it doesn't serve here, "
        says += 'and does by kube-proxy: "serving":true says so'
        yield _note("serving-absent", key, name, None, says)


def _some(places):
    more = f" and {len(places) - 1} more" if len(places) > 1 else ""
    return f"endpoints[{places[0]}]{more}"


def _distribution(key, item, setting):
    if not setting.controller or not objects.has_selector(item):
        return
    value = text(item, "spec", "trafficDistribution")
    if value in PREFERENCES:
        says = (
            f"trafficDistribution {value} gives no hints in slices that are made here; "
            'the cluster\'s slices have them, with "controller":false'
        )
        yield _note(PREFERENCES[value], key, "spec.trafficDistribution", value, says)
    for name in TOPOLOGY:
        mode = text(item, "metadata", "annotations", name)
        if mode.lower() == "auto":
            says = (
                f"{name} {mode} gives no hints in slices that are made here; "
                'the cluster\'s slices have them, with "controller":false'
            )
            yield _note("topology-mode", key, f"metadata.annotations.{name}", mode, says)


def _ranges(key, item, setting):
    given = objects.source_ranges(item)
    if not given or text(item, "spec", "type") != "LoadBalancer":
        return
    balancers = {it.version for it in objects.balancer_addresses(item)}
    for version in objects.cluster_addresses(item):
        is_open = not balancers or version in balancers
        if version in setting.versions and is_open and all(it.version != version for it in given):
            other = 10 - version
            says = (
                f"loadBalancerSourceRanges of IPv{other} alone close IPv{version} here; "
                "kube-proxy leaves it open"
            )
            name, value = "spec.loadBalancerSourceRanges", str(given[0])
            yield _note("ranges-of-one-family", key, name, value, says)


def _external(key, item, setting):
    own = set(setting.addresses)
    for address in objects.node_addresses(item, "ExternalIP"):
        if address not in own:
            says = (
                f"ExternalIP {shown(str(address))[1:-1]} isn't the node's own here; it is where "
                "an interface has it: tools/cluster --address adds it"
            )
            yield _note("external-ip", key, "status.addresses", str(address), says)
