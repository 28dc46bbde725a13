"""For each finding of tools/analyze a cluster that has it, and the same cluster mended."""

from typing import NamedTuple

from cases import both, cluster, web
from kubectl import entry, pod, port, service, slice_of


class Faulty(NamedTuple):
    code: str
    field: str
    consequence: str
    items: list
    mended: list
    as_written: bool = False  # else tools/cluster adds a range, as kube-proxy takes it


def local(policy, entries):
    made = web(form="NodePort", ports=[port("http", 80, 8080, 30080)], externalTrafficPolicy=policy)
    return cluster(*made, slice_of("web", entries))


BESIDE = slice_of("web", [entry("192.0.2.50", None)], managed=False)
EXTERNAL = {"externalIPs": ["198.51.100.32"]}
OTHER = [pod("api-a", "10.244.1.60"), slice_of("api", [entry("10.244.1.60", "n1", "api-a")])]
NONE = slice_of("api", [], ())
AFFINITY = {"sessionAffinity": "ClientIP", "sessionAffinityConfig": {"clientIP": {"timeoutSeconds": 600}}}


def api(**more):
    return service("api", "10.96.0.60", [port("http", 80, 8080)], {"app": "api"}, **more)


def node_port(**more):
    return web(form="NodePort", ports=[port("http", 80, 8080, 30080)], **more)


def six(*ranges):
    """A load balancer of both families with these source ranges."""
    made = service(
        "web",
        "10.96.0.20",
        [port("http", 80, 8080, 30080)],
        {"app": "web"},
        "LoadBalancer",
        [{"ip": "203.0.113.20", "ipMode": "VIP"}, {"ip": "2001:db8::20", "ipMode": "VIP"}],
        "fd00:96::20",
        loadBalancerSourceRanges=list(ranges),
    )
    ends = [entry("fd00:244:0:1::10", "n1", "web-a")]
    return cluster(*web()[:2], made, slice_of("web", both()), slice_of("web", ends, family="IPv6"), six=True)


FAULTY = [
    Faulty(
        "closed-to-a-family",
        "spec.loadBalancerSourceRanges",
        "dropped (times out): loadBalancerSourceRanges don't admit",
        six("198.51.100.0/24"),
        six("198.51.100.0/24", "2001:db8:7::/48"),
        True,
    ),
    Faulty(
        "selector-without-pods",
        "spec.selector",
        "rejected (connection refused)",
        cluster(*web(selector={"app": "wep"}), slice_of("web", [], ())),
        cluster(*web(), slice_of("web", both())),
    ),
    Faulty(
        "target-port-unknown",
        "spec.ports[0].targetPort",
        "rejected (connection refused)",
        cluster(*web(ports=[port("http", 80, "htp")]), slice_of("web", [], ())),
        cluster(*web(ports=[port("http", 80, "http")]), slice_of("web", both())),
    ),
    Faulty(
        "nobody-ready",
        "endpoints",
        "rejected (connection refused)",
        cluster(*web(), slice_of("web", both(ready=False))),
        cluster(*web(), slice_of("web", both())),
    ),
    Faulty(
        "local-without-endpoints",
        "spec.externalTrafficPolicy",
        "dropped (times out) on 1 of 2 nodes: no ready endpoint is on n1",
        local("Local", [entry("10.244.2.10", "n2", "web-b")]),
        local("Cluster", [entry("10.244.2.10", "n2", "web-b")]),
    ),
    Faulty(
        "one-place-of-several",
        "external IP",
        "either may answer, by node and by sync; here default/api, by name",
        cluster(*web(**EXTERNAL), slice_of("web", both()), api(**EXTERNAL), *OTHER),
        cluster(*web(**EXTERNAL), slice_of("web", both()), api(), *OTHER),
    ),
    Faulty(
        "one-place-of-several",
        "external IP",
        "Service default/web answers there",
        cluster(*web(**EXTERNAL), slice_of("web", both()), api(**EXTERNAL), OTHER[0], NONE),
        cluster(*web(**EXTERNAL), slice_of("web", both()), api(), OTHER[0], NONE),
    ),
    Faulty(
        "slice-beside-the-controller",
        "metadata.labels",
        "packets go to 192.0.2.50",
        cluster(*web(), slice_of("web", both()), BESIDE),
        cluster(*web(), slice_of("web", both())),
    ),
    Faulty(
        "hints-unused",
        "endpoints[].hints",
        "packets of zone a go to 10.244.2.10 too",
        cluster(
            *web(),
            slice_of(
                "web",
                [entry("10.244.1.10", "n1", "web-a"), entry("10.244.2.10", "n2", "web-b", hint="b")],
            ),
        ),
        cluster(
            *web(),
            slice_of(
                "web",
                [
                    entry("10.244.1.10", "n1", "web-a", hint="a"),
                    entry("10.244.2.10", "n2", "web-b", hint="b"),
                ],
            ),
        ),
    ),
    Faulty(
        "affinity-behind-masquerading",
        "spec.sessionAffinity",
        "what comes from outside is masqueraded",
        cluster(*node_port(**AFFINITY), slice_of("web", both())),
        cluster(*node_port(externalTrafficPolicy="Local", **AFFINITY), slice_of("web", both())),
    ),
]
