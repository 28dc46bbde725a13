"""Changes of clusters, and what tools/plan has to print of each: the state before, what it is called
with, the status, and the text."""

from typing import NamedTuple

from cases import both, cluster, web
from kubectl import entry, pod, port, service, slice_of

NODE_PORT = [port("http", 80, 8080, 30080)]
RANGES = {"loadBalancerSourceRanges": ["198.51.100.0/24"]}
INGRESS = [{"ip": "203.0.113.20", "ipMode": "VIP"}]


class Change(NamedTuple):
    """`after` are the objects that are applied, or the name of a node that is drained. `said` stands
    on standard error, and with status 2 nothing else does."""

    name: str
    before: list
    after: object
    status: int
    wanted: str
    said: str = ""


def balancer(policy):
    more = {"healthCheckNodePort": 31000} if policy == "Local" else {}
    return service(
        "admin",
        "10.96.0.25",
        [port("https", 443, 8443, 30443)],
        {"app": "admin"},
        "LoadBalancer",
        [{"ip": "203.0.113.25", "ipMode": "VIP"}],
        externalTrafficPolicy=policy,
        **RANGES,
        **more,
    )


def ranged(*ranges):
    """A load balancer with these source ranges, or with none."""
    made = balancer("Cluster")
    made["spec"].pop("loadBalancerSourceRanges")
    made["spec"] |= {"loadBalancerSourceRanges": list(ranges)} if ranges else {}
    return made


def kept_web(**more):
    """The Service web, and whether its clients are kept."""
    return service("web", "10.96.0.20", [port("http", 80, 8080)], {"app": "web"}, **more)


KEEPS = {"sessionAffinity": "ClientIP", "sessionAffinityConfig": {"clientIP": {"timeoutSeconds": 10800}}}
ADMIN = [
    pod("admin-a", "10.244.2.25", "n2", ports=(("https", 8443),)),
    slice_of("admin", [entry("10.244.2.25", "n2", "admin-a")], (("https", 8443),)),
]

CHANGES = [
    Change(
        "a_policy_turned_to_local",
        cluster(balancer("Cluster"), *ADMIN),
        [balancer("Local")],
        1,
        """
Service default/admin, port https, load balancer 203.0.113.25:443
  n1  198.51.100.0/24  1 endpoint, now dropped: no endpoint on n1      LOSS
  n2  198.51.100.0/24  1 endpoint, masked, now 1 endpoint, not masked
  n1  gone 10.244.2.25:8443 (default/admin-a)

Service default/admin, port https, node port *:30443
  n1  outside 10.244.0.0/16                    1 endpoint, now dropped: no endpoint on n1      LOSS
  n1  10.244.0.0/16                            1 endpoint, masked, now 1 endpoint, not masked
  n2  outside 10.244.0.0/16 and 10.244.0.0/16  1 endpoint, masked, now 1 endpoint, not masked
  n1  gone 10.244.2.25:8443 (default/admin-a)
""",
    ),
    Change(
        "a_drain_that_leaves_an_endpoint",
        cluster(*web(), slice_of("web", both())),
        "n2",
        0,
        """
Service default/web, port http, cluster IP 10.96.0.20:80
  n1, n2  outside 10.244.0.0/16 and the node itself  2 endpoints, masked, now 1 endpoint, masked
  n1, n2  10.244.0.0/16                              2 endpoints, now 1 endpoint
  gone 10.244.2.10:8080 (default/web-b)
""",
    ),
    Change(
        "a_drain_that_leaves_none",
        cluster(balancer("Cluster"), *ADMIN),
        "n2",
        1,
        """
Service default/admin, port https, cluster IP 10.96.0.25:443
  n1, n2  all  1 endpoint, now rejected: no endpoint  LOSS
  gone 10.244.2.25:8443 (default/admin-a)

Service default/admin, port https, load balancer 203.0.113.25:443
  n1, n2  outside 10.244.0.0/16 and 10.244.0.0/16  dropped: not admitted, now rejected: no endpoint
  n1, n2  the node itself                          dropped: not admitted, now left alone: no endpoint
  n1, n2  198.51.100.0/24                          1 endpoint, now rejected: no endpoint               LOSS
  gone 10.244.2.25:8443 (default/admin-a)

Service default/admin, port https, node port *:30443
  n1, n2  all  1 endpoint, now rejected: no endpoint  LOSS
  gone 10.244.2.25:8443 (default/admin-a)
""",
    ),
    Change(
        "a_label_that_changes_no_door",
        cluster(*web(), slice_of("web", both())),
        [pod("client-a", "10.244.1.30", labels={"app": "other"}, ports=())],
        0,
        """
no door differs
""",
    ),
    Change(
        "a_selector_that_is_mistyped",
        cluster(*web(), slice_of("web", both())),
        [service("web", "10.96.0.20", [port("http", 80, 8080)], {"app": "wep"})],
        1,
        """
Service default/web, port http, cluster IP 10.96.0.20:80
  n1, n2  all  2 endpoints, now rejected: no endpoint  LOSS
  gone 10.244.1.10:8080 (default/web-a), 10.244.2.10:8080 (default/web-b)
""",
    ),
    Change(
        "a_source_range_that_is_removed",
        cluster(ranged("198.51.100.0/24", "203.0.113.0/25"), *ADMIN),
        [ranged("198.51.100.0/24")],
        1,
        """
Service default/admin, port https, load balancer 203.0.113.25:443
  n1, n2  203.0.113.0/25  1 endpoint, now dropped: not admitted  LOSS
""",
    ),
    Change(
        "a_source_range_that_is_halved",
        cluster(ranged("198.51.100.0/24"), *ADMIN),
        [ranged("198.51.100.0/25")],
        1,
        """
Service default/admin, port https, load balancer 203.0.113.25:443
  n1, n2  198.51.100.128/25  1 endpoint, now dropped: not admitted  LOSS
""",
    ),
    Change(
        "a_source_range_that_is_its_upper_half",
        cluster(ranged("198.51.100.0/24"), *ADMIN),
        [ranged("198.51.100.128/25")],
        1,
        """
Service default/admin, port https, load balancer 203.0.113.25:443
  n1, n2  198.51.100.0/25  1 endpoint, now dropped: not admitted  LOSS
""",
    ),
    Change(
        "a_source_range_that_is_added",
        cluster(ranged("198.51.100.0/24"), *ADMIN),
        [ranged("198.51.100.0/24", "192.0.2.0/24", "203.0.113.0/24")],
        0,
        """
Service default/admin, port https, load balancer 203.0.113.25:443
  n1, n2  192.0.2.0/24, 203.0.113.0/24  dropped: not admitted, now 1 endpoint
""",
    ),
    Change(
        "source_ranges_that_are_exchanged",
        cluster(ranged("192.0.2.0/24", "10.0.0.0/8"), *ADMIN),
        [ranged("192.0.2.0/24", "192.168.0.0/16")],
        1,
        """
Service default/admin, port https, load balancer 203.0.113.25:443
  n1, n2  10.0.0.0/8 and 10.244.0.0/16        1 endpoint, now dropped: not admitted  LOSS
  n1, n2  192.168.0.0/16 and the node itself  dropped: not admitted, now 1 endpoint
""",
    ),
    Change(
        "source_ranges_that_cut_the_pods",
        cluster(ranged("10.244.0.0/16"), *ADMIN),
        [ranged("10.244.1.0/24")],
        1,
        """
Service default/admin, port https, load balancer 203.0.113.25:443
  n1, n2  10.244.0.0/16 outside 10.244.1.0/24  1 endpoint, now dropped: not admitted  LOSS
""",
    ),
    Change(
        "source_ranges_that_are_opened_to_all",
        cluster(ranged("198.51.100.0/24"), *ADMIN),
        [ranged("0.0.0.0/0")],
        0,
        """
Service default/admin, port https, load balancer 203.0.113.25:443
  n1, n2  outside 10.244.0.0/16, 198.51.100.0/24 and 10.244.0.0/16 and the node itself  dropped: not admitted, now 1 endpoint
""",
    ),
    Change(
        "source_ranges_that_go",
        cluster(ranged("198.51.100.0/24"), *ADMIN),
        [ranged()],
        0,
        """
Service default/admin, port https, load balancer 203.0.113.25:443
  n1, n2  outside 10.244.0.0/16 and 10.244.0.0/16 and the node itself  dropped: not admitted, now 1 endpoint
""",
    ),
    Change(
        "source_ranges_that_admit_the_same",
        cluster(ranged("198.51.100.0/24"), *ADMIN),
        [ranged("198.51.100.0/25", "198.51.100.128/25")],
        0,
        """
Service default/admin, port https, load balancer 203.0.113.25:443
  n1, n2  sources 198.51.100.0/24, now sources 198.51.100.0/25, 198.51.100.128/25
""",
    ),
    Change(
        "clients_that_are_kept_no_longer",
        cluster(*web(**KEEPS), slice_of("web", both())),
        [kept_web()],
        0,
        """
Service default/web, port http, cluster IP 10.96.0.20:80
  n1, n2  affinity 10800, now affinity none
""",
    ),
    Change(
        "clients_that_are_kept_at_fewer_endpoints",
        cluster(*web(**KEEPS), slice_of("web", both())),
        [kept_web(), slice_of("web", both()[:1])],
        0,
        """
Service default/web, port http, cluster IP 10.96.0.20:80
  n1, n2  outside 10.244.0.0/16 and the node itself  2 endpoints, masked, now 1 endpoint, masked
  n1, n2  10.244.0.0/16                              2 endpoints, now 1 endpoint
  gone 10.244.2.10:8080 (default/web-b)
  affinity 10800, now affinity none
""",
    ),
    Change(
        "an_endpoint_in_place_of_another",
        cluster(*web(), slice_of("web", both()[:1])),
        [slice_of("web", both()[1:])],
        0,
        """
Service default/web, port http, cluster IP 10.96.0.20:80
  n1, n2  all  1 endpoint, now another
  new 10.244.2.10:8080 (default/web-b)
  gone 10.244.1.10:8080 (default/web-a)
""",
    ),
    Change(
        "a_drain_without_the_pods",
        cluster(kept_web(), slice_of("web", both())),
        "n2",
        2,
        "",
        "1 endpoint of default/web on n2 has a Pod that isn't in the state",
    ),
    Change(
        "a_drain_without_some_pods",
        cluster(*web()[1:], slice_of("web", both())),
        "n1",
        2,
        "",
        "1 endpoint of default/web on n1 has a Pod that isn't in the state",
    ),
    Change(
        "a_selector_that_changes_without_the_pods",
        cluster(kept_web(), slice_of("web", both())),
        [service("web", "10.96.0.20", [port("http", 80, 8080)], {"app": "wep"})],
        2,
        "",
        "2 endpoints of default/web have Pods that aren't in the state",
    ),
    Change(
        "a_drain_of_one_pod",
        cluster(*web(), slice_of("web", both())),
        "n2",
        0,
        """
Service default/web, port http, cluster IP 10.96.0.20:80
  n1, n2  outside 10.244.0.0/16 and the node itself  2 endpoints, masked, now 1 endpoint, masked
  n1, n2  10.244.0.0/16                              2 endpoints, now 1 endpoint
  gone 10.244.2.10:8080 (default/web-b)
""",
        "1 Pod of n2 goes, and isn't put elsewhere here; 0 of DaemonSets and static ones stay",
    ),
]
