"""Clusters whose answers Kubernetes' pages give, each with its page and the sentence, some shortened:
the objects as kubectl prints them, what is asked, and what tools/why has to print."""

from typing import NamedTuple

from kubectl import entry, node, pod, port, proxy, service, slice_of

VIPS = "concepts: Virtual IPs and Service Proxies"
SERVICES = "concepts: Service"
SOURCE_IP = "tutorials: Using Source IP"
SLICES = "concepts: EndpointSlices"
HINTS = "concepts: Topology Aware Routing"
DUAL = "concepts: IPv4/IPv6 dual-stack"
DEBUG = "tasks: Debug Services"
API = "reference: Service API"


class Case(NamedTuple):
    """`asks` are pairs of arguments and what is printed."""

    name: str
    page: str
    sentence: str
    items: list
    asks: list


def cluster(*items, six=False):
    """Both nodes, kube-proxy's setting, and a client on n1."""
    client = pod("client-a", "10.244.1.30", ports=(), six="fd00:244:0:1::30" if six else None)
    return [node("n1", six), node("n2", six), proxy(six), client, *items]


def web(**more):
    """The Pods web-a on n1 and web-b on n2, and a Service of them."""
    made = {"address": "10.96.0.20", "ports": [port("http", 80, 8080)], "selector": {"app": "web"}}
    return [
        pod("web-a", "10.244.1.10"),
        pod("web-b", "10.244.2.10", "n2"),
        service("web", **{**made, **more}),
    ]


def both(**more):
    """Endpoints of these two Pods."""
    return [entry("10.244.1.10", "n1", "web-a", **more), entry("10.244.2.10", "n2", "web-b", **more)]


FROM_CLIENT = "--from pod/default/client-a --to "
FROM_OUTSIDE = "--from 198.51.100.7 --to "

CASES = [
    Case(
        "two_ready_endpoints",
        VIPS,
        "By default, kube-proxy in iptables mode chooses a backend at random.",
        cluster(*web(), slice_of("web", both())),
        [
            (
                FROM_CLIENT + "svc/default/web",
                """
Pod default/client-a (10.244.1.30, node n1) to Service default/web, port http: cluster IP 10.96.0.20:80/TCP

CHANCE  ENDPOINT          POD            NODE  ZONE  SEES
50.0 %  10.244.1.10:8080  default/web-a  n1    a     10.244.1.30
50.0 %  10.244.2.10:8080  default/web-b  n2    b     10.244.1.30

others   from outside 10.244.0.0/16 and from n1 itself: the same two, which see an address of n1
""",
            )
        ],
    ),
    Case(
        "an_endpoint_that_is_not_ready",
        SLICES,
        "For endpoints backed by a Pod, the ready condition maps to the Pod's Ready condition; "
        "Service proxies pass over endpoints that are not ready.",
        cluster(
            *web(),
            pod("web-c", "10.244.2.12", "n2", ready=False),
            slice_of("web", [*both(), entry("10.244.2.12", "n2", "web-c", ready=False)]),
        ),
        [
            (
                FROM_CLIENT + "10.96.0.20:80",
                """
Pod default/client-a (10.244.1.30, node n1) to Service default/web, port http: cluster IP 10.96.0.20:80/TCP

CHANCE  ENDPOINT          POD            NODE  ZONE  SEES
50.0 %  10.244.1.10:8080  default/web-a  n1    a     10.244.1.30
50.0 %  10.244.2.10:8080  default/web-b  n2    b     10.244.1.30
-       10.244.2.12:8080  default/web-c  n2    b     not ready

others   from outside 10.244.0.0/16 and from n1 itself: the same two, which see an address of n1
""",
            )
        ],
    ),
    Case(
        "an_endpoint_that_terminates_beside_a_ready_one",
        VIPS,
        "Otherwise, kube-proxy will always prefer forwarding traffic to endpoints that are not "
        "terminating.",
        cluster(
            *web(),
            pod("web-d", "10.244.1.13", ending=True, ready=False),
            slice_of(
                "web",
                [*both(), entry("10.244.1.13", "n1", "web-d", ready=False, serving=True, ending=True)],
            ),
        ),
        [
            (
                "--from node/n1 --to svc/default/web:80",
                """
Node n1 (192.168.1.11) to Service default/web, port http: cluster IP 10.96.0.20:80/TCP

CHANCE  ENDPOINT          POD            NODE  ZONE  SEES
50.0 %  10.244.1.10:8080  default/web-a  n1    a     an address of n1
50.0 %  10.244.2.10:8080  default/web-b  n2    b     an address of n1
-       10.244.1.13:8080  default/web-d  n1    a     terminating, while others are ready

others   from outside 10.244.0.0/16: the same two, which see an address of n1
         from 10.244.0.0/16: the same two, which see the client
""",
            )
        ],
    ),
    Case(
        "all_endpoints_terminate",
        VIPS,
        "If there are local endpoints and all of them are terminating, then kube-proxy will forward "
        "traffic to those terminating endpoints.",
        cluster(
            *web(),
            slice_of("web", both(ready=False, serving=True, ending=True)),
        ),
        [
            (
                FROM_CLIENT + "svc/default/web:http",
                """
Pod default/client-a (10.244.1.30, node n1) to Service default/web, port http: cluster IP 10.96.0.20:80/TCP

CHANCE  ENDPOINT          POD            NODE  ZONE  SEES
50.0 %  10.244.1.10:8080  default/web-a  n1    a     10.244.1.30
50.0 %  10.244.2.10:8080  default/web-b  n2    b     10.244.1.30

others   from outside 10.244.0.0/16 and from n1 itself: the same two, which see an address of n1
""",
            )
        ],
    ),
    Case(
        "no_endpoint",
        DEBUG,
        "If ENDPOINTS is <none>, check that the Service's selector matches labels of Pods.",
        cluster(*web(selector={"app": "wep"}), slice_of("web", [], ())),
        [
            (
                FROM_CLIENT + "svc/default/web",
                """
Pod default/client-a (10.244.1.30, node n1) to Service default/web, port http: cluster IP 10.96.0.20:80/TCP

rejected (connection refused): no endpoint of Service default/web, port http is ready

others   from outside 10.244.0.0/16 and from n1 itself: the same
""",
            )
        ],
    ),
    Case(
        "a_target_port_is_asked_for",
        SERVICES,
        "A Service can map any incoming port to a targetPort.",
        cluster(*web(ports=[port("http", 80, "http")]), slice_of("web", both())),
        [
            (
                FROM_CLIENT + "10.96.0.20:8080",
                """
Pod default/client-a (10.244.1.30, node n1) to 10.96.0.20:8080/TCP

left alone: no Service answers there

near     10.96.0.20 is the cluster IP of Service default/web: 8080 is the targetPort of its port 80/TCP (http)
""",
            ),
            (
                FROM_CLIENT + "10.96.0.20:80/udp",
                """
Pod default/client-a (10.244.1.30, node n1) to 10.96.0.20:80/UDP

left alone: no Service answers there

near     10.96.0.20 is the cluster IP of Service default/web: port 80 is of TCP there
""",
            ),
            (
                FROM_CLIENT + "10.244.2.10:8080",
                """
Pod default/client-a (10.244.1.30, node n1) to 10.244.2.10:8080/TCP

left alone: no Service answers there

near     10.244.2.10 is the own address of Pod default/web-b: no Service is in between
""",
            ),
        ],
    ),
    Case(
        "internal_policy_local",
        VIPS,
        "If the traffic policy is Local and there are no node-local endpoints, traffic is dropped by "
        "kube-proxy.",
        cluster(
            pod("web-b", "10.244.2.10", "n2"),
            service(
                "web",
                "10.96.0.20",
                [port("http", 80, 8080)],
                {"app": "web"},
                internalTrafficPolicy="Local",
            ),
            slice_of("web", [entry("10.244.2.10", "n2", "web-b")]),
        ),
        [
            (
                FROM_CLIENT + "svc/default/web --node all",
                """
n1  10.96.0.20:80  dropped (times out): internalTrafficPolicy is Local, and no endpoint is on n1
n2  10.96.0.20:80  100 %  10.244.2.10:8080  default/web-b  sees 10.244.1.30
""",
            )
        ],
    ),
    Case(
        "a_local_endpoint_that_is_not_ready",
        VIPS,
        "Set the field to Local to only route to ready node-local endpoints.",
        cluster(
            *web(internalTrafficPolicy="Local"),
            slice_of(
                "web",
                [
                    entry("10.244.1.10", "n1", "web-a", ready=False),
                    entry("10.244.2.10", "n2", "web-b"),
                ],
            ),
        ),
        [
            (
                FROM_CLIENT + "svc/default/web",
                """
Pod default/client-a (10.244.1.30, node n1) to Service default/web, port http: cluster IP 10.96.0.20:80/TCP

dropped (times out): internalTrafficPolicy is Local, and no endpoint on n1 is ready

CHANCE  ENDPOINT          POD            NODE  ZONE  SEES
-       10.244.1.10:8080  default/web-a  n1    a     not ready
-       10.244.2.10:8080  default/web-b  n2    b     not on n1, and internalTrafficPolicy is Local

others   from outside 10.244.0.0/16 and from n1 itself: the same
""",
            )
        ],
    ),
    Case(
        "a_node_port_is_source_natted",
        SOURCE_IP,
        "Packets sent to Services with Type=NodePort are source NAT'd by default.",
        cluster(
            *web(form="NodePort", ports=[port("http", 80, 8080, 30080)]),
            slice_of("web", both()),
        ),
        [
            (
                FROM_OUTSIDE + "svc/default/web/nodeport",
                """
n1, n2  *:30080  50.0 %  10.244.1.10:8080  default/web-a  sees an address of the node
                 50.0 %  10.244.2.10:8080  default/web-b  sees an address of the node
""",
            )
        ],
    ),
    Case(
        "external_policy_local",
        SOURCE_IP,
        "This approach preserves the original source IP address. If there are no local endpoints, "
        "packets sent to the node are dropped.",
        cluster(
            pod("web-b", "10.244.2.10", "n2"),
            service(
                "web",
                "10.96.0.20",
                [port("http", 80, 8080, 30080)],
                {"app": "web"},
                "NodePort",
                externalTrafficPolicy="Local",
            ),
            slice_of("web", [entry("10.244.2.10", "n2", "web-b")]),
        ),
        [
            (
                FROM_OUTSIDE + "svc/default/web:http/nodeport",
                """
n1  192.168.1.11:30080  dropped (times out): externalTrafficPolicy is Local, and no endpoint is on n1
n2  192.168.1.12:30080  100 %  10.244.2.10:8080  default/web-b  sees 198.51.100.7
""",
            ),
            (
                FROM_OUTSIDE + "192.168.1.11:30080",
                """
198.51.100.7 to Service default/web, port http: node port 192.168.1.11:30080/TCP

dropped (times out): externalTrafficPolicy is Local, and no endpoint is on n1

CHANCE  ENDPOINT          POD            NODE  ZONE  SEES
-       10.244.2.10:8080  default/web-b  n2    b     not on n1, and externalTrafficPolicy is Local

others   from 10.244.0.0/16: one endpoint, which sees the client
         from n1 itself: one endpoint, which sees an address of n1
""",
            ),
        ],
    ),
    Case(
        "a_load_balancer_probes_each_node",
        SOURCE_IP,
        "The nodes without Service endpoints remove themselves from the list of nodes eligible for "
        "load balanced traffic by deliberately failing health checks.",
        cluster(
            pod("web-b", "10.244.2.10", "n2"),
            service(
                "web",
                "10.96.0.20",
                [port("http", 80, 8080, 30080)],
                {"app": "web"},
                "LoadBalancer",
                [{"ip": "203.0.113.20", "ipMode": "VIP"}],
                externalTrafficPolicy="Local",
                healthCheckNodePort=31000,
            ),
            slice_of("web", [entry("10.244.2.10", "n2", "web-b")]),
        ),
        [
            (
                FROM_OUTSIDE + "svc/default/web:http/lb",
                """
n1  203.0.113.20:80  health 503  dropped (times out): externalTrafficPolicy is Local, and no endpoint is on n1
n2  203.0.113.20:80  health 200  100 %  10.244.2.10:8080  default/web-b  sees 198.51.100.7
""",
            )
        ],
    ),
    Case(
        "source_ranges",
        API,
        "If specified and supported by the platform, traffic through the cloud-provider "
        "load-balancer will be restricted to the specified client IPs.",
        cluster(
            *web(
                form="LoadBalancer",
                ports=[port("http", 80, 8080, 30080)],
                ingress=[{"ip": "203.0.113.20", "ipMode": "VIP"}],
                loadBalancerSourceRanges=["198.51.100.0/24"],
            ),
            slice_of("web", both()),
        ),
        [
            (
                "--from 192.0.2.9 --to svc/default/web/lb --node n1",
                """
192.0.2.9 to Service default/web, port http: load balancer 203.0.113.20:80/TCP

dropped (times out): loadBalancerSourceRanges don't admit 192.0.2.9

CHANCE  ENDPOINT          POD            NODE  ZONE  SEES
-       10.244.1.10:8080  default/web-a  n1    a     loadBalancerSourceRanges don't admit 192.0.2.9
-       10.244.2.10:8080  default/web-b  n2    b     loadBalancerSourceRanges don't admit 192.0.2.9

others   from 10.244.0.0/16 and from n1 itself: the same
         from 198.51.100.0/24 (outside 10.244.0.0/16): two endpoints, which see an address of n1
""",
            ),
            (
                FROM_OUTSIDE + "svc/default/web/lb --node all",
                """
n1, n2  203.0.113.20:80  50.0 %  10.244.1.10:8080  default/web-a  sees an address of the node
                         50.0 %  10.244.2.10:8080  default/web-b  sees an address of the node
""",
            ),
        ],
    ),
    Case(
        "hints_of_zones",
        HINTS,
        "The kube-proxy component filters the endpoints it routes to based on the hints set by the "
        "EndpointSlice controller.",
        cluster(
            *web(),
            slice_of(
                "web",
                [
                    entry("10.244.1.10", "n1", "web-a", hint="a"),
                    entry("10.244.2.10", "n2", "web-b", hint="b"),
                ],
            ),
        ),
        [
            (
                FROM_CLIENT + "svc/default/web",
                """
Pod default/client-a (10.244.1.30, node n1) to Service default/web, port http: cluster IP 10.96.0.20:80/TCP

CHANCE  ENDPOINT          POD            NODE  ZONE  SEES
100 %   10.244.1.10:8080  default/web-a  n1    a     10.244.1.30
-       10.244.2.10:8080  default/web-b  n2    b     hinted for other zones

others   from outside 10.244.0.0/16 and from n1 itself: the same endpoint, which sees an address of n1
""",
            )
        ],
    ),
    Case(
        "a_hint_is_missing",
        HINTS,
        "One or more endpoints does not have a zone hint: the kube-proxy falls back to using all "
        "endpoints.",
        cluster(
            *web(),
            slice_of(
                "web",
                [
                    entry("10.244.1.10", "n1", "web-a", hint="a"),
                    entry("10.244.2.10", "n2", "web-b"),
                ],
            ),
        ),
        [
            (
                FROM_CLIENT + "svc/default/web",
                """
Pod default/client-a (10.244.1.30, node n1) to Service default/web, port http: cluster IP 10.96.0.20:80/TCP

CHANCE  ENDPOINT          POD            NODE  ZONE  SEES
50.0 %  10.244.1.10:8080  default/web-a  n1    a     10.244.1.30
50.0 %  10.244.2.10:8080  default/web-b  n2    b     10.244.1.30

others   from outside 10.244.0.0/16 and from n1 itself: the same two, which see an address of n1
""",
            )
        ],
    ),
    Case(
        "affinity_of_clients",
        VIPS,
        "You can also set the maximum session sticky time by setting "
        ".spec.sessionAffinityConfig.clientIP.timeoutSeconds appropriately (the default value is "
        "10800, which works out to be 3 hours).",
        cluster(
            *web(
                sessionAffinity="ClientIP",
                sessionAffinityConfig={"clientIP": {"timeoutSeconds": 600}},
            ),
            slice_of("web", both()),
        ),
        [
            (
                FROM_CLIENT + "svc/default/web",
                """
Pod default/client-a (10.244.1.30, node n1) to Service default/web, port http: cluster IP 10.96.0.20:80/TCP

CHANCE  ENDPOINT          POD            NODE  ZONE  SEES
50.0 %  10.244.1.10:8080  default/web-a  n1    a     10.244.1.30
50.0 %  10.244.2.10:8080  default/web-b  n2    b     10.244.1.30

affinity ClientIP: a client that came is kept at its endpoint until 600 seconds pass without a new connection; asked as a client that didn't come within that time
others   from outside 10.244.0.0/16 and from n1 itself: the same two, which see an address of n1
""",
            )
        ],
    ),
    Case(
        "a_pod_that_reaches_itself",
        DEBUG,
        "A Pod can fail to reach itself via the Service IP: the network has to be configured for "
        "\"hairpin\" traffic, which is masqueraded.",
        cluster(*web(), slice_of("web", both())),
        [
            (
                "--from pod/default/web-a --to svc/default/web",
                """
Pod default/web-a (10.244.1.10, node n1) to Service default/web, port http: cluster IP 10.96.0.20:80/TCP

CHANCE  ENDPOINT          POD            NODE  ZONE  SEES
50.0 %  10.244.1.10:8080  default/web-a  n1    a     an address of n1
50.0 %  10.244.2.10:8080  default/web-b  n2    b     10.244.1.10

others   from outside 10.244.0.0/16 and from n1 itself: the same two, which see an address of n1
""",
            )
        ],
    ),
    Case(
        "a_service_without_a_selector",
        SERVICES,
        "Accessing a Service without a selector works the same as if it had a selector.",
        cluster(
            service("db", "10.96.0.40", [port("", 5432, 5432)]),
            slice_of("db", [entry("192.0.2.50", None)], (("", 5432),), managed=False),
        ),
        [
            (
                FROM_CLIENT + "svc/default/db:5432",
                """
Pod default/client-a (10.244.1.30, node n1) to Service default/db: cluster IP 10.96.0.40:5432/TCP

CHANCE  ENDPOINT         POD  NODE  ZONE  SEES
100 %   192.0.2.50:5432  -    -     -     10.244.1.30

others   from outside 10.244.0.0/16 and from n1 itself: the same endpoint, which sees an address of n1
""",
            )
        ],
    ),
    Case(
        "an_external_ip",
        SERVICES,
        "When network traffic arrives into the cluster, with the external IP (as destination IP) and "
        "the port matching that Service, rules and routes that Kubernetes has configured ensure that "
        "the traffic is routed to one of the endpoints for that Service.",
        cluster(*web(externalIPs=["198.51.100.32"]), slice_of("web", both())),
        [
            (
                "--from 192.0.2.9 --to svc/default/web/external --node n2",
                """
192.0.2.9 to Service default/web, port http: external IP 198.51.100.32:80/TCP

CHANCE  ENDPOINT          POD            NODE  ZONE  SEES
50.0 %  10.244.1.10:8080  default/web-a  n1    a     an address of n2
50.0 %  10.244.2.10:8080  default/web-b  n2    b     an address of n2

others   from 10.244.0.0/16 and from n2 itself: the same two, which see an address of n2
""",
            )
        ],
    ),
    Case(
        "one_external_ip_of_two",
        SERVICES,
        "externalIPs are not managed by Kubernetes and are the responsibility of the cluster "
        "administrator.",
        cluster(
            *web(externalIPs=["198.51.100.32"]),
            slice_of("web", both()),
            pod("api-a", "10.244.1.60"),
            service(
                "api",
                "10.96.0.60",
                [port("http", 80, 8080)],
                {"app": "api"},
                externalIPs=["198.51.100.32"],
            ),
            slice_of("api", [entry("10.244.1.60", "n1", "api-a")]),
        ),
        [
            (
                "--from 192.0.2.9 --to 198.51.100.32:80",
                """
n1, n2  198.51.100.32:80  100 %  10.244.1.60:8080  default/api-a  sees an address of the node

order    here by name; on a node either Service default/api or Service default/web may answer (docs/KUBE-PROXY.md)
""",
            ),
            (
                "--from 192.0.2.9 --to svc/default/web/external --node n2",
                """
192.0.2.9 to Service default/api, port http: external IP 198.51.100.32:80/TCP

CHANCE  ENDPOINT          POD            NODE  ZONE  SEES
100 %   10.244.1.60:8080  default/api-a  n1    a     an address of n2

instead  Service default/web has this place too, and Service default/api, port http answers there
order    here by name; on a node either Service default/api or Service default/web may answer (docs/KUBE-PROXY.md)
others   from 10.244.0.0/16 and from n2 itself: the same endpoint, which sees an address of n2
""",
            ),
            (
                "--node n1",
                """
SERVICE           PLACE                             OUTSIDE                  CLUSTER                  NODE
default/api:http  cluster IP 10.96.0.60:80/TCP      1 masked                 1                        1 masked
default/api:http  external IP 198.51.100.32:80/TCP  1 masked                 1 masked                 1 masked
default/web:http  cluster IP 10.96.0.20:80/TCP      2 masked                 2                        2 masked
default/web:http  external IP 198.51.100.32:80/TCP  1 masked of default/api  1 masked of default/api  1 masked of default/api

masked: the endpoint sees an address of the node in place of the client's
order    198.51.100.32:80/TCP: here by name; on a node either Service default/api or Service default/web may answer (docs/KUBE-PROXY.md)
""",
            ),
        ],
    ),
    Case(
        "one_external_ip_of_two_of_which_one_has_endpoints",
        DEBUG,
        "If ENDPOINTS is <none>, check that the Service's selector matches labels of Pods.",
        cluster(
            *web(externalIPs=["198.51.100.32"]),
            slice_of("web", both()),
            service(
                "api",
                "10.96.0.60",
                [port("http", 80, 8080)],
                {"app": "api"},
                externalIPs=["198.51.100.32"],
            ),
            slice_of("api", [], ()),
        ),
        [
            (
                "--from 192.0.2.9 --to 198.51.100.32:80 --node n1",
                """
192.0.2.9 to Service default/web, port http: external IP 198.51.100.32:80/TCP

CHANCE  ENDPOINT          POD            NODE  ZONE  SEES
50.0 %  10.244.1.10:8080  default/web-a  n1    a     an address of n1
50.0 %  10.244.2.10:8080  default/web-b  n2    b     an address of n1

others   from 10.244.0.0/16 and from n1 itself: the same two, which see an address of n1
""",
            )
        ],
    ),
    Case(
        "a_headless_service_and_an_external_name",
        SERVICES,
        "For headless Services, a cluster IP is not allocated, kube-proxy does not handle these "
        "Services, and there is no load balancing or proxying done by the platform for them.",
        cluster(
            *web(address="None"),
            slice_of("web", both()),
            service("mail", "", [], form="ExternalName", externalName="mail.example.com"),
        ),
        [
            (
                FROM_CLIENT + "svc/default/web",
                """
Service default/web is headless: its name resolves to the Pods' own addresses, and no node has rules for it
""",
            ),
            (
                FROM_CLIENT + "svc/default/mail",
                """
Service default/mail is an ExternalName: its name resolves to mail.example.com, and no node has rules for it
""",
            ),
        ],
    ),
    Case(
        "two_families",
        DUAL,
        "The allocated Service IP addresses are of both families, each with EndpointSlices of its "
        "own.",
        cluster(
            pod("web-a", "10.244.1.10", six="fd00:244:0:1::10"),
            service(
                "web", "10.96.0.20", [port("http", 80, 8080)], {"app": "web"}, six="fd00:96::20"
            ),
            slice_of("web", [entry("10.244.1.10", "n1", "web-a")]),
            slice_of("web", [entry("fd00:244:0:1::10", "n1", "web-a")], family="IPv6"),
            six=True,
        ),
        [
            (
                FROM_CLIENT + "svc/default/web",
                """
Pod default/client-a (10.244.1.30, fd00:244:0:1::30, node n1) to Service default/web, port http: cluster IP 10.96.0.20:80/TCP

CHANCE  ENDPOINT          POD            NODE  ZONE  SEES
100 %   10.244.1.10:8080  default/web-a  n1    a     10.244.1.30

others   from outside 10.244.0.0/16 and from n1 itself: the same endpoint, which sees an address of n1

Pod default/client-a (10.244.1.30, fd00:244:0:1::30, node n1) to Service default/web, port http: cluster IP [fd00:96::20]:80/TCP

CHANCE  ENDPOINT                 POD            NODE  ZONE  SEES
100 %   [fd00:244:0:1::10]:8080  default/web-a  n1    a     fd00:244:0:1::30

others   from outside fd00:244::/48 and from n1 itself: the same endpoint, which sees an address of n1
""",
            )
        ],
    ),
    Case(
        "a_load_balancer_that_proxies",
        SERVICES,
        "Setting .status.loadBalancer.ingress.ipMode to Proxy: traffic is sent to the load balancer "
        "also from inside, and no node answers for its address.",
        cluster(
            *web(
                form="LoadBalancer",
                ports=[port("http", 80, 8080, 30080)],
                ingress=[{"ip": "203.0.113.20", "ipMode": "Proxy"}],
            ),
            slice_of("web", both()),
        ),
        [
            (
                FROM_CLIENT + "203.0.113.20:80",
                """
Pod default/client-a (10.244.1.30, node n1) to 203.0.113.20:80/TCP

left alone: no Service answers there

near     203.0.113.20 is of the load balancer of Service default/web, whose ipMode is Proxy: no node has rules for it
""",
            )
        ],
    ),
]
