"""Objects with the fields that `kubectl get -o json` prints, for the clusters of cases.py: two nodes,
n1 in zone a and n2 in zone b, whose Pods are in 10.244.0.0/16 and fd00:244::/48."""

import json
import zlib

MADE = "2026-03-02T09:00:00Z"
NODES = {"n1": ("a", "192.168.1.11", "fd00:1::11"), "n2": ("b", "192.168.1.12", "fd00:1::12")}
RANGES = "10.244.0.0/16", "fd00:244::/48"


def meta(kind, name, labels=None, namespace="default", owner=None):
    """What each object has, in the order in which kubectl prints it."""
    number = zlib.crc32(f"{kind} {namespace} {name}".encode())
    found = {"creationTimestamp": MADE}
    found |= {"generateName": owner + "-"} if owner else {}
    found |= {"labels": labels} if labels else {}
    found["name"] = name
    found |= {"namespace": namespace} if namespace else {}
    if owner:
        of = {"EndpointSlice": ("v1", "Service"), "Pod": ("apps/v1", "ReplicaSet")}[kind]
        ref = {"apiVersion": of[0], "blockOwnerDeletion": True, "controller": True, "kind": of[1]}
        found["ownerReferences"] = [{**ref, "name": owner, "uid": uid_of(number + 1)}]
    return {**found, "resourceVersion": str(1000 + number % 9000), "uid": uid_of(number)}


def uid_of(number):
    return f"7c1d4e20-0000-4000-8000-{number % 10**12:012d}"


def condition(form, status="True", **more):
    return {"lastProbeTime": None, "lastTransitionTime": MADE, "status": status, "type": form, **more}


def node(name, six=False):
    zone, four, other = NODES[name]
    labels = {
        "beta.kubernetes.io/arch": "amd64",
        "beta.kubernetes.io/os": "linux",
        "kubernetes.io/arch": "amd64",
        "kubernetes.io/hostname": name,
        "kubernetes.io/os": "linux",
        "topology.kubernetes.io/zone": zone,
    }
    place = 1 if name == "n1" else 2
    ranges = [f"10.244.{place}.0/24", *([f"fd00:244:0:{place}::/64"] if six else [])]
    addresses = [four, *([other] if six else [])]
    room = {"cpu": "4", "ephemeral-storage": "61255492Ki", "memory": "16393244Ki", "pods": "110"}
    return {
        "apiVersion": "v1",
        "kind": "Node",
        "metadata": meta("Node", name, labels, None),
        "spec": {"podCIDR": ranges[0], "podCIDRs": ranges},
        "status": {
            "addresses": [
                *({"address": it, "type": "InternalIP"} for it in addresses),
                {"address": name, "type": "Hostname"},
            ],
            "allocatable": room,
            "capacity": room,
            "conditions": [
                condition("Ready", reason="KubeletReady", message="kubelet is posting ready status")
            ],
            "daemonEndpoints": {"kubeletEndpoint": {"Port": 10250}},
            "images": [{"names": ["registry.k8s.io/pause:3.10"], "sizeBytes": 320368}],
            "nodeInfo": {
                "architecture": "amd64",
                "bootID": uid_of(place),
                "containerRuntimeVersion": "containerd://1.7.24",
                "kernelVersion": "6.1.0-31-amd64",
                "kubeProxyVersion": "v1.32.2",
                "kubeletVersion": "v1.32.2",
                "machineID": "0" * 32,
                "operatingSystem": "linux",
                "osImage": "Debian GNU/Linux 12 (bookworm)",
                "systemUUID": uid_of(place),
            },
        },
    }


def pod(name, address, on="n1", labels=None, ports=(("http", 8080),), ready=True, six=None, **more):
    """A Pod; `host` has the network of its node, and `ending` one that is being deleted."""
    is_host, is_ending = more.get("host", False), more.get("ending", False)
    listed = [{"containerPort": port, **({"name": it} if it else {}), "protocol": "TCP"} for it, port in ports]
    made = meta("Pod", name, labels or {"app": name.rpartition("-")[0]}, owner=name.rpartition("-")[0])
    if is_ending:
        made = {**made, "deletionGracePeriodSeconds": 30, "deletionTimestamp": "2026-03-02T10:00:00Z"}
    container = {
        "image": "registry.k8s.io/pause:3.10",
        "imagePullPolicy": "IfNotPresent",
        "name": "main",
        "ports": listed,
        "resources": {},
        "terminationMessagePath": "/dev/termination-log",
        "terminationMessagePolicy": "File",
    }
    status = "True" if ready else "False"
    addresses = [address, *([six] if six else [])]
    return {
        "apiVersion": "v1",
        "kind": "Pod",
        "metadata": made,
        "spec": {
            "containers": [container],
            "dnsPolicy": "ClusterFirst",
            "enableServiceLinks": True,
            **({"hostNetwork": True} if is_host else {}),
            "nodeName": on,
            "preemptionPolicy": "PreemptLowerPriority",
            "priority": 0,
            "restartPolicy": "Always",
            "schedulerName": "default-scheduler",
            "securityContext": {},
            "serviceAccount": "default",
            "serviceAccountName": "default",
            "terminationGracePeriodSeconds": 30,
        },
        "status": {
            "conditions": [
                condition("PodReadyToStartContainers"),
                condition("Initialized"),
                condition("Ready", status),
                condition("ContainersReady", status),
                condition("PodScheduled"),
            ],
            "containerStatuses": [
                {
                    "image": container["image"],
                    "imageID": "registry.k8s.io/pause@sha256:" + "0" * 64,
                    "lastState": {},
                    "name": "main",
                    "ready": ready,
                    "restartCount": 0,
                    "started": True,
                    "state": {"running": {"startedAt": MADE}},
                }
            ],
            "hostIP": NODES[on][1],
            "hostIPs": [{"ip": NODES[on][1]}],
            "phase": "Running",
            "podIP": addresses[0],
            "podIPs": [{"ip": it} for it in addresses],
            "qosClass": "BestEffort",
            "startTime": MADE,
        },
    }


def port(name, number, target, node_port=None, protocol="TCP"):
    found = {"name": name} if name else {}
    found |= {"nodePort": node_port} if node_port else {}
    return {**found, "port": number, "protocol": protocol, "targetPort": target}


def service(name, address, ports, selector=None, form="ClusterIP", ingress=None, six=None, **spec):
    addresses = [address, *([six] if six else [])]
    made = {
        "clusterIP": address,
        "clusterIPs": addresses,
        "internalTrafficPolicy": "Cluster",
        "ipFamilies": ["IPv6" if ":" in it else "IPv4" for it in addresses],
        "ipFamilyPolicy": "PreferDualStack" if six else "SingleStack",
        "ports": ports,
        **({"selector": selector} if selector else {}),
        "sessionAffinity": "None",
        "type": form,
    }
    if form in ("NodePort", "LoadBalancer"):
        made["externalTrafficPolicy"] = "Cluster"
    if form == "LoadBalancer":
        made["allocateLoadBalancerNodePorts"] = True
    if address == "None":
        made["ipFamilies"] = ["IPv4"]
    if form == "ExternalName":
        made = {"sessionAffinity": "None", "type": form}
    balancer = {"ingress": ingress} if ingress else {}
    return {
        "apiVersion": "v1",
        "kind": "Service",
        "metadata": meta("Service", name),
        "spec": dict(sorted({**made, **spec}.items())),
        "status": {"loadBalancer": balancer},
    }


def entry(address, on="n1", of="", ready=True, serving=None, ending=False, hint=None):
    """An endpoint of a slice; `of` is its Pod."""
    serving = ready if serving is None else serving
    found = {"addresses": [address]}
    found["conditions"] = {"ready": ready, "serving": serving, "terminating": ending}
    found |= {"hints": {"forZones": [{"name": hint}]}} if hint else {}
    found |= {"nodeName": on} if on else {}
    if of:
        number = zlib.crc32(of.encode())
        ref = {"kind": "Pod", "name": of, "namespace": "default", "uid": uid_of(number)}
        found["targetRef"] = ref
    return {**found, **({"zone": NODES[on][0]} if on else {})}


def slice_of(name, entries, ports=(("http", 8080),), family="IPv4", managed=True, protocol="TCP"):
    labels = {"kubernetes.io/service-name": name}
    if managed:
        labels["endpointslice.kubernetes.io/managed-by"] = "endpointslice-controller.k8s.io"
    full = f"{name}-{family.lower()}-x7k2q" if managed else f"{name}-1"
    return {
        "addressType": family,
        "apiVersion": "discovery.k8s.io/v1",
        "endpoints": entries or None,
        "kind": "EndpointSlice",
        "metadata": meta("EndpointSlice", full, labels, owner=name if managed else None),
        "ports": [{"name": it or "", "port": number, "protocol": protocol} for it, number in ports] or None,
    }


def proxy(six=False):
    """kube-proxy's ConfigMap, as kubeadm writes it."""
    ranges = ",".join(RANGES if six else RANGES[:1])
    config = f'apiVersion: kubeproxy.config.k8s.io/v1alpha1\nclusterCIDR: {ranges}\nkind: KubeProxyConfiguration\nmode: ""\n'
    return {
        "apiVersion": "v1",
        "data": {"config.conf": config, "kubeconfig.conf": "apiVersion: v1\nkind: Config\n"},
        "kind": "ConfigMap",
        "metadata": meta("ConfigMap", "kube-proxy", {"app": "kube-proxy"}, "kube-system"),
    }


def text_of(items):
    """A List as kubectl prints it."""
    whole = {"apiVersion": "v1", "items": items, "kind": "List", "metadata": {"resourceVersion": ""}}
    return json.dumps(whole, indent=4) + "\n"
