# Makes of each slice what the cluster would say in a step of a drain: "ending" or "gone".
#   jq -nc --arg node n2 --arg step gone -f examples/drain.jq state.jsonl

# the Pods that a drain leaves
def stays: .kind == "Pod" and any(.metadata.ownerReferences[]?; .kind == "DaemonSet" or .kind == "Node");
[inputs] as $objects
| [$objects[] | select(stays) | .metadata | "\(.namespace)/\(.name)"] as $staying
| $objects[] | select(.kind == "EndpointSlice")
| .metadata.namespace as $namespace
| def leaves: .nodeName == $node and ("\($namespace)/\(.targetRef.name)" | IN($staying[]) | not);
    if $step == "ending"
    then .endpoints[]? |= if leaves then .conditions += {ready: false, terminating: true} else . end
    else .endpoints |= ((. // []) | map(select(leaves | not))) end
