# What tools/cluster makes of kubectl's JSON: lines for the objects and events that the program
# reads, and notes, which are arrays, on what the setting and the messages need.

# a name in a sentence: as JSON text where it isn't plain
def shown: if test("^[A-Za-z0-9./_:-]+$") then . else tojson end;

def key: "\(.metadata.namespace? // "default")/\(.metadata.name? // "")";

# without a part, where the object has the API's shape; another one stays for the program to refuse
def without(part): . as $whole | try del(part) catch $whole;

def with_only(names): with_entries(select(.key | IN(names)));

# Large and confidential parts that the program doesn't read: histories of fields, annotations,
# commands, variables and volumes of Pods, images of Nodes.
def trimmed:
    without(.metadata.managedFields) | without(.metadata.annotations)
    | if .kind == "Pod" then
        without(.status.containerStatuses) | without(.status.initContainerStatuses)
        | . as $whole
        | try (.spec |= (with_only("nodeName", "containers")
            | if (.containers | type) == "array" then
                .containers |= map(if type == "object" then with_only("name", "ports") else . end)
              else . end))
          catch $whole
      elif .kind == "Node" then
        without(.status.images)
      else . end;

# what the program takes for an event of a watch
def is_event: type == "object" and .type != null and .object != null;

# The objects of a List, of a typed list or of an array; those of a PodList are of kind Pod. Other
# values stay, and so do events.
def each_object:
    if type == "array" then .[] | each_object
    elif type == "object" and (is_event | not) and has("items") and (.kind | type) == "string"
        and (.kind | endswith("List")) and (.items | type | IN("array", "null")) then
        .kind[:-4] as $kind | .apiVersion as $version
        | (.items // [])[]
        | if $kind != "" and type == "object" and .kind == null and (is_event | not)
            then {kind: $kind, apiVersion: $version} + del(.kind, .apiVersion) else . end
        | each_object
    else . end;

def is_read:
    type == "object" and (.kind | IN("Service", "EndpointSlice", "Pod", "Node"))
    and (.apiVersion == null
        or .apiVersion == (if .kind == "EndpointSlice" then "discovery.k8s.io/v1" else "v1" end));

# ---- what kube-proxy takes otherwise than the program

# The label by which kube-proxy passes over a Service or a slice, whatever its value, or null.
def label_passed_over:
    [select(.kind | IN("Service", "EndpointSlice")) | .metadata.labels? | objects | keys[]
        | select(IN("service.kubernetes.io/service-proxy-name", "service.kubernetes.io/headless"))]
    | last;

# the cluster addresses of a Service's spec: those of the list, or else the single one
def cluster_addresses:
    [(.clusterIPs | arrays | select(. != [])) // [.clusterIP] | .[] | strings | select(. != "")];

# The range of all addresses of the family that a Service is in and its source ranges aren't, or null.
def range_beside:
    .spec | (.loadBalancerSourceRanges | map(contains(":")) | unique) as $of_ipv6
    | (cluster_addresses | map(select(. != "None") | contains(":"))) as $in_ipv6
    | if $of_ipv6 == [false] and ($in_ipv6 | any) then "::/0"
      elif $of_ipv6 == [true] and ($in_ipv6 | all | not) then "0.0.0.0/0"
      else null end;

def is_without_serving:
    type == "object" and (.conditions | type) == "object" and .conditions.ready == false
    and .conditions.serving == null;

# An object as kube-proxy takes it, and what was changed for that.
def as_proxy_takes_it:
    if .kind == "Service" and (.spec | type) == "object"
        and (.spec.loadBalancerSourceRanges | type) == "array"
        and (.spec.loadBalancerSourceRanges | length > 0 and all(type == "string")) then
        .spec.loadBalancerSourceRanges as $ranges
        | .spec.loadBalancerSourceRanges |= map(gsub("^\\s+|\\s+$"; ""))
        | [select(.spec.loadBalancerSourceRanges != $ranges) | "blanks"] as $blanks
        | range_beside as $beside
        | if $beside != null then .spec.loadBalancerSourceRanges += [$beside] else . end
        | {object: ., changed: ($blanks + [$beside | values])}
    elif .kind == "EndpointSlice" and (.endpoints | type) == "array"
        and (.endpoints | any(is_without_serving)) then
        {object: (.endpoints |= map(if is_without_serving then .conditions.serving = true else . end)),
            changed: ["serving"]}
    else {object: ., changed: []} end;

# The line of an object, or of an event that brings it where there is a $type, which begin with o and
# e; and notes of what was changed or left out.
def lines_of($type; $as_written):
    def line($type):
        if $type == null then "o\(tojson)" else "e\({type: $type, object: .} | tojson)" end;
    trimmed
    | label_passed_over as $passed_over
    | if $as_written or $type == "DELETED" then line($type)
      elif $passed_over != null then
        # who passes over a label sees an object that gets it as one that is deleted
        (select($type == "MODIFIED") | line("DELETED")), ["label", $passed_over, "\(.kind) \(key | shown)"]
      else
        as_proxy_takes_it
        | (.object | line($type)), (.changed[] as $what | ["changed", $what, (.object | key)])
      end;

# ---- kube-proxy's setting

# what of kube-proxy's setting an object has, and where it has it
def source_of_setting:
    if type != "object" or key != "kube-system/\(.metadata.name? | select(type == "string"))" then empty
    elif .kind == "ConfigMap" and .metadata.name == "kube-proxy" then "config.conf"
    elif .kind == "ConfigMap" and .metadata.name == "kube-proxy-config" then "config"
    elif .kind == "DaemonSet" and .metadata.name == "kube-proxy" then "arguments"
    else empty end;

# the members that matter of a KubeProxyConfiguration
def setting_of_value:
    def text(path): [path? | values | tostring][0];
    if type != "object" then {unread: tojson} else
    {mode: text(.mode), clusterCIDR: text(.clusterCIDR), detectLocalMode: text(.detectLocalMode),
        masqueradeAll: text(.iptables.masqueradeAll),
        localhostNodePorts: text(.iptables.localhostNodePorts),
        nodePortAddresses: [.nodePortAddresses? | arrays | .[] | tostring]} end;

# The text of a YAML scalar on one line, or nothing where it is in another form.
def scalar:
    capture("^(?:\"(?<a>[^\"\\\\]*)\"|'(?<b>[^']*)'|(?<c>[^\\s#\"'{\\[|>&*!%@`-][^#]*?)?)\\s*(?:#.*)?$")
    | .a // .b // (.c // "" | if IN("null", "~") then "" else . end);

# The same of a text that is laid out as kubeadm and EKS do it: a member a line, those of a member
# further in, items of a list behind dashes. Of other texts it is the text itself, as `unread`.
def setting_of_lines:
    def read_or_stop(f): [f] | if . == [] then error("unread") else .[0] end;
    def take($name; $value): .[$name] = read_or_stop($value | scalar);
    def line_outside($it):
        .section = $it.name
        | if $it.name | IN("mode", "clusterCIDR", "detectLocalMode") then take($it.name; $it.value)
          elif $it.name == "nodePortAddresses" then
            .[$it.name] = ($it.value | if test("^(null|~)?\\s*(#.*)?$") then []
                else [read_or_stop(fromjson? | arrays)[] | tostring] end)
          elif $it.name == "iptables" and read_or_stop($it.value | scalar) != "" then error("unread")
          else . end;
    def line_inside($it):
        if .section == null then error("unread")
        elif .section == "iptables" and ($it.name | IN("masqueradeAll", "localhostNodePorts")) then
            take($it.name; $it.value)
        elif .section == "nodePortAddresses" then
            .nodePortAddresses += [read_or_stop($it.item | values | scalar)]
        else . end;
    . as $text
    | try (
        reduce (split("\n")[] | gsub("\\s+$"; "") | select(test("^\\s*(#.*)?$|^(---|[.]{3})$") | not))
            as $line ({nodePortAddresses: []};
            read_or_stop($line | capture(
                "^(?<indent> *)(?:- +(?<item>.*)|(?<name>[A-Za-z]\\w*):(?: +(?<value>.*))?)$"))
                as $it
            | if $it.indent == "" and $it.item == null then line_outside($it | .value //= "")
              else line_inside($it | .value //= "") end)
        | del(.section))
      catch {unread: $text};

def setting_of_text:
    . as $text | (try (fromjson | objects) catch null) as $value
    | if $value then $value | setting_of_value else $text | setting_of_lines end;

# The flags of kube-proxy's container, by name; the words of another program aren't looked at. Those
# of `--name value` are told from those that stand alone by what follows.
def flags_of_container:
    [.command, .args | arrays | .[] | tostring]
    | (if (.[0] // "") | startswith("-") then . elif (.[0] // "") | test("(^|/)kube-proxy$") then .[1:]
        else null end)
    | values
    | reduce .[] as $word ({};
        if $word | test("^--[^=]+=") then
            .last = null | .[$word | capture("^--(?<a>[^=]+)").a | gsub("_"; "-")]
                = ($word | sub("^--[^=]+="; ""))
        elif $word | startswith("--") then
            ($word[2:] | gsub("_"; "-")) as $name | .[$name] = "true" | .last = $name
        elif .last then .[.last] = $word | .last = null
        else . end);

def setting_of_flags:
    if has("config") then {file: .config} else
    {mode: .["proxy-mode"], clusterCIDR: .["cluster-cidr"], detectLocalMode: .["detect-local-mode"],
        masqueradeAll: .["masquerade-all"], localhostNodePorts: .["iptables-localhost-nodeports"],
        nodePortAddresses: (.["nodeport-addresses"] // "" | split(",") | map(select(. != "")))} end;

# What an object says of kube-proxy's setting; `unread` is a text of another layout, and `layout` what
# the object has in its place.
def setting_of_proxy($source):
    if $source == "arguments" then
        ([.spec.template.spec.containers[]?] | map(select(.name? == "kube-proxy")) | first // {}) as $it
        | [$it | flags_of_container | setting_of_flags][0]
            // {layout: "its container kube-proxy isn't begun by kube-proxy's own arguments"}
    elif (.data[$source]? | type) == "string" then .data[$source] | setting_of_text
    else {layout: "it has no key \($source)"} end;

# ---- documents

# What the setting and the messages need of an object that is read. A Service that is passed over
# isn't there; the slices of one that isn't may be.
def note_of_read($as_written):
    if .kind == "Node" then
        ([.status.addresses? | arrays | .[] | objects | select(.address | type == "string")]) as $all
        | ["node", (.metadata.name? // null),
            ($all | map(select(.type == "InternalIP") | .address)),
            ($all | map(select(.type == "ExternalIP") | .address))]
    elif .kind == "EndpointSlice" then
        ["slice", "\(.metadata.namespace? // "default")/\(
            (.metadata.labels["kubernetes.io/service-name"])? // "")", key]
    elif .kind == "Service" and ($as_written | not) and label_passed_over != null then
        ["gone", .kind, key]
    elif .kind == "Service" then
        ["service", key, (.spec | objects // {}
            | {type, addresses: cluster_addresses, selects: ((.selector | length > 0)? // false)})]
    elif .kind == "Pod" then ["pod"]
    else empty end;

# the same of an object that isn't read
def note_of_other:
    [source_of_setting][0] as $source
    | if $source != null then ["proxy", $source, setting_of_proxy($source)]
      else ["other", (select(type == "object") | .kind, .apiVersion | . // "none" | tostring)] end;

def said_of_error:
    (.object.message? // "an error" | tostring | if test("[[:cntrl:]]") then tojson else . end)
    + " (\(.object.code? // "no code"))";

# all that an event gives
def taken_of_event($as_written):
    .type as $type
    | if $type == "BOOKMARK" then empty
      elif $type == "ERROR" then ["error", said_of_error]
      elif $type | IN("ADDED", "MODIFIED", "DELETED") | not then ["event", ($type | tostring)]
      elif .object | is_read | not then .object | note_of_other
      else
        .object
        | (if $type == "DELETED" then ["gone", .kind, key] else note_of_read($as_written) end),
          lines_of($type; $as_written)
      end;

# All that a document gives: the version of a list and the rest of its pages, then lines and notes.
def taken($as_written):
    ((select(type == "object" and has("items") and (is_event | not))
        | ["list", (.metadata.resourceVersion? // ""), (.metadata.continue? // "")]),
    (each_object
        | if is_event then taken_of_event($as_written)
          elif is_read then note_of_read($as_written), lines_of(null; $as_written)
          else note_of_other end))
    | if type == "array" then tojson else . end;

def number_to_255: "(25[0-5]|2[0-4][0-9]|1[0-9][0-9]|[1-9]?[0-9])";
def v4: number_to_255 + "([.]" + number_to_255 + "){3}";
def v6: "[0-9A-Fa-f:.]*:[0-9A-Fa-f:.]*";
def is_address: test("^(" + v4 + "|" + v6 + ")$");
def is_range: test("^(" + v4 + "/(3[0-2]|[12]?[0-9])|" + v6 + "/[0-9]{1,3})$");

# the arguments as they are used: addresses, range, masquerade_all, controller; or a fault
def given($addresses; $range; $masquerade_all; $controller):
    {addresses: ($addresses | split(" ") | map(select(. != "")))}
    + {$range, $masquerade_all, $controller}
    | .fault = ([(.addresses[] | select(is_address | not) | "\(.) is no address"),
        ($range | select(. != "") | split(",")[] | select(is_range | not)
            | "\(.) is no range of addresses")] | first);

# at most ten of a list of texts, and of one of names
def ten_of: (.[:10] | join(", ")) + (if length > 10 then " and \(length - 10) more" else "" end);
def some_of: map(shown) | ten_of;

def notes_of(kind): map(select(.[0] == kind));

# ---- the setting

# the ranges of kube-proxy's texts, parted by family
def parts_of_ranges: (. // "") | split(",") | map(gsub("\\s"; "")) | map(select(. != ""));
def ranges: parts_of_ranges | map(select(is_range))
    | {v4: map(select(contains(":") | not)) | first, v6: map(select(contains(":"))) | first};

# Kube-proxy's setting or null, and sentences on where it is from. Arguments count where they don't
# name a file; a file is what a ConfigMap has.
def setting_chosen:
    def of($source): map(select(.[1] == $source)) | last | if . then .[2] else null end;
    notes_of("proxy")
    | of("arguments") as $flags | of("config.conf") as $first | of("config") as $second
    | [[$first, "kube-proxy", "config.conf"], [$second, "kube-proxy-config", "config"]
        | select(.[0] != null)] as $maps
    | ($maps | map(select(.[0] | has("unread") or has("layout") | not))) as $read
    | (if ($flags.file? // "") | endswith("/config") then $read | last else $read | first end) as $map
    | if $flags != null and ($flags | has("file") or has("layout") | not) then
        {proxy: $flags, said: [$read[]
            | "ConfigMap \(.[1]) is left out: kube-proxy's arguments don't name a file"]}
      else
        {proxy: ($map[0]? // null), said: [
            ($read | select(length == 2)
                | "ConfigMap \($map[1]) counts of the two that have kube-proxy's setting"),
            ($maps[] | select(.[0] | has("unread"))
                | "ConfigMap \(.[1]): the text of its \(.[2]) isn't laid out as kubeadm and EKS do it: nothing is read of it without yq"),
            (select($read == []) | $maps[] | select(.[0] | has("layout"))
                | "ConfigMap \(.[1]): \(.[0].layout): nothing is read of it"),
            (select($read == []) | $flags | select(. != null)
                | if has("file") then
                    "kube-proxy's arguments name the file \(.file | shown), which came in no ConfigMap kube-proxy or kube-proxy-config"
                  else "DaemonSet kube-proxy: \(.layout): nothing is read of it" end)]}
      end;

def said_of_addresses($node; $internal; $external; $given):
    ($internal[] | select(is_address | not)
        | "the InternalIP \(tojson) of \($node) is no address: left out"),
    ($internal | map(select(is_address)) + $given.addresses
        | "nodeAddresses: \(if . == [] then "none" else some_of end)"
            + (if $given.addresses == [] then
                "; those of bridges and the like aren't in the API: --address adds them"
                else "" end)),
    ($external - $internal - $given.addresses | select(. != [])
        | "ExternalIP \(some_of) of \($node) isn't taken for its own: --address does that");

# the range of each family that is named first, or null
def chosen_ranges($proxy; $given):
    [$given.range, $proxy.clusterCIDR? | ranges] | {v4: (map(.v4 | values) | first),
        v6: (map(.v6 | values) | first)};

# $proxy: kube-proxy's setting or null; $chosen: the ranges of the line; $dual: whether it has tables
# of IPv6
def said_of_ranges($proxy; $chosen; $dual):
    ($proxy.clusterCIDR? | parts_of_ranges[] | select(is_range | not)
        | "kube-proxy's clusterCIDR \(tojson) is no range: left out"),
    (if ($chosen.v4 // $chosen.v6) != null then empty
     elif $proxy == null then
        "kube-proxy's setting didn't come"
     else "kube-proxy has no clusterCIDR" end
        | "\(.): without --cluster-cidr no source counts as a Pod's"),
    ($chosen | select($dual and .v4 != null and .v6 == null)
        | "there is no clusterCIDR of IPv6: no source of IPv6 counts as a Pod's"),
    ($chosen | select(.v6 != null and .v4 == null)
        | "there is no clusterCIDR of IPv4: no source of IPv4 counts as a Pod's"),
    ($proxy.clusterCIDR? | ranges | to_entries[] | select(.value != null)
        | select(.value != $chosen[.key])
        | "kube-proxy's clusterCIDR \(.value) is left out for --cluster-cidr \($chosen[.key])");

def said_of_mode($proxy):
    ($proxy.mode? | select(IN(null, "", "iptables") | not)
        | "kube-proxy runs in mode \(shown): the answers are those of mode iptables"),
    ($proxy.detectLocalMode? | select(IN(null, "", "ClusterCIDR") | not)
        | "kube-proxy detects local traffic by \(shown): the answers do by clusterCIDR"),
    ($proxy.nodePortAddresses? | select(IN(null, []) | not)
        | "kube-proxy has nodePortAddresses \(some_of): here node ports answer at all of nodeAddresses"),
    ($proxy.localhostNodePorts? | select(. == "true")
        | "kube-proxy has localhostNodePorts: here node ports don't answer at loopback");

# what was changed of objects
def said_of_change:
    if .[1] == "blanks" then "blanks around source ranges go, as kube-proxy does it"
    elif .[1] == "serving" then
        "where ready is false and serving absent, it is written as true, as kube-proxy takes it"
    elif .[1] == "::/0" then
        "source ranges of IPv4 alone get ::/0 beside them, as kube-proxy leaves IPv6 open"
    else
        "source ranges of IPv6 alone get 0.0.0.0/0 beside them, as kube-proxy leaves IPv4 open"
    end;

def said_of_label: "left out: \(map(.[2]) | unique | ten_of): kube-proxy passes over the label \(.[0][1])";

def said_of_changes:
    (notes_of("changed") | group_by(.[1])[]
        | (.[0] | said_of_change) + ": \(map(.[2]) | unique | some_of)"),
    (notes_of("label") | group_by(.[1])[] | said_of_label);

# the Services and slices that are there in the end, as members of an object
def kept_of($kind; $note; at; value):
    reduce .[] as $it ({};
        if $it[0] == $note then .[$it | at] = ($it | value)
        elif $it[0] == "gone" and $it[1] == $kind then del(.[$it[2]]) else . end);

# $sliced: the Services that have slices, as members of an object
def said_of_services($sliced; $controller):
    (to_entries | map(select(.value.type != "ExternalName")
            | select($controller | not) // select(.value.selects | not)
            | .key | select(in($sliced) | not))
        | select(. != []) | "Services without an EndpointSlice: \(some_of)");

def said_of_others:
    (notes_of("other") | group_by(.[1:])[]
        | "left out: \(length) " + (.[0][1:] | if length == 0 then "values that are no object"
            else "of kind \(.[0] | shown) (\(.[1] | shown))" end)),
    (notes_of("event") | group_by(.[1])[] | "left out: \(length) events of type \(.[0][1] | shown)");

def everything: "kubectl get nodes,services,endpointslices,pods -A -o json";

# whether a note of one of these kinds is there
def came(kinds): any(.[]; .[0] | IN(kinds));

# The setting of the node as a line, and sentences, or why there is none. The input is the list of notes, $given the arguments.
def setting($node; $given):
    (reduce notes_of("node")[] as $it ({}; .[$it[1] | tostring] = $it[2:])) as $nodes
    | kept_of("Service"; "service"; .[1]; .[2]) as $services
    | (kept_of("EndpointSlice"; "slice"; .[2]; .[1]) | with_entries({key: .value, value: true})) as $sliced
    | setting_chosen as $source | $source.proxy as $proxy
    | ((notes_of("slice") == []) or $given.controller) as $controller
    | chosen_ranges($proxy; $given) as $chosen
    | [$chosen.v4, $chosen.v6 | values] as $ranges
    | ($nodes[$node] // [[], []]) as [$internal, $external]
    | (($internal | map(select(is_address))) + $given.addresses) as $addresses
    | ($addresses + $ranges + (notes_of("service") | map(.[2].addresses[]))
        | any(contains(":"))) as $dual
    | if $nodes | has($node) | not then
        "F" + (if came("node", "service", "slice", "pod", "proxy", "list") | not then
                "nothing of a cluster came: give what \(everything) prints"
            elif $nodes == {} then "no Node came, so \($node) isn't there"
            else "there is no Node \($node); there are: \($nodes | keys | some_of)" end)
      else
        "L" + ({op: "config", node: $node, nodeAddresses: $addresses}
            + (if $ranges == [] then {} else {clusterCIDR: ($ranges | join(","))} end)
            + (if $given.masquerade_all or $proxy.masqueradeAll? == "true"
                then {masqueradeAll: true} else {} end)
            + (if $dual then {dualStack: true} else {} end)
            + (if $controller then {} else {controller: false} end) | tojson),
        "S" + (
            said_of_addresses($node; $internal; $external; $given),
            $source.said[],
            said_of_ranges($proxy; $chosen; $dual),
            said_of_mode($proxy),
            (select(notes_of("slice") == []) | "no EndpointSlices came: endpoints come from Pods"),
            ($services | said_of_services($sliced; $controller)),
            (select($services != {} and (came("pod") | not))
                | "no Pods came: tools/plan and tools/why name none; kubectl get pods -A -o json"),
            said_of_changes,
            said_of_others)
      end;

# ---- watch events

# An event of a watch as pieces, each of which a pipe takes whole, and an end; and sentences on what
# was changed. Its object comes with its kind.
def pieces($kind; $as_written):
    if .type == "BOOKMARK" then empty
    elif .type == "ERROR" then "\($kind) !\(said_of_error)"
    else
        .type as $type | .object | lines_of($type; $as_written)
        | if type == "array" then
            "\($kind) ~\(if .[0] == "label" then [.] | said_of_label
                else said_of_change + ": \(.[2] | shown)" end)"
          else .[1:] | (range(0; length; 120) as $at | "\($kind) +\(.[$at:$at + 120])"), "\($kind) ." end
    end;

# The events whose pieces come between those of others, each with a sync; ends where a watch does.
# Sentences go to standard error, where jq's own word stands before them.
def whole_events:
    foreach inputs as $piece ({};
        ($piece | index(" ")) as $at
        | $piece[:$at] as $kind | $piece[$at + 1:$at + 2] as $form | $piece[$at + 2:] as $text
        | .event = null | .said = null
        | if $form == "+" then .held[$kind] += $text
          elif $form == "." then .event = .held[$kind] | .held[$kind] = null
          elif $form == "~" then .said = $text
          else .ended = "cluster: the watch of \($kind) ended: \($text)\n" end;
        if .ended then .ended | halt_error(1)
        elif .said then .said | debug | empty
        elif .event then .event, "{\"op\":\"sync\"}"
        else empty end);
