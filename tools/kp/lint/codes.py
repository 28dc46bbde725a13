"""The codes of notes, with what each means and what mends it: the table of docs/tasks/lint.md."""

from typing import NamedTuple

from .differences import TABLE


class Code(NamedTuple):
    """A row of the table."""

    code: str
    means: str
    mends: str


REFUSALS = (
    Code("missing", "a member that is needed is absent or null", "give it"),
    Code("wrong-type", "a member is of another type", "what is allowed stands in brackets"),
    Code("out-of-range", "a number or a word that isn't allowed", "one that stands in brackets"),
    Code("bad-name", "a text isn't a name", "the grammar stands in brackets"),
    Code("bad-address", "a text isn't an address, or of another family than `src`", "an address"),
    Code("bad-range", "a text isn't a range", "a range such as `192.0.2.0/24`"),
    Code("duplicate-port", "two ports of a Service have one name and protocol", "other names"),
    Code("too-many", "a list is too long", "a shorter list"),
    Code("unsupported-kind", "an object of a kind or version that isn't read", "leave it out"),
    Code("not-an-event", "an object that is neither a command nor of a kind", "`op` or `kind`"),
    Code("unknown-op", "a command that isn't there", "one that stands in brackets"),
    Code("config-late", "a setting behind the first line", "put it first"),
    Code("bad-json", "a line isn't JSON that the program reads", "the note says where"),
    Code("line-too-long", "a line of more than 16 MiB", "a line for each object of a List"),
    Code("journal-full", "more events than `maxEvents`", "raise it in the setting"),
    Code("chain-clash", "two chains would have one name", "leave out `nameLength`"),
    Code("not-for-live", "`explain` or `show`, with `--live`", "ask it of `replay`"),
    Code("too-many-streams", "more than 64 streams, with `--live`", "fewer names as `by`"),
    Code("refused", "a refusal that the tool doesn't know", "its text is printed"),
)
FORMS = (
    Code("several-lines", "one value over several lines", "`jq -c .`"),
    Code("several-values", "several values on one line", "`jq -c .`"),
    Code("list", "a list in place of an object", "`jq -c '.[]'`"),
    Code("typed-list", "a list such as ServiceList", "the note has a filter for `jq`"),
    Code("kind-in-list", "a List with an object that isn't read", "the note has a filter for `jq`"),
    Code("yaml", "YAML", "`yq`; `tools/cluster` takes it as it is"),
    Code("byte-order-mark", "a line that begins with a byte order mark", "take it away"),
    Code("utf-16", "UTF-16, or bytes that are no text", "`iconv -f utf-16 -t utf-8`"),
    Code("no-line-feed", "a file without a line feed at its end, and another after it", "add one"),
)
COMMANDS = (
    Code("member-not-read", "a member that isn't read", "the nearest that is"),
    Code("no-trail", "`trail` of an `explain`", "`packet`"),
    Code("seed-beside-draws", "`seed` beside `draws`, which count", "leave one out"),
    Code("before-sync", "a question before any sync", "a sync before it"),
    Code("after-changes", "a question of changes that no sync covers", "a sync before it"),
    Code("loopback-node-port", "a node port at a loopback address", "an address of the node"),
    Code("balancer-as-source", "a load balancer's address asks itself", "ask from the node"),
)
SETTING = (
    Code("no-setting", "there is no setting", "begin with one"),
    Code("unknown-node", "no object has the node's name", "one of those that it names"),
    Code("unknown-range", "no Pod's address is in `clusterCIDR`", "the range of the Pods"),
    Code("unknown-address", "an address that is another Node's, or no Node's", "the Node's own"),
    Code("no-node-addresses", "node ports, and no address of the node", "the node's addresses"),
    Code("no-dual-stack", "IPv6 without `dualStack`", '`"dualStack":true`'),
    Code("controller-beside-slices", "`controller` beside slices", '`"controller":false`'),
)
OBJECTS = (
    Code(
        "slice-of-no-service",
        "a slice without the label of its Service, or of one that no accepted line gives",
        "the label `kubernetes.io/service-name`, or the Service",
    ),
)
GROUPS = {
    "Refusals": REFUSALS,
    "Form": FORMS,
    "Commands": COMMANDS,
    "The setting": SETTING,
    "Objects": OBJECTS,
    "Otherwise than kube-proxy": tuple(Code(it.code, it.what, it.mends) for it in TABLE),
}
CODES = {it.code: it for group in GROUPS.values() for it in group}
