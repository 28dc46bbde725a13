#!/bin/sh
# Writes the restore text of a table with so many Services, each with one endpoint: five rules each.
#   bench/table.sh SERVICES
set -eu
exec awk -v n="$1" 'BEGIN {
    print "*nat"
    print ":PREROUTING ACCEPT [0:0]\n:INPUT ACCEPT [0:0]\n:OUTPUT ACCEPT [0:0]"
    print ":POSTROUTING ACCEPT [0:0]\n:KUBE-MARK-MASQ - [0:0]"
    for (i = 0; i < n; i++) printf ":KUBE-SEP-%016d - [0:0]\n", i
    print ":KUBE-SERVICES - [0:0]"
    for (i = 0; i < n; i++) printf ":KUBE-SVC-%016d - [0:0]\n", i
    print "-A PREROUTING -j KUBE-SERVICES\n-A OUTPUT -j KUBE-SERVICES"
    print "-A KUBE-MARK-MASQ -j MARK --or-mark 0x4000"
    for (i = 0; i < n; i++) {
        pod = sprintf("10.244.%d.%d", i / 250, i % 250 + 1)
        printf "-A KUBE-SEP-%016d -s %s/32 -j KUBE-MARK-MASQ\n", i, pod
        printf "-A KUBE-SEP-%016d -p tcp -j DNAT --to-destination %s:8080\n", i, pod
    }
    for (i = 0; i < n; i++)
        printf "-A KUBE-SERVICES -d 10.96.%d.%d/32 -p tcp -m tcp --dport 80 -j KUBE-SVC-%016d\n",
            i / 250, i % 250 + 1, i
    for (i = 0; i < n; i++) {
        printf "-A KUBE-SVC-%016d ! -s 10.244.0.0/16 -d 10.96.%d.%d/32 -p tcp -m tcp --dport 80" \
            " -j KUBE-MARK-MASQ\n", i, i / 250, i % 250 + 1
        printf "-A KUBE-SVC-%016d -j KUBE-SEP-%016d\n", i, i
    }
    print "COMMIT\n*filter\n:INPUT ACCEPT [0:0]\n:FORWARD ACCEPT [0:0]\n:OUTPUT ACCEPT [0:0]\nCOMMIT"
}'
