#!/bin/sh
# Makes the links, addresses, routes, next hops, neighbours and rules of the network namespace whose dumps are in
# frames.bin. Run it as root in new namespaces, which it fills: unshare -nm sh -c './setup.sh; ../dump.py 26 12'
set -u
if [ -n "$(ip -o addr)" ]; then
    echo "this network namespace is not new" >&2
    exit 2
fi
mount -t tmpfs none /etc/iproute2
ip link set lo up
ip link add d0 type veth peer name d0p
ip link add d1 type veth peer name d1p
ip link set d0p up
ip link set d1p up
ip link add va type veth peer name vb
ip link add br0 type bridge
for link in d0 d1 va vb br0; do ip link set $link up; done
ip addr add 10.1.0.1/24 dev d0
ip addr add 10.2.0.1/24 dev d1
ip -6 addr add 2001:db8:1::1/64 dev d0 nodad
ip -6 addr add 2001:db8:2::1/64 dev d1 nodad
r() { ip "$@" || echo "failed: ip $*" >&2; }
# routes and next hops
r route add default via 10.1.0.2
r route add 10.3.0.0/16 via 10.1.0.3 metric 7 mtu 1400 advmss 1360 hoplimit 9
r route add 10.4.0.0/16 via 10.1.0.3 mtu lock 1200 window 1000 rtt 100ms rttvar 20ms ssthresh 5 cwnd 6 reordering 4 initcwnd 10 initrwnd 11 features ecn rto_min 200ms quickack 1 congctl cubic fastopen_no_cookie 1
r route add 10.5.0.0/16 nexthop via 10.1.0.3 dev d0 weight 3 nexthop via 10.2.0.3 dev d1 weight 1 onlink
r route add 10.6.0.1 dev d1 scope link src 10.2.0.1 proto static
r route add blackhole 10.7.0.0/16
r route add unreachable 10.8.0.0/16 metric 900
r route add prohibit 10.9.0.0/16 table 100
r route add throw 10.10.0.0/16 table 253
r route add 10.11.0.0/16 dev d0 tos 0x10
r route add 10.12.0.0/16 via inet6 fe80::1 dev d0
r route add 10.13.0.0/16 via 192.0.2.9 dev d1 onlink proto bgp
r route add 10.14.0.0/16 dev d0 proto 77 table 70000
r route add 10.15.0.0/16 dev d0 realm 5
r route add 10.16.0.0/16 dev d0 realms 3/5
r route add 10.17.0.0/16 dev d0 proto dhcp metric 100
r nexthop add id 10 via 10.1.0.5 dev d0
r nexthop add id 11 via 10.2.0.5 dev d1
r nexthop add id 12 group 10/11,3
r route add 10.18.0.0/16 nhid 10
r route add 10.19.0.0/16 nhid 12
r -6 route add default via fe80::1 dev d0 metric 5
r -6 route add 2001:db8:3::/48 via 2001:db8:1::2 pref high
r -6 route add 2001:db8:4::/48 via 2001:db8:1::2 pref low expires 3000
r -6 route add 2001:db8:5::1 dev d1
r -6 route add unreachable 2001:db8:6::/48
r -6 route add blackhole 2001:db8:7::/48
r -6 route add 2001:db8:8::/48 nexthop via 2001:db8:1::2 dev d0 weight 2 nexthop via 2001:db8:2::2 dev d1
r -6 route add 2001:db8:9::/48 from 2001:db8:1::/64 via 2001:db8:1::2
r -6 route add local 2001:db8:a::/48 dev lo table 255
r -6 route add 2001:db8:b::/48 dev d0 mtu 1300 hoplimit 64 proto ra
r -6 route add anycast 2001:db8:c::1 dev d0
ip link set vb down
r route add 10.20.0.0/16 dev va
ip addr add 10.21.0.1/24 dev va
# neighbours
r neigh add 10.1.0.2 lladdr 02:00:00:00:00:01 dev d0
r neigh add 10.1.0.3 lladdr 02:00:00:00:00:02 dev d0 nud reachable
r neigh add 10.1.0.4 lladdr 02:00:00:00:00:03 dev d0 nud stale
r neigh add 10.1.0.5 dev d0 nud none
r neigh add 10.1.0.6 dev d0 lladdr 02:00:00:00:00:04 nud noarp
r neigh add 10.1.0.7 dev d0 lladdr 02:00:00:00:00:05 nud delay
r neigh add 10.1.0.8 dev d0 lladdr 02:00:00:00:00:06 nud probe
r neigh add 10.1.0.9 dev d0 nud failed
r neigh add 10.1.0.10 dev d0 nud incomplete
r neigh add 10.1.0.11 dev d0 lladdr 02:00:00:00:00:07 extern_learn
r neigh add proxy 10.1.0.12 dev d0
r neigh add 10.1.0.13 dev d0 lladdr 02:00:00:00:00:08 protocol bgp
r -6 neigh add 2001:db8:1::2 dev d0 lladdr 02:00:00:00:00:09 router
r -6 neigh add 2001:db8:1::3 dev d0 lladdr 02:00:00:00:00:0a nud stale router
r -6 neigh add proxy 2001:db8:1::4 dev d0
r neigh add 10.1.0.14 dev d0 managed
# rules
r rule add from 10.0.0.0/8 lookup 100
r rule add to 10.9.9.9 lookup 70000 prio 10
r rule add fwmark 0x10/0xff table 200
r rule add fwmark 5 lookup main
r rule add iif d0 lookup 5
r rule add oif nosuch lookup 6
r rule add iif nosuch lookup 6
r rule add ipproto tcp sport 80 dport 1000-2000 lookup 7
r rule add ipproto udp sport 53-54 lookup 7
r rule add uidrange 1000-2000 lookup 8
r rule add not from 10.1.2.3 tos 0x10 blackhole
r rule add from 10.4.0.0/16 unreachable
r rule add prohibit from 10.5.0.0/16
r rule add prio 20 goto 32766
r rule add prio 21 goto 40000
r rule add nop
r rule add lookup 9 suppress_prefixlength 0
r rule add lookup 9 suppress_ifgroup 4
r rule add lookup 9 realms 4/5
r rule add lookup 9 realms 5
r rule add lookup 9 tun_id 77
r rule add l3mdev
r rule add lookup 11 protocol bgp
r rule add lookup 11 protocol 99
r -6 rule add from 2001:db8::/32 to 2001:db8:1::1 lookup 12
r -6 rule add from all to 2001:db8::/32 throw
