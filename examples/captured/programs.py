#!/usr/bin/env python3
"""Captures what programs ask of route netlink, and what the kernel answers, in a network namespace of its own.

    unshare -nm python3 programs.py programs     (as root; needs iproute2, strace, busybox, dnsmasq-base and bird2)
    unshare -nm python3 programs.py kinds        (as root; needs iproute2, strace and util-linux)

The namespace holds made-up interfaces, addresses, routes, neighbours and rules alone. Runs each program of a list under
strace, which prints the bytes of its system calls. Writes programs.tsv or kinds.tsv beside itself: the words of the
program, sent, received or event, and the bytes of a datagram in hexadecimal. An event is a notification on a socket of
this script. A kernel without a kind of link refuses the request for it, which is kept all the same.
"""

import os
import re
import socket
import subprocess
import sys
import tempfile
import time

HERE = os.path.dirname(os.path.abspath(__file__))
CALL = re.compile(r"(?:\d+ +)?(sendto|sendmsg|recvmsg|recvfrom)\((\d+), ")
SOCKET = re.compile(r"(?:\d+ +)?socket\(AF_NETLINK, \S+, NETLINK_ROUTE\) = (\d+)")
DUMP = re.compile(r" \| ([0-9a-f]{5})  ((?:[0-9a-f]{2} +)+)")
# Groups of linux/rtnetlink.h: links, neighbours, addresses, routes and rules of both protocols, network namespaces.
GROUPS = (1, 3, 5, 7, 8, 9, 11, 12, 19, 28)
ADD_MEMBERSHIP, NETLINK = 1, 270

GETIFADDRS = """
import ctypes
first = ctypes.c_void_p()
ctypes.CDLL(None).getifaddrs(ctypes.byref(first))
"""

# A shell reads each line. A line that ends with `#received` is one of whose answers the bytes are kept too.
COMMANDS = r"""
ip link set lo up
ip link add veth-a address 02:00:00:00:00:0a type veth peer name veth-b address 02:00:00:00:00:0b
ip link add bridge-0 address 02:00:00:00:00:01 type bridge stp_state 1 forward_delay 400 hello_time 150 max_age 1900
ip link set bridge-0 type bridge vlan_filtering 1
ip link set veth-a master bridge-0
ip link set veth-a alias 'one end of a pair'
ip link set veth-b alias "$(printf 'no UTF-8: \377')"
ip link property add dev veth-b altname the-other-end-of-a-pair-of-ethernet-devices
ip link add vxlan-0 address 02:00:00:00:00:02 type vxlan id 42 dstport 4789 local 192.0.2.1 group 239.0.0.1 dev veth-b ttl 7
ip link add link veth-b name macvlan-0 address 02:00:00:00:00:03 type macvlan mode bridge
ip link add ifb-0 address 02:00:00:00:00:04 type ifb
ip tuntap add tun-0 mode tun
ip link add "$(printf 'if\377')" address 02:00:00:00:00:05 type veth peer name veth-d address 02:00:00:00:00:06
ip link set veth-b mtu 1400 txqueuelen 500
ip link set veth-a up
ip link set veth-b up
ip link set bridge-0 up
ip link set veth-d group 7
ip link del veth-d
ip -d link show #received
ip -s link show dev veth-b #received
ip -d link show type bridge
ip link show no-such-link
bridge link show #received
bridge vlan show
ip addr add 192.0.2.1/24 brd + dev bridge-0 label bridge-0:label
ip addr add 192.0.2.9 peer 198.51.100.9/32 dev veth-b
ip addr add 203.0.113.5/24 dev veth-b valid_lft 3600 preferred_lft 1800 noprefixroute metric 77
ip addr add 2001:db8::1/64 dev bridge-0 nodad
ip addr add 2001:db8:1::2/64 dev veth-b nodad home mngtmpaddr valid_lft 7200 preferred_lft 600
ip addr del 203.0.113.5/24 dev veth-b
ip addr show #received
ip maddr show
ip route add 198.51.100.0/24 via 192.0.2.254
ip route add 198.51.101.0/24 via 192.0.2.254 src 192.0.2.1 metric 100 mtu 1280 advmss 1200 rto_min 200ms congctl cubic table 100
ip route add 198.51.102.0/24 nexthop via 192.0.2.253 weight 3 nexthop via 192.0.2.254 dev bridge-0 weight 5
ip route add blackhole 198.51.103.0/24
ip route add unreachable 198.51.104.0/24 metric 4294967295
ip route add prohibit 198.51.105.0/24 realms 3/4
ip route add 198.51.106.0/24 via inet6 fe80::1 dev bridge-0
ip route add 2001:db8:2::/48 via 2001:db8::ff dev bridge-0 pref high expires 600
ip route add 2001:db8:3::/48 nexthop via 2001:db8::fe nexthop via 2001:db8::ff
ip route add blackhole 2001:db8:4::/48 proto 200
ip nexthop add id 9 via 198.51.100.9 dev veth-b
ip route add 198.51.107.0/24 nhid 9
ip route replace 198.51.100.0/24 via 192.0.2.253 onlink dev bridge-0 tos 0x10
ip route get 198.51.100.9 #received
ip route get 2001:db8:2::9 uid 1000 mark 5
ip route show table all #received
ip -6 route show table all #received
ip route del 198.51.103.0/24
ip route flush table 100
ip neigh add 192.0.2.7 lladdr 02:00:00:00:00:07 dev bridge-0
ip neigh add 192.0.2.8 lladdr 02:00:00:00:00:08 dev bridge-0 nud stale
ip neigh add 192.0.2.10 lladdr 02:00:00:00:00:10 dev bridge-0 nud reachable
ip neigh add 192.0.2.11 lladdr 02:00:00:00:00:11 dev bridge-0 nud noarp protocol 7
ip neigh add 192.0.2.12 lladdr 02:00:00:00:00:12 dev bridge-0 nud delay
ip neigh add 192.0.2.13 lladdr 02:00:00:00:00:13 dev bridge-0 nud probe
ip neigh add 192.0.2.14 dev bridge-0 nud incomplete
ip neigh add 192.0.2.15 dev bridge-0 nud failed
ip neigh add 192.0.2.16 dev bridge-0 lladdr 02:00:00:00:00:16 managed extern_learn
ip neigh add proxy 192.0.2.17 dev bridge-0
ip neigh add 2001:db8::7 lladdr 02:00:00:00:00:07 dev bridge-0 router
ip neigh del 192.0.2.8 dev bridge-0
ip neigh get 192.0.2.7 dev bridge-0 #received
ip neigh show nud all #received
ip neigh show proxy #received
bridge fdb add 02:00:00:00:00:aa dev vxlan-0 dst 192.0.2.44 vni 43 port 4790
bridge fdb show #received
ip ntable show #received
ip ntable change name arp_cache dev bridge-0 base_reachable 20000
ip rule add from 192.0.2.0/24 to 198.51.100.0/24 table 100 priority 1000
ip rule add fwmark 0x10/0xff iif veth-b oif bridge-0 table 1234 priority 1001
ip rule add uidrange 1000-2000 ipproto tcp sport 80-90 dport 443 lookup main priority 1002
ip rule add goto 32766 priority 1003
ip rule add blackhole tos 0x10 priority 1004
ip rule add l3mdev priority 1005
ip rule add from all lookup main suppress_prefixlength 0 suppress_ifgroup 7 realms 3/4 tun_id 5 protocol static priority 1006
ip -6 rule add from 2001:db8::/32 unreachable priority 1007
ip rule del priority 1001
ip rule show #received
ip -6 rule show #received
ip netns add network-0
ip netns set network-0 5
ip link set macvlan-0 netns network-0
ip netns list-id #received
ip netns del network-0
ip monitor link & sleep 0.2; ip link set ifb-0 up; ip link set ifb-0 down; ip link del ifb-0; sleep 0.2; kill $!
python3 -c "$GETIFADDRS" #received
getent ahosts localhost
python3 -c 'import socket; socket.if_nameindex()'
busybox ip link
busybox ip addr
busybox ip route
busybox ip neigh
busybox ip rule
busybox ip addr add 192.0.2.99/24 dev veth-b
busybox ip route add 198.51.109.0/24 via 192.0.2.254
busybox ip link add link veth-b name busybox-0 type macvlan
timeout 2 dnsmasq --no-daemon --conf-file=/dev/null --no-resolv --no-hosts --user=root --pid-file= --interface=bridge-0 --dhcp-range=192.0.2.100,192.0.2.110 --enable-ra --dhcp-range=2001:db8::,ra-stateless --dhcp-leasefile=/dev/null
timeout 3 bird -f -c "$BIRD" -s "$BIRD.socket" -P "$BIRD.pid"
"""

# Kinds of links, and attributes that no command above sends.
KINDS = r"""
ip link add veth-a address 02:00:00:00:00:0a type veth peer name veth-b address 02:00:00:00:00:0b
ip link add link veth-b name vlan-0 type vlan id 42
ip link add link veth-b name vlan-1 type vlan protocol 802.1ad id 100 reorder_hdr off gvrp on mvrp on loose_binding on ingress-qos-map 1:2 3:4 egress-qos-map 5:6
ip link add bond-0 type bond mode active-backup miimon 100 active_slave veth-a
ip link add bond-1 type bond mode active-backup updelay 200 downdelay 300 use_carrier 1 primary veth-a primary_reselect better fail_over_mac active resend_igmp 2 num_grat_arp 3 all_slaves_active 1 peer_notify_delay 400
ip link add bond-2 type bond mode 802.3ad xmit_hash_policy layer3+4 min_links 1 lacp_rate fast lacp_active on ad_select bandwidth ad_actor_sys_prio 7 ad_user_port_key 5 ad_actor_system 02:00:00:00:00:99
ip link add bond-3 type bond mode balance-rr arp_interval 100 arp_ip_target 192.0.2.1,192.0.2.2 arp_validate all arp_all_targets any lp_interval 4 packets_per_slave 5 tlb_dynamic_lb 0 ns_ip6_target 2001:db8::1 arp_missed_max 6
ip link add gre-0 type gre local 192.0.2.1 remote 198.51.100.1 ttl 64
ip link add gre-1 type gre local 192.0.2.1 remote 198.51.100.1 ikey 7 okey 8 iseq ocsum ttl inherit tos 0x10 nopmtudisc dev veth-b encap fou encap-sport 5554 encap-dport 5555 encap-csum fwmark 9
ip link add gretap-0 type gretap local 192.0.2.1 remote 198.51.100.1 ttl 64 nopmtudisc ignore-df
ip link add gretap-1 type gretap external
ip link add ipip-0 type ipip local 192.0.2.1 remote 198.51.100.1 ttl 64
ip link add ipip-1 type ipip mode any local 192.0.2.1 remote 198.51.100.1 tos 0x10 dev veth-b encap gue encap-sport 5554 encap-dport 5555 encap-remcsum fwmark 9
ip link add ipip-2 type ipip external
ip link add sit-0 type sit local 192.0.2.1 remote 198.51.100.1 ttl 64
ip link add sit-1 type sit mode any local 192.0.2.1 remote any ttl 64 isatap 6rd-prefix 2001:db8::/32 6rd-relay_prefix 192.0.2.0/24
ip link add link veth-b name macvlan-0 address 02:00:00:00:00:03 type macvlan mode source macaddr set 02:00:00:00:00:77 02:00:00:00:00:78 bcqueuelen 500
ip link add link veth-a name macvtap-0 address 02:00:00:00:00:04 type macvtap mode private
ip link add vxlan-0 address 02:00:00:00:00:05 type vxlan id 42 dstport 4789 local 2001:db8::1 remote 2001:db8::2 dev veth-b tos 0x10 ageing 30 maxaddress 9 srcport 1000 2000 proxy rsc l2miss l3miss udpcsum udp6zerocsumtx udp6zerocsumrx remcsumtx remcsumrx gbp flowlabel 0x12 df set
ip link add vxlan-1 type vxlan external vnifilter dstport 4790 gpe
ip link add vxlan-2 address 02:00:00:00:00:06 type vxlan id 43 dstport 4791 ttl inherit
ip link add bridge-0 address 02:00:00:00:00:01 type bridge ageing_time 2000 priority 9 group_fwd_mask 8 group_address 01:80:c2:00:00:0e mcast_router 2 mcast_snooping 1 mcast_query_use_ifaddr 1 mcast_querier 1 mcast_hash_elasticity 5 mcast_hash_max 512
ip link set bridge-0 type bridge mcast_last_member_count 3 mcast_startup_query_count 4 mcast_last_member_interval 200 mcast_membership_interval 300 mcast_querier_interval 400 mcast_query_interval 500 mcast_query_response_interval 600 mcast_startup_query_interval 700
ip link set bridge-0 type bridge mcast_stats_enabled 1 mcast_igmp_version 3 mcast_mld_version 2 nf_call_iptables 1 nf_call_ip6tables 1 nf_call_arptables 1 no_linklocal_learn 1
ip link set bridge-0 type bridge vlan_protocol 802.1ad vlan_default_pvid 5 vlan_stats_enabled 1 vlan_stats_per_port 1
ip link set bridge-0 type bridge fdb_flush
ip tuntap add tap-0 mode tap user 1000 group 1000 multi_queue vnet_hdr
ip link set veth-a master bridge-0
ip link set veth-b protodown on
ip link set veth-b protodown_reason 3 on
ip -d link show #received
ip link show a-name-of-more-than-fifteen-bytes
unshare -n sleep 1 & sleep 0.2; ip link set vxlan-2 netns $!; kill $!
ip addr add 192.0.2.1/24 dev veth-b
ip link set veth-b up
ip route add 198.51.112.0/24 encap ip id 5 dst 192.0.2.9 via 192.0.2.254 dev veth-b
ip route add 198.51.113.0/24 ttl-propagate enabled via 192.0.2.254
ip -f mpls route add 100 as 200 via inet 192.0.2.254
ip route get 198.51.100.9 ipproto tcp sport 80 dport 443 #received
ip nexthop add id 9 fdb via 192.0.2.9
bridge fdb add 02:00:00:00:00:bb dev vxlan-0 nhid 9
bridge fdb add 02:00:00:00:00:cc dev vxlan-1 dst 192.0.2.45 src_vni 5 vni 6
bridge fdb add 02:00:00:00:00:dd dev veth-a master vlan 5
bridge fdb show #received
bridge fdb flush dev bridge-0 brport veth-a nopermanent extern_learn
ip netns list-id target-nsid 5
"""
LISTS = {"programs": COMMANDS, "kinds": KINDS}

BIRD = """router id 192.0.2.1;
protocol device { scan time 1; }
protocol direct { ipv4; ipv6; }
protocol kernel { ipv4 { export all; import all; }; learn; scan time 1; }
protocol kernel { ipv6 { export all; import all; }; learn; scan time 1; }
protocol static { ipv4; route 198.51.110.0/24 via 192.0.2.254; route 198.51.111.0/24 blackhole; }
protocol static { ipv6; route 2001:db8:5::/48 via 2001:db8::ff; }
"""


def datagrams_of(trace):
    """Yields `sent` or `received`, and the bytes, of each datagram on a socket of route netlink."""
    sockets, way, data = set(), None, b""
    for line in [*trace.splitlines(), ""]:
        dump = DUMP.match(line)
        if dump:
            data += bytes.fromhex(dump[2].replace(" ", "")) if way else b""
            continue
        if line.startswith(" * "):
            continue
        if data:
            yield way, data
        call, opened, way, data = CALL.match(line), SOCKET.match(line), None, b""
        if opened:
            sockets.add(opened[1])
        elif call and call[2] in sockets:
            way = "sent" if call[1].startswith("send") else "received"


def main():
    name = sys.argv[1]
    events = socket.socket(socket.AF_NETLINK, socket.SOCK_RAW, 0)
    events.bind((0, 0))
    events.setblocking(False)
    events.setsockopt(socket.SOL_SOCKET, socket.SO_RCVBUF, 1 << 22)
    for group in GROUPS:
        events.setsockopt(NETLINK, ADD_MEMBERSHIP, group)
    rows = []
    with tempfile.TemporaryDirectory() as folder:
        bird = os.path.join(folder, "bird")
        with open(bird, "w") as file:
            file.write(BIRD)
        environment = {**os.environ, "GETIFADDRS": GETIFADDRS, "BIRD": bird}
        for line in LISTS[name].strip().split("\n"):
            words, _, kept = line.partition(" #")
            trace = os.path.join(folder, "trace")
            calls = "trace=socket,sendto,sendmsg,recvmsg,recvfrom"
            subprocess.run(["strace", "-f", "-qq", "-e", calls, "-e", "write=all", "-e", "read=all", "-o", trace,
                            "sh", "-c", words], env=environment, stdout=subprocess.DEVNULL)
            with open(trace, encoding="latin-1") as file:
                for way, data in datagrams_of(file.read()):
                    if way == "sent" or kept:
                        rows.append((words, way, data))
            time.sleep(0.02)
            while True:
                try:
                    rows.append((words, "event", events.recv(65536)))
                except BlockingIOError:
                    break
    with open(os.path.join(HERE, f"{name}.tsv"), "w") as file:
        file.write("# words of the program\tsent, received or event\tbytes\n")
        for words, way, data in rows:
            file.write(f"{words}\t{way}\t{data.hex()}\n")
    print(len(rows), "datagrams")


main()
