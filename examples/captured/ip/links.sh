#!/bin/sh
# Makes the links and addresses of the network namespace whose dumps of links and addresses are in frames.bin. Run it as
# root in new namespaces, which it fills: unshare -nm sh -c './links.sh; ../dump.py 18 16; ../dump.py 22 8'
set -u
if [ -n "$(ip -o addr)" ]; then
    echo "this network namespace is not new" >&2
    exit 2
fi
mount -t tmpfs none /etc/iproute2
r() { ip "$@" || echo "failed: ip $*" >&2; }
unshare -n sleep 9 &
other=$!
sleep 1
r link set lo up
# devices; a kernel may lack some of their kinds
r link add d0 type veth peer name d1
r link add here type veth peer name there netns $other
r link add br0 address 02:00:00:00:00:10 type bridge
r link add br1 type bridge
r link add link d0 name v10 type vlan id 10
r link add m0 link d0 type macvlan mode bridge
r link add m1 link d1 type macvtap
r link add vx type vxlan id 42 remote 10.1.0.9 dstport 4789 dev d0
r link add dummy7 type dummy
r link add bond0 type bond mode active-backup
r link add t4 type ipip local 10.1.0.1 remote 10.1.0.2
r link add s4 type sit local 10.1.0.1 remote 10.1.0.3
r link add t6 type ip6tnl local 2001:db8::1 remote 2001:db8::2
r link add i0 type ifb
r link add i1 type ifb
r link add "$(printf 'caf\351')" type ifb
r link add "$(printf '\001\177')" type ifb
r link add 'a\x' type ifb
r tuntap add tun7 mode tun
r tuntap add tap7 mode tap
# settings
r link set vx master br1
r link set i0 master br1
r link set d0 up
r link set br0 up
r link set br1 up
r link set here up
r link set i1 up
r link set tun7 up
r link set m0 up
r link set d1 up
r link set vx mtu 1400 txqueuelen 17
r link set m0 group 5
r link set i1 group 70000
r link set i0 txqueuelen 0
r link set i1 txqueuelen 4294967295
r link set d0 alias "uplink of rack 4"
r link set m0 alias 'a\b'
r link set br0 alias "$(printf 'caf\351')"
r link set br1 alias "$(printf 'caf\303\251')"
r link property add dev d0 altname eth-of-rack-4
r link property add dev d0 altname enp0s4 altname ens4
r link property add dev br0 altname "$(printf 'caf\303\251')"
r link set i1 mode dormant
r link set m0 multicast off
r link set m0 promisc on
r link set i1 allmulticast on
r link set tap7 arp off
r link set m0 address 02:00:00:00:00:77
r link set dev vx protodown on
tc qdisc add dev vx root pfifo limit 9
# addresses
a() { r addr add "$@"; }
a 10.1.0.1/24 dev d0
a 10.1.0.2/24 dev d0 label d0:2
a 10.1.0.3/24 brd + dev d0 metric 77 noprefixroute
a 10.1.0.4 peer 10.1.0.5/32 dev d0
a 10.1.1.1/24 brd 10.1.1.200 dev d0 scope link
a 10.1.2.1/24 dev d0 valid_lft 1000 preferred_lft 500
a 10.1.3.1/24 dev d0 valid_lft 1000 preferred_lft 0
a 10.1.4.1/24 dev d0 valid_lft forever preferred_lft 7
a 127.0.0.2/8 dev lo scope host
a 224.0.0.77/4 dev d1 autojoin
a 10.2.0.1/32 dev br1
a 10.3.0.1/24 dev tun7
a 10.4.0.1/24 dev "$(printf 'caf\351')"
a 2001:db8:1::1/64 dev d0
a 2001:db8:1::2/64 dev d0 nodad
a 2001:db8:1::3/64 dev d0 nodad home
a 2001:db8:1::4/64 dev d0 nodad valid_lft 3000 preferred_lft 2000
a 2001:db8:1::5/64 dev d0 nodad preferred_lft 0
a 2001:db8:1::6/64 dev d0 optimistic
a 2001:db8:1::7/64 dev d0 nodad mngtmpaddr noprefixroute
a 2001:db8:1::8 peer 2001:db8:1::9/128 dev d0 nodad metric 300
a ::1.2.3.4/128 dev d1 nodad
a ::1.2.0.0/128 dev d1 nodad
a ::0.0.1.2/128 dev d1 nodad
a ::ffff:1.2.3.4/128 dev d1 nodad
a fec0::1/64 dev d1 nodad
a 2001:db8:2::1/64 dev br1
