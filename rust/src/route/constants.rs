//! The message types, the fields of fixed headers and the kinds of attributes, made by c/tables from the tables of the Rattle library.

use super::{Field, Kind};

// Links, and `struct ifinfomsg`.
/// The message type `RTM_NEWLINK`.
pub const RTM_NEWLINK: u16 = 16;
/// The message type `RTM_DELLINK`.
pub const RTM_DELLINK: u16 = 17;
/// The message type `RTM_GETLINK`.
pub const RTM_GETLINK: u16 = 18;
/// The message type `RTM_SETLINK`.
pub const RTM_SETLINK: u16 = 19;
/// The field `ifi_family`.
pub const IFI_FAMILY: Field = Field(0x001);
/// The field `ifi_type`.
pub const IFI_TYPE: Field = Field(0x202);
/// The field `ifi_index`.
pub const IFI_INDEX: Field = Field(0x404);
/// The field `ifi_flags`.
pub const IFI_FLAGS: Field = Field(0x803);
/// The field `ifi_change`.
pub const IFI_CHANGE: Field = Field(0xc03);
/// The kind `IFLA_ADDRESS`.
pub const IFLA_ADDRESS: Kind = Kind(1);
/// The kind `IFLA_BROADCAST`.
pub const IFLA_BROADCAST: Kind = Kind(2);
/// The kind `IFLA_IFNAME`.
pub const IFLA_IFNAME: Kind = Kind(3);
/// The kind `IFLA_MTU`.
pub const IFLA_MTU: Kind = Kind(4);
/// The kind `IFLA_LINK`.
pub const IFLA_LINK: Kind = Kind(5);
/// The kind `IFLA_QDISC`.
pub const IFLA_QDISC: Kind = Kind(6);
/// The kind `IFLA_STATS`.
pub const IFLA_STATS: Kind = Kind(7);
/// The kind `IFLA_COST`.
pub const IFLA_COST: Kind = Kind(8);
/// The kind `IFLA_PRIORITY`.
pub const IFLA_PRIORITY: Kind = Kind(9);
/// The kind `IFLA_MASTER`.
pub const IFLA_MASTER: Kind = Kind(10);
/// The kind `IFLA_WIRELESS`.
pub const IFLA_WIRELESS: Kind = Kind(11);
/// The kind `IFLA_PROTINFO`.
pub const IFLA_PROTINFO: Kind = Kind(12);
/// The kind `IFLA_TXQLEN`.
pub const IFLA_TXQLEN: Kind = Kind(13);
/// The kind `IFLA_MAP`.
pub const IFLA_MAP: Kind = Kind(14);
/// The kind `IFLA_WEIGHT`.
pub const IFLA_WEIGHT: Kind = Kind(15);
/// The kind `IFLA_OPERSTATE`.
pub const IFLA_OPERSTATE: Kind = Kind(16);
/// The kind `IFLA_LINKMODE`.
pub const IFLA_LINKMODE: Kind = Kind(17);
/// The kind `IFLA_LINKINFO`.
pub const IFLA_LINKINFO: Kind = Kind(18);
/// The kind `IFLA_NET_NS_PID`.
pub const IFLA_NET_NS_PID: Kind = Kind(19);
/// The kind `IFLA_IFALIAS`.
pub const IFLA_IFALIAS: Kind = Kind(20);
/// The kind `IFLA_NUM_VF`.
pub const IFLA_NUM_VF: Kind = Kind(21);
/// The kind `IFLA_VFINFO_LIST`.
pub const IFLA_VFINFO_LIST: Kind = Kind(22);
/// The kind `IFLA_STATS64`.
pub const IFLA_STATS64: Kind = Kind(23);
/// The kind `IFLA_VF_PORTS`.
pub const IFLA_VF_PORTS: Kind = Kind(24);
/// The kind `IFLA_PORT_SELF`.
pub const IFLA_PORT_SELF: Kind = Kind(25);
/// The kind `IFLA_AF_SPEC`.
pub const IFLA_AF_SPEC: Kind = Kind(26);
/// The kind `IFLA_GROUP`.
pub const IFLA_GROUP: Kind = Kind(27);
/// The kind `IFLA_NET_NS_FD`.
pub const IFLA_NET_NS_FD: Kind = Kind(28);
/// The kind `IFLA_EXT_MASK`.
pub const IFLA_EXT_MASK: Kind = Kind(29);
/// The kind `IFLA_PROMISCUITY`.
pub const IFLA_PROMISCUITY: Kind = Kind(30);
/// The kind `IFLA_NUM_TX_QUEUES`.
pub const IFLA_NUM_TX_QUEUES: Kind = Kind(31);
/// The kind `IFLA_NUM_RX_QUEUES`.
pub const IFLA_NUM_RX_QUEUES: Kind = Kind(32);
/// The kind `IFLA_CARRIER`.
pub const IFLA_CARRIER: Kind = Kind(33);
/// The kind `IFLA_PHYS_PORT_ID`.
pub const IFLA_PHYS_PORT_ID: Kind = Kind(34);
/// The kind `IFLA_CARRIER_CHANGES`.
pub const IFLA_CARRIER_CHANGES: Kind = Kind(35);
/// The kind `IFLA_PHYS_SWITCH_ID`.
pub const IFLA_PHYS_SWITCH_ID: Kind = Kind(36);
/// The kind `IFLA_LINK_NETNSID`.
pub const IFLA_LINK_NETNSID: Kind = Kind(37);
/// The kind `IFLA_PHYS_PORT_NAME`.
pub const IFLA_PHYS_PORT_NAME: Kind = Kind(38);
/// The kind `IFLA_PROTO_DOWN`.
pub const IFLA_PROTO_DOWN: Kind = Kind(39);
/// The kind `IFLA_GSO_MAX_SEGS`.
pub const IFLA_GSO_MAX_SEGS: Kind = Kind(40);
/// The kind `IFLA_GSO_MAX_SIZE`.
pub const IFLA_GSO_MAX_SIZE: Kind = Kind(41);
/// The kind `IFLA_PAD`.
pub const IFLA_PAD: Kind = Kind(42);
/// The kind `IFLA_XDP`.
pub const IFLA_XDP: Kind = Kind(43);
/// The kind `IFLA_EVENT`.
pub const IFLA_EVENT: Kind = Kind(44);
/// The kind `IFLA_NEW_NETNSID`.
pub const IFLA_NEW_NETNSID: Kind = Kind(45);
/// The kind `IFLA_TARGET_NETNSID`.
pub const IFLA_TARGET_NETNSID: Kind = Kind(46);
/// The kind `IFLA_CARRIER_UP_COUNT`.
pub const IFLA_CARRIER_UP_COUNT: Kind = Kind(47);
/// The kind `IFLA_CARRIER_DOWN_COUNT`.
pub const IFLA_CARRIER_DOWN_COUNT: Kind = Kind(48);
/// The kind `IFLA_NEW_IFINDEX`.
pub const IFLA_NEW_IFINDEX: Kind = Kind(49);
/// The kind `IFLA_MIN_MTU`.
pub const IFLA_MIN_MTU: Kind = Kind(50);
/// The kind `IFLA_MAX_MTU`.
pub const IFLA_MAX_MTU: Kind = Kind(51);
/// The kind `IFLA_PROP_LIST`.
pub const IFLA_PROP_LIST: Kind = Kind(52);
/// The kind `IFLA_ALT_IFNAME`.
pub const IFLA_ALT_IFNAME: Kind = Kind(53);
/// The kind `IFLA_PERM_ADDRESS`.
pub const IFLA_PERM_ADDRESS: Kind = Kind(54);
/// The kind `IFLA_PROTO_DOWN_REASON`.
pub const IFLA_PROTO_DOWN_REASON: Kind = Kind(55);
/// The kind `IFLA_PARENT_DEV_NAME`.
pub const IFLA_PARENT_DEV_NAME: Kind = Kind(56);
/// The kind `IFLA_PARENT_DEV_BUS_NAME`.
pub const IFLA_PARENT_DEV_BUS_NAME: Kind = Kind(57);
/// The kind `IFLA_GRO_MAX_SIZE`.
pub const IFLA_GRO_MAX_SIZE: Kind = Kind(58);
/// The kind `IFLA_TSO_MAX_SIZE`.
pub const IFLA_TSO_MAX_SIZE: Kind = Kind(59);
/// The kind `IFLA_TSO_MAX_SEGS`.
pub const IFLA_TSO_MAX_SEGS: Kind = Kind(60);
/// The kind `IFLA_ALLMULTI`.
pub const IFLA_ALLMULTI: Kind = Kind(61);
/// The kind `IFLA_DEVLINK_PORT`.
pub const IFLA_DEVLINK_PORT: Kind = Kind(62);
/// The kind `IFLA_GSO_IPV4_MAX_SIZE`.
pub const IFLA_GSO_IPV4_MAX_SIZE: Kind = Kind(63);
/// The kind `IFLA_GRO_IPV4_MAX_SIZE`.
pub const IFLA_GRO_IPV4_MAX_SIZE: Kind = Kind(64);
/// The kind `IFLA_DPLL_PIN`.
pub const IFLA_DPLL_PIN: Kind = Kind(65);
/// The kind `IFLA_MAX_PACING_OFFLOAD_HORIZON`.
pub const IFLA_MAX_PACING_OFFLOAD_HORIZON: Kind = Kind(66);
/// The kind `IFLA_NETNS_IMMUTABLE`.
pub const IFLA_NETNS_IMMUTABLE: Kind = Kind(67);
/// The kind `IFLA_HEADROOM`.
pub const IFLA_HEADROOM: Kind = Kind(68);
/// The kind `IFLA_TAILROOM`.
pub const IFLA_TAILROOM: Kind = Kind(69);
/// The kind `IFLA_INFO_KIND`.
pub const IFLA_INFO_KIND: Kind = Kind(1);
/// The kind `IFLA_INFO_DATA`.
pub const IFLA_INFO_DATA: Kind = Kind(2);
/// The kind `IFLA_INFO_XSTATS`.
pub const IFLA_INFO_XSTATS: Kind = Kind(3);
/// The kind `IFLA_INFO_SLAVE_KIND`.
pub const IFLA_INFO_SLAVE_KIND: Kind = Kind(4);
/// The kind `IFLA_INFO_SLAVE_DATA`.
pub const IFLA_INFO_SLAVE_DATA: Kind = Kind(5);

// Kinds of links.
/// The kind `IFLA_BOND_MODE`.
pub const IFLA_BOND_MODE: Kind = Kind(1);
/// The kind `IFLA_BOND_ACTIVE_SLAVE`.
pub const IFLA_BOND_ACTIVE_SLAVE: Kind = Kind(2);
/// The kind `IFLA_BOND_MIIMON`.
pub const IFLA_BOND_MIIMON: Kind = Kind(3);
/// The kind `IFLA_BOND_UPDELAY`.
pub const IFLA_BOND_UPDELAY: Kind = Kind(4);
/// The kind `IFLA_BOND_DOWNDELAY`.
pub const IFLA_BOND_DOWNDELAY: Kind = Kind(5);
/// The kind `IFLA_BOND_USE_CARRIER`.
pub const IFLA_BOND_USE_CARRIER: Kind = Kind(6);
/// The kind `IFLA_BOND_ARP_INTERVAL`.
pub const IFLA_BOND_ARP_INTERVAL: Kind = Kind(7);
/// The kind `IFLA_BOND_ARP_IP_TARGET`.
pub const IFLA_BOND_ARP_IP_TARGET: Kind = Kind(8);
/// The kind `IFLA_BOND_ARP_VALIDATE`.
pub const IFLA_BOND_ARP_VALIDATE: Kind = Kind(9);
/// The kind `IFLA_BOND_ARP_ALL_TARGETS`.
pub const IFLA_BOND_ARP_ALL_TARGETS: Kind = Kind(10);
/// The kind `IFLA_BOND_PRIMARY`.
pub const IFLA_BOND_PRIMARY: Kind = Kind(11);
/// The kind `IFLA_BOND_PRIMARY_RESELECT`.
pub const IFLA_BOND_PRIMARY_RESELECT: Kind = Kind(12);
/// The kind `IFLA_BOND_FAIL_OVER_MAC`.
pub const IFLA_BOND_FAIL_OVER_MAC: Kind = Kind(13);
/// The kind `IFLA_BOND_XMIT_HASH_POLICY`.
pub const IFLA_BOND_XMIT_HASH_POLICY: Kind = Kind(14);
/// The kind `IFLA_BOND_RESEND_IGMP`.
pub const IFLA_BOND_RESEND_IGMP: Kind = Kind(15);
/// The kind `IFLA_BOND_NUM_PEER_NOTIF`.
pub const IFLA_BOND_NUM_PEER_NOTIF: Kind = Kind(16);
/// The kind `IFLA_BOND_ALL_SLAVES_ACTIVE`.
pub const IFLA_BOND_ALL_SLAVES_ACTIVE: Kind = Kind(17);
/// The kind `IFLA_BOND_MIN_LINKS`.
pub const IFLA_BOND_MIN_LINKS: Kind = Kind(18);
/// The kind `IFLA_BOND_LP_INTERVAL`.
pub const IFLA_BOND_LP_INTERVAL: Kind = Kind(19);
/// The kind `IFLA_BOND_PACKETS_PER_SLAVE`.
pub const IFLA_BOND_PACKETS_PER_SLAVE: Kind = Kind(20);
/// The kind `IFLA_BOND_AD_LACP_RATE`.
pub const IFLA_BOND_AD_LACP_RATE: Kind = Kind(21);
/// The kind `IFLA_BOND_AD_SELECT`.
pub const IFLA_BOND_AD_SELECT: Kind = Kind(22);
/// The kind `IFLA_BOND_AD_INFO`.
pub const IFLA_BOND_AD_INFO: Kind = Kind(23);
/// The kind `IFLA_BOND_AD_ACTOR_SYS_PRIO`.
pub const IFLA_BOND_AD_ACTOR_SYS_PRIO: Kind = Kind(24);
/// The kind `IFLA_BOND_AD_USER_PORT_KEY`.
pub const IFLA_BOND_AD_USER_PORT_KEY: Kind = Kind(25);
/// The kind `IFLA_BOND_AD_ACTOR_SYSTEM`.
pub const IFLA_BOND_AD_ACTOR_SYSTEM: Kind = Kind(26);
/// The kind `IFLA_BOND_TLB_DYNAMIC_LB`.
pub const IFLA_BOND_TLB_DYNAMIC_LB: Kind = Kind(27);
/// The kind `IFLA_BOND_PEER_NOTIF_DELAY`.
pub const IFLA_BOND_PEER_NOTIF_DELAY: Kind = Kind(28);
/// The kind `IFLA_BOND_AD_LACP_ACTIVE`.
pub const IFLA_BOND_AD_LACP_ACTIVE: Kind = Kind(29);
/// The kind `IFLA_BOND_MISSED_MAX`.
pub const IFLA_BOND_MISSED_MAX: Kind = Kind(30);
/// The kind `IFLA_BOND_NS_IP6_TARGET`.
pub const IFLA_BOND_NS_IP6_TARGET: Kind = Kind(31);
/// The kind `IFLA_BOND_COUPLED_CONTROL`.
pub const IFLA_BOND_COUPLED_CONTROL: Kind = Kind(32);
/// The kind `IFLA_BR_FORWARD_DELAY`.
pub const IFLA_BR_FORWARD_DELAY: Kind = Kind(1);
/// The kind `IFLA_BR_HELLO_TIME`.
pub const IFLA_BR_HELLO_TIME: Kind = Kind(2);
/// The kind `IFLA_BR_MAX_AGE`.
pub const IFLA_BR_MAX_AGE: Kind = Kind(3);
/// The kind `IFLA_BR_AGEING_TIME`.
pub const IFLA_BR_AGEING_TIME: Kind = Kind(4);
/// The kind `IFLA_BR_STP_STATE`.
pub const IFLA_BR_STP_STATE: Kind = Kind(5);
/// The kind `IFLA_BR_PRIORITY`.
pub const IFLA_BR_PRIORITY: Kind = Kind(6);
/// The kind `IFLA_BR_VLAN_FILTERING`.
pub const IFLA_BR_VLAN_FILTERING: Kind = Kind(7);
/// The kind `IFLA_BR_VLAN_PROTOCOL`.
pub const IFLA_BR_VLAN_PROTOCOL: Kind = Kind(8);
/// The kind `IFLA_BR_GROUP_FWD_MASK`.
pub const IFLA_BR_GROUP_FWD_MASK: Kind = Kind(9);
/// The kind `IFLA_BR_ROOT_ID`.
pub const IFLA_BR_ROOT_ID: Kind = Kind(10);
/// The kind `IFLA_BR_BRIDGE_ID`.
pub const IFLA_BR_BRIDGE_ID: Kind = Kind(11);
/// The kind `IFLA_BR_ROOT_PORT`.
pub const IFLA_BR_ROOT_PORT: Kind = Kind(12);
/// The kind `IFLA_BR_ROOT_PATH_COST`.
pub const IFLA_BR_ROOT_PATH_COST: Kind = Kind(13);
/// The kind `IFLA_BR_TOPOLOGY_CHANGE`.
pub const IFLA_BR_TOPOLOGY_CHANGE: Kind = Kind(14);
/// The kind `IFLA_BR_TOPOLOGY_CHANGE_DETECTED`.
pub const IFLA_BR_TOPOLOGY_CHANGE_DETECTED: Kind = Kind(15);
/// The kind `IFLA_BR_HELLO_TIMER`.
pub const IFLA_BR_HELLO_TIMER: Kind = Kind(16);
/// The kind `IFLA_BR_TCN_TIMER`.
pub const IFLA_BR_TCN_TIMER: Kind = Kind(17);
/// The kind `IFLA_BR_TOPOLOGY_CHANGE_TIMER`.
pub const IFLA_BR_TOPOLOGY_CHANGE_TIMER: Kind = Kind(18);
/// The kind `IFLA_BR_GC_TIMER`.
pub const IFLA_BR_GC_TIMER: Kind = Kind(19);
/// The kind `IFLA_BR_GROUP_ADDR`.
pub const IFLA_BR_GROUP_ADDR: Kind = Kind(20);
/// The kind `IFLA_BR_FDB_FLUSH`.
pub const IFLA_BR_FDB_FLUSH: Kind = Kind(21);
/// The kind `IFLA_BR_MCAST_ROUTER`.
pub const IFLA_BR_MCAST_ROUTER: Kind = Kind(22);
/// The kind `IFLA_BR_MCAST_SNOOPING`.
pub const IFLA_BR_MCAST_SNOOPING: Kind = Kind(23);
/// The kind `IFLA_BR_MCAST_QUERY_USE_IFADDR`.
pub const IFLA_BR_MCAST_QUERY_USE_IFADDR: Kind = Kind(24);
/// The kind `IFLA_BR_MCAST_QUERIER`.
pub const IFLA_BR_MCAST_QUERIER: Kind = Kind(25);
/// The kind `IFLA_BR_MCAST_HASH_ELASTICITY`.
pub const IFLA_BR_MCAST_HASH_ELASTICITY: Kind = Kind(26);
/// The kind `IFLA_BR_MCAST_HASH_MAX`.
pub const IFLA_BR_MCAST_HASH_MAX: Kind = Kind(27);
/// The kind `IFLA_BR_MCAST_LAST_MEMBER_CNT`.
pub const IFLA_BR_MCAST_LAST_MEMBER_CNT: Kind = Kind(28);
/// The kind `IFLA_BR_MCAST_STARTUP_QUERY_CNT`.
pub const IFLA_BR_MCAST_STARTUP_QUERY_CNT: Kind = Kind(29);
/// The kind `IFLA_BR_MCAST_LAST_MEMBER_INTVL`.
pub const IFLA_BR_MCAST_LAST_MEMBER_INTVL: Kind = Kind(30);
/// The kind `IFLA_BR_MCAST_MEMBERSHIP_INTVL`.
pub const IFLA_BR_MCAST_MEMBERSHIP_INTVL: Kind = Kind(31);
/// The kind `IFLA_BR_MCAST_QUERIER_INTVL`.
pub const IFLA_BR_MCAST_QUERIER_INTVL: Kind = Kind(32);
/// The kind `IFLA_BR_MCAST_QUERY_INTVL`.
pub const IFLA_BR_MCAST_QUERY_INTVL: Kind = Kind(33);
/// The kind `IFLA_BR_MCAST_QUERY_RESPONSE_INTVL`.
pub const IFLA_BR_MCAST_QUERY_RESPONSE_INTVL: Kind = Kind(34);
/// The kind `IFLA_BR_MCAST_STARTUP_QUERY_INTVL`.
pub const IFLA_BR_MCAST_STARTUP_QUERY_INTVL: Kind = Kind(35);
/// The kind `IFLA_BR_NF_CALL_IPTABLES`.
pub const IFLA_BR_NF_CALL_IPTABLES: Kind = Kind(36);
/// The kind `IFLA_BR_NF_CALL_IP6TABLES`.
pub const IFLA_BR_NF_CALL_IP6TABLES: Kind = Kind(37);
/// The kind `IFLA_BR_NF_CALL_ARPTABLES`.
pub const IFLA_BR_NF_CALL_ARPTABLES: Kind = Kind(38);
/// The kind `IFLA_BR_VLAN_DEFAULT_PVID`.
pub const IFLA_BR_VLAN_DEFAULT_PVID: Kind = Kind(39);
/// The kind `IFLA_BR_VLAN_STATS_ENABLED`.
pub const IFLA_BR_VLAN_STATS_ENABLED: Kind = Kind(41);
/// The kind `IFLA_BR_MCAST_STATS_ENABLED`.
pub const IFLA_BR_MCAST_STATS_ENABLED: Kind = Kind(42);
/// The kind `IFLA_BR_MCAST_IGMP_VERSION`.
pub const IFLA_BR_MCAST_IGMP_VERSION: Kind = Kind(43);
/// The kind `IFLA_BR_MCAST_MLD_VERSION`.
pub const IFLA_BR_MCAST_MLD_VERSION: Kind = Kind(44);
/// The kind `IFLA_BR_VLAN_STATS_PER_PORT`.
pub const IFLA_BR_VLAN_STATS_PER_PORT: Kind = Kind(45);
/// The kind `IFLA_BR_MULTI_BOOLOPT`.
pub const IFLA_BR_MULTI_BOOLOPT: Kind = Kind(46);
/// The kind `IFLA_BR_MCAST_QUERIER_STATE`.
pub const IFLA_BR_MCAST_QUERIER_STATE: Kind = Kind(47);
/// The kind `IFLA_BR_FDB_N_LEARNED`.
pub const IFLA_BR_FDB_N_LEARNED: Kind = Kind(48);
/// The kind `IFLA_BR_FDB_MAX_LEARNED`.
pub const IFLA_BR_FDB_MAX_LEARNED: Kind = Kind(49);
/// The kind `IFLA_GRE_LINK`.
pub const IFLA_GRE_LINK: Kind = Kind(1);
/// The kind `IFLA_GRE_IFLAGS`.
pub const IFLA_GRE_IFLAGS: Kind = Kind(2);
/// The kind `IFLA_GRE_OFLAGS`.
pub const IFLA_GRE_OFLAGS: Kind = Kind(3);
/// The kind `IFLA_GRE_IKEY`.
pub const IFLA_GRE_IKEY: Kind = Kind(4);
/// The kind `IFLA_GRE_OKEY`.
pub const IFLA_GRE_OKEY: Kind = Kind(5);
/// The kind `IFLA_GRE_LOCAL`.
pub const IFLA_GRE_LOCAL: Kind = Kind(6);
/// The kind `IFLA_GRE_REMOTE`.
pub const IFLA_GRE_REMOTE: Kind = Kind(7);
/// The kind `IFLA_GRE_TTL`.
pub const IFLA_GRE_TTL: Kind = Kind(8);
/// The kind `IFLA_GRE_TOS`.
pub const IFLA_GRE_TOS: Kind = Kind(9);
/// The kind `IFLA_GRE_PMTUDISC`.
pub const IFLA_GRE_PMTUDISC: Kind = Kind(10);
/// The kind `IFLA_GRE_ENCAP_TYPE`.
pub const IFLA_GRE_ENCAP_TYPE: Kind = Kind(14);
/// The kind `IFLA_GRE_ENCAP_FLAGS`.
pub const IFLA_GRE_ENCAP_FLAGS: Kind = Kind(15);
/// The kind `IFLA_GRE_ENCAP_SPORT`.
pub const IFLA_GRE_ENCAP_SPORT: Kind = Kind(16);
/// The kind `IFLA_GRE_ENCAP_DPORT`.
pub const IFLA_GRE_ENCAP_DPORT: Kind = Kind(17);
/// The kind `IFLA_GRE_COLLECT_METADATA`.
pub const IFLA_GRE_COLLECT_METADATA: Kind = Kind(18);
/// The kind `IFLA_GRE_IGNORE_DF`.
pub const IFLA_GRE_IGNORE_DF: Kind = Kind(19);
/// The kind `IFLA_GRE_FWMARK`.
pub const IFLA_GRE_FWMARK: Kind = Kind(20);
/// The kind `IFLA_IPTUN_LINK`.
pub const IFLA_IPTUN_LINK: Kind = Kind(1);
/// The kind `IFLA_IPTUN_LOCAL`.
pub const IFLA_IPTUN_LOCAL: Kind = Kind(2);
/// The kind `IFLA_IPTUN_REMOTE`.
pub const IFLA_IPTUN_REMOTE: Kind = Kind(3);
/// The kind `IFLA_IPTUN_TTL`.
pub const IFLA_IPTUN_TTL: Kind = Kind(4);
/// The kind `IFLA_IPTUN_TOS`.
pub const IFLA_IPTUN_TOS: Kind = Kind(5);
/// The kind `IFLA_IPTUN_FLAGS`.
pub const IFLA_IPTUN_FLAGS: Kind = Kind(8);
/// The kind `IFLA_IPTUN_PROTO`.
pub const IFLA_IPTUN_PROTO: Kind = Kind(9);
/// The kind `IFLA_IPTUN_PMTUDISC`.
pub const IFLA_IPTUN_PMTUDISC: Kind = Kind(10);
/// The kind `IFLA_IPTUN_6RD_PREFIX`.
pub const IFLA_IPTUN_6RD_PREFIX: Kind = Kind(11);
/// The kind `IFLA_IPTUN_6RD_RELAY_PREFIX`.
pub const IFLA_IPTUN_6RD_RELAY_PREFIX: Kind = Kind(12);
/// The kind `IFLA_IPTUN_6RD_PREFIXLEN`.
pub const IFLA_IPTUN_6RD_PREFIXLEN: Kind = Kind(13);
/// The kind `IFLA_IPTUN_6RD_RELAY_PREFIXLEN`.
pub const IFLA_IPTUN_6RD_RELAY_PREFIXLEN: Kind = Kind(14);
/// The kind `IFLA_IPTUN_ENCAP_TYPE`.
pub const IFLA_IPTUN_ENCAP_TYPE: Kind = Kind(15);
/// The kind `IFLA_IPTUN_ENCAP_FLAGS`.
pub const IFLA_IPTUN_ENCAP_FLAGS: Kind = Kind(16);
/// The kind `IFLA_IPTUN_ENCAP_SPORT`.
pub const IFLA_IPTUN_ENCAP_SPORT: Kind = Kind(17);
/// The kind `IFLA_IPTUN_ENCAP_DPORT`.
pub const IFLA_IPTUN_ENCAP_DPORT: Kind = Kind(18);
/// The kind `IFLA_IPTUN_COLLECT_METADATA`.
pub const IFLA_IPTUN_COLLECT_METADATA: Kind = Kind(19);
/// The kind `IFLA_IPTUN_FWMARK`.
pub const IFLA_IPTUN_FWMARK: Kind = Kind(20);
/// The kind `IFLA_MACVLAN_MODE`.
pub const IFLA_MACVLAN_MODE: Kind = Kind(1);
/// The kind `IFLA_MACVLAN_FLAGS`.
pub const IFLA_MACVLAN_FLAGS: Kind = Kind(2);
/// The kind `IFLA_MACVLAN_MACADDR_MODE`.
pub const IFLA_MACVLAN_MACADDR_MODE: Kind = Kind(3);
/// The kind `IFLA_MACVLAN_MACADDR`.
pub const IFLA_MACVLAN_MACADDR: Kind = Kind(4);
/// The kind `IFLA_MACVLAN_MACADDR_DATA`.
pub const IFLA_MACVLAN_MACADDR_DATA: Kind = Kind(5);
/// The kind `IFLA_MACVLAN_MACADDR_COUNT`.
pub const IFLA_MACVLAN_MACADDR_COUNT: Kind = Kind(6);
/// The kind `IFLA_MACVLAN_BC_QUEUE_LEN`.
pub const IFLA_MACVLAN_BC_QUEUE_LEN: Kind = Kind(7);
/// The kind `IFLA_MACVLAN_BC_QUEUE_LEN_USED`.
pub const IFLA_MACVLAN_BC_QUEUE_LEN_USED: Kind = Kind(8);
/// The kind `IFLA_MACVLAN_BC_CUTOFF`.
pub const IFLA_MACVLAN_BC_CUTOFF: Kind = Kind(9);
/// The kind `VETH_INFO_PEER`.
pub const VETH_INFO_PEER: Kind = Kind(1);
/// The kind `IFLA_VLAN_ID`.
pub const IFLA_VLAN_ID: Kind = Kind(1);
/// The kind `IFLA_VLAN_FLAGS`.
pub const IFLA_VLAN_FLAGS: Kind = Kind(2);
/// The kind `IFLA_VLAN_EGRESS_QOS`.
pub const IFLA_VLAN_EGRESS_QOS: Kind = Kind(3);
/// The kind `IFLA_VLAN_INGRESS_QOS`.
pub const IFLA_VLAN_INGRESS_QOS: Kind = Kind(4);
/// The kind `IFLA_VLAN_PROTOCOL`.
pub const IFLA_VLAN_PROTOCOL: Kind = Kind(5);
/// The kind `IFLA_VXLAN_ID`.
pub const IFLA_VXLAN_ID: Kind = Kind(1);
/// The kind `IFLA_VXLAN_GROUP`.
pub const IFLA_VXLAN_GROUP: Kind = Kind(2);
/// The kind `IFLA_VXLAN_LINK`.
pub const IFLA_VXLAN_LINK: Kind = Kind(3);
/// The kind `IFLA_VXLAN_LOCAL`.
pub const IFLA_VXLAN_LOCAL: Kind = Kind(4);
/// The kind `IFLA_VXLAN_TTL`.
pub const IFLA_VXLAN_TTL: Kind = Kind(5);
/// The kind `IFLA_VXLAN_TOS`.
pub const IFLA_VXLAN_TOS: Kind = Kind(6);
/// The kind `IFLA_VXLAN_LEARNING`.
pub const IFLA_VXLAN_LEARNING: Kind = Kind(7);
/// The kind `IFLA_VXLAN_AGEING`.
pub const IFLA_VXLAN_AGEING: Kind = Kind(8);
/// The kind `IFLA_VXLAN_LIMIT`.
pub const IFLA_VXLAN_LIMIT: Kind = Kind(9);
/// The kind `IFLA_VXLAN_PORT_RANGE`.
pub const IFLA_VXLAN_PORT_RANGE: Kind = Kind(10);
/// The kind `IFLA_VXLAN_PROXY`.
pub const IFLA_VXLAN_PROXY: Kind = Kind(11);
/// The kind `IFLA_VXLAN_RSC`.
pub const IFLA_VXLAN_RSC: Kind = Kind(12);
/// The kind `IFLA_VXLAN_L2MISS`.
pub const IFLA_VXLAN_L2MISS: Kind = Kind(13);
/// The kind `IFLA_VXLAN_L3MISS`.
pub const IFLA_VXLAN_L3MISS: Kind = Kind(14);
/// The kind `IFLA_VXLAN_PORT`.
pub const IFLA_VXLAN_PORT: Kind = Kind(15);
/// The kind `IFLA_VXLAN_GROUP6`.
pub const IFLA_VXLAN_GROUP6: Kind = Kind(16);
/// The kind `IFLA_VXLAN_LOCAL6`.
pub const IFLA_VXLAN_LOCAL6: Kind = Kind(17);
/// The kind `IFLA_VXLAN_UDP_CSUM`.
pub const IFLA_VXLAN_UDP_CSUM: Kind = Kind(18);
/// The kind `IFLA_VXLAN_UDP_ZERO_CSUM6_TX`.
pub const IFLA_VXLAN_UDP_ZERO_CSUM6_TX: Kind = Kind(19);
/// The kind `IFLA_VXLAN_UDP_ZERO_CSUM6_RX`.
pub const IFLA_VXLAN_UDP_ZERO_CSUM6_RX: Kind = Kind(20);
/// The kind `IFLA_VXLAN_REMCSUM_TX`.
pub const IFLA_VXLAN_REMCSUM_TX: Kind = Kind(21);
/// The kind `IFLA_VXLAN_REMCSUM_RX`.
pub const IFLA_VXLAN_REMCSUM_RX: Kind = Kind(22);
/// The kind `IFLA_VXLAN_GBP`.
pub const IFLA_VXLAN_GBP: Kind = Kind(23);
/// The kind `IFLA_VXLAN_REMCSUM_NOPARTIAL`.
pub const IFLA_VXLAN_REMCSUM_NOPARTIAL: Kind = Kind(24);
/// The kind `IFLA_VXLAN_COLLECT_METADATA`.
pub const IFLA_VXLAN_COLLECT_METADATA: Kind = Kind(25);
/// The kind `IFLA_VXLAN_LABEL`.
pub const IFLA_VXLAN_LABEL: Kind = Kind(26);
/// The kind `IFLA_VXLAN_GPE`.
pub const IFLA_VXLAN_GPE: Kind = Kind(27);
/// The kind `IFLA_VXLAN_TTL_INHERIT`.
pub const IFLA_VXLAN_TTL_INHERIT: Kind = Kind(28);
/// The kind `IFLA_VXLAN_DF`.
pub const IFLA_VXLAN_DF: Kind = Kind(29);
/// The kind `IFLA_VXLAN_VNIFILTER`.
pub const IFLA_VXLAN_VNIFILTER: Kind = Kind(30);
/// The kind `IFLA_VXLAN_LOCALBYPASS`.
pub const IFLA_VXLAN_LOCALBYPASS: Kind = Kind(31);
/// The kind `IFLA_VXLAN_LABEL_POLICY`.
pub const IFLA_VXLAN_LABEL_POLICY: Kind = Kind(32);
/// The kind `IFLA_VXLAN_RESERVED_BITS`.
pub const IFLA_VXLAN_RESERVED_BITS: Kind = Kind(33);
/// The kind `IFLA_TUN_OWNER`.
pub const IFLA_TUN_OWNER: Kind = Kind(1);
/// The kind `IFLA_TUN_GROUP`.
pub const IFLA_TUN_GROUP: Kind = Kind(2);
/// The kind `IFLA_TUN_TYPE`.
pub const IFLA_TUN_TYPE: Kind = Kind(3);
/// The kind `IFLA_TUN_PI`.
pub const IFLA_TUN_PI: Kind = Kind(4);
/// The kind `IFLA_TUN_VNET_HDR`.
pub const IFLA_TUN_VNET_HDR: Kind = Kind(5);
/// The kind `IFLA_TUN_PERSIST`.
pub const IFLA_TUN_PERSIST: Kind = Kind(6);
/// The kind `IFLA_TUN_MULTI_QUEUE`.
pub const IFLA_TUN_MULTI_QUEUE: Kind = Kind(7);
/// The kind `IFLA_TUN_NUM_QUEUES`.
pub const IFLA_TUN_NUM_QUEUES: Kind = Kind(8);
/// The kind `IFLA_TUN_NUM_DISABLED_QUEUES`.
pub const IFLA_TUN_NUM_DISABLED_QUEUES: Kind = Kind(9);

// Addresses, and `struct ifaddrmsg`.
/// The message type `RTM_NEWADDR`.
pub const RTM_NEWADDR: u16 = 20;
/// The message type `RTM_DELADDR`.
pub const RTM_DELADDR: u16 = 21;
/// The message type `RTM_GETADDR`.
pub const RTM_GETADDR: u16 = 22;
/// The field `ifa_family`.
pub const IFA_FAMILY: Field = Field(0x001);
/// The field `ifa_prefixlen`.
pub const IFA_PREFIXLEN: Field = Field(0x101);
/// The field `ifa_flags`.
pub const IFA_LOW_FLAGS: Field = Field(0x201);
/// The field `ifa_scope`.
pub const IFA_SCOPE: Field = Field(0x301);
/// The field `ifa_index`.
pub const IFA_INDEX: Field = Field(0x403);
/// The kind `IFA_ADDRESS`.
pub const IFA_ADDRESS: Kind = Kind(1);
/// The kind `IFA_LOCAL`.
pub const IFA_LOCAL: Kind = Kind(2);
/// The kind `IFA_LABEL`.
pub const IFA_LABEL: Kind = Kind(3);
/// The kind `IFA_BROADCAST`.
pub const IFA_BROADCAST: Kind = Kind(4);
/// The kind `IFA_ANYCAST`.
pub const IFA_ANYCAST: Kind = Kind(5);
/// The kind `IFA_CACHEINFO`.
pub const IFA_CACHEINFO: Kind = Kind(6);
/// The kind `IFA_MULTICAST`.
pub const IFA_MULTICAST: Kind = Kind(7);
/// The kind `IFA_FLAGS`.
pub const IFA_FLAGS: Kind = Kind(8);
/// The kind `IFA_RT_PRIORITY`.
pub const IFA_RT_PRIORITY: Kind = Kind(9);
/// The kind `IFA_TARGET_NETNSID`.
pub const IFA_TARGET_NETNSID: Kind = Kind(10);
/// The kind `IFA_PROTO`.
pub const IFA_PROTO: Kind = Kind(11);

// Neighbours, and `struct ndmsg`.
/// The message type `RTM_NEWNEIGH`.
pub const RTM_NEWNEIGH: u16 = 28;
/// The message type `RTM_DELNEIGH`.
pub const RTM_DELNEIGH: u16 = 29;
/// The message type `RTM_GETNEIGH`.
pub const RTM_GETNEIGH: u16 = 30;
/// The field `ndm_family`.
pub const NDM_FAMILY: Field = Field(0x001);
/// The field `ndm_ifindex`.
pub const NDM_IFINDEX: Field = Field(0x404);
/// The field `ndm_state`.
pub const NDM_STATE: Field = Field(0x802);
/// The field `ndm_flags`.
pub const NDM_FLAGS: Field = Field(0xa01);
/// The field `ndm_type`.
pub const NDM_TYPE: Field = Field(0xb01);
/// The kind `NDA_DST`.
pub const NDA_DST: Kind = Kind(1);
/// The kind `NDA_LLADDR`.
pub const NDA_LLADDR: Kind = Kind(2);
/// The kind `NDA_CACHEINFO`.
pub const NDA_CACHEINFO: Kind = Kind(3);
/// The kind `NDA_PROBES`.
pub const NDA_PROBES: Kind = Kind(4);
/// The kind `NDA_VLAN`.
pub const NDA_VLAN: Kind = Kind(5);
/// The kind `NDA_PORT`.
pub const NDA_PORT: Kind = Kind(6);
/// The kind `NDA_VNI`.
pub const NDA_VNI: Kind = Kind(7);
/// The kind `NDA_IFINDEX`.
pub const NDA_IFINDEX: Kind = Kind(8);
/// The kind `NDA_MASTER`.
pub const NDA_MASTER: Kind = Kind(9);
/// The kind `NDA_LINK_NETNSID`.
pub const NDA_LINK_NETNSID: Kind = Kind(10);
/// The kind `NDA_SRC_VNI`.
pub const NDA_SRC_VNI: Kind = Kind(11);
/// The kind `NDA_PROTOCOL`.
pub const NDA_PROTOCOL: Kind = Kind(12);
/// The kind `NDA_NH_ID`.
pub const NDA_NH_ID: Kind = Kind(13);
/// The kind `NDA_FDB_EXT_ATTRS`.
pub const NDA_FDB_EXT_ATTRS: Kind = Kind(14);
/// The kind `NDA_FLAGS_EXT`.
pub const NDA_FLAGS_EXT: Kind = Kind(15);
/// The kind `NDA_NDM_STATE_MASK`.
pub const NDA_NDM_STATE_MASK: Kind = Kind(16);
/// The kind `NDA_NDM_FLAGS_MASK`.
pub const NDA_NDM_FLAGS_MASK: Kind = Kind(17);

// Neighbour tables, and `struct ndtmsg`.
/// The message type `RTM_NEWNEIGHTBL`.
pub const RTM_NEWNEIGHTBL: u16 = 64;
/// The message type `RTM_GETNEIGHTBL`.
pub const RTM_GETNEIGHTBL: u16 = 66;
/// The message type `RTM_SETNEIGHTBL`.
pub const RTM_SETNEIGHTBL: u16 = 67;
/// The field `ndtm_family`.
pub const NDTM_FAMILY: Field = Field(0x001);
/// The kind `NDTA_NAME`.
pub const NDTA_NAME: Kind = Kind(1);
/// The kind `NDTA_THRESH1`.
pub const NDTA_THRESH1: Kind = Kind(2);
/// The kind `NDTA_THRESH2`.
pub const NDTA_THRESH2: Kind = Kind(3);
/// The kind `NDTA_THRESH3`.
pub const NDTA_THRESH3: Kind = Kind(4);
/// The kind `NDTA_CONFIG`.
pub const NDTA_CONFIG: Kind = Kind(5);
/// The kind `NDTA_PARMS`.
pub const NDTA_PARMS: Kind = Kind(6);
/// The kind `NDTA_STATS`.
pub const NDTA_STATS: Kind = Kind(7);
/// The kind `NDTA_GC_INTERVAL`.
pub const NDTA_GC_INTERVAL: Kind = Kind(8);
/// The kind `NDTPA_IFINDEX`.
pub const NDTPA_IFINDEX: Kind = Kind(1);
/// The kind `NDTPA_REFCNT`.
pub const NDTPA_REFCNT: Kind = Kind(2);
/// The kind `NDTPA_REACHABLE_TIME`.
pub const NDTPA_REACHABLE_TIME: Kind = Kind(3);
/// The kind `NDTPA_BASE_REACHABLE_TIME`.
pub const NDTPA_BASE_REACHABLE_TIME: Kind = Kind(4);
/// The kind `NDTPA_RETRANS_TIME`.
pub const NDTPA_RETRANS_TIME: Kind = Kind(5);
/// The kind `NDTPA_GC_STALETIME`.
pub const NDTPA_GC_STALETIME: Kind = Kind(6);
/// The kind `NDTPA_DELAY_PROBE_TIME`.
pub const NDTPA_DELAY_PROBE_TIME: Kind = Kind(7);
/// The kind `NDTPA_QUEUE_LEN`.
pub const NDTPA_QUEUE_LEN: Kind = Kind(8);
/// The kind `NDTPA_APP_PROBES`.
pub const NDTPA_APP_PROBES: Kind = Kind(9);
/// The kind `NDTPA_UCAST_PROBES`.
pub const NDTPA_UCAST_PROBES: Kind = Kind(10);
/// The kind `NDTPA_MCAST_PROBES`.
pub const NDTPA_MCAST_PROBES: Kind = Kind(11);
/// The kind `NDTPA_ANYCAST_DELAY`.
pub const NDTPA_ANYCAST_DELAY: Kind = Kind(12);
/// The kind `NDTPA_PROXY_DELAY`.
pub const NDTPA_PROXY_DELAY: Kind = Kind(13);
/// The kind `NDTPA_PROXY_QLEN`.
pub const NDTPA_PROXY_QLEN: Kind = Kind(14);
/// The kind `NDTPA_LOCKTIME`.
pub const NDTPA_LOCKTIME: Kind = Kind(15);
/// The kind `NDTPA_QUEUE_LENBYTES`.
pub const NDTPA_QUEUE_LENBYTES: Kind = Kind(16);
/// The kind `NDTPA_MCAST_REPROBES`.
pub const NDTPA_MCAST_REPROBES: Kind = Kind(17);
/// The kind `NDTPA_INTERVAL_PROBE_TIME_MS`.
pub const NDTPA_INTERVAL_PROBE_TIME_MS: Kind = Kind(19);

// Routes, and `struct rtmsg`.
/// The message type `RTM_NEWROUTE`.
pub const RTM_NEWROUTE: u16 = 24;
/// The message type `RTM_DELROUTE`.
pub const RTM_DELROUTE: u16 = 25;
/// The message type `RTM_GETROUTE`.
pub const RTM_GETROUTE: u16 = 26;
/// The field `rtm_family`.
pub const RTM_FAMILY: Field = Field(0x001);
/// The field `rtm_dst_len`.
pub const RTM_DST_LEN: Field = Field(0x101);
/// The field `rtm_src_len`.
pub const RTM_SRC_LEN: Field = Field(0x201);
/// The field `rtm_tos`.
pub const RTM_TOS: Field = Field(0x301);
/// The field `rtm_table`.
pub const RTM_TABLE: Field = Field(0x401);
/// The field `rtm_protocol`.
pub const RTM_PROTOCOL: Field = Field(0x501);
/// The field `rtm_scope`.
pub const RTM_SCOPE: Field = Field(0x601);
/// The field `rtm_type`.
pub const RTM_TYPE: Field = Field(0x701);
/// The field `rtm_flags`.
pub const RTM_FLAGS: Field = Field(0x803);
/// The field `rtnh_ifindex`.
pub const RTNH_IFINDEX: Field = Field(0x004);
/// The kind `RTA_DST`.
pub const RTA_DST: Kind = Kind(1);
/// The kind `RTA_SRC`.
pub const RTA_SRC: Kind = Kind(2);
/// The kind `RTA_IIF`.
pub const RTA_IIF: Kind = Kind(3);
/// The kind `RTA_OIF`.
pub const RTA_OIF: Kind = Kind(4);
/// The kind `RTA_GATEWAY`.
pub const RTA_GATEWAY: Kind = Kind(5);
/// The kind `RTA_PRIORITY`.
pub const RTA_PRIORITY: Kind = Kind(6);
/// The kind `RTA_PREFSRC`.
pub const RTA_PREFSRC: Kind = Kind(7);
/// The kind `RTA_METRICS`.
pub const RTA_METRICS: Kind = Kind(8);
/// The kind `RTA_MULTIPATH`.
pub const RTA_MULTIPATH: Kind = Kind(9);
/// The kind `RTA_FLOW`.
pub const RTA_FLOW: Kind = Kind(11);
/// The kind `RTA_CACHEINFO`.
pub const RTA_CACHEINFO: Kind = Kind(12);
/// The kind `RTA_TABLE`.
pub const RTA_TABLE: Kind = Kind(15);
/// The kind `RTA_MARK`.
pub const RTA_MARK: Kind = Kind(16);
/// The kind `RTA_MFC_STATS`.
pub const RTA_MFC_STATS: Kind = Kind(17);
/// The kind `RTA_VIA`.
pub const RTA_VIA: Kind = Kind(18);
/// The kind `RTA_NEWDST`.
pub const RTA_NEWDST: Kind = Kind(19);
/// The kind `RTA_PREF`.
pub const RTA_PREF: Kind = Kind(20);
/// The kind `RTA_ENCAP_TYPE`.
pub const RTA_ENCAP_TYPE: Kind = Kind(21);
/// The kind `RTA_ENCAP`.
pub const RTA_ENCAP: Kind = Kind(22);
/// The kind `RTA_EXPIRES`.
pub const RTA_EXPIRES: Kind = Kind(23);
/// The kind `RTA_UID`.
pub const RTA_UID: Kind = Kind(25);
/// The kind `RTA_TTL_PROPAGATE`.
pub const RTA_TTL_PROPAGATE: Kind = Kind(26);
/// The kind `RTA_IP_PROTO`.
pub const RTA_IP_PROTO: Kind = Kind(27);
/// The kind `RTA_SPORT`.
pub const RTA_SPORT: Kind = Kind(28);
/// The kind `RTA_DPORT`.
pub const RTA_DPORT: Kind = Kind(29);
/// The kind `RTA_NH_ID`.
pub const RTA_NH_ID: Kind = Kind(30);
/// The kind `RTAX_LOCK`.
pub const RTAX_LOCK: Kind = Kind(1);
/// The kind `RTAX_MTU`.
pub const RTAX_MTU: Kind = Kind(2);
/// The kind `RTAX_WINDOW`.
pub const RTAX_WINDOW: Kind = Kind(3);
/// The kind `RTAX_RTT`.
pub const RTAX_RTT: Kind = Kind(4);
/// The kind `RTAX_RTTVAR`.
pub const RTAX_RTTVAR: Kind = Kind(5);
/// The kind `RTAX_SSTHRESH`.
pub const RTAX_SSTHRESH: Kind = Kind(6);
/// The kind `RTAX_CWND`.
pub const RTAX_CWND: Kind = Kind(7);
/// The kind `RTAX_ADVMSS`.
pub const RTAX_ADVMSS: Kind = Kind(8);
/// The kind `RTAX_REORDERING`.
pub const RTAX_REORDERING: Kind = Kind(9);
/// The kind `RTAX_HOPLIMIT`.
pub const RTAX_HOPLIMIT: Kind = Kind(10);
/// The kind `RTAX_INITCWND`.
pub const RTAX_INITCWND: Kind = Kind(11);
/// The kind `RTAX_FEATURES`.
pub const RTAX_FEATURES: Kind = Kind(12);
/// The kind `RTAX_RTO_MIN`.
pub const RTAX_RTO_MIN: Kind = Kind(13);
/// The kind `RTAX_INITRWND`.
pub const RTAX_INITRWND: Kind = Kind(14);
/// The kind `RTAX_QUICKACK`.
pub const RTAX_QUICKACK: Kind = Kind(15);
/// The kind `RTAX_CC_ALGO`.
pub const RTAX_CC_ALGO: Kind = Kind(16);
/// The kind `RTAX_FASTOPEN_NO_COOKIE`.
pub const RTAX_FASTOPEN_NO_COOKIE: Kind = Kind(17);

// Encapsulations of routes.
/// The number `LWTUNNEL_ENCAP_MPLS`.
pub const LWTUNNEL_ENCAP_MPLS: u16 = 1;
/// The number `LWTUNNEL_ENCAP_IP`.
pub const LWTUNNEL_ENCAP_IP: u16 = 2;
/// The number `LWTUNNEL_ENCAP_ILA`.
pub const LWTUNNEL_ENCAP_ILA: u16 = 3;
/// The number `LWTUNNEL_ENCAP_IP6`.
pub const LWTUNNEL_ENCAP_IP6: u16 = 4;
/// The number `LWTUNNEL_ENCAP_SEG6`.
pub const LWTUNNEL_ENCAP_SEG6: u16 = 5;
/// The number `LWTUNNEL_ENCAP_BPF`.
pub const LWTUNNEL_ENCAP_BPF: u16 = 6;
/// The number `LWTUNNEL_ENCAP_SEG6_LOCAL`.
pub const LWTUNNEL_ENCAP_SEG6_LOCAL: u16 = 7;
/// The number `LWTUNNEL_ENCAP_RPL`.
pub const LWTUNNEL_ENCAP_RPL: u16 = 8;
/// The number `LWTUNNEL_ENCAP_IOAM6`.
pub const LWTUNNEL_ENCAP_IOAM6: u16 = 9;
/// The number `LWTUNNEL_ENCAP_XFRM`.
pub const LWTUNNEL_ENCAP_XFRM: u16 = 10;
/// The kind `MPLS_IPTUNNEL_DST`.
pub const MPLS_IPTUNNEL_DST: Kind = Kind(1);
/// The kind `MPLS_IPTUNNEL_TTL`.
pub const MPLS_IPTUNNEL_TTL: Kind = Kind(2);
/// The kind `LWTUNNEL_IP_ID`.
pub const LWTUNNEL_IP_ID: Kind = Kind(1);
/// The kind `LWTUNNEL_IP_DST`.
pub const LWTUNNEL_IP_DST: Kind = Kind(2);
/// The kind `LWTUNNEL_IP_SRC`.
pub const LWTUNNEL_IP_SRC: Kind = Kind(3);
/// The kind `LWTUNNEL_IP_TTL`.
pub const LWTUNNEL_IP_TTL: Kind = Kind(4);
/// The kind `LWTUNNEL_IP_TOS`.
pub const LWTUNNEL_IP_TOS: Kind = Kind(5);
/// The kind `LWTUNNEL_IP_FLAGS`.
pub const LWTUNNEL_IP_FLAGS: Kind = Kind(6);
/// The kind `LWTUNNEL_IP_OPTS`.
pub const LWTUNNEL_IP_OPTS: Kind = Kind(8);
/// The kind `ILA_ATTR_LOCATOR`.
pub const ILA_ATTR_LOCATOR: Kind = Kind(1);
/// The kind `ILA_ATTR_CSUM_MODE`.
pub const ILA_ATTR_CSUM_MODE: Kind = Kind(7);
/// The kind `ILA_ATTR_IDENT_TYPE`.
pub const ILA_ATTR_IDENT_TYPE: Kind = Kind(8);
/// The kind `ILA_ATTR_HOOK_TYPE`.
pub const ILA_ATTR_HOOK_TYPE: Kind = Kind(9);
/// The kind `LWTUNNEL_IP6_ID`.
pub const LWTUNNEL_IP6_ID: Kind = Kind(1);
/// The kind `LWTUNNEL_IP6_DST`.
pub const LWTUNNEL_IP6_DST: Kind = Kind(2);
/// The kind `LWTUNNEL_IP6_SRC`.
pub const LWTUNNEL_IP6_SRC: Kind = Kind(3);
/// The kind `LWTUNNEL_IP6_HOPLIMIT`.
pub const LWTUNNEL_IP6_HOPLIMIT: Kind = Kind(4);
/// The kind `LWTUNNEL_IP6_TC`.
pub const LWTUNNEL_IP6_TC: Kind = Kind(5);
/// The kind `LWTUNNEL_IP6_FLAGS`.
pub const LWTUNNEL_IP6_FLAGS: Kind = Kind(6);
/// The kind `LWTUNNEL_IP6_OPTS`.
pub const LWTUNNEL_IP6_OPTS: Kind = Kind(8);
/// The kind `SEG6_IPTUNNEL_SRH`.
pub const SEG6_IPTUNNEL_SRH: Kind = Kind(1);
/// The kind `LWT_BPF_IN`.
pub const LWT_BPF_IN: Kind = Kind(1);
/// The kind `LWT_BPF_OUT`.
pub const LWT_BPF_OUT: Kind = Kind(2);
/// The kind `LWT_BPF_XMIT`.
pub const LWT_BPF_XMIT: Kind = Kind(3);
/// The kind `LWT_BPF_XMIT_HEADROOM`.
pub const LWT_BPF_XMIT_HEADROOM: Kind = Kind(4);
/// The kind `SEG6_LOCAL_ACTION`.
pub const SEG6_LOCAL_ACTION: Kind = Kind(1);
/// The kind `SEG6_LOCAL_SRH`.
pub const SEG6_LOCAL_SRH: Kind = Kind(2);
/// The kind `SEG6_LOCAL_TABLE`.
pub const SEG6_LOCAL_TABLE: Kind = Kind(3);
/// The kind `SEG6_LOCAL_NH4`.
pub const SEG6_LOCAL_NH4: Kind = Kind(4);
/// The kind `SEG6_LOCAL_NH6`.
pub const SEG6_LOCAL_NH6: Kind = Kind(5);
/// The kind `SEG6_LOCAL_IIF`.
pub const SEG6_LOCAL_IIF: Kind = Kind(6);
/// The kind `SEG6_LOCAL_OIF`.
pub const SEG6_LOCAL_OIF: Kind = Kind(7);
/// The kind `SEG6_LOCAL_BPF`.
pub const SEG6_LOCAL_BPF: Kind = Kind(8);
/// The kind `SEG6_LOCAL_VRFTABLE`.
pub const SEG6_LOCAL_VRFTABLE: Kind = Kind(9);
/// The kind `SEG6_LOCAL_COUNTERS`.
pub const SEG6_LOCAL_COUNTERS: Kind = Kind(10);
/// The kind `SEG6_LOCAL_FLAVORS`.
pub const SEG6_LOCAL_FLAVORS: Kind = Kind(11);
/// The kind `RPL_IPTUNNEL_SRH`.
pub const RPL_IPTUNNEL_SRH: Kind = Kind(1);
/// The kind `IOAM6_IPTUNNEL_MODE`.
pub const IOAM6_IPTUNNEL_MODE: Kind = Kind(1);
/// The kind `IOAM6_IPTUNNEL_DST`.
pub const IOAM6_IPTUNNEL_DST: Kind = Kind(2);
/// The kind `IOAM6_IPTUNNEL_TRACE`.
pub const IOAM6_IPTUNNEL_TRACE: Kind = Kind(3);
/// The kind `IOAM6_IPTUNNEL_FREQ_K`.
pub const IOAM6_IPTUNNEL_FREQ_K: Kind = Kind(4);
/// The kind `IOAM6_IPTUNNEL_FREQ_N`.
pub const IOAM6_IPTUNNEL_FREQ_N: Kind = Kind(5);
/// The kind `LWT_XFRM_IF_ID`.
pub const LWT_XFRM_IF_ID: Kind = Kind(1);
/// The kind `LWT_XFRM_LINK`.
pub const LWT_XFRM_LINK: Kind = Kind(2);
/// The kind `LWTUNNEL_IP_OPTS_GENEVE`.
pub const LWTUNNEL_IP_OPTS_GENEVE: Kind = Kind(1);
/// The kind `LWTUNNEL_IP_OPTS_VXLAN`.
pub const LWTUNNEL_IP_OPTS_VXLAN: Kind = Kind(2);
/// The kind `LWTUNNEL_IP_OPTS_ERSPAN`.
pub const LWTUNNEL_IP_OPTS_ERSPAN: Kind = Kind(3);
/// The kind `LWTUNNEL_IP_OPT_GENEVE_CLASS`.
pub const LWTUNNEL_IP_OPT_GENEVE_CLASS: Kind = Kind(1);
/// The kind `LWTUNNEL_IP_OPT_GENEVE_TYPE`.
pub const LWTUNNEL_IP_OPT_GENEVE_TYPE: Kind = Kind(2);
/// The kind `LWTUNNEL_IP_OPT_GENEVE_DATA`.
pub const LWTUNNEL_IP_OPT_GENEVE_DATA: Kind = Kind(3);
/// The kind `LWTUNNEL_IP_OPT_VXLAN_GBP`.
pub const LWTUNNEL_IP_OPT_VXLAN_GBP: Kind = Kind(1);
/// The kind `LWTUNNEL_IP_OPT_ERSPAN_VER`.
pub const LWTUNNEL_IP_OPT_ERSPAN_VER: Kind = Kind(1);
/// The kind `LWTUNNEL_IP_OPT_ERSPAN_INDEX`.
pub const LWTUNNEL_IP_OPT_ERSPAN_INDEX: Kind = Kind(2);
/// The kind `LWTUNNEL_IP_OPT_ERSPAN_DIR`.
pub const LWTUNNEL_IP_OPT_ERSPAN_DIR: Kind = Kind(3);
/// The kind `LWTUNNEL_IP_OPT_ERSPAN_HWID`.
pub const LWTUNNEL_IP_OPT_ERSPAN_HWID: Kind = Kind(4);
/// The kind `LWT_BPF_PROG_FD`.
pub const LWT_BPF_PROG_FD: Kind = Kind(1);
/// The kind `LWT_BPF_PROG_NAME`.
pub const LWT_BPF_PROG_NAME: Kind = Kind(2);
/// The kind `SEG6_LOCAL_BPF_PROG`.
pub const SEG6_LOCAL_BPF_PROG: Kind = Kind(1);
/// The kind `SEG6_LOCAL_BPF_PROG_NAME`.
pub const SEG6_LOCAL_BPF_PROG_NAME: Kind = Kind(2);
/// The kind `SEG6_LOCAL_CNT_PACKETS`.
pub const SEG6_LOCAL_CNT_PACKETS: Kind = Kind(2);
/// The kind `SEG6_LOCAL_CNT_BYTES`.
pub const SEG6_LOCAL_CNT_BYTES: Kind = Kind(3);
/// The kind `SEG6_LOCAL_CNT_ERRORS`.
pub const SEG6_LOCAL_CNT_ERRORS: Kind = Kind(4);
/// The kind `SEG6_LOCAL_FLV_OPERATION`.
pub const SEG6_LOCAL_FLV_OPERATION: Kind = Kind(1);
/// The kind `SEG6_LOCAL_FLV_LCBLOCK_BITS`.
pub const SEG6_LOCAL_FLV_LCBLOCK_BITS: Kind = Kind(2);
/// The kind `SEG6_LOCAL_FLV_LCNODE_FN_BITS`.
pub const SEG6_LOCAL_FLV_LCNODE_FN_BITS: Kind = Kind(3);

// Rules, and `struct fib_rule_hdr`.
/// The message type `RTM_NEWRULE`.
pub const RTM_NEWRULE: u16 = 32;
/// The message type `RTM_DELRULE`.
pub const RTM_DELRULE: u16 = 33;
/// The message type `RTM_GETRULE`.
pub const RTM_GETRULE: u16 = 34;
/// The field `family`.
pub const FRH_FAMILY: Field = Field(0x001);
/// The field `dst_len`.
pub const FRH_DST_LEN: Field = Field(0x101);
/// The field `src_len`.
pub const FRH_SRC_LEN: Field = Field(0x201);
/// The field `tos`.
pub const FRH_TOS: Field = Field(0x301);
/// The field `table`.
pub const FRH_TABLE: Field = Field(0x401);
/// The field `action`.
pub const FRH_ACTION: Field = Field(0x701);
/// The field `flags`.
pub const FRH_FLAGS: Field = Field(0x803);
/// The kind `FRA_DST`.
pub const FRA_DST: Kind = Kind(1);
/// The kind `FRA_SRC`.
pub const FRA_SRC: Kind = Kind(2);
/// The kind `FRA_IIFNAME`.
pub const FRA_IIFNAME: Kind = Kind(3);
/// The kind `FRA_GOTO`.
pub const FRA_GOTO: Kind = Kind(4);
/// The kind `FRA_PRIORITY`.
pub const FRA_PRIORITY: Kind = Kind(6);
/// The kind `FRA_FWMARK`.
pub const FRA_FWMARK: Kind = Kind(10);
/// The kind `FRA_FLOW`.
pub const FRA_FLOW: Kind = Kind(11);
/// The kind `FRA_TUN_ID`.
pub const FRA_TUN_ID: Kind = Kind(12);
/// The kind `FRA_SUPPRESS_IFGROUP`.
pub const FRA_SUPPRESS_IFGROUP: Kind = Kind(13);
/// The kind `FRA_SUPPRESS_PREFIXLEN`.
pub const FRA_SUPPRESS_PREFIXLEN: Kind = Kind(14);
/// The kind `FRA_TABLE`.
pub const FRA_TABLE: Kind = Kind(15);
/// The kind `FRA_FWMASK`.
pub const FRA_FWMASK: Kind = Kind(16);
/// The kind `FRA_OIFNAME`.
pub const FRA_OIFNAME: Kind = Kind(17);
/// The kind `FRA_L3MDEV`.
pub const FRA_L3MDEV: Kind = Kind(19);
/// The kind `FRA_UID_RANGE`.
pub const FRA_UID_RANGE: Kind = Kind(20);
/// The kind `FRA_PROTOCOL`.
pub const FRA_PROTOCOL: Kind = Kind(21);
/// The kind `FRA_IP_PROTO`.
pub const FRA_IP_PROTO: Kind = Kind(22);
/// The kind `FRA_SPORT_RANGE`.
pub const FRA_SPORT_RANGE: Kind = Kind(23);
/// The kind `FRA_DPORT_RANGE`.
pub const FRA_DPORT_RANGE: Kind = Kind(24);
/// The kind `FRA_DSCP`.
pub const FRA_DSCP: Kind = Kind(25);
/// The kind `FRA_FLOWLABEL`.
pub const FRA_FLOWLABEL: Kind = Kind(26);
/// The kind `FRA_FLOWLABEL_MASK`.
pub const FRA_FLOWLABEL_MASK: Kind = Kind(27);
/// The kind `FRA_SPORT_MASK`.
pub const FRA_SPORT_MASK: Kind = Kind(28);
/// The kind `FRA_DPORT_MASK`.
pub const FRA_DPORT_MASK: Kind = Kind(29);
/// The kind `FRA_DSCP_MASK`.
pub const FRA_DSCP_MASK: Kind = Kind(30);

// Ids of network namespaces, and `struct rtgenmsg`.
/// The message type `RTM_NEWNSID`.
pub const RTM_NEWNSID: u16 = 88;
/// The message type `RTM_DELNSID`.
pub const RTM_DELNSID: u16 = 89;
/// The message type `RTM_GETNSID`.
pub const RTM_GETNSID: u16 = 90;
/// The field `rtgen_family`.
pub const RTGEN_FAMILY: Field = Field(0x001);
/// The kind `NETNSA_NSID`.
pub const NETNSA_NSID: Kind = Kind(1);
/// The kind `NETNSA_PID`.
pub const NETNSA_PID: Kind = Kind(2);
/// The kind `NETNSA_FD`.
pub const NETNSA_FD: Kind = Kind(3);
/// The kind `NETNSA_TARGET_NSID`.
pub const NETNSA_TARGET_NSID: Kind = Kind(4);
/// The kind `NETNSA_CURRENT_NSID`.
pub const NETNSA_CURRENT_NSID: Kind = Kind(5);

// Next hops and buckets of groups, and `struct nhmsg`.
/// The message type `RTM_NEWNEXTHOP`.
pub const RTM_NEWNEXTHOP: u16 = 104;
/// The message type `RTM_DELNEXTHOP`.
pub const RTM_DELNEXTHOP: u16 = 105;
/// The message type `RTM_GETNEXTHOP`.
pub const RTM_GETNEXTHOP: u16 = 106;
/// The message type `RTM_NEWNEXTHOPBUCKET`.
pub const RTM_NEWNEXTHOPBUCKET: u16 = 116;
/// The message type `RTM_DELNEXTHOPBUCKET`.
pub const RTM_DELNEXTHOPBUCKET: u16 = 117;
/// The message type `RTM_GETNEXTHOPBUCKET`.
pub const RTM_GETNEXTHOPBUCKET: u16 = 118;
/// The field `nh_family`.
pub const NH_FAMILY: Field = Field(0x001);
/// The field `nh_scope`.
pub const NH_SCOPE: Field = Field(0x101);
/// The field `nh_protocol`.
pub const NH_PROTOCOL: Field = Field(0x201);
/// The field `nh_flags`.
pub const NH_FLAGS: Field = Field(0x403);
/// The kind `NHA_ID`.
pub const NHA_ID: Kind = Kind(1);
/// The kind `NHA_GROUP`.
pub const NHA_GROUP: Kind = Kind(2);
/// The kind `NHA_GROUP_TYPE`.
pub const NHA_GROUP_TYPE: Kind = Kind(3);
/// The kind `NHA_BLACKHOLE`.
pub const NHA_BLACKHOLE: Kind = Kind(4);
/// The kind `NHA_OIF`.
pub const NHA_OIF: Kind = Kind(5);
/// The kind `NHA_GATEWAY`.
pub const NHA_GATEWAY: Kind = Kind(6);
/// The kind `NHA_ENCAP_TYPE`.
pub const NHA_ENCAP_TYPE: Kind = Kind(7);
/// The kind `NHA_ENCAP`.
pub const NHA_ENCAP: Kind = Kind(8);
/// The kind `NHA_GROUPS`.
pub const NHA_GROUPS: Kind = Kind(9);
/// The kind `NHA_MASTER`.
pub const NHA_MASTER: Kind = Kind(10);
/// The kind `NHA_FDB`.
pub const NHA_FDB: Kind = Kind(11);
/// The kind `NHA_RES_GROUP`.
pub const NHA_RES_GROUP: Kind = Kind(12);
/// The kind `NHA_RES_BUCKET`.
pub const NHA_RES_BUCKET: Kind = Kind(13);
/// The kind `NHA_OP_FLAGS`.
pub const NHA_OP_FLAGS: Kind = Kind(14);
/// The kind `NHA_GROUP_STATS`.
pub const NHA_GROUP_STATS: Kind = Kind(15);
/// The kind `NHA_HW_STATS_ENABLE`.
pub const NHA_HW_STATS_ENABLE: Kind = Kind(16);
/// The kind `NHA_HW_STATS_USED`.
pub const NHA_HW_STATS_USED: Kind = Kind(17);
/// The kind `NHA_RES_GROUP_BUCKETS`.
pub const NHA_RES_GROUP_BUCKETS: Kind = Kind(1);
/// The kind `NHA_RES_GROUP_IDLE_TIMER`.
pub const NHA_RES_GROUP_IDLE_TIMER: Kind = Kind(2);
/// The kind `NHA_RES_GROUP_UNBALANCED_TIMER`.
pub const NHA_RES_GROUP_UNBALANCED_TIMER: Kind = Kind(3);
/// The kind `NHA_RES_GROUP_UNBALANCED_TIME`.
pub const NHA_RES_GROUP_UNBALANCED_TIME: Kind = Kind(4);
/// The kind `NHA_RES_BUCKET_INDEX`.
pub const NHA_RES_BUCKET_INDEX: Kind = Kind(1);
/// The kind `NHA_RES_BUCKET_IDLE_TIME`.
pub const NHA_RES_BUCKET_IDLE_TIME: Kind = Kind(2);
/// The kind `NHA_RES_BUCKET_NH_ID`.
pub const NHA_RES_BUCKET_NH_ID: Kind = Kind(3);

// Settings of links, and `struct netconfmsg`.
/// The message type `RTM_NEWNETCONF`.
pub const RTM_NEWNETCONF: u16 = 80;
/// The message type `RTM_DELNETCONF`.
pub const RTM_DELNETCONF: u16 = 81;
/// The message type `RTM_GETNETCONF`.
pub const RTM_GETNETCONF: u16 = 82;
/// The field `ncm_family`.
pub const NCM_FAMILY: Field = Field(0x001);
/// The kind `NETCONFA_IFINDEX`.
pub const NETCONFA_IFINDEX: Kind = Kind(1);
/// The kind `NETCONFA_FORWARDING`.
pub const NETCONFA_FORWARDING: Kind = Kind(2);
/// The kind `NETCONFA_RP_FILTER`.
pub const NETCONFA_RP_FILTER: Kind = Kind(3);
/// The kind `NETCONFA_MC_FORWARDING`.
pub const NETCONFA_MC_FORWARDING: Kind = Kind(4);
/// The kind `NETCONFA_PROXY_NEIGH`.
pub const NETCONFA_PROXY_NEIGH: Kind = Kind(5);
/// The kind `NETCONFA_IGNORE_ROUTES_WITH_LINKDOWN`.
pub const NETCONFA_IGNORE_ROUTES_WITH_LINKDOWN: Kind = Kind(6);
/// The kind `NETCONFA_INPUT`.
pub const NETCONFA_INPUT: Kind = Kind(7);
/// The kind `NETCONFA_BC_FORWARDING`.
pub const NETCONFA_BC_FORWARDING: Kind = Kind(8);

// Announced prefixes, and `struct prefixmsg`.
/// The message type `RTM_NEWPREFIX`.
pub const RTM_NEWPREFIX: u16 = 52;
/// The field `prefix_family`.
pub const PREFIX_FAMILY: Field = Field(0x001);
/// The field `prefix_ifindex`.
pub const PREFIX_IFINDEX: Field = Field(0x404);
/// The field `prefix_type`.
pub const PREFIX_TYPE: Field = Field(0x801);
/// The field `prefix_len`.
pub const PREFIX_LEN: Field = Field(0x901);
/// The field `prefix_flags`.
pub const PREFIX_FLAGS: Field = Field(0xa01);
/// The kind `PREFIX_ADDRESS`.
pub const PREFIX_ADDRESS: Kind = Kind(1);
/// The kind `PREFIX_CACHEINFO`.
pub const PREFIX_CACHEINFO: Kind = Kind(2);

// Traffic control, and `struct tcmsg`.
/// The message type `RTM_NEWQDISC`.
pub const RTM_NEWQDISC: u16 = 36;
/// The message type `RTM_DELQDISC`.
pub const RTM_DELQDISC: u16 = 37;
/// The message type `RTM_GETQDISC`.
pub const RTM_GETQDISC: u16 = 38;
/// The message type `RTM_NEWTCLASS`.
pub const RTM_NEWTCLASS: u16 = 40;
/// The message type `RTM_DELTCLASS`.
pub const RTM_DELTCLASS: u16 = 41;
/// The message type `RTM_GETTCLASS`.
pub const RTM_GETTCLASS: u16 = 42;
/// The message type `RTM_NEWTFILTER`.
pub const RTM_NEWTFILTER: u16 = 44;
/// The message type `RTM_DELTFILTER`.
pub const RTM_DELTFILTER: u16 = 45;
/// The message type `RTM_GETTFILTER`.
pub const RTM_GETTFILTER: u16 = 46;
/// The message type `RTM_NEWCHAIN`.
pub const RTM_NEWCHAIN: u16 = 100;
/// The message type `RTM_DELCHAIN`.
pub const RTM_DELCHAIN: u16 = 101;
/// The message type `RTM_GETCHAIN`.
pub const RTM_GETCHAIN: u16 = 102;
/// The field `tcm_family`.
pub const TCM_FAMILY: Field = Field(0x001);
/// The field `tcm_ifindex`.
pub const TCM_IFINDEX: Field = Field(0x404);
/// The field `tcm_handle`.
pub const TCM_HANDLE: Field = Field(0x803);
/// The field `tcm_parent`.
pub const TCM_PARENT: Field = Field(0xc03);
/// The field `tcm_info`.
pub const TCM_INFO: Field = Field(0x1003);
/// The kind `TCA_KIND`.
pub const TCA_KIND: Kind = Kind(1);
/// The kind `TCA_OPTIONS`.
pub const TCA_OPTIONS: Kind = Kind(2);
/// The kind `TCA_STATS`.
pub const TCA_STATS: Kind = Kind(3);
/// The kind `TCA_XSTATS`.
pub const TCA_XSTATS: Kind = Kind(4);
/// The kind `TCA_RATE`.
pub const TCA_RATE: Kind = Kind(5);
/// The kind `TCA_FCNT`.
pub const TCA_FCNT: Kind = Kind(6);
/// The kind `TCA_STATS2`.
pub const TCA_STATS2: Kind = Kind(7);
/// The kind `TCA_STAB`.
pub const TCA_STAB: Kind = Kind(8);
/// The kind `TCA_DUMP_INVISIBLE`.
pub const TCA_DUMP_INVISIBLE: Kind = Kind(10);
/// The kind `TCA_CHAIN`.
pub const TCA_CHAIN: Kind = Kind(11);
/// The kind `TCA_HW_OFFLOAD`.
pub const TCA_HW_OFFLOAD: Kind = Kind(12);
/// The kind `TCA_INGRESS_BLOCK`.
pub const TCA_INGRESS_BLOCK: Kind = Kind(13);
/// The kind `TCA_EGRESS_BLOCK`.
pub const TCA_EGRESS_BLOCK: Kind = Kind(14);
/// The kind `TCA_DUMP_FLAGS`.
pub const TCA_DUMP_FLAGS: Kind = Kind(15);
/// The kind `TCA_EXT_WARN_MSG`.
pub const TCA_EXT_WARN_MSG: Kind = Kind(16);
/// The kind `TCA_STATS_BASIC`.
pub const TCA_STATS_BASIC: Kind = Kind(1);
/// The kind `TCA_STATS_RATE_EST`.
pub const TCA_STATS_RATE_EST: Kind = Kind(2);
/// The kind `TCA_STATS_QUEUE`.
pub const TCA_STATS_QUEUE: Kind = Kind(3);
/// The kind `TCA_STATS_APP`.
pub const TCA_STATS_APP: Kind = Kind(4);
/// The kind `TCA_STATS_RATE_EST64`.
pub const TCA_STATS_RATE_EST64: Kind = Kind(5);
/// The kind `TCA_STATS_BASIC_HW`.
pub const TCA_STATS_BASIC_HW: Kind = Kind(7);
/// The kind `TCA_STATS_PKT64`.
pub const TCA_STATS_PKT64: Kind = Kind(8);
/// The kind `TCA_STAB_BASE`.
pub const TCA_STAB_BASE: Kind = Kind(1);
/// The kind `TCA_STAB_DATA`.
pub const TCA_STAB_DATA: Kind = Kind(2);
/// The kind `TCA_FQ_CODEL_TARGET`.
pub const TCA_FQ_CODEL_TARGET: Kind = Kind(1);
/// The kind `TCA_FQ_CODEL_LIMIT`.
pub const TCA_FQ_CODEL_LIMIT: Kind = Kind(2);
/// The kind `TCA_FQ_CODEL_INTERVAL`.
pub const TCA_FQ_CODEL_INTERVAL: Kind = Kind(3);
/// The kind `TCA_FQ_CODEL_ECN`.
pub const TCA_FQ_CODEL_ECN: Kind = Kind(4);
/// The kind `TCA_FQ_CODEL_FLOWS`.
pub const TCA_FQ_CODEL_FLOWS: Kind = Kind(5);
/// The kind `TCA_FQ_CODEL_QUANTUM`.
pub const TCA_FQ_CODEL_QUANTUM: Kind = Kind(6);
/// The kind `TCA_FQ_CODEL_CE_THRESHOLD`.
pub const TCA_FQ_CODEL_CE_THRESHOLD: Kind = Kind(7);
/// The kind `TCA_FQ_CODEL_DROP_BATCH_SIZE`.
pub const TCA_FQ_CODEL_DROP_BATCH_SIZE: Kind = Kind(8);
/// The kind `TCA_FQ_CODEL_MEMORY_LIMIT`.
pub const TCA_FQ_CODEL_MEMORY_LIMIT: Kind = Kind(9);
/// The kind `TCA_FQ_CODEL_CE_THRESHOLD_SELECTOR`.
pub const TCA_FQ_CODEL_CE_THRESHOLD_SELECTOR: Kind = Kind(10);
/// The kind `TCA_FQ_CODEL_CE_THRESHOLD_MASK`.
pub const TCA_FQ_CODEL_CE_THRESHOLD_MASK: Kind = Kind(11);
/// The kind `TCA_HTB_PARMS`.
pub const TCA_HTB_PARMS: Kind = Kind(1);
/// The kind `TCA_HTB_INIT`.
pub const TCA_HTB_INIT: Kind = Kind(2);
/// The kind `TCA_HTB_CTAB`.
pub const TCA_HTB_CTAB: Kind = Kind(3);
/// The kind `TCA_HTB_RTAB`.
pub const TCA_HTB_RTAB: Kind = Kind(4);
/// The kind `TCA_HTB_DIRECT_QLEN`.
pub const TCA_HTB_DIRECT_QLEN: Kind = Kind(5);
/// The kind `TCA_HTB_RATE64`.
pub const TCA_HTB_RATE64: Kind = Kind(6);
/// The kind `TCA_HTB_CEIL64`.
pub const TCA_HTB_CEIL64: Kind = Kind(7);
/// The kind `TCA_HTB_OFFLOAD`.
pub const TCA_HTB_OFFLOAD: Kind = Kind(9);

// Actions of traffic control, and `struct tcamsg`.
/// The message type `RTM_NEWACTION`.
pub const RTM_NEWACTION: u16 = 48;
/// The message type `RTM_DELACTION`.
pub const RTM_DELACTION: u16 = 49;
/// The message type `RTM_GETACTION`.
pub const RTM_GETACTION: u16 = 50;
/// The field `tca_family`.
pub const TCA_FAMILY: Field = Field(0x001);
/// The kind `TCA_ROOT_TAB`.
pub const TCA_ROOT_TAB: Kind = Kind(1);
/// The kind `TCA_ROOT_FLAGS`.
pub const TCA_ROOT_FLAGS: Kind = Kind(2);
/// The kind `TCA_ROOT_COUNT`.
pub const TCA_ROOT_COUNT: Kind = Kind(3);
/// The kind `TCA_ROOT_TIME_DELTA`.
pub const TCA_ROOT_TIME_DELTA: Kind = Kind(4);
/// The kind `TCA_ROOT_EXT_WARN_MSG`.
pub const TCA_ROOT_EXT_WARN_MSG: Kind = Kind(5);
/// The kind `TCA_ACT_KIND`.
pub const TCA_ACT_KIND: Kind = Kind(1);
/// The kind `TCA_ACT_OPTIONS`.
pub const TCA_ACT_OPTIONS: Kind = Kind(2);
/// The kind `TCA_ACT_INDEX`.
pub const TCA_ACT_INDEX: Kind = Kind(3);
/// The kind `TCA_ACT_STATS`.
pub const TCA_ACT_STATS: Kind = Kind(4);
/// The kind `TCA_ACT_COOKIE`.
pub const TCA_ACT_COOKIE: Kind = Kind(6);
/// The kind `TCA_ACT_FLAGS`.
pub const TCA_ACT_FLAGS: Kind = Kind(7);
/// The kind `TCA_ACT_HW_STATS`.
pub const TCA_ACT_HW_STATS: Kind = Kind(8);
/// The kind `TCA_ACT_USED_HW_STATS`.
pub const TCA_ACT_USED_HW_STATS: Kind = Kind(9);
/// The kind `TCA_ACT_IN_HW_COUNT`.
pub const TCA_ACT_IN_HW_COUNT: Kind = Kind(10);

// Multicast groups of bridges, and `struct br_port_msg`.
/// The message type `RTM_NEWMDB`.
pub const RTM_NEWMDB: u16 = 84;
/// The message type `RTM_DELMDB`.
pub const RTM_DELMDB: u16 = 85;
/// The message type `RTM_GETMDB`.
pub const RTM_GETMDB: u16 = 86;
/// The field `family`.
pub const BR_PORT_FAMILY: Field = Field(0x001);
/// The field `ifindex`.
pub const BR_PORT_IFINDEX: Field = Field(0x403);
/// The field `ifindex`.
pub const MDB_ENTRY_IFINDEX: Field = Field(0x003);
/// The field `state`.
pub const MDB_ENTRY_STATE: Field = Field(0x401);
/// The field `flags`.
pub const MDB_ENTRY_FLAGS: Field = Field(0x501);
/// The field `vid`.
pub const MDB_ENTRY_VID: Field = Field(0x602);
/// The field `port`.
pub const ROUTER_PORT_IFINDEX: Field = Field(0x003);
/// The kind `MDBA_MDB`.
pub const MDBA_MDB: Kind = Kind(1);
/// The kind `MDBA_ROUTER`.
pub const MDBA_ROUTER: Kind = Kind(2);
/// The kind `MDBA_SET_ENTRY`.
pub const MDBA_SET_ENTRY: Kind = Kind(1);
/// The kind `MDBA_SET_ENTRY_ATTRS`.
pub const MDBA_SET_ENTRY_ATTRS: Kind = Kind(2);
/// The kind `MDBA_MDB_ENTRY`.
pub const MDBA_MDB_ENTRY: Kind = Kind(1);
/// The kind `MDBA_MDB_ENTRY_INFO`.
pub const MDBA_MDB_ENTRY_INFO: Kind = Kind(1);
/// The number `MDB_TEMPORARY`.
pub const MDB_TEMPORARY: u8 = 0;
/// The number `MDB_PERMANENT`.
pub const MDB_PERMANENT: u8 = 1;
/// The number `MDB_FLAGS_OFFLOAD`.
pub const MDB_FLAGS_OFFLOAD: u8 = 1;
/// The number `MDB_FLAGS_FAST_LEAVE`.
pub const MDB_FLAGS_FAST_LEAVE: u8 = 2;
/// The number `MDB_FLAGS_STAR_EXCL`.
pub const MDB_FLAGS_STAR_EXCL: u8 = 4;
/// The number `MDB_FLAGS_BLOCKED`.
pub const MDB_FLAGS_BLOCKED: u8 = 8;
/// The number `MDB_FLAGS_OFFLOAD_FAILED`.
pub const MDB_FLAGS_OFFLOAD_FAILED: u8 = 16;
/// The kind `MDBA_MDB_EATTR_TIMER`.
pub const MDBA_MDB_EATTR_TIMER: Kind = Kind(1);
/// The kind `MDBA_MDB_EATTR_SRC_LIST`.
pub const MDBA_MDB_EATTR_SRC_LIST: Kind = Kind(2);
/// The kind `MDBA_MDB_EATTR_GROUP_MODE`.
pub const MDBA_MDB_EATTR_GROUP_MODE: Kind = Kind(3);
/// The kind `MDBA_MDB_EATTR_SOURCE`.
pub const MDBA_MDB_EATTR_SOURCE: Kind = Kind(4);
/// The kind `MDBA_MDB_EATTR_RTPROT`.
pub const MDBA_MDB_EATTR_RTPROT: Kind = Kind(5);
/// The kind `MDBA_MDB_EATTR_DST`.
pub const MDBA_MDB_EATTR_DST: Kind = Kind(6);
/// The kind `MDBA_MDB_EATTR_DST_PORT`.
pub const MDBA_MDB_EATTR_DST_PORT: Kind = Kind(7);
/// The kind `MDBA_MDB_EATTR_VNI`.
pub const MDBA_MDB_EATTR_VNI: Kind = Kind(8);
/// The kind `MDBA_MDB_EATTR_IFINDEX`.
pub const MDBA_MDB_EATTR_IFINDEX: Kind = Kind(9);
/// The kind `MDBA_MDB_EATTR_SRC_VNI`.
pub const MDBA_MDB_EATTR_SRC_VNI: Kind = Kind(10);
/// The kind `MDBA_MDB_SRCLIST_ENTRY`.
pub const MDBA_MDB_SRCLIST_ENTRY: Kind = Kind(1);
/// The kind `MDBA_MDB_SRCATTR_ADDRESS`.
pub const MDBA_MDB_SRCATTR_ADDRESS: Kind = Kind(1);
/// The kind `MDBA_MDB_SRCATTR_TIMER`.
pub const MDBA_MDB_SRCATTR_TIMER: Kind = Kind(2);
/// The kind `MDBA_ROUTER_PORT`.
pub const MDBA_ROUTER_PORT: Kind = Kind(1);
/// The kind `MDBA_ROUTER_PATTR_TIMER`.
pub const MDBA_ROUTER_PATTR_TIMER: Kind = Kind(1);
/// The kind `MDBA_ROUTER_PATTR_TYPE`.
pub const MDBA_ROUTER_PATTR_TYPE: Kind = Kind(2);
/// The kind `MDBA_ROUTER_PATTR_INET_TIMER`.
pub const MDBA_ROUTER_PATTR_INET_TIMER: Kind = Kind(3);
/// The kind `MDBA_ROUTER_PATTR_INET6_TIMER`.
pub const MDBA_ROUTER_PATTR_INET6_TIMER: Kind = Kind(4);
/// The kind `MDBA_ROUTER_PATTR_VID`.
pub const MDBA_ROUTER_PATTR_VID: Kind = Kind(5);
/// The kind `MDBE_ATTR_SOURCE`.
pub const MDBE_ATTR_SOURCE: Kind = Kind(1);
/// The kind `MDBE_ATTR_SRC_LIST`.
pub const MDBE_ATTR_SRC_LIST: Kind = Kind(2);
/// The kind `MDBE_ATTR_GROUP_MODE`.
pub const MDBE_ATTR_GROUP_MODE: Kind = Kind(3);
/// The kind `MDBE_ATTR_RTPROT`.
pub const MDBE_ATTR_RTPROT: Kind = Kind(4);
/// The kind `MDBE_ATTR_DST`.
pub const MDBE_ATTR_DST: Kind = Kind(5);
/// The kind `MDBE_ATTR_DST_PORT`.
pub const MDBE_ATTR_DST_PORT: Kind = Kind(6);
/// The kind `MDBE_ATTR_VNI`.
pub const MDBE_ATTR_VNI: Kind = Kind(7);
/// The kind `MDBE_ATTR_IFINDEX`.
pub const MDBE_ATTR_IFINDEX: Kind = Kind(8);
/// The kind `MDBE_ATTR_SRC_VNI`.
pub const MDBE_ATTR_SRC_VNI: Kind = Kind(9);
/// The kind `MDBE_ATTR_STATE_MASK`.
pub const MDBE_ATTR_STATE_MASK: Kind = Kind(10);
/// The kind `MDBE_SRC_LIST_ENTRY`.
pub const MDBE_SRC_LIST_ENTRY: Kind = Kind(1);
/// The kind `MDBE_SRCATTR_ADDRESS`.
pub const MDBE_SRCATTR_ADDRESS: Kind = Kind(1);

// Statistics of links, and `struct if_stats_msg`.
/// The message type `RTM_NEWSTATS`.
pub const RTM_NEWSTATS: u16 = 92;
/// The message type `RTM_GETSTATS`.
pub const RTM_GETSTATS: u16 = 94;
/// The message type `RTM_SETSTATS`.
pub const RTM_SETSTATS: u16 = 95;
/// The field `family`.
pub const IFSM_FAMILY: Field = Field(0x001);
/// The field `ifindex`.
pub const IFSM_IFINDEX: Field = Field(0x403);
/// The field `filter_mask`.
pub const IFSM_FILTER_MASK: Field = Field(0x803);
/// The kind `IFLA_STATS_LINK_64`.
pub const IFLA_STATS_LINK_64: Kind = Kind(1);
/// The kind `IFLA_STATS_LINK_XSTATS`.
pub const IFLA_STATS_LINK_XSTATS: Kind = Kind(2);
/// The kind `IFLA_STATS_LINK_XSTATS_SLAVE`.
pub const IFLA_STATS_LINK_XSTATS_SLAVE: Kind = Kind(3);
/// The kind `IFLA_STATS_LINK_OFFLOAD_XSTATS`.
pub const IFLA_STATS_LINK_OFFLOAD_XSTATS: Kind = Kind(4);
/// The kind `IFLA_STATS_AF_SPEC`.
pub const IFLA_STATS_AF_SPEC: Kind = Kind(5);
/// The kind `IFLA_STATS_GET_FILTERS`.
pub const IFLA_STATS_GET_FILTERS: Kind = Kind(1);
/// The kind `IFLA_STATS_SET_OFFLOAD_XSTATS_L3_STATS`.
pub const IFLA_STATS_SET_OFFLOAD_XSTATS_L3_STATS: Kind = Kind(2);
/// The kind `LINK_XSTATS_TYPE_BRIDGE`.
pub const LINK_XSTATS_TYPE_BRIDGE: Kind = Kind(1);
/// The kind `LINK_XSTATS_TYPE_BOND`.
pub const LINK_XSTATS_TYPE_BOND: Kind = Kind(2);
/// The kind `BRIDGE_XSTATS_VLAN`.
pub const BRIDGE_XSTATS_VLAN: Kind = Kind(1);
/// The kind `BRIDGE_XSTATS_MCAST`.
pub const BRIDGE_XSTATS_MCAST: Kind = Kind(2);
/// The kind `BRIDGE_XSTATS_STP`.
pub const BRIDGE_XSTATS_STP: Kind = Kind(4);
/// The kind `BOND_XSTATS_3AD`.
pub const BOND_XSTATS_3AD: Kind = Kind(1);
/// The kind `BOND_3AD_STAT_LACPDU_RX`.
pub const BOND_3AD_STAT_LACPDU_RX: Kind = Kind(0);
/// The kind `BOND_3AD_STAT_LACPDU_TX`.
pub const BOND_3AD_STAT_LACPDU_TX: Kind = Kind(1);
/// The kind `BOND_3AD_STAT_LACPDU_UNKNOWN_RX`.
pub const BOND_3AD_STAT_LACPDU_UNKNOWN_RX: Kind = Kind(2);
/// The kind `BOND_3AD_STAT_LACPDU_ILLEGAL_RX`.
pub const BOND_3AD_STAT_LACPDU_ILLEGAL_RX: Kind = Kind(3);
/// The kind `BOND_3AD_STAT_MARKER_RX`.
pub const BOND_3AD_STAT_MARKER_RX: Kind = Kind(4);
/// The kind `BOND_3AD_STAT_MARKER_TX`.
pub const BOND_3AD_STAT_MARKER_TX: Kind = Kind(5);
/// The kind `BOND_3AD_STAT_MARKER_RESP_RX`.
pub const BOND_3AD_STAT_MARKER_RESP_RX: Kind = Kind(6);
/// The kind `BOND_3AD_STAT_MARKER_RESP_TX`.
pub const BOND_3AD_STAT_MARKER_RESP_TX: Kind = Kind(7);
/// The kind `BOND_3AD_STAT_MARKER_UNKNOWN_RX`.
pub const BOND_3AD_STAT_MARKER_UNKNOWN_RX: Kind = Kind(8);
/// The kind `IFLA_OFFLOAD_XSTATS_CPU_HIT`.
pub const IFLA_OFFLOAD_XSTATS_CPU_HIT: Kind = Kind(1);
/// The kind `IFLA_OFFLOAD_XSTATS_HW_S_INFO`.
pub const IFLA_OFFLOAD_XSTATS_HW_S_INFO: Kind = Kind(2);
/// The kind `IFLA_OFFLOAD_XSTATS_L3_STATS`.
pub const IFLA_OFFLOAD_XSTATS_L3_STATS: Kind = Kind(3);
/// The kind `IFLA_OFFLOAD_XSTATS_HW_S_INFO_REQUEST`.
pub const IFLA_OFFLOAD_XSTATS_HW_S_INFO_REQUEST: Kind = Kind(1);
/// The kind `IFLA_OFFLOAD_XSTATS_HW_S_INFO_USED`.
pub const IFLA_OFFLOAD_XSTATS_HW_S_INFO_USED: Kind = Kind(2);
/// The kind `MPLS_STATS_LINK`.
pub const MPLS_STATS_LINK: Kind = Kind(1);

// VLANs of bridges, and `struct br_vlan_msg`.
/// The message type `RTM_NEWVLAN`.
pub const RTM_NEWVLAN: u16 = 112;
/// The message type `RTM_DELVLAN`.
pub const RTM_DELVLAN: u16 = 113;
/// The message type `RTM_GETVLAN`.
pub const RTM_GETVLAN: u16 = 114;
/// The field `family`.
pub const BR_VLAN_FAMILY: Field = Field(0x001);
/// The field `ifindex`.
pub const BR_VLAN_IFINDEX: Field = Field(0x403);
/// The kind `BRIDGE_VLANDB_DUMP_FLAGS`.
pub const BRIDGE_VLANDB_DUMP_FLAGS: Kind = Kind(1);
/// The kind `BRIDGE_VLANDB_ENTRY`.
pub const BRIDGE_VLANDB_ENTRY: Kind = Kind(1);
/// The kind `BRIDGE_VLANDB_GLOBAL_OPTIONS`.
pub const BRIDGE_VLANDB_GLOBAL_OPTIONS: Kind = Kind(2);
/// The kind `BRIDGE_VLANDB_ENTRY_INFO`.
pub const BRIDGE_VLANDB_ENTRY_INFO: Kind = Kind(1);
/// The kind `BRIDGE_VLANDB_ENTRY_RANGE`.
pub const BRIDGE_VLANDB_ENTRY_RANGE: Kind = Kind(2);
/// The kind `BRIDGE_VLANDB_ENTRY_STATE`.
pub const BRIDGE_VLANDB_ENTRY_STATE: Kind = Kind(3);
/// The kind `BRIDGE_VLANDB_ENTRY_TUNNEL_INFO`.
pub const BRIDGE_VLANDB_ENTRY_TUNNEL_INFO: Kind = Kind(4);
/// The kind `BRIDGE_VLANDB_ENTRY_STATS`.
pub const BRIDGE_VLANDB_ENTRY_STATS: Kind = Kind(5);
/// The kind `BRIDGE_VLANDB_ENTRY_MCAST_ROUTER`.
pub const BRIDGE_VLANDB_ENTRY_MCAST_ROUTER: Kind = Kind(6);
/// The kind `BRIDGE_VLANDB_ENTRY_MCAST_N_GROUPS`.
pub const BRIDGE_VLANDB_ENTRY_MCAST_N_GROUPS: Kind = Kind(7);
/// The kind `BRIDGE_VLANDB_ENTRY_MCAST_MAX_GROUPS`.
pub const BRIDGE_VLANDB_ENTRY_MCAST_MAX_GROUPS: Kind = Kind(8);
/// The kind `BRIDGE_VLANDB_ENTRY_NEIGH_SUPPRESS`.
pub const BRIDGE_VLANDB_ENTRY_NEIGH_SUPPRESS: Kind = Kind(9);
/// The kind `BRIDGE_VLANDB_TINFO_ID`.
pub const BRIDGE_VLANDB_TINFO_ID: Kind = Kind(1);
/// The kind `BRIDGE_VLANDB_TINFO_CMD`.
pub const BRIDGE_VLANDB_TINFO_CMD: Kind = Kind(2);
/// The kind `BRIDGE_VLANDB_STATS_RX_BYTES`.
pub const BRIDGE_VLANDB_STATS_RX_BYTES: Kind = Kind(1);
/// The kind `BRIDGE_VLANDB_STATS_RX_PACKETS`.
pub const BRIDGE_VLANDB_STATS_RX_PACKETS: Kind = Kind(2);
/// The kind `BRIDGE_VLANDB_STATS_TX_BYTES`.
pub const BRIDGE_VLANDB_STATS_TX_BYTES: Kind = Kind(3);
/// The kind `BRIDGE_VLANDB_STATS_TX_PACKETS`.
pub const BRIDGE_VLANDB_STATS_TX_PACKETS: Kind = Kind(4);
/// The kind `BRIDGE_VLANDB_GOPTS_ID`.
pub const BRIDGE_VLANDB_GOPTS_ID: Kind = Kind(1);
/// The kind `BRIDGE_VLANDB_GOPTS_RANGE`.
pub const BRIDGE_VLANDB_GOPTS_RANGE: Kind = Kind(2);
/// The kind `BRIDGE_VLANDB_GOPTS_MCAST_SNOOPING`.
pub const BRIDGE_VLANDB_GOPTS_MCAST_SNOOPING: Kind = Kind(3);
/// The kind `BRIDGE_VLANDB_GOPTS_MCAST_IGMP_VERSION`.
pub const BRIDGE_VLANDB_GOPTS_MCAST_IGMP_VERSION: Kind = Kind(4);
/// The kind `BRIDGE_VLANDB_GOPTS_MCAST_MLD_VERSION`.
pub const BRIDGE_VLANDB_GOPTS_MCAST_MLD_VERSION: Kind = Kind(5);
/// The kind `BRIDGE_VLANDB_GOPTS_MCAST_LAST_MEMBER_CNT`.
pub const BRIDGE_VLANDB_GOPTS_MCAST_LAST_MEMBER_CNT: Kind = Kind(6);
/// The kind `BRIDGE_VLANDB_GOPTS_MCAST_STARTUP_QUERY_CNT`.
pub const BRIDGE_VLANDB_GOPTS_MCAST_STARTUP_QUERY_CNT: Kind = Kind(7);
/// The kind `BRIDGE_VLANDB_GOPTS_MCAST_LAST_MEMBER_INTVL`.
pub const BRIDGE_VLANDB_GOPTS_MCAST_LAST_MEMBER_INTVL: Kind = Kind(8);
/// The kind `BRIDGE_VLANDB_GOPTS_MCAST_MEMBERSHIP_INTVL`.
pub const BRIDGE_VLANDB_GOPTS_MCAST_MEMBERSHIP_INTVL: Kind = Kind(10);
/// The kind `BRIDGE_VLANDB_GOPTS_MCAST_QUERIER_INTVL`.
pub const BRIDGE_VLANDB_GOPTS_MCAST_QUERIER_INTVL: Kind = Kind(11);
/// The kind `BRIDGE_VLANDB_GOPTS_MCAST_QUERY_INTVL`.
pub const BRIDGE_VLANDB_GOPTS_MCAST_QUERY_INTVL: Kind = Kind(12);
/// The kind `BRIDGE_VLANDB_GOPTS_MCAST_QUERY_RESPONSE_INTVL`.
pub const BRIDGE_VLANDB_GOPTS_MCAST_QUERY_RESPONSE_INTVL: Kind = Kind(13);
/// The kind `BRIDGE_VLANDB_GOPTS_MCAST_STARTUP_QUERY_INTVL`.
pub const BRIDGE_VLANDB_GOPTS_MCAST_STARTUP_QUERY_INTVL: Kind = Kind(14);
/// The kind `BRIDGE_VLANDB_GOPTS_MCAST_QUERIER`.
pub const BRIDGE_VLANDB_GOPTS_MCAST_QUERIER: Kind = Kind(15);
/// The kind `BRIDGE_VLANDB_GOPTS_MCAST_ROUTER_PORTS`.
pub const BRIDGE_VLANDB_GOPTS_MCAST_ROUTER_PORTS: Kind = Kind(16);
/// The kind `BRIDGE_VLANDB_GOPTS_MCAST_QUERIER_STATE`.
pub const BRIDGE_VLANDB_GOPTS_MCAST_QUERIER_STATE: Kind = Kind(17);
/// The kind `BRIDGE_VLANDB_GOPTS_MSTI`.
pub const BRIDGE_VLANDB_GOPTS_MSTI: Kind = Kind(18);
/// The kind `BRIDGE_QUERIER_IP_ADDRESS`.
pub const BRIDGE_QUERIER_IP_ADDRESS: Kind = Kind(1);
/// The kind `BRIDGE_QUERIER_IP_PORT`.
pub const BRIDGE_QUERIER_IP_PORT: Kind = Kind(2);
/// The kind `BRIDGE_QUERIER_IP_OTHER_TIMER`.
pub const BRIDGE_QUERIER_IP_OTHER_TIMER: Kind = Kind(3);
/// The kind `BRIDGE_QUERIER_IPV6_ADDRESS`.
pub const BRIDGE_QUERIER_IPV6_ADDRESS: Kind = Kind(5);
/// The kind `BRIDGE_QUERIER_IPV6_PORT`.
pub const BRIDGE_QUERIER_IPV6_PORT: Kind = Kind(6);
/// The kind `BRIDGE_QUERIER_IPV6_OTHER_TIMER`.
pub const BRIDGE_QUERIER_IPV6_OTHER_TIMER: Kind = Kind(7);

// Filters of VNIs, and `struct tunnel_msg`.
/// The message type `RTM_NEWTUNNEL`.
pub const RTM_NEWTUNNEL: u16 = 120;
/// The message type `RTM_DELTUNNEL`.
pub const RTM_DELTUNNEL: u16 = 121;
/// The message type `RTM_GETTUNNEL`.
pub const RTM_GETTUNNEL: u16 = 122;
/// The field `family`.
pub const TUNNEL_FAMILY: Field = Field(0x001);
/// The field `flags`.
pub const TUNNEL_FLAGS: Field = Field(0x101);
/// The field `ifindex`.
pub const TUNNEL_IFINDEX: Field = Field(0x403);
/// The number `TUNNEL_MSG_FLAG_STATS`.
pub const TUNNEL_MSG_FLAG_STATS: u8 = 1;
/// The kind `VXLAN_VNIFILTER_ENTRY`.
pub const VXLAN_VNIFILTER_ENTRY: Kind = Kind(1);
/// The kind `VXLAN_VNIFILTER_ENTRY_START`.
pub const VXLAN_VNIFILTER_ENTRY_START: Kind = Kind(1);
/// The kind `VXLAN_VNIFILTER_ENTRY_END`.
pub const VXLAN_VNIFILTER_ENTRY_END: Kind = Kind(2);
/// The kind `VXLAN_VNIFILTER_ENTRY_GROUP`.
pub const VXLAN_VNIFILTER_ENTRY_GROUP: Kind = Kind(3);
/// The kind `VXLAN_VNIFILTER_ENTRY_GROUP6`.
pub const VXLAN_VNIFILTER_ENTRY_GROUP6: Kind = Kind(4);
/// The kind `VXLAN_VNIFILTER_ENTRY_STATS`.
pub const VXLAN_VNIFILTER_ENTRY_STATS: Kind = Kind(5);
/// The kind `VNIFILTER_ENTRY_STATS_RX_BYTES`.
pub const VNIFILTER_ENTRY_STATS_RX_BYTES: Kind = Kind(1);
/// The kind `VNIFILTER_ENTRY_STATS_RX_PKTS`.
pub const VNIFILTER_ENTRY_STATS_RX_PKTS: Kind = Kind(2);
/// The kind `VNIFILTER_ENTRY_STATS_RX_DROPS`.
pub const VNIFILTER_ENTRY_STATS_RX_DROPS: Kind = Kind(3);
/// The kind `VNIFILTER_ENTRY_STATS_RX_ERRORS`.
pub const VNIFILTER_ENTRY_STATS_RX_ERRORS: Kind = Kind(4);
/// The kind `VNIFILTER_ENTRY_STATS_TX_BYTES`.
pub const VNIFILTER_ENTRY_STATS_TX_BYTES: Kind = Kind(5);
/// The kind `VNIFILTER_ENTRY_STATS_TX_PKTS`.
pub const VNIFILTER_ENTRY_STATS_TX_PKTS: Kind = Kind(6);
/// The kind `VNIFILTER_ENTRY_STATS_TX_DROPS`.
pub const VNIFILTER_ENTRY_STATS_TX_DROPS: Kind = Kind(7);
/// The kind `VNIFILTER_ENTRY_STATS_TX_ERRORS`.
pub const VNIFILTER_ENTRY_STATS_TX_ERRORS: Kind = Kind(8);

// Generic netlink's controller, and `struct genlmsghdr`.
/// The message type `GENL_ID_CTRL`.
pub const GENL_ID_CTRL: u16 = 16;
/// The field `cmd`.
pub const GENL_CMD: Field = Field(0x001);
/// The field `version`.
pub const GENL_VERSION: Field = Field(0x101);
/// The number `CTRL_CMD_NEWFAMILY`.
pub const CTRL_CMD_NEWFAMILY: u8 = 1;
/// The number `CTRL_CMD_DELFAMILY`.
pub const CTRL_CMD_DELFAMILY: u8 = 2;
/// The number `CTRL_CMD_GETFAMILY`.
pub const CTRL_CMD_GETFAMILY: u8 = 3;
/// The number `CTRL_CMD_NEWOPS`.
pub const CTRL_CMD_NEWOPS: u8 = 4;
/// The number `CTRL_CMD_DELOPS`.
pub const CTRL_CMD_DELOPS: u8 = 5;
/// The number `CTRL_CMD_GETOPS`.
pub const CTRL_CMD_GETOPS: u8 = 6;
/// The number `CTRL_CMD_NEWMCAST_GRP`.
pub const CTRL_CMD_NEWMCAST_GRP: u8 = 7;
/// The number `CTRL_CMD_DELMCAST_GRP`.
pub const CTRL_CMD_DELMCAST_GRP: u8 = 8;
/// The number `CTRL_CMD_GETMCAST_GRP`.
pub const CTRL_CMD_GETMCAST_GRP: u8 = 9;
/// The number `CTRL_CMD_GETPOLICY`.
pub const CTRL_CMD_GETPOLICY: u8 = 10;
/// The kind `CTRL_ATTR_FAMILY_ID`.
pub const CTRL_ATTR_FAMILY_ID: Kind = Kind(1);
/// The kind `CTRL_ATTR_FAMILY_NAME`.
pub const CTRL_ATTR_FAMILY_NAME: Kind = Kind(2);
/// The kind `CTRL_ATTR_VERSION`.
pub const CTRL_ATTR_VERSION: Kind = Kind(3);
/// The kind `CTRL_ATTR_HDRSIZE`.
pub const CTRL_ATTR_HDRSIZE: Kind = Kind(4);
/// The kind `CTRL_ATTR_MAXATTR`.
pub const CTRL_ATTR_MAXATTR: Kind = Kind(5);
/// The kind `CTRL_ATTR_OPS`.
pub const CTRL_ATTR_OPS: Kind = Kind(6);
/// The kind `CTRL_ATTR_MCAST_GROUPS`.
pub const CTRL_ATTR_MCAST_GROUPS: Kind = Kind(7);
/// The kind `CTRL_ATTR_POLICY`.
pub const CTRL_ATTR_POLICY: Kind = Kind(8);
/// The kind `CTRL_ATTR_OP_POLICY`.
pub const CTRL_ATTR_OP_POLICY: Kind = Kind(9);
/// The kind `CTRL_ATTR_OP`.
pub const CTRL_ATTR_OP: Kind = Kind(10);
/// The kind `CTRL_ATTR_OP_ID`.
pub const CTRL_ATTR_OP_ID: Kind = Kind(1);
/// The kind `CTRL_ATTR_OP_FLAGS`.
pub const CTRL_ATTR_OP_FLAGS: Kind = Kind(2);
/// The kind `CTRL_ATTR_MCAST_GRP_NAME`.
pub const CTRL_ATTR_MCAST_GRP_NAME: Kind = Kind(1);
/// The kind `CTRL_ATTR_MCAST_GRP_ID`.
pub const CTRL_ATTR_MCAST_GRP_ID: Kind = Kind(2);
/// The kind `NL_POLICY_TYPE_ATTR_TYPE`.
pub const NL_POLICY_TYPE_ATTR_TYPE: Kind = Kind(1);
/// The kind `NL_POLICY_TYPE_ATTR_MIN_VALUE_S`.
pub const NL_POLICY_TYPE_ATTR_MIN_VALUE_S: Kind = Kind(2);
/// The kind `NL_POLICY_TYPE_ATTR_MAX_VALUE_S`.
pub const NL_POLICY_TYPE_ATTR_MAX_VALUE_S: Kind = Kind(3);
/// The kind `NL_POLICY_TYPE_ATTR_MIN_VALUE_U`.
pub const NL_POLICY_TYPE_ATTR_MIN_VALUE_U: Kind = Kind(4);
/// The kind `NL_POLICY_TYPE_ATTR_MAX_VALUE_U`.
pub const NL_POLICY_TYPE_ATTR_MAX_VALUE_U: Kind = Kind(5);
/// The kind `NL_POLICY_TYPE_ATTR_MIN_LENGTH`.
pub const NL_POLICY_TYPE_ATTR_MIN_LENGTH: Kind = Kind(6);
/// The kind `NL_POLICY_TYPE_ATTR_MAX_LENGTH`.
pub const NL_POLICY_TYPE_ATTR_MAX_LENGTH: Kind = Kind(7);
/// The kind `NL_POLICY_TYPE_ATTR_POLICY_IDX`.
pub const NL_POLICY_TYPE_ATTR_POLICY_IDX: Kind = Kind(8);
/// The kind `NL_POLICY_TYPE_ATTR_POLICY_MAXTYPE`.
pub const NL_POLICY_TYPE_ATTR_POLICY_MAXTYPE: Kind = Kind(9);
/// The kind `NL_POLICY_TYPE_ATTR_BITFIELD32_MASK`.
pub const NL_POLICY_TYPE_ATTR_BITFIELD32_MASK: Kind = Kind(10);
/// The kind `NL_POLICY_TYPE_ATTR_PAD`.
pub const NL_POLICY_TYPE_ATTR_PAD: Kind = Kind(11);
/// The kind `NL_POLICY_TYPE_ATTR_MASK`.
pub const NL_POLICY_TYPE_ATTR_MASK: Kind = Kind(12);
/// The kind `CTRL_ATTR_POLICY_DO`.
pub const CTRL_ATTR_POLICY_DO: Kind = Kind(1);
/// The kind `CTRL_ATTR_POLICY_DUMP`.
pub const CTRL_ATTR_POLICY_DUMP: Kind = Kind(2);
