//! Whether Rust lays out each struct as C does. Made of the headers by tools/lib/rust_sys.py: change the headers, and make it again.
use ipxr::sys;

const COUNT: usize = 790;

extern "C" {
    static ipxr_rust_layouts: [usize; COUNT];
}

/// How many bytes a field has.
fn size<S, F>(_field: fn(&S) -> &F) -> usize {
    size_of::<F>()
}

/// The size of each struct, the place and the size of each of its fields, and their names.
macro_rules! layouts {
    ($($name:ident: $($field:ident)*;)*) => {
        vec![$(
            (stringify!($name), size_of::<sys::$name>()),
            $((concat!(stringify!($name), ", ", stringify!($field)), std::mem::offset_of!(sys::$name, $field)),
              (stringify!($field), size(|it: &sys::$name| &it.$field)),)*
        )*]
    };
}

#[test]
fn structs_lie_as_in_c() {
    let of_rust = layouts! {
        ipxr: made at;
        ipxr_port: network node cost longest routes services;
        ipxr_packet_sent: length port node;
        ipxr_route_record: network hops ticks node port age;
        ipxr_service_record: name network node socket r#type hops neighbour port age;
        ipxr_address: network node socket;
        ipxr_route_entry: network hops ticks;
        ipxr_service_entry: name network node socket r#type hops;
        ipxr_tunnel: made at;
        ipxr_tunnel_setting: network node capacity share;
        ipxr_sender: place current previous is_trusted;
        ipxr_own: place bytes;
        ipxr_client: place seconds_left;
        ipxr_keyed: made at;
        ipxr_keyed_setting: network node capacity share remembered remembered_share;
        ipxr_keyed_sender: place node former current previous is_trusted may_register;
        ipxr_keyed_member: place node seconds_left;
        ipxr_segment: made at;
        ipxr_segment_setting: network node links capacity;
        ipxr_link: kind share;
        ipxr_station: node link is_sure seconds_left;
        ipxr_plan_link: network carrier frames udp_port number port clients sockets node has_node is_of_several
            is_first;
        ipxr_plan_origin: was cable tunnel is_kept is_as_before has_other_clients has_other_sockets;
        ipxr_plan_fate: becomes is_closed ends_tunnel;
        ipxr_setting_host: four six port is_six;
        ipxr_setting_link: carrier frames has_word local remote host name;
        ipxr_setting_network: number has_head has_shares cost longest routes services has_node node;
        ipxr_static_route: line route via;
        ipxr_static_service: line service via;
        ipxr_setting: read kind bits network link numbers rule route service;
        ipxr_setting_range: first bits;
        ipxr_fair_setting: one own reserve room;
        ipxr_fair: setting left served latest spare waits total ends;
        ipxr_meter: used;
        ipxr_limit: each burst;
        ipxr_reading: packet piece packets pieces;
        ipxr_limits: received handed handed_answers pings all_pings questions advertisements answers pages;
        ipxr_household_limits: received packet among;
        ipxr_strangers_limits: all one;
        ipxr_reader: packets pieces;
        ipxr_client_use: pinged asked answered paged;
        ipxr_address_use: asked answered paged;
        ipxr_queues: users last;
        ipxr_line: kilobits addresses speakers used own to_strangers numbers;
        ipxr_line_address: clients number quiet received within spoken;
        ipxr_kind_station: node kind left;
        ipxr_kind_bucket: stations;
        ipxr_kinds: left buckets;
        ipxr_loop: left;
        ipxr_range: host bits;
        ipxr_pace: next between;
        ipxr_twin: node link moves began moved is_told;
        ipxr_twins: list told;
        ipxr_asked: again;
        ipxr_asks: next;
        ipxr_carrier: number frames local remote host name;
        ipxr_sockets: list count;
        ipxr_setting_ranges: list count;
        ipxr_origin: text;
        ipxr_origins: list count;
        ipxr_setting_peer: line at host;
        ipxr_setting_peers: list count;
        ipxr_rules: list count;
        ipxr_static_routes: list count;
        ipxr_static_services: list count;
        ipxr_clients_said: line all of_address;
        ipxr_rate_said: line rate share household;
        ipxr_number_said: line number;
        ipxr_network_setting: line first has_link number cost longest has_shares routes services is_of_several has_node
            node sockets adopt_line rules static_routes static_services peers;
        ipxr_link_setting: line network carrier clients rate strangers kilobits allowed trusted nodes_line origins;
        ipxr_network_list: list count;
        ipxr_link_list: list count;
        ipxr_internal: line number node;
        ipxr_configuration: networks links internal above;
        ipxr_line_wrong: unlinked word line numbers is_below_tunnel;
        ipxr_configured: line network_line port number cost longest routes services is_of_several has_node node carrier
            clients of_address rate share household strangers kilobits sockets allowed trusted origins nodes_by_address
            adopts rules static_routes static_services peers;
        ipxr_course: next fate number;
        ipxr_counts: r#in lost dropped;
        ipxr_rule: permits what way names r#type socket from to name;
        ipxr_opened: session echo address number;
        ipxr_peer: session address left newest slots;
        ipxr_peers: session sent used places;
    };
    // SAFETY: what C's compiler put there is constant, and has so many numbers.
    let of_c = unsafe { ipxr_rust_layouts };
    assert_eq!(of_rust.len(), COUNT);
    for ((name, in_rust), in_c) in of_rust.into_iter().zip(of_c) {
        assert_eq!(in_rust, in_c, "{name}");
    }
}
