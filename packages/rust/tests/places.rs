//! Values arrive where they belong, where two of one call have one type.
use ipxr::edge::{filter, Names, Rule, Way};
use ipxr::frames::{self, Kind};
use ipxr::limits::{AddressUse, ClientUse, Household, Limits, LinkKind, PacketKind, Reader, Refused, Strangers};
use ipxr::packets::{self, write_packet, RouteEntry, ServiceEntry};
use ipxr::{Address, Fair, Meter, Network, Node, Port, Socket, NO_LIMIT};

const ROUTER: Node = Node([2, 0, 0, 0, 0, 1]);
const NEIGHBOUR: Node = Node([2, 0, 0, 0, 0, 2]);

fn limits() -> Limits {
    Limits::new(LinkKind::Tunnel, 800, 50, NO_LIMIT, NO_LIMIT).expect("limits")
}

#[test]
fn what_is_told_is_counted_as_that() {
    let (mut client, mut address) = (ClientUse::default(), AddressUse::default());
    let (mut handed, mut advertised) = (Meter::default(), Meter::default());
    let mut hands = |kind, advertised: &mut Meter| limits().hands(1, kind, &mut client, &mut address, &mut handed, advertised);
    assert_eq!(hands(PacketKind::Other, &mut advertised), Ok(()));
    assert_eq!(advertised.used(), 0);
    assert_eq!(hands(PacketKind::Told, &mut advertised), Ok(()));
    assert!(advertised.used() > 0);
}

#[test]
fn a_stranger_uses_up_what_goes_to_his_address_before_what_goes_to_all() {
    let strangers = Strangers::new(100).expect("limits");
    let (mut one, mut other, mut all) = (Meter::default(), Meter::default(), Meter::default());
    while strangers.send(1, &mut one, &mut all).is_ok() {}
    assert_eq!(strangers.send(1, &mut other, &mut all), Ok(()));
}

#[test]
fn the_router_is_heard_by_a_client_that_has_no_room() {
    let household = Household::new(2000).expect("limits");
    let (mut client, limits) = (Reader::new(&limits()).expect("a reader"), limits());
    let mut address = Fair::new(&household.received()).expect("a receiver");
    while limits.receives(&mut client, 1, 500).is_ok() {}
    assert_eq!(household.receives(&limits, &mut client, &mut address, 1, 500), Err(Refused::TooMuchForClient));
    assert_eq!(household.receives_of_router(&limits, &mut client, &mut address, 1, 500), Ok(()));
}

#[test]
fn a_frame_begins_with_its_destination() {
    let packet = write_packet(&Address::default(), &Address::default(), 0, 0, &[]).expect("a packet");
    let frame = frames::write(Kind::Ethernet2, NEIGHBOUR, ROUTER, &packet).expect("a frame");
    assert_eq!((&frame[..6], &frame[6..12]), (&NEIGHBOUR.0[..], &ROUTER.0[..]));
}

/// What passes of a packet that comes in, by one rule.
fn left(rule: Rule, packet: &[u8]) -> Vec<u8> {
    let mut bytes = packet.to_vec();
    let passes = filter(Way::In, &Port::new(0x10, ROUTER), &[rule], &mut bytes).expect("a rule");
    bytes.truncate(passes);
    bytes
}

#[test]
fn rules_name_what_they_say() {
    let at = |socket| (Address::new(0x10, NEIGHBOUR, socket), Address::new(0x10, Node::ALL, socket));
    let (from, to) = at(Socket::RIP);
    let route = |network| RouteEntry { network: Network(network), hops: 1, ticks: 1 };
    let told = packets::write_rip(&from, &to, packets::RESPONSE, &[route(0xA5), route(0xB5)]).expect("routes");
    let routes = |bytes: &[u8]| packets::routes(packets::read(bytes).expect("a packet").data).map(|it| it.network.0).collect::<Vec<_>>();
    assert_eq!(routes(&left(Rule::deny_routes(Way::In, Network(0xA0), Network(0xAF)), &told)), [0xB5]);
    assert_eq!(routes(&left(Rule::deny_routes(Way::Out, Network(0xA0), Network(0xAF)), &told)), [0xA5, 0xB5]);
    let (from, to) = at(Socket::SAP);
    let service = |name: &str| ServiceEntry { name: name.parse().expect("a name"), kind: 4, address: from, hops: 1 };
    let told = packets::write_sap(&from, &to, false, &[service("LAB"), service("LAB2"), service("FILES")]).expect("services");
    let names =
        |bytes: &[u8]| packets::services(packets::read(bytes).expect("a packet").data).map(|it| it.name.to_string()).collect::<Vec<_>>();
    let deny = |names| Rule::deny_services(Way::In, 4, names);
    assert_eq!(names(&left(deny(Names::Is("LAB".parse().expect("a name"))), &told)), ["LAB2", "FILES"]);
    assert_eq!(names(&left(deny(Names::Begin("LAB".parse().expect("a name"))), &told)), ["FILES"]);
    assert!(left(deny(Names::All), &told).is_empty());
    assert_eq!(left(Rule::permit_services(Way::In, 4, Names::All), &told), told);
}

#[test]
fn rules_name_types_sockets_and_queries() {
    let (from, to) = (Address::new(0x10, NEIGHBOUR, 0x4003), Address::new(0x20, NEIGHBOUR, 0x451));
    let packet = write_packet(&from, &to, 17, 0, b"hello").expect("a packet");
    assert!(left(Rule::deny_type(17), &packet).is_empty() && left(Rule::deny_socket(Socket(0x451)), &packet).is_empty());
    assert!(left(Rule::deny_socket(Socket(0x4003)), &packet).is_empty() && left(Rule::deny_type(18), &packet) == packet);
    let query = packets::write_query(&from, &Address::new(0x10, Node::ALL, Socket::SAP), true, 4).expect("a query");
    assert!(left(Rule::deny_nearest(), &query).is_empty() && left(Rule::deny_nearest(), &packet) == packet);
    for rule in [Rule::permit_type(17), Rule::permit_socket(Socket(0x451)), Rule::permit_nearest()] {
        assert_eq!((left(rule, &packet), left(rule, &query)), (packet.clone(), query.clone()));
    }
    let whole = Rule::permit_routes(Way::In, Network(1), Network(0xFFFF_FFFE));
    assert_eq!(left(whole, &packet), packet);
}
