//! What is known of a sender arrives where it belongs: each of his nodes and cookies differs here, and does what only it can.
use ipxr::packets::{self, write_packet};
use ipxr::{Address, Keyed, KeyedSender, KeyedSetting, Network, Node, Own, Place, Said, Sender, Tunnel, TunnelSetting};

const NETWORK: Network = Network(0x10);
const SERVER: Node = Node([2, 0, 0, 0, 0, 1]);
const PLACE: Place = Place([10, 0, 0, 1, 8, 82]);
const CURRENT: Node = Node([6, 1, 1, 1, 1, 1]);
const PREVIOUS: Node = Node([6, 2, 2, 2, 2, 2]);
const NODE: Node = Node([2, 3, 3, 3, 3, 3]);
const FORMER: Node = Node([2, 4, 4, 4, 4, 4]);

fn registers() -> Vec<u8> {
    write_packet(&Address::default(), &Address::new(0, [0; 6], 2), 0, 0, &[]).expect("a packet")
}

fn says(from: Node, to: Node) -> Vec<u8> {
    write_packet(&Address::new(NETWORK, from, 2), &Address::new(NETWORK, to, 2), 0, 0, &[]).expect("a packet")
}

/// Destination and source of each datagram of the tunnel's own.
fn ends(owns: &[Own]) -> Vec<(Node, Node)> {
    owns.iter().map(|it| packets::read(&it.bytes).map(|it| (it.to.node, it.from.node)).expect("a packet")).collect()
}

#[test]
fn a_ping_names_the_cookie_of_this_minute_and_the_last_one_counts() {
    let mut tunnel = Tunnel::new(&TunnelSetting { network: NETWORK, node: SERVER, capacity: 2, share: 2 }).expect("a tunnel");
    let sender = Sender { place: PLACE, current: CURRENT, previous: PREVIOUS, is_trusted: false };
    assert_eq!(tunnel.hear(&sender, &registers()), Ok(Said::Registers));
    let owns = tunnel.owns().expect("datagrams");
    assert!(owns.iter().all(|it| it.place == PLACE));
    assert_eq!(ends(&owns), [(PLACE.into(), SERVER), (Node::ALL, CURRENT)]);
    assert_eq!(tunnel.hear(&sender, &says(PLACE.into(), PREVIOUS)), Ok(Said::Answers));
    assert_eq!(tunnel.clients().expect("clients")[0].place, PLACE);
}

fn keyed() -> (Keyed, KeyedSender) {
    let setting = KeyedSetting { network: NETWORK, node: SERVER, capacity: 2, share: 2, remembered: 2, remembered_share: 2 };
    let sender = KeyedSender {
        place: PLACE,
        node: NODE,
        former: FORMER,
        current: CURRENT,
        previous: PREVIOUS,
        is_trusted: false,
        may_register: true,
    };
    (Keyed::new(&setting).expect("a tunnel"), sender)
}

#[test]
fn an_answer_hands_out_the_node_and_its_first_word_makes_a_client() {
    let (mut tunnel, sender) = keyed();
    assert_eq!(tunnel.hear(&sender, &registers()), Ok(Said::Registers));
    assert_eq!(ends(&tunnel.owns().expect("datagrams")), [(NODE, SERVER)]);
    assert_eq!(tunnel.hear(&sender, &says(NODE, Node::ALL)), Ok(Said::Speaks));
    let clients = tunnel.clients().expect("clients");
    assert_eq!((clients[0].place, clients[0].node), (PLACE, NODE));
}

#[test]
fn who_names_his_former_node_is_pinged_by_the_cookie_of_this_minute() {
    let (mut tunnel, sender) = keyed();
    assert_eq!(tunnel.hear(&sender, &says(FORMER, Node::ALL)), Ok(Said::Speaks));
    assert_eq!(ends(&tunnel.owns().expect("datagrams")), [(Node::ALL, CURRENT)]);
    assert_eq!(tunnel.hear(&sender, &says(FORMER, PREVIOUS)), Ok(Said::Answers));
    assert_eq!(tunnel.clients().expect("clients").len(), 1);
}

#[test]
fn a_registration_counts_only_where_it_may_and_a_trusted_word_at_once() {
    let (mut tunnel, sender) = keyed();
    assert_eq!(tunnel.hear(&KeyedSender { may_register: false, ..sender }, &registers()), Ok(Said::Nothing));
    assert!(tunnel.owns().expect("datagrams").is_empty());
    let (mut trusting, sender) = keyed();
    assert_eq!(trusting.hear(&KeyedSender { is_trusted: true, ..sender }, &says(FORMER, Node::ALL)), Ok(Said::Speaks));
    assert_eq!(trusting.clients().expect("clients").len(), 1);
}
