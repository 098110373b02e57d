//! What owns memory of C is made on one thread, used on another, and dropped there.
use ipxr::{sys, Keyed, KeyedSetting, Network, Node, Outcome, Port, Router, Segment, SegmentSetting, Tunnel, TunnelSetting};
use std::thread;

const NODE: Node = Node([2, 0, 0, 0, 0, 1]);

#[test]
fn owners_move_to_another_thread() {
    let network = Network(0x10);
    let mut router = Router::new(&[Port::new(network, NODE)]).expect("a router");
    let mut tunnel = Tunnel::new(&TunnelSetting { network, node: NODE, capacity: 4, share: 4 }).expect("a tunnel");
    let setting = KeyedSetting { network, node: NODE, capacity: 4, share: 4, remembered: 4, remembered_share: 4 };
    let mut keyed = Keyed::new(&setting).expect("a tunnel");
    let mut segment = Segment::new(&SegmentSetting { network, node: NODE, links: 2, capacity: 4 }).expect("a segment");
    let used = thread::spawn(move || {
        let outcome = router.start();
        (outcome, tunnel.second(), keyed.second(), segment.second())
    });
    assert_eq!(used.join().expect("a thread"), (Ok(Outcome::STARTED), Ok(()), Ok(()), Ok(())));
}

#[test]
fn a_router_is_made_on_the_stack_that_is_named() {
    let made = thread::Builder::new().stack_size(sys::IPXR_STACK).spawn(|| Router::new(&[Port::new(0x10, NODE)]).map(|mut it| it.start()));
    assert_eq!(made.expect("a thread").join().expect("it ends"), Ok(Ok(Outcome::STARTED)));
}
