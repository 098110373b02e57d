//! The edge, cables and fates.
use crate::{ports, Hex, Play};
use ipxr::cable::{choose_node, probe, ranges_have, Asked, Asks, Kinds, Known, Loop, Pace, Range, Twins};
use ipxr::edge::{self, Rule, Way};
use ipxr::fates::{Counts, Course, Fate};
use ipxr::frames::Kind;
use ipxr::{sys, Node, Outcome};

fn rule(play: &mut Play) -> Rule {
    let mut it = sys::ipxr_rule::ZERO;
    (it.permits, it.what, it.way, it.names) = (play.byte(2), 1 + play.byte(5), 1 + play.byte(2), play.byte(3));
    (it.r#type, it.socket, it.from, it.to) = (play.chance(6) as u16, play.socket().0, 0x10, 0x10 * play.chance(20));
    it.name[..2].copy_from_slice(format!("S{}", play.chance(4)).as_bytes());
    Rule::of(it)
}

fn edge_turn(play: &mut Play) {
    let (port, given) = (ports()[0], play.packet());
    let (mut entered, mut numbered, mut filtered) = (given.clone(), given.clone(), given.clone());
    let enters = edge::enter(&port, &mut entered).expect("a port").then_some(Hex(&entered));
    edge::number(&port, &mut numbered).expect("a port");
    let (is_held, claims) = (edge::is_held(&port, &given), edge::claim(&port, &given).expect("a port"));
    let is_needless = edge::is_needless(&port, play.chance(4) as u16, &given);
    play.add(&[&enters, &is_held, &Hex(&numbered), &claims, &is_needless]);
    let way = if play.flips() { Way::Out } else { Way::In };
    let rules = play.several(4, rule);
    let passes = edge::filter(way, &port, &rules, &mut filtered).map(|it| (it > 0).then(|| Hex(&filtered[..it])));
    let node = Node([2, 0, 0, 0, 0, 9]);
    let routes = edge::write_routes(&port, node, &play.several(5, Play::route)).expect("routes");
    play.add(&[&passes, &Hex(&routes)]);
    let services = edge::write_services(&port, node, &play.several(3, Play::service)).expect("services");
    play.add(&[&Hex(&services)]);
}

#[derive(Default)]
struct Cables {
    kinds: Kinds,
    here: Loop,
    there: Loop,
    pace: Pace,
    twins: Twins,
    asks: Asks,
    asked: [Asked; 3],
}

impl Cables {
    fn probe_turn(&mut self, play: &mut Play, turn: u64) {
        let (here, there) = (play.byte(3), 3 + play.byte(3));
        // (a moment before the first one is a late one)
        let sent = (turn + 10) - u64::from(play.chance(6));
        let did = probe(here, there, sent, turn + 10, &mut self.here, &mut self.there) as u8;
        let opens = self.there.second();
        play.add(&[&did, &self.here.seconds_left(), &opens]);
        let ranges = [Range { host: [10, 0, 0, 0], bits: play.byte(33) }, Range { host: [192, 168, 0, play.byte(3)], bits: 32 }];
        let host = [192, 168, 0, play.byte(3)];
        play.add(&[&ranges_have(&ranges, host)]);
        let first = Range { host: [10, 0, play.byte(3), 0], bits: 8 + play.byte(20) };
        let before = self.twins.hear(Node([2, 0, 0, 0, 0, 3]), play.byte(2), turn);
        play.add(&[&first.is_first(), &before]);
    }

    fn turn(&mut self, play: &mut Play, turn: u64) {
        let (hash, of, kind) = (play.chance(99).into(), play.node(), Kind::of(play.byte(6)));
        let (k, now, is_for_all) = (play.chance(3) as usize, 1 + turn * 40_000_000, play.flips());
        // (a number that is no kind has none here)
        let hears = kind.is_some_and(|it| self.kinds.hear(hash, of, it, is_for_all));
        let used = kind.is_some_and(|it| self.kinds.is_used(it));
        let speaks = kind.is_some_and(|it| self.kinds.speaks(hash, of, it));
        play.add(&[&hears, &self.kinds.of(hash, of).map_or(0, Kind::number), &used, &speaks]);
        if turn % 20 == 0 {
            self.kinds.second();
        }
        self.probe_turn(play, turn);
        self.pace.more_wait(play.chance(9).into(), 50_000_000, now);
        let goes = self.pace.lets_go(play.chance(9).into(), now);
        let is_due = self.asked[k].is_due(&mut self.asks, now);
        play.add(&[&goes, &is_due, &self.asks.are_due(now), &self.asks.patience(5000, now)]);
        if play.chance(2) == 0 {
            self.asked[k].ask(&mut self.asks, now, play.chance(1000).into());
        } else {
            self.asked[k].answer();
        }
        let (is_tunnel, is_of_several, has_said, card) = (play.flips(), play.flips(), play.flips(), play.node());
        let known = Known { is_tunnel, is_of_several, said: has_said.then_some(of), card: Some(card) };
        play.add(&[&choose_node(&known, hash)]);
    }
}

/// The numbers that C has for a fate.
fn numbers(fate: Option<Fate>) -> (u8, i32) {
    match fate.expect("a fate") {
        Fate::Elsewhere => (0, 0),
        Fate::Heard => (1, 0),
        Fate::Dropped(outcome) => (2, outcome.0),
        Fate::HandedOn => (3, 0),
        Fate::Answered => (4, 0),
        Fate::Stays => (5, 0),
        Fate::Awaited => (6, 0),
        Fate::Probe => (7, 0),
        Fate::Lost(why) => (8, why.into()),
    }
}

fn fates_turn(play: &mut Play, counts: &mut Counts) {
    let mut course = if play.flips() { Course::of_frame() } else { Course::of_datagram() };
    while let Some(next) = course.next() {
        play.add(&[&next]);
        course.answer(play.pick(&[0, 1, 2, 3, 28, 28, 600, 1600]));
    }
    let (fate, number) = numbers(course.fate());
    play.add(&[&fate, &number]);
    counts.count(&course);
    if play.chance(5) == 0 {
        counts.lose(play.byte(30));
    }
}

pub fn play(play: &mut Play) {
    let (mut cables, mut counts) = (Cables::default(), Counts::default());
    play.part("edge", 800, |play, _| edge_turn(play));
    play.part("cable", 800, |play, turn| cables.turn(play, turn));
    play.part("fates", 800, |play, _| fates_turn(play, &mut counts));
    play.part("counts", 1, |play, _| {
        let lost: Vec<_> = (0..sys::IPXR_NO_REASON).map(|it| counts.lost(it)).collect();
        play.add(&[&counts.came(), &lost, &counts.dropped(Outcome::NO_ROUTE), &counts.dropped(Outcome::CROSSED_FULL)]);
    });
}
