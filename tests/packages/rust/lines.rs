//! A configuration and a plan.
use crate::{checked, list, name_of, Hex, Play};
use ipxr::settings::{self, Host};
use ipxr::{plan, sys, Configuration, Configured, Network, Node, PlanLink};

const LINES: [&str; 22] = [
    "network 10 1 1424 dosbox 2130",
    "clients 40 8",
    "trust 192.168.0.0/16 10.0.0.0/8",
    "extend 4545 451",
    "rate 800 50 300",
    "line 512",
    "nodes by-address",
    "network 20 1 1500 # of several",
    "permit type 4",
    "deny service 4 FILES* in",
    "route 30 2 3 via 020000000005",
    "service 4 FILES 30.020000000005.451 2 via 020000000005",
    "adopt no",
    "link tap ipx0 raw",
    "link qemu-udp 127.0.0.1:5000 127.0.0.1:5001 raw",
    "internal 99 node 02:00:00:00:00:07",
    "link interface eth0 auto",
    "network 30 1 1500 tap ipx1 snap",
    "what",
    "",
    "permit type 4",
    "link tap ipx0 raw",
];

fn said(play: &mut Play, expected: u8, it: &settings::Setting) {
    play.add(&[
        &expected,
        &it.read,
        &it.kind,
        &it.bits,
        &it.network.number,
        &Hex(&it.network.node),
        &it.link.carrier,
        &name_of(&it.link.name),
        &it.link.local.port,
        &it.numbers.to_vec(),
        &it.rule.what,
        &name_of(&it.rule.name),
        &Hex(&it.route.via),
        &name_of(&it.service.service.name),
        &it.service.line,
    ]);
}

fn settings_turn(play: &mut Play) {
    let line = play.pick(&LINES);
    let mut words: Vec<_> = line.split(' ').collect();
    if play.flips() {
        let at = play.chance(words.len() as u32) as usize;
        words[at] = play.pick(&["0", "FFFF", "raw", "65536", "x", "192.168.0.0/16", "020000000005"]);
    }
    let asking = words.join(" ");
    let (has_cards, is_below_tunnel) = (play.chance(3) > 0, play.flips());
    let (it, expected) = settings::line(&asking, has_cards, is_below_tunnel, sys::IPXR_MOST_CLIENTS as u16);
    said(play, expected, &it);
    let word = words[play.chance(words.len() as u32) as usize];
    let range = settings::range(word);
    play.add(&[
        &settings::socket(word).map_or(0, |it| it.0),
        &word.parse::<Network>().ok(),
        &word.parse::<Node>().ok(),
        &range.as_ref().map(|it| Hex(&it.first)),
    ]);
    let start = settings::word(&asking, play.chance(4) as usize).map(|it| it.as_ptr() as usize - asking.as_ptr() as usize);
    play.add(&[&start, &settings::link_words(&it.link).unwrap_or_default()]);
    let (fourth, port) = (play.byte(9), play.chance(65536) as u16);
    let six = Host { six: [0xFD00, 0, 0, 0, 0, 0, 0, play.chance(9) as u16], port: 213, is_six: true, ..Host::ZERO };
    let words = |it: &Host| settings::address_words(it).unwrap_or_default();
    play.add(&[&words(&settings::host([10, 0, 0, fourth], port)), &words(&six)]);
}

fn configured(play: &mut Play, it: &Configured) {
    let trusted: Vec<_> = it.trusted.list[..it.trusted.count].iter().map(|one| list(&[&Hex(&one.first), &one.bits])).collect();
    play.add(&[
        &it.line,
        &it.network_line,
        &it.port,
        &it.number,
        &it.cost,
        &it.longest,
        &it.is_of_several,
        &it.carrier.number,
        &name_of(&it.carrier.name),
        &it.clients,
        &it.of_address,
        &it.rate,
        &it.share,
        &it.household,
        &it.kilobits,
        &it.sockets.list[..it.sockets.count].to_vec(),
        &trusted,
        &it.nodes_by_address,
        &it.adopts,
    ]);
    let rules = it.rules.list[..it.rules.count].iter();
    let rules: Vec<_> = rules.map(|one| list(&[&one.permits, &one.what, &one.r#type, &name_of(&one.name)])).collect();
    let routes = it.static_routes.list[..it.static_routes.count].iter();
    let routes: Vec<_> = routes.map(|one| list(&[&one.line, &one.route.network, &Hex(&one.via)])).collect();
    let services = it.static_services.list[..it.static_services.count].iter();
    let services: Vec<_> = services.map(|one| list(&[&one.line, &name_of(&one.service.name)])).collect();
    play.add(&[&rules, &routes, &services]);
}

fn configuration_turn(play: &mut Play) {
    let mut all = Configuration::new();
    for (number, line) in (1..).zip(LINES) {
        let read = all.line(line, number, true);
        let it = &read.wrong;
        play.add(&[&read.expected, &read.said.read, &it.unlinked, &it.word, &it.line, &it.numbers.to_vec(), &it.is_below_tunnel]);
    }
    let own = all.internal();
    let (line, number) = (own.map(|it| it.line), own.map(|it| it.network));
    play.add(&[&all.unlinked().unwrap_or(0), &line, &number, &own.map(|it| it.node)]);
    for it in all.links() {
        configured(play, &it);
    }
}

fn planned(play: &mut Play) -> Vec<PlanLink> {
    let count = play.chance(5);
    let link = |k| PlanLink {
        network: 0x10 * (1 + k),
        carrier: play.byte(4),
        frames: play.byte(3),
        udp_port: 2130 + play.chance(2) as u16,
        number: play.chance(3),
        port: play.chance(2),
        clients: play.chance(2),
        sockets: play.chance(2),
        node: play.node().0,
        has_node: play.chance(3) > 0,
        is_of_several: play.chance(3) == 0,
        is_first: play.flips(),
    };
    (0..count).map(link).collect()
}

fn plan_turn(play: &mut Play) {
    let (old, links) = (planned(play), planned(play));
    let it = checked(plan(&old, &links));
    let one = |number: usize| (number != sys::IPXR_NO_ONE).then_some(number);
    let origins = it.origins.iter().map(|it| {
        list(&[&one(it.was), &it.cable, &it.tunnel, &it.is_kept, &it.is_as_before, &it.has_other_clients, &it.has_other_sockets])
    });
    let fates = it.fates.iter().map(|it| list(&[&one(it.becomes), &it.is_closed, &it.ends_tunnel]));
    play.add(&[&it.router_stays, &origins.collect::<Vec<_>>()]);
    play.add(&[&fates.collect::<Vec<_>>()]);
}

pub fn play(play: &mut Play) {
    play.part("settings", 400, |play, _| settings_turn(play));
    play.part("configuration", 1, |play, _| configuration_turn(play));
    play.part("plan", 400, |play, _| plan_turn(play));
}
