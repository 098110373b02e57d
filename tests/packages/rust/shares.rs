//! Shares, limits and a narrow line.
use crate::Play;
use ipxr::limits::{told, AddressUse, ClientUse, Household, Limits, LinkKind, PacketKind, Queues, Reader, Refused, Strangers};
use ipxr::line::{Address, Line, Rank};
use ipxr::{Fair, FairSetting, Meter};

const FAIR: FairSetting = FairSetting { one: 2000, own: 9000, reserve: 30000, room: 50000 };

/// What a clock showed at the last look. The first look only begins.
#[derive(Default)]
struct Clock(Option<u64>);

impl Clock {
    fn at(&mut self, now: u64) -> &mut u64 {
        self.0.get_or_insert(now)
    }
}

/// The number that C has for what became of a packet.
fn number(verdict: Result<(), Refused>) -> u8 {
    verdict.err().map_or(0, |it| it as u8 + 1)
}

struct Shares {
    one: Fair,
    other: Fair,
    meter: Meter,
    second: Meter,
    clock: Clock,
}

impl Shares {
    fn turn(&mut self, play: &mut Play, turn: u64) {
        self.one.look(self.clock.at(turn * 900), turn * 900);
        self.other.pass(play.chance(2000).into());
        self.meter.pass(500);
        let says = self.one.says(play.byte(5), play.chance(3000).into());
        let both = self.one.both_hear(&mut self.other, play.byte(5), play.chance(2000).into(), play.chance(2000).into());
        play.add(&[&says, &both]);
        let lets = self.meter.lets(5000, play.chance(1500).into());
        let both = self.meter.both_let(5000, play.chance(900).into(), &mut self.second, 9000, play.chance(100).into());
        play.add(&[&lets, &both, &self.meter.used(), &self.second.used()]);
        play.add(&[&self.one.raw().total, &self.other.raw().waits]);
    }
}

struct Limited {
    limits: Limits,
    household: Household,
    clients: [(ClientUse, Clock); 3],
    address: (AddressUse, Clock),
    readers: [(Reader, Clock); 3],
    receives: Fair,
    links: Fair,
    meters: [Meter; 6],
    strangers: Strangers,
    queues: Queues,
}

impl Limited {
    fn turn(&mut self, play: &mut Play, turn: u64) {
        let (k, kind, now, size, queue) =
            (play.chance(3) as usize, play.chance(6), turn * 3_000_000, play.chance(1000) as usize, play.byte(4));
        let kinds = [PacketKind::Other, PacketKind::Ping, PacketKind::Answer, PacketKind::Question, PacketKind::Told, PacketKind::Other];
        self.clients[k].0.look(self.clients[k].1.at(now), now);
        self.address.0.look(self.address.1.at(now), now);
        self.readers[k].0.look(self.readers[k].1.at(now), now);
        let what = play.chance(12);
        let became = self.asked(what, k, kinds[kind as usize], size, queue);
        let of = PacketKind::of(&play.packet()) as u8;
        play.add(&[&became.map(number), &of]);
    }

    /// What comes of one of all calls. (only one of them says nothing)
    fn asked(&mut self, what: u32, k: usize, kind: PacketKind, size: usize, queue: u8) -> Option<Result<(), Refused>> {
        let (limits, client, reader) = (&self.limits, &mut self.clients[k].0, &mut self.readers[k].0);
        let (address, [one, two, three, four, five, six]) = (&mut self.address.0, &mut self.meters);
        Some(match what {
            0 => limits.says(kind, client, one),
            1 => limits.frames_say(kind, two),
            2 => limits.answers(2, client, address),
            3 => limits.router_answers(2, client, address),
            4 => limits.hands(2, kind, client, address, three, four),
            5 => limits.frames_hand(queue, kind, five, six, &mut self.links),
            6 => limits.receives(reader, queue, size),
            7 => {
                limits.hears_router(reader, queue, size);
                return None;
            }
            8 => limits.carries(reader, queue, size, 2),
            9 => self.household.receives(limits, reader, &mut self.receives, queue, size),
            10 => self.household.receives_of_own(limits, reader, six, queue, size),
            _ => self.household.receives_of_router(limits, reader, &mut self.receives, queue, size),
        })
    }

    fn queues_turn(&mut self, play: &mut Play) {
        let [one, two, ..] = &mut self.meters;
        let sends = self.strangers.send(play.chance(9), one, two);
        let taken = self.queues.take(3, 9);
        let unshared = self.queues.unshare(3 + play.byte(7), 3, 9);
        play.add(&[&number(sends), &taken, &unshared]);
        if play.chance(3) == 0 {
            self.queues.give_back(3 + play.byte(7));
        }
    }

    fn numbers(&self, play: &mut Play) {
        let it = self.limits.raw();
        let read = &it.received;
        play.add(&[
            &read.packet,
            &read.piece,
            &read.packets.one,
            &read.pieces.room,
            &it.handed.each,
            &it.handed.burst,
            &it.handed_answers,
            &it.pings.each,
            &it.all_pings.burst,
            &it.questions.each,
            &it.advertisements.burst,
            &it.answers.each,
            &it.pages.burst,
        ]);
    }
}

struct Narrow {
    line: Line,
    ends: [Address; 4],
    said: u64,
    answered: u64,
}

impl Narrow {
    fn turn(&mut self, play: &mut Play, turn: u64, [_, _, one, two, ..]: &mut [Meter; 6]) {
        let (k, now, size) = (play.chance(4) as usize, turn * 2_000_000, play.chance(1400) as usize);
        let to = (k + 1) % 4;
        let number_of = self.line.speak(&mut self.ends[k]);
        let rank = self.line.room(now, number_of, size, &mut self.said, &mut self.ends[to]);
        if rank != Rank::Full {
            self.line.send(now, number_of, size, rank, &mut self.said, &mut self.ends[to]);
        }
        let what = play.chance(10);
        let became = self.done(what, k, now, size);
        play.add(&[&number_of, &(rank as u8), &became, &self.said, &self.answered, &self.line.between_pings(30)]);
        let sends = self.line.strangers().send(1 + play.chance(3), one, two);
        play.add(&[&number(sends)]);
    }

    fn done(&mut self, what: u32, k: usize, now: u64, size: usize) -> Option<bool> {
        let (line, end, answered) = (&mut self.line, &mut self.ends[k], &mut self.answered);
        match what {
            0 => line.join(end),
            1 => line.leave(end),
            2 => line.second(end),
            3 => line.silence(end),
            4 => return Some(line.lets_beyond(now)),
            5 => return Some(line.lets_answer(now, answered)),
            6 => line.send_answer(now, size, answered),
            7 => line.send_ping(now, 30),
            8 => return Some(line.lets_stranger(now, answered)),
            _ => line.send_to_stranger(now, 60, answered),
        }
        None
    }
}

fn limited() -> Option<Limited> {
    let (limits, household) = (Limits::new(LinkKind::Tunnel, 100, 20, 300, 100)?, Household::new(150)?);
    let reader = || Some((Reader::new(&limits)?, Clock::default()));
    Some(Limited {
        readers: [reader()?, reader()?, reader()?],
        receives: Fair::new(&household.received())?,
        limits,
        household,
        clients: Default::default(),
        address: Default::default(),
        links: told(),
        meters: [Meter::default(); 6],
        strangers: Strangers::new(40)?,
        queues: Queues::default(),
    })
}

pub fn play(play: &mut Play) {
    let fair = |setting: &FairSetting| Fair::new(setting).expect("a receiver");
    let (one, other) = (fair(&FAIR), fair(&FairSetting { room: 40000, ..FAIR }));
    let mut shares = Shares { one, other, meter: Meter::default(), second: Meter::default(), clock: Clock::default() };
    let mut limited = limited().expect("limits");
    let mut narrow = Narrow { line: Line::new(512), ends: Default::default(), said: 0, answered: 0 };
    play.part("fair", 500, |play, turn| shares.turn(play, turn));
    play.part("limits", 1500, |play, turn| limited.turn(play, turn));
    play.part("queues", 300, |play, _| limited.queues_turn(play));
    play.part("limits' numbers", 1, |play, _| limited.numbers(play));
    play.part("line", 1500, |play, turn| narrow.turn(play, turn, &mut limited.meters));
}
