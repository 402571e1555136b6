//! Document 01's edges, the recorded frames, and the reach of the generator.
//! The environment variable VECTORS names the file of recorded frames.

mod generator;
mod responder;

use generator::{addresses, Call, Generator, Operation};
use responder::*;

const STATION: Address = [2, 0, 0, 0, 0, 1];
const SETTINGS: Settings = Settings {
    without_pmk: true,
    ciphers: [true; 4],
    key_lifetime: Seconds(86_400),
    exchange_deadline: Tu(1000),
};
const MIC: [u8; 16] = [0xaa; 16];
const FIRST_21: &str = "070001000000 301a0100000fac070100000fac040100000fac15c0000000000fac07";
const THIRD: &str = "070003000000 ff03640000 8c10aaaaaaaaaaaaaaaaaaaaaaaaaaaaaaaa";

fn octets(hex: &str) -> Vec<u8> {
    let digits: String = hex.split_whitespace().collect();
    let pair = |place| u8::from_str_radix(&digits[place..place + 2], 16).unwrap();
    (0..digits.len()).step_by(2).map(pair).collect()
}

fn key(length: usize, first: u8) -> Vec<u8> {
    let mut key = vec![0x11; length];
    key[0] = first;
    key
}

fn parameters(key: &[u8]) -> Vec<u8> {
    let length = key.len() as u8;
    let mut element = vec![255, 6 + length, 100, 2, 0, 19, 0, length];
    element.extend(key);
    element
}

/// A first frame with AKM 21 and cipher 4.
fn first() -> Vec<u8> {
    [octets(FIRST_21), parameters(&key(33, 2))].concat()
}

fn first_with_pmkids(akm: u8, pmkids: &[Pmkid]) -> Vec<u8> {
    let content = 26 + 16 * pmkids.len() as u8;
    let mut body = octets("070001000000");
    body.extend([48, content, 1, 0]);
    body.extend(octets("000fac07 0100 000fac04 0100 000fac"));
    body.extend([akm, 0xc0, 0, pmkids.len() as u8, 0]);
    body.extend(pmkids.concat());
    body.extend(octets("000fac07"));
    body.extend(parameters(&key(65, 4)));
    body
}

fn cache_record(pmkid: Pmkid, akm: u8, end: u64) -> Vec<u8> {
    let mut record = vec![0x31, 25, 0];
    record.extend(pmkid);
    record.push(akm);
    record.extend(end.to_le_bytes());
    record
}

/// A receive with everything in order, to be changed by the test.
struct Host {
    table: Table,
    settings: Settings,
    cache: Vec<u8>,
    point_valid: bool,
    own_key: Vec<u8>,
    mic: Vec<u8>,
    reply: Vec<u8>,
}

impl Host {
    fn new() -> Host {
        Host {
            table: Table::empty(),
            settings: SETTINGS,
            cache: Vec::new(),
            point_valid: true,
            own_key: key(33, 3),
            mic: MIC.to_vec(),
            reply: vec![0xee; 300],
        }
    }

    fn receive(&mut self, now: u64, address: Address, body: &[u8]) -> Outcome {
        let arrival = Arrival {
            settings: &self.settings,
            cache: &self.cache,
            now: Tu(now),
            address,
            lent: Lent {
                point_valid: self.point_valid,
                own_key: &self.own_key,
                mic: &self.mic,
            },
            body,
        };
        self.table.receive(&arrival, &mut self.reply)
    }

    fn answer(&mut self, now: u64, address: Address, body: &[u8]) -> u8 {
        self.receive(now, address, body).answer as u8
    }

    fn status(&mut self, now: u64, address: Address, body: &[u8]) -> Option<u16> {
        self.receive(now, address, body)
            .refused_at
            .map(Step::status)
    }
}

#[test]
fn p1_to_p3_seconds_in_tu() {
    assert_eq!(Seconds(1).in_tu(), Tu(976));
    assert_eq!(Seconds(16).in_tu(), Tu(15_625));
    assert_eq!(Seconds(86_400).in_tu(), Tu(84_375_000));
}

#[test]
fn p4_deadline_equal_to_now_is_expired() {
    let mut host = Host::new();
    assert_eq!(host.answer(5, STATION, &first()), 0);
    assert!(host.table.look_up(Tu(1004), STATION).is_ok());
    assert_eq!(host.table.look_up(Tu(1005), STATION), Err(Answer::NoRecord));
    let mut late = host.table.clone();
    assert_eq!(late.remove(Tu(1005), STATION), Answer::NoRecord);
    assert_eq!(host.table.remove(Tu(1004), STATION), Answer::Removed);
    assert_eq!(host.table.latest(), Tu(1004));
}

#[test]
fn p5_rsne_lengths() {
    let mut host = Host::new();
    assert_eq!(first()[7], 26);
    assert_eq!(host.answer(0, STATION, &first()), 0);
    let body = first_with_pmkids(8, &[[7; 16]; 14]);
    assert_eq!(body[7], 250);
    assert_eq!(host.status(0, STATION, &body), Some(53));
    host.cache = cache_record([7; 16], 8, 1);
    assert_eq!(host.answer(0, STATION, &body), 0);
}

#[test]
fn p6_second_frame_lengths() {
    let mut host = Host::new();
    assert_eq!(host.receive(0, STATION, &first()).length, 100);
    assert!(host.reply[100..].iter().all(|&octet| octet == 0xee));
    host.own_key = key(65, 4);
    host.cache = cache_record([7; 16], 5, 1);
    let body = first_with_pmkids(5, &[[6; 16], [7; 16]]);
    assert_eq!(host.receive(0, STATION, &body).length, 148);
    assert!(host.reply[148..].iter().all(|&octet| octet == 0xee));
}

#[test]
fn p7_buffer_of_147() {
    let mut host = Host::new();
    host.reply.truncate(148);
    assert_eq!(host.answer(0, STATION, &first()), 0);
    host.reply = vec![0xee; 147];
    assert_eq!(host.answer(9, STATION, &first()), 2);
    assert_eq!(host.reply, [0xee; 147]);
    assert_eq!(host.table.latest(), Tu(0));
}

#[test]
fn p8_group_address() {
    let mut host = Host::new();
    assert_eq!(host.answer(0, [1, 0, 0, 0, 0, 1], &first()), 4);
    assert_eq!(host.answer(0, [2, 0, 0, 0, 0, 1], &first()), 0);
}

#[test]
fn p9_pmkid_under_another_akm() {
    let mut host = Host::new();
    host.cache = cache_record([7; 16], 6, 100);
    let eight = first_with_pmkids(8, &[[7; 16]]);
    assert_eq!(host.status(0, STATION, &eight), Some(53));
    let six = first_with_pmkids(6, &[[7; 16]]);
    assert_eq!(host.answer(99, STATION, &six), 0);
    assert_eq!(host.status(100, STATION, &six), Some(53));
    assert_eq!(host.table.look_up(Tu(100), STATION), Err(Answer::NoRecord));
}

#[test]
fn p10_same_third_frame_twice() {
    let mut host = Host::new();
    assert_eq!(host.answer(0, STATION, &first()), 0);
    assert_eq!(host.answer(1, STATION, &octets(THIRD)), 15);
    assert_eq!(host.answer(1, STATION, &octets(THIRD)), 13);
    assert_eq!(host.answer(2, STATION, &first()), 10);
    let record = host.table.look_up(Tu(2), STATION).unwrap();
    let end = Tu(84_375_001);
    assert_eq!(record.phase, Phase::Installed { end });
}

#[test]
fn body_lengths() {
    let mut host = Host::new();
    assert_eq!(host.answer(0, STATION, &first()[..5]), 7);
    assert_eq!(host.status(0, STATION, &first()[..6]), Some(40));
    let mut body = first();
    while body.len() < 1024 {
        let content = (1024 - body.len() - 2).min(200);
        body.extend([221, content as u8]);
        body.extend(vec![0; content]);
    }
    assert_eq!(host.answer(0, STATION, &body), 0);
    body.push(0);
    assert_eq!(host.answer(3, STATION, &body), 7);
    assert_eq!(host.table.latest(), Tu(3));
}

#[test]
fn cache_lengths() {
    let mut host = Host::new();
    host.cache = cache_record([1; 16], 0, 0).repeat(64);
    assert_eq!(host.answer(0, STATION, &first()), 0);
    host.cache = cache_record([1; 16], 0, 0).repeat(65);
    assert_eq!(host.answer(0, STATION, &first()), 5);
    host.cache = cache_record([1; 16], 0, 0)[..27].to_vec();
    assert_eq!(host.answer(0, STATION, &first()), 5);
}

#[test]
fn seventeenth_peer() {
    let mut host = Host::new();
    for peer in 0..16 {
        assert_eq!(host.answer(peer.into(), [2, 0, 0, 0, 0, peer], &first()), 0);
    }
    let last = [2, 0, 0, 0, 0, 16];
    assert_eq!(host.status(999, last, &first()), Some(30));
    assert_eq!(host.reply[..6], octets("070002001e00"));
    assert_eq!(host.answer(999, [2, 0, 0, 0, 0, 7], &first()), 0);
    assert_eq!(host.answer(1000, last, &first()), 0);
}

#[test]
fn lifetime_of_zero() {
    let mut host = Host::new();
    let zero = [first(), octets("3805 02 00000000")].concat();
    assert_eq!(host.status(0, STATION, &zero), Some(40));
    let one = [first(), octets("3805 02 01000000")].concat();
    assert_eq!(host.answer(0, STATION, &one), 0);
    let record = host.table.look_up(Tu(0), STATION).unwrap();
    assert_eq!(record.lifetime, Seconds(1));
}

#[test]
fn order_of_the_last_checks() {
    let mut host = Host::new();
    host.own_key = key(33, 4);
    host.point_valid = false;
    assert_eq!(host.status(0, STATION, &first()), Some(1));
    host.point_valid = true;
    assert_eq!(host.answer(0, STATION, &first()), 6);
    assert_eq!(host.answer(0, STATION, &octets(THIRD)), 13);
}

/// One block of the recorded frames.
struct Exchange<'a>(&'a str);

impl Exchange<'_> {
    fn field(&self, name: &str) -> &str {
        let line = self.0.lines().find(|line| line.starts_with(name));
        line.unwrap().strip_prefix(name).unwrap().trim()
    }

    fn number(&self, name: &str) -> u32 {
        self.field(name).parse().unwrap()
    }

    fn pmkid(&self) -> Option<Pmkid> {
        let field = self.field("pmkid");
        (field != "-").then(|| octets(field).try_into().unwrap())
    }

    /// The second frame with its MIC set, by document 01's words.
    fn second(&self) -> Vec<u8> {
        let own_key = octets(self.field("key"));
        let pmkids = self.pmkid().map_or(0, |_| 1);
        let mut body = octets("070002000000");
        body.extend([48, 26 + 16 * pmkids]);
        body.extend(octets("0100 000fac07 0100 000fac"));
        body.extend([self.number("cipher") as u8, 1, 0, 0, 0x0f, 0xac]);
        body.extend([self.number("akm") as u8, 0xc0, 0, pmkids, 0]);
        body.extend(self.pmkid().iter().flatten());
        body.extend(octets("000fac07 3805 02"));
        body.extend(self.number("lifetime").to_le_bytes());
        body.extend(parameters(&own_key));
        body.extend([140, 16]);
        body.extend(octets(self.field("mic2")));
        body
    }

    fn check(&self) {
        let mut host = Host::new();
        let station: Address = octets(self.field("station")).try_into().unwrap();
        if let Some(pmkid) = self.pmkid() {
            host.cache = cache_record(pmkid, self.number("akm") as u8, 50);
        }
        host.own_key = octets(self.field("key"));
        host.mic = octets(self.field("mic3"));
        let body = octets(self.field("first"));
        let outcome = host.receive(10, station, &body);
        assert_eq!(outcome.answer, Answer::FirstAccepted);
        assert!(body
            .windows(show_key(&body).len())
            .any(|part| part == show_key(&body)));
        let mut reply = host.reply[..outcome.length].to_vec();
        let mut zeroed = vec![0xee; reply.len()];
        assert_eq!(
            set_mic(&mut reply, &octets(self.field("mic2"))),
            Answer::MicDone
        );
        assert_eq!(reply, self.second());
        assert_eq!(zero_mic(&reply, &mut zeroed), Answer::MicDone);
        assert_eq!(zeroed, host.reply[..outcome.length]);
        assert_eq!(host.answer(20, station, &octets(self.field("third"))), 15);
        let record = host.table.look_up(Tu(20), station).unwrap();
        let lifetime = Seconds(self.number("lifetime"));
        let end = Tu(20 + lifetime.in_tu().0);
        assert_eq!(
            (record.lifetime, record.phase),
            (lifetime, Phase::Installed { end })
        );
        assert_eq!(
            (record.pmkid, record.akm),
            (self.pmkid(), self.number("akm") as u8)
        );
    }
}

#[test]
fn recorded_frames() {
    let path = std::env::var("VECTORS").expect("VECTORS names the file of recorded frames");
    let text = std::fs::read_to_string(path).unwrap();
    let blocks: Vec<&str> = text
        .split("\n\n")
        .filter(|block| block.contains("\nfirst "))
        .collect();
    assert_eq!(blocks.len(), 8);
    blocks.iter().for_each(|block| Exchange(block).check());
}

/// Answers and steps that a run of the generator reaches.
struct Reach {
    table: Table,
    answers: [bool; 21],
    steps: [bool; 11],
}

impl Reach {
    fn of(seed: u64, calls: usize) -> Reach {
        let mut reach = Reach {
            table: Table::empty(),
            answers: [false; 21],
            steps: [false; 11],
        };
        let mut generator = Generator::new(seed);
        for _ in 0..calls {
            let call = generator.next(&reach.table);
            if let Some(answer) = reach.make(call) {
                reach.answers[answer as usize] = true;
            }
        }
        reach
    }

    fn make(&mut self, call: &Call) -> Option<Answer> {
        let mut body = call.body.as_slice().to_vec();
        match call.operation {
            Operation::Receive => Some(self.receive(call)),
            Operation::LookUp => match self.table.look_up(call.now, call.address) {
                Ok(_) => Some(Answer::Found),
                Err(answer) => Some(answer),
            },
            Operation::Remove => Some(self.table.remove(call.now, call.address)),
            Operation::ZeroMic => Some(zero_mic(&body, &mut vec![0; call.second_length])),
            Operation::SetMic => Some(set_mic(&mut body, call.setup.mic.as_slice())),
            Operation::ShowKey => None,
            Operation::Empty => {
                self.table = Table::empty();
                None
            }
        }
    }

    fn receive(&mut self, call: &Call) -> Answer {
        let mut reply = vec![0; call.setup.reply_length];
        let outcome = self.table.receive(&call.arrival(), &mut reply);
        if let Some(step) = outcome.refused_at {
            self.steps[step as usize - 1] = true;
        }
        outcome.answer
    }
}

#[test]
fn generator_reaches_everything() {
    for seed in 0..20 {
        let reach = Reach::of(seed, 5000);
        assert_eq!(reach.answers, [true; 21], "seed {}", seed);
        assert_eq!(reach.steps, [true; 11], "seed {}", seed);
    }
}

#[test]
fn generator_repeats_itself() {
    let table = Table::empty();
    let (mut one, mut other) = (Generator::new(7), Generator::new(7));
    for _ in 0..500 {
        let (call, same) = (one.next(&table), other.next(&table));
        assert!(call.operation == same.operation && call.body == same.body);
    }
}

#[test]
fn generator_names_no_other_address() {
    let mut table = Table::empty();
    let mut generator = Generator::new(3);
    let mut named = addresses().map(|_| false);
    for _ in 0..5000 {
        let call = generator.next(&table);
        table.receive(&call.arrival(), &mut [0; 2048]);
        let place = addresses().iter().position(|&known| known == call.address);
        named[place.unwrap()] = true;
    }
    assert!(named.iter().all(|&named| named));
}
