//! A seeded generator of call sequences that reach every answer and status of document 01.
//! It asks the responder's table which exchanges are open, so that accepted frames and
//! installed keys are frequent. Fixed buffers; nothing but `core` is used.

use crate::responder::{
    Address, Arrival, Lent, Phase, Pmkid, Seconds, Settings, Table, Tu, AKM_PASN, CACHE_RECORD,
    CIPHERS, LAST_READING, LEAST_REPLY, MIC_LENGTH,
};

/// splitmix64.
#[derive(Clone)]
pub struct Random(u64);

impl Random {
    fn word(&mut self) -> u64 {
        self.0 = self.0.wrapping_add(0x9e37_79b9_7f4a_7c15);
        let mut mixed = self.0;
        mixed = (mixed ^ (mixed >> 30)).wrapping_mul(0xbf58_476d_1ce4_e5b9);
        mixed = (mixed ^ (mixed >> 27)).wrapping_mul(0x94d0_49bb_1331_11eb);
        mixed ^ (mixed >> 31)
    }

    fn octet(&mut self) -> u8 {
        self.word() as u8
    }

    fn below(&mut self, bound: usize) -> usize {
        (self.word() % bound as u64) as usize
    }

    fn within(&mut self, least: u64, most: u64) -> u64 {
        least + self.word() % (most - least + 1)
    }

    fn percent(&mut self, chance: usize) -> bool {
        self.below(100) < chance
    }

    fn pick<T: Copy>(&mut self, choices: &[T]) -> T {
        choices[self.below(choices.len())]
    }

    fn fill(&mut self, octets: &mut [u8]) {
        octets.iter_mut().for_each(|octet| *octet = self.octet());
    }
}

/// A string of octets with room for N; what finds no room is left out.
#[derive(Clone)]
pub struct Octets<const N: usize> {
    octets: [u8; N],
    length: usize,
}

impl<const N: usize> Octets<N> {
    pub const fn new() -> Self {
        Octets {
            octets: [0; N],
            length: 0,
        }
    }

    pub fn as_slice(&self) -> &[u8] {
        &self.octets[..self.length]
    }

    pub fn as_mut_slice(&mut self) -> &mut [u8] {
        &mut self.octets[..self.length]
    }

    fn len(&self) -> usize {
        self.length
    }

    fn clear(&mut self) {
        self.length = 0;
    }

    pub fn put(&mut self, octets: &[u8]) {
        let taken = octets.len().min(N - self.length);
        self.octets[self.length..self.length + taken].copy_from_slice(&octets[..taken]);
        self.length += taken;
    }

    fn set(&mut self, octets: &[u8]) {
        self.clear();
        self.put(octets);
    }

    fn cut(&mut self, length: usize) {
        self.length = self.length.min(length);
    }

    fn put_random(&mut self, count: usize, random: &mut Random) {
        let start = self.length;
        self.length = (start + count).min(N);
        random.fill(&mut self.octets[start..self.length]);
    }

    fn spoil_one(&mut self, random: &mut Random) {
        if self.length > 0 {
            let place = random.below(self.length);
            self.octets[place] ^= 1 << random.below(8);
        }
    }

    /// Changes the selector of the first suite.
    fn spoil_selector(&mut self, random: &mut Random) {
        if let Some(octet) = self.as_mut_slice().get_mut(random.below(3)) {
            *octet ^= 1 << random.below(8);
        }
    }

    /// An element; its length octet leaves room for 255 octets of content.
    fn put_element(&mut self, id: u8, content: &[u8]) {
        let content = &content[..content.len().min(255)];
        self.put(&[id, content.len() as u8]);
        self.put(content);
    }
}

impl<const N: usize> PartialEq for Octets<N> {
    fn eq(&self, other: &Self) -> bool {
        self.as_slice() == other.as_slice()
    }
}

#[derive(Clone, Copy, PartialEq, Eq, Debug)]
pub enum Operation {
    Receive,
    LookUp,
    Remove,
    ShowKey,
    ZeroMic,
    SetMic,
    Empty,
}

/// What a call log keeps in set-up records.
#[derive(Clone)]
pub struct Setup {
    pub settings: Settings,
    pub cache: Octets<2048>,
    pub point_valid: bool,
    pub own_key: Octets<255>,
    pub mic: Octets<255>,
    pub reply_length: usize,
}

impl Setup {
    /// What holds before the first set-up record.
    pub const fn initial() -> Setup {
        Setup {
            settings: Settings {
                without_pmk: false,
                ciphers: [false; 4],
                key_lifetime: Seconds(0),
                exchange_deadline: Tu(0),
            },
            cache: Octets::new(),
            point_valid: false,
            own_key: Octets::new(),
            mic: Octets::new(),
            reply_length: LEAST_REPLY,
        }
    }
}

/// One call; each operation uses those of the fields that its row of the call log names.
#[derive(Clone)]
pub struct Call {
    pub operation: Operation,
    pub setup: Setup,
    pub now: Tu,
    pub address: Address,
    pub body: Octets<4096>,
    pub second_length: usize,
}

impl Call {
    pub fn arrival(&self) -> Arrival<'_> {
        Arrival {
            settings: &self.setup.settings,
            cache: self.setup.cache.as_slice(),
            now: self.now,
            address: self.address,
            lent: Lent {
                point_valid: self.setup.point_valid,
                own_key: self.setup.own_key.as_slice(),
                mic: self.setup.mic.as_slice(),
            },
            body: self.body.as_slice(),
        }
    }
}

const STATIONS: usize = 21;
const GROUPS: [Address; 3] = [[1, 0, 0, 0, 0, 1], [0x33, 0, 0, 0, 0, 1], [0xff; 6]];
const PMKIDS: usize = 8;
const SELECTOR: [u8; 3] = [0x00, 0x0f, 0xac];
const SOUND_CAPABILITIES: [u16; 5] = [0x00c0, 0x00c0, 0x00c1, 0xffc0, 0x3cfd];
const UNKNOWN_IDS: [u8; 12] = [0, 1, 8, 47, 49, 57, 100, 139, 141, 243, 244, 254];
const UNKNOWN_EXTENSIONS: [u8; 9] = [0, 7, 9, 48, 56, 99, 101, 140, 242];
const OTHER_TYPES: [u8; 9] = [0, 1, 2, 6, 7, 11, 12, 20, 255];
/// Length and first octet of keys that no group has.
const WRONG_KEYS: [(usize, u8); 15] = [
    (0, 0),
    (1, 2),
    (32, 2),
    (34, 3),
    (64, 4),
    (66, 4),
    (33, 0),
    (33, 1),
    (33, 4),
    (33, 6),
    (33, 0x82),
    (65, 2),
    (65, 3),
    (65, 5),
    (65, 0x84),
];

/// How a run of calls is meant to go.
#[derive(Clone)]
struct Season {
    calls_left: usize,
    /// First frames go to new peers until the table is full.
    crowded: bool,
    /// The most that the clock goes on by from call to call.
    pace: u64,
}

#[derive(Clone)]
pub struct Generator {
    random: Random,
    stations: [Address; STATIONS],
    pmkids: [Pmkid; PMKIDS],
    season: Season,
    clock: Tu,
    /// The set-up that faults depart from, for one call each.
    sound: Setup,
    /// The call that `next` made last.
    pub call: Call,
}

impl Generator {
    pub fn new(seed: u64) -> Generator {
        let mut random = Random(seed);
        let pmkids = make_pmkids(&mut random);
        Generator {
            random,
            stations: make_stations(),
            pmkids,
            season: Season {
                calls_left: 0,
                crowded: false,
                pace: 0,
            },
            clock: Tu(0),
            sound: Setup::initial(),
            call: Call {
                operation: Operation::Empty,
                setup: Setup::initial(),
                now: Tu(0),
                address: make_stations()[0],
                body: Octets::new(),
                second_length: 0,
            },
        }
    }

    /// The next call, to be made of the table given here.
    pub fn next(&mut self, table: &Table) -> &Call {
        if self.season.calls_left == 0 {
            self.begin_season();
        } else {
            self.season.calls_left -= 1;
            self.advance(table);
            self.make_call(table);
        }
        &self.call
    }

    fn begin_season(&mut self) {
        let crowded = self.random.percent(60);
        let (calls, paces) = match crowded {
            true => ([150, 200, 250], [0, 1, 3, 8]),
            false => ([40, 80, 160], [1, 5, 20, 60]),
        };
        self.season = Season {
            calls_left: self.random.pick(&calls),
            crowded,
            pace: self.random.pick(&paces),
        };
        self.sound.settings = self.new_settings();
        let scale = self.random.within(4, 47);
        self.clock = match self.random.below(8) {
            0 => Tu(0),
            1 => Tu(LAST_READING.0 - self.random.within(0, 3000)),
            _ => Tu(self.random.within(0, 1 << scale)),
        };
        self.renew_cache();
        self.renew_own_key();
        self.call.operation = Operation::Empty;
    }

    fn new_settings(&mut self) -> Settings {
        let deadline = if self.season.crowded {
            self.random.pick(&[3000, 9_999, 10_000])
        } else {
            self.random.pick(&[1, 2, 30, 300, 10_000])
        };
        Settings {
            without_pmk: self.random.percent(80),
            ciphers: match self.random.below(6) {
                0 => [(); 4].map(|()| self.random.percent(50)),
                _ => [true; 4],
            },
            key_lifetime: Seconds(match self.random.below(5) {
                0 => 1,
                1 => 86_400,
                2 => self.random.within(1, 86_400) as u32,
                _ => self.random.within(1, 20) as u32,
            }),
            exchange_deadline: Tu(deadline),
        }
    }

    /// The clock goes on, or back to the latest reading if the calls since did not set it.
    fn advance(&mut self, table: &Table) {
        let latest = table.latest();
        let clock = match self.random.percent(25) && latest > Tu(0) {
            true => latest,
            false => self.clock.max(latest),
        };
        let step = self.random.within(0, self.season.pace);
        self.clock = Tu(clock.0 + step).min(LAST_READING);
    }

    fn make_call(&mut self, table: &Table) {
        match self.random.below(100) {
            0..=5 => self.probe_latest(table),
            6..=70 => self.receive(table),
            71..=82 => self.look_up(table),
            83..=87 => self.remove(table),
            88..=91 => self.show_key(),
            92..=95 => self.zero_mic(),
            _ => self.set_mic(),
        }
    }

    fn receive(&mut self, table: &Table) {
        let again = self.call.operation == Operation::Receive && self.random.percent(10);
        self.call.operation = Operation::Receive;
        if again {
            self.call.now = self.clock;
            return;
        }
        self.vary_setup();
        self.call.setup.clone_from(&self.sound);
        match self.random.below(100) {
            0..=4 => self.receive_noise(),
            5..=44 if self.has_waiting(table) => self.receive_third(table),
            5..=9 => self.receive_third(table),
            _ => self.receive_first(table),
        }
        if self.random.percent(if self.season.crowded { 1 } else { 6 }) {
            self.to_an_edge(table);
        }
        self.call.now = self.clock;
        let faults = self.random.pick(&[0, 0, 0, 0, 0, 0, 0, 0, 1, 1, 2]);
        (0..faults).for_each(|_| self.spoil_setup());
    }

    /// Brings the clock to the deadline or end of some record, or beside it.
    fn to_an_edge(&mut self, table: &Table) {
        let address = match self.random.below(2) {
            0 => self.call.address,
            _ => self.station(),
        };
        if let Ok(record) = table.look_up(self.clock, address) {
            self.clock = self.beside(record.time()).max(self.clock).min(LAST_READING);
        }
    }

    fn beside(&mut self, time: Tu) -> Tu {
        Tu(time.0 + self.random.within(0, 2) - 1)
    }

    fn receive_first(&mut self, table: &Table) {
        let (chances, two_steps, faults) = match self.season.crowded {
            true => ([78, 10, 8], 4, [0, 0, 0, 0, 0, 0, 0, 1]),
            false => ([45, 30, 12], 12, [0, 0, 0, 1, 1, 1, 2, 3]),
        };
        self.call.address = self.choose_station(table, chances);
        let mut frame = self.sound_first();
        if self.random.percent(two_steps) {
            self.fail_two_steps(&mut frame);
        } else {
            let faults = self.random.pick(&faults);
            (0..faults).for_each(|_| self.spoil_first(&mut frame));
        }
        self.write_frame(&frame, 1);
        self.spoil_body(6);
    }

    fn receive_third(&mut self, table: &Table) {
        self.call.address = self.choose_station(table, [5, 75, 10]);
        let mut frame = self.sound_third();
        self.call.setup.mic.set(frame.mic.as_slice());
        if self.random.percent(25) {
            self.spoil_third(&mut frame);
        }
        self.write_frame(&frame, 3);
        self.spoil_body(5);
    }

    fn receive_noise(&mut self) {
        self.call.address = self.station();
        let length = self
            .random
            .pick(&[0, 1, 5, 6, 7, 8, 40, 200, 1023, 1024, 1025, 4096]);
        self.call.body.clear();
        if self.random.percent(80) {
            let transaction = self.random.pick(&[1, 2, 3]);
            self.call.body.put(&[7, 0, transaction, 0, 0, 0]);
        }
        let rest = length - self.call.body.len().min(length);
        match self.random.below(2) {
            0 => self.call.body.put_random(rest, &mut self.random),
            _ => self.pad_to(length),
        }
        self.call.body.cut(length);
    }

    fn look_up(&mut self, table: &Table) {
        self.call.operation = Operation::LookUp;
        self.call.address = match self.random.below(10) {
            0..=3 => self.call.address,
            4 => self.any_address(),
            _ => self.choose_station(table, [10, 45, 35]),
        };
        let found = table.look_up(self.clock, self.call.address);
        self.call.now = match (self.random.below(20), found) {
            (0, _) => self.refused_reading(table),
            (1..=9, Ok(record)) => self.beside(record.time()),
            (10, _) => self.random.pick(&[table.latest(), LAST_READING]),
            _ => self.clock,
        };
    }

    /// Shows whether the call before set the latest reading.
    fn probe_latest(&mut self, table: &Table) {
        self.call.operation = Operation::LookUp;
        self.call.now = Tu(table.latest().0.saturating_sub(1));
    }

    fn remove(&mut self, table: &Table) {
        self.call.operation = Operation::Remove;
        self.call.address = match self.random.below(8) {
            0 => self.random.pick(&GROUPS),
            1 => self.station(),
            _ => self.choose_station(table, [10, 40, 40]),
        };
        if self.random.percent(10) {
            self.to_an_edge(table);
        }
        self.call.now = match self.random.below(8) {
            0 => self.refused_reading(table),
            _ => self.clock,
        };
    }

    /// A reading that is refused, unless the latest is 0.
    fn refused_reading(&mut self, table: &Table) -> Tu {
        let latest = table.latest().0;
        Tu(match self.random.below(6) {
            0 => LAST_READING.0 + 1,
            1 => u64::MAX,
            2 => 0,
            3 => self.random.within(0, latest),
            _ => latest.saturating_sub(1),
        })
    }

    fn show_key(&mut self) {
        self.call.operation = Operation::ShowKey;
        let mut frame = self.sound_first();
        let faults = self.random.below(3);
        (0..faults).for_each(|_| self.spoil_first(&mut frame));
        let transaction = self.random.pick(&[1, 1, 1, 1, 1, 1, 1, 3]);
        self.write_frame(&frame, transaction);
        self.spoil_body(10);
    }

    fn zero_mic(&mut self) {
        self.call.operation = Operation::ZeroMic;
        self.mic_body();
        let length = self.call.body.len();
        let lengths = [
            length,
            length,
            length + 1,
            2048,
            length.saturating_sub(1),
            0,
        ];
        self.call.second_length = self.random.pick(&lengths).min(2048);
    }

    fn set_mic(&mut self) {
        self.call.operation = Operation::SetMic;
        self.mic_body();
        let length = self.random.pick(&[16, 16, 16, 16, 16, 0, 15, 17, 255]);
        self.call.setup.mic.clear();
        self.call.setup.mic.put_random(length, &mut self.random);
    }

    /// A second or third frame, or something near to one.
    fn mic_body(&mut self) {
        let mut frame = self.sound_third();
        if self.random.percent(50) {
            frame = self.sound_first();
            frame.parts.remove(Part::Mic);
            frame.parts.add(Part::Mic);
        }
        if self.random.percent(25) {
            self.spoil_third(&mut frame);
        }
        let transaction = self.random.pick(&[2, 2, 2, 3, 3, 3, 1, 4]);
        self.write_frame(&frame, transaction);
        self.spoil_body(8);
    }
}

/// Choosing addresses.
impl Generator {
    fn station(&mut self) -> Address {
        self.random.pick(&self.stations)
    }

    fn any_address(&mut self) -> Address {
        match self.random.below(12) {
            0 => self.random.pick(&GROUPS),
            _ => self.station(),
        }
    }

    fn has_waiting(&self, table: &Table) -> bool {
        let mut stations = self.stations.iter();
        stations.any(|&station| Kind::of(table, self.clock, station) == Kind::Waiting)
    }

    /// A station without a live record, waiting, or installed, with these chances in a
    /// hundred; any station for the rest, or if there is none of the kind.
    fn choose_station(&mut self, table: &Table, chances: [usize; 3]) -> Address {
        let drawn = self.random.below(100);
        let kind = if drawn < chances[0] {
            Kind::Absent
        } else if drawn < chances[0] + chances[1] {
            Kind::Waiting
        } else if drawn < chances[0] + chances[1] + chances[2] {
            Kind::Installed
        } else {
            return self.station();
        };
        let start = self.random.below(STATIONS);
        let (before, after) = self.stations.split_at(start);
        let mut candidates = after.iter().chain(before);
        let clock = self.clock;
        let chosen = candidates.find(|&&station| Kind::of(table, clock, station) == kind);
        chosen.copied().unwrap_or(self.stations[start])
    }
}

#[derive(PartialEq)]
enum Kind {
    Absent,
    Waiting,
    Installed,
}

impl Kind {
    fn of(table: &Table, now: Tu, address: Address) -> Kind {
        match table.look_up(now, address).map(|record| record.phase) {
            Ok(Phase::Waiting { .. }) => Kind::Waiting,
            Ok(Phase::Installed { .. }) => Kind::Installed,
            Err(_) => Kind::Absent,
        }
    }
}

/// Every address that a call may name.
pub fn addresses() -> [Address; STATIONS + GROUPS.len()] {
    let mut addresses = [[0; 6]; STATIONS + GROUPS.len()];
    let (stations, groups) = addresses.split_at_mut(STATIONS);
    stations.copy_from_slice(&make_stations());
    groups.copy_from_slice(&GROUPS);
    addresses
}

/// Stations that differ in one octet each, in every place.
fn make_stations() -> [Address; STATIONS] {
    let mut stations = [[2, 0, 0, 0, 0, 1]; STATIONS];
    for (number, station) in stations.iter_mut().enumerate() {
        station[number % 6] ^= 4 << (number / 6);
    }
    stations
}

/// PMKIDs that differ in one octet each.
fn make_pmkids(random: &mut Random) -> [Pmkid; PMKIDS] {
    let mut first = [0; 16];
    random.fill(&mut first);
    let mut pmkids = [first; PMKIDS];
    for (number, pmkid) in pmkids.iter_mut().enumerate() {
        pmkid[(number * 15) / (PMKIDS - 1)] ^= 0x10;
    }
    pmkids
}

/// The set-up: sound ones, and departures.
impl Generator {
    fn vary_setup(&mut self) {
        match self.random.below(100) {
            0..=3 => self.renew_cache(),
            4..=8 => self.renew_own_key(),
            9..=10 => self.sound.settings = self.new_settings(),
            11..=15 => self.sound.reply_length = self.random.pick(&[148, 149, 300, 2048]),
            _ => {}
        }
        self.sound.point_valid = true;
        self.sound.mic.set(self.call.setup.mic.as_slice());
        if self.usable_record().is_none() && self.random.percent(50) {
            self.renew_cache();
        }
    }

    fn renew_cache(&mut self) {
        let count = match self.random.below(8) {
            0 => 0,
            1 => 1,
            2 => 64,
            3 => 63,
            4 => self.random.below(65),
            _ => self.random.below(9),
        };
        self.sound.cache.clear();
        (0..count).for_each(|_| self.add_cache_record());
    }

    fn add_cache_record(&mut self) {
        let now = self.clock.0;
        let akm = self.random.pick(&[5, 6, 8, 5, 6, 8, 5, 6, 8, 21, 0, 255]);
        let end = match self.random.below(10) {
            0 => self.random.pick(&[0, u64::MAX, 1 << 63, LAST_READING.0]),
            1 => now.saturating_sub(1),
            2 => now,
            3 => now + 1,
            4 => now + self.random.within(0, 20),
            _ => now + self.random.within(200, 100_000),
        };
        let pmkid = self.random.pick(&self.pmkids);
        let cache = &mut self.sound.cache;
        cache.put(&[0x31, 25, 0]);
        cache.put(&pmkid);
        cache.put(&[akm]);
        cache.put(&end.to_le_bytes());
    }

    fn renew_own_key(&mut self) {
        let (length, first) = self.random.pick(&[(33, 2), (33, 3), (65, 4)]);
        self.sound.own_key.clear();
        self.sound.own_key.put_random(length, &mut self.random);
        self.sound.own_key.as_mut_slice()[0] = first;
    }

    fn spoil_setup(&mut self) {
        match self.random.below(10) {
            0 => self.call.setup.reply_length = self.random.pick(&[0, 6, 100, 147]),
            1 => self.spoil_settings(),
            2 => self.call.address = self.random.pick(&GROUPS),
            3 => self.spoil_cache(),
            4..=6 => self.spoil_own_key(),
            7..=8 => self.call.setup.point_valid = false,
            _ => self.spoil_clock(),
        }
    }

    /// The clock of this call only: the generator's own goes on from where it was.
    fn spoil_clock(&mut self) {
        let now = self.clock.0;
        self.call.now = Tu(match self.random.below(5) {
            0 => LAST_READING.0 + 1,
            1 => self
                .random
                .pick(&[u64::MAX, 1 << 63, LAST_READING.0 + 1000]),
            2 => 0,
            3 => self.random.within(0, now),
            _ => now.saturating_sub(1),
        });
    }

    fn spoil_settings(&mut self) {
        let settings = &mut self.call.setup.settings;
        match self.random.below(2) {
            0 => {
                let lifetimes = [0, 86_401, 86_400 + 65_536, u32::MAX];
                settings.key_lifetime = Seconds(self.random.pick(&lifetimes));
            }
            _ => {
                let deadlines = [0, 10_001, 10_000 + 65_536, u64::from(u32::MAX)];
                settings.exchange_deadline = Tu(self.random.pick(&deadlines));
            }
        }
    }

    fn spoil_own_key(&mut self) {
        let (length, first) = match self.random.below(14) {
            0 => (255, 4),
            _ => self.random.pick(&WRONG_KEYS),
        };
        let key = &mut self.call.setup.own_key;
        key.clear();
        key.put_random(length, &mut self.random);
        if let Some(octet) = key.as_mut_slice().first_mut() {
            *octet = first;
        }
    }

    fn spoil_cache(&mut self) {
        let fault = self.random.below(6);
        let tail = 1 + self.random.below(27);
        if self.sound.cache.len() == 0 {
            self.add_cache_record();
        }
        let whole = self.sound.cache.clone();
        let records = whole.len() / CACHE_RECORD;
        let start = self.random.below(records) * CACHE_RECORD;
        let cache = &mut self.call.setup.cache;
        cache.set(whole.as_slice());
        match fault {
            0 => {
                let record = &whole.as_slice()[..CACHE_RECORD];
                let count = self.random.pick(&[65, 65, 66, 73]);
                (records..count).for_each(|_| cache.put(record));
            }
            1 => cache.put_random(tail, &mut self.random),
            2 => cache.as_mut_slice()[start] = self.random.pick(&[0x30, 0x32, 0, 0xb1]),
            3 => cache.as_mut_slice()[start + 1] = self.random.pick(&[0, 24, 26, 255]),
            4 => cache.as_mut_slice()[start + 2] = self.random.pick(&[1, 25, 255]),
            _ => cache.cut(whole.len() - tail),
        }
    }
}

/// The elements of a frame to be written.
#[derive(Clone, Copy, PartialEq, Debug)]
enum Part {
    Rsne,
    Timeout,
    Parameters,
    Wrapped,
    Mic,
    Fragment,
    Unknown,
    UnknownExtension,
    EmptyExtension,
}

#[derive(Clone)]
struct Parts {
    list: [Part; 16],
    count: usize,
}

impl Parts {
    fn of(parts: &[Part]) -> Parts {
        let mut all = Parts {
            list: [Part::Unknown; 16],
            count: 0,
        };
        parts.iter().for_each(|&part| all.add(part));
        all
    }

    fn as_slice(&self) -> &[Part] {
        &self.list[..self.count]
    }

    fn add(&mut self, part: Part) {
        if self.count < self.list.len() {
            self.list[self.count] = part;
            self.count += 1;
        }
    }

    fn insert(&mut self, place: usize, part: Part) {
        self.add(part);
        let place = place.min(self.count - 1);
        self.list[place..self.count].rotate_right(1);
    }

    fn remove(&mut self, part: Part) {
        if let Some(place) = self.as_slice().iter().position(|&listed| listed == part) {
            self.list[place..self.count].rotate_left(1);
            self.count -= 1;
        }
    }

    fn shuffle(&mut self, random: &mut Random) {
        for last in (1..self.count).rev() {
            self.list.swap(last, random.below(last + 1));
        }
    }
}

/// What a frame is to say, before it is put into octets.
#[derive(Clone)]
struct Frame {
    algorithm: u16,
    transaction_high: u8,
    status: u16,
    version: u16,
    group_cipher: [u8; 4],
    pairwise_count: u16,
    pairwise: Octets<16>,
    akm_count: u16,
    akms: Octets<16>,
    capabilities: u16,
    pmkid_count: u16,
    pmkids: Octets<240>,
    management_cipher: [u8; 4],
    timeout: Octets<8>,
    control: u8,
    format: u8,
    cookie_length: u8,
    cookie: Octets<128>,
    group: u16,
    key_length: u8,
    key: Octets<80>,
    /// Octets after the fields of the RSNE and of PASN Parameters.
    tails: [Octets<4>; 2],
    mic: Octets<20>,
    parts: Parts,
}

fn suite(number: u8) -> [u8; 4] {
    [SELECTOR[0], SELECTOR[1], SELECTOR[2], number]
}

impl Frame {
    fn bare(parts: &[Part]) -> Frame {
        Frame {
            algorithm: 7,
            transaction_high: 0,
            status: 0,
            version: 1,
            group_cipher: suite(7),
            pairwise_count: 0,
            pairwise: Octets::new(),
            akm_count: 0,
            akms: Octets::new(),
            capabilities: 0x00c0,
            pmkid_count: 0,
            pmkids: Octets::new(),
            management_cipher: suite(7),
            timeout: Octets::new(),
            control: 0,
            format: 0,
            cookie_length: 0,
            cookie: Octets::new(),
            group: 19,
            key_length: 0,
            key: Octets::new(),
            tails: [Octets::new(), Octets::new()],
            mic: Octets::new(),
            parts: Parts::of(parts),
        }
    }

    fn add_pairwise(&mut self, suite: [u8; 4]) {
        self.pairwise.put(&suite);
        self.pairwise_count = (self.pairwise.len() / 4) as u16;
    }

    fn add_akm(&mut self, suite: [u8; 4]) {
        self.akms.put(&suite);
        self.akm_count = (self.akms.len() / 4) as u16;
    }

    fn add_pmkid(&mut self, pmkid: &Pmkid) {
        self.pmkids.put(pmkid);
        self.pmkid_count = (self.pmkids.len() / 16) as u16;
    }

    fn set_timeout(&mut self, kind: u8, seconds: u32) {
        self.timeout.set(&[kind]);
        self.timeout.put(&seconds.to_le_bytes());
    }

    fn set_key(&mut self, length: usize, first: u8, random: &mut Random) {
        self.key.clear();
        self.key.put_random(length, random);
        if let Some(octet) = self.key.as_mut_slice().first_mut() {
            *octet = first;
        }
        self.key_length = self.key.len() as u8;
    }

    fn set_cookie(&mut self, length: usize, random: &mut Random) {
        self.control |= 1;
        self.cookie.clear();
        self.cookie.put_random(length, random);
        self.cookie_length = self.cookie.len() as u8;
    }

    fn rsne(&self) -> Octets<320> {
        let mut content = Octets::new();
        content.put(&self.version.to_le_bytes());
        content.put(&self.group_cipher);
        content.put(&self.pairwise_count.to_le_bytes());
        content.put(self.pairwise.as_slice());
        content.put(&self.akm_count.to_le_bytes());
        content.put(self.akms.as_slice());
        content.put(&self.capabilities.to_le_bytes());
        content.put(&self.pmkid_count.to_le_bytes());
        content.put(self.pmkids.as_slice());
        content.put(&self.management_cipher);
        content.put(self.tails[0].as_slice());
        content
    }

    fn parameters(&self) -> Octets<256> {
        let mut content = Octets::new();
        content.put(&[100, self.control, self.format]);
        if self.control & 1 != 0 {
            content.put(&[self.cookie_length]);
            content.put(self.cookie.as_slice());
        }
        if self.control & 2 != 0 {
            content.put(&self.group.to_le_bytes());
            content.put(&[self.key_length]);
            content.put(self.key.as_slice());
        }
        content.put(self.tails[1].as_slice());
        content
    }
}

/// Sound frames.
impl Generator {
    fn sound_first(&mut self) -> Frame {
        let mut frame = Frame::bare(&[Part::Rsne, Part::Parameters]);
        self.offer_akm(&mut frame);
        let ciphers = self.sound.settings.ciphers;
        let start = self.random.below(4);
        let allowed = (start..start + 4)
            .map(|place| place % 4)
            .find(|&place| ciphers[place]);
        frame.add_pairwise(suite(CIPHERS[allowed.unwrap_or(start)]));
        frame.capabilities = self.random.pick(&SOUND_CAPABILITIES);
        if self.random.percent(55) {
            let lifetime = self.sound.settings.key_lifetime.0;
            let around = [
                lifetime.max(2) - 1,
                lifetime.max(1),
                lifetime + 1,
                1,
                u32::MAX,
            ];
            frame.set_timeout(2, self.random.pick(&around));
            frame.parts.insert(1, Part::Timeout);
        }
        let (length, first) = self.random.pick(&[(33, 2), (33, 3), (65, 4)]);
        frame.control = 2;
        frame.set_key(length, first, &mut self.random);
        if self.random.percent(10) {
            frame.status = self.random.word() as u16;
        }
        if self.random.percent(12) {
            let length = self.random.pick(&[0, 1, 8, 32, 128]);
            frame.set_cookie(length, &mut self.random);
        }
        frame.mic.put_random(MIC_LENGTH, &mut self.random);
        self.vary_parts(&mut frame);
        frame
    }

    /// The AKM and the PMKIDs.
    fn offer_akm(&mut self, frame: &mut Frame) {
        let usable = self.usable_record();
        let without = self.sound.settings.without_pmk && self.random.percent(35);
        let (akm, pmkid) = match usable {
            Some(record) if !without => record,
            _ if self.random.percent(90) => {
                frame.add_akm(suite(AKM_PASN));
                return;
            }
            _ => (self.random.pick(&[5, 6, 8]), self.pmkids[0]),
        };
        frame.add_akm(suite(akm));
        let count = match self.random.below(8) {
            0..=3 => 1,
            4 => 2,
            5 => 3,
            6 => 14,
            _ => 1 + self.random.below(14),
        };
        let place = self.random.pick(&[0, count / 2, count - 1]);
        let strangers = self.random.percent(50);
        for number in 0..count {
            let mut other = self.random.pick(&self.pmkids);
            if strangers {
                other[self.random.pick(&[0, 7, 15])] ^= 1 << self.random.below(4);
            }
            frame.add_pmkid(if number == place { &pmkid } else { &other });
        }
    }

    /// AKM and PMKID of some record of the sound cache that a first frame may name now.
    fn usable_record(&mut self) -> Option<(u8, Pmkid)> {
        let octets = self.sound.cache.as_slice();
        let start = self.random.below(64);
        let records = octets.chunks_exact(CACHE_RECORD);
        let usable = records.filter(|record| {
            let end = record[20..28].try_into().map_or(0, u64::from_le_bytes);
            matches!(record[19], 5 | 6 | 8) && end > self.clock.0
        });
        let count = usable.clone().count();
        let record = usable.clone().nth(start % count.max(1))?;
        Some((record[19], record[3..19].try_into().ok()?))
    }

    fn sound_third(&mut self) -> Frame {
        let mut frame = Frame::bare(&[Part::Parameters, Part::Mic]);
        frame.mic.put_random(MIC_LENGTH, &mut self.random);
        if self.random.percent(12) {
            // Ignored in a third frame, even twice or ill-formed.
            let ignored = [Part::Rsne, Part::Timeout];
            let first = self.random.pick(&ignored);
            frame.parts.insert(0, first);
            frame.parts.insert(0, self.random.pick(&ignored));
        }
        self.vary_parts(&mut frame);
        frame
    }

    fn vary_parts(&mut self, frame: &mut Frame) {
        if self.random.percent(10) {
            frame.control |= self.random.octet() & 0xfc;
        }
        if !frame.parts.as_slice().contains(&Part::Mic) && self.random.percent(10) {
            let copies = 1 + self.random.below(2);
            (0..copies).for_each(|_| frame.parts.add(Part::Mic));
        }
        let extra = self.random.pick(&[0, 0, 0, 1, 1, 2, 4]);
        for _ in 0..extra {
            let part = self.random.pick(&[Part::Unknown, Part::UnknownExtension]);
            let place = self.random.below(6);
            frame.parts.insert(place, part);
        }
        if self.random.percent(25) {
            frame.parts.shuffle(&mut self.random);
        }
    }
}

/// Near misses.
impl Generator {
    fn spoil_first(&mut self, frame: &mut Frame) {
        match self.random.below(100) {
            0..=5 => self.spoil_header(frame),
            6..=15 => self.spoil_suites(frame),
            16..=32 => self.spoil_lists(frame),
            33..=42 => self.spoil_pmkids(frame),
            43..=50 => self.spoil_timeout(frame),
            51..=61 => self.spoil_format(frame),
            62..=69 => self.spoil_key(frame),
            70..=75 => frame.group = self.random.pick(&[0, 18, 20, 21, 0x1300, 0x0113]),
            76..=82 => self.spoil_parameters(frame),
            83..=89 => {
                let capabilities = [0x0080, 0x0040, 0x00c2, 0, 0xc000, 0xff3f, 0xffff];
                frame.capabilities = self.random.pick(&capabilities);
            }
            _ => self.spoil_parts(frame),
        }
    }

    /// Shows the order of two steps, mostly neighbours.
    fn fail_two_steps(&mut self, frame: &mut Frame) {
        let step = 1 + self.random.below(10);
        self.fail_step(frame, step);
        let other = match self.random.percent(70) {
            true => step + 1,
            false => 1 + self.random.below(10),
        };
        self.fail_step(frame, other);
    }

    /// Makes this step of document 01 refuse the frame; the eleventh is for the table.
    fn fail_step(&mut self, frame: &mut Frame, step: usize) {
        match step {
            1 => frame.parts.insert(0, Part::Fragment),
            2 => {
                frame.format = 1 + self.random.below(3) as u8;
                frame.parts.add(Part::Wrapped);
            }
            3 => frame.group_cipher = suite(4),
            4 => frame.add_pairwise(suite(4)),
            5 => frame.add_akm(suite(8)),
            6 => frame.capabilities = self.random.pick(&[0, 0x0040, 0x0080, 0x00c2]),
            7 => frame.group = 20,
            8 => frame.set_key(33, 4, &mut self.random),
            9 => self.call.setup.point_valid = false,
            10 if frame.pmkid_count == 0 => frame.add_pmkid(&self.random.pick(&self.pmkids)),
            10 => {
                frame.pmkids.clear();
                frame.pmkid_count = 0;
            }
            _ => {}
        }
    }

    fn spoil_header(&mut self, frame: &mut Frame) {
        match self.random.below(2) {
            0 => frame.algorithm = self.random.pick(&[0, 3, 6, 8, 0x0107, 0x0700]),
            _ => frame.transaction_high = self.random.pick(&[1, 0x80]),
        }
    }

    fn spoil_suites(&mut self, frame: &mut Frame) {
        let mut other = suite(self.random.pick(&[4, 6, 8, 0, 71]));
        if self.random.percent(40) {
            other = suite(7);
            other[self.random.below(3)] ^= 1 << self.random.below(8);
        }
        match self.random.below(4) {
            0 => frame.group_cipher = other,
            1 => frame.management_cipher = other,
            2 => frame.version = self.random.pick(&[0, 2, 0x0101, 0x0100]),
            _ => {
                let count = 1 + self.random.below(4);
                frame.tails[0].put_random(count, &mut self.random);
            }
        }
    }

    fn spoil_lists(&mut self, frame: &mut Frame) {
        let other = suite(self.random.pick(&OTHER_TYPES));
        match self.random.below(12) {
            0 => frame.add_pairwise(other),
            1 => frame.add_akm(other),
            2 => {
                frame.pairwise.clear();
                frame.pairwise_count = 0;
            }
            3 => {
                frame.akms.clear();
                frame.akm_count = 0;
            }
            4 => frame.pairwise.set(&other),
            5 => frame.akms.set(&other),
            6 => frame.pairwise.spoil_selector(&mut self.random),
            7 => frame.akms.spoil_selector(&mut self.random),
            8 => frame.akms.set(&suite(AKM_PASN)),
            9 => frame.akms.set(&suite(self.random.pick(&[5, 6, 8]))),
            10 => frame.pairwise_count = self.random.pick(&[0, 2, 257, 0x4000, 0x4001, 65_535]),
            _ => frame.akm_count = self.random.pick(&[0, 2, 257, 0x4000, 0x4001, 65_535]),
        }
    }

    fn spoil_pmkids(&mut self, frame: &mut Frame) {
        match self.random.below(6) {
            0 => {
                frame.pmkids.clear();
                frame.pmkid_count = 0;
            }
            1 => {
                frame.pmkids.cut(16);
                frame.pmkid_count = (frame.pmkids.len() / 16) as u16;
                let place = self.random.pick(&[0, 7, 15]);
                if let Some(octet) = frame.pmkids.as_mut_slice().get_mut(place) {
                    *octet ^= 1 << self.random.below(4);
                }
            }
            2 => frame.pmkid_count = self.random.pick(&[0, 1, 2, 15, 257, 0x1001, 65_535]),
            3 => self.name_one_record(frame),
            4 => frame.add_pmkid(&self.random.pick(&self.pmkids)),
            _ => {
                let count = 1 + self.random.below(14);
                frame.pmkids.clear();
                for _ in 0..count {
                    frame.add_pmkid(&self.random.pick(&self.pmkids));
                }
            }
        }
    }

    /// The PMKID and AKM of any cache record, whatever its AKM and end; or its PMKID only.
    fn name_one_record(&mut self, frame: &mut Frame) {
        let records = self.sound.cache.as_slice().chunks_exact(CACHE_RECORD);
        let chosen = self.random.below(records.len().max(1));
        if let Some(record) = records.clone().nth(chosen) {
            frame.pmkids.set(&record[3..19]);
            frame.pmkid_count = 1;
            if self.random.percent(60) {
                frame.akms.set(&suite(record[19]));
            }
        }
    }

    fn spoil_timeout(&mut self, frame: &mut Frame) {
        if !frame.parts.as_slice().contains(&Part::Timeout) {
            frame.parts.add(Part::Timeout);
        }
        frame.set_timeout(2, 600);
        match self.random.below(5) {
            0 => frame.set_timeout(2, 0),
            1 => frame.set_timeout(self.random.pick(&[0, 1, 3, 4, 255]), 600),
            2 => frame.timeout.cut(self.random.below(5)),
            3 => frame.timeout.put_random(1, &mut self.random),
            _ => frame.set_timeout(2, self.random.pick(&[1 << 8, 1 << 16, 1 << 24, 1 << 31])),
        }
    }

    fn spoil_format(&mut self, frame: &mut Frame) {
        frame.format = match self.random.below(4) {
            0 => 0,
            1 => self.random.pick(&[4, 5, 128, 255]),
            _ => self.random.pick(&[1, 2, 3]),
        };
        if self.random.percent(65) {
            frame.parts.insert(2, Part::Wrapped);
        }
    }

    fn spoil_key(&mut self, frame: &mut Frame) {
        let (length, first) = self.random.pick(&WRONG_KEYS);
        frame.set_key(length, first, &mut self.random);
    }

    fn spoil_parameters(&mut self, frame: &mut Frame) {
        match self.random.below(6) {
            0 => frame.control &= !2,
            1 => frame.key_length = frame.key_length.wrapping_add(1),
            2 => frame.key_length = self.random.pick(&[0, 32, 34, 255]),
            3 => {
                let count = 1 + self.random.below(3);
                frame.tails[1].put_random(count, &mut self.random);
            }
            4 => frame.control ^= 1,
            _ => {
                let length = self.random.below(9);
                frame.set_cookie(length, &mut self.random);
                frame.cookie_length = self.random.octet();
            }
        }
    }

    fn spoil_parts(&mut self, frame: &mut Frame) {
        let place = self.random.below(6);
        match self.random.below(6) {
            0 => frame.parts.remove(Part::Rsne),
            1 => frame.parts.remove(Part::Parameters),
            2 => frame.parts.insert(place, Part::Fragment),
            3 => frame.parts.insert(place, Part::EmptyExtension),
            4 => {
                let copies = 1 + self.random.below(2);
                (0..copies).for_each(|_| frame.parts.insert(place, Part::Wrapped));
                frame.format = self.random.pick(&[0, 1]);
            }
            _ => {
                let twice = self
                    .random
                    .pick(&[Part::Rsne, Part::Timeout, Part::Parameters]);
                frame.parts.insert(place, twice);
            }
        }
    }

    fn spoil_third(&mut self, frame: &mut Frame) {
        let place = self.random.below(4);
        match self.random.below(23) {
            0 => frame.parts.remove(Part::Mic),
            1 => frame.parts.insert(place, Part::Mic),
            2 => frame.parts.remove(Part::Parameters),
            3 => frame.parts.insert(place, Part::Parameters),
            4 => frame.parts.insert(place, Part::Wrapped),
            5 => frame.parts.insert(place, Part::Fragment),
            6 => frame.parts.insert(place, Part::EmptyExtension),
            7 => frame.mic.spoil_one(&mut self.random),
            8 => frame.mic.cut(self.random.pick(&[0, 1, 15])),
            9 => frame.mic.put_random(1, &mut self.random),
            10 => frame.format = self.random.pick(&[1, 2, 3, 4, 255]),
            11 => frame.set_cookie(4, &mut self.random),
            12 => {
                frame.control |= 2;
                frame.set_key(33, 2, &mut self.random);
            }
            13 => frame.tails[1].put_random(1, &mut self.random),
            14..=15 => self.spoil_header(frame),
            16..=19 => frame.status = self.random.pick(&[1, 0x0100, 40, 65_535]),
            _ => self.spoil_lent_mic(frame),
        }
    }

    fn spoil_lent_mic(&mut self, frame: &mut Frame) {
        let length = self.random.pick(&[0, 1, 15, 16, 17, 32]);
        let mic = &mut self.call.setup.mic;
        match self.random.below(2) {
            0 => {
                mic.set(frame.mic.as_slice());
                mic.put_random(length - length.min(MIC_LENGTH), &mut self.random);
                mic.cut(length);
            }
            _ => {
                // The frame's MIC is as short or long as the lent one, and the same.
                frame.mic.put_random(4, &mut self.random);
                frame.mic.cut(length);
                mic.set(frame.mic.as_slice());
            }
        }
    }
}

/// Octets.
impl Generator {
    fn write_frame(&mut self, frame: &Frame, transaction: u8) {
        let body = &mut self.call.body;
        body.set(&frame.algorithm.to_le_bytes());
        body.put(&[transaction, frame.transaction_high]);
        body.put(&frame.status.to_le_bytes());
        for part in frame.parts.as_slice() {
            match part {
                Part::Rsne => body.put_element(48, frame.rsne().as_slice()),
                Part::Timeout => body.put_element(56, frame.timeout.as_slice()),
                Part::Parameters => body.put_element(255, frame.parameters().as_slice()),
                Part::Mic => body.put_element(140, frame.mic.as_slice()),
                Part::EmptyExtension => body.put_element(255, &[]),
                Part::Wrapped => put_some(body, 255, &[8], &mut self.random),
                Part::Fragment => put_some(body, 242, &[], &mut self.random),
                Part::Unknown => {
                    let id = self.random.pick(&UNKNOWN_IDS);
                    put_some(body, id, &[], &mut self.random);
                }
                Part::UnknownExtension => {
                    let extension = self.random.pick(&UNKNOWN_EXTENSIONS);
                    put_some(body, 255, &[extension], &mut self.random);
                }
            }
        }
    }

    /// Changes the written body with this chance in a hundred.
    fn spoil_body(&mut self, chance: usize) {
        if !self.random.percent(chance) {
            return;
        }
        let length = self.call.body.len();
        let longer = self.random.pick(&[1023, 1025, 1026, 4096]);
        match self.random.below(10) {
            0..=2 => self.call.body.spoil_one(&mut self.random),
            3 => self.call.body.cut(self.random.below(length + 1)),
            4 => self.call.body.cut(length - 1),
            5 => self.call.body.put_random(1, &mut self.random),
            6 => self.call.body.put(&[221, 200, 1, 2, 3]),
            7 => self.call.body.cut(self.random.pick(&[0, 5, 6, 7])),
            8 => self.pad_to(longer),
            _ => self.pad_to(1024),
        }
    }

    /// Brings the body to this length with elements that are skipped.
    fn pad_to(&mut self, length: usize) {
        let content = [0x5a; 255];
        while self.call.body.len() + 2 <= length {
            let room = length - self.call.body.len() - 2;
            let taken = if room == 256 { 254 } else { room.min(255) };
            let id = self.random.pick(&UNKNOWN_IDS);
            self.call.body.put_element(id, &content[..taken]);
        }
    }
}

fn put_some(body: &mut Octets<4096>, id: u8, start: &[u8], random: &mut Random) {
    let mut content: Octets<64> = Octets::new();
    content.put(start);
    let count = random.pick(&[0, 1, 5, 16, 40]);
    content.put_random(count, random);
    body.put_element(id, content.as_slice());
}
