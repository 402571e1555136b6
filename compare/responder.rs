//! The responder of document 01 in plain Rust, to hold another implementation against.
//! The table is changed in place; nothing but `core` is used.

use core::ops::RangeInclusive;

pub type Address = [u8; 6];
pub type Pmkid = [u8; 16];

#[derive(Clone, Copy, PartialEq, Eq, PartialOrd, Ord, Debug)]
pub struct Seconds(pub u32);

/// Time units of 1,024 microseconds.
#[derive(Clone, Copy, PartialEq, Eq, PartialOrd, Ord, Debug)]
pub struct Tu(pub u64);

impl Seconds {
    pub fn in_tu(self) -> Tu {
        Tu(u64::from(self.0) * 15_625 / 16)
    }
}

impl Tu {
    fn plus(self, other: Tu) -> Tu {
        Tu(self.0 + other.0)
    }
}

pub const RECORDS: usize = 16;
pub const LAST_READING: Tu = Tu(1 << 48);
pub const LEAST_REPLY: usize = 148;
pub const CIPHERS: [u8; 4] = [4, 8, 9, 10];
pub const AKM_PASN: u8 = 21;
pub const MIC_LENGTH: usize = 16;
pub const CACHE_RECORD: usize = 28;
const BODY_LENGTHS: RangeInclusive<usize> = 6..=1024;
const KEY_LIFETIMES: RangeInclusive<Seconds> = Seconds(1)..=Seconds(86_400);
const EXCHANGE_DEADLINES: RangeInclusive<Tu> = Tu(1)..=Tu(10_000);
const CACHE_RECORDS_MOST: usize = 64;
const CACHE_RECORD_HEAD: [u8; 3] = [0x31, 25, 0];

const AKMS: [u8; 4] = [5, 6, 8, AKM_PASN];
const GROUP_CIPHER: u8 = 7;
const SELECTOR: [u8; 3] = [0x00, 0x0f, 0xac];
const GROUP: u16 = 19;

struct KeyForm {
    length: usize,
    first_octets: &'static [u8],
}

const KEY_FORMS: [KeyForm; 2] = [
    KeyForm {
        length: 33,
        first_octets: &[2, 3],
    },
    KeyForm {
        length: 65,
        first_octets: &[4],
    },
];

const ALGORITHM: u16 = 7;
const RSNE: u8 = 48;
const TIMEOUT: u8 = 56;
const MIC: u8 = 140;
const FRAGMENT: u8 = 242;
const EXTENDED: u8 = 255;
const PARAMETERS: u8 = 100;
const WRAPPED_DATA: u8 = 8;

const COMEBACK: u8 = 1;
const GROUP_AND_KEY: u8 = 2;
const MFP_CAPABLE_AND_REQUIRED: u16 = 0x00c0;
const NO_PAIRWISE: u16 = 0x0002;
const KEY_LIFETIME_TYPE: u8 = 2;

/// The answer numbers of document 01.
#[derive(Clone, Copy, PartialEq, Eq, Debug)]
#[repr(u8)]
pub enum Answer {
    FirstAccepted = 0,
    Clock = 1,
    ShortBuffer = 2,
    Settings = 3,
    GroupAddress = 4,
    Cache = 5,
    OwnKey = 6,
    BodyLength = 7,
    OtherAlgorithm = 8,
    OtherTransaction = 9,
    AlreadyInstalled = 10,
    FirstRefused = 11,
    ThirdStatus = 12,
    NoneWaiting = 13,
    ThirdRefused = 14,
    Installed = 15,
    Removed = 16,
    NoRecord = 17,
    Found = 18,
    MicDone = 19,
    MicRefused = 20,
}

/// The steps at which a first frame is refused, in document 01's order.
#[derive(Clone, Copy, PartialEq, Eq, Debug)]
#[repr(u8)]
pub enum Step {
    Elements = 1,
    Wrapped = 2,
    GroupCipher = 3,
    PairwiseCipher = 4,
    Akm = 5,
    Capabilities = 6,
    Group = 7,
    Key = 8,
    Point = 9,
    Pmkid = 10,
    FullTable = 11,
}

impl Step {
    pub fn status(self) -> u16 {
        match self {
            Step::Elements | Step::Key => 40,
            Step::Wrapped | Step::Point => 1,
            Step::GroupCipher => 41,
            Step::PairwiseCipher => 42,
            Step::Akm => 43,
            Step::Capabilities => 45,
            Step::Group => 77,
            Step::Pmkid => 53,
            Step::FullTable => 30,
        }
    }
}

#[derive(Clone, Copy, PartialEq, Eq, Debug)]
pub struct Settings {
    pub without_pmk: bool,
    /// Allowed or not, in the order of `CIPHERS`.
    pub ciphers: [bool; 4],
    pub key_lifetime: Seconds,
    pub exchange_deadline: Tu,
}

impl Settings {
    fn in_range(&self) -> bool {
        KEY_LIFETIMES.contains(&self.key_lifetime)
            && EXCHANGE_DEADLINES.contains(&self.exchange_deadline)
    }

    fn allows_cipher(&self, cipher: u8) -> bool {
        let place = CIPHERS.iter().position(|&known| known == cipher);
        place.map_or(false, |place| self.ciphers[place])
    }

    fn allows_akm(&self, akm: u8) -> bool {
        AKMS.contains(&akm) && (akm != AKM_PASN || self.without_pmk)
    }
}

/// What the chip lends.
#[derive(Clone, Copy)]
pub struct Lent<'a> {
    pub point_valid: bool,
    pub own_key: &'a [u8],
    pub mic: &'a [u8],
}

/// A body, and all that comes with it.
#[derive(Clone, Copy)]
pub struct Arrival<'a> {
    pub settings: &'a Settings,
    pub cache: &'a [u8],
    pub now: Tu,
    pub address: Address,
    pub lent: Lent<'a>,
    pub body: &'a [u8],
}

#[derive(Clone, Copy, PartialEq, Eq, Debug)]
pub struct Outcome {
    pub answer: Answer,
    /// With `FirstRefused` only.
    pub refused_at: Option<Step>,
    /// How many octets of the reply buffer were written.
    pub length: usize,
}

impl Outcome {
    fn silent(answer: Answer) -> Outcome {
        Outcome {
            answer,
            refused_at: None,
            length: 0,
        }
    }
}

#[derive(Clone, Copy, PartialEq, Eq, Debug)]
pub enum Phase {
    Waiting { deadline: Tu },
    Installed { end: Tu },
}

#[derive(Clone, Copy, PartialEq, Eq, Debug)]
pub struct Record {
    pub address: Address,
    pub phase: Phase,
    pub cipher: u8,
    pub akm: u8,
    pub pmkid: Option<Pmkid>,
    pub lifetime: Seconds,
}

impl Record {
    /// The deadline or the end.
    pub fn time(&self) -> Tu {
        match self.phase {
            Phase::Waiting { deadline } => deadline,
            Phase::Installed { end } => end,
        }
    }

    fn is_live(&self, now: Tu) -> bool {
        self.time() > now
    }

    fn is_waiting(&self) -> bool {
        matches!(self.phase, Phase::Waiting { .. })
    }
}

#[derive(Clone)]
pub struct Table {
    records: [Option<Record>; RECORDS],
    latest: Tu,
}

impl Table {
    pub const fn empty() -> Table {
        Table {
            records: [None; RECORDS],
            latest: Tu(0),
        }
    }

    pub fn latest(&self) -> Tu {
        self.latest
    }

    pub fn receive(&mut self, arrival: &Arrival, reply: &mut [u8]) -> Outcome {
        let cache = match self.admit(arrival, reply.len()) {
            Ok(cache) => cache,
            Err(answer) => return Outcome::silent(answer),
        };
        self.latest = arrival.now;
        if !BODY_LENGTHS.contains(&arrival.body.len()) {
            return Outcome::silent(Answer::BodyLength);
        }
        let header = Header::read(arrival.body);
        let slot = self.live_slot(arrival.address, arrival.now);
        if header.algorithm != ALGORITHM {
            self.drop_waiting(slot);
            return Outcome::silent(Answer::OtherAlgorithm);
        }
        match header.transaction {
            1 => self.first(arrival, &cache, slot, reply),
            3 => Outcome::silent(self.third(arrival, slot, header.status)),
            _ => Outcome::silent(Answer::OtherTransaction),
        }
    }

    pub fn look_up(&self, now: Tu, address: Address) -> Result<&Record, Answer> {
        self.check_clock(now)?;
        check_address(address)?;
        self.records
            .iter()
            .flatten()
            .find(|record| record.address == address && record.is_live(now))
            .ok_or(Answer::NoRecord)
    }

    pub fn remove(&mut self, now: Tu, address: Address) -> Answer {
        if let Err(answer) = self.check_clock(now).and_then(|()| check_address(address)) {
            return answer;
        }
        self.latest = now;
        match self.live_slot(address, now) {
            Some(slot) => {
                self.records[slot] = None;
                Answer::Removed
            }
            None => Answer::NoRecord,
        }
    }

    /// Answers 1 to 5.
    fn admit<'a>(&self, arrival: &Arrival<'a>, room: usize) -> Result<Cache<'a>, Answer> {
        self.check_clock(arrival.now)?;
        if room < LEAST_REPLY {
            return Err(Answer::ShortBuffer);
        }
        if !arrival.settings.in_range() {
            return Err(Answer::Settings);
        }
        check_address(arrival.address)?;
        Cache::read(arrival.cache).ok_or(Answer::Cache)
    }

    fn check_clock(&self, now: Tu) -> Result<(), Answer> {
        if (self.latest..=LAST_READING).contains(&now) {
            Ok(())
        } else {
            Err(Answer::Clock)
        }
    }

    fn live_slot(&self, address: Address, now: Tu) -> Option<usize> {
        self.records
            .iter()
            .position(|record| matches!(record, Some(r) if r.address == address && r.is_live(now)))
    }

    fn free_slot(&self, now: Tu) -> Option<usize> {
        self.records
            .iter()
            .position(|record| !matches!(record, Some(r) if r.is_live(now)))
    }

    fn drop_waiting(&mut self, slot: Option<usize>) {
        if let Some(slot) = slot {
            self.records[slot] = self.records[slot].filter(|record| !record.is_waiting());
        }
    }

    fn first(
        &mut self,
        arrival: &Arrival,
        cache: &Cache,
        slot: Option<usize>,
        reply: &mut [u8],
    ) -> Outcome {
        let held = slot.and_then(|slot| self.records[slot]);
        if matches!(held, Some(record) if !record.is_waiting()) {
            return Outcome::silent(Answer::AlreadyInstalled);
        }
        let placed = judge_first(arrival, cache).and_then(|record| {
            let slot = slot.or_else(|| self.free_slot(arrival.now));
            slot.map(|slot| (slot, record)).ok_or(Step::FullTable)
        });
        let (slot, record) = match placed {
            Ok(placed) => placed,
            Err(step) => {
                self.drop_waiting(slot);
                return refuse(step, reply);
            }
        };
        if !fits_group(arrival.lent.own_key) {
            return Outcome::silent(Answer::OwnKey);
        }
        self.records[slot] = Some(record);
        Outcome {
            answer: Answer::FirstAccepted,
            refused_at: None,
            length: write_second(&record, arrival.lent.own_key, reply),
        }
    }

    fn third(&mut self, arrival: &Arrival, slot: Option<usize>, status: u16) -> Answer {
        let place = match slot {
            Some(slot) => &mut self.records[slot],
            None => return Answer::NoneWaiting,
        };
        let record = match place {
            Some(record) if record.is_waiting() => record,
            _ => return Answer::NoneWaiting,
        };
        if status != 0 {
            *place = None;
            return Answer::ThirdStatus;
        }
        if !third_holds(arrival.body, arrival.lent.mic) {
            *place = None;
            return Answer::ThirdRefused;
        }
        record.phase = Phase::Installed {
            end: arrival.now.plus(record.lifetime.in_tu()),
        };
        Answer::Installed
    }
}

/// The key of a first frame, as part of the body; else the empty part at place 0.
pub fn show_key(body: &[u8]) -> &[u8] {
    let nothing = &body[..0];
    if !BODY_LENGTHS.contains(&body.len()) {
        return nothing;
    }
    let header = Header::read(body);
    if header.algorithm != ALGORITHM || header.transaction != 1 {
        return nothing;
    }
    match FirstFrame::read(body) {
        Some(frame) if frame.group == GROUP && fits_group(frame.key) => frame.key,
        _ => nothing,
    }
}

/// Copies the body into the second buffer with its MIC zeroed.
pub fn zero_mic(body: &[u8], second: &mut [u8]) -> Answer {
    let place = match mic_place(body) {
        Some(place) => place,
        None => return Answer::MicRefused,
    };
    if second.len() < body.len() {
        return Answer::ShortBuffer;
    }
    second[..body.len()].copy_from_slice(body);
    second[place..place + MIC_LENGTH].fill(0);
    Answer::MicDone
}

pub fn set_mic(body: &mut [u8], mic: &[u8]) -> Answer {
    match mic_place(body) {
        Some(place) if mic.len() == MIC_LENGTH => {
            body[place..place + MIC_LENGTH].copy_from_slice(mic);
            Answer::MicDone
        }
        _ => Answer::MicRefused,
    }
}

/// Where the MIC of a second or third frame begins, if it has exactly one and that is whole.
fn mic_place(body: &[u8]) -> Option<usize> {
    if !BODY_LENGTHS.contains(&body.len()) {
        return None;
    }
    let header = Header::read(body);
    if header.algorithm != ALGORITHM || !matches!(header.transaction, 2 | 3) {
        return None;
    }
    let mic = gather(body)?.mic.once()?;
    (mic.content.len() == MIC_LENGTH).then(|| mic.place)
}

fn check_address(address: Address) -> Result<(), Answer> {
    if address[0] & 1 == 1 {
        Err(Answer::GroupAddress)
    } else {
        Ok(())
    }
}

fn fits_group(key: &[u8]) -> bool {
    KEY_FORMS
        .iter()
        .any(|form| key.len() == form.length && form.first_octets.contains(&key[0]))
}

/// Steps 1 to 10; the record is what the table is to hold if there is a place.
fn judge_first(arrival: &Arrival, cache: &Cache) -> Result<Record, Step> {
    let frame = FirstFrame::read(arrival.body).ok_or(Step::Elements)?;
    let settings = arrival.settings;
    demand(frame.format == 0, Step::Wrapped)?;
    demand(frame.rsne.has_group_ciphers(), Step::GroupCipher)?;
    let cipher = only_suite(frame.rsne.pairwise)
        .filter(|&cipher| settings.allows_cipher(cipher))
        .ok_or(Step::PairwiseCipher)?;
    let akm = only_suite(frame.rsne.akms)
        .filter(|&akm| settings.allows_akm(akm))
        .ok_or(Step::Akm)?;
    demand(frame.rsne.protects_management(), Step::Capabilities)?;
    demand(frame.group == GROUP, Step::Group)?;
    demand(fits_group(frame.key), Step::Key)?;
    demand(arrival.lent.point_valid, Step::Point)?;
    let pmkid = choose_pmkid(frame.rsne.pmkids, akm, cache, arrival.now)?;
    let lifetime = frame.lifetime.unwrap_or(settings.key_lifetime);
    Ok(Record {
        address: arrival.address,
        phase: Phase::Waiting {
            deadline: arrival.now.plus(settings.exchange_deadline),
        },
        cipher,
        akm,
        pmkid,
        lifetime: lifetime.min(settings.key_lifetime),
    })
}

fn demand(holds: bool, step: Step) -> Result<(), Step> {
    if holds {
        Ok(())
    } else {
        Err(step)
    }
}

fn choose_pmkid(listed: &[u8], akm: u8, cache: &Cache, now: Tu) -> Result<Option<Pmkid>, Step> {
    if akm == AKM_PASN {
        return demand(listed.is_empty(), Step::Pmkid).map(|()| None);
    }
    listed
        .chunks_exact(16)
        .find(|pmkid| cache.holds(pmkid, akm, now))
        .and_then(|pmkid| pmkid.try_into().ok())
        .map(Some)
        .ok_or(Step::Pmkid)
}

fn third_holds(body: &[u8], lent_mic: &[u8]) -> bool {
    let elements = match gather(body) {
        Some(elements) => elements,
        None => return false,
    };
    if elements.fragment.is_seen() || elements.wrapped.is_seen() {
        return false;
    }
    let parameters = elements.parameters.once();
    let parameters = parameters.and_then(|element| Parameters::read(element.content));
    let bare = matches!(
        parameters,
        Some(Parameters {
            comeback: false,
            format: 0,
            offer: None,
        })
    );
    let mic = elements.mic.once().map(|element| element.content);
    bare && mic.map_or(false, |mic| mic.len() == MIC_LENGTH && mic == lent_mic)
}

struct Header {
    algorithm: u16,
    transaction: u16,
    status: u16,
}

impl Header {
    const LENGTH: usize = 6;

    fn read(body: &[u8]) -> Header {
        let field = |place: usize| u16::from_le_bytes([body[place], body[place + 1]]);
        Header {
            algorithm: field(0),
            transaction: field(2),
            status: field(4),
        }
    }

    fn second(status: u16) -> [u8; Header::LENGTH] {
        let mut octets = [0; Header::LENGTH];
        octets[0..2].copy_from_slice(&ALGORITHM.to_le_bytes());
        octets[2..4].copy_from_slice(&2u16.to_le_bytes());
        octets[4..6].copy_from_slice(&status.to_le_bytes());
        octets
    }
}

#[derive(Clone, Copy)]
struct Element<'a> {
    id: u8,
    extension: Option<u8>,
    /// Without the extension ID.
    content: &'a [u8],
    /// Where the content begins in the body.
    place: usize,
}

struct WalkFailed;

struct Elements<'a> {
    body: &'a [u8],
    place: usize,
}

impl<'a> Elements<'a> {
    fn of(body: &'a [u8]) -> Elements<'a> {
        Elements {
            body,
            place: Header::LENGTH,
        }
    }

    fn take(&mut self) -> Option<Element<'a>> {
        let id = *self.body.get(self.place)?;
        let length = usize::from(*self.body.get(self.place + 1)?);
        let place = self.place + 2;
        let content = self.body.get(place..place + length)?;
        self.place = place + length;
        if id != EXTENDED {
            return Some(Element {
                id,
                extension: None,
                content,
                place,
            });
        }
        let (extension, content) = content.split_first()?;
        Some(Element {
            id,
            extension: Some(*extension),
            content,
            place: place + 1,
        })
    }
}

impl<'a> Iterator for Elements<'a> {
    type Item = Result<Element<'a>, WalkFailed>;

    fn next(&mut self) -> Option<Self::Item> {
        if self.place == self.body.len() {
            return None;
        }
        Some(self.take().ok_or(WalkFailed))
    }
}

#[derive(Clone, Copy)]
enum Seen<'a> {
    Never,
    Once(Element<'a>),
    Again,
}

impl<'a> Seen<'a> {
    fn add(&mut self, element: Element<'a>) {
        *self = match self {
            Seen::Never => Seen::Once(element),
            _ => Seen::Again,
        };
    }

    fn is_seen(self) -> bool {
        !matches!(self, Seen::Never)
    }

    fn once(self) -> Option<Element<'a>> {
        match self {
            Seen::Once(element) => Some(element),
            _ => None,
        }
    }

    /// None if it came twice.
    fn at_most_once(self) -> Option<Option<Element<'a>>> {
        match self {
            Seen::Never => Some(None),
            Seen::Once(element) => Some(Some(element)),
            Seen::Again => None,
        }
    }
}

/// The elements of a frame that any rule asks for.
struct Gathered<'a> {
    rsne: Seen<'a>,
    timeout: Seen<'a>,
    parameters: Seen<'a>,
    wrapped: Seen<'a>,
    mic: Seen<'a>,
    fragment: Seen<'a>,
}

/// None if the walk fails.
fn gather(body: &[u8]) -> Option<Gathered<'_>> {
    let mut gathered = Gathered {
        rsne: Seen::Never,
        timeout: Seen::Never,
        parameters: Seen::Never,
        wrapped: Seen::Never,
        mic: Seen::Never,
        fragment: Seen::Never,
    };
    for element in Elements::of(body) {
        let element = element.ok()?;
        let seen = match (element.id, element.extension) {
            (RSNE, _) => &mut gathered.rsne,
            (TIMEOUT, _) => &mut gathered.timeout,
            (MIC, _) => &mut gathered.mic,
            (FRAGMENT, _) => &mut gathered.fragment,
            (EXTENDED, Some(PARAMETERS)) => &mut gathered.parameters,
            (EXTENDED, Some(WRAPPED_DATA)) => &mut gathered.wrapped,
            _ => continue,
        };
        seen.add(element);
    }
    Some(gathered)
}

/// A first frame that passed step 1.
struct FirstFrame<'a> {
    rsne: Rsne<'a>,
    lifetime: Option<Seconds>,
    format: u8,
    group: u16,
    key: &'a [u8],
}

impl<'a> FirstFrame<'a> {
    fn read(body: &'a [u8]) -> Option<FirstFrame<'a>> {
        let elements = gather(body)?;
        if elements.fragment.is_seen() {
            return None;
        }
        let rsne = Rsne::read(elements.rsne.once()?.content)?;
        let lifetime = match elements.timeout.at_most_once()? {
            Some(timeout) => Some(read_timeout(timeout.content)?),
            None => None,
        };
        let parameters = Parameters::read(elements.parameters.once()?.content)?;
        let wrapped = elements.wrapped.at_most_once()?.is_some();
        if parameters.format > 3 || wrapped != (parameters.format != 0) {
            return None;
        }
        let (group, key) = parameters.offer?;
        Some(FirstFrame {
            rsne,
            lifetime,
            format: parameters.format,
            group,
            key,
        })
    }
}

fn read_timeout(content: &[u8]) -> Option<Seconds> {
    match *content {
        [KEY_LIFETIME_TYPE, a, b, c, d] => Some(Seconds(u32::from_le_bytes([a, b, c, d]))),
        _ => None,
    }
    .filter(|&seconds| seconds > Seconds(0))
}

/// Takes fields off the front of an element's content.
struct Fields<'a>(&'a [u8]);

impl<'a> Fields<'a> {
    fn octets(&mut self, count: usize) -> Option<&'a [u8]> {
        if count > self.0.len() {
            return None;
        }
        let (taken, rest) = self.0.split_at(count);
        self.0 = rest;
        Some(taken)
    }

    fn one(&mut self) -> Option<u8> {
        self.octets(1).map(|octets| octets[0])
    }

    fn two(&mut self) -> Option<u16> {
        self.octets(2)
            .map(|octets| u16::from_le_bytes([octets[0], octets[1]]))
    }

    fn counted(&mut self, size: usize) -> Option<&'a [u8]> {
        let count = usize::from(self.two()?);
        self.octets(count * size)
    }

    fn end(&self) -> Option<()> {
        self.0.is_empty().then(|| ())
    }
}

struct Rsne<'a> {
    group_cipher: &'a [u8],
    pairwise: &'a [u8],
    akms: &'a [u8],
    capabilities: u16,
    pmkids: &'a [u8],
    management_cipher: &'a [u8],
}

impl<'a> Rsne<'a> {
    fn read(content: &'a [u8]) -> Option<Rsne<'a>> {
        let mut fields = Fields(content);
        if fields.two()? != 1 {
            return None;
        }
        let rsne = Rsne {
            group_cipher: fields.octets(4)?,
            pairwise: fields.counted(4)?,
            akms: fields.counted(4)?,
            capabilities: fields.two()?,
            pmkids: fields.counted(16)?,
            management_cipher: fields.octets(4)?,
        };
        fields.end()?;
        Some(rsne)
    }

    fn has_group_ciphers(&self) -> bool {
        only_suite(self.group_cipher) == Some(GROUP_CIPHER)
            && only_suite(self.management_cipher) == Some(GROUP_CIPHER)
    }

    fn protects_management(&self) -> bool {
        self.capabilities & MFP_CAPABLE_AND_REQUIRED == MFP_CAPABLE_AND_REQUIRED
            && self.capabilities & NO_PAIRWISE == 0
    }
}

/// The type of the one suite in the list, if it is one and has the selector of the tables.
fn only_suite(list: &[u8]) -> Option<u8> {
    match list {
        [selector @ .., suite] if *selector == SELECTOR => Some(*suite),
        _ => None,
    }
}

struct Parameters<'a> {
    comeback: bool,
    format: u8,
    offer: Option<(u16, &'a [u8])>,
}

impl<'a> Parameters<'a> {
    fn read(content: &'a [u8]) -> Option<Parameters<'a>> {
        let mut fields = Fields(content);
        let control = fields.one()?;
        let format = fields.one()?;
        let comeback = control & COMEBACK != 0;
        if comeback {
            let length = fields.one()?;
            fields.octets(usize::from(length))?;
        }
        let offer = if control & GROUP_AND_KEY != 0 {
            let group = fields.two()?;
            let length = fields.one()?;
            Some((group, fields.octets(usize::from(length))?))
        } else {
            None
        };
        fields.end()?;
        Some(Parameters {
            comeback,
            format,
            offer,
        })
    }
}

/// A well-formed cache.
struct Cache<'a>(&'a [u8]);

impl<'a> Cache<'a> {
    fn read(octets: &'a [u8]) -> Option<Cache<'a>> {
        let mut records = octets.chunks_exact(CACHE_RECORD);
        let well_formed = records.remainder().is_empty()
            && records.len() <= CACHE_RECORDS_MOST
            && records.all(|record| record.starts_with(&CACHE_RECORD_HEAD));
        well_formed.then(|| Cache(octets))
    }

    /// Whether some record has this PMKID, this AKM and an end later than now.
    fn holds(&self, pmkid: &[u8], akm: u8, now: Tu) -> bool {
        self.0.chunks_exact(CACHE_RECORD).any(|record| {
            let end = record[20..].try_into().map(u64::from_le_bytes);
            record[3..19] == *pmkid && record[19] == akm && end.map_or(false, |end| Tu(end) > now)
        })
    }
}

fn refuse(step: Step, reply: &mut [u8]) -> Outcome {
    reply[..Header::LENGTH].copy_from_slice(&Header::second(step.status()));
    Outcome {
        answer: Answer::FirstRefused,
        refused_at: Some(step),
        length: Header::LENGTH,
    }
}

struct Writer<'a> {
    buffer: &'a mut [u8],
    place: usize,
}

impl Writer<'_> {
    fn put(&mut self, octets: &[u8]) {
        let end = self.place + octets.len();
        self.buffer[self.place..end].copy_from_slice(octets);
        self.place = end;
    }

    fn put_suite(&mut self, suite: u8) {
        self.put(&SELECTOR);
        self.put(&[suite]);
    }
}

fn write_second(record: &Record, own_key: &[u8], reply: &mut [u8]) -> usize {
    let mut writer = Writer {
        buffer: reply,
        place: 0,
    };
    writer.put(&Header::second(0));
    write_rsne(record, &mut writer);
    writer.put(&[TIMEOUT, 5, KEY_LIFETIME_TYPE]);
    writer.put(&record.lifetime.0.to_le_bytes());
    // fits_group: the key has at most 65 octets.
    let key_length = own_key.len() as u8;
    writer.put(&[EXTENDED, 6 + key_length, PARAMETERS, GROUP_AND_KEY, 0]);
    writer.put(&GROUP.to_le_bytes());
    writer.put(&[key_length]);
    writer.put(own_key);
    writer.put(&[MIC, MIC_LENGTH as u8]);
    writer.put(&[0; MIC_LENGTH]);
    writer.place
}

fn write_rsne(record: &Record, writer: &mut Writer) {
    let pmkids: u8 = record.pmkid.map_or(0, |_| 1);
    writer.put(&[RSNE, 26 + 16 * pmkids, 1, 0]);
    writer.put_suite(GROUP_CIPHER);
    writer.put(&[1, 0]);
    writer.put_suite(record.cipher);
    writer.put(&[1, 0]);
    writer.put_suite(record.akm);
    writer.put(&MFP_CAPABLE_AND_REQUIRED.to_le_bytes());
    writer.put(&[pmkids, 0]);
    if let Some(pmkid) = &record.pmkid {
        writer.put(pmkid);
    }
    writer.put_suite(GROUP_CIPHER);
}
