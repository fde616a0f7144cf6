//! The plain Rust that the engine is compared with. It keeps objects as the engine does: each by its id, in std's hash tables. A packet is
//! parsed once, numbered for each Consumer, and copied. With `same` it looks for all that the engine looks for, for each copy the Router, the
//! Producer, the Consumer, its transport and, where that has a tuple, the link, each where it stands. With `fewest` it
//! keeps the Router, and looks up the transport and the Consumer for each copy.
//! Usage: plain KIND CONSUMERS same|fewest, with KIND as for requests.py.
use std::collections::HashMap;
use std::hash::Hash;
use std::hint::black_box;
use std::time::Instant;

const RING: usize = 64;
const TURNS: usize = 25;
const PACKETS: u64 = 200_000;
const PAUSES: usize = 8;
const HEAD: usize = 4 + 1 + 36;
const EXTENSION: [u8; 16] = [0xbe, 0xde, 0, 3, 0x30, 0x55, 0x52, 1, 2, 3, 0x71, 4, 5, 0, 0, 0];
const ROUTER: usize = 1;
const TRANSPORT: usize = 2;
const PRODUCER: usize = 3;
const CONSUMER: usize = 4;
const OTHER: usize = 0x8000;
const SENDER: Tuple = ([127, 0, 0, 1], 9000);

type Id = [u8; 16];
type Tuple = ([u8; 4], u16);

#[derive(Clone, Copy, PartialEq)]
enum Kind {
    Direct,
    Extended,
    Plain,
    Pipe,
    Video,
}

impl Kind {
    fn of(word: &str) -> Kind {
        match word {
            "direct" => Kind::Direct,
            "extended" => Kind::Extended,
            "plain" => Kind::Plain,
            "pipe" => Kind::Pipe,
            _ => Kind::Video,
        }
    }

    fn is_direct(self) -> bool {
        matches!(self, Kind::Direct | Kind::Extended)
    }

    fn is_video(self) -> bool {
        matches!(self, Kind::Pipe | Kind::Video)
    }

    fn encodings(self) -> usize {
        if self == Kind::Pipe { 3 } else { 1 }
    }
}

fn id_of(number: usize) -> Id {
    let mut id = [0, 0, 0, 0, 0, 0, 0x40, 0, 0x80, 0, 0, 0, 0, 0, 0, 0];
    id[14..].copy_from_slice(&(number as u16).to_be_bytes());
    id
}

fn text_of(id: &Id) -> [u8; 36] {
    let mut text = [b'-'; 36];
    let mut at = 0;
    for (place, byte) in id.iter().enumerate() {
        if [4, 6, 8, 10].contains(&place) {
            at += 1;
        }
        text[at] = b"0123456789abcdef"[usize::from(byte >> 4)];
        text[at + 1] = b"0123456789abcdef"[usize::from(byte & 15)];
        at += 2;
    }
    text
}

struct View<'a> {
    seq: u16,
    ssrc: u32,
    payload_type: u8,
    elements: Option<(usize, usize)>,
    payload: &'a [u8],
}

fn get16(bytes: &[u8], at: usize) -> Option<u16> {
    Some(u16::from_be_bytes(bytes.get(at..at + 2)?.try_into().ok()?))
}

fn parse(packet: &[u8]) -> Option<View<'_>> {
    if packet.len() < 12 || packet[0] >> 6 != 2 {
        return None;
    }
    let mut at = 12 + 4 * usize::from(packet[0] & 15);
    let mut elements = None;
    if packet[0] & 0x10 != 0 {
        let size = 4 * usize::from(get16(packet, at + 2)?);
        if get16(packet, at)? == 0xbede {
            elements = Some((at + 4, at + 4 + size));
        }
        at += 4 + size;
    }
    let mut payload = packet.get(at..)?;
    if packet[0] & 0x20 != 0 {
        let padding = usize::from(*payload.last()?);
        if padding == 0 || padding > payload.len() {
            return None;
        }
        payload = &payload[..payload.len() - padding];
    }
    Some(View {
        seq: get16(packet, 2)?,
        ssrc: u32::from_be_bytes(packet[8..12].try_into().ok()?),
        payload_type: packet[1] & 127,
        elements,
        payload,
    })
}

/// Whether a payload of VP8 starts a key frame (RFC 7741, sections 4.2 and 4.3).
fn starts_key(payload: &[u8]) -> Option<bool> {
    let first = *payload.first()?;
    let mut at = 1;
    if first & 0x80 != 0 {
        let parts = *payload.get(1)?;
        at = 2;
        if parts & 0x80 != 0 {
            at += if payload.get(2)? & 0x80 != 0 { 2 } else { 1 };
        }
        at += usize::from(parts & 0x40 != 0) + usize::from(parts & 0x30 != 0);
    }
    Some(first & 0x17 == 0x10 && payload.get(at)? & 1 == 0)
}

struct Stream {
    mapped: u32,
    ssrc: u32,
    is_begun: bool,
    offset: u16,
    greatest: u16,
}

impl Stream {
    fn number(&mut self, number: u16) -> u16 {
        if !self.is_begun {
            self.is_begun = true;
            self.offset = number.wrapping_sub(self.greatest.wrapping_add(1));
        }
        let out = number.wrapping_sub(self.offset);
        if out.wrapping_sub(self.greatest) < 32_768 {
            self.greatest = out;
        }
        out
    }
}

struct Transport {
    link: Option<u32>,
    remote: Option<Tuple>,
}

impl Transport {
    /// The sender's transport is told its other end by the first packet.
    fn accepts(&mut self, from: Tuple) -> bool {
        *self.remote.get_or_insert(from) == from
    }
}

struct Consumer {
    head: [u8; HEAD - 4],
    is_connected: bool,
    is_paused: bool,
    is_source_paused: bool,
    types: [bool; 128],
    kept: [bool; 256],
    streams: Vec<Stream>,
}

struct Producer {
    is_video: bool,
    encodings: Vec<(u32, u32)>,
    types: [Option<u8>; 128],
    ids: [u8; 256],
    consumers: Vec<(Id, Id)>,
}

/// What the Producer says of a packet that it receives.
#[derive(Clone, Copy)]
struct Mapped {
    ssrc: u32,
    payload_type: u8,
    is_open: bool,
}

impl Producer {
    fn receive(&self, view: &View) -> Option<Mapped> {
        Some(Mapped {
            ssrc: self.encodings.iter().find(|pair| pair.0 == view.ssrc)?.1,
            payload_type: self.types[usize::from(view.payload_type)]?,
            is_open: !self.is_video || starts_key(view.payload).unwrap_or(false),
        })
    }
}

struct Router {
    transports: ById<Transport>,
    producers: ById<Producer>,
    consumers: ById<Consumer>,
    ssrcs: HashMap<(Id, u32), Id>,
}

struct Worker {
    directs: HashMap<Id, (Id, Id)>,
    places: HashMap<u32, (Id, Id)>,
    links: ById<u32, (Id, Id)>,
    routers: ById<Router>,
    buffer: Vec<u8>,
}

/// Copies the elements with new ids and zero padding, and gives the length.
fn rewrite_elements(input: &[u8], output: &mut [u8], ids: &[u8; 256], kept: &[bool; 256]) -> usize {
    let (mut from, mut to) = (0, 0);
    while from < input.len() {
        let head = input[from];
        let id = head >> 4;
        if head == 0 {
            from += 1;
            continue;
        }
        if id == 0 || id == 15 {
            break;
        }
        let size = usize::from(head & 15) + 2;
        let Some(element) = input.get(from + 1..from + size) else { break };
        let new_id = ids[usize::from(id)];
        if (1..=14).contains(&new_id) && kept[usize::from(new_id)] {
            output[to] = new_id << 4 | head & 15;
            output[to + 1..to + size].copy_from_slice(element);
            to += size;
        }
        from += size;
    }
    let end = to.next_multiple_of(4);
    output[to..end].fill(0);
    end
}

/// Writes the Consumer's packet behind the room for a frame's head, and gives its length, where it sends the packet on.
fn pass(consumer: &mut Consumer, ids: &[u8; 256], mapped: Mapped, view: &View, packet: &[u8], into: &mut [u8]) -> Option<usize> {
    let stream = consumer.streams.iter_mut().find(|stream| stream.mapped == mapped.ssrc)?;
    if !consumer.is_connected || consumer.is_paused || consumer.is_source_paused || !consumer.types[usize::from(mapped.payload_type)] {
        return None;
    }
    if !stream.is_begun && !mapped.is_open {
        return None;
    }
    let room = &mut into[HEAD..HEAD + packet.len()];
    let mut length = packet.len();
    match view.elements {
        None => room.copy_from_slice(packet),
        Some((from, to)) => {
            room[..from].copy_from_slice(&packet[..from]);
            let size = rewrite_elements(&packet[from..to], &mut room[from..to], ids, &consumer.kept);
            room[from - 2..from].copy_from_slice(&((size / 4) as u16).to_be_bytes());
            length = from + size + packet.len() - to;
            room[from + size..length].copy_from_slice(&packet[to..]);
        }
    }
    room[1] = room[1] & 0x80 | mapped.payload_type;
    room[2..4].copy_from_slice(&stream.number(view.seq).to_be_bytes());
    room[8..12].copy_from_slice(&stream.ssrc.to_be_bytes());
    Some(length)
}

/// Objects by their ids, in order of making.
struct ById<T, K = Id> {
    places: HashMap<K, usize>,
    items: Vec<(K, T)>,
}

impl<T, K: Copy + Eq + Hash> ById<T, K> {
    fn place_of(&self, id: &K, first: usize) -> Option<usize> {
        match self.items.get(first) {
            Some((own, _)) if own == id => Some(first),
            _ => self.places.get(id).copied(),
        }
    }

    fn near(&self, id: &K, first: usize) -> Option<&T> {
        Some(&self.items[self.place_of(id, first)?].1)
    }

    fn near_mut(&mut self, id: &K, first: usize) -> Option<&mut T> {
        let place = self.place_of(id, first)?;
        Some(&mut self.items[place].1)
    }

    fn get(&self, id: &K) -> Option<&T> {
        Some(&self.items[*self.places.get(id)?].1)
    }

    fn get_mut(&mut self, id: &K) -> Option<&mut T> {
        Some(&mut self.items[*self.places.get(id)?].1)
    }
}

impl<T, K: Copy + Eq + Hash> FromIterator<(K, T)> for ById<T, K> {
    fn from_iter<I: IntoIterator<Item = (K, T)>>(all: I) -> ById<T, K> {
        let items: Vec<(K, T)> = all.into_iter().collect();
        let places = items.iter().enumerate().map(|(place, (id, _))| (*id, place)).collect();
        ById { places, items }
    }
}

#[derive(Default)]
struct Meter {
    frames: u64,
    sum: u64,
    is_whole: bool,
}

impl Meter {
    fn count(&mut self, frame: &[u8], more: u64) {
        self.frames += 1;
        self.sum = self.sum.wrapping_add(u64::from(*frame.last().unwrap_or(&0))).wrapping_add(frame.len() as u64).wrapping_add(more);
        if self.is_whole {
            self.sum = frame.iter().fold(self.sum, |sum, &byte| sum.wrapping_mul(31).wrapping_add(u64::from(byte)));
        }
    }

    #[inline(never)]
    fn channel(&mut self, frame: &[u8]) {
        self.count(frame, 0);
    }

    #[inline(never)]
    fn datagram(&mut self, link: u32, to: Tuple, packet: &[u8]) {
        self.count(packet, u64::from(link) + u64::from(to.1));
    }
}

/// Sends what was written for a Consumer, to the other end of its transport or as a frame for its id.
fn send(buffer: &mut [u8], length: usize, head: &[u8; HEAD - 4], end: Option<(u32, Tuple)>, meter: &mut Meter) {
    match end {
        Some((link, to)) => meter.datagram(link, to, &buffer[HEAD..HEAD + length]),
        None => {
            buffer[..4].copy_from_slice(&((HEAD - 4 + length) as u32).to_le_bytes());
            buffer[4..HEAD].copy_from_slice(head);
            meter.channel(&buffer[..HEAD + length]);
        }
    }
}

/// A packet goes to the Consumers. All is looked for where it stands, as the engine does.
fn forward_same(worker: &mut Worker, router: Id, producer: Id, view: &View, packet: &[u8], meter: &mut Meter) -> Option<()> {
    let mapped = worker.routers.near(&router, 0)?.producers.near(&producer, 0)?.receive(view)?;
    let mut place = 0;
    loop {
        let Router { transports, producers, consumers, .. } = worker.routers.near_mut(&router, 0)?;
        let source = producers.near(&producer, 0)?;
        let Some(&(id, transport)) = source.consumers.get(place) else { break };
        let consumer = consumers.near_mut(&id, place)?;
        // The transport of the Producer was made first.
        let remote = transports.near(&transport, place + 1)?.remote;
        place += 1;
        if let Some(length) = pass(consumer, &source.ids, mapped, view, packet, &mut worker.buffer) {
            let end = match remote {
                Some(to) => worker.links.near(&(router, transport), place).map(|link| (*link, to)),
                None => None,
            };
            send(&mut worker.buffer, length, &consumer.head, end, meter);
        }
    }
    Some(())
}

/// The same with what was found kept.
fn forward_fewest(worker: &mut Worker, router: Id, producer: Id, view: &View, packet: &[u8], meter: &mut Meter) -> Option<()> {
    let Router { transports, producers, consumers, .. } = worker.routers.get_mut(&router)?;
    let producer = producers.get(&producer)?;
    let mapped = producer.receive(view)?;
    for (id, transport) in &producer.consumers {
        let transport = transports.get(transport)?;
        let end = transport.link.zip(transport.remote);
        let consumer = consumers.get_mut(id)?;
        if let Some(length) = pass(consumer, &producer.ids, mapped, view, packet, &mut worker.buffer) {
            send(&mut worker.buffer, length, &consumer.head, end, meter);
        }
    }
    Some(())
}

#[derive(Clone, Copy)]
enum From {
    Direct(Id),
    Link(u32, Tuple),
}

#[inline(never)]
fn on_packet<const IS_SAME: bool>(worker: &mut Worker, from: From, packet: &[u8], meter: &mut Meter) -> Option<()> {
    let view = parse(packet)?;
    let (router, producer) = match from {
        From::Direct(id) => *worker.directs.get(&id)?,
        From::Link(link, tuple) => {
            let (id, transport) = *worker.places.get(&link)?;
            let router = worker.routers.near_mut(&id, 0)?;
            if !router.transports.get_mut(&transport)?.accepts(tuple) {
                return None;
            }
            (id, *router.ssrcs.get(&(transport, view.ssrc))?)
        }
    };
    if packet.len() > 65_535 {
        return None;
    }
    if IS_SAME {
        forward_same(worker, router, producer, &view, packet, meter)
    } else {
        forward_fewest(worker, router, producer, &view, packet, meter)
    }
}

fn consumer_of(kind: Kind, place: usize) -> Consumer {
    let mut head = [b'R'; HEAD - 4];
    head[1..].copy_from_slice(&text_of(&id_of(CONSUMER + place)));
    let mut types = [false; 128];
    types[100] = true;
    let mut kept = [false; 256];
    (kept[10], kept[4], kept[5]) = (true, true, true);
    let stream = |encoding| Stream {
        mapped: 100_000_000 + encoding as u32,
        ssrc: (200_000_000 + place * kind.encodings() + encoding) as u32,
        is_begun: false,
        offset: 0,
        greatest: 0,
    };
    Consumer {
        head,
        is_connected: true,
        is_paused: false,
        is_source_paused: false,
        types,
        kept,
        streams: (0..kind.encodings()).map(stream).collect(),
    }
}

fn producer_of(kind: Kind, consumers: usize) -> Producer {
    let mut types = [None; 128];
    types[111] = Some(100);
    let mut ids = [0; 256];
    (ids[3], ids[5], ids[7]) = (10, 4, 5);
    Producer {
        is_video: kind.is_video(),
        encodings: (0..kind.encodings() as u32).map(|encoding| (2222 + encoding, 100_000_000 + encoding)).collect(),
        types,
        ids,
        consumers: (0..consumers).map(|place| (id_of(CONSUMER + place), id_of(OTHER + place))).collect(),
    }
}

fn worker_of(kind: Kind, consumers: usize) -> Worker {
    let (router, transport, producer) = (id_of(ROUTER), id_of(TRANSPORT), id_of(PRODUCER));
    let mut transports = vec![(transport, Transport { link: (!kind.is_direct()).then_some(1), remote: None })];
    let (mut places, mut links) = (HashMap::from([(1, (router, transport))]), vec![((router, transport), 1)]);
    for place in 0..consumers {
        let (id, link) = (id_of(OTHER + place), 2 + place as u32);
        let is_linked = !kind.is_direct();
        let remote = is_linked.then_some(([127, 0, 0, 1], 10_000 + place as u16));
        transports.push((id, Transport { link: is_linked.then_some(link), remote }));
        if is_linked {
            places.insert(link, (router, id));
            links.push(((router, id), link));
        }
    }
    let stand = Router {
        transports: transports.into_iter().collect(),
        producers: [(producer, producer_of(kind, consumers))].into_iter().collect(),
        consumers: (0..consumers).map(|place| (id_of(CONSUMER + place), consumer_of(kind, place))).collect(),
        ssrcs: (0..kind.encodings() as u32).map(|encoding| ((transport, 2222 + encoding), producer)).collect(),
    };
    Worker {
        directs: HashMap::from([(producer, (router, producer))]),
        places,
        links: links.into_iter().collect(),
        routers: [(router, stand)].into_iter().collect(),
        buffer: vec![0; 65_576],
    }
}

/// The packet at a place of the ring. Of a few packets of video in turn, three start a key frame.
fn packet_of(kind: Kind, length: usize, number: u8) -> Vec<u8> {
    let ssrc = 0xae + number % kind.encodings() as u8;
    let mut packet = vec![if kind == Kind::Extended { 0x90 } else { 0x80 }, 111, 0, 0, 0, 0, 0, 10, 0, 0, 0x08, ssrc];
    if kind == Kind::Extended {
        packet.extend(EXTENSION);
    }
    packet.extend((0..length).map(|place| (place % 200) as u8 ^ number));
    if kind.is_video() {
        packet[12] = 0x10;
        packet[13] = u8::from(number / 3 % 8 != 5);
    }
    packet
}

fn send_all<const IS_SAME: bool>(worker: &mut Worker, from: From, ring: &mut [Vec<u8>], number: &mut u16, meter: &mut Meter) {
    for packet in ring {
        *number = number.wrapping_add(1);
        packet[2..4].copy_from_slice(&number.to_be_bytes());
        let _ = on_packet::<IS_SAME>(worker, black_box(from), black_box(packet), meter);
    }
}

fn set_paused(worker: &mut Worker, place: usize, is_paused: bool) {
    let router = worker.routers.get_mut(&black_box(id_of(ROUTER))).unwrap();
    let consumer = router.consumers.get_mut(&id_of(CONSUMER + place)).unwrap();
    consumer.is_paused = is_paused;
    if !is_paused {
        consumer.streams.iter_mut().for_each(|stream| stream.is_begun = false);
    }
}

fn measure<const IS_SAME: bool>(kind: Kind, consumers: usize) {
    let rounds = PACKETS / consumers as u64 / RING as u64;
    let from = if kind.is_direct() { From::Direct(id_of(PRODUCER)) } else { From::Link(1, SENDER) };
    let mut worker = worker_of(kind, consumers);
    let mut number = 0;
    for length in [160, 1200] {
        let mut ring: Vec<_> = (0..RING).map(|number| packet_of(kind, length, number as u8)).collect();
        send_all::<IS_SAME>(&mut worker, from, &mut ring, &mut number, &mut Meter::default());
        let (mut best, mut frames) = (u128::MAX, 0);
        for _ in 0..TURNS {
            let mut meter = Meter::default();
            let began = Instant::now();
            for round in 0..rounds {
                let (step, first) = (rounds / PAUSES as u64 + 1, RING / 2);
                let pause = (kind == Kind::Video && round % step == 0).then_some((round / step) as usize * consumers / PAUSES);
                pause.inspect(|place| set_paused(&mut worker, *place, true));
                send_all::<IS_SAME>(&mut worker, from, &mut ring[..first], &mut number, &mut meter);
                pause.inspect(|place| set_paused(&mut worker, *place, false));
                send_all::<IS_SAME>(&mut worker, from, &mut ring[first..], &mut number, &mut meter);
            }
            best = best.min(began.elapsed().as_nanos());
            frames = black_box(meter).frames;
        }
        let mut meter = Meter { is_whole: true, ..Meter::default() };
        send_all::<IS_SAME>(&mut worker, from, &mut ring, &mut number, &mut meter);
        println!("{length} {best} {frames} {}", meter.sum);
    }
}

fn main() {
    let words: Vec<String> = std::env::args().collect();
    let (kind, consumers) = (Kind::of(&words[1]), words[2].parse().unwrap());
    if words[3] == "same" {
        measure::<true>(kind, consumers);
    } else {
        measure::<false>(kind, consumers);
    }
}
