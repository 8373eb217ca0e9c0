//! The tests themselves: subjects that are wrong in one thing each are found out.

use whapirohi_differential::capsules::{first_elements, Measure};
use whapirohi_differential::chains::Chain;
use whapirohi_differential::compare::Run;
use whapirohi_differential::families::{Family, FAMILIES};
use whapirohi_differential::random::Random;
use whapirohi_differential::subject::{Lent, Model, Subject};
use whapirohi_differential::words::{address_list, address_words, grants_of, plan_of, plan_words};
use whapirohi_reference::capsule::MAX_VALUE;
use whapirohi_reference::list::{MAX_ADDRESSES, MAX_RANGES};
use whapirohi_reference::number;
use whapirohi_reference::packet::{complete, fold, put_word, seed, sum, word_at, Header};
use whapirohi_reference::plan::STATIC_LIMIT;
use whapirohi_tunnel::{AddressWords, Answer, Capsule, Number, Piece, RouteWords, State, ADDRESS_WORDS, KEPT_SIZE};

#[derive(Clone, Copy, Debug, PartialEq)]
enum Slip {
    None,
    RefusesEverything,
    AlwaysInFull,
    LastTemplateUnknown,
    ListsUntouched,
    FirstEntryOnly,
    ListsMerged,
    MadeUpCount,
    UnusedWordsLeft,
    PlaceMovedOnRefusal,
    BytePastTheLength,
    OutputTouchedOnRefusal,
    StateTouchedOnRefusal,
    TransportChecksumMended,
    HopCountLoweredOnReceiving,
    LongContextIdRefused,
    JunkKeptOutOfTheGivenList,
    LongNumberTaken,
    PlanKeptOnLoading,
    PlanNotJudgedForCapsules,
    BytePastTheCapsuleTaken,
    RefusalForgotten,
    NoRoomRemembered,
    SkippedValueKept,
    WaitBetweenCapsules,
    FirstPieceDropped,
    TooLongOnlyWhenAllIsThere,
    StoreNotJudged,
    KeptBytesOfAListLost,
    IdsComparedUpToTheLimit,
    RangePastTheLimitTaken,
    LongestValueRefused,
    LongestStoreRefused,
    ProtocolOfByte6,
    ProtocolOfByte6OnReceiving,
    IcmpByByte6,
    AuthenticationInUnitsOf8,
    FirstEightBytesForgotten,
    MobilityNotSkipped,
    EspSkipped,
    CutHeaderTaken,
    CutLaterFragmentTaken,
    EveryFragmentIsLater,
    EveryFragmentIsFirst,
    FlagsTakenAsOffset,
    ChainEndsWithTheFront,
    ChainReadForTheSeed,
    HeaderChecksumByEquation2,
    HeaderChecksumLosesItsCarry,
    HeaderChecksumFfffKept,
}

/// The slips in how a packet with a chain is judged.
const JUDGES: [Slip; 13] = [
    Slip::ProtocolOfByte6,
    Slip::ProtocolOfByte6OnReceiving,
    Slip::IcmpByByte6,
    Slip::AuthenticationInUnitsOf8,
    Slip::FirstEightBytesForgotten,
    Slip::MobilityNotSkipped,
    Slip::EspSkipped,
    Slip::CutHeaderTaken,
    Slip::CutLaterFragmentTaken,
    Slip::EveryFragmentIsLater,
    Slip::EveryFragmentIsFirst,
    Slip::FlagsTakenAsOffset,
    Slip::ChainEndsWithTheFront,
];

/// The ways of a packet that a slip may be about.
#[derive(Clone, Copy, PartialEq)]
enum Way {
    Sent,
    ReceivedFull,
    ReceivedShort,
}

/// The protocol behind a chain as the slip reads it; none where it misses a part of a header.
fn misread(slip: Slip, way: Way, packet: &[u8]) -> Option<u8> {
    if slip == Slip::ProtocolOfByte6 || slip == Slip::ProtocolOfByte6OnReceiving && way != Way::Sent {
        return Some(packet[6]);
    }
    let seen = match slip {
        Slip::ChainEndsWithTheFront if way == Way::ReceivedShort => &packet[..packet.len().min(STATIC_LIMIT)],
        _ => packet,
    };
    let (mut number, mut at) = (packet[6], 40);
    // A header that takes no bytes is not read for ever.
    for _ in 0..packet.len() {
        let unit = match number {
            0 | 43 | 60 => 8,
            135 if slip != Slip::MobilityNotSkipped => 8,
            50 if slip == Slip::EspSkipped => 8,
            51 if slip == Slip::AuthenticationInUnitsOf8 => 8,
            51 => 4,
            44 => 0,
            _ => return Some(number),
        };
        let first = if slip == Slip::FirstEightBytesForgotten && number != 44 { 0 } else { 8 };
        let size = first + unit * usize::from(*seen.get(at + 1)?);
        let whole = at + size <= seen.len();
        if number == 44 && (whole || slip == Slip::CutLaterFragmentTaken) {
            let word = seen.get(at + 2..at + 4).map_or(0, |bytes| word_at(bytes, 0));
            let later = match slip {
                Slip::EveryFragmentIsLater => true,
                Slip::EveryFragmentIsFirst => false,
                Slip::FlagsTakenAsOffset => word != 0,
                _ => word >= 8,
            };
            if later {
                return Some(44);
            }
        }
        if !whole && slip != Slip::CutHeaderTaken {
            return None;
        }
        number = seen[at];
        at += size;
    }
    None
}

struct Wrong(Slip);

impl Wrong {
    fn wrote(&self, answer: Answer, out: &mut [u8]) -> Answer {
        let length = answer.length as usize;
        if self.0 == Slip::BytePastTheLength && answer.number == 0 && length < out.len() {
            out[length] ^= 1;
        }
        if self.0 == Slip::OutputTouchedOnRefusal && answer.number != 0 && !out.is_empty() {
            out[0] ^= 1;
        }
        answer
    }

    /// The header checksum as the slip updates it, in the packet as it goes in full.
    fn misupdate(&self, packet: &[u8], sent: &mut [u8]) {
        let (checksum, old, new) = (word_at(packet, 10), word_at(packet, 8), word_at(sent, 8));
        let slipped = match self.0 {
            // HC + m + ~m'
            Slip::HeaderChecksumByEquation2 => fold(u32::from(checksum) + u32::from(old) + u32::from(!new)),
            Slip::HeaderChecksumLosesItsCarry => checksum.wrapping_add(0x0100),
            Slip::HeaderChecksumFfffKept if checksum == 0xffff => 0xffff,
            _ => return,
        };
        put_word(sent, 10, slipped);
    }

    /// What the slip answers of a packet's form, hop count and grants, where it is about chains and this packet may have one.
    fn judged(&self, state: &State, way: Way, packet: &[u8]) -> Option<u64> {
        let sized = packet.len() >= 40 && packet[0] >> 4 == 6 && usize::from(word_at(packet, 4)) + 40 == packet.len();
        if !sized || !JUDGES.contains(&self.0) {
            return None;
        }
        let Some(protocol) = misread(self.0, way, packet) else { return Some(10) };
        let mut bare = packet[..40].to_vec();
        bare[6] = 59;
        put_word(&mut bare, 4, 0);
        let header = Header { protocol, ..Header::read(&bare, &[]).unwrap() };
        if way == Way::Sent && header.hop_count <= 1 {
            return Some(11);
        }
        let mut grants = grants_of(state);
        if self.0 == Slip::IcmpByByte6 && header.is_icmp() && packet[6] != protocol {
            for routes in [&mut grants.received_routes, &mut grants.given_routes] {
                let granting: Vec<_> =
                    routes.stored().iter().filter(|r| matches!(r.protocol, 0 | 58)).copied().collect();
                routes.count = granting.len();
                routes.items[..granting.len()].copy_from_slice(&granting);
            }
        }
        let allowed = if way == Way::Sent { grants.allow_sending(&header) } else { grants.allow_receiving(&header) };
        Some(if allowed { 0 } else { 12 })
    }

    /// The model's answer, or what was judged in its place; the output is then as it was.
    fn misjudge(&self, judged: Option<u64>, answer: Answer, before: &[u8], out: &mut [u8]) -> Answer {
        match judged {
            Some(number) if number != answer.number && matches!(answer.number, 0 | 10..=12) => {
                out.copy_from_slice(before);
                Answer { number, length: 0 }
            }
            _ => answer,
        }
    }
}

impl Subject for Wrong {
    fn start(&self, state: &mut State) {
        Model.start(state)
    }

    fn load_plan(&self, state: &mut State, file: &[u8]) -> u64 {
        let plan = state.plan;
        let number = Model.load_plan(state, file);
        if self.0 == Slip::PlanKeptOnLoading {
            state.plan = plan;
        }
        if self.0 == Slip::LongNumberTaken && number == 24 {
            return 0;
        }
        number
    }

    fn write_plan(&self, state: &State, out: &mut [u8]) -> Answer {
        let answer = Model.write_plan(state, out);
        self.wrote(answer, out)
    }

    fn read_capsule(&self, state: &mut State, bytes: &[u8], at: usize, requested: &mut AddressWords) -> Capsule {
        let before = state.clone();
        if self.0 == Slip::PlanNotJudgedForCapsules {
            state.plan[0] = 0;
        }
        let mut capsule = Model.read_capsule(state, bytes, at, requested);
        state.plan = before.plan;
        match self.0 {
            Slip::ListsUntouched => *state = before,
            Slip::FirstEntryOnly if capsule.number == 0 && capsule.kind == 1 => {
                let mut list = address_list(&state.received_addresses);
                list.count = list.count.min(1);
                state.received_addresses = address_words(&list);
            }
            Slip::ListsMerged if capsule.number == 0 && capsule.kind == 1 => {
                let mut list = address_list(&state.received_addresses);
                let old = address_list(&before.received_addresses);
                for entry in old.stored() {
                    if list.count < list.items.len() {
                        list.items[list.count] = *entry;
                        list.count += 1;
                    }
                }
                state.received_addresses = address_words(&list);
            }
            Slip::MadeUpCount if capsule.kind == 4 => capsule.next += 1,
            Slip::UnusedWordsLeft if capsule.number == 0 && capsule.kind == 2 => requested[ADDRESS_WORDS - 1] |= 1,
            Slip::PlaceMovedOnRefusal if capsule.number == 1 => capsule.next = bytes.len() as u64,
            Slip::StateTouchedOnRefusal if capsule.number == 3 => state.received_addresses[0] = 0,
            Slip::IdsComparedUpToTheLimit if capsule.number == 6 => {
                let front = first_elements(&bytes[at..], MAX_ADDRESSES).unwrap();
                if Model.read_capsule(&mut before.clone(), &front, 0, &mut requested.clone()).number == 0 {
                    capsule.number = 7;
                }
            }
            Slip::RangePastTheLimitTaken if capsule.number == 7 => {
                let measure = Measure::of(&bytes[at..]).unwrap();
                if measure.kind == 3 && measure.elements == MAX_RANGES + 1 {
                    let front = first_elements(&bytes[at..], MAX_RANGES).unwrap();
                    let next = capsule.next;
                    capsule = Capsule { next, ..Model.read_capsule(state, &front, 0, requested) };
                }
            }
            Slip::LongestValueRefused if capsule.number == 0 && capsule.length == MAX_VALUE as u64 => {
                capsule = Capsule { number: 2, kind: 0, start: 0, length: 0, next: at as u64 };
            }
            _ => {}
        }
        capsule
    }

    fn feed(&self, lent: &mut Lent, bytes: &[u8]) -> Piece {
        let before = lent.clone();
        let State { kept_count, to_skip, .. } = before.state;
        if self.0 == Slip::StoreNotJudged && to_skip > 0 {
            lent.state.kept_count = 0;
        }
        let mut piece = Model.feed(lent, bytes);
        match self.0 {
            Slip::BytePastTheCapsuleTaken if piece.handed == 1 && piece.taken < bytes.len() as u64 => piece.taken += 1,
            Slip::RefusalForgotten => lent.state.remembered = before.state.remembered,
            Slip::NoRoomRemembered if piece.number == 16 => lent.state.remembered = 16,
            Slip::SkippedValueKept if lent.state.to_skip > 0 && !bytes.is_empty() => lent.kept[0] = bytes[0],
            Slip::WaitBetweenCapsules if piece.number == 0 && piece.handed == 0 => piece.number = 1,
            Slip::FirstPieceDropped if piece.number == 1 && kept_count == 0 => lent.state.kept_count = 0,
            Slip::TooLongOnlyWhenAllIsThere if piece.number == 2 && bytes.len() < 10 => {
                piece = Piece { number: 1, taken: bytes.len() as u64, ..piece };
            }
            Slip::LongestStoreRefused if kept_count + 1 == KEPT_SIZE as u64 => {
                *lent = before;
                piece = Piece { number: 9, handed: 0, kind: 0, length: 0, taken: 0 };
            }
            Slip::KeptBytesOfAListLost if piece.number == 0 && kept_count > 0 && piece.kind == 3 => {
                lent.state.received_routes = before.state.received_routes;
            }
            _ => {}
        }
        piece
    }

    fn write_assign(&self, state: &mut State, list: &AddressWords, out: &mut [u8]) -> Answer {
        let answer = Model.write_assign(state, list, out);
        if self.0 == Slip::JunkKeptOutOfTheGivenList && answer.number == 0 {
            state.given_addresses = address_words(&address_list(list));
        }
        self.wrote(answer, out)
    }

    fn write_routes(&self, state: &mut State, list: &RouteWords, out: &mut [u8]) -> Answer {
        let answer = Model.write_routes(state, list, out);
        self.wrote(answer, out)
    }

    fn send(&self, state: &State, packet: &[u8], out: &mut [u8]) -> Answer {
        let mut state = state.clone();
        let mut packet = packet.to_vec();
        match self.0 {
            Slip::RefusesEverything => return Answer { number: 12, length: 0 },
            Slip::AlwaysInFull => state.plan[0] = 0,
            Slip::LastTemplateUnknown if state.plan[0] <= 8 => state.plan[0] = state.plan[0].saturating_sub(1),
            Slip::TransportChecksumMended if packet.len() >= 28 && packet[0] == 0x45 => {
                put_word(&mut packet, 26, 0);
                let words = sum(&packet[20..]) + u32::from(seed(&packet, packet.len(), 20));
                let checksum = complete(words, packet[9] == 17);
                put_word(&mut packet, 26, checksum);
            }
            Slip::ChainReadForTheSeed if packet.len() >= 40 && packet[0] >> 4 == 6 => {
                // The checksum that fits with byte 6 in the seed does not fit with another protocol.
                let mut plan = plan_of(&state.plan);
                if plan.sound() && Chain::of(&packet).protocol != Some(packet[6]) {
                    let fitting: Vec<_> =
                        plan.templates.stored().iter().filter(|t| t.checksum.is_none()).copied().collect();
                    plan.templates.count = fitting.len();
                    plan.templates.items[..fitting.len()].copy_from_slice(&fitting);
                    state.plan = plan_words(&plan);
                }
            }
            _ => {}
        }
        let before = out.to_vec();
        let answer = Model.send(&state, &packet, out);
        let answer = self.misjudge(self.judged(&state, Way::Sent, &packet), answer, &before, out);
        if answer.number == 0 && out[0] == 0 && packet[0] >> 4 == 4 {
            self.misupdate(&packet, &mut out[1..]);
        }
        self.wrote(answer, out)
    }

    fn receive(&self, state: &State, datagram: &[u8], out: &mut [u8]) -> Answer {
        if self.0 == Slip::LongContextIdRefused
            && number::parse(datagram).is_some_and(|(id, size)| size > number::size(id))
        {
            return Answer { number: 13, length: 0 };
        }
        let before = out.to_vec();
        let answer = Model.receive(state, datagram, out);
        let judged = match number::parse(datagram) {
            Some((0, size)) => self.judged(state, Way::ReceivedFull, &datagram[size..]),
            // What a template makes is known where it passed.
            Some(_) if answer.number == 0 => self.judged(state, Way::ReceivedShort, &out[..answer.length as usize]),
            _ => None,
        };
        let answer = self.misjudge(judged, answer, &before, out);
        if self.0 == Slip::HopCountLoweredOnReceiving && answer.number == 0 && out[0] >> 4 == 6 {
            out[7] = out[7].wrapping_sub(1);
        }
        self.wrote(answer, out)
    }

    fn read_number(&self, bytes: &[u8]) -> Number {
        Model.read_number(bytes)
    }

    fn write_number(&self, value: u64, out: &mut [u8]) -> Answer {
        let answer = Model.write_number(value, out);
        self.wrote(answer, out)
    }

    fn write_datagram(&self, value: &[u8], out: &mut [u8]) -> Answer {
        let answer = Model.write_datagram(value, out);
        self.wrote(answer, out)
    }

    fn write_request(&self, list: &AddressWords, out: &mut [u8]) -> Answer {
        let answer = Model.write_request(list, out);
        self.wrote(answer, out)
    }
}

const CASES: u64 = 24_000;

/// How often the first family that notices anything differs.
fn faults(slip: Slip) -> u64 {
    let subject = Wrong(slip);
    let family_faults = |(_, family, share): &(&str, Family, u64)| {
        let mut run = Run::new(&subject);
        family(&mut run, &mut Random::new(1), CASES * share / 100);
        run.faults
    };
    FAMILIES.iter().map(family_faults).find(|faults| *faults > 0).unwrap_or(0)
}

#[test]
fn wrong_subjects_are_found_out() {
    for slip in [
        Slip::RefusesEverything,
        Slip::AlwaysInFull,
        Slip::LastTemplateUnknown,
        Slip::ListsUntouched,
        Slip::FirstEntryOnly,
        Slip::ListsMerged,
        Slip::MadeUpCount,
        Slip::UnusedWordsLeft,
        Slip::PlaceMovedOnRefusal,
        Slip::BytePastTheLength,
        Slip::OutputTouchedOnRefusal,
        Slip::StateTouchedOnRefusal,
        Slip::TransportChecksumMended,
        Slip::HopCountLoweredOnReceiving,
        Slip::LongContextIdRefused,
        Slip::JunkKeptOutOfTheGivenList,
        Slip::LongNumberTaken,
        Slip::PlanKeptOnLoading,
        Slip::PlanNotJudgedForCapsules,
        Slip::BytePastTheCapsuleTaken,
        Slip::RefusalForgotten,
        Slip::NoRoomRemembered,
        Slip::SkippedValueKept,
        Slip::WaitBetweenCapsules,
        Slip::FirstPieceDropped,
        Slip::TooLongOnlyWhenAllIsThere,
        Slip::StoreNotJudged,
        Slip::KeptBytesOfAListLost,
        Slip::IdsComparedUpToTheLimit,
        Slip::RangePastTheLimitTaken,
        Slip::LongestValueRefused,
        Slip::LongestStoreRefused,
        Slip::ChainReadForTheSeed,
        Slip::HeaderChecksumByEquation2,
        Slip::HeaderChecksumLosesItsCarry,
        Slip::HeaderChecksumFfffKept,
    ]
    .into_iter()
    .chain(JUDGES)
    {
        assert!(faults(slip) > 0, "{slip:?} is not noticed");
    }
}

#[test]
fn the_model_is_not_wrong() {
    assert_eq!(faults(Slip::None), 0);
}
