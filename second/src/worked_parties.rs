//! Two parties in one table, with the answers and the words that follow from the rules, worked out by hand. Under
//! settings T 10.0.0.0/8 and 8.0.0.0/8 have words 56 to 59, counters 112 and 113; the defaults are words 256 and 257.

use crate::calls::{Call, Lent, List, Message, Settings};
use crate::library::Library;
use crate::places::bytes_of;
use crate::rules::{default_word, mark, slot_words, T};
use crate::worked::{address, found, list_of, one_off, refused, zero, Case};
use crate::worked_days::{self, tally, with_message, BEFORE, NONE};
use crate::worked_imports::{self, RECORD};
use crate::worked_messages::{routes, with_hops, MESSAGE, NEXT_HOP};

const TEN: u32 = 0x0a00_0000;
const EIGHT: u32 = 0x0800_0000;

/// Numbers of parties that there are not.
const STRANGERS: [u32; 5] = [2, 3, 256, 65_536, u32::MAX];

/// Each mark at which something changes, with the hop that it is to party 0 and to party 1.
const EDGES: [(u32, [Option<u32>; 2]); 7] = [
    (0, [None, None]),
    (1, [Some(0), None]),
    (65_536, [Some(65_535), None]),
    (65_537, [None, Some(0)]),
    (131_072, [None, Some(65_535)]),
    (131_073, [None, None]),
    (u32::MAX, [None, None]),
];

/// The mark of hop 20 for each party.
const TWENTY: [u32; 2] = [21, 65_557];

impl Case<'_> {
    /// A party's add, withdrawal or change of a route.
    fn add_of(&mut self, party: u32, prefix: u32, length: u32, hop: u32, refusal: u64) -> Result<(), String> {
        self.gives(Call::Add { party, prefix, length, hop }, refused(refusal))
    }

    fn withdraw_of(&mut self, party: u32, prefix: u32, length: u32, refusal: u64) -> Result<(), String> {
        self.gives(Call::Withdraw { party, prefix, length }, refused(refusal))
    }

    fn change_of(
        &mut self,
        party: u32,
        prefix: u32,
        length: u32,
        hop: u32,
        refusal: u64,
    ) -> Result<(), String> {
        self.gives(Call::Change { party, prefix, length, hop }, refused(refusal))
    }

    /// What each party is answered to an address, alone and in a list.
    fn answers(&mut self, address: u32, answers: [u64; 2]) -> Result<(), String> {
        for (party, answer) in (0..).zip(answers) {
            self.gives(Call::Lookup { party, address }, answer)?;
            let parts = [answer >> 40, answer >> 16 & 0xffff, answer >> 8 & 0xff, answer & 0xff];
            self.party = party;
            self.list(&[address, address], &[parts.map(|part| part as u32); 2])?;
        }
        self.party = 0;
        Ok(())
    }

    /// These words hold this.
    fn hold(&self, first: usize, words: &[u32]) -> Result<(), String> {
        let held: Vec<u32> = (first..first + words.len()).map(|at| self.pair.word(at)).collect();
        self.holds(held == words, &format!("words {words:?} from {first} on, where there are {held:?}"))
    }

    /// The two counters of 10.0.0.0/8 are this.
    fn counted(&self, count: u8) -> Result<(), String> {
        let held = [self.pair.counter(112), self.pair.counter(113)];
        self.holds(held == [count; 2], &format!("counters of {count}, where there are {held:?}"))
    }

    /// All is as it was.
    fn keeps(&self, before: &(Vec<u8>, Vec<u32>)) -> Result<(), String> {
        self.holds(self.pair.memory() == *before, "a refused call leaves the table")
    }
}

pub fn run(library: &mut Library) -> Result<(), String> {
    places(library)?;
    one_bucket(library)?;
    school_first(library)?;
    defaults(library)?;
    marks_of_defaults(library)?;
    marks_of_slots(library)?;
    probes(library)?;
    counters(library)?;
    messages(library)?;
    streams(library)?;
    strangers(library)?;
    strangers_in_streams(library)
}

/// Where the words are, and what marks are.
fn places(library: &mut Library) -> Result<(), String> {
    let case = Case::new(library, "the words of two parties", T)?;
    case.holds(slot_words(&T) == 258, "there are 258 words")?;
    case.holds([0, 1].map(|party| default_word(&T, party)) == [256, 257], "the defaults are the last two")?;
    let marks = [mark(0, 0), mark(0, 65_535), mark(1, 0), mark(1, 65_535)];
    case.holds(marks == [1, 65_536, 65_537, 131_072], "the first and the last mark of each")
}

/// The same prefix for both, and a third route in their bucket.
fn one_bucket(library: &mut Library) -> Result<(), String> {
    let mut case = Case::new(library, "one prefix for two parties", T)?;
    let asked = address(10, 1, 2, 3);
    case.add_of(0, TEN, 8, 7, 0)?;
    case.hold(56, &[TEN, 8, 0, 0])?;
    case.answers(asked, [found(7, 8, 1), 1])?;
    case.add_of(1, TEN, 8, 9, 0)?;
    case.hold(56, &[TEN, 8, TEN, 65_546])?;
    case.counted(2)?;
    case.answers(asked, [found(7, 8, 1), found(9, 8, 1)])?;
    case.vector(asked, 128)?;
    for party in [0, 1] {
        let before = case.pair.memory();
        case.add_of(party, EIGHT, 8, 5, 8)?;
        case.withdraw_of(party, EIGHT, 8, 7)?;
        case.change_of(party, EIGHT, 8, 5, 7)?;
        case.add_of(party, TEN, 8, 65_536, 5)?;
        case.change_of(party, TEN, 8, 65_536, 5)?;
        case.keeps(&before)?;
    }
    // Stored prefixes get new hops, and each party's own slot alone.
    case.add_of(1, TEN, 8, 10, 0)?;
    case.hold(56, &[TEN, 8, TEN, 65_547])?;
    case.add_of(1, TEN, 8, 65_535, 0)?;
    case.hold(56, &[TEN, 8, TEN, 131_072])?;
    case.add_of(0, TEN, 8, 65_535, 0)?;
    case.hold(56, &[TEN, 65_536, TEN, 131_072])?;
    case.answers(asked, [found(65_535, 8, 1); 2])?;
    case.change_of(1, TEN, 8, 0, 0)?;
    case.hold(56, &[TEN, 65_536, TEN, 65_537])?;
    case.change_of(0, TEN, 8, 0, 0)?;
    case.hold(56, &[TEN, 1, TEN, 65_537])?;
    case.answers(asked, [found(0, 8, 1); 2])?;
    case.counted(2)?;
    // What party 1 withdraws is its own.
    case.withdraw_of(1, TEN, 8, 0)?;
    case.hold(56, &[TEN, 1, 0, 0])?;
    case.counted(1)?;
    case.answers(asked, [found(0, 8, 1), 1])?;
    case.withdraw_of(1, TEN, 8, 7)?;
    case.change_of(1, TEN, 8, 3, 7)?;
    // The freed slot is free to either.
    case.add_of(1, EIGHT, 8, 5, 0)?;
    case.hold(56, &[TEN, 1, EIGHT, 65_542])?;
    case.answers(address(8, 1, 2, 3), [1, found(5, 8, 1)])?;
    case.withdraw_of(0, EIGHT, 8, 7)?;
    case.withdraw_of(1, EIGHT, 8, 0)?;
    case.add_of(0, EIGHT, 8, 5, 0)?;
    case.hold(56, &[TEN, 1, EIGHT, 6])?;
    case.add_of(1, TEN, 8, 9, 8)?;
    // A clear empties both, whoever asks for it.
    case.withdraw_of(0, EIGHT, 8, 0)?;
    case.add_of(1, TEN, 8, 9, 0)?;
    case.add_of(1, 0, 0, 9, 0)?;
    case.gives(Call::Clear, 0)?;
    case.holds(case.pair.memory() == (vec![0; 512], vec![0; 258]), "a cleared table holds zeros")?;
    case.answers(asked, [0, 0])
}

/// The other party's equal in the lower slot.
fn school_first(library: &mut Library) -> Result<(), String> {
    let mut case = Case::new(library, "party 1 in the lower slot", T)?;
    case.add_of(1, TEN, 8, 9, 0)?;
    case.add_of(0, TEN, 8, 7, 0)?;
    case.hold(56, &[TEN, 65_546, TEN, 8])?;
    case.answers(TEN, [found(7, 8, 1), found(9, 8, 1)])?;
    case.add_of(0, TEN, 8, 6, 0)?;
    case.change_of(1, TEN, 8, 8, 0)?;
    case.hold(56, &[TEN, 65_545, TEN, 7])?;
    case.withdraw_of(0, TEN, 8, 0)?;
    case.hold(56, &[TEN, 65_545, 0, 0])?;
    case.answers(TEN, [1, found(8, 8, 1)])?;
    case.withdraw_of(0, TEN, 8, 7)?;
    // Party 0 takes the lowest slot that is free, and party 1 then the one that it has left.
    case.add_of(0, TEN, 8, 6, 0)?;
    case.withdraw_of(1, TEN, 8, 0)?;
    case.add_of(1, EIGHT, 8, 1, 0)?;
    case.hold(56, &[EIGHT, 65_538, TEN, 7])
}

fn defaults(library: &mut Library) -> Result<(), String> {
    let mut case = Case::new(library, "two defaults", T)?;
    let asked = address(11, 0, 0, 1);
    case.add_of(0, 0, 0, 3, 0)?;
    case.hold(256, &[4, 0])?;
    case.answers(asked, [found(3, 0, 0), 0])?;
    case.withdraw_of(1, 0, 0, 7)?;
    case.change_of(1, 0, 0, 5, 7)?;
    case.add_of(1, 0, 0, 4, 0)?;
    case.hold(256, &[4, 65_541])?;
    case.answers(asked, [found(3, 0, 0), found(4, 0, 0)])?;
    case.add_of(0, 0, 0, 65_535, 0)?;
    case.change_of(1, 0, 0, 65_535, 0)?;
    case.hold(256, &[65_536, 131_072])?;
    case.answers(asked, [found(65_535, 0, 0); 2])?;
    case.withdraw_of(0, 0, 0, 0)?;
    case.hold(256, &[0, 131_072])?;
    case.withdraw_of(0, 0, 0, 7)?;
    case.change_of(0, 0, 0, 1, 7)?;
    case.answers(asked, [0, found(65_535, 0, 0)])?;
    case.withdraw_of(1, 0, 0, 0)?;
    case.hold(256, &[0, 0])?;
    case.answers(asked, [0, 0])
}

/// Each default word counts its own party's marks alone, and each party's call its own word alone.
fn marks_of_defaults(library: &mut Library) -> Result<(), String> {
    let mut case = Case::new(library, "any mark of a default", T)?;
    case.pair.routes = None;
    for (mark, hops) in EDGES {
        for word in [0, 1] {
            let (own, other) = (word as u32, 1 - word as u32);
            let put = |case: &mut Case| {
                case.pair.damage_word(case.library, 256 + word, mark);
                case.pair.damage_word(case.library, 257 - word, 0);
            };
            put(&mut case);
            let mut answers = [0; 2];
            answers[word] = hops[word].map_or(0, |hop| found(hop.into(), 0, 0));
            case.answers(TEN, answers)?;
            let number = if hops[word].is_some() { 0 } else { 7 };
            case.change_of(own, 0, 0, 20, number)?;
            case.hold(256 + word, &[if number == 0 { TWENTY[word] } else { mark }])?;
            put(&mut case);
            case.withdraw_of(own, 0, 0, number)?;
            case.hold(256 + word, &[if number == 0 { 0 } else { mark }])?;
            put(&mut case);
            case.add_of(own, 0, 0, 20, 0)?;
            case.hold(256 + word, &[TWENTY[word]])?;
            put(&mut case);
            case.change_of(other, 0, 0, 20, 7)?;
            case.withdraw_of(other, 0, 0, 7)?;
            case.add_of(other, 0, 0, 20, 0)?;
            case.hold(256 + word, &[mark])?;
            case.hold(257 - word, &[TWENTY[1 - word]])?;
        }
    }
    Ok(())
}

/// A slot is free by every mark that is neither party's, and its party's own by every other.
fn marks_of_slots(library: &mut Library) -> Result<(), String> {
    let mut case = Case::new(library, "any mark of a slot", T)?;
    case.pair.routes = None;
    for (mark, hops) in EDGES {
        let put = |case: &mut Case| {
            for (at, word) in [TEN, mark, 0, 0].into_iter().enumerate() {
                case.pair.damage_word(case.library, 56 + at, word);
            }
            case.pair.damage_counter(case.library, 112, 1);
            case.pair.damage_counter(case.library, 113, 1);
        };
        put(&mut case);
        case.answers(TEN, hops.map(|hop| hop.map_or(1, |hop| found(hop.into(), 8, 1))))?;
        case.vector(TEN, 128)?;
        for party in [0, 1] {
            let own = hops[party].is_some();
            let taken = hops.iter().any(Option::is_some);
            let number = if own { 0 } else { 7 };
            let (named, twenty) = (party as u32, TWENTY[party]);
            put(&mut case);
            case.change_of(named, TEN, 8, 20, number)?;
            case.hold(56, &[TEN, if own { twenty } else { mark }, 0, 0])?;
            case.counted(1)?;
            put(&mut case);
            case.withdraw_of(named, TEN, 8, number)?;
            case.hold(56, &if own { [0; 4] } else { [TEN, mark, 0, 0] })?;
            case.counted(if own { 0 } else { 1 })?;
            put(&mut case);
            case.add_of(named, TEN, 8, 20, 0)?;
            case.hold(56, &if own || !taken { [TEN, twenty, 0, 0] } else { [TEN, mark, TEN, twenty] })?;
            case.counted(if own { 1 } else { 2 })?;
            // A third route finds the bucket full if the first slot is anybody's.
            put(&mut case);
            case.add_of(named, EIGHT, 8, 20, 0)?;
            case.add_of(named, address(9, 0, 0, 0), 8, 20, if taken { 8 } else { 0 })?;
        }
    }
    Ok(())
}

/// A party's probes count the other's routes.
fn probes(library: &mut Library) -> Result<(), String> {
    let mut case = Case::new(library, "probes by the other's routes", T)?;
    let (asked, longer) = (address(10, 1, 2, 3), address(10, 1, 0, 0));
    case.add_of(0, TEN, 8, 7, 0)?;
    case.answers(asked, [found(7, 8, 1), 1])?;
    case.add_of(1, longer, 16, 9, 0)?;
    case.answers(asked, [found(7, 8, 2), found(9, 16, 1)])?;
    case.vector(asked, 32_896)?;
    case.add_of(0, 0, 0, 3, 0)?;
    case.answers(address(10, 2, 2, 3), [found(7, 8, 2), 2])?;
    case.withdraw_of(0, TEN, 8, 0)?;
    case.answers(asked, [found(3, 0, 1), found(9, 16, 1)])?;
    case.withdraw_of(1, longer, 16, 0)?;
    case.answers(asked, [found(3, 0, 0), 0])
}

/// Counters count both parties' routes, and so does 9; 8 comes first.
fn counters(library: &mut Library) -> Result<(), String> {
    let mut case = Case::new(library, "a counter that both parties fill", zero(5, 4))?;
    case.add_of(0, 1, 32, 7, 0)?;
    case.add_of(1, 1, 32, 8, 0)?;
    case.add_of(0, 2, 32, 9, 0)?;
    case.holds(case.pair.counter(31 * 16) == 15, "the counter is 15")?;
    case.add_of(0, 3, 32, 1, 9)?;
    case.add_of(1, 3, 32, 1, 9)?;
    case.add_of(1, 2, 32, 1, 9)?;
    case.add_of(1, 1, 32, 1, 0)?;
    case.answers(1, [found(7, 32, 1), found(1, 32, 1)])?;
    case.answers(2, [found(9, 32, 1), 1])?;
    case.withdraw_of(0, 1, 32, 0)?;
    case.add_of(1, 2, 32, 4, 0)?;
    case.answers(2, [found(9, 32, 1), found(4, 32, 1)])?;
    for (s, refusal) in [(2, 9), (1, 8)] {
        let mut case = Case::new(library, "a route of the other party", zero(8, s))?;
        case.add_of(0, 1, 32, 7, 0)?;
        case.add_of(1, 1, 32, 7, refusal)?;
        case.add_of(1, 2, 32, 7, refusal)?;
        case.add_of(0, 1, 32, 8, 0)?;
        case.answers(1, [found(8, 32, 1), 1])?;
    }
    Ok(())
}

/// The worked message withdraws 10.1.0.0/16 and announces 192.0.2.0/24 and the default.
fn messages(library: &mut Library) -> Result<(), String> {
    let mut case = Case::new(library, "a message of party 1", T)?;
    let message = Message { party: 1, ..with_hops(&MESSAGE, &[7, NEXT_HOP]) };
    let (asked, announced) = (address(10, 1, 2, 3), address(192, 0, 2, 9));
    case.add_of(0, address(10, 1, 0, 0), 16, 9, 0)?;
    case.message_gives(&message, routes(2, 1))?;
    case.hold(256, &[0, 65_538])?;
    case.answers(asked, [found(9, 16, 1), found(1, 0, 1)])?;
    case.answers(announced, [1, found(1, 24, 1)])?;
    case.add_of(1, address(10, 1, 0, 0), 16, 5, 0)?;
    case.message_gives(&message, routes(3, 0))?;
    case.answers(asked, [found(9, 16, 1), found(1, 0, 1)])?;
    // Party 0's own message takes its own route away.
    case.message_gives(&Message { party: 0, ..message }, routes(3, 0))?;
    case.hold(256, &[2, 65_538])?;
    case.answers(asked, [found(1, 0, 0); 2])?;
    case.answers(announced, [found(1, 24, 1); 2])
}

/// A record is that party's in whose chunk it ends.
fn streams(library: &mut Library) -> Result<(), String> {
    for at in [0, 5, 12, 20, 49] {
        let mut case = Case::new(library, "a dump of two parties", T)?;
        let (first, second) = RECORD.split_at(at);
        case.begin([0; 3], [0; 3]);
        case.import_with(&T, None, first, &worked_imports::HOPS, 0)?;
        let words = case.pair.stream.held().words;
        for party in STRANGERS {
            case.party = party;
            case.import(second, 15, [0; 3], words)?;
            case.import(&[], 15, [0; 3], words)?;
        }
        case.party = 1;
        case.import(second, 0, [1, 0, 0], [0; 3])?;
        case.hold(56, &[TEN, 65_538, 0, 0])?;
        case.answers(TEN, [1, found(1, 8, 1)])?;
        case.party = 0;
        case.import(&RECORD, 0, [2, 0, 0], [0; 3])?;
        case.hold(56, &[TEN, 65_538, TEN, 2])?;
        case.answers(TEN, [found(1, 8, 1); 2])?;
    }

    let record = with_message(&BEFORE, &MESSAGE);
    for at in [0, 5, 12, 40, record.len() - 1] {
        let mut case = Case::new(library, "a day of two parties", T)?;
        case.add_of(0, address(10, 1, 0, 0), 16, 9, 0)?;
        let (first, second) = record.split_at(at);
        case.begin_day(NONE, [0; 3]);
        case.replay_with(&T, None, first, &worked_days::HOPS, 0)?;
        let words = case.pair.stream.held().words;
        for party in STRANGERS {
            case.party = party;
            case.replay(second, 15, NONE, words)?;
            case.replay(&[], 15, NONE, words)?;
        }
        case.party = 1;
        case.replay(second, 0, tally(1, 1, 2, &[(7, 1)]), [0; 3])?;
        case.hold(256, &[0, 65_538])?;
        case.answers(address(10, 1, 2, 3), [found(9, 16, 1), found(1, 0, 1)])?;
        case.replay(&record, 0, tally(2, 2, 5, &[(7, 1)]), [0; 3])?;
        case.hold(256, &[2, 65_538])?;
        case.answers(address(10, 1, 2, 3), [found(1, 0, 0); 2])?;
    }
    Ok(())
}

/// A party above 1 gets 15: after 1 and 2, and before all else.
fn strangers(library: &mut Library) -> Result<(), String> {
    let mut case = Case::new(library, "a party that there is not", T)?;
    case.add_of(0, TEN, 8, 7, 0)?;
    case.add_of(1, TEN, 8, 9, 0)?;
    case.add_of(1, 0, 0, 9, 0)?;
    let before = case.pair.memory();
    let odd = address(127, 0, 0, 0);
    for party in STRANGERS {
        // What they would get else: 0, 3, 4, 11, 5, 8 and 7; 3 with a bit after the length.
        for call in [
            Call::Add { party, prefix: TEN, length: 8, hop: 1 },
            Call::Add { party, prefix: 0, length: 0, hop: 1 },
            Call::Add { party, prefix: TEN + 1, length: 33, hop: 1 },
            Call::Add { party, prefix: TEN + 1, length: 8, hop: 1 },
            Call::Add { party, prefix: odd, length: 8, hop: 1 },
            Call::Add { party, prefix: TEN, length: 8, hop: 65_536 },
            Call::Add { party, prefix: EIGHT, length: 8, hop: 1 },
            Call::Withdraw { party, prefix: TEN, length: 8 },
            Call::Withdraw { party, prefix: TEN, length: 33 },
            Call::Withdraw { party, prefix: TEN + 1, length: 8 },
            Call::Withdraw { party, prefix: TEN, length: 9 },
            Call::Change { party, prefix: TEN, length: 8, hop: 1 },
            Call::Change { party, prefix: TEN, length: 33, hop: 1 },
            Call::Change { party, prefix: TEN + 1, length: 8, hop: 1 },
            Call::Change { party, prefix: TEN, length: 8, hop: 65_536 },
            Call::Change { party, prefix: EIGHT, length: 8, hop: 1 },
            Call::Lookup { party, address: TEN },
        ] {
            case.gives(call, refused(15))?;
            for lent in one_off(case.pair.lent(call)) {
                case.gives_lent(lent, call, refused(2))?;
                case.t.k = 9;
                case.gives_lent(lent, call, refused(1))?;
                case.t.k = T.k;
            }
        }
        for results in [16, 0, 15, 17] {
            let list = List { party, ..list_of(bytes_of(&[TEN]), results) };
            let lent = case.pair.lent(&list);
            case.list_gives(lent, &list, refused(15), &list.results)?;
            for lent in one_off(lent) {
                case.list_gives(lent, &list, refused(2), &list.results)?;
            }
        }
        // A good message, one that is none, and one whose next hop is not in the list.
        for (bytes, hops) in [(&MESSAGE[..], &[NEXT_HOP][..]), (&MESSAGE[1..], &[NEXT_HOP]), (&MESSAGE, &[])]
        {
            let message = Message { party, ..with_hops(bytes, hops) };
            case.message_gives(&message, refused(15))?;
            for lent in one_off(case.pair.lent(&message)) {
                case.message_gives_with(&T, lent, &message, refused(2))?;
                case.message_gives_with(&Settings { k: 9, ..T }, lent, &message, refused(1))?;
            }
        }
    }
    case.keeps(&before)?;
    case.vector(TEN, 128)?;
    // A withdrawal that would get 10 gets 15 as well.
    case.pair.routes = None;
    case.pair.damage_counter(case.library, 112, 0);
    case.withdraw_of(0, TEN, 8, 10)?;
    case.withdraw_of(1, TEN, 8, 10)?;
    case.withdraw_of(2, TEN, 8, 15)
}

/// The same of chunks: after the end, 19, 1 and 2, and before 14 and 12. What they are lent stays.
fn strangers_in_streams(library: &mut Library) -> Result<(), String> {
    let mut case = Case::new(library, "a chunk of a party that there is not", T)?;
    let [mut long, mut bad] = [RECORD.to_vec(), RECORD.to_vec()];
    long[8..12].copy_from_slice(&65_537u32.to_be_bytes());
    bad[16] = 33;
    let good = with_message(&BEFORE, &MESSAGE);
    let [mut long_day, mut bad_day] = [good.clone(), good.clone()];
    long_day[8..12].copy_from_slice(&65_537u32.to_be_bytes());
    bad_day[28] = 0;
    let nine = Settings { k: 9, ..T };
    for party in STRANGERS {
        case.party = party;
        case.begin([0; 3], [0; 3]);
        let lent: [Lent; 4] = one_off(case.pair.lent(&case.pair.stream.end()));
        let too_long = vec![0; 65_537];
        for chunk in [&RECORD[..], &long, &bad, &[]] {
            let hops = &worked_imports::HOPS;
            case.import(chunk, 15, [0; 3], [0; 3])?;
            for lent in lent {
                case.import_with(&T, Some(lent), chunk, hops, 2)?;
                case.import_with(&nine, Some(lent), chunk, hops, 1)?;
                case.import_with(&nine, Some(lent), &too_long, hops, 19)?;
            }
        }
        case.kept(&[])?;
        case.begin([4_000_000_001, 0, 0], [0; 3]);
        case.import(&RECORD, 19, [4_000_000_001, 0, 0], [0; 3])?;
        for number in [0, 12, 14, 17, 15] {
            case.begin([0; 3], [number as u32 + 1, 0, 0]);
            case.import(&RECORD, number, [0; 3], [number as u32 + 1, 0, 0])?;
        }
        case.begin_day(NONE, [0; 3]);
        for chunk in [&good[..], &long_day, &bad_day, &[]] {
            let hops = &worked_days::HOPS;
            case.replay(chunk, 15, NONE, [0; 3])?;
            for lent in lent {
                case.replay_with(&T, Some(lent), chunk, hops, 2)?;
                case.replay_with(&nine, Some(lent), chunk, hops, 1)?;
                case.replay_with(&nine, Some(lent), &too_long, hops, 19)?;
            }
        }
        case.kept(&[])?;
        for number in [0, 12, 14, 17, 15] {
            case.begin_day(NONE, [number as u32 + 1, 0, 0]);
            case.replay(&good, number, NONE, [number as u32 + 1, 0, 0])?;
        }
    }
    case.holds(case.pair.memory() == (vec![0; 512], vec![0; 258]), "the table is as it was cleared")?;
    // The chunks of a party that there is are what they were said to be.
    case.party = 1;
    case.begin([0; 3], [0; 3]);
    case.import(&long, 14, [0; 3], [15, 0, 0])?;
    case.begin([0; 3], [0; 3]);
    case.import(&bad, 12, [0; 3], [13, 0, 0])?;
    case.begin_day(NONE, [0; 3]);
    case.replay(&long_day, 14, NONE, [15, 0, 0])?;
    case.begin_day(NONE, [0; 3]);
    case.replay(&bad_day, 12, NONE, [13, 0, 0])
}
