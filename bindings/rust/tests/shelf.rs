//! A shelf for two parties: worked out by hand, every refusal and what it leaves, both parties at once, memory of the caller's.
mod common;

use std::collections::{BTreeMap, BTreeSet};
use std::sync::Mutex;

use common::{one, refusal, Draw, EXAMPLE};
use fermion::{shelf_clear, shelf_drop, shelf_get, shelf_get_into, shelf_put};
use fermion::{Reason, Record, Refusal, Shelf, HALF, SHELF, SLOTS};

/// A record of 32 + 24 bytes for each term.
fn sized(terms: u64) -> Vec<u8> {
    Record::build(11, (0..terms).map(|word| (0, word, 1))).unwrap().into_bytes()
}

/// The shortest record: 32 bytes.
fn none() -> Vec<u8> {
    sized(0)
}

/// What is not a record, and the refusal that it meets: 1 to 5.
fn faulty() -> Vec<(Vec<u8>, (u64, u64, u64))> {
    let changed = |at: usize, bytes: &[u8]| {
        let mut record = EXAMPLE;
        record[at..at + bytes.len()].copy_from_slice(bytes);
        record.to_vec()
    };
    vec![
        (vec![], (1, 1, 0)),
        (EXAMPLE[..79].to_vec(), (1, 1, 0)),
        (changed(56, &[4]), (2, 1, 1)),
        (changed(32, &[2, 0, 0, 0, 0, 0, 0, 0, 1]), (3, 1, 1)),
        (changed(72, &[0; 8]), (4, 1, 1)),
        (changed(64, &(1u64 << 60).to_le_bytes()), (5, 1, 0)),
    ]
}

fn entry(place: u32, length: u32) -> [u8; 32] {
    let mut bytes = [0; 32];
    bytes[..4].copy_from_slice(&place.to_le_bytes());
    bytes[4..8].copy_from_slice(&length.to_le_bytes());
    bytes
}

/// A half with these entries by their slots, all others free, and one byte everywhere after them.
fn half_of(entries: &[(usize, [u8; 32])], filling: u8) -> Vec<u8> {
    let mut half = vec![filling; HALF];
    half[..512].fill(0);
    for (slot, entry) in entries {
        half[32 * slot..][..32].copy_from_slice(entry);
    }
    half
}

/// What a party keeps, as the specification has it: the place and the bytes of each record, by its slot.
#[derive(Default)]
struct Half(BTreeMap<u64, (usize, Vec<u8>)>);

/// What a call gives, or the three numbers of its refusal.
type Outcome = Result<Vec<u8>, (u64, u64, u64)>;

impl Half {
    fn put(&mut self, data: &[u8]) -> Outcome {
        let slot = (0..16).find(|slot| !self.0.contains_key(slot)).ok_or((20, 0, 0))?;
        let kept: Vec<_> = self.0.values().map(|(at, kept)| (*at, at + kept.len())).collect();
        let starts = kept.iter().map(|&(_, end)| end).chain([512]);
        let fits = |&start: &usize| {
            let end = start + data.len();
            end <= 32_768 && kept.iter().all(|&(other, other_end)| end <= other || other_end <= start)
        };
        let place = starts.filter(fits).min().ok_or((21, 0, 0))?;
        self.0.insert(slot, (place, data.to_vec()));
        Ok(vec![slot as u8])
    }

    fn get(&self, slot: u64) -> Outcome {
        self.0.get(&slot).map(|(_, data)| data.clone()).ok_or((22, 0, 0))
    }

    fn drop(&mut self, slot: u64) -> Outcome {
        self.0.remove(&slot).map(|_| vec![]).ok_or((22, 0, 0))
    }

    fn bytes(&self) -> Vec<u8> {
        let entries: Vec<_> =
            self.0.iter().map(|(&slot, (at, data))| (slot as usize, entry(*at as u32, data.len() as u32))).collect();
        let mut half = half_of(&entries, 0);
        for (at, data) in self.0.values() {
            half[*at..][..data.len()].copy_from_slice(data);
        }
        half
    }
}

/// A call for a party, with the record or the slot.
#[derive(Clone, PartialEq)]
enum Call {
    Put(Vec<u8>),
    Get(u64),
    Drop(u64),
}

impl Call {
    fn on(&self, shelf: &mut Shelf, party: u64) -> Outcome {
        let answer = match self {
            Call::Put(data) => shelf.put(party, data).map(|slot| vec![slot as u8]),
            Call::Get(slot) => shelf.get(party, *slot),
            Call::Drop(slot) => shelf.drop_slot(party, *slot).map(|()| vec![]),
        };
        answer.map_err(|refusal| (refusal.number, refusal.operand, refusal.place))
    }

    fn expected(&self, half: &mut Half) -> Outcome {
        match self {
            Call::Put(data) => match faulty().into_iter().find(|(known, _)| known == data) {
                Some((_, numbers)) => Err(numbers),
                None => half.put(data),
            },
            Call::Get(slot) => half.get(*slot),
            Call::Drop(slot) => half.drop(*slot),
        }
    }

    fn drawn(draw: &mut Draw) -> Call {
        let slot = |draw: &mut Draw| match draw.below(7) {
            0..=2 => draw.below(16),
            3 | 4 => draw.below(3),
            5 => 16,
            _ => u64::MAX,
        };
        match draw.below(16) {
            0 => Call::Put(faulty().swap_remove(draw.below(6) as usize).0),
            1..=7 => {
                let terms = [0, 1, 2, 3, 10, 40, 100, 300, draw.below(1343), 1342, 1343];
                Call::Put(sized(terms[draw.below(11) as usize]))
            }
            8..=12 => Call::Get(slot(draw)),
            _ => Call::Drop(slot(draw)),
        }
    }
}

/// That the call, by a `Shelf` and by the C face's name, is refused so, and that not a byte of the shelf is changed by it.
fn no_put(memory: &mut [u8], numbers: (u64, u64, u64), party: u64, data: &[u8]) {
    let before = memory.to_vec();
    assert_eq!(refusal(Shelf::on(memory).put(party, data)), numbers);
    assert_eq!(refusal(Shelf::from_bytes(&*memory).put(party, data)), numbers);
    assert_eq!(refusal(shelf_put(memory, party, data)), numbers);
    assert!(memory == before);
}

fn no_drop(memory: &mut [u8], numbers: (u64, u64, u64), party: u64, slot: u64) {
    let before = memory.to_vec();
    assert_eq!(refusal(Shelf::on(memory).drop_slot(party, slot)), numbers);
    assert_eq!(refusal(shelf_drop(memory, party, slot)), numbers);
    assert!(memory == before);
}

/// The same of a get into so many bytes, which are then all zero.
fn no_get_into(memory: &mut [u8], numbers: (u64, u64, u64), party: u64, slot: u64, room: usize) {
    let before = memory.to_vec();
    let (mut out, mut second) = (vec![7; room], vec![7; room]);
    assert_eq!(refusal(Shelf::on(memory).get_into(party, slot, &mut out)), numbers);
    assert_eq!(refusal(shelf_get_into(memory, party, slot, &mut second)), numbers);
    assert_eq!((out, second), (vec![0; room], vec![0; room]));
    assert!(memory == before);
}

fn no_get(memory: &mut [u8], numbers: (u64, u64, u64), party: u64, slot: u64) {
    assert_eq!(refusal(Shelf::on(memory).get(party, slot)), numbers);
    assert_eq!(refusal(shelf_get(memory, party, slot)), numbers);
    for room in [0, 31, 100] {
        no_get_into(memory, numbers, party, slot, room);
    }
}

fn nothing_goes(memory: &mut [u8], numbers: (u64, u64, u64), party: u64) {
    for (data, slot) in [(&EXAMPLE[..], 0), (b"no record", 16)] {
        no_put(memory, numbers, party, data);
        no_get(memory, numbers, party, slot);
        no_drop(memory, numbers, party, slot);
    }
}

#[test]
fn a_fresh_shelf() {
    assert_eq!((SHELF, HALF, SLOTS), (65_536, 32_768, 16));
    assert!(Shelf::new().as_bytes() == [0; 65_536] && Shelf::default().as_bytes() == [0; 65_536]);
}

#[test]
fn every_byte_by_hand() -> Result<(), Refusal> {
    let mut memory = vec![0; SHELF];
    for mut shelf in [Shelf::new(), Shelf::on(&mut memory)] {
        let mut expected = vec![0; SHELF];
        assert_eq!([shelf.put(0, &EXAMPLE)?, shelf.put(0, &none())?, shelf.put(1, &none())?], [0, 1, 0]);
        expected[..8].copy_from_slice(&[0, 2, 0, 0, 80, 0, 0, 0]);
        expected[512..592].copy_from_slice(&EXAMPLE);
        expected[32..40].copy_from_slice(&[80, 2, 0, 0, 32, 0, 0, 0]);
        expected[592..624].copy_from_slice(&none());
        expected[32_768..32_776].copy_from_slice(&[0, 2, 0, 0, 32, 0, 0, 0]);
        expected[33_280..33_312].copy_from_slice(&none());
        assert!(shelf.as_bytes() == expected);
        assert_eq!([shelf.get(0, 0)?, shelf.get(0, 1)?, shelf.get(1, 0)?], [EXAMPLE.to_vec(), none(), none()]);

        shelf.drop_slot(0, 0)?;
        expected[..8].fill(0);
        expected[512..592].fill(0);
        assert!(shelf.as_bytes() == expected);
        let short = one(2, 1, 2, 1);
        assert_eq!([shelf.put(0, &short)?, shelf.put(0, &none())?], [0, 2]); // 24 bytes are left between them: too few
        expected[..8].copy_from_slice(&[0, 2, 0, 0, 56, 0, 0, 0]);
        expected[512..568].copy_from_slice(short.as_bytes());
        expected[64..72].copy_from_slice(&[112, 2, 0, 0, 32, 0, 0, 0]);
        expected[624..656].copy_from_slice(&none());
        assert!(shelf.as_bytes() == expected);
        shelf.clear();
        assert!(shelf.as_bytes() == [0; SHELF]);
    }
    assert!(memory == [0; SHELF]);
    Ok(())
}

#[test]
fn a_gap_that_is_just_long_enough() -> Result<(), Refusal> {
    for (terms, place) in [(10, 544), (9, 544), (11, 848)] {
        let mut shelf = Shelf::new();
        for (slot, terms) in [0, 10, 0].into_iter().enumerate() {
            assert_eq!(shelf.put(1, &sized(terms))?, slot as u64); // at 512, 544, 816
        }
        shelf.drop_slot(1, 1)?;
        assert_eq!(shelf.put(1, &sized(terms))?, 1);
        assert_eq!(shelf.as_bytes()[HALF + 32..][..32], entry(place, 32 + 24 * terms as u32));
    }
    Ok(())
}

#[test]
fn the_lowest_slot_and_the_lowest_gap_are_two_things() -> Result<(), Refusal> {
    let mut shelf = Shelf::new();
    for terms in [5, 0, 1, 0] {
        shelf.put(0, &sized(terms))?; // at 512, 664, 696, 752
    }
    shelf.drop_slot(0, 0)?;
    shelf.drop_slot(0, 2)?;
    for (terms, slot) in [(6, 0), (1, 2), (2, 4), (0, 5)] {
        assert_eq!(shelf.put(0, &sized(terms))?, slot);
    }
    let places = [(784, 176), (664, 32), (512, 56), (752, 32), (568, 80), (696, 32)];
    for (slot, (place, length)) in places.into_iter().enumerate() {
        assert_eq!(shelf.as_bytes()[32 * slot..][..32], entry(place, length), "{slot}");
    }
    Ok(())
}

#[test]
fn a_copy_in_lent_memory() -> Result<(), Refusal> {
    let mut shelf = Shelf::new();
    let slot = shelf.put(1, &EXAMPLE)?;
    for room in [80, 81, 200, HALF, 70_000] {
        let mut out = vec![7; room];
        assert_eq!(shelf.get_into(1, slot, &mut out)?, EXAMPLE);
        assert!(out[..80] == EXAMPLE && out[80..].iter().all(|&byte| byte == 0));
    }
    Ok(())
}

#[test]
fn records_go_in_and_come_out() -> Result<(), Refusal> {
    let mut shelf = Shelf::new();
    let product = fermion::commutator(&one(2, 1, 2, 1), &one(2, 2, 1, 1))?;
    assert_eq!(shelf.put(0, &product)?, 0); // {0|0} - {1|1}
    for record in [one(64, u64::MAX, 1, -7), Record::new(&EXAMPLE[..])?, Record::parse(4, "3 0^ 2_\n")?] {
        let slot = shelf.put(0, &record)?;
        assert_eq!(Record::new(shelf.get(0, slot)?)?, record);
    }
    assert_eq!((shelf.get(0, 0)?, shelf.get(0, 2)?), (EXAMPLE.to_vec(), EXAMPLE.to_vec()));
    assert_eq!(fermion::add(&shelf.get(0, 0)?, &EXAMPLE)?.to_string(), "2 {0|0} - 2 {1|1}");
    let longest = sized(1342);
    assert_eq!((longest.len(), shelf.put(1, &longest)?, shelf.get(1, 0)?), (32_240, 0, longest));
    Ok(())
}

#[test]
fn get_does_not_look_at_the_record_again() -> Result<(), Refusal> {
    let mut memory = half_of(&[(3, entry(600, 40))], 7);
    memory.extend([0; HALF]);
    let shelf = Shelf::on(&mut memory);
    assert_eq!(shelf.get(0, 3)?, [7; 40]);
    assert_eq!(refusal(Record::new(shelf.get(0, 3)?)), (1, 1, 0));
    Ok(())
}

#[test]
fn a_party_that_is_not_0_or_1() {
    for mut memory in [vec![0; SHELF], vec![7; SHELF], vec![7; 12]] {
        for party in [2, 3, 256, 1 << 32, (1 << 32) + 1, 1 << 63, u64::MAX] {
            nothing_goes(&mut memory, (18, 0, 0), party);
        }
    }
}

#[test]
fn a_shelf_of_another_length() {
    for length in [0, 1, 32_768, 65_535, 65_537, 131_072] {
        for party in [0, 1] {
            nothing_goes(&mut vec![0; length], (19, 0, 0), party);
        }
    }
}

/// Entries of halves that are damaged, each in one way.
fn damaged() -> Vec<Vec<(usize, [u8; 32])>> {
    let mut halves = vec![];
    halves.extend([0, 1, 31].map(|length| vec![(0, entry(512, length))]));
    halves.extend([0, 1, 511].map(|place| vec![(15, entry(place, 32))]));
    let (most, near) = (u32::MAX, u32::MAX - 31); // sums that 32 bits would cut too
    let past = [(32_737, 32), (512, 32_257), (32_768, 32), (most, 32), (near, 32), (512, most), (most, most)];
    halves.extend(past.map(|(place, length)| vec![(7, entry(place, length))]));
    for [first, second] in
        [[(512, 32), (543, 32)], [(512, 32); 2], [(600, 200), (620, 40)], [(512, 32_256), (32_736, 32)]]
    {
        let [first, second] = [first, second].map(|(place, length)| entry(place, length));
        halves.push(vec![(0, first), (1, second)]);
        halves.push(vec![(0, second), (15, first)]);
    }
    for at in 8..32 {
        for mut entry in [entry(512, 32), [0; 32]] {
            entry[at] = 128;
            halves.push(vec![(4, entry)]);
        }
    }
    halves
}

#[test]
fn damage_of_every_kind() -> Result<(), Refusal> {
    let mut sound = half_of(&[(0, entry(512, 80))], 0);
    sound[512..592].copy_from_slice(&EXAMPLE);
    assert_eq!(damaged().len(), 3 + 3 + 7 + 8 + 48);
    for entries in damaged() {
        let half = half_of(&entries, 0);
        for party in [0, 1] {
            let mut memory = if party == 0 { [&half[..], &sound] } else { [&sound[..], &half] }.concat();
            nothing_goes(&mut memory, (19, 0, 0), party);
            let (mut shelf, other) = (Shelf::on(&mut memory), 1 - party); // which sees nothing of it
            assert_eq!((shelf.get(other, 0)?, shelf.put(other, &none())?), (EXAMPLE.to_vec(), 1));
            shelf.drop_slot(other, 0)?;
            assert_eq!(shelf.put(other, &EXAMPLE)?, 0);
            assert!(memory[HALF * party as usize..][..HALF] == half);
        }
    }
    Ok(())
}

#[test]
fn what_is_no_damage() -> Result<(), Refusal> {
    let sound: [&[(usize, u32, u32)]; 7] = [
        &[],
        &[(0, 512, 32)],
        &[(15, 32_736, 32)],
        &[(3, 512, 32_256)],
        &[(5, 513, 33)],
        &[(0, 544, 32), (9, 512, 32)],
        &[(0, 512, 32), (1, 576, 32), (2, 544, 32)],
    ];
    for known in sound {
        let entries: Vec<_> = known.iter().map(|&(slot, place, length)| (slot, entry(place, length))).collect();
        for filling in [0, 255] {
            let mut memory = [vec![255; HALF], half_of(&entries, filling)].concat(); // what lies in gaps is not judged
            for &(slot, _, length) in known {
                assert_eq!(Shelf::on(&mut memory).get(1, slot as u64)?, vec![filling; length as usize]);
            }
            no_get(&mut memory, (22, 0, 0), 1, 8);
            no_drop(&mut memory, (22, 0, 0), 1, 8);
        }
    }
    Ok(())
}

#[test]
fn what_is_not_a_record() -> Result<(), Refusal> {
    let (mut fresh, mut full) = (vec![0; SHELF], vec![0; SHELF]);
    for _ in 0..16 {
        shelf_put(&mut full, 1, &none())?;
    }
    for (data, numbers) in faulty() {
        no_put(&mut fresh, numbers, 1, &data);
        no_put(&mut full, numbers, 1, &data); // 20 comes later
    }
    Ok(())
}

#[test]
fn no_free_slot() -> Result<(), Refusal> {
    for terms in [0, 82] {
        let (data, mut memory) = (sized(terms), vec![0; SHELF]); // with room for more, and without
        for slot in 0..16 {
            assert_eq!(shelf_put(&mut memory, 0, &data)?, slot);
        }
        for more in [none(), EXAMPLE.to_vec(), sized(2048)] {
            no_put(&mut memory, (20, 0, 0), 0, &more);
        }
        let mut shelf = Shelf::on(&mut memory);
        assert_eq!((shelf.get(0, 15)?, shelf.put(1, &data)?), (data.clone(), 0));
        shelf.drop_slot(0, 11)?;
        assert_eq!(shelf.put(0, &data)?, 11);
    }
    Ok(())
}

#[test]
fn no_gap_that_is_long_enough() -> Result<(), Refusal> {
    let mut memory = vec![0; SHELF];
    for terms in [1343, 2048] {
        no_put(&mut memory, (21, 0, 0), 0, &sized(terms)); // 32,264 bytes and more never fit
    }
    for (terms, slot) in [(440, 0), (460, 1), (440, 2)] {
        assert_eq!(shelf_put(&mut memory, 0, &sized(terms))?, slot);
    }
    assert_eq!(memory[64..96], entry(22_176, 10_592)); // together 32,768: the half is full, to its last byte
    no_put(&mut memory, (21, 0, 0), 0, &none());
    shelf_drop(&mut memory, 0, 0)?;
    shelf_drop(&mut memory, 0, 2)?;
    no_put(&mut memory, (21, 0, 0), 0, &sized(441)); // two gaps of 10,592 bytes: one more term is too much
    assert_eq!([shelf_put(&mut memory, 0, &sized(440))?, shelf_put(&mut memory, 0, &sized(439))?], [0, 2]);
    no_put(&mut memory, (21, 0, 0), 0, &none()); // 24 bytes are left
    assert_eq!(shelf_put(&mut memory, 1, &sized(1342))?, 0);
    Ok(())
}

#[test]
fn an_empty_or_unknown_slot() -> Result<(), Refusal> {
    let mut memory = vec![0; SHELF];
    shelf_put(&mut memory, 0, &EXAMPLE)?;
    for (party, slot) in [(0, 1), (0, 15), (0, 16), (0, 1 << 32), (0, u64::MAX), (1, 0), (1, 16)] {
        no_get(&mut memory, (22, 0, 0), party, slot); // 11 comes later
        no_drop(&mut memory, (22, 0, 0), party, slot);
    }
    shelf_drop(&mut memory, 0, 0)?;
    no_get(&mut memory, (22, 0, 0), 0, 0);
    no_drop(&mut memory, (22, 0, 0), 0, 0);
    Ok(())
}

#[test]
fn an_output_that_is_too_short() -> Result<(), Refusal> {
    let mut memory = vec![0; SHELF];
    shelf_put(&mut memory, 1, &EXAMPLE)?;
    for room in [0, 1, 79] {
        no_get_into(&mut memory, (11, 0, 0), 1, 0, room);
    }
    Ok(())
}

#[test]
fn the_reasons() -> Result<(), Refusal> {
    let mut full = Shelf::new();
    for _ in 0..SLOTS {
        full.put(0, &none())?;
    }
    for (reason, refused) in [
        (Reason::NoSuchParty, Shelf::new().put(2, &none())),
        (Reason::DamagedHalf, Shelf::from_bytes([0; 5]).put(0, &none())),
        (Reason::NoFreeSlot, full.put(0, &none())),
        (Reason::NoGap, Shelf::new().put(0, &sized(1343))),
        (Reason::NoSuchSlot, Shelf::new().drop_slot(0, 0).map(|()| 0)),
    ] {
        let refusal = refused.unwrap_err();
        assert_eq!((refusal.reason(), refusal.operand, refusal.place), (Some(reason), 0, 0));
        assert_eq!(refusal.sentence(), reason.sentence());
    }
    Ok(())
}

#[test]
fn drawn_calls_of_both() {
    let (mut draw, mut met, mut memory) = (Draw(31), BTreeSet::new(), vec![0; SHELF]);
    let (mut own, mut halves) = (Shelf::new(), [Half::default(), Half::default()]);
    for _ in 0..3_000 {
        let (party, call) = (draw.below(2), Call::drawn(&mut draw));
        let expected = call.expected(&mut halves[party as usize]);
        assert_eq!(call.on(&mut own, party), expected);
        assert_eq!(call.on(&mut Shelf::on(&mut memory), party), expected);
        assert!(own.as_bytes() == memory && memory == [halves[0].bytes(), halves[1].bytes()].concat());
        met.insert(expected.err().map_or(0, |numbers| numbers.0));
    }
    assert!(met.into_iter().eq([0, 1, 2, 3, 4, 5, 20, 21, 22]));
}

#[test]
fn the_others_calls_change_nothing() {
    let mut draw = Draw(32);
    for party in [0, 1] {
        let mine: Vec<Call> = (0..300).map(|_| Call::drawn(&mut draw)).collect();
        // With none of the other's calls between two of mine, and with as many, each time others.
        let runs = [0, 1, 4].map(|others| {
            let mut memory: Vec<u8> = (0..SHELF).map(|_| draw.number() as u8).collect();
            let (mut shelf, mut seen) = (Shelf::on(&mut memory), vec![]);
            shelf.clear();
            for call in &mine {
                for _ in 0..others {
                    let _ = Call::drawn(&mut draw).on(&mut shelf, 1 - party);
                }
                let answer = call.on(&mut shelf, party);
                seen.push((answer, shelf.as_bytes()[HALF * party as usize..][..HALF].to_vec()));
            }
            seen
        });
        assert!(runs[0] == runs[1] && runs[0] == runs[2]);
    }
}

#[test]
fn the_same_records_and_slots_of_their_own() -> Result<(), Refusal> {
    let mut shelf = Shelf::new();
    for terms in 0..16 {
        assert_eq!([shelf.put(1, &sized(terms))?, shelf.put(0, &sized(terms))?], [terms; 2]);
    }
    assert!(shelf.as_bytes()[..HALF] == shelf.as_bytes()[HALF..]);
    shelf.drop_slot(1, 3)?;
    shelf.drop_slot(1, 7)?;
    for terms in 0..16 {
        assert_eq!(shelf.get(0, terms)?, sized(terms));
    }
    assert_eq!((shelf.put(1, &sized(7))?, shelf.get(1, 3)?, shelf.get(0, 3)?), (3, sized(7), sized(3)));
    assert_eq!(refusal(shelf.put(0, &sized(7))), (20, 0, 0));
    Ok(())
}

#[test]
fn what_is_put_stays_until_it_is_dropped() -> Result<(), Refusal> {
    let (mut draw, mut shelf) = (Draw(33), Shelf::new());
    let slot = shelf.put(0, &EXAMPLE)?;
    for _ in 0..500 {
        let (party, call) = (draw.below(2), Call::drawn(&mut draw));
        if (party, &call) != (0, &Call::Drop(slot)) {
            let _ = call.on(&mut shelf, party);
        }
        assert_eq!(shelf.get(0, slot)?, EXAMPLE);
    }
    Ok(())
}

#[test]
fn clear_is_of_both_and_of_any_length() -> Result<(), Refusal> {
    for length in [0, 1, 31, 65_535, 65_536, 65_537, 200_000] {
        let (mut first, mut second) = (vec![7; length], vec![7; length]);
        shelf_clear(&mut first);
        Shelf::on(&mut second).clear();
        assert!(first == vec![0; length] && second == first);
    }
    let mut shelf = Shelf::from_bytes(vec![7; SHELF]);
    shelf.clear();
    assert_eq!([shelf.put(0, &EXAMPLE)?, shelf.put(1, &EXAMPLE)?, shelf.put(0, &EXAMPLE)?], [0, 0, 1]);
    shelf.clear();
    assert_eq!([refusal(shelf.get(0, 0)), refusal(shelf.get(1, 0))], [(22, 0, 0); 2]);
    Ok(())
}

#[test]
fn memory_of_the_callers_is_taken_as_it_stands() -> Result<(), Refusal> {
    let mut memory = vec![7; SHELF + 14];
    assert!(Shelf::on(&mut memory[7..][..SHELF]).as_bytes() == [7; SHELF]);
    assert_eq!(refusal(Shelf::on(&mut memory[7..][..SHELF]).put(0, &EXAMPLE)), (19, 0, 0));
    assert!(memory == vec![7; SHELF + 14]);
    let mut shelf = Shelf::on(&mut memory[7..][..SHELF]);
    shelf.clear();
    assert_eq!([shelf.put(0, &EXAMPLE)?, shelf.put(1, &sized(1342))?], [0, 0]);
    assert_eq!((&memory[..7], &memory[SHELF + 7..], &memory[519..599]), (&[7; 7][..], &[7; 7][..], &EXAMPLE[..]));
    let mut again = Shelf::on(&mut memory[7..][..SHELF]); // the first is over, and what it kept is there
    assert_eq!((again.get(0, 0)?, again.put(0, &none())?), (EXAMPLE.to_vec(), 1));
    Ok(())
}

#[test]
fn stored_and_loaded() -> Result<(), Refusal> {
    let mut shelf = Shelf::new();
    shelf.put(0, &EXAMPLE)?;
    let mut later = Shelf::from_bytes(shelf.as_bytes().to_vec());
    assert_eq!((later.get(0, 0)?, later.put(1, &EXAMPLE)?), (EXAMPLE.to_vec(), 0));
    assert_eq!(refusal(shelf.get(1, 0)), (22, 0, 0)); // it is another shelf
    assert_eq!(format!("{shelf:?}"), "Shelf of 65536 bytes"); // no tenant's bytes in a log
    Ok(())
}

#[test]
fn a_thread_for_each_tenant() {
    let shelf = Mutex::new(Shelf::new());
    std::thread::scope(|scope| {
        for each in 0..8 {
            let (shelf, party, data) = (&shelf, each % 2, sized(60 + each));
            scope.spawn(move || {
                for _ in 0..300 {
                    let slot = shelf.lock().unwrap().put(party, &data).unwrap();
                    assert_eq!(shelf.lock().unwrap().get(party, slot).unwrap(), data);
                    shelf.lock().unwrap().drop_slot(party, slot).unwrap();
                }
            });
        }
    });
    let mut shelf = shelf.into_inner().unwrap();
    assert!(shelf.as_bytes() == [0; SHELF]);
    let slots = [EXAMPLE.to_vec(), none()].map(|data| (shelf.put(0, &data).unwrap(), data));
    std::thread::scope(|scope| {
        for (slot, data) in &slots {
            scope.spawn(|| assert_eq!(shelf.get(0, *slot).unwrap(), *data)); // reading needs no lock
        }
    });
}
