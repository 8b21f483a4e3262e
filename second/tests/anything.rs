//! What holds for any input, tried on random ones; and the machine's image.

mod common;
use common::*;
use second::check::check;
use second::image::{decode, encode};
use second::judge::judge;
use second::machine::Machine;
use second::read::read;
use second::record::{Action, Control};
use second::run::{run, Ran};
use second::step::step;

#[test]
fn a_refused_step_writes_nothing_and_a_done_one_leaves_a_good_machine() {
    let mut random = Random(4711);
    let mut seen = [0; 8];
    for _ in 0..1_000_000 {
        let record = some_record(&mut random);
        let before = some_machine(&mut random);
        let fill = [0, 1, 3, 0x1C, 0x55].map(|byte| [byte; 64]);
        let memory = random.pick(&fill);
        let (mut after, mut bytes) = (before, memory);
        let number = step(&mut after, &record, &mut bytes, BASE);
        seen[number as usize] += 1;
        if number == 0 {
            assert!(after.good(), "{record:02X?} {before:?}");
        } else {
            assert_eq!((after, bytes), (before, memory), "{record:02X?}");
        }
        let judged = judge(&record, before.waiting.len());
        match number {
            1 => assert!(!before.good()),
            2..=4 => assert_eq!(judged, number),
            _ => assert!(before.good() && judged == 0),
        }
        assert_eq!(decode(&encode(&before)), Some(before));
    }
    assert!(seen.iter().all(|&count| count > 200), "{seen:?}");
}

/// The run, round by round, with steps that read their records again; base and memory at BASE.
fn slow_run(machine: &mut Machine, listing: &[u8], memory: &mut [u8], budget: u32) -> Ran {
    let (number, place) = check(listing, BASE);
    if !machine.good() || number != 0 {
        let refused = if machine.good() { (number, place) } else { (1, 0) };
        return Ran { number: refused.0, place: refused.1, count: 0 };
    }
    let (mut places, mut place, mut address, mut block) = (vec![], 0, BASE, vec![]);
    while place < listing.len() {
        let (record, length) = read(listing, place).unwrap();
        if !matches!(record.action, Action::Filler { .. }) {
            places.push((address, waiting(&block), place, length));
        }
        block = block.split_off(1.min(block.len()));
        if let Action::Control(Control::IfThen { condition, count, elses }) = record.action {
            block.push(condition);
            block.extend((0..count - 1).map(|bit| condition ^ (elses >> bit & 1)));
        }
        place += length;
        address += record.machine_length();
    }
    places.push((address, waiting(&[]), place, 0));
    for count in 0.. {
        let here = (machine.registers[15], machine.waiting);
        let (number, place) = match places.iter().find(|found| (found.0, found.1) == here) {
            Some((_, _, _, 0)) => (0, 0),
            None => (8, 0),
            Some(_) if count == budget => (10, 0),
            Some(&(_, _, place, length)) => {
                match step(machine, &listing[place..place + length], memory, BASE) {
                    0 => continue,
                    number => (number, place as u32),
                }
            }
        };
        return Ran { number, place, count };
    }
    unreachable!()
}

#[test]
fn a_run_is_its_steps() {
    let mut random = Random(1848);
    let mut seen = [0; 11];
    for _ in 0..40_000 {
        let mut listing = if random.below(20) == 0 { filler(2) } else { Vec::new() };
        for _ in 0..random.below(9) {
            let record = some_record(&mut random);
            let room = leaves_room(&record);
            if judge(&record, 0) == 0 || random.below(50) == 0 {
                listing.extend(record);
                if room && random.below(2) == 0 {
                    listing.extend(filler(random.pick(&[2, 2, 4, 100])));
                }
            }
        }
        let mut machine = some_machine(&mut random);
        machine.registers[15] = BASE;
        machine.waiting = waiting(&[]);
        let budget = random.below(20) as u32;
        let (before, mut memory) = (machine, [1; 64]);
        let ran = run(&mut machine, &listing, BASE, &mut memory, BASE, budget);
        seen[ran.number as usize] += 1;
        assert!(ran.count <= budget);
        let (mut other, mut bytes) = (before, [1; 64]);
        let slow = slow_run(&mut other, &listing, &mut bytes, budget);
        assert_eq!((ran, machine, memory), (slow, other, bytes), "{listing:02X?}");
    }
    for number in [0, 1, 2, 4, 6, 8, 9, 10] {
        assert!(seen[number] > 20, "{seen:?}");
    }
}

#[test]
fn any_bytes_at_all() {
    let mut random = Random(99);
    for _ in 0..200_000 {
        let bytes: Vec<u8> = (0..random.below(24)).map(|_| random.next() as u8).collect();
        let mut machine = some_machine(&mut random);
        step(&mut machine, &bytes, &mut [0; 16], random.next() as u32);
        run(&mut machine, &bytes, random.next() as u32 & !1, &mut [0; 16], BASE, 9);
        second::program::program(&bytes);
        decode(&bytes);
    }
}

#[test]
fn images() {
    let mut machine = machine(&[(0, 0x0403_0201), (14, 0x0807_0605)]);
    (machine.n, machine.c, machine.q) = (true, true, true);
    machine.waiting = waiting(&[12, 13, 200]);
    let image = encode(&machine);
    assert_eq!(image[..4], [1, 2, 3, 4]);
    assert_eq!(image[56..64], [5, 6, 7, 8, 0, 0x10, 0, 0]);
    assert_eq!(image[64..], [1, 0, 1, 0, 1, 3, 12, 13, 200, 0]);
    assert_eq!(decode(&image), Some(machine));
    assert_eq!(decode(&image[..73]), None);
    assert_eq!(decode(&[&image[..], &[0]].concat()), None);
    let with = |at: usize, byte| {
        let mut image = image;
        image[at] = byte;
        decode(&image)
    };
    for at in 64..69 {
        assert!(with(at, 0).is_some() && with(at, 1).is_some());
        assert_eq!(with(at, 2), None);
        assert_eq!(with(at, 255), None);
    }
    assert!(with(69, 4).is_some());
    assert_eq!(with(69, 5), None);
    assert_eq!(with(69, 255), None);
    assert_eq!(with(69, 2), None);
    assert_eq!(with(73, 1), None);
}
