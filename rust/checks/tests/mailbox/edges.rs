//! Numbers and sizes at their edges and beyond, one by one. What is refused is written from the
//! rules, and the model is asked too.

use crate::alphabets::{used, BUS};
use mailbox_model::block::LEN;
use mailbox_model::boundary::REFUSED;
use model::boundary::kind;
use raftershim_checks::answer::{byte, end, framed, lines, refused, DONE, NONE};
use raftershim_checks::mailbox::archive;
use raftershim_checks::mailbox::call::{frame, Call};
use raftershim_checks::mailbox::Pair;

#[test]
fn sizes_of_create() {
    assert_eq!(archive::block_len(), LEN);
    let (mut made, mut broken) = (0, 0);
    let lens = [0, 1, 2, 32_767, 32_768, 32_769, 65_537];
    for address in [0, 1, 29, 30, 31, 32, 255, 256, 1 << 16, 1 << 31, u32::MAX] {
        for (to_bus, to_loop) in lens.iter().flat_map(|&one| lens.map(|other| (one, other))) {
            for block_len in [0, LEN - 1, LEN, LEN + 1, 56] {
                let size = |len: &usize| (1..=32_768).contains(len);
                let obeyed = size(&to_bus) && size(&to_loop) && address <= 30 && block_len == LEN;
                let due = if obeyed { DONE } else { refused(1) };
                let (one, other) = (vec![1; to_bus], vec![2; to_loop]);
                let mut pair = Pair::holding(&vec![7; block_len], &one, &other);
                let sizes = (to_bus, to_loop, address);
                assert_eq!(pair.recreate(address), Ok(due), "{sizes:?}");
                *(if obeyed { &mut made } else { &mut broken }) += 1;
            }
        }
    }
    assert!(made > 0 && broken > 0);
    println!("edges of the mailbox, create: {made} sizes taken, {broken} refused 1");
}

#[test]
fn every_frame_and_frames_that_do_not_exist() {
    let (mut taken, mut none) = (0, 0);
    let roles = [frame(4, 47), frame(4, 79), frame(4, 63)];
    for role in roles {
        let mut pair = Pair::create(1024, 1, BUS);
        pair.ask(role);
        for number in 0..2048 {
            assert_ne!(kind(pair.ask(Call::Frame(number))), REFUSED);
            taken += 1;
        }
        let beyond = [1 << 16, 1 << 16 | 0x560, 1 << 31, u32::MAX - 1, u32::MAX];
        for number in (2048..4096).chain(beyond) {
            pair.expect(Call::Frame(number), refused(3));
            none += 1;
        }
    }
    println!("edges of the mailbox, frames: {taken} taken, {none} refused 3");
}

#[test]
fn every_frame_once_in_every_phase() {
    let mut taken = 0;
    let mut phases = vec![vec![frame(4, 47)], vec![frame(4, 79)], vec![]];
    phases.push(vec![frame(4, 47), frame(4, 15), frame(0, 1)]);
    phases.extend((96..100).map(|ready| vec![frame(4, 79), frame(5, ready)]));
    for phase in phases {
        for number in 0..2048 {
            let mut pair = used(3, 3);
            for &call in &phase {
                pair.ask(call);
            }
            assert_ne!(kind(pair.ask(Call::Frame(number))), REFUSED);
            pair.ask(frame(5, 66));
            taken += 1;
        }
    }
    println!("edges of the mailbox, frames: {taken} taken, one in each phase");
}

#[test]
fn every_command_of_the_bus_and_commands_that_do_not_exist() {
    let (mut taken, mut none) = (0, 0);
    for before in [32 + BUS, 64 + BUS, 63, 5, 24] {
        for number in 0..=255 {
            let mut pair = used(2, 2);
            pair.expect(Call::Command(before), DONE);
            let due = if number < 128 { DONE } else { refused(13) };
            pair.expect(Call::Command(number), due);
            *(if number < 128 { &mut taken } else { &mut none }) += 1;
            pair.ask(Call::Lines);
            pair.ask(Call::Fetch);
        }
    }
    let mut pair = used(2, 2);
    for number in [256, 256 + 20, 1 << 16, 1 << 16 | 20, 1 << 31, u32::MAX] {
        pair.expect(Call::Command(number), refused(13));
        none += 1;
    }
    println!("edges of the mailbox, commands: {taken} taken, {none} refused 13");
}

#[test]
fn sides_that_do_not_exist() {
    let mut pair = used(4, 3);
    let mut neither = 0;
    for side in (0..300).chain([1 << 8, 1 << 16, 1 << 16 | 1, 1 << 31, u32::MAX]) {
        pair.expect(Call::Show(side), u64::from(side < 2));
        neither += usize::from(side >= 2);
    }
    println!("edges of the mailbox, show: 2 sides, {neither} that are neither");
}

#[test]
fn end_marks_by_any_number() {
    let mut pair = Pair::create(1, 1, BUS);
    pair.expect(frame(4, 79), framed(4, 79));
    pair.expect(Call::Command(32 + BUS), DONE);
    for (number, control) in [
        (0, 0),
        (1, 2),
        (2, 2),
        (256, 2),
        (1 << 31, 2),
        (u32::MAX, 2),
    ] {
        pair.expect(Call::Byte(50, number), DONE);
        pair.expect(frame(5, 97), framed(1, 65));
        pair.expect(frame(0, 65), framed(5, 64));
        pair.expect(frame(5, 96), framed(control, 50));
        pair.expect(frame(control as u32, 50), framed(5, 64));
    }
    println!(
        "edges of the mailbox, end marks: {} answers as written",
        pair.asked()
    );
}

#[test]
fn every_cell_is_read_by_its_nine_bits() {
    let (good, mut fetched) = (used(1, 1), 0);
    for cell in 0..=u16::MAX {
        let store = [cell];
        let mut pair = Pair::holding(good.buffers().block(), &store, &store);
        let low = (cell & 255) as u8;
        let marked = cell & 256 != 0;
        pair.expect(Call::Command(64 + BUS), DONE);
        pair.expect(Call::Fetch, if marked { end(low) } else { byte(low) });
        pair.expect(frame(4, 79), framed(4, 79));
        let control = if marked { 3 } else { 1 };
        pair.expect(frame(5, 96), framed(control, low.into()));
        assert_eq!(pair.buffers().stores(), (&store[..], &store[..]));
        fetched += 2;
    }
    println!("edges of the mailbox, cells: {fetched} fetched by their nine bits");
}

#[test]
fn every_bus_address() {
    let mut pairs = 0;
    for address in 0..31 {
        for number in 0..128 {
            let mut pair = Pair::create(1, 1, address);
            pair.expect(frame(4, 47), framed(4, 47));
            pair.expect(frame(2, 9), framed(2, 9));
            pair.expect(Call::Lines, lines(true, 0));
            pair.expect(Call::Command(number), DONE);
            let due = if number == 64 + address { end(9) } else { NONE };
            pair.expect(Call::Fetch, due);
            pair.ask(Call::Byte(1, 1));
            pairs += 1;
        }
    }
    println!("edges of the mailbox, addresses: {pairs} commands at every bus address");
}
