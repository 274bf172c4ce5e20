//! Numbers, lengths and blocks at their edges and beyond, one by one. What is refused is written
//! from the paper, and the model is asked too.

use model::block::{LEN, VERSION};
use model::boundary::{kind, value, REFUSED};
use raftershim_checks::answer::{framed, refused, with_room, DONE};
use raftershim_checks::bridge::archive;
use raftershim_checks::bridge::call::{frame, Call};
use raftershim_checks::bridge::rule::BREAK;
use raftershim_checks::bridge::Pair;
use raftershim_checks::edges::every_byte_at_every_value;

#[test]
fn sizes_of_create() {
    assert_eq!(archive::block_len(), LEN);
    let (mut made, mut broken) = (0, 0);
    for margin in [0, 1, 2, 1023, 1024, 1025, 1 << 16 | 1, 1 << 31, u32::MAX] {
        let least = (2 * u64::from(margin) + 2).min(40_000) as usize;
        for rx_len in [0, 3, 4, least - 1, least, 32_767, 32_768, 32_769, 65_540] {
            for tx_len in [0, 2, 3, 32_768, 32_769, 65_539] {
                for block_len in [0, 55, 56, 57] {
                    let obeyed = (1..=1024).contains(&margin)
                        && (least..=32_768).contains(&rx_len)
                        && (3..=32_768).contains(&tx_len)
                        && block_len == 56;
                    let due = if obeyed { DONE } else { refused(1) };
                    let (block, stores) = (vec![7; block_len], (vec![1; rx_len], vec![2; tx_len]));
                    let mut pair = Pair::holding(&block, &stores.0, &stores.1);
                    assert_eq!(pair.recreate(margin), Ok(due), "{rx_len} {tx_len} {margin}");
                    *(if obeyed { &mut made } else { &mut broken }) += 1;
                }
            }
        }
    }
    assert!(made > 0 && broken > 0);
    println!("edges, create: {made} sizes taken, {broken} refused 1");
}

/// The refusal that the tables of the paper and the requests give for a write, or 0, where registers have
/// their start values and something is held from the line or nothing is.
fn due(number: u32, value: u32, held: bool) -> u64 {
    let bits = match number {
        0 => 0b1001,
        1 => 0b1111,
        2 => 0b0101,
        10 => 0b1100,
        11 => 0b1000,
        16..=21 => 255,
        _ => return 5,
    };
    let largest = if number < 16 { 15 } else { 255 };
    match (number, value) {
        _ if value > largest => 6,
        _ if value | bits != bits => 7,
        (20, 19) | (21, 17) => 8,
        (10 | 16 | 17, _) if held => 10,
        _ => 0,
    }
}

#[test]
fn register_numbers_and_values() {
    let numbers = (0..40).chain([255, 256, 272, 1 << 16 | 10, 1 << 31, u32::MAX]);
    let mut met = [0; 11];
    for number in numbers {
        for value in (0..300).chain([1 << 8 | 8, 1 << 16 | 8, 1 << 31, u32::MAX]) {
            for held in [false, true] {
                let mut pair = Pair::create(4, 3, 1);
                if held {
                    pair.expect(Call::Line(50), with_room(3, DONE));
                }
                let due = due(number, value, held);
                let answer = if due == 0 { DONE } else { refused(due) };
                pair.expect(Call::Register(number, value), answer);
                met[due as usize] += 1;
            }
        }
    }
    let [taken, _, _, _, _, five, six, seven, eight, _, ten] = met;
    println!(
        "edges, registers: {taken} taken; refused 5: {five}, 6: {six}, 7: {seven}, 8: {eight}, 10: {ten}"
    );
    // The four values of R10 that have carried bits only, and every character.
    assert_eq!(ten, 4 + 256 + 256);
}

#[test]
fn every_frame_and_frames_that_do_not_exist() {
    let mut pair = Pair::create(4, 3, 1);
    let (mut taken, mut none) = (0, 0);
    for number in 0..2048 {
        assert_ne!(kind(pair.ask(Call::Frame(number))), REFUSED);
        taken += 1;
    }
    let beyond = [1 << 16, 1 << 16 | 0x560, 1 << 31, u32::MAX - 1, u32::MAX];
    for number in (2048..4096).chain(beyond) {
        pair.expect(Call::Frame(number), refused(3));
        none += 1;
    }
    println!("edges, frames: {taken} taken, {none} refused 3");
}

#[test]
fn each_store_is_shown_by_its_own_call() {
    let mut pair = Pair::create(4, 3, 1);
    for _ in 0..2 {
        pair.expect(Call::ShowReceive, 0);
        pair.expect(Call::ShowTransmit, 0);
    }
    pair.expect(frame(5, 129), with_room(3, framed(5, 130)));
    pair.expect(frame(4, 33), with_room(3, framed(4, 33)));
    pair.expect(frame(0, 65), with_room(2, framed(0, 65)));
    pair.expect(Call::ShowReceive, 0);
    pair.expect(Call::ShowTransmit, 1);
    pair.expect(Call::Line(50), with_room(3, DONE));
    pair.expect(Call::Line(51), with_room(2, DONE));
    pair.expect(Call::ShowReceive, 2);
    pair.expect(Call::ShowTransmit, 1);
    // A mark is no cell of its own.
    pair.expect(Call::Break, DONE);
    pair.expect(Call::ShowReceive, 2);
    println!("edges, show: {} answers as written", pair.asked());
}

/// A talker that finds ends of lines and holds so many cells, which are these.
fn talker_holding<const N: usize>(cells: [u16; N]) -> Pair {
    let mut pair = Pair::create(4, 3, 1);
    for call in [Call::Register(10, 8), frame(5, 129), frame(4, 65)] {
        pair.ask(call);
    }
    for byte in 0..N {
        pair.ask(Call::Line(byte as u8));
    }
    let (mut rx, tx) = ([7; 4], pair.buffers().stores().1);
    rx[..N].copy_from_slice(&cells);
    Pair::holding(pair.buffers().block(), &rx, tx)
}

/// A frame that goes on while the transmit store is empty, which has three places.
fn out(control: u64, data: u64) -> u64 {
    with_room(3, framed(control, data))
}

#[test]
fn every_cell_is_read_by_its_nine_bits() {
    let mut cells = 0;
    for cell in 0..=u16::MAX {
        let byte = cell & 255;
        let mut pair = talker_holding([cell]);
        // It waits unless a break follows it, and the break that comes then decides it.
        let data = out(0, byte.into());
        let first = if cell & BREAK == 0 { out(5, 64) } else { data };
        let mut again = talker_holding([cell]);
        pair.expect(frame(5, 96), first);
        again.expect(Call::Break, DONE);
        // What is written has nothing above the mark, and nothing else is written.
        assert_eq!(again.buffers().stores().0, [BREAK | byte, 7, 7, 7]);
        again.expect(frame(5, 96), data);
        cells += 1;
    }
    println!("edges, cells: {cells} read by their nine bits, before and after a break");
}

#[test]
fn bits_above_the_mark_make_and_part_no_pair() {
    let (data, end) = (out(0, 50), out(2, 50));
    let mut sends = 0;
    for bits in (0..128).map(|bits| bits << 9) {
        // No mark; one behind the 50, behind the 13, and behind the 10.
        for (marks, due) in [
            ([0, 0, 0], end),
            ([1, 0, 0], data),
            ([0, 1, 0], data),
            ([0, 0, 1], end),
        ] {
            let cells = [50 | marks[0] << 8, 13 | marks[1] << 8, 10 | marks[2] << 8];
            talker_holding(cells.map(|cell| cell | bits)).expect(frame(5, 96), due);
            sends += 1;
        }
    }
    println!("edges, pairs: {sends} sends with other bits above the marks");
}

#[test]
fn rooms_of_stores_of_many_lengths() {
    let mut told = 0;
    for rx_len in [4, 5, 255, 256, 257, 300, 32_767, 32_768] {
        for tx_len in [3, 4, 255, 256, 257, 300, 32_767, 32_768] {
            let mut pair = Pair::create(rx_len, tx_len, 1);
            pair.expect(Call::Line(17), with_room(rx_len, DONE));
            pair.expect(Call::Line(50), with_room(rx_len - 1, DONE));
            pair.expect(frame(6, 0), with_room(tx_len, framed(6, 0)));
            pair.expect(frame(5, 129), with_room(tx_len, framed(5, 130)));
            pair.expect(frame(4, 33), with_room(tx_len, framed(4, 33)));
            pair.expect(frame(0, 65), with_room(tx_len - 1, framed(0, 65)));
            pair.expect(Call::Line(19), with_room(rx_len - 1, DONE));
            pair.expect(frame(4, 20), with_room(tx_len, framed(4, 20)));
            pair.expect(Call::Line(17), with_room(rx_len, DONE));
            told += pair.asked();
        }
    }
    println!("edges, rooms: {told} as written");
}

#[test]
fn every_byte_of_the_block_at_every_value() {
    let mut counts = [0; 2];
    let calls = [
        Call::Break,
        frame(0, 9),
        Call::Ask,
        Call::Take(65),
        Call::Line(13),
        Call::Reset,
    ];
    // The second has room for a margin of 1,025.
    for (rx_len, tx_len) in [(4, 3), (2052, 300)] {
        let mut good = Pair::create(rx_len, tx_len, 1);
        for call in [frame(5, 129), frame(4, 33), frame(2, 65), Call::Line(50)] {
            good.ask(call);
        }
        let [states, misfits] = every_byte_at_every_value(&good, &calls);
        counts = [counts[0] + states, counts[1] + misfits];
    }
    let [states, misfits] = counts;
    assert!(states > 0 && misfits > 0);
    println!("edges, blocks: {states} are states that fit, {misfits} refused 2 by every call");
}

#[test]
fn another_version_is_refused_by_every_call_but_create() {
    let mut good = Pair::create(4, 3, 1);
    for call in [frame(5, 129), frame(4, 33), frame(2, 65), Call::Line(50)] {
        good.ask(call);
    }
    let (buffers, mut others) = (good.buffers(), 0);
    let (rx, tx) = buffers.stores();
    for version in (0..=255).filter(|&version| version != VERSION) {
        let mut block = buffers.block().to_vec();
        block[0] = version;
        let mut pair = Pair::holding(&block, rx, tx);
        pair.expect(Call::ShowReceive, 0);
        pair.expect(Call::ShowTransmit, 0);
        for call in [
            Call::Reset,
            Call::Register(10, 8),
            Call::Line(50),
            Call::Break,
            Call::Key,
            Call::Ask,
            Call::Take(65),
            Call::Take(66),
            Call::Frame(2048),
            frame(0, 9),
        ] {
            pair.expect(call, refused(2));
        }
        assert_eq!(pair.recreate(1), Ok(DONE));
        assert_eq!(pair.buffers().block()[0], VERSION);
        others += 1;
    }
    println!("edges, versions: {others} refused 2 by every call but create");
}

#[test]
fn lengths_other_than_recorded() {
    let good = Pair::create(4, 3, 1);
    let block = good.buffers().block();
    let (mut fit, mut misfits) = (0, 0);
    for rx_len in [0, 1, 3, 4, 5, 65_540] {
        for tx_len in [0, 2, 3, 4, 65_539] {
            for block_len in [0, 1, 55, 56, 57, 112] {
                let mut other = block.to_vec();
                other.resize(block_len, 0);
                let mut pair = Pair::holding(&other, &vec![0; rx_len], &vec![0; tx_len]);
                let fits = (rx_len, tx_len, block_len) == (4, 3, 56);
                let answer = pair.ask(Call::Ask);
                assert_eq!(answer == refused(2), !fits);
                let calls = [
                    Call::Take(0),
                    Call::Reset,
                    Call::Register(3, 99),
                    Call::Frame(2048),
                ];
                for call in calls {
                    let answer = pair.ask(call);
                    assert_eq!(kind(answer) == REFUSED && value(answer) == 2, !fits);
                }
                fit += usize::from(fits);
                misfits += usize::from(!fits);
            }
        }
    }
    println!("edges, lengths: {fit} that fits, {misfits} refused 2");
}
