//! The stores may be owned or borrowed, and what is shown is what waits in the right one.

use super::*;

#[test]
fn each_way_shows_what_waits_in_its_own_store() {
    let mut mailbox = small();
    assert_eq!(shown(&mailbox, Way::ToBus), []);
    assert_eq!(shown(&mailbox, Way::ToLoop), []);
    leave_for_bus(&mut mailbox, &[1, 2]);
    leave_for_loop(&mut mailbox, &[3]);
    assert_eq!(mailbox.store(Way::ToBus), [1, 256 + 2, 7, 7]);
    assert_eq!(mailbox.store(Way::ToLoop), [256 + 3, 9, 9]);
    assert_eq!(shown(&mailbox, Way::ToBus), [1, 256 + 2]);
    assert_eq!(shown(&mailbox, Way::ToLoop), [256 + 3]);
    assert_eq!(mailbox.room(Way::ToBus), Ok(2));
    assert_eq!(mailbox.room(Way::ToLoop), Ok(2));
}

#[test]
fn what_waits_goes_round_after_the_last_place() {
    let mut mailbox = small();
    leave_for_bus(&mut mailbox, &[1, 2, 3]);
    command(&mut mailbox, 64 + 7);
    assert_eq!(mailbox.bus_fetch(), Ok(Some(byte(1, false))));
    assert_eq!(mailbox.bus_fetch(), Ok(Some(byte(2, false))));
    leave_for_bus(&mut mailbox, &[4, 5]);
    assert_eq!(mailbox.store(Way::ToBus), [256 + 5, 2, 256 + 3, 4]);
    assert_eq!(shown(&mailbox, Way::ToBus), [256 + 3, 4]);
    let from_newest: Vec<MailByte> = mailbox.show(Way::ToBus).rev().collect();
    assert_eq!(from_newest, [byte(4, false), byte(3, true)]);
    for next in [byte(3, true), byte(4, false), byte(5, true)] {
        assert_eq!(mailbox.bus_fetch(), Ok(Some(next)));
    }
    assert_eq!(mailbox.bus_fetch(), Ok(None));
    assert_eq!(mailbox.show(Way::ToBus).len(), 0);
}

#[test]
fn only_nine_bits_of_a_cell_count() {
    let mut mailbox = small();
    leave_for_bus(&mut mailbox, &[50, 53]);
    let (saved, mut ways) = mailbox.into_parts();
    for cell in &mut ways.to_bus {
        *cell |= 0xFE00;
    }
    let mut mailbox = Mailbox::restore(saved, ways).unwrap();
    assert_eq!(shown(&mailbox, Way::ToBus), [50, 256 + 53]);
    command(&mut mailbox, 64 + 7);
    assert_eq!(mailbox.bus_fetch(), Ok(Some(byte(50, false))));
    assert_eq!(mailbox.bus_fetch(), Ok(Some(byte(53, true))));
    for cell in 0..=u16::MAX {
        let read = MailByte::from(cell);
        assert_eq!(u16::from(read), cell & 511);
        assert_eq!(
            (u16::from(read.byte), read.end),
            (cell & 255, cell & 256 != 0)
        );
    }
}

#[test]
fn borrowed_stores_are_written_where_they_are() {
    let mut to_bus = vec![7; 4];
    let mut to_loop = [9; 3];
    let ways = Ways {
        to_bus: to_bus.as_mut_slice(),
        to_loop: &mut to_loop,
    };
    let mut mailbox = Mailbox::create(ways, 7).unwrap();
    leave_for_bus(&mut mailbox, &[1]);
    leave_for_loop(&mut mailbox, &[2]);
    let (saved, _) = mailbox.into_parts();
    assert_eq!((to_bus[0], to_loop[0]), (256 + 1, 256 + 2));
    let again = Mailbox::restore(saved, Ways { to_bus, to_loop }).unwrap();
    assert_eq!(shown(&again, Way::ToBus), [256 + 1]);
    assert_eq!(shown(&again, Way::ToLoop), [256 + 2]);
}

#[test]
fn create_and_reset_write_neither_store() {
    let mut mailbox = small();
    let fresh = mailbox.clone();
    assert_eq!(mailbox.store(Way::ToBus), [7; 4]);
    assert_eq!(mailbox.store(Way::ToLoop), [9; 3]);
    leave_for_bus(&mut mailbox, &[1]);
    leave_for_loop(&mut mailbox, &[2]);
    assert_ne!(mailbox.saved(), fresh.saved());
    mailbox.reset().unwrap();
    assert_eq!(mailbox.saved(), fresh.saved());
    assert_eq!(mailbox.store(Way::ToBus), [256 + 1, 7, 7, 7]);
    assert_eq!(mailbox.store(Way::ToLoop), [256 + 2, 9, 9]);
}
