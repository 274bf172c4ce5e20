//! The stores may be owned or borrowed, and what is shown is a part of the right one.

use raftershim::{Address, Bridge, Frame, HeldByte, LineByte, Side, Stores};

/// The loop makes the bridge listener and sends it these bytes.
fn listen<R, T>(bridge: &mut Bridge<R, T>, bytes: &[u8])
where
    R: AsRef<[u16]> + AsMut<[u16]>,
    T: AsRef<[u8]> + AsMut<[u8]>,
{
    let address = Address::FIRST;
    bridge.loop_frame(Frame::auto_address(address)).unwrap();
    bridge.loop_frame(Frame::listen_address(address)).unwrap();
    for &byte in bytes {
        bridge.loop_frame(Frame::data_byte(byte)).unwrap();
    }
}

/// A bridge on stores that hold these, with margin 3.
fn on<R, T>(receive: R, transmit: T) -> Bridge<R, T>
where
    R: AsRef<[u16]> + AsMut<[u16]>,
    T: AsRef<[u8]> + AsMut<[u8]>,
{
    Bridge::create(Stores { receive, transmit }, 3).unwrap()
}

/// The line byte that is next is sent and taken: this is it.
fn goes_out<R, T>(bridge: &mut Bridge<R, T>) -> Option<u8>
where
    R: AsRef<[u16]> + AsMut<[u16]>,
    T: AsRef<[u8]> + AsMut<[u8]>,
{
    let next = bridge.ask_line_byte().unwrap()?;
    let byte = next.byte();
    next.take().unwrap();
    Some(byte)
}

/// What the receive store shows, as a person hears it.
fn shown<R, T>(bridge: &Bridge<R, T>) -> String
where
    R: AsRef<[u16]> + AsMut<[u16]>,
    T: AsRef<[u8]> + AsMut<[u8]>,
{
    let held: Vec<String> = bridge.show_receive().map(|held| held.to_string()).collect();
    held.join(", ")
}

#[test]
fn each_side_shows_a_part_of_its_own_store() {
    let mut bridge = on([7; 8], [9; 3]);
    assert_eq!(bridge.show_receive().len(), 0);
    assert!(bridge.show_transmit().is_empty());
    assert_eq!(bridge.line_byte(1), Ok(LineByte::Stored));
    assert_eq!(bridge.line_byte(2), Ok(LineByte::Stored));
    listen(&mut bridge, &[3]);
    assert_eq!(bridge.receive_store(), [1, 2, 7, 7, 7, 7, 7, 7]);
    assert_eq!(bridge.transmit_store(), [3, 9, 9]);
    assert_eq!(shown(&bridge), "1, 2");
    let transmit = bridge.show_transmit();
    assert_eq!(transmit, [3]);
    assert_eq!(transmit.as_ptr(), bridge.transmit_store().as_ptr());
}

#[test]
fn a_part_starts_at_the_oldest_byte_and_ends_with_the_store() {
    let mut bridge = on([0; 8], [0; 3]);
    listen(&mut bridge, &[1, 2, 3]);
    assert_eq!(goes_out(&mut bridge), Some(1));
    assert_eq!(goes_out(&mut bridge), Some(2));
    bridge.loop_frame(Frame::data_byte(4)).unwrap();
    assert_eq!(bridge.transmit_store(), [4, 2, 3]);
    assert_eq!(bridge.show_transmit(), [3]);
    assert_eq!(
        bridge.show_transmit().as_ptr(),
        bridge.transmit_store()[2..].as_ptr()
    );
    assert_eq!(goes_out(&mut bridge), Some(3));
    assert_eq!(bridge.show_transmit(), [4]);
    assert_eq!(goes_out(&mut bridge), Some(4));
    assert!(bridge.show_transmit().is_empty());
}

#[test]
fn a_break_marks_the_newest_cell_that_is_held() {
    // What stands in the store at first has bits that do not count.
    let mut bridge = on([0xFF07; 8], [9; 3]);
    bridge.line_break().unwrap();
    assert_eq!(bridge.receive_store(), [0xFF07; 8]);
    for byte in [1, 2] {
        assert_eq!(bridge.line_byte(byte), Ok(LineByte::Stored));
    }
    bridge.line_break().unwrap();
    bridge.line_break().unwrap();
    assert_eq!(bridge.line_byte(3), Ok(LineByte::Stored));
    assert_eq!(bridge.receive_store()[..4], [1, 256 + 2, 3, 0xFF07]);
    assert_eq!(shown(&bridge), "1, 2 break, 3");
    // A mark takes no room.
    assert_eq!(bridge.room(Side::Receive), Ok(5));
}

#[test]
fn what_a_part_shows_are_the_nine_bits_of_each_cell() {
    let mut bridge = on([0; 8], [0; 3]);
    for byte in [1, 2, 3] {
        assert_eq!(bridge.line_byte(byte), Ok(LineByte::Stored));
    }
    let (saved, mut stores) = bridge.into_parts();
    stores.receive[..3].copy_from_slice(&[0xFE01, 0xFF02, 0x0103]);
    let again = Bridge::restore(saved, stores).unwrap();
    assert_eq!(shown(&again), "1, 2 break, 3 break");
    let newest = again.show_receive().next_back();
    assert_eq!(newest, Some(HeldByte::from(0x0103)));
}

#[test]
fn borrowed_stores_are_written_where_they_are() {
    let mut receive = vec![7; 8];
    let mut transmit = [9; 3];
    let mut bridge = on(receive.as_mut_slice(), &mut transmit);
    assert_eq!(bridge.line_byte(1), Ok(LineByte::Stored));
    listen(&mut bridge, &[2]);
    let (saved, _) = bridge.into_parts();
    assert_eq!((receive[0], transmit[0]), (1, 2));
    let again = Bridge::restore(saved, Stores { receive, transmit }).unwrap();
    assert_eq!(shown(&again), "1");
    assert_eq!(again.show_transmit(), [2]);
}

#[test]
fn create_and_reset_write_neither_store() {
    let mut bridge = on(vec![7; 8], vec![9; 3]);
    assert_eq!(bridge.receive_store(), [7; 8]);
    assert_eq!(bridge.transmit_store(), [9; 3]);
    assert_eq!(bridge.line_byte(1), Ok(LineByte::Stored));
    bridge.reset().unwrap();
    assert_eq!(bridge.receive_store(), [1, 7, 7, 7, 7, 7, 7, 7]);
    assert_eq!(shown(&bridge), "");
    assert_eq!(bridge.line_byte(2), Ok(LineByte::Stored));
    assert_eq!(shown(&bridge), "2");
}

#[test]
fn every_cell_is_a_byte_and_whether_a_break_follows() {
    for cell in 0..=u16::MAX {
        let held = HeldByte::from(cell);
        assert_eq!(
            (u16::from(held.byte), held.then_break),
            (cell & 255, cell & 256 != 0)
        );
        assert_eq!(u16::from(held), cell & 511);
    }
}
