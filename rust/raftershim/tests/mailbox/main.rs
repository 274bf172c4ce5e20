//! The mailbox: its stores, its state, its refusals, and what the bus says to it.

mod bus;
mod refusals;
mod state;
mod stores;

use raftershim::{Address, BusByte, BusCommand, Frame, MailByte, Mailbox, Way, Ways};

/// Stores with room for a few bytes, of another length each.
fn small_ways() -> Ways<[u16; 4], [u16; 3]> {
    Ways {
        to_bus: [7; 4],
        to_loop: [9; 3],
    }
}

type Small = Mailbox<[u16; 4], [u16; 3]>;

/// A mailbox that has the address 7 on the bus.
fn small() -> Small {
    Mailbox::create(small_ways(), 7).unwrap()
}

fn frame((control, data): (u8, u8)) -> Frame {
    Frame::new(control, data).unwrap()
}

fn byte(byte: u8, end: bool) -> MailByte {
    MailByte { byte, end }
}

/// The loop offers this frame, and this one goes on.
fn frame_taken<B, L>(mailbox: &mut Mailbox<B, L>, taken: (u8, u8), out: (u8, u8))
where
    B: AsRef<[u16]> + AsMut<[u16]>,
    L: AsRef<[u16]> + AsMut<[u16]>,
{
    assert_eq!(mailbox.loop_frame(frame(taken)), Ok(frame(out)));
}

/// The bus sends a command by its number.
fn command<B, L>(mailbox: &mut Mailbox<B, L>, number: u8)
where
    B: AsRef<[u16]> + AsMut<[u16]>,
    L: AsRef<[u16]> + AsMut<[u16]>,
{
    let command = BusCommand::new(number).unwrap();
    assert_eq!(mailbox.bus_command(command), Ok(()));
}

/// The loop makes the mailbox its listener and leaves these bytes, the last with the end mark.
fn leave_for_bus<B, L>(mailbox: &mut Mailbox<B, L>, bytes: &[u8])
where
    B: AsRef<[u16]> + AsMut<[u16]>,
    L: AsRef<[u16]> + AsMut<[u16]>,
{
    if mailbox.state().unwrap().loop_side.address.is_none() {
        frame_taken(mailbox, (5, 129), (5, 130));
    }
    let listen = Frame::listen_address(Address::FIRST);
    assert_eq!(mailbox.loop_frame(listen), Ok(listen));
    for (place, &byte) in bytes.iter().enumerate() {
        let control = if place + 1 == bytes.len() { 2 } else { 0 };
        let out = mailbox.loop_frame(frame((control, byte))).unwrap();
        assert_eq!((out.is_end(), out.data()), (control == 2, byte));
    }
}

/// The bus makes the mailbox its listener and leaves these bytes, the last with the end mark.
fn leave_for_loop<B, L>(mailbox: &mut Mailbox<B, L>, bytes: &[u8])
where
    B: AsRef<[u16]> + AsMut<[u16]>,
    L: AsRef<[u16]> + AsMut<[u16]>,
{
    let listen = BusCommand::mla(mailbox.bus_address());
    assert_eq!(mailbox.bus_command(listen), Ok(()));
    for (place, &byte) in bytes.iter().enumerate() {
        let end = place + 1 == bytes.len();
        assert_eq!(mailbox.bus_byte(byte, end), Ok(BusByte::Kept));
    }
}

/// What a way shows, as cells.
fn shown<B, L>(mailbox: &Mailbox<B, L>, way: Way) -> Vec<u16>
where
    B: AsRef<[u16]> + AsMut<[u16]>,
    L: AsRef<[u16]> + AsMut<[u16]>,
{
    mailbox.show(way).map(u16::from).collect()
}
