//! Commands of the bus have their numbers, and the bus gets and gives what the rules say.

use super::*;
use raftershim::{MailboxStatus, Refusal};

#[test]
fn commands_are_0_to_127() {
    for number in 0..=u8::MAX {
        let command = BusCommand::new(number);
        assert_eq!(BusCommand::try_from(u32::from(number)), command);
        match command {
            Ok(command) => {
                assert!(number < 128);
                assert_eq!(u8::from(command), number);
                assert_eq!(u32::from(command), u32::from(number));
                assert_eq!(command.to_string(), number.to_string());
            }
            Err(refusal) => {
                assert!(number > 127);
                assert_eq!(refusal, Refusal::COMMAND_TOO_LARGE);
            }
        }
    }
    for number in [256, 256 + 20, u32::MAX] {
        let refused = Err(Refusal::COMMAND_TOO_LARGE);
        assert_eq!(BusCommand::try_from(number), refused);
    }
}

#[test]
fn named_commands_have_their_numbers() {
    let named = [
        (BusCommand::SDC, 4),
        (BusCommand::PPC, 5),
        (BusCommand::DCL, 20),
        (BusCommand::PPU, 21),
        (BusCommand::SPE, 24),
        (BusCommand::SPD, 25),
        (BusCommand::UNL, 63),
        (BusCommand::UNT, 95),
        (BusCommand::PPD, 112),
    ];
    for (command, number) in named {
        assert_eq!(u8::from(command), number);
    }
    for number in 0..=30 {
        let address = Address::new(number).unwrap();
        assert_eq!(u8::from(BusCommand::mla(address)), 32 + number);
        assert_eq!(u8::from(BusCommand::mta(address)), 64 + number);
    }
    for line in 0..=u8::MAX {
        let number = (line <= 7).then_some(96_u8.wrapping_add(line));
        assert_eq!(BusCommand::ppe(line).map(u8::from), number);
    }
}

#[test]
fn a_byte_is_kept_by_a_listener_only() {
    let mut mailbox = small();
    let fresh = mailbox.clone();
    assert_eq!(mailbox.bus_byte(50, true), Ok(BusByte::NotKept));
    assert_eq!(mailbox, fresh);
    leave_for_loop(&mut mailbox, &[50]);
    mailbox.bus_clear().unwrap();
    assert_eq!(mailbox.bus_byte(51, true), Ok(BusByte::NotKept));
    assert_eq!(shown(&mailbox, Way::ToLoop), [256 + 50]);
}

#[test]
fn a_serial_poll_gives_the_status_once_and_no_data() {
    let mut mailbox = small();
    leave_for_bus(&mut mailbox, &[50]);
    assert_eq!(mailbox.bus_lines().map(|lines| lines.srq), Ok(true));
    command(&mut mailbox, 24);
    command(&mut mailbox, 64 + 7);
    let status = mailbox.bus_fetch().unwrap().unwrap();
    assert_eq!((status, mailbox.bus_fetch()), (byte(65, false), Ok(None)));
    let said = MailboxStatus::from(status.byte).to_string();
    assert_eq!(said, "data available, service requested");
    assert_eq!(mailbox.bus_lines().map(|lines| lines.srq), Ok(false));
    command(&mut mailbox, 25);
    assert_eq!(mailbox.bus_fetch(), Ok(Some(byte(50, true))));
}

#[test]
fn a_parallel_poll_is_answered_on_its_line() {
    let mut mailbox = small();
    let poll = |mailbox: &Small| mailbox.bus_lines().unwrap().poll;
    for configured in [32 + 7, 5, 96 + 2] {
        command(&mut mailbox, configured);
    }
    assert_eq!(poll(&mailbox), 0);
    leave_for_bus(&mut mailbox, &[50]);
    assert_eq!(poll(&mailbox), 4);
    assert_eq!(
        mailbox.bus_lines().unwrap().to_string(),
        "SRQ on, poll answer 4"
    );
    command(&mut mailbox, 21);
    assert_eq!(poll(&mailbox), 0);
}

#[test]
fn the_status_of_a_mailbox_says_its_two_bits() {
    let said = |byte| MailboxStatus::from(byte).to_string();
    assert_eq!(said(0), "no bit set");
    assert_eq!(said(1), "data available");
    assert_eq!(said(64), "service requested");
    let status = MailboxStatus::from(64);
    assert!(status.has(MailboxStatus::SERVICE) && !status.has(MailboxStatus::AVAILABLE));
    assert_eq!(u8::from(MailboxStatus::from(193)), 193);
}
