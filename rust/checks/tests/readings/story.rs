//! Last spring a full receive store swallowed the point of 2.5, and a user heard 25 volts. And a meter
//! is restarted between the two characters of an end of line.

use crate::both::{our_meter, OurMeter, Sizes};
use raftershim::{Reading, Refusal};

/// Asks for readings until there is none that has ended, and says what is whole.
fn speak(meter: &mut OurMeter, said: &mut Vec<String>) -> Result<(), Refusal> {
    loop {
        said.push(match meter.reading()? {
            Reading::Whole(text) => format!("{text} volts"),
            Reading::Gap(_) => "measure again".to_string(),
            _ => return Ok(()),
        });
    }
}

/// What an app says that asks for a reading whenever it comes round, and speaks what is whole.
fn said(bursts: &[&str]) -> Result<Vec<String>, Refusal> {
    let mut meter = our_meter(Sizes {
        rx_len: 6,
        margin: 2,
        longest: 32,
    });
    let mut said = Vec::new();
    for burst in bursts {
        meter.line_bytes(burst.as_bytes())?;
        speak(&mut meter, &mut said)?;
    }
    Ok(said)
}

#[test]
fn of_ten_readings_the_one_without_its_point_is_not_spoken() {
    let bursts = [
        "0.5\r\n",
        "1.5\r\n2.",
        "5\r\n",
        "3.5\r\n",
        "4.5\r\n",
        "5.5\r\n",
        "6.5\r\n",
        "7.5\r\n",
        "8.5\r\n",
        "9.5\r\n",
    ];
    let spoken = said(&bursts).unwrap();
    assert_eq!(spoken.len(), 10);
    for (volts, spoken) in spoken.iter().enumerate() {
        match volts {
            2 => assert_eq!(spoken, "measure again"),
            _ => assert_eq!(*spoken, format!("{volts}.5 volts")),
        }
    }
}

/// What an app says of a meter that is restarted between the two characters of an end of line. It asks
/// for readings at the end, and before that where it says so: before the break, and after it.
fn said_of_a_restart(before: bool, after: bool) -> Result<Vec<String>, Refusal> {
    let mut meter = our_meter(Sizes {
        rx_len: 16,
        margin: 2,
        longest: 32,
    });
    let mut said = Vec::new();
    meter.line_bytes(b"12\r")?;
    if before {
        speak(&mut meter, &mut said)?;
    }
    meter.line_break()?;
    if after {
        speak(&mut meter, &mut said)?;
    }
    meter.line_bytes(b"3.5\r\n")?;
    speak(&mut meter, &mut said)?;
    Ok(said)
}

#[test]
fn a_reading_before_a_restart_is_not_joined_with_the_one_after_it() {
    for (before, after) in [(false, false), (false, true), (true, false), (true, true)] {
        let said = said_of_a_restart(before, after).unwrap();
        assert_eq!(said, ["measure again", "3.5 volts"], "{before} {after}");
    }
}

#[test]
fn a_gap_is_told_in_its_own_reading() {
    // Lost are the point of 2.5, all of 5.5 but its 5, with its end, and the text of 8.8.
    let bursts = [
        "0.5\r\n",
        "1.5\r\n2.",
        "5\r\n",
        "3.5\r\n",
        "4.5\r\n5.5\r\n",
        "6.5\r\n",
        "77.7\r\n8.8",
        "\r\n",
        "9.5\r\n",
    ];
    let again = "measure again";
    let first = ["0.5 volts", "1.5 volts", again, "3.5 volts", "4.5 volts"];
    // 5 and 6.5 run into one.
    let then = [again, "77.7 volts", again, "9.5 volts"];
    assert_eq!(said(&bursts).unwrap(), [&first[..], &then[..]].concat());
}
