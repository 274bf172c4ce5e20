//! What the program says of itself.

/// What `--help` says.
pub const HELP: &str = "\
replay plays a script of calls to the bridge or to the mailbox and says each answer.

Usage: replay SCRIPT reads the script from that file.
Usage: replay without an argument reads the script from standard input, which is the keyboard if nothing else was given.

A script has one call a line. Numbers are decimal.

These make a bridge or a mailbox. The lines that follow speak of it, up to the next that makes one.
create 64 64 8: make a bridge with these lengths of the receive and the transmit store and this margin.
mailbox 64 64 7: make a mailbox with these lengths of the stores to the bus and to the loop and this address on the bus.

These are calls of both.
reset: give it the state that it was made with.
restore 3 8 0 and so on: put it together again from the bytes of a saved block, on its stores as they are. A bridge has 56, a mailbox 41.
frame 5,96: take a loop frame, control and data. One number, as in frame 1376, is a frame too.
state: say the state, a fact a line.

These are calls of the bridge.
register R10 8: write a register. It is R00 to R12, C00 to C05, or a number.
While the receive store holds anything, R10, C00 and C01 are refused by 10, held bytes.
line 50: take a byte from the line. Several may follow, and text in quotation marks: line \"2.5\" 13 10.
The answer to line says how many bytes were stored, lost, taken as go or taken as stop, as in 4 stored, 1 lost.
The word room after the last byte or after a frame asks for the room that is left, as in line \"2.5\" room and frame 0,50 room.
The answer then ends in it: after line the room of the receive store, as in 3 stored, room 5, and after frame that of the transmit store.
A refusal has no room.
break: take a break on the line.
key: take a press of the MSRQ key.
ask: say which line byte is next, as in line byte 19. Nothing changes.
take 19: take the line byte of this number, when it has been sent. If it is not the next one, it is refused by 12, not next.
show receive, or show transmit: say the longest unbroken run of bytes held there, from the oldest one.
A byte of the receive store that a break follows is as in 53 break.

These are calls of the mailbox.
command UNL: take a command of the bus. It is UNL, UNT, SPE, SPD, DCL, SDC, PPC, PPD, PPU, or a number.
command MLA and command MTA are the listen and the talk address that the mailbox has on the bus.
command LAD 3 and command TAD 3 are the listen and the talk address 3, command PPE 2 is parallel poll enable for line 2.
byte 50: take a data byte of the bus. Several may follow, and text in quotation marks.
The word end after the last gives it the end mark, which is EOI: byte \"2.5\" end.
The answer to byte says how many bytes were kept or not kept, as in 3 kept. They are not kept while the mailbox is not listener on the bus.
If there is no room for a byte, the answer is as in 2 kept, then refusal 4, and the bytes from that one on are not taken.
fetch: give the bus its next byte.
clear: take an interface clear of the bus.
lines: say the bus lines, SRQ and the answer to a parallel poll.
show bus, or show loop: say the longest unbroken run of bytes that wait there, from the oldest one. A byte with the end mark is as in 53 end.

A script that does not start with create or mailbox gets a bridge with stores of 64 bytes and margin 8.
A store can have at most 1000000 places here. The bridge or the mailbox judges all other values.
A create or mailbox that is refused as expected leaves what the script made before it.
If that is of the other kind, no line is played until the next create or mailbox, and so it is after any other that is refused.
A comment starts with # and goes to the end of the line. Empty lines are passed over.
A line has at most 4096 bytes.

Each answer is said after the number of its line, as in line 7: frame 0,50.
The sign => after a call is followed by the answer that the script expects, as in frame 5,96 => frame 0,50.
The words count, and not the marks between them or the case of letters: bytes lost 0 is bytes lost: 0.
For a refusal its number suffices, as in frame 0,50 => refusal 4.
After state one fact is expected, in the words of state, and then only that fact is said: state => overrun seen.
If the answer is another one, the line says what was expected and what the answer was, and the run goes on.
A refusal that is not expected counts as a difference, and so does a line that is not played.
The last line says how many lines were as expected and how many differ.
A mistake in the script ends the run, and the program says in which line it is.

The exit status is 0 if the script expects answers and every line was as expected.
It is 1 if a line was not as expected or the script has a mistake.
It is 2 if the arguments are wrong, the script cannot be read or the answers cannot be written.
It is 3 if no line expects an answer, as in an empty script: nothing was compared.
";
