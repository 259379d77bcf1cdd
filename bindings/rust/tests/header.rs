//! The C header's numbers are this package's.

use std::mem::{align_of, offset_of, size_of};

use rawdhusaq::*;

const HEADER: &str = include_str!("../../c/rawdhusaq.h");

/// The claims of the header that a type has: its size, its alignment, and where each of
/// its fields starts.
macro_rules! claims {
    ($type:ident: $($field:ident)+) => {{
        let name = concat!("Rawdhusaq", stringify!($type));
        let mut claims = vec![
            format!("sizeof({name}) == {}", size_of::<$type>()),
            format!("RawdhusaqAlign({name}) == {}", align_of::<$type>()),
        ];
        $(
            let start = offset_of!($type, $field);
            claims.push(format!("offsetof({name}, {}) == {start}", stringify!($field)));
        )+
        claims
    }};
}

fn layout_claims() -> Vec<String> {
    [
        claims!(Motors: order first second duties),
        claims!(Kept: baud leds outputs ir),
        claims!(Song: len notes),
        claims!(Songs: table selected playing),
        claims!(Stream: ids count on),
        claims!(Partial: bytes count remaining),
        claims!(State: mode motors kept songs stream partial),
        claims!(Reply: number length),
        claims!(RunReply: number length read),
        claims!(WheelSpeeds: number right left capped),
        claims!(Message: opcode a b c first second payload),
    ]
    .concat()
}

fn numbers_by_name() -> Vec<(&'static str, usize)> {
    let bytes = [
        ("Done", DONE),
        ("Unknown", UNKNOWN),
        ("NotOffered", NOT_OFFERED),
        ("WrongMode", WRONG_MODE),
        ("NotLegal", NOT_LEGAL),
        ("NoSong", NO_SONG),
        ("Busy", BUSY),
        ("NoRoom", NO_ROOM),
        ("BadRecord", BAD_RECORD),
        ("Waiting", WAITING),
        ("Start", START),
        ("Off", OFF),
        ("Passive", PASSIVE),
        ("Safe", SAFE),
        ("Full", FULL),
        ("NoOrder", NO_ORDER),
        ("Drive", DRIVE),
        ("Direct", DIRECT),
    ];
    let mut numbers = bytes
        .map(|(name, number)| (name, usize::from(number)))
        .to_vec();
    numbers.extend([
        ("ImageSize", IMAGE_SIZE),
        ("LongestAnswer", LONGEST_ANSWER),
        ("LongestChunk", LONGEST_CHUNK),
        ("LongestFrame", LONGEST_FRAME),
        ("LogOutBytes", LOG_OUT_BYTES),
    ]);
    numbers
}

/// The header's words, one space between two, so that a broken line makes no difference.
fn words() -> String {
    HEADER.split_whitespace().collect::<Vec<_>>().join(" ")
}

#[test]
fn the_layout() {
    let header = words();
    for claim in layout_claims() {
        assert!(header.contains(&claim), "{claim}");
    }
    // None of the header's is missing here.
    let stated = header.matches("offsetof(").count() + 2 * header.matches("sizeof(Raw").count();
    assert_eq!(layout_claims().len(), stated);
}

#[test]
fn the_numbers() {
    let header = words();
    let ends = [",", " }", " /*"];
    for (name, number) in numbers_by_name() {
        let stated = |end| header.contains(&format!("Rawdhusaq{name} = {number}{end}"));
        assert!(ends.iter().any(stated), "{name}");
    }
    assert_eq!(numbers_by_name().len(), header.matches(" = ").count());
}
