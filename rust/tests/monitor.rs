//! A monitor: what it tells of a line, in rooms of any size.
use osdp::{Monitor, Prints};

/// The first runs of tests/rows/monitor.txt, and what is told of them, worked by hand: reader 6 answers a repeat anew.
const RUNS: [&str; 10] = [
    "530508000061003F",
    "53851300004553494D010105000000010000DF",
    "530608000061003E",
    "53861300004553494D010106000000010000DD",
    "53050700016040",
    "538507000140E0",
    "5306070001603F",
    "53860A00015300013197",
    "5306070001603F",
    "53860A00015300013296",
];
const TOLD: &str = "\
2:0 device 5: opened
4:0 device 6: opened
10:0 reader 6: a repeat is answered by something else (standard)
     expected 53860A00015300013197
     seen     53860A00015300013296
";

fn bytes(digits: &str) -> Vec<u8> {
    (0..digits.len())
        .step_by(2)
        .map(|at| u8::from_str_radix(&digits[at..at + 2], 16).unwrap())
        .collect()
}

/// All text that waits, taken into such rooms.
fn text(monitor: &mut Monitor, room: usize) -> String {
    let (mut room, mut text) = (vec![0; room], Vec::new());
    while let told @ [_, ..] = monitor.next_text(&mut room) {
        text.extend_from_slice(told);
    }
    String::from_utf8(text).unwrap()
}

/// What is told of the runs, which come in such pieces.
fn told(prints: Prints, standard: bool, piece: usize, room: usize) -> (Monitor, String) {
    let mut monitor = Monitor::new(prints, standard).unwrap();
    for run in RUNS {
        for part in bytes(run).chunks(piece) {
            monitor.on_bytes(part).unwrap();
        }
        monitor.on_silence().unwrap();
    }
    let text = text(&mut monitor, room);
    (monitor, text)
}

#[test]
fn what_is_found_is_told_in_any_pieces() {
    for (piece, room) in [(64, 4096), (1, 1), (7, 13)] {
        let (mut monitor, found) = told(Prints::Found, false, piece, room);
        assert_eq!(found, TOLD);
        assert_eq!(monitor.is_wrong(), Ok(true));
        monitor.tell_table().unwrap();
        let table = text(&mut monitor, room);
        assert!(table.starts_with("device  asked") && table.contains("\nruns 10 packets 10 "));
        assert_eq!(text(&mut monitor, room), "");
        assert_eq!(monitor.next_text(&mut []), b"");
    }
}

#[test]
fn more_is_told_where_it_is_asked_for() {
    let (_, talk) = told(Prints::Talk, true, 64, 4096);
    let (_, packets) = told(Prints::Packets, false, 64, 4096);
    assert!(
        TOLD.lines()
            .all(|line| talk.contains(line) && packets.contains(line))
    );
    assert!(TOLD.len() < talk.len() && talk.len() < packets.len());
    assert!(talk.contains("PDID") && !talk.contains("POLL") && packets.contains("POLL"));
}

#[test]
fn a_line_of_which_nothing_came_is_not_wrong() {
    let mut monitor = Monitor::new(Prints::default(), false).unwrap();
    assert_eq!(monitor.is_wrong(), Ok(false));
    assert_eq!(text(&mut monitor, 64), "");
}

/// An event at number 0 breaks this project's profile alone, so with `standard` it is no accusation.
#[test]
fn what_only_the_profile_asks_for_is_left_out() {
    const SESSIONS: [&str; 6] = [
        "53050700006041",
        "538507000040E1",
        "53050700016040",
        "538507000140E0",
        "53050700006041",
        "53850A00005300013199",
    ];
    let told = [false, true].map(|standard| {
        let mut monitor = Monitor::new(Prints::Found, standard).unwrap();
        for run in SESSIONS {
            monitor.on_bytes(&bytes(run)).unwrap();
            monitor.on_silence().unwrap();
        }
        text(&mut monitor, 4096).contains("reader 5: an event at number 0 (profile)")
    });
    assert_eq!(told, [true, false]);
}
