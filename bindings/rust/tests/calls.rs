//! The calls, on small lines; and the sample of the repository, listed as ./list lists it.
use sdti::{check, line_bytes, packets, Event, Laid, Packet, Reader, Refusal, Settings, Writer, ROOM, STATE};
use std::path::Path;

fn variable(code: u8) -> Settings {
    Settings { code, block: 0xC1, flag: 1, destination: [1; 16], source: [2; 16], reserved: [0, 9, 0, 0, 255], ..Settings::default() }
}

/// The events of a line, to its end or its refusal.
fn events(reader: &mut Reader, line: &[u8]) -> Vec<Event> {
    let mut found = vec![];
    loop {
        let event = reader.read(line).expect("the line and the state are sound");
        found.push(event);
        if matches!(event, Event::End | Event::Refused { .. }) {
            return found;
        }
    }
}

#[test]
fn what_is_written_is_read() {
    for (system, mode) in [(0, 8), (1, 9), (2, 8), (3, 9)] {
        let settings = variable(1 + system / 2);
        let mut line = vec![0; line_bytes(system)];
        let mut writer = Writer::new(system, mode);
        assert_eq!(writer.open(true, false, 20, &settings, &mut line), Ok(()));
        assert_eq!(writer.add(1, &[0, 255, 1], &mut line), Ok(Laid::Finished));
        assert_eq!(writer.add_many(&[2, 1, 7, 3, 0, 4, 9, 1], &mut line), (2, Err(Refusal(28))));
        assert_eq!(writer.packet(0x60, 0x61, &[5, 511], &mut line), Ok(()));
        assert_eq!(writer.close(&mut line), Ok(()));
        assert_eq!(check(system, mode, &line), Ok((20, settings)));
        let packet = Packet { did: 0x60, second: 0x61, values: vec![5, 511] };
        assert_eq!(packets(system, mode, &line), Ok((vec![packet], None)));
        let mut reader = Reader::new(system, mode);
        assert_eq!(reader.read(&line), Ok(Event::Begun { number: 20, jump: None, dropped: false }));
        assert_eq!(reader.settings(), settings);
        assert_eq!(reader.read_within(2, &line), Ok((Event::Paused, 2)));
        assert_eq!(reader.read_within(0, &line), Ok((Event::Paused, 0)));
        assert_eq!(reader.read_within(99, &line), Ok((Event::Block { kind: 1, length: 3 }, 8)));
        assert_eq!(reader.values(3).collect::<Vec<_>>(), [0, 255, 1]);
        let rest = [Event::Block { kind: 2, length: 1 }, Event::Block { kind: 3, length: 0 }, Event::End];
        assert_eq!(events(&mut reader, &line), rest);
    }
}

#[test]
fn a_block_over_lines() {
    let (settings, values) = (variable(1), (0..3000).map(|i| i % 256).collect::<Vec<u16>>());
    let (mut writer, mut reader, mut found) = (Writer::new(0, 8), Reader::new(0, 8), vec![]);
    for number in [524, 525, 1] {
        let mut line = vec![0; line_bytes(0)];
        writer.open(false, false, number, &settings, &mut line).unwrap();
        writer.add(7, &values, &mut line).unwrap();
        writer.close(&mut line).unwrap();
        // the states travel as images
        writer = Writer::with(*writer.image());
        reader = Reader::with(*reader.image(), *reader.room());
        found.extend(events(&mut reader, &line));
    }
    assert!(found.contains(&Event::Block { kind: 7, length: 3000 }));
    assert!(found.contains(&Event::Begun { number: 1, jump: Some(0), dropped: false }));
    assert!(reader.values(3000).eq(values));
}

#[test]
fn refusals() {
    let (line, settings) = (vec![0; line_bytes(0)], variable(1));
    assert_eq!(Reader::new(0, 8).read(&line[1..]), Err(Refusal(1)));
    assert_eq!(Reader::new(4, 8).read(&line), Err(Refusal(1)));
    assert_eq!(Reader::with([0xAA; STATE], [0; ROOM]).read(&line), Err(Refusal(1)));
    let mut junk = *Reader::new(0, 8).image();
    junk[79] = 1;
    assert_eq!(Reader::with(junk, [0; ROOM]).read(&line), Err(Refusal(2)));
    assert_eq!(Writer::with(*Reader::new(0, 8).image()).close(&mut line.clone()), Err(Refusal(2)));
    assert_eq!(Reader::new(0, 8).read(&line), Ok(Event::Refused { refusal: Refusal(3), dropped: false }));
    let mut writer = Writer::new(0, 8);
    assert_eq!(writer.add(1, &[], &mut line.clone()), Err(Refusal(20)));
    assert_eq!(writer.open(false, false, 65536 + 20, &settings, &mut line.clone()), Err(Refusal(9)));
    assert_eq!(writer.open(false, false, 20, &Settings::default(), &mut line.clone()), Err(Refusal(10)));
    assert_eq!(writer.image(), Writer::new(0, 8).image());
    assert_eq!(check(0, 8, &line), Err(Refusal(3)));
    assert_eq!(packets(0, 9, &line[2..]), Err(Refusal(1)));
    assert_eq!(Refusal(16).to_string(), "refused with 16");
}

/// A row as ./list writes it.
fn row(event: Event) -> String {
    let (text, dropped) = match event {
        Event::Refused { refusal, dropped } => (format!("refused {}", refusal.0), dropped),
        Event::Begun { number, jump: None, dropped } => (format!("begun {number} unknown"), dropped),
        Event::Begun { number, jump: Some(jump), dropped } => (format!("begun {number} {jump}"), dropped),
        Event::Block { kind, length } => (format!("block {kind} {length}"), false),
        Event::Drop { reason } => (format!("drop {reason}"), false),
        Event::End => ("end".to_string(), false),
        Event::Paused => ("paused".to_string(), false),
    };
    format!("{text}{}\n", if dropped { " dropped" } else { "" })
}

#[test]
fn the_sample() {
    let folder = Path::new(env!("CARGO_MANIFEST_DIR")).join("../../crates/listing");
    let data = std::fs::read(folder.join("stdin")).unwrap();
    let mut reader = Reader::new(0, 8);
    let mut text = String::new();
    for line in data.chunks(line_bytes(0)) {
        if line.len() < line_bytes(0) {
            assert_eq!(reader.read(line), Err(Refusal(1)));
            text += "refused 1\n";
            break;
        }
        text.extend(events(&mut reader, line).into_iter().map(row));
    }
    assert_eq!(text, std::fs::read_to_string(folder.join("stdout")).unwrap());
}
