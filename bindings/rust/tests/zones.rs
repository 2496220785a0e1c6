//! The zone of a time as the label gives it: none, Z or signed.

use odl::{Code, Error, Label, Moment, Row, Zone};

/// The zone of the time in a label `A=...`, if it is one.
fn zone(label: &[u8]) -> Option<Zone> {
    let label = odl::read(label).unwrap();
    zone_of(&label)
}

fn zone_of(label: &Label) -> Option<Zone> {
    match label.rows().nth(1).unwrap().row {
        Row::Moment(Moment::Time(time) | Moment::DateTime(_, time)) => Some(time.zone),
        _ => None,
    }
}

#[test]
fn zones_are_told_apart() {
    for (written, given) in [
        ("10:00", Zone::NotGiven),
        ("10:00Z", Zone::Utc),
        ("10:00z", Zone::Utc),
        ("10:00+0", Zone::Signed(0)),
        ("10:00-00:00", Zone::Signed(0)),
        ("10:00+7", Zone::Signed(420)),
        ("10:00-00:30", Zone::Signed(-30)),
        ("1:2:3.000000001", Zone::NotGiven),
        ("1990-07T12:00", Zone::NotGiven),
        ("1990-07T12:00Z", Zone::Utc),
        ("1990-07T12:00+12:59", Zone::Signed(779)),
    ] {
        let label = format!("A={written} END");
        assert_eq!(zone(label.as_bytes()), Some(given), "{written}");
    }
    assert_eq!(zone(b"A=1990-07 END"), None);
}

#[test]
fn without_a_zone_the_offset_is_0_by_rule() {
    for (zone, offset) in [
        (Zone::NotGiven, 0),
        (Zone::Utc, 0),
        (Zone::Signed(0), 0),
        (Zone::Signed(779), 779),
        (Zone::Signed(-30), -30),
    ] {
        assert_eq!(zone.offset(), offset);
    }
}

#[test]
fn the_canonical_label_has_a_zone_with_every_time() {
    for (written, zone_written) in [
        ("10:00", Zone::Utc),
        ("10:00z", Zone::Utc),
        ("10:00+0", Zone::Utc),
        ("1990-07T12:00", Zone::Utc),
        ("1990-07T12:00-12:59", Zone::Signed(-779)),
    ] {
        let label = format!("A={written} END");
        let canonical = odl::relabel(label.as_bytes()).unwrap();
        assert_eq!(zone(&canonical), Some(zone_written), "{written}");
    }
}

/// The table of an attribute with a date, a time or both (1, 2, 3), over a
/// label of its name.
fn table(parts: u8, offset: i16, mark: u8) -> Vec<u8> {
    let mut table = vec![1, 0, 0, 0, 1, 12, parts];
    table.extend([7, 198, 1, 7].map(|byte| byte * (parts & 1)));
    table.extend([10, 20, 30, 0, 0, 0, 0].map(|byte| byte * (parts >> 1)));
    table.extend(offset.to_be_bytes());
    table.extend([mark, 99, 0, 0]);
    table
}

#[test]
fn zones_from_elsewhere_are_judged() {
    for (parts, offset, mark, zone) in [
        (1, 0, 0, None),
        (2, 0, 0, Some(Zone::NotGiven)),
        (2, 0, 1, Some(Zone::Utc)),
        (3, 0, 2, Some(Zone::Signed(0))),
        (3, -30, 2, Some(Zone::Signed(-30))),
    ] {
        let label = Label::with_table(b"A", table(parts, offset, mark)).unwrap();
        assert_eq!(zone_of(&label), zone);
    }
    let error = Error {
        code: Code::ImproperTable,
        place: 5,
    };
    for (parts, offset, mark) in [
        (2, 1, 0),
        (3, 256, 0),
        (2, -30, 1),
        (3, 0, 3),
        (2, 60, 255),
        (2, 780, 2),
        (1, 0, 1),
        (1, 0, 2),
        (1, 60, 2),
    ] {
        let judged = Label::with_table(b"A", table(parts, offset, mark));
        assert_eq!(judged, Err(error), "{parts} {offset} {mark}");
    }
}
