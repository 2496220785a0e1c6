//! What the documents say of written labels, rows, texts, names and lookups, worked out by hand.

use odl::Code;

fn canonical(label: &[u8]) -> String {
    String::from_utf8(odl::relabel(label).unwrap()).unwrap()
}

/// The written form of a value that stands alone in `A=value END`.
fn written(value: &str) -> String {
    let label = canonical(format!("A={value} END").as_bytes());
    let value = label.strip_prefix("A = ").unwrap();
    value.strip_suffix("\r\nEND\r\n").unwrap().to_string()
}

fn table(label: &[u8]) -> Vec<u8> {
    odl::read(label).unwrap().into_table().into_bytes()
}

fn refusal<T: std::fmt::Debug>(answer: Result<T, odl::Error>) -> (Code, usize) {
    let error = answer.unwrap_err();
    (error.code, error.place)
}

fn code(number: u8) -> Code {
    Code::from_number(number).unwrap()
}

#[test]
fn numbers_are_written_in_one_way() {
    for (value, form) in [
        ("+007", "7"),
        ("-0", "0"),
        ("16#-4B#", "-75"),
        ("-9223372036854775807", "-9223372036854775807"),
        ("1.50", "1.5"),
        ("100.", "100.0"),
        ("-1e5", "-100000.0"),
        (".5", "0.5"),
        ("5.", "5.0"),
        ("-0.0", "0.0"),
    ] {
        assert_eq!(written(value), form, "{value}");
    }
}

/// 02 §4: a real's number and power, and its form. That of its negative has a
/// minus before it.
#[rustfmt::skip]
const REALS: [(i64, i16, &str); 54] = [
    // Powers -18 to -1, plainly.
    (15, -1, "1.5"),
    (15, -3, "0.015"),
    (5, -1, "0.5"),
    (12_345_678_901_234_567, -1, "1234567890123456.7"),
    (123_456_789_012_345_678, -1, "12345678901234567.8"),
    (999_999_999_999_999_999, -1, "99999999999999999.9"),
    (5, -2, "0.05"),
    (15, -2, "0.15"),
    (12_345_678_901_234_567, -2, "123456789012345.67"),
    (123_456_789_012_345_678, -2, "1234567890123456.78"),
    (100_001, -3, "100.001"),
    (100_001, -5, "1.00001"),
    (100_001, -6, "0.100001"),
    (100_001, -7, "0.0100001"),
    (5, -17, "0.00000000000000005"),
    (15, -17, "0.00000000000000015"),
    (12_345_678_901_234_567, -17, "0.12345678901234567"),
    (123_456_789_012_345_678, -17, "1.23456789012345678"),
    (1, -18, "0.000000000000000001"),
    (15, -18, "0.000000000000000015"),
    (12_345_678_901_234_567, -18, "0.012345678901234567"),
    (123_456_789_012_345_678, -18, "0.123456789012345678"),
    (999_999_999_999_999_999, -18, "0.999999999999999999"),
    // Powers below that, with their power.
    (1, -19, "1.E-19"),
    (15, -19, "15.E-19"),
    (12_345_678_901_234_567, -19, "12345678901234567.E-19"),
    (123_456_789_012_345_678, -19, "123456789012345678.E-19"),
    (15, -30, "15.E-30"),
    (1, -999, "1.E-999"),
    (999_999_999_999_999_999, -999, "999999999999999999.E-999"),
    // Number and zeros of at most 18 digits, all of them.
    (5, 0, "5.0"),
    (15, 0, "15.0"),
    (12_345_678_901_234_567, 0, "12345678901234567.0"),
    (123_456_789_012_345_678, 0, "123456789012345678.0"),
    (999_999_999_999_999_999, 0, "999999999999999999.0"),
    (5, 1, "50.0"),
    (15, 2, "1500.0"),
    (12_345_678_901_234_567, 1, "123456789012345670.0"),
    (1, 16, "10000000000000000.0"),
    (12, 15, "12000000000000000.0"),
    (1, 17, "100000000000000000.0"),
    (12, 16, "120000000000000000.0"),
    (123_456_789, 9, "123456789000000000.0"),
    // More digits than that, with their power.
    (1, 18, "1.E18"),
    (12, 17, "12.E17"),
    (123_456_789, 10, "123456789.E10"),
    (12_345_678_901_234_567, 2, "12345678901234567.E2"),
    (123_456_789_012_345_678, 1, "123456789012345678.E1"),
    (999_999_999_999_999_999, 1, "999999999999999999.E1"),
    (1, 19, "1.E19"),
    (12, 18, "12.E18"),
    (1, 20, "1.E20"),
    (1, 999, "1.E999"),
    (999_999_999_999_999_999, 999, "999999999999999999.E999"),
];

/// What the writer makes of a table of `A` and this real, or its refusal.
fn real_written(number: i64, power: i16) -> Result<String, odl::Error> {
    let row = [&number.to_be_bytes()[..], &power.to_be_bytes()].concat();
    let table = [&[1, 0, 0, 0, 1, 11], &row[..], &[99, 0, 0]].concat();
    let label = odl::write(b"A", &table)?;
    Ok(String::from_utf8(label).unwrap())
}

#[test]
fn reals_are_written_so_that_people_can_read_them() {
    let label = |form: &str| Ok(format!("A = {form}\r\nEND\r\n"));
    for (number, power, form) in REALS {
        let minus = format!("-{form}");
        let given = (real_written(number, power), real_written(-number, power));
        assert_eq!(given, (label(form), label(&minus)), "{number} {power}");
        // Read back they give the same row, and are written as they were.
        for (number, form) in [(number, form), (-number, &minus)] {
            let row = [&number.to_be_bytes()[..], &power.to_be_bytes()].concat();
            assert_eq!(table(format!("A={form} END").as_bytes())[6..16], row);
            assert_eq!(written(form), form);
            assert_eq!(written(&format!("{number}E{power}")), form);
        }
    }
    assert_eq!(real_written(0, 0), label("0.0"));
}

#[test]
fn reals_that_are_not_held_so_are_not_written() {
    for (number, power) in [
        (10, 0),
        (-150, -2),
        (100_000_000_000_000_000, 0),
        (0, 1),
        (0, -1),
        (1_000_000_000_000_000_001, -1),
        (-1_000_000_000_000_000_001, 0),
        (i64::MAX, 0),
        (i64::MIN, 0),
        (1, 1_000),
        (1, -1_000),
        (1, i16::MIN),
    ] {
        let refused = refusal(real_written(number, power));
        assert_eq!(refused, (code(12), 5), "{number} {power}");
    }
}

#[test]
fn reals_are_written_so_wherever_they_stand() {
    for (value, form) in [
        ("1.50 <sec**1>", "1.5 <SEC>"),
        ("-.05<m/s**2>", "-0.05 <M/S**2>"),
        ("1e3 <m>", "1000.0 <M>"),
        ("1e30 <m>", "1.E30 <M>"),
        ("(1.50, 1, 1e2, 1e-20)", "(1.5, 1, 100.0, 1.E-20)"),
        ("((.5),(-2.,x), (1e18))", "((0.5), (-2.0, X), (1.E18))"),
        ("{0., 31459e1<hz>}", "{0.0, 314590.0 <HZ>}"),
    ] {
        assert_eq!(written(value), form, "{value}");
    }
}

#[test]
fn dates_and_times_are_written_in_one_way() {
    for (value, form) in [
        ("1990-07", "1990-01-07"),
        ("2000-366", "2000-12-31"),
        ("1990-7-4", "1990-07-04"),
        ("12:00", "12:00:00Z"),
        ("12:00z", "12:00:00Z"),
        ("12:00+0", "12:00:00Z"),
        ("12:00-00:00", "12:00:00Z"),
        ("10:00-00:30", "10:00:00-00:30"),
        ("1:10:39.4575+07", "01:10:39.4575+07:00"),
        ("10:00:12.500z", "10:00:12.5Z"),
        ("1990-158t15:24:12", "1990-06-07T15:24:12Z"),
    ] {
        assert_eq!(written(value), form, "{value}");
    }
}

#[test]
fn symbols_and_texts_are_written_in_one_way() {
    for (value, form) in [
        ("io", "IO"),
        ("'io'", "IO"),
        ("'end'", "'END'"),
        ("'red sun'", "'RED SUN'"),
        ("\"IO\"", "\"IO\""),
        ("\"\"", "\"\""),
        ("\"Jupi-\n  ter\"", "\"Jupiter\""),
        ("\"Jupi- \nter\"", "\"Jupi- ter\""),
        ("\"a \r\n\r\n b\"", "\"a b\""),
        ("\"a\x01-\x02\nb\"", "\"ab\""),
        ("\"a  b\"", "\"a  b\""),
    ] {
        assert_eq!(written(value), form, "{value:?}");
    }
}

#[test]
fn units_sequences_and_sets_are_written_in_one_way() {
    for (value, form) in [
        ("1 <km*sec**-2>", "1 <KM*SEC**-2>"),
        ("1<m/s**1>", "1 <M/S>"),
        ("1.5 <m**0>", "1.5 <M**0>"),
        ("(1,2 <m>,x)", "(1, 2 <M>, X)"),
        ("((1,2),(3,4))", "((1, 2), (3, 4))"),
        ("((a)\n,(b,'c d') , (1<m>))", "((A), (B, 'C D'), (1 <M>))"),
        ("((1))", "((1))"),
        ("{a,'b c'}", "{A, 'B C'}"),
        ("{ }", "{}"),
    ] {
        assert_eq!(written(value), form, "{value}");
    }
}

/// 02 §2: one comma between rows, and nothing but a row after it.
#[test]
fn rows_are_read_with_one_comma_between() {
    for (value, number, place) in [
        ("((1,2)(3,4))", 6, 8),
        ("((1),(2) (3))", 6, 11),
        ("((1)/*,*/\n(2))", 6, 12),
        ("(,(1))", 6, 3),
        ("((1,2),)", 6, 9),
        ("((1,2),,(3))", 6, 9),
        ("((1),2)", 6, 7),
        ("((1) 2)", 6, 7),
        ("(1,(2))", 6, 5),
        ("((1),{})", 6, 7),
        ("((1),())", 6, 8),
        ("((1,2),((3)))", 6, 10),
        ("((1),(2,(3)))", 6, 10),
        ("((1),1E)", 4, 7),
    ] {
        let label = format!("A={value} END");
        let refused = refusal(odl::relabel(label.as_bytes()));
        assert_eq!(refused, (code(number), place), "{value}");
    }
    for label in ["A=((1)", "A=((1),", "A=((1),("] {
        let refused = refusal(odl::relabel(label.as_bytes()));
        assert_eq!(refused, (code(10), label.len()), "{label}");
    }
}

#[test]
fn rows_of_a_table_do_not_show_the_comma() {
    let one = [10, 0, 0, 0, 0, 0, 0, 0, 1];
    let expected = [
        &[1, 0, 0, 0, 1, 20][..],
        &[20],
        &one,
        &[21],
        &[20],
        &one,
        &[21],
        &[21],
        &[99, 0, 15],
    ];
    assert_eq!(table(b"A=((1),(1)) END"), expected.concat());
    // Shown nothing but the name, the writer puts the comma in.
    let written = odl::write(b"A", &[&expected[..8], &[&[99, 0, 1]]].concat().concat());
    assert_eq!(written.unwrap(), b"A = ((1), (1))\r\nEND\r\n");
}

#[test]
fn blocks_are_indented_and_closed_by_name() {
    assert_eq!(canonical(b"END"), "END\r\n");
    assert_eq!(
        canonical(b"group=a ^p=1 object=b x=1 end_object end_group END"),
        "GROUP = A\r\n  ^P = 1\r\n  OBJECT = B\r\n    X = 1\r\n  END_OBJECT = B\r\nEND_GROUP = A\r\nEND\r\n"
    );
    let deep = "object=o ".repeat(80) + &"end_object ".repeat(80) + "END";
    let lines: Vec<String> = (0..80)
        .map(|depth| "  ".repeat(depth) + "OBJECT = O\r\n")
        .chain(
            (0..80)
                .rev()
                .map(|depth| "  ".repeat(depth) + "END_OBJECT = O\r\n"),
        )
        .collect();
    assert_eq!(canonical(deep.as_bytes()), lines.concat() + "END\r\n");
}

#[test]
fn tables_that_are_not_proper_are_refused_at_their_first_bad_row() {
    assert_eq!(refusal(odl::write(b"", b"")), (code(12), 0));
    assert_eq!(odl::write(b"END", &[99, 0, 3]).unwrap(), b"END\r\n");
    assert_eq!(refusal(odl::write(b"EN", &[99, 0, 3])), (code(12), 0));
    assert_eq!(refusal(odl::write(b"END", &[99, 0, 3, 0])), (code(12), 3));
    assert_eq!(refusal(odl::write(b"A", &[1, 0, 0, 0, 1])), (code(12), 5));
}

#[test]
fn a_lookup_stays_in_its_block_and_passes_blocks_whole() {
    let label = b"A=1 OBJECT=O A=2 B=3 END_OBJECT a=4 END";
    let table = table(label);
    // Rows: A 0, 1 5, OBJECT 14, A 19, 2 24, B 33, 3 38, end 47, a 48, 4 53, last 62.
    let find = |name: &str, row: usize| odl::find(label, &table, name.as_bytes(), row);
    assert_eq!(find("a", 0).unwrap(), 0);
    assert_eq!(find("A", 14).unwrap(), 48);
    assert_eq!(find("A", 19).unwrap(), 19);
    assert_eq!(find("b", 19).unwrap(), 33);
    for (name, row) in [
        ("B", 0),
        ("B", 14),
        ("A", 47),
        ("A", 62),
        ("A!", 0),
        ("", 0),
    ] {
        assert_eq!(refusal(find(name, row)), (code(14), 0), "{name} {row}");
    }
    for row in [1, 5, 24, 63, usize::MAX] {
        assert_eq!(refusal(find("A", row)), (code(15), 0), "{row}");
    }
}

#[test]
fn texts_and_names_are_those_of_their_row() {
    let label = b"T=\"Jupi-\nter\" S=x END";
    let table = table(label);
    // Rows: T 0, text 5, S 10, x 15, last 20.
    assert_eq!(odl::text(label, &table, 5).unwrap(), b"Jupiter");
    for row in [0, 1, 10, 15, 20, usize::MAX] {
        assert_eq!(
            refusal(odl::text(label, &table, row)),
            (code(15), 0),
            "{row}"
        );
    }
    for (row, name) in [(0, "T"), (5, ""), (10, "S"), (15, "x"), (20, ""), (3, "")] {
        assert_eq!(odl::name(label, &table, row), name.as_bytes(), "{row}");
    }
}
