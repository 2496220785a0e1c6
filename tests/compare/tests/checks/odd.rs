//! Odd sizes and odd numbers.

use compare::{Call, Case};

/// Labels of this length, each with something long in it.
fn labels_of(length: usize) -> Vec<Vec<u8>> {
    let filled = |before: &str, fill: &str, after: &str| -> Vec<u8> {
        let room = length.saturating_sub(before.len() + after.len());
        let mut label = before.as_bytes().to_vec();
        label.extend(fill.bytes().cycle().take(room));
        label.extend(after.bytes());
        label
    };
    vec![
        filled("", " ", ""),
        filled("", " ", "END"),
        filled("END", "\n", ""),
        filled("END\n", "\u{7f}&", ""),
        filled("", "A=1 ", "\nEND"),
        filled("A=(", "1,", "1)END"),
        filled("A=((", "1),(", "1))END"),
        filled("A={", "-.5e-3 <KM/S**-2>,", ""),
        filled("A=(", "1E18,", "1.)END"),
        filled("A=(", "0:0,", "0:0)END"),
        filled("A=(", "0.000000000000000001,", "1.)END"),
        filled("A=\"", "x-\n ", "\" END"),
        filled("A=\"", "x", ""),
        filled("A='", "x", "' END"),
        filled("/*", "*", "*/\nEND"),
        filled("/**/", "END", "\nEND"),
        filled("A=", "0", "7 END"),
        filled("A=0.", "0", "7 END"),
        filled("A=16#", "0", "F# END"),
        filled("A=1E-", "0", "7 END"),
        filled("A=10:00:00.", "0", " END"),
        filled("N", "A", "=1 END"),
        filled("", "OBJECT=A END_OBJECT=a ", " END"),
        filled("", "GROUP=A ", ""),
        filled("A=1<", "B*", "B> END"),
    ]
}

#[test]
fn longest_labels_agree() {
    let mut accepted = 0;
    for length in [65_533, 65_534, 65_535, 65_536, 65_537, 70_000, 200_000] {
        for label in labels_of(length) {
            Case::read(&label, 0).check_rooms().unwrap();
            for book in [[0; 8], [u32::MAX; 8]] {
                Case::take(book, &label, 0).check_rooms().unwrap();
            }
            let Ok(read) = odl::read(&label) else {
                continue;
            };
            accepted += 1;
            let table = read.into_table().into_bytes();
            assert!(
                table.len() <= 5 * label.len(),
                "header: room that is always enough"
            );
            let case = Case::over(Call::Write, &label, &table);
            case.check_rooms().unwrap();
            check_rows(&label, &table);
        }
    }
    assert!(accepted >= 30, "{accepted} labels accepted");
}

/// All calls at rows near the table's start, near its end and far outside.
fn check_rows(label: &[u8], table: &[u8]) {
    let near_end = table.len().saturating_sub(12);
    let far = [
        65_535,
        65_536,
        65_541,
        1 << 31,
        1 << 32,
        (1 << 32) + 5,
        1 << 48,
    ];
    let largest = [
        usize::MAX / 2,
        usize::MAX / 2 + 1,
        usize::MAX - 5,
        usize::MAX,
    ];
    let rows = (0..12)
        .chain(near_end..table.len() + 2)
        .chain(far)
        .chain(largest);
    for row in rows {
        let at = |call| Case {
            row,
            name: b"a".to_vec(),
            ..Case::over(call, label, table)
        };
        at(Call::Text).check_rooms().unwrap();
        // These two are lent no room.
        at(Call::Find).check().unwrap();
        at(Call::Name).check().unwrap();
    }
}

#[test]
fn short_labels_of_any_byte_agree() {
    let bytes = || 0..=u8::MAX;
    Case::read(b"", 0).check_rooms().unwrap();
    for one in bytes() {
        Case::read(&[one], 0).check_rooms().unwrap();
        Case::read(&[b"END", &[one][..]].concat(), 0)
            .check_rooms()
            .unwrap();
        Case::read(&[b"A=", &[one][..], b"1\" END"].concat(), 0)
            .check_rooms()
            .unwrap();
        Case::read(&[b"A='", &[one][..], b"' END"].concat(), 0)
            .check_rooms()
            .unwrap();
        Case::read(&[b"A=\"", &[one][..], b"\" END"].concat(), 0)
            .check_rooms()
            .unwrap();
        Case::read(&[b"/*", &[one][..], b"*/ \nEND"].concat(), 0)
            .check_rooms()
            .unwrap();
        Case::read(&[b"/**/", &[one][..], b"\nEND"].concat(), 0)
            .check_rooms()
            .unwrap();
        for other in bytes() {
            Case::read(&[one, other], 8).check().unwrap();
        }
    }
}

#[test]
fn tables_of_one_row_agree() {
    // A label that has every byte, at its own offset.
    let label: Vec<u8> = (0..=u8::MAX).collect();
    for kind in 0..=u8::MAX {
        for length in 0..18 {
            let mut table = vec![kind];
            table.resize(1 + length, 65);
            Case::over(Call::Write, &label, &table)
                .check_rooms()
                .unwrap();
            table.extend([99, 0, 0]);
            Case::over(Call::Write, &label, &table)
                .check_rooms()
                .unwrap();
            check_rows(&label, &table);
        }
    }
}

#[test]
fn tables_without_bound_agree() {
    // Rows far beyond 65,535; the texts and names there are asked for.
    let label = b"AB\"Jupi-\n ter";
    for members in [1, 6_000, 7_280, 7_281, 7_282, 20_000, 30_000] {
        let mut table = vec![1, 0, 0, 0, 1, 20];
        for _ in 0..members {
            table.extend([10, 0, 0, 0, 0, 0, 0, 0, 1]);
        }
        table.push(21);
        let text = table.len() + 5;
        table.extend([1, 0, 1, 0, 2, 13, 0, 3, 0, 13, 3, 0, 0, 0, 1, 4, 99, 0, 13]);
        Case::over(Call::Write, label, &table)
            .check_rooms()
            .unwrap();
        check_rows(label, &table);
        assert_eq!(odl::text(label, &table, text).unwrap(), b"Jupiter");
        assert_eq!(odl::find(label, &table, b"b", 0).unwrap(), text - 5);
        assert_eq!(odl::name(label, &table, text - 5), b"B");
        assert_eq!(odl::name(label, &table, text - 5 + (1 << 32)), b"");
    }
}

#[test]
fn any_name_agrees() {
    let label = b"a_1=1 Zz=2 END";
    let table = odl::read(label).unwrap().into_table().into_bytes();
    let find = |name: &[u8]| {
        Case {
            name: name.to_vec(),
            ..Case::over(Call::Find, label, &table)
        }
        .check()
        .unwrap()
    };
    assert_eq!(find(b"A_1"), (0, 0, 0));
    assert_eq!(find(b"zZ"), (0, 0, 14));
    for byte in 0..=u8::MAX {
        find(&[byte]);
        find(&[byte, b'_', b'1']);
        find(&[b'A', byte, b'1']);
        find(&[b'z', byte]);
        find(&[b'Z', b'Z', byte]);
    }
    for length in [0, 1, 60, 61, 65_535, 65_536, 200_000] {
        find(&vec![b'Z'; length]);
    }
}

mod face {
    use odl::raw::Book;

    pub type In = *const u8;
    pub type Out = *mut usize;

    extern "C" {
        pub fn odl_read(l: In, ll: usize, t: *mut u8, tl: usize, p: Out, n: Out) -> u8;
        pub fn odl_write(
            l: In,
            ll: usize,
            t: In,
            tl: usize,
            o: *mut u8,
            ol: usize,
            p: Out,
            n: Out,
        ) -> u8;
        pub fn odl_text(
            l: In,
            ll: usize,
            t: In,
            tl: usize,
            row: usize,
            o: *mut u8,
            ol: usize,
            p: Out,
            n: Out,
        ) -> u8;
        pub fn odl_find(
            l: In,
            ll: usize,
            t: In,
            tl: usize,
            m: In,
            ml: usize,
            row: usize,
            p: Out,
            at: Out,
        ) -> u8;
        pub fn odl_name(l: In, ll: usize, t: In, tl: usize, row: usize, s: Out, e: Out);
        pub fn odl_take(
            b: *mut Book,
            l: In,
            ll: usize,
            t: *mut u8,
            tl: usize,
            p: Out,
            n: Out,
        ) -> u8;
    }
}

#[test]
fn null_stands_for_no_bytes() {
    use std::ptr::{null, null_mut};
    let table = [99, 0, 0];
    let (t, tl) = (table.as_ptr(), table.len());
    let (mut p, mut n) = (77, 77);
    // SAFETY: every pointer is that of a live buffer, or NULL with length 0.
    unsafe {
        assert_eq!(face::odl_read(null(), 0, null_mut(), 0, &mut p, &mut n), 10);
        assert_eq!((p, n), (0, 0));
        assert_eq!(
            face::odl_read(b"END".as_ptr(), 3, null_mut(), 0, &mut p, &mut n),
            11
        );
        assert_eq!((p, n), (3, 3));
        assert_eq!(
            face::odl_write(null(), 0, null(), 0, null_mut(), 0, &mut p, &mut n),
            12
        );
        assert_eq!((p, n), (0, 0));
        assert_eq!(
            face::odl_write(null(), 0, t, tl, null_mut(), 0, &mut p, &mut n),
            11
        );
        assert_eq!((p, n), (5, 5));
        assert_eq!(
            face::odl_text(null(), 0, t, tl, 0, null_mut(), 0, &mut p, &mut n),
            15
        );
        assert_eq!((p, n), (0, 0));
        assert_eq!(
            face::odl_find(null(), 0, t, tl, null(), 0, 0, &mut p, &mut n),
            14
        );
        assert_eq!((p, n), (0, 0));
        (p, n) = (77, 77);
        face::odl_name(null(), 0, null(), 0, 0, &mut p, &mut n);
        assert_eq!((p, n), (0, 0));
    }
}

/// The same of a taking; to the book itself the pointer is never NULL.
#[test]
fn null_stands_for_no_bytes_of_a_session() {
    use std::ptr::{null, null_mut};
    let mut room = [0; 3];
    let mut take = |counts: [u32; 8], label: &[u8], fits: bool| {
        let (mut book, mut p, mut n) = (odl::raw::Book { counts }, 77, 77);
        let (l, ll) = match label {
            [] => (null(), 0),
            _ => (label.as_ptr(), label.len()),
        };
        let (t, tl) = match fits {
            true => (room.as_mut_ptr(), room.len()),
            false => (null_mut(), 0),
        };
        // SAFETY: every pointer is that of a live buffer, or NULL with length 0.
        let code = unsafe { face::odl_take(&mut book, l, ll, t, tl, &mut p, &mut n) };
        ((code, p, n), book.counts)
    };
    let [empty, one, full] = [[0; 8], [0, 0, 0, 0, 0, 0, 0, 1], [125_000; 8]];
    assert_eq!(take(empty, b"", false), ((10, 0, 0), empty));
    assert_eq!(take(empty, b"", true), ((10, 0, 0), empty));
    assert_eq!(take(empty, b"END", false), ((11, 3, 3), empty));
    assert_eq!(take(full, b"END", false), ((11, 3, 3), full));
    assert_eq!(take(full, b"END", true), ((16, 0, 0), full));
    assert_eq!(take(empty, b"END", true), ((0, 3, 3), one));
    assert_eq!(room, [99, 0, 3]);
}
