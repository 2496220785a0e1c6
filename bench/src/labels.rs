//! The labels that are timed. Each is filled up to a size with statements.

type Label = fn(usize) -> Vec<u8>;

pub const KINDS: [(&str, Label); 6] = [
    ("dense", dense),
    ("padded", padded),
    ("sample", sample),
    ("digits", digits),
    ("reals", reals),
    ("times", times),
];

/// Names and values of every sort.
const STATEMENTS: [(&str, &str); 14] = [
    ("RECORD_TYPE", "FIXED_LENGTH"),
    ("RECORD_BYTES", "800"),
    ("^IMAGE", "(\"IO_0514.IMG\",40)"),
    ("SPACECRAFT_NAME", "'VOYAGER 2'"),
    ("START_TIME", "1979-07-08T05:19:11.25Z"),
    ("STOP_TIME", "1979-189T07:20+02:00"),
    ("EXPOSURE_DURATION", "1.9200<SECONDS>"),
    ("SPIN_RATE", "-12.5E-3<DEG/SEC**2>"),
    ("SAMPLE_BIT_MASK", "2#11111111#"),
    (
        "NOTE",
        "\"Routine multispectral longitude coverage, 1 of 7 frames\"",
    ),
    ("CORNERS", "((0,0),(799,0),(799,599.5))"),
    ("FILTERS", "(CLEAR,VIOLET,BLUE,GREEN,ORANGE)"),
    ("FLAGS", "{CALIBRATED,7,\"x\"}"),
    ("LINES", "-600"),
];

/// Statements in turn until the next would not fit, then END.
fn filled(size: usize, statement: impl Fn(usize) -> String) -> Vec<u8> {
    const END: &str = "END\r\n";
    let mut label = String::new();
    for number in 0.. {
        let next = statement(number);
        if label.len() + next.len() + END.len() > size {
            break;
        }
        label += &next;
    }
    (label + END).into_bytes()
}

/// No more spacing than one line end after each statement.
fn dense(size: usize) -> Vec<u8> {
    filled(size, |number| {
        let (name, value) = STATEMENTS[number % STATEMENTS.len()];
        format!("{name}={value}\n")
    })
}

/// As archives keep their labels: signs in one column, lines filled up with
/// spaces to 80 bytes, here and there a comment.
fn padded(size: usize) -> Vec<u8> {
    filled(size, |number| {
        let (name, value) = STATEMENTS[number % STATEMENTS.len()];
        let line = format!("  {name:<28}= {value}");
        match number % 7 {
            6 => format!("{:<78}\r\n{line:<78}\r\n", "/* Image Description */"),
            _ => format!("{line:<78}\r\n"),
        }
    })
}

/// The sample label of 12.1; its statements over and over for larger sizes.
fn sample(size: usize) -> Vec<u8> {
    const LIST: &str = include_str!("../../examples/vectors.txt");
    let line = LIST
        .lines()
        .find_map(|line| line.strip_prefix("sample_label\t"))
        .expect("the list has the sample label");
    let label = line
        .split('\t')
        .nth(1)
        .expect("the label is the third field");
    let label = label.replace("\\n", "\n").replace("\\\"", "\"");
    let body = label
        .strip_suffix("END\n")
        .expect("the label ends with END");
    // The smallest size is just short of the sample's own.
    filled(size.max(body.len() + 5), |_| body.to_string())
}

/// Sequences of one-digit numbers: close to the longest table for its bytes.
fn digits(size: usize) -> Vec<u8> {
    filled(size, |number| {
        format!("A=({}{})\n", "1,".repeat(30), number % 10)
    })
}

/// Sequences of reals: plain ones, whole ones, and ones written with a power.
fn reals(size: usize) -> Vec<u8> {
    filled(size, |number| {
        format!("A=(1.50,-.015,{number}.25,2E-18,-15.,31459e1,1E17,15E-30,6.02E23)\n")
    })
}

/// Sequences of dates and times: days of every month, by day of year and by
/// month and day, with and without decimals and zones.
fn times(size: usize) -> Vec<u8> {
    filled(size, |number| {
        let (year, day) = (1970 + number % 60, 1 + number * 31 % 365);
        let (month, of_month) = (1 + number % 12, 1 + number % 28);
        format!(
            "A=({year}-{day:03},{year}-{month:02}-{of_month:02}T05:19:11.25Z,\
             {year}-{day}T07:20+02:00,10:00:00.123456789)\n"
        )
    })
}
