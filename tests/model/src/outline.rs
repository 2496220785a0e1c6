//! The outline of an accepted label: its statements in order, from the list of
//! its elements alone.

/// An element and its place.
pub type Element<'a> = (usize, &'a [u8]);

#[derive(Debug, Clone, Copy, PartialEq, Eq)]
pub enum Sort {
    Attribute,
    Pointer,
    Object,
    Group,
}

#[derive(Debug, Clone, PartialEq, Eq)]
pub struct Statement<'a> {
    pub sort: Sort,
    /// The place of its name.
    pub place: usize,
    pub name: &'a [u8],
    /// The elements of its value; none of an OBJECT or GROUP.
    pub value: &'a [Element<'a>],
    /// The blocks that it stands in, outermost first.
    pub within: Vec<Sort>,
}

/// The statements that these elements begin with, through END or the last one.
pub fn statements<'a>(mut elements: &'a [Element<'a>]) -> Vec<Statement<'a>> {
    let mut statements = Vec::new();
    let mut open = Vec::new();
    while let Some((step, rest)) = step(elements) {
        elements = rest;
        let Step::Statement(sort, (place, name)) = step else {
            open.pop();
            continue;
        };
        let within = open.clone();
        let length = match sort {
            Sort::Attribute | Sort::Pointer => value_length(rest),
            Sort::Object | Sort::Group => {
                open.push(sort);
                0
            }
        };
        let (value, rest) = rest.split_at(length);
        elements = rest;
        statements.push(Statement {
            sort,
            place,
            name,
            value,
            within,
        });
    }
    statements
}

/// What elements begin with, up to the value if there is one.
enum Step<'a> {
    Statement(Sort, Element<'a>),
    Closing,
}

/// A step, and the elements behind it; none at END.
fn step<'a>(elements: &'a [Element<'a>]) -> Option<(Step<'a>, &'a [Element<'a>])> {
    let is = |word: &[u8], other: &[u8]| word.eq_ignore_ascii_case(other);
    Some(match elements {
        [(_, b"^"), name, (_, b"="), rest @ ..] => (Step::Statement(Sort::Pointer, *name), rest),
        [(_, word), (_, b"="), name, rest @ ..] if is(word, b"OBJECT") => {
            (Step::Statement(Sort::Object, *name), rest)
        }
        [(_, word), (_, b"="), name, rest @ ..] if is(word, b"GROUP") => {
            (Step::Statement(Sort::Group, *name), rest)
        }
        [(_, word), rest @ ..] if is(word, b"END_OBJECT") || is(word, b"END_GROUP") => match rest {
            [(_, b"="), _, rest @ ..] => (Step::Closing, rest),
            _ => (Step::Closing, rest),
        },
        [name, (_, b"="), rest @ ..] => (Step::Statement(Sort::Attribute, *name), rest),
        _ => return None,
    })
}

/// How many of these elements are the value that they begin with.
fn value_length(elements: &[Element]) -> usize {
    let mut open = 0;
    let ends = |&(_, element): &Element| {
        match element {
            b"(" | b"{" => open += 1,
            b")" | b"}" => open -= 1,
            _ => {}
        }
        open == 0
    };
    let length = elements.iter().position(ends).map_or(0, |last| last + 1);
    let rest = &elements[length..];
    match rest.first() {
        Some((_, b"<")) => {
            let units = rest.iter().position(|&(_, element)| element == b">");
            length + units.map_or(0, |last| last + 1)
        }
        _ => length,
    }
}
