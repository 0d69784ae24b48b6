//! The proved library held against the independent twin: the same answer, number for number, and the same lent
//! memory, over random files, tables and records, valid and damaged, with canaries round everything that is lent.
//!
//! `BRINE_CASES` asks for more cases than usual; `BRINE_CASE` for one only, by the number that a failure printed.

mod lent;

use brinetoggle::raw;
use brinetoggle_twin::random::{
    FileCase, Random, RecordCase, TableCase, Written, case_count, file_case, limit_files,
    limit_tables, record_case, table_case,
};
use brinetoggle_twin::twin::{self, Answer};
use lent::{Lent, Number, filled};
use std::collections::BTreeMap;
use std::fmt::{Debug, Display};

/// How many cases gave a refusal number, by entry and number.
type Tally = BTreeMap<(&'static str, u64), usize>;

/// A call's answer in numbers: the refusal's three, then the entry's own, zeros where refused.
fn numbers<const OWN: usize>(answer: Answer<[u64; OWN]>) -> Vec<u64> {
    let (first, own) = match answer {
        Ok(own) => ([0; 3], own),
        Err(refusal) => (refusal.numbers(), [0; OWN]),
    };
    [&first[..], &own[..]].concat()
}

fn one_number(answer: Answer<usize>) -> Answer<[u64; 1]> {
    answer.map(|number| [number as u64])
}

/// One call of the library, and what differs from the twin's.
struct Call {
    entry: &'static str,
    number: u64,
    differences: Vec<String>,
}

impl Call {
    /// The returned number and the answer array, which is written whole.
    fn new(entry: &'static str, returned: u32, answer: &Lent<u64>, expected: &[u64]) -> Call {
        let mut call = Call {
            entry,
            number: expected[0],
            differences: Vec::new(),
        };
        if u64::from(returned) != expected[0] {
            let words = format!("returned {returned}, not {}", expected[0]);
            call.differences.push(words);
        }
        call.memory("the answer", answer, expected);
        call
    }

    /// Memory after the call: all of it as expected, and no canary touched.
    fn memory<T: Number + Debug>(&mut self, name: &str, lent: &Lent<T>, expected: &[T]) {
        assert_eq!(lent.len(), expected.len(), "both were lent the same");
        if !lent.is_guarded() {
            self.differences.push(format!("{name}: a canary is gone"));
        }
        let differs = |index: &usize| lent.content()[*index] != expected[*index];
        let differing: Vec<usize> = (0..expected.len()).filter(differs).collect();
        if let Some(&first) = differing.first() {
            let end = expected.len().min(first + 8);
            self.differences.push(format!(
                "{name}: {} of {} numbers differ, from {first} on: {:?}, not {:?}",
                differing.len(),
                expected.len(),
                &lent.content()[first..end],
                &expected[first..end],
            ));
        }
    }
}

fn read(case: &FileCase) -> Call {
    let file = Lent::of(&case.bytes);
    let mut vertices = Lent::filled(case.vertex_room);
    let mut elements = Lent::filled(case.element_room);
    let mut answer = Lent::<u64>::filled(5);
    // SAFETY: each pointer stands with the length that was lent, and no two overlap.
    let returned = unsafe {
        raw::brine_read(
            file.pointer(),
            file.len(),
            vertices.pointer_mut(),
            vertices.len(),
            elements.pointer_mut(),
            elements.len(),
            answer.pointer_mut().cast(),
        )
    };
    let (mut twins_vertices, mut twins_elements) =
        (filled(case.vertex_room), filled(case.element_room));
    let expected = twin::read(&case.bytes, &mut twins_vertices, &mut twins_elements)
        .map(|counts| [counts.vertices as u64, counts.elements as u64]);
    let mut call = Call::new("read", returned, &answer, &numbers(expected));
    call.memory("the file", &file, &case.bytes);
    call.memory("the vertices", &vertices, &twins_vertices);
    call.memory("the elements", &elements, &twins_elements);
    call
}

/// The lent output is as long as the case says beyond the cut's own length, or beyond 64 bytes where it is refused.
fn convert(case: &FileCase) -> Call {
    let mut ample = vec![0; twin::LONGEST_OUTPUT];
    let needed = twin::convert(&case.bytes, &mut ample).unwrap_or(64);
    let room = needed.saturating_add_signed(case.output_slack);
    let input = Lent::of(&case.bytes);
    let mut output = Lent::filled(room);
    let mut answer = Lent::<u64>::filled(4);
    // SAFETY: as in `read`.
    let returned = unsafe {
        raw::brine_convert(
            input.pointer(),
            input.len(),
            output.pointer_mut(),
            output.len(),
            answer.pointer_mut().cast(),
        )
    };
    let mut twins_output = filled(room);
    let expected = one_number(twin::convert(&case.bytes, &mut twins_output));
    let mut call = Call::new("convert", returned, &answer, &numbers(expected));
    call.memory("the input", &input, &case.bytes);
    call.memory("the output", &output, &twins_output);
    call
}

fn judge(case: &TableCase) -> Call {
    let elements = Lent::of(&case.elements);
    let mut answer = Lent::<u64>::filled(3);
    // SAFETY: as in `read`.
    let returned = unsafe {
        raw::brine_judge(
            case.vertex_count,
            case.element_count,
            elements.pointer(),
            elements.len(),
            answer.pointer_mut().cast(),
        )
    };
    let expected = twin::judge(case.vertex_count, case.element_count, &case.elements);
    let expected = numbers(expected.map(|()| []));
    let mut call = Call::new("judge", returned, &answer, &expected);
    call.memory("the elements", &elements, &case.elements);
    call
}

/// The lent table is as long as the case says beyond the cut's own length, or beyond 64 numbers where it is refused.
fn cut(case: &TableCase) -> Call {
    let twins_cut = |tetrahedra: &mut [u16]| {
        twin::cut(
            case.vertex_count,
            case.element_count,
            &case.elements,
            tetrahedra,
        )
    };
    let needed = twins_cut(&mut vec![0; 4 * twin::TETRAHEDRON_LIMIT]).unwrap_or(16);
    let room = (4 * needed).saturating_add_signed(case.output_slack);
    let elements = Lent::of(&case.elements);
    let mut tetrahedra = Lent::filled(room);
    let mut answer = Lent::<u64>::filled(4);
    // SAFETY: as in `read`.
    let returned = unsafe {
        raw::brine_cut(
            case.vertex_count,
            case.element_count,
            elements.pointer(),
            elements.len(),
            tetrahedra.pointer_mut(),
            tetrahedra.len(),
            answer.pointer_mut().cast(),
        )
    };
    let mut twins_tetrahedra = filled(room);
    let expected = one_number(twins_cut(&mut twins_tetrahedra));
    let mut call = Call::new("cut", returned, &answer, &numbers(expected));
    call.memory("the elements", &elements, &case.elements);
    call.memory("the tetrahedra", &tetrahedra, &twins_tetrahedra);
    call
}

fn signs(case: &TableCase) -> Call {
    let elements = Lent::of(&case.elements);
    let vertices = Lent::of(&case.vertices);
    let mut answer = Lent::<u64>::filled(7);
    // SAFETY: as in `read`.
    let returned = unsafe {
        raw::brine_signs(
            case.vertex_count,
            case.element_count,
            elements.pointer(),
            elements.len(),
            vertices.pointer(),
            vertices.len(),
            answer.pointer_mut().cast(),
        )
    };
    let expected = twin::signs(
        case.vertex_count,
        case.element_count,
        &case.elements,
        &case.vertices,
    )
    .map(|signs| [signs.positive, signs.zero, signs.negative, signs.unsound].map(|n| n as u64));
    let mut call = Call::new("signs", returned, &answer, &numbers(expected));
    call.memory("the elements", &elements, &case.elements);
    call.memory("the vertices", &vertices, &case.vertices);
    call
}

fn write(case: &RecordCase) -> Call {
    let mut buffer = Lent::filled(case.room);
    let mut answer = Lent::<u64>::filled(4);
    let (to, room, into) = (
        buffer.pointer_mut(),
        buffer.len(),
        answer.pointer_mut().cast(),
    );
    let mut twins_buffer = filled(case.room);
    // SAFETY: as in `read`.
    let (entry, returned, expected) = match case.record {
        Written::Vertex([x, y, z]) => (
            "write_vertex",
            unsafe { raw::brine_write_vertex(x, y, z, to, room, into) },
            twin::write_vertex(x, y, z, &mut twins_buffer),
        ),
        Written::Element(record) => {
            let lent = Lent::of(&record);
            let returned =
                unsafe { raw::brine_write_element(lent.pointer().cast(), to, room, into) };
            assert!(lent.is_guarded() && lent.content() == record);
            let expected = twin::write_element(&record, &mut twins_buffer);
            ("write_element", returned, expected)
        }
        Written::End(vertices, elements) => (
            "write_end",
            unsafe { raw::brine_write_end(vertices, elements, to, room, into) },
            twin::write_end(vertices, elements, &mut twins_buffer),
        ),
    };
    let expected = numbers(one_number(expected));
    let mut call = Call::new(entry, returned, &answer, &expected);
    call.memory("the buffer", &buffer, &twins_buffer);
    call
}

/// Notes what calls answered; a case with a difference is printed whole and ends the test.
fn check<C: Display>(tally: &mut Tally, index: &dyn Display, case: &C, calls: Vec<Call>) {
    let mut differing = false;
    for call in calls {
        *tally.entry((call.entry, call.number)).or_insert(0) += 1;
        for difference in &call.differences {
            println!("brine_{}: {difference}", call.entry);
            differing = true;
        }
    }
    assert!(
        !differing,
        "case {index}: the library and the twin differ\n{case}"
    );
}

/// Compares so many random cases, or more where the environment asks for them; each has its own seed.
fn compare<C: Display>(
    tally: &mut Tally,
    seed: u64,
    usual: usize,
    make: fn(&mut Random) -> C,
    calls: fn(&C) -> Vec<Call>,
) {
    let only: Option<usize> = std::env::var("BRINE_CASE")
        .ok()
        .map(|text| text.parse().expect("BRINE_CASE is a number"));
    let indices = match only {
        Some(index) => index..index + 1,
        None => 0..case_count(usual),
    };
    for index in indices {
        let case = make(&mut Random::new((seed << 40) + index as u64));
        check(tally, &index, &case, calls(&case));
    }
}

/// Prints how often each number was answered, and sees that none that an entry can give is missing.
fn print_tally(tally: &Tally, expected: &[(&'static str, &[u64])]) {
    for (entry, numbers) in expected {
        let found = |number: u64| tally.get(&(*entry, number)).copied().unwrap_or(0);
        let counts: Vec<String> = (0..15)
            .filter(|&number| found(number) > 0)
            .map(|number| format!("{number}: {}", found(number)))
            .collect();
        println!("brine_{entry} answered {}", counts.join(", "));
        for &number in *numbers {
            assert!(
                found(number) > 0 || std::env::var("BRINE_CASE").is_ok(),
                "no case had {entry} answer {number}"
            );
        }
    }
}

#[test]
fn files() {
    let mut tally = Tally::new();
    let calls = |case: &FileCase| vec![read(case), convert(case)];
    for case in limit_files() {
        check(&mut tally, &case.name, &case, calls(&case));
    }
    compare(&mut tally, 1, 50_000, file_case, calls);
    print_tally(
        &tally,
        &[
            ("read", &[0, 1, 2, 3, 4, 5, 6, 7, 8, 9, 10]),
            ("convert", &[0, 1, 2, 3, 4, 5, 6, 7, 8, 9, 10, 13, 14]),
        ],
    );
}

#[test]
fn tables() {
    let mut tally = Tally::new();
    let calls = |case: &TableCase| vec![judge(case), cut(case), signs(case)];
    for case in limit_tables() {
        check(&mut tally, &case.name, &case, calls(&case));
    }
    compare(&mut tally, 2, 50_000, table_case, calls);
    print_tally(
        &tally,
        &[
            ("judge", &[0, 7, 8, 9, 11, 12, 13, 14]),
            ("cut", &[0, 7, 8, 9, 11, 12, 13, 14]),
            ("signs", &[0, 6, 7, 8, 9, 11, 12, 13, 14]),
        ],
    );
}

#[test]
fn records() {
    let mut tally = Tally::new();
    compare(&mut tally, 3, 200_000, record_case, |case| {
        vec![write(case)]
    });
    print_tally(
        &tally,
        &[
            ("write_vertex", &[0, 6, 9]),
            ("write_element", &[0, 8, 9, 11, 12, 13]),
            ("write_end", &[0, 7, 9]),
        ],
    );
}
