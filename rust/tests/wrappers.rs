//! The safe functions hand on what the library answers: each is held against the twin over some random cases.

use brinetoggle_twin::random::{Random, RecordCase, Written, file_case, record_case, table_case};
use brinetoggle_twin::twin;

const CASES: usize = 2_000;

/// A wrapper's answer and the twin's in one form: the values, or the refusal's three numbers.
fn ours<T>(answer: brinetoggle::Answer<T>) -> Result<T, [u64; 3]> {
    answer.map_err(|no| [no.fault.number(), no.place, no.second])
}

fn twins<T>(answer: twin::Answer<T>) -> Result<T, [u64; 3]> {
    answer.map_err(|no| no.numbers())
}

#[test]
fn files() {
    let mut random = Random::new(11);
    for _ in 0..CASES {
        let case = file_case(&mut random);
        let mut tables = (vec![7; case.vertex_room], vec![7; case.element_room]);
        let mut others = tables.clone();
        let found = brinetoggle::read(&case.bytes, &mut tables.0, &mut tables.1);
        let expected = twin::read(&case.bytes, &mut others.0, &mut others.1);
        assert_eq!(
            ours(found).map(|counts| (counts.vertices, counts.elements)),
            twins(expected).map(|counts| (counts.vertices, counts.elements)),
            "{case}"
        );
        assert_eq!(tables, others, "{case}");
        let found = brinetoggle::convert_text(&case.bytes);
        let program = twin::program(&case.bytes);
        let written = found.unwrap_or_else(|refusal| format!("{refusal}\n").into_bytes());
        assert_eq!(written, program, "{case}");
    }
}

#[test]
fn tables() {
    let mut random = Random::new(12);
    for _ in 0..CASES {
        let case = table_case(&mut random);
        let (vertices, elements) = (case.vertex_count, case.element_count);
        let table = &case.elements[..];
        let found = brinetoggle::judge(vertices, elements, table);
        assert_eq!(
            ours(found),
            twins(twin::judge(vertices, elements, table)),
            "{case}"
        );
        let room = random.pick(&[0, 100, 4 * 6_144]);
        let [mut output, mut other] = [vec![7; room], vec![7; room]];
        let found = brinetoggle::cut(vertices, elements, table, &mut output);
        let expected = twin::cut(vertices, elements, table, &mut other);
        assert_eq!(ours(found), twins(expected), "{case}");
        assert_eq!(output, other, "{case}");
        let found = brinetoggle::signs(vertices, elements, table, &case.vertices);
        let expected = twin::signs(vertices, elements, table, &case.vertices);
        assert_eq!(
            ours(found).map(|s| [s.positive, s.zero, s.negative, s.unsound]),
            twins(expected).map(|s| [s.positive, s.zero, s.negative, s.unsound]),
            "{case}"
        );
    }
}

#[test]
fn records() {
    let mut random = Random::new(13);
    for _ in 0..CASES {
        let case = record_case(&mut random);
        let RecordCase { record, room } = case;
        let [mut buffer, mut other] = [vec![7; room], vec![7; room]];
        let (found, expected) = match record {
            Written::Vertex([x, y, z]) => (
                brinetoggle::write_vertex(x, y, z, &mut buffer),
                twin::write_vertex(x, y, z, &mut other),
            ),
            Written::Element(record) => (
                brinetoggle::write_element(&record, &mut buffer),
                twin::write_element(&record, &mut other),
            ),
            Written::End(vertices, elements) => (
                brinetoggle::write_end(vertices, elements, &mut buffer),
                twin::write_end(vertices, elements, &mut other),
            ),
        };
        assert_eq!(ours(found), twins(expected), "{case}");
        assert_eq!(buffer, other, "{case}");
    }
}
