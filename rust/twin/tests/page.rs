//! The samples of document 01, run.

use brinetoggle_twin::twin::{self, Counts, Fault, Record, Refusal, Signs};

/// The table "Element | Cut": kind and corners, then the tetrahedra.
const CUTS: &[(&[u16], &[[u16; 4]])] = &[
    (&[4, 4, 3, 2, 1], &[[1, 2, 3, 4]]),
    (&[4, 2, 1, 3, 4], &[[1, 2, 4, 3]]),
    (&[5, 1, 2, 3, 4, 5], &[[1, 2, 3, 5], [1, 3, 4, 5]]),
    (&[5, 2, 3, 4, 5, 1], &[[1, 2, 4, 3], [1, 2, 5, 4]]),
    (
        &[6, 1, 2, 3, 4, 5, 6],
        &[[1, 2, 3, 6], [1, 2, 6, 5], [1, 4, 5, 6]],
    ),
    (
        &[6, 1, 3, 2, 4, 5, 6],
        &[[1, 2, 5, 3], [1, 2, 6, 5], [1, 4, 5, 6]],
    ),
    (
        &[8, 1, 5, 2, 6, 7, 3, 8, 4],
        &[
            [1, 2, 3, 5],
            [1, 2, 4, 3],
            [1, 2, 6, 4],
            [1, 3, 4, 7],
            [2, 3, 8, 4],
        ],
    ),
    (
        &[8, 1, 3, 4, 5, 6, 7, 8, 2],
        &[
            [1, 2, 4, 5],
            [1, 2, 6, 7],
            [1, 2, 7, 8],
            [1, 2, 8, 4],
            [1, 3, 4, 8],
            [1, 3, 8, 7],
        ],
    ),
    (
        &[8, 1, 2, 3, 4, 5, 6, 7, 8],
        &[
            [1, 2, 3, 7],
            [1, 2, 7, 6],
            [1, 3, 4, 8],
            [1, 3, 8, 7],
            [1, 5, 6, 7],
            [1, 5, 7, 8],
        ],
    ),
    (
        &[8, 1, 3, 4, 5, 6, 7, 2, 8],
        &[
            [1, 2, 3, 4],
            [1, 2, 4, 5],
            [1, 2, 5, 8],
            [1, 2, 6, 7],
            [1, 2, 7, 3],
            [1, 2, 8, 6],
        ],
    ),
];

/// The program's sample.
const INPUT: &str = "\
VX 0 0 0
VX 1.25 0 0
VX 0 1.250 0
VX 0 0 1
VX 1.25 0 1
VX 0 1.25 1
PR 1 2 3 4 5 6
EN 6 1
";

const OUTPUT: &str = "\
VX 0.000 0.000 0.000
VX 1.250 0.000 0.000
VX 0.000 1.250 0.000
VX 0.000 0.000 1.000
VX 1.250 0.000 1.000
VX 0.000 1.250 1.000
TE 1 2 3 6
TE 1 2 6 5
TE 1 4 5 6
EN 6 3
";

fn record(numbers: &[u16]) -> Record {
    let mut record = [0; 9];
    record[..numbers.len()].copy_from_slice(numbers);
    record
}

/// The verdict on a text, with ample tables.
fn read(text: &str) -> Result<Counts, [u64; 3]> {
    let mut vertices = vec![0; 3 * 4096];
    let mut elements = vec![0; 9 * 1024];
    twin::read(text.as_bytes(), &mut vertices, &mut elements).map_err(|no| no.numbers())
}

/// The verdict on the first coordinate of a file.
fn coordinate(field: &str) -> Result<i32, Fault> {
    let mut vertices = [0; 3];
    let text = format!("VX {field} 0 0\nEN 1 0\n");
    match twin::read(text.as_bytes(), &mut vertices, &mut []) {
        Ok(_) => Ok(vertices[0]),
        Err(refusal) => Err(refusal.fault),
    }
}

#[test]
fn cuts_of_the_table() {
    for (element, expected) in CUTS {
        let mut output = [7; 25];
        let table = record(element);
        let count = twin::cut(8, 1, &table, &mut output).expect("an element");
        assert_eq!(count, expected.len());
        assert_eq!(&output[..4 * count], expected.as_flattened());
        assert!(output[4 * count..].iter().all(|&number| number == 7));
    }
}

#[test]
fn coordinates() {
    assert_eq!(coordinate("500"), Ok(500_000));
    assert_eq!(coordinate("-500.000"), Ok(-500_000));
    assert_eq!(coordinate("500.001"), Err(Fault::Range));
    assert_eq!(coordinate("1250"), Err(Fault::Range));
    assert_eq!(coordinate("1,250"), Err(Fault::Comma));
    assert_eq!(coordinate("-0.0"), Ok(0));
    assert_eq!(coordinate("1.25"), Ok(1250));
    assert_eq!(coordinate("-0.05"), Ok(-50));
    assert_eq!(coordinate("999999.999"), Err(Fault::Range));
    for field in [
        ".5", "5.", "1.2500", "1000000", "01", "-", "--1", "+1", "1.-5",
    ] {
        assert_eq!(coordinate(field), Err(Fault::Number), "{field}");
    }
}

#[test]
fn order_of_tests_while_reading() {
    let many = "VX 0 0 0\n".repeat(4096);
    let element = "VX 0 0 0\nTE 1 1 1 1\n";
    for (text, expected) in [
        (String::new(), [10, 1, 0]),
        ("VX 0 0 0\n".into(), [10, 2, 0]),
        ("EN 0 0\nEN 0 0".into(), [2, 2, 0]),
        ("EN 0 0".into(), [3, 1, 0]),
        ("XX 0 0".into(), [3, 1, 0]),
        ("\n".into(), [2, 1, 0]),
        ("V\n".into(), [2, 1, 0]),
        ("VX\n".into(), [3, 1, 0]),
        ("VX \n".into(), [3, 1, 0]),
        ("VX  0 0 0\n".into(), [3, 1, 0]),
        ("VX 0 0 0 \n".into(), [3, 1, 0]),
        ("VX,0 0 0\n".into(), [3, 1, 0]),
        ("VX 1,0 0\n".into(), [3, 1, 0]),
        ("VX x 1,0 0\n".into(), [5, 1, 0]),
        ("VX 600 1,0 0\n".into(), [6, 1, 0]),
        ("VX 1,0 600 0\n".into(), [4, 1, 0]),
        ("VX 0 0 0\r\n".into(), [5, 1, 0]),
        ("TE 1 1 1 x\n".into(), [8, 1, 0]),
        ("EN 1 x\n".into(), [5, 1, 0]),
        ("EN 1 0\nVX 0 0 0\n".into(), [10, 1, 0]),
        (format!("{many}VX\n"), [7, 4097, 0]),
        (format!("{many}TE 4097 1 1 1\n"), [8, 4097, 0]),
        (format!("{element}VX 0 0 0\n"), [2, 3, 0]),
        (format!("{element}EN 2 1\n"), [10, 3, 0]),
        ("x".repeat(65_536), [3, 1, 0]),
        ("x".repeat(65_537), [1, 0, 0]),
    ] {
        assert_eq!(read(&text), Err(expected), "{:?}", text.get(..60));
    }
    let counts = Counts {
        vertices: 1,
        elements: 1,
    };
    assert_eq!(read(&format!("{element}EN 1 1\n")), Ok(counts));
    assert_eq!(read("EN 0 0\n"), Ok(Counts::default()));
}

#[test]
fn tip_first_is_stored_as_a_pyramid() {
    let text = "VX 0 0 0\n".repeat(5) + "PZ 1 2 3 4 5\nEN 5 1\n";
    let mut vertices = [0; 15];
    let mut elements = [7; 10];
    twin::read(text.as_bytes(), &mut vertices, &mut elements).expect("a pyramid");
    assert_eq!(elements, [5, 2, 3, 4, 5, 1, 0, 0, 0, 7]);
}

#[test]
fn fitting() {
    let first = [8, 1, 2, 3, 4, 5, 6, 7, 8];
    let join = Err([14, 2, 1]);
    for (second, expected) in [
        (record(&[8, 5, 6, 7, 8, 9, 10, 11, 12]), Ok(())),
        (record(&[8, 5, 8, 7, 6, 9, 12, 11, 10]), join),
        (record(&[4, 5, 6, 7, 9]), join),
        (record(&[4, 5, 6, 9, 10]), Ok(())),
        (record(&[4, 5, 7, 9, 10]), join),
        (record(&[4, 1, 9, 10, 11]), Ok(())),
        (record(&[5, 5, 6, 7, 8, 9]), Ok(())),
        (record(&[5, 8, 7, 6, 5, 9]), join),
        (record(&[5, 5, 7, 6, 8, 9]), join),
        (first, join),
    ] {
        let table = [first, second].concat();
        let answer = twin::judge(12, 2, &table).map_err(|no| no.numbers());
        assert_eq!(answer, expected, "{second:?}");
    }
}

#[test]
fn order_of_tests_in_a_table() {
    let good = [4, 1, 2, 3, 4, 0, 0, 0, 0];
    for (element, fault) in [
        ([7, 0, 0, 0, 0, 9, 0, 0, 0], Fault::Kind),
        ([4, 1, 1, 3, 0, 9, 0, 0, 0], Fault::Vertex),
        ([4, 1, 1, 3, 5, 9, 0, 0, 0], Fault::Vertex),
        ([4, 1, 1, 3, 4, 0, 0, 0, 1], Fault::Spare),
        ([4, 1, 1, 3, 4, 0, 0, 0, 0], Fault::Repeat),
    ] {
        // The record comes before the pair of the first two, which do not fit.
        let table = [good, good, element].concat();
        assert_eq!(twin::judge(4, 3, &table), Err(fault.at(3)));
        assert_eq!(twin::judge(4, 3, &table[..26]), Err(Fault::Room.at(0)));
        assert_eq!(twin::judge(4, 1025, &table), Err(Fault::Many.at(0)));
        assert_eq!(twin::judge(4097, 3, &table), Err(Fault::Many.at(0)));
    }
}

#[test]
fn pairs_by_lowest_later_then_lowest_earlier() {
    let apart = [4, 5, 6, 7, 8, 0, 0, 0, 0];
    let one = [4, 1, 2, 3, 4, 0, 0, 0, 0];
    let table = [one, apart, one, one, apart].concat();
    assert_eq!(
        twin::judge(8, 5, &table).map_err(|no| no.numbers()),
        Err([14, 3, 1])
    );
    let table = [apart, one, one, apart].concat();
    assert_eq!(
        twin::judge(8, 4, &table).map_err(|no| no.numbers()),
        Err([14, 3, 2])
    );
}

#[test]
fn sample_of_the_program() {
    let mut output = vec![b'#'; OUTPUT.len() + 1];
    let length = twin::convert(INPUT.as_bytes(), &mut output).expect("a prism");
    assert_eq!(
        output[..length].escape_ascii().to_string(),
        OUTPUT.escape_default().to_string()
    );
    assert_eq!(output[length..], *b"#");
    let short = twin::convert(INPUT.as_bytes(), &mut output[..length - 1]);
    assert_eq!(short, Err(Fault::Room.at(0)));
}

#[test]
fn volumes_and_signs_of_the_sample() {
    let mut vertices = [0; 18];
    let mut elements = [0; 9];
    twin::read(INPUT.as_bytes(), &mut vertices, &mut elements).expect("a prism");
    let point = |vertex: u16| {
        let index = 3 * (vertex as usize - 1);
        [vertices[index], vertices[index + 1], vertices[index + 2]]
    };
    for tetrahedron in twin::cut_element(&elements).tetrahedra() {
        let [a, b, c, d] = tetrahedron.map(point);
        assert_eq!(twin::sixfold_volume(a, b, c, d), Ok(1_562_500_000));
        assert_eq!(twin::sixfold_volume(a, b, d, c), Ok(-1_562_500_000));
    }
    let signs = twin::signs(6, 1, &elements, &vertices);
    let three = Signs {
        positive: 3,
        ..Signs::default()
    };
    assert_eq!(signs, Ok(three));
    let short = twin::signs(6, 1, &elements, &vertices[..17]);
    assert_eq!(short, Err(Fault::Room.at(0)));
    vertices[17] = 500_001;
    let beyond = twin::signs(6, 1, &elements, &vertices);
    assert_eq!(beyond, Err(Fault::Range.at(6)));
}

#[test]
fn an_element_with_a_flat_tetrahedron_is_unsound() {
    // A pyramid of two tetrahedra, one of them flat, then one flat tetrahedron and one turned badly.
    let elements = [
        record(&[5, 1, 2, 3, 4, 5]),
        record(&[4, 6, 7, 8, 9]),
        record(&[4, 10, 12, 11, 13]),
    ]
    .concat();
    let vertices = [
        [[0, 0, 0], [1, 0, 0], [1, 1, 0], [2, 2, 0], [0, 0, 1]],
        [[0, 0, 0], [1, 0, 0], [0, 1, 0], [5, 5, 0], [0, 0, 0]],
        [[1, 0, 0], [0, 1, 0], [0, 0, 1], [0, 0, 0], [0, 0, 0]],
    ]
    .concat();
    let expected = Signs {
        positive: 1,
        zero: 2,
        negative: 1,
        unsound: 3,
    };
    let signs = twin::signs(13, 3, &elements, vertices.as_flattened());
    assert_eq!(signs, Ok(expected));
}

#[test]
fn greatest_volumes() {
    let far = 500_000;
    let [a, b, c, d] = [
        [-far, -far, -far],
        [far, far, -far],
        [-far, far, far],
        [far, -far, far],
    ];
    assert_eq!(
        twin::sixfold_volume(a, b, c, d),
        Ok(2_000_000_000_000_000_000)
    );
    assert_eq!(
        twin::sixfold_volume(a, c, b, d),
        Ok(-2_000_000_000_000_000_000)
    );
    let beyond = [0, far + 1, 0];
    assert_eq!(
        twin::sixfold_volume(a, b, beyond, beyond),
        Err(Fault::Range.at(3))
    );
    assert_eq!(
        twin::sixfold_volume([i32::MIN; 3], b, c, d),
        Err(Fault::Range.at(1))
    );
}

/// What a writer leaves in a buffer of just enough bytes; one byte less is ROOM and stores nothing.
fn written(write: impl Fn(&mut [u8]) -> twin::Answer<usize>) -> Result<String, [u64; 3]> {
    let mut buffer = [b'#'; 64];
    let length = write(&mut buffer).map_err(|no| no.numbers())?;
    assert!(buffer[length..].iter().all(|&byte| byte == b'#'));
    let mut short = vec![b'#'; length - 1];
    assert_eq!(write(&mut short), Err(Fault::Room.at(0)));
    assert!(short.iter().all(|&byte| byte == b'#'));
    Ok(String::from_utf8_lossy(&buffer[..length]).into_owned())
}

#[test]
fn writing() {
    let vertex = |x, y, z| written(|buffer| twin::write_vertex(x, y, z, buffer));
    assert_eq!(vertex(0, -5, 1250), Ok("VX 0.000 -0.005 1.250\n".into()));
    assert_eq!(
        vertex(500_000, -500_000, 1),
        Ok("VX 500.000 -500.000 0.001\n".into())
    );
    assert_eq!(vertex(0, 0, -500_001), Err([6, 1, 0]));
    assert_eq!(vertex(i32::MIN, 0, 0), Err([6, 1, 0]));

    let element = |numbers: &[u16]| {
        let record = record(numbers);
        written(|buffer| twin::write_element(&record, buffer))
    };
    assert_eq!(element(&[4, 4096, 3, 2, 10]), Ok("TE 4096 3 2 10\n".into()));
    assert_eq!(element(&[5, 1, 2, 3, 4, 5]), Ok("PY 1 2 3 4 5\n".into()));
    assert_eq!(
        element(&[6, 1, 2, 3, 4, 5, 6]),
        Ok("PR 1 2 3 4 5 6\n".into())
    );
    assert_eq!(
        element(&[8, 1, 2, 3, 4, 5, 6, 7, 8]),
        Ok("HX 1 2 3 4 5 6 7 8\n".into())
    );
    assert_eq!(element(&[7, 1, 2, 3, 4, 5, 6]), Err([11, 1, 0]));
    assert_eq!(element(&[4, 1, 2, 3, 4097]), Err([8, 1, 0]));
    assert_eq!(element(&[4, 1, 2, 3, 4, 5]), Err([12, 1, 0]));
    assert_eq!(element(&[4, 1, 2, 3, 1]), Err([13, 1, 0]));

    let end = |vertices, elements| written(|buffer| twin::write_end(vertices, elements, buffer));
    assert_eq!(end(0, 0), Ok("EN 0 0\n".into()));
    assert_eq!(end(4096, 6144), Ok("EN 4096 6144\n".into()));
    assert_eq!(end(4097, 0), Err([7, 0, 0]));
    assert_eq!(end(0, 6145), Err([7, 0, 0]));

    let refusal = |fault, place, second| {
        let refusal = Refusal {
            fault,
            place,
            second,
        };
        written(|buffer| twin::write_refusal(&refusal, buffer))
    };
    assert_eq!(refusal(Fault::Join, 2, 1), Ok("NO 14 2 1\n".into()));
    assert_eq!(refusal(Fault::Long, 0, 0), Ok("NO 1 0 0\n".into()));
    assert_eq!(
        refusal(Fault::Join, usize::MAX, 10_usize.pow(19)),
        Ok("NO 14 18446744073709551615 10000000000000000000\n".into())
    );
}
