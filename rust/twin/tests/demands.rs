//! What the cut, the reader and the writer promise together, over random meshes.

use brinetoggle_twin::random::{
    self, FileCase, Grid, Mesh, Random, Style, TableCase, case_count, file_case, limit_files,
    limit_tables, mirrored, relisted, rotations, table_case,
};
use brinetoggle_twin::twin::{
    self, Counts, Fault, Record, Refusal, Signs, Solid, Tetrahedron, Triangle,
};
use std::cell::{Cell, RefCell};
use std::collections::{BTreeMap, BTreeSet, HashMap};

/// Meshes of several sizes, each with its case for printing.
fn each_mesh(seed: u64, count: usize, check: impl Fn(&Mesh, &mut Random, &TableCase)) {
    let mut random = Random::new(seed);
    for index in 0..case_count(count) {
        let mesh = if index % 200 == 199 {
            random::large_mesh(&mut random)
        } else {
            random::mesh(&mut random)
        };
        let case = TableCase::of("a mesh that fits", &mesh);
        check(&mesh, &mut random, &case);
    }
}

/// The tetrahedra of a mesh that is accepted.
fn cut(mesh: &Mesh) -> Result<Vec<Tetrahedron>, Refusal> {
    let mut output = vec![0; 4 * 6 * mesh.elements.len()];
    let table = mesh.element_table();
    let count = twin::cut(
        mesh.vertices.len(),
        mesh.elements.len(),
        &table,
        &mut output,
    )?;
    Ok(output[..4 * count].as_chunks().0.to_vec())
}

/// The signs of a mesh that is accepted.
fn signs(mesh: &Mesh) -> Signs {
    let (vertices, elements) = (mesh.vertex_table(), mesh.element_table());
    twin::signs(
        mesh.vertices.len(),
        mesh.elements.len(),
        &elements,
        &vertices,
    )
    .expect("it fits")
}

fn solid_of(element: &Record) -> Solid {
    Solid::of_kind(element[0]).expect("a solid")
}

/// A cycle turned so that its lowest number stands first.
fn turned(cycle: &[u16]) -> Vec<u16> {
    let mut cycle = cycle.to_vec();
    let lowest = (0..cycle.len()).min_by_key(|&step| cycle[step]);
    cycle.rotate_left(lowest.unwrap_or(0));
    cycle
}

fn side(p: u16, q: u16, r: u16) -> Triangle {
    turned(&[p, q, r]).try_into().expect("three numbers")
}

fn reversed([p, q, r]: Triangle) -> Triangle {
    side(p, r, q)
}

/// The four sides of a tetrahedron, counterclockwise seen from outside.
fn sides([a, b, c, d]: Tetrahedron) -> [Triangle; 4] {
    [side(b, c, d), side(a, d, c), side(a, b, d), side(a, c, b)]
}

/// The faces of a mesh as cycles, by their vertices.
fn faces(mesh: &Mesh) -> BTreeMap<Vec<u16>, Vec<Vec<u16>>> {
    let mut faces: BTreeMap<Vec<u16>, Vec<Vec<u16>>> = BTreeMap::new();
    for element in &mesh.elements {
        for face in solid_of(element).faces() {
            let cycle: Vec<u16> = face.iter().map(|&place| element[place]).collect();
            let mut vertices = cycle.clone();
            vertices.sort_unstable();
            faces.entry(vertices).or_default().push(turned(&cycle));
        }
    }
    faces
}

/// The triangles of the faces of only one element, each cut from its lowest number.
fn cut_outer_faces(mesh: &Mesh) -> BTreeSet<Triangle> {
    let mut triangles = BTreeSet::new();
    for cycles in faces(mesh).values() {
        if let [cycle] = &cycles[..] {
            for pair in cycle[1..].windows(2) {
                triangles.insert(side(cycle[0], pair[0], pair[1]));
            }
        }
    }
    triangles
}

#[test]
fn rotations_are_as_many_as_the_page_says() {
    let counts = Solid::ALL.map(|solid| rotations(solid).len());
    assert_eq!(counts, [12, 4, 6, 24]);
}

#[test]
fn generated_meshes_fit_and_have_every_solid() {
    let found = RefCell::new(BTreeMap::new());
    each_mesh(1, 2000, |mesh, _, case| {
        let verdict = twin::judge(case.vertex_count, case.element_count, &case.elements);
        assert_eq!(verdict, Ok(()), "{case}");
        let kinds: BTreeSet<u16> = mesh.elements.iter().map(|element| element[0]).collect();
        for kind in kinds {
            *found.borrow_mut().entry(kind).or_insert(0) += 1;
        }
    });
    let found = found.into_inner();
    println!("meshes with a kind: {found:?}");
    for kind in [4, 5, 6, 8] {
        let meshes = found.get(&kind).copied().unwrap_or(0);
        assert!(meshes >= case_count(2000) / 8, "kind {kind}");
    }
}

#[test]
fn each_side_once_and_single_sides_are_the_cut_outer_faces() {
    each_mesh(2, 2000, |mesh, _, case| {
        let tetrahedra = cut(mesh).expect("it fits");
        let mut owners: HashMap<Triangle, usize> = HashMap::new();
        for (index, tetrahedron) in tetrahedra.iter().enumerate() {
            for side in sides(*tetrahedron) {
                assert_eq!(owners.insert(side, index), None, "{side:?} twice in {case}");
            }
        }
        let mut single = BTreeSet::new();
        for (side, owner) in &owners {
            match owners.get(&reversed(*side)) {
                None => assert!(single.insert(*side)),
                Some(other) => assert_ne!(owner, other, "{side:?} in {case}"),
            }
        }
        assert_eq!(single, cut_outer_faces(mesh), "{case}");
    });
}

#[test]
fn faces_of_an_accepted_mesh_have_at_most_two_elements() {
    each_mesh(3, 500, |mesh, _, case| {
        for cycles in faces(mesh).values() {
            assert!(cycles.len() <= 2, "{cycles:?} in {case}");
        }
    });
}

#[test]
fn relisting_by_a_rotation_leaves_the_tetrahedra() {
    let mut random = Random::new(4);
    for _ in 0..case_count(5000) {
        let element = random::random_record(&mut random, 12);
        let block = twin::cut_element(&element);
        for rotation in rotations(solid_of(&element)) {
            let listed = relisted(&element, rotation);
            let other = twin::cut_element(&listed);
            assert_eq!(
                block.tetrahedra(),
                other.tetrahedra(),
                "{element:?} as {listed:?}"
            );
        }
    }
}

#[test]
fn relisting_a_whole_mesh_leaves_its_cut() {
    each_mesh(5, 1000, |mesh, random, case| {
        let mut relisted_mesh = mesh.clone();
        for element in &mut relisted_mesh.elements {
            let rotations = rotations(solid_of(element));
            *element = relisted(element, &rotations[random.below(rotations.len())]);
        }
        assert_eq!(cut(mesh), cut(&relisted_mesh), "{case}");
    });
}

#[test]
fn cut_of_one_element_is_written_and_ascending() {
    let mut random = Random::new(6);
    let mut lengths = BTreeMap::new();
    for _ in 0..case_count(20_000) {
        let element = random::random_record(&mut random, 30);
        let block = twin::cut_element(&element);
        let tetrahedra = block.tetrahedra();
        for [a, b, c, d] in tetrahedra {
            assert!(a < b && b < c && b < d && c != d, "{element:?}");
            for vertex in [a, b, c, d] {
                assert!(element[1..].contains(vertex), "{element:?}");
            }
        }
        assert!(tetrahedra.is_sorted_by(|a, b| a < b), "{element:?}");
        *lengths.entry((element[0], tetrahedra.len())).or_insert(0) += 1;
    }
    println!("tetrahedra of a kind: {lengths:?}");
    let found: Vec<_> = lengths.into_keys().collect();
    assert_eq!(found, [(4, 1), (5, 2), (6, 3), (8, 5), (8, 6)]);
}

#[test]
fn reordering_elements_moves_their_blocks() {
    each_mesh(7, 1000, |mesh, random, case| {
        let mut moved = mesh.clone();
        random.shuffle(&mut moved.elements);
        let blocks = |mesh: &Mesh| -> Vec<Tetrahedron> {
            let block = |element| twin::cut_element(element).tetrahedra().to_vec();
            mesh.elements.iter().flat_map(block).collect()
        };
        assert_eq!(cut(mesh), Ok(blocks(mesh)), "{case}");
        assert_eq!(cut(&moved), Ok(blocks(&moved)), "{case}");
    });
}

/// A mesh written record by record.
fn written(mesh: &Mesh) -> Vec<u8> {
    let mut text = Vec::new();
    let mut buffer = [0; 64];
    for [x, y, z] in &mesh.vertices {
        let length = twin::write_vertex(*x, *y, *z, &mut buffer).expect("a vertex");
        text.extend_from_slice(&buffer[..length]);
    }
    for element in &mesh.elements {
        let length = twin::write_element(element, &mut buffer).expect("an element");
        text.extend_from_slice(&buffer[..length]);
    }
    let (vertices, elements) = (mesh.vertices.len(), mesh.elements.len());
    let length = twin::write_end(vertices, elements, &mut buffer).expect("counts");
    text.extend_from_slice(&buffer[..length]);
    text
}

/// A file read into tables of exactly the length it needs.
fn read(text: &[u8]) -> Result<Mesh, Refusal> {
    let mut vertices = vec![0; 3 * 4096];
    let mut elements = vec![0; 9 * 1024];
    let counts = twin::read(text, &mut vertices, &mut elements)?;
    Ok(Mesh {
        vertices: vertices[..3 * counts.vertices].as_chunks().0.to_vec(),
        elements: elements[..9 * counts.elements].as_chunks().0.to_vec(),
    })
}

#[test]
fn what_is_written_reads_back() {
    each_mesh(8, 1000, |mesh, random, case| {
        let texts = [
            written(mesh),
            random::plain_text(mesh),
            random::free_text(mesh, random),
        ];
        assert_eq!(texts[0], texts[1], "{case}");
        for text in texts {
            let expected = if text.len() > twin::FILE_LIMIT {
                Err(Fault::Long.at(0))
            } else {
                Ok(mesh.clone())
            };
            assert_eq!(read(&text), expected, "{case}");
        }
    });
}

#[test]
fn conversion_writes_the_cut_of_what_it_reads() {
    each_mesh(9, 1000, |mesh, _, case| {
        let tetrahedra = cut(mesh).expect("it fits");
        let record = |&[a, b, c, d]: &Tetrahedron| [4, a, b, c, d, 0, 0, 0, 0];
        let cut_mesh = Mesh {
            vertices: mesh.vertices.clone(),
            elements: tetrahedra.iter().map(record).collect(),
        };
        let input = written(mesh);
        let expected = written(&cut_mesh);
        let mut output = vec![b'#'; expected.len() + 3];
        let answer = twin::convert(&input, &mut output);
        if input.len() > twin::FILE_LIMIT {
            assert_eq!(answer, Err(Fault::Long.at(0)), "{case}");
            return;
        }
        assert_eq!(answer, Ok(expected.len()), "{case}");
        assert_eq!(output[..expected.len()], expected[..], "{case}");
        assert_eq!(output[expected.len()..], *b"###", "{case}");
        let mut short = vec![b'#'; expected.len() - 1];
        let answer = twin::convert(&input, &mut short);
        assert_eq!(answer, Err(Fault::Room.at(0)), "{case}");
        assert!(short.iter().all(|&byte| byte == b'#'), "{case}");
    });
}

#[test]
fn a_cut_mesh_is_its_own_cut() {
    let cuts = Cell::new(0);
    each_mesh(10, 1000, |mesh, _, case| {
        let tetrahedra = cut(mesh).expect("it fits");
        if tetrahedra.len() > twin::ELEMENT_LIMIT {
            return;
        }
        let record = |&[a, b, c, d]: &Tetrahedron| [4, a, b, c, d, 0, 0, 0, 0];
        let cut_mesh = Mesh {
            vertices: mesh.vertices.clone(),
            elements: tetrahedra.iter().map(record).collect(),
        };
        assert_eq!(cut(&cut_mesh), Ok(tetrahedra), "{case}");
        let text = written(&cut_mesh);
        if text.len() <= twin::FILE_LIMIT {
            let mut output = vec![0; text.len()];
            assert_eq!(twin::convert(&text, &mut output), Ok(text.len()), "{case}");
            assert_eq!(output, text, "{case}");
            cuts.set(cuts.get() + 1);
        }
    });
    assert!(cuts.get() > case_count(1000) / 2);
}

#[test]
fn signs_count_the_cut_and_change_sides_inside_out() {
    let flat = Cell::new(0);
    each_mesh(11, 1000, |mesh, _, case| {
        let point = |vertex: u16| mesh.vertices[vertex as usize - 1];
        let mut expected = Signs::default();
        for element in &mesh.elements {
            let block = twin::cut_element(element);
            let volumes = block.tetrahedra().iter().map(|tetrahedron| {
                let [a, b, c, d] = tetrahedron.map(point);
                wide_volume(a, b, c, d)
            });
            let volumes: Vec<i128> = volumes.collect();
            expected.positive += volumes.iter().filter(|volume| **volume > 0).count();
            expected.zero += volumes.iter().filter(|volume| **volume == 0).count();
            expected.negative += volumes.iter().filter(|volume| **volume < 0).count();
            expected.unsound += volumes.iter().any(|volume| *volume <= 0) as usize;
        }
        flat.set(flat.get() + (expected.zero > 0 && expected.negative == 0) as usize);
        assert_eq!(signs(mesh), expected, "{case}");
        let mut other = mesh.clone();
        other.elements = mesh.elements.iter().map(mirrored).collect();
        let inside_out = signs(&other);
        assert_eq!(inside_out.positive, expected.negative, "{case}");
        assert_eq!(inside_out.negative, expected.positive, "{case}");
        assert_eq!(inside_out.zero, expected.zero, "{case}");
    });
    assert!(flat.get() > 0, "no mesh is unsound by zeros alone");
}

/// The sixfold volume by the six products of the determinant, in 128 bits.
fn wide_volume(a: [i32; 3], b: [i32; 3], c: [i32; 3], d: [i32; 3]) -> i128 {
    let row = |p: [i32; 3]| [0, 1, 2].map(|k| i128::from(p[k]) - i128::from(a[k]));
    let rows = [row(b), row(c), row(d)];
    let product = |[i, j, k]: [usize; 3]| rows[0][i] * rows[1][j] * rows[2][k];
    product([0, 1, 2]) + product([1, 2, 0]) + product([2, 0, 1])
        - product([2, 1, 0])
        - product([1, 0, 2])
        - product([0, 2, 1])
}

#[test]
fn volumes_agree_with_wide_ones() {
    let mut random = Random::new(12);
    for _ in 0..case_count(50_000) {
        let reach = random.pick(&[1, 10, 500_000]);
        let corner = random.once_in(4);
        let [a, b, c, d] = [[0; 3]; 4].map(|point: [i32; 3]| {
            point.map(|_| {
                if corner {
                    random.pick(&[-reach, reach])
                } else {
                    random.between(-reach, reach)
                }
            })
        });
        let volume = twin::sixfold_volume(a, b, c, d).expect("within the limits");
        assert_eq!(
            i128::from(volume),
            wide_volume(a, b, c, d),
            "{a:?} {b:?} {c:?} {d:?}"
        );
        assert!(volume.abs() <= 6_000_000_000_000_000_000);
    }
}

#[test]
fn straight_blocks_are_filled_by_positive_tetrahedra() {
    let mut random = Random::new(13);
    for _ in 0..case_count(500) {
        let mut grid = Grid::random(&mut random, [3, 3, 3]);
        grid.ring = false;
        let mesh = grid.mesh(1000, &mut random);
        let case = TableCase::of("a straight block", &mesh);
        let report = signs(&mesh);
        assert_eq!(
            (report.zero, report.negative, report.unsound),
            (0, 0, 0),
            "{case}"
        );
        let tetrahedra = cut(&mesh).expect("it fits");
        let volumes = tetrahedra.iter().map(|tetrahedron| {
            let [a, b, c, d] = tetrahedron.map(|vertex| mesh.vertices[vertex as usize - 1]);
            twin::sixfold_volume(a, b, c, d).expect("within the limits")
        });
        let cells: usize = grid.size.iter().product();
        assert_eq!(volumes.sum::<i64>(), 6_000_000_000 * cells as i64, "{case}");
    }
}

#[test]
fn every_style_gives_its_solids() {
    let mut random = Random::new(14);
    let mut kinds_of = |style| {
        let grid = Grid {
            size: [4, 4, 4],
            style,
            ring: false,
            seed: 5,
        };
        let mesh = grid.mesh(1000, &mut random);
        let kinds: BTreeSet<u16> = mesh.elements.iter().map(|element| element[0]).collect();
        kinds.into_iter().collect::<Vec<u16>>()
    };
    assert_eq!(kinds_of(Style::Whole), [5, 8]);
    for axis in 0..3 {
        assert_eq!(kinds_of(Style::Columns(axis)), [4, 5, 6, 8]);
    }
    assert_eq!(kinds_of(Style::Cones), [4, 5]);
    assert_eq!(kinds_of(Style::Mixed(0)), [4]);
    assert_eq!(kinds_of(Style::Mixed(7)), [4, 5, 8]);
}

/// Reads a case into tables full of canaries; afterwards only the records of an accepted file differ.
fn checked_read(case: &FileCase) -> Result<Counts, Refusal> {
    let mut vertices = vec![i32::MIN; case.vertex_room];
    let mut elements = vec![u16::MAX; case.element_room];
    let answer = twin::read(&case.bytes, &mut vertices, &mut elements);
    let counts = answer.unwrap_or_default();
    let (used, rest) = vertices.split_at(3 * counts.vertices);
    assert!(used.iter().all(|&number| number != i32::MIN), "{case}");
    assert!(rest.iter().all(|&number| number == i32::MIN), "{case}");
    let (used, rest) = elements.split_at(9 * counts.elements);
    assert!(used.iter().all(|&number| number != u16::MAX), "{case}");
    assert!(rest.iter().all(|&number| number == u16::MAX), "{case}");
    answer
}

/// Converts a case into an output of the slack it asks for, which is left alone on a refusal.
fn checked_convert(case: &FileCase) -> Result<usize, Refusal> {
    let mut ample = vec![0; 300_000];
    let expected = twin::convert(&case.bytes, &mut ample);
    let length = expected.unwrap_or(100);
    let room = length.saturating_add_signed(case.output_slack);
    let mut output = vec![b'#'; room];
    let answer = twin::convert(&case.bytes, &mut output);
    let stored = answer.unwrap_or(0);
    assert_eq!(output[..stored], ample[..stored], "{case}");
    assert!(output[stored..].iter().all(|&byte| byte == b'#'), "{case}");
    if expected.is_ok() && room < length {
        assert_eq!(answer, Err(Fault::Room.at(0)), "{case}");
    } else {
        assert_eq!(answer, expected, "{case}");
    }
    answer
}

/// Cuts a case into an output of the slack it asks for, which is left alone on a refusal.
fn checked_cut(case: &TableCase) -> Result<usize, Refusal> {
    let mut ample = vec![0; 4 * 6144];
    let (vertices, elements) = (case.vertex_count, case.element_count);
    let expected = twin::cut(vertices, elements, &case.elements, &mut ample);
    let length = 4 * expected.unwrap_or(10);
    let room = length.saturating_add_signed(case.output_slack);
    let mut output = vec![u16::MAX; room];
    let answer = twin::cut(vertices, elements, &case.elements, &mut output);
    let stored = 4 * answer.unwrap_or(0);
    assert_eq!(output[..stored], ample[..stored], "{case}");
    let rest = &output[stored..];
    assert!(rest.iter().all(|&number| number == u16::MAX), "{case}");
    if expected.is_ok() && room < length {
        assert_eq!(answer, Err(Fault::Room.at(0)), "{case}");
    } else {
        assert_eq!(answer, expected, "{case}");
    }
    answer
}

fn number<T>(answer: &Result<T, Refusal>) -> u64 {
    answer.as_ref().map_or_else(|no| no.fault.number(), |_| 0)
}

#[test]
fn refused_calls_store_nothing_and_every_refusal_occurs() {
    let mut random = Random::new(15);
    let count = case_count(10_000);
    let mut reading = BTreeMap::new();
    let mut converting = BTreeMap::new();
    let mut several = 0;
    let files = (0..count).map(|_| file_case(&mut random));
    for case in limit_files().into_iter().chain(files) {
        let read = checked_read(&case);
        several += read.is_ok_and(|counts| counts.elements > 1) as usize;
        *reading.entry(number(&read)).or_insert(0) += 1;
        let converted = checked_convert(&case);
        *converting.entry(number(&converted)).or_insert(0) += 1;
    }
    println!("reading: {reading:?}, {several} accepted with several elements");
    println!("converting: {converting:?}");
    assert!(several >= count / 2);
    let found: Vec<u64> = reading.into_keys().collect();
    assert_eq!(found, [0, 1, 2, 3, 4, 5, 6, 7, 8, 9, 10]);
    let found: Vec<u64> = converting.into_keys().collect();
    assert_eq!(found, [0, 1, 2, 3, 4, 5, 6, 7, 8, 9, 10, 13, 14]);
}

#[test]
fn tables_are_refused_alike_by_every_entry() {
    let mut random = Random::new(16);
    let count = case_count(10_000);
    let mut cutting = BTreeMap::new();
    let mut several = 0;
    let tables = (0..count).map(|_| table_case(&mut random));
    for case in limit_tables().into_iter().chain(tables) {
        let (vertices, elements) = (case.vertex_count, case.element_count);
        let verdict = twin::judge(vertices, elements, &case.elements);
        let cut = checked_cut(&case);
        let signs = twin::signs(vertices, elements, &case.elements, &case.vertices);
        match verdict {
            Err(refusal) => {
                assert_eq!(cut, Err(refusal), "{case}");
                assert_eq!(signs, Err(refusal), "{case}");
            }
            Ok(()) => check_accepted(&case, cut, signs),
        }
        several += (cut.is_ok() && elements > 1) as usize;
        *cutting.entry(number(&cut)).or_insert(0) += 1;
    }
    println!("cutting: {cutting:?}, {several} accepted with several elements");
    assert!(several >= count / 2);
    let found: Vec<u64> = cutting.into_keys().collect();
    assert_eq!(found, [0, 7, 8, 9, 11, 12, 13, 14]);
}

/// An accepted table is refused only for the lent output, the vertex table's room or its range.
fn check_accepted(case: &TableCase, cut: Result<usize, Refusal>, signs: Result<Signs, Refusal>) {
    if let Err(refusal) = cut {
        assert_eq!(refusal, Fault::Room.at(0), "{case}");
    }
    let needed = 3 * case.vertex_count;
    let beyond = |&value: &i32| !(-500_000..=500_000).contains(&value);
    let expected = if case.vertices.len() < needed {
        Some(Fault::Room.at(0))
    } else {
        let first = case.vertices[..needed].iter().position(beyond);
        first.map(|index| Fault::Range.at(index / 3 + 1))
    };
    match (signs, cut) {
        (Err(refusal), _) => assert_eq!(Some(refusal), expected, "{case}"),
        (Ok(signs), Ok(count)) => {
            assert_eq!(expected, None, "{case}");
            assert_eq!(
                signs.positive + signs.zero + signs.negative,
                count,
                "{case}"
            );
        }
        (Ok(_), Err(_)) => assert_eq!(expected, None, "{case}"),
    }
}

#[test]
fn first_bad_pair_is_found_among_all() {
    let mut random = Random::new(17);
    for _ in 0..case_count(3000) {
        let case = table_case(&mut random);
        let answer = twin::judge(case.vertex_count, case.element_count, &case.elements);
        let records: &[Record] = case.elements.as_chunks().0;
        let expected = |bound: usize| {
            let pairs = (0..bound).flat_map(|j| (0..j).map(move |i| (j, i)));
            pairs
                .filter(|&(j, i)| !twin::fits(&records[i], &records[j]))
                .map(|(j, i)| [14, j as u64 + 1, i as u64 + 1])
                .next()
        };
        match answer.map_err(|refusal| refusal.numbers()) {
            Ok(()) => assert_eq!(expected(case.element_count), None, "{case}"),
            Err(numbers @ [14, _, _]) => {
                assert_eq!(expected(case.element_count), Some(numbers), "{case}");
            }
            Err(_) => {}
        }
    }
}

#[test]
fn fit_agrees_with_its_statement() {
    let mut random = Random::new(18);
    let mut fitting = 0;
    let count = case_count(100_000);
    for _ in 0..count {
        let among = 8 + random.below(10);
        let [a, b] = [0; 2].map(|_| random::random_record(&mut random, among));
        let fits = twin::fits(&a, &b);
        assert_eq!(fits, stated_fit(&a, &b), "{a:?} {b:?}");
        assert_eq!(fits, twin::fits(&b, &a), "{a:?} {b:?}");
        fitting += fits as usize;
    }
    println!("{fitting} of {count} pairs fit");
    assert!(fitting > count / 50 && fitting < count);
}

/// Fit by sets: the common vertices, the edges and the cycles of both elements.
fn stated_fit(a: &Record, b: &Record) -> bool {
    let cycles = |element: &Record| -> BTreeSet<Vec<u16>> {
        let faces = solid_of(element).faces().iter();
        faces
            .map(|face| turned(&face.iter().map(|&p| element[p]).collect::<Vec<u16>>()))
            .collect()
    };
    let edges = |element: &Record| -> BTreeSet<BTreeSet<u16>> {
        let ring = |cycle: Vec<u16>| {
            let next = cycle[1..]
                .iter()
                .chain(&cycle[..1])
                .copied()
                .collect::<Vec<u16>>();
            cycle.into_iter().zip(next)
        };
        let sides = cycles(element).into_iter().flat_map(ring);
        sides.map(|(p, q)| BTreeSet::from([p, q])).collect()
    };
    let vertices = |element: &Record| -> BTreeSet<u16> {
        element[1..]
            .iter()
            .copied()
            .filter(|&vertex| vertex != 0)
            .collect()
    };
    let common: BTreeSet<u16> = &vertices(a) & &vertices(b);
    match common.len() {
        0 | 1 => true,
        2 => edges(a).contains(&common) && edges(b).contains(&common),
        _ => cycles(a).into_iter().any(|cycle| {
            let backwards: Vec<u16> = cycle.iter().rev().copied().collect();
            BTreeSet::from_iter(cycle) == common && cycles(b).contains(&turned(&backwards))
        }),
    }
}
