//! The functions of the proved library as C sees them; `include/brinetoggle.h` says what each does.
//!
//! A pointer to lent memory is never null and is aligned for its type, also where its length is 0, and memory
//! that is written overlaps no other memory of the same call. The answer array is written whole by every call.

unsafe extern "C" {
    pub fn brine_read(
        file: *const u8,
        file_length: usize,
        vertices: *mut i32,
        vertices_length: usize,
        elements: *mut u16,
        elements_length: usize,
        answer: *mut [u64; 5],
    ) -> u32;

    pub fn brine_judge(
        vertex_count: usize,
        element_count: usize,
        elements: *const u16,
        elements_length: usize,
        answer: *mut [u64; 3],
    ) -> u32;

    pub fn brine_cut(
        vertex_count: usize,
        element_count: usize,
        elements: *const u16,
        elements_length: usize,
        tetrahedra: *mut u16,
        tetrahedra_length: usize,
        answer: *mut [u64; 4],
    ) -> u32;

    pub fn brine_signs(
        vertex_count: usize,
        element_count: usize,
        elements: *const u16,
        elements_length: usize,
        vertices: *const i32,
        vertices_length: usize,
        answer: *mut [u64; 7],
    ) -> u32;

    pub fn brine_write_vertex(
        x: i32,
        y: i32,
        z: i32,
        buffer: *mut u8,
        buffer_length: usize,
        answer: *mut [u64; 4],
    ) -> u32;

    pub fn brine_write_element(
        record: *const [u16; 9],
        buffer: *mut u8,
        buffer_length: usize,
        answer: *mut [u64; 4],
    ) -> u32;

    pub fn brine_write_end(
        vertices: usize,
        elements: usize,
        buffer: *mut u8,
        buffer_length: usize,
        answer: *mut [u64; 4],
    ) -> u32;

    pub fn brine_convert(
        input: *const u8,
        input_length: usize,
        output: *mut u8,
        output_length: usize,
        answer: *mut [u64; 4],
    ) -> u32;
}
