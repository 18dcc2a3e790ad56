// The bay of six joints and five members, from Rust: prints what its factor will need. include/downskillet.h says what
// each call does.

const ORDER: usize = 6;

#[repr(C)]
#[derive(Clone, Copy, Default)]
struct Vertex {
    held: [u64; 5],
}

#[repr(C)]
#[derive(Clone, Copy, Default)]
struct Entry {
    first: u16,
    second: u16,
    held: [u16; 2],
}

type Answer = unsafe extern "C" fn(*const Vertex, usize, *mut u32, usize) -> u32;

#[rustfmt::skip]
unsafe extern "C" {
    fn downskillet_vertex_bytes() -> usize;
    fn downskillet_entry_bytes() -> usize;
    fn downskillet_analyse(
        order: u32, pairs: *const u32, pair_count: usize, vertices: *mut Vertex, vertex_count: usize,
        entries: *mut Entry, entry_count: usize, links: *mut u32, link_count: usize, total: *mut u64,
    ) -> u32;
    fn downskillet_structure(
        order: u32, vertices: *mut Vertex, vertex_count: usize, entries: *mut Entry, entry_count: usize,
        links: *mut u32, link_count: usize, starts: *mut u32, start_count: usize, rows: *mut u32, row_count: usize,
    ) -> u32;
    fn downskillet_parents(vertices: *const Vertex, order: usize, parents: *mut u32, length: usize) -> u32;
    fn downskillet_places(vertices: *const Vertex, order: usize, places: *mut u32, length: usize) -> u32;
    fn downskillet_first_places(vertices: *const Vertex, order: usize, places: *mut u32, length: usize) -> u32;
    fn downskillet_heights(vertices: *const Vertex, order: usize, heights: *mut u32, length: usize) -> u32;
    fn downskillet_row_counts(vertices: *const Vertex, order: usize, counts: *mut u32, length: usize) -> u32;
    fn downskillet_column_counts(vertices: *const Vertex, order: usize, counts: *mut u32, length: usize) -> u32;
}

// The tables that are lent for one pattern.
struct Tables {
    vertices: [Vertex; ORDER],
    entries: Vec<Entry>,
    links: [u32; ORDER],
}

fn accept(refusal: u32) -> Result<(), u32> {
    if refusal == 0 { Ok(()) } else { Err(refusal) }
}

impl Tables {
    fn new(pairs: usize) -> Tables {
        Tables { vertices: [Vertex::default(); ORDER], entries: vec![Entry::default(); pairs], links: [0; ORDER] }
    }

    // The total of the pattern with these pairs.
    fn analyse(&mut self, pairs: &[[u32; 2]]) -> Result<u64, u32> {
        let mut total = 0;
        accept(unsafe {
            downskillet_analyse(
                ORDER as u32,
                pairs.as_ptr().cast(),
                pairs.len(),
                self.vertices.as_mut_ptr(),
                ORDER,
                self.entries.as_mut_ptr(),
                self.entries.len(),
                self.links.as_mut_ptr(),
                ORDER,
                &mut total,
            )
        })?;
        Ok(total)
    }

    fn copy(&self, answer: Answer) -> Result<[u32; ORDER], u32> {
        let mut numbers = [0; ORDER];
        accept(unsafe { answer(self.vertices.as_ptr(), ORDER, numbers.as_mut_ptr(), ORDER) })?;
        Ok(numbers)
    }

    fn structure(&mut self, total: u64) -> Result<(Vec<u32>, Vec<u32>), u32> {
        let (mut starts, mut rows) = (vec![0; ORDER + 1], vec![0; total as usize - ORDER]);
        accept(unsafe {
            downskillet_structure(
                ORDER as u32,
                self.vertices.as_mut_ptr(),
                ORDER,
                self.entries.as_mut_ptr(),
                self.entries.len(),
                self.links.as_mut_ptr(),
                ORDER,
                starts.as_mut_ptr(),
                starts.len(),
                rows.as_mut_ptr(),
                rows.len(),
            )
        })?;
        Ok((starts, rows))
    }
}

fn show(name: &str, numbers: &[u32]) {
    print!("{name:13}");
    numbers.iter().for_each(|number| print!(" {number}"));
    println!();
}

fn main() -> Result<(), u32> {
    let sizes = unsafe { (downskillet_vertex_bytes(), downskillet_entry_bytes()) };
    assert_eq!(sizes, (size_of::<Vertex>(), size_of::<Entry>()), "the library is not that of this program");
    let pairs = [[1, 4], [3, 2], [2, 5], [6, 3], [4, 6]];
    let mut tables = Tables::new(pairs.len());
    let total = tables.analyse(&pairs)?;
    let answers: [(&str, Answer); 6] = [
        ("parents", downskillet_parents),
        ("places", downskillet_places),
        ("first places", downskillet_first_places),
        ("heights", downskillet_heights),
        ("row counts", downskillet_row_counts),
        ("column counts", downskillet_column_counts),
    ];
    for (name, answer) in answers {
        show(name, &tables.copy(answer)?);
    }
    println!("{:13} {total}", "total");
    let (starts, rows) = tables.structure(total)?;
    show("starts", &starts);
    show("rows", &rows);
    Ok(())
}
