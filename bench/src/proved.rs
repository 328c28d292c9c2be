//! The proved decoder, as the static library exports it.

use crate::Decoded;
use crate::code::{Code, Edge, Entry};
use crate::field::Field;

#[repr(C)]
struct Shape {
    polynomial: u16,
    columns: u16,
    rows: u16,
    ceiling: u16,
    limit: u16,
    degree: u8,
    selective: bool,
}

unsafe extern "C" {
    fn dizmulec_decode(
        shape: &Shape,
        edges: *const Edge,
        edge_count: usize,
        entries: *const Entry,
        entry_count: usize,
        costs: *const u16,
        cost_count: usize,
        area: *mut u16,
        area_words: usize,
        distances: *mut u16,
        distance_count: usize,
        words: *mut u8,
        symbol_count: usize,
        decoded: *mut Decoded,
        frame_count: usize,
    ) -> usize;
}

pub struct Proved<'a> {
    code: &'a Code,
    shape: Shape,
    area: Vec<u16>,
}

impl<'a> Proved<'a> {
    pub fn new(field: &Field, code: &'a Code, selective: bool) -> Proved<'a> {
        let shape = Shape {
            polynomial: field.polynomial,
            columns: code.columns as u16,
            rows: code.rows as u16,
            ceiling: code.ceiling,
            limit: code.limit,
            degree: field.degree,
            selective,
        };
        let words = field.order * (2 * code.columns + 2 * code.edges.len() + 36);
        Proved { code, shape, area: vec![0; words] }
    }

    pub fn set_limit(&mut self, limit: u16) {
        self.shape.limit = limit;
    }

    /// Decodes the frames one after another, and tells how many; the distances are those of the last.
    pub fn decode(&mut self, costs: &[u16], distances: &mut [u16], words: &mut [u8], decoded: &mut [Decoded]) -> usize {
        // Each slice is passed as it stands, so the library gets what its parameters say.
        unsafe {
            dizmulec_decode(
                &self.shape,
                self.code.edges.as_ptr(),
                self.code.edges.len(),
                self.code.entries.as_ptr(),
                self.code.entries.len(),
                costs.as_ptr(),
                costs.len(),
                self.area.as_mut_ptr(),
                self.area.len(),
                distances.as_mut_ptr(),
                distances.len(),
                words.as_mut_ptr(),
                words.len(),
                decoded.as_mut_ptr(),
                decoded.len(),
            )
        }
    }
}
