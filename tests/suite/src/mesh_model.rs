//! The second implementation of whole meshes: every record is decoded first, then document 01's sentences are checked
//! one by one, each on the whole mesh.
use crate::model::MAX_TREES;
use std::collections::BTreeSet;

pub const UNUSED: u32 = u32::MAX;

pub const MAX_REGION: u16 = 4_095;

/// The dimension of each shape, and the corners of each of its faces.
pub const SHAPES: [(u32, &[u32]); 6] = [
    (2, &[2, 2, 2, 2]),
    (2, &[2, 2, 2]),
    (3, &[4, 4, 4, 4, 4, 4]),
    (3, &[3, 3, 3, 3]),
    (3, &[4, 4, 4, 3, 3]),
    (3, &[3, 3, 3, 3, 4]),
];

/// The sentence that a mesh breaks.
#[derive(Clone, Copy, Debug, PartialEq, Eq, PartialOrd, Ord)]
pub enum Fault {
    /// dimension 2 or 3
    Dimension,
    /// K in its limits
    Limits,
    /// exact length
    Length,
    /// K tree records in order
    Order,
    /// shape 0 to 5
    Shape,
    /// zero bytes zero
    Zeros,
    /// region up to 4,095
    Region,
    /// unused faces marked so
    Unused,
    /// boundaries with orientation 0, and a link from a face to itself is the boundary only
    Boundary,
    /// shapes of the dimension
    OtherDimension,
    /// orientation below the corners of the face
    Orientation,
    /// both faces with as many corners
    Corners,
    /// each link answered by the neighbour's link back with the same orientation
    Answer,
}

#[derive(Clone, Copy, Debug, PartialEq, Eq)]
pub struct Link {
    pub neighbour: u32,
    pub face: u32,
    pub orientation: u32,
}

#[derive(Clone, Debug, PartialEq, Eq)]
pub struct Record {
    pub number: u32,
    pub shape: u8,
    pub zeros: [u8; 3],
    pub region: u16,
    pub neighbours: [u32; 6],
    pub codes: [u8; 6],
}

/// The 32-bit number at a place.
pub fn number_at(bytes: &[u8], at: usize) -> u32 {
    u32::from_le_bytes(bytes[at..at + 4].try_into().unwrap())
}

impl Record {
    pub fn decode(bytes: &[u8]) -> Record {
        let zeros = [bytes[5], bytes[6], bytes[7]];
        let region = u16::from_le_bytes([bytes[38], bytes[39]]);
        let neighbours = [8, 12, 16, 20, 24, 28].map(|at| number_at(bytes, at));
        let codes = bytes[32..38].try_into().unwrap();
        Record { number: number_at(bytes, 0), shape: bytes[4], zeros, region, neighbours, codes }
    }

    /// The 40 bytes of a core record.
    pub fn core(&self) -> Vec<u8> {
        let neighbours: Vec<u8> = self.neighbours.iter().flat_map(|number| number.to_le_bytes()).collect();
        let number = self.number.to_le_bytes();
        let region = self.region.to_le_bytes();
        let bytes = [&number, &[self.shape][..], &self.zeros, &neighbours, &self.codes, &region].concat();
        assert_eq!(bytes.len(), 40);
        bytes
    }

    /// The 64 bytes of a tree record.
    pub fn encode(&self, data: &[u8]) -> Vec<u8> {
        let bytes = [&self.core(), data].concat();
        assert_eq!(bytes.len(), 64);
        bytes
    }

    /// The corners of each of its faces; it has none where there is no such shape.
    pub fn faces(&self) -> &'static [u32] {
        SHAPES.get(self.shape as usize).map_or(&[], |shape| shape.1)
    }

    /// F of its own shape.
    pub fn face_limit(&self) -> u32 {
        if self.shape < 2 {
            4
        } else {
            6
        }
    }

    /// The neighbours across the faces that the shape has.
    pub fn met(&self) -> &[u32] {
        &self.neighbours[..self.faces().len()]
    }

    pub fn link(&self, face: usize) -> Link {
        let code = u32::from(self.codes[face]);
        let limit = self.face_limit();
        Link { neighbour: self.neighbours[face], face: code % limit, orientation: code / limit }
    }
}

/// Every sentence that the mesh breaks: none where it is sound. Records are read only where there are K of them.
pub fn faults(bytes: &[u8]) -> BTreeSet<Fault> {
    let mut faults = BTreeSet::new();
    if bytes.len() < 8 {
        return BTreeSet::from([Fault::Length]);
    }
    let (dimension, trees) = (number_at(bytes, 0), number_at(bytes, 4));
    if dimension != 2 && dimension != 3 {
        faults.insert(Fault::Dimension);
    }
    if trees < 1 || trees as usize > MAX_TREES {
        faults.insert(Fault::Limits);
    }
    if bytes.len() as u128 != 8 + 64 * u128::from(trees) {
        faults.insert(Fault::Length);
    }
    if faults.contains(&Fault::Limits) || faults.contains(&Fault::Length) {
        return faults;
    }
    let records: Vec<Record> = bytes[8..].chunks(64).map(Record::decode).collect();
    assert_eq!(records.len(), trees as usize);

    if records.iter().enumerate().any(|(k, record)| record.number as usize != k) {
        faults.insert(Fault::Order);
    }
    if records.iter().any(|record| record.shape > 5) {
        faults.insert(Fault::Shape);
    }
    if records.iter().any(|record| record.zeros != [0; 3]) {
        faults.insert(Fault::Zeros);
    }
    if records.iter().any(|record| record.region > MAX_REGION) {
        faults.insert(Fault::Region);
    }
    let marked = |record: &Record, face: usize| record.neighbours[face] == UNUSED && record.codes[face] == 0;
    if records.iter().any(|record| (record.faces().len()..6).any(|face| record.shape <= 5 && !marked(record, face))) {
        faults.insert(Fault::Unused);
    }
    if records.iter().any(|record| record.shape <= 5 && SHAPES[record.shape as usize].0 != dimension) {
        faults.insert(Fault::OtherDimension);
    }
    for (k, record) in records.iter().enumerate() {
        for (face, &corners) in record.faces().iter().enumerate() {
            let link = record.link(face);
            let own = [k as u32, record.number].contains(&link.neighbour);
            if own && link.face as usize == face && link.orientation != 0 {
                faults.insert(Fault::Boundary);
            }
            if link.orientation >= corners {
                faults.insert(Fault::Orientation);
            }
            // no neighbour, or no such face of it: nothing there has corners or answers
            let neighbour = records.get(link.neighbour as usize);
            let other = neighbour.and_then(|neighbour| neighbour.faces().get(link.face as usize));
            if other != Some(&corners) {
                faults.insert(Fault::Corners);
            }
            let back = Link { neighbour: k as u32, face: face as u32, orientation: link.orientation };
            let answer = neighbour.filter(|_| other.is_some()).map(|neighbour| neighbour.link(link.face as usize));
            if answer != Some(back) {
                faults.insert(Fault::Answer);
            }
        }
    }
    faults
}
