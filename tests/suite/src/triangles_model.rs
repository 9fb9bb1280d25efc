//! A second implementation of the import of Triangle's element files, from document 02: lines, fields and numbers as they
//! stand there, and the faces of one vertex set gathered in an ordered map.
use crate::model::Answer;
use std::collections::BTreeMap;

pub const MAX_TRIANGLES: usize = 65_536;

/// A line's numbers; None where it isn't made of numbers.
fn numbers(line: &[u8]) -> Option<Vec<u32>> {
    let line = line.split(|&byte| byte == b'#').next().unwrap();
    let fields = line.split(|&byte| byte == b' ' || byte == b'\t').filter(|field| !field.is_empty());
    fields
        .map(|field| {
            let digits = (1..=8).contains(&field.len()) && field.iter().all(u8::is_ascii_digit);
            digits.then(|| std::str::from_utf8(field).unwrap().parse().unwrap())
        })
        .collect()
}

/// The vertices of each triangle, if the text has the form of an element file.
pub fn read(text: &[u8]) -> Option<Vec<[u32; 3]>> {
    let lines = text.strip_suffix(b"\n")?.split(|&byte| byte == b'\n');
    let rows: Vec<Vec<u32>> = lines.map(numbers).collect::<Option<_>>()?;
    let mut rows = rows.iter().filter(|row| !row.is_empty());
    let [count, 3, 0] = rows.next()?[..] else { return None };
    let mut triangles = Vec::new();
    let mut first = None;
    for row in rows {
        let [number, a, b, c] = row[..] else { return None };
        let first = *first.get_or_insert(number);
        if first > 1 || number as usize != first as usize + triangles.len() {
            return None;
        }
        triangles.push([a, b, c]);
    }
    ((1..=MAX_TRIANGLES).contains(&triangles.len()) && triangles.len() == count as usize).then_some(triangles)
}

/// The corners of face i, the lower-numbered first.
fn face(triangle: [u32; 3], i: usize) -> [u32; 2] {
    let corners: Vec<u32> = (0..3).filter(|&corner| corner != i).map(|corner| triangle[corner]).collect();
    [corners[0], corners[1]]
}

pub fn mesh(triangles: &[[u32; 3]]) -> Answer<Vec<u8>> {
    if triangles.iter().any(|[a, b, c]| a == b || b == c || a == c) {
        return Err(28);
    }
    let mut faces: BTreeMap<[u32; 2], Vec<(usize, usize)>> = BTreeMap::new();
    for (t, &triangle) in triangles.iter().enumerate() {
        for i in 0..3 {
            let mut set = face(triangle, i);
            set.sort_unstable();
            faces.entry(set).or_default().push((t, i));
        }
    }
    if faces.values().any(|of_one| of_one.len() > 2) {
        return Err(29);
    }
    let mut links: Vec<[(u32, u8); 3]> = (0..triangles.len()).map(|t| [0, 1, 2].map(|i| (t as u32, i))).collect();
    for of_one in faces.values() {
        if let [(t, i), (u, j)] = of_one[..] {
            let turned = u8::from(face(triangles[t], i)[0] != face(triangles[u], j)[0]);
            links[t][i] = (u as u32, 4 * turned + j as u8);
            links[u][j] = (t as u32, 4 * turned + i as u8);
        }
    }
    let mut mesh = Vec::with_capacity(8 + 64 * triangles.len());
    mesh.extend(2u32.to_le_bytes());
    mesh.extend((triangles.len() as u32).to_le_bytes());
    for (t, faces) in links.iter().enumerate() {
        mesh.extend((t as u32).to_le_bytes());
        mesh.extend([1, 0, 0, 0]);
        for (neighbour, _) in faces {
            mesh.extend(neighbour.to_le_bytes());
        }
        mesh.extend([255; 12]);
        mesh.extend(faces.map(|(_, code)| code));
        mesh.extend([0; 29]);
    }
    Ok(mesh)
}

pub fn import(text: &[u8], room: Option<usize>) -> Answer<Vec<u8>> {
    let mesh = mesh(&read(text).ok_or(27u32)?)?;
    if room.is_some_and(|room| room < mesh.len()) {
        return Err(22);
    }
    Ok(mesh)
}
