//! The header's inline functions as symbols of the archive, called from another language. tests/c/helpers.c compares
//! them with bytes and calls; that the archive has each of them, .ci/suite shows.
use crate::{Run, Test};
use std::ffi::{c_char, CStr};
use std::ptr;

pub const TESTS: &[Test] = &[("symbols: what the header defines inline", called)];

#[repr(C)]
struct Fault {
    refusal: u32,
    fault: u32,
    kind: u32,
    at: u32,
    face: u32,
}

extern "C" {
    fn vejgodat_refusal_text(refusal: u32) -> *const c_char;
    fn vejgodat_mesh_set_header(mesh: *mut u8, dimension: u32, trees: u32);
    fn vejgodat_mesh_set_tree(mesh: *mut u8, tree: u32, shape: u32);
    fn vejgodat_mesh_set_link(mesh: *mut u8, tree: u32, face: u32, neighbour: u32, neighbour_face: u32, orientation: u32);
    fn vejgodat_mesh_trees(mesh: *const u8) -> u32;
    fn vejgodat_mesh_fault(mesh: *const u8, mesh_len: usize) -> Fault;
    fn vejgodat_write_fault(fault: Fault, text: *mut c_char, text_len: usize) -> usize;
    fn vejgodat_next_message(messages: *const u8, messages_len: usize, at: *mut usize) -> *const u8;
}

/// Two triangles that meet, the link back then turned; and a walk over one empty message.
fn called(run: &mut Run) {
    let mut mesh = vec![0; 8 + 2 * 64];
    unsafe {
        vejgodat_mesh_set_header(mesh.as_mut_ptr(), 2, 2);
        vejgodat_mesh_set_tree(mesh.as_mut_ptr(), 0, 1);
        vejgodat_mesh_set_tree(mesh.as_mut_ptr(), 1, 1);
        vejgodat_mesh_set_link(mesh.as_mut_ptr(), 0, 2, 1, 0, 1);
        assert_eq!(vejgodat_mesh_trees(mesh.as_ptr()), 2);
    }
    assert_eq!(run.calls.check_mesh(&mesh), 0);
    mesh[72 + 32] ^= 4;
    let mut text = [b'?'; 40];
    let length = unsafe {
        let fault = vejgodat_mesh_fault(mesh.as_ptr(), mesh.len());
        vejgodat_write_fault(fault, text.as_mut_ptr() as *mut c_char, text.len())
    };
    assert_eq!(&text[..length + 1], b"tree 0, face 2: link not answered\0");
    let refusal = unsafe { CStr::from_ptr(vejgodat_refusal_text(22)) };
    assert_eq!(refusal.to_str(), Ok("a buffer is too short"));

    let (message, mut at) = ([0; 33], 0);
    unsafe {
        assert_eq!(vejgodat_next_message(message.as_ptr(), 33, &mut at), message.as_ptr());
        assert_eq!(at, 32);
        assert_eq!(vejgodat_next_message(message.as_ptr(), 33, &mut at), ptr::null());
    }
}
