//! Meshes that go to other threads.

mod common;

use common::*;
use dcel::operations::*;
use std::thread;

#[test]
fn a_mesh_goes_to_another_thread_and_back() {
    let mut dcel = round();
    dcel = thread::spawn(move || {
        flip_cw(&mut dcel, u(0)).unwrap();
        dcel
    })
    .join()
    .unwrap();
    assert!(dcel.sanity_check());
    drop(thread::spawn(move || drop(dcel)).join());
}

#[test]
fn threads_share_links() {
    let links = round().links();
    thread::scope(|scope| {
        for vertex in 0..4 {
            let links = &links;
            scope.spawn(move || assert_eq!(links.out_edges(v(vertex)).count(), 3));
        }
    });
}
