//! A store moves between threads, and several threads read one at the same time.
mod common;

use common::desk::{token, Desk};
use common::{bits, numbers, row_size, scores, shape};
use dice::Dice;
use karonjeenu::{Format, Store};
use std::thread;

fn moves_and_is_shared<T: Send + Sync>(_: &T) {}

#[test]
fn threads_that_read_one_store_get_the_same_bits() {
    let shape = shape(Format::Int4);
    let mut dice = Dice::new(30);
    let mut desk = Desk::open(shape);
    for _ in 0..shape.capacity {
        desk.put(token(&mut dice, shape, numbers::plains));
    }
    let query = numbers::plains(&mut dice, shape.head_size);
    moves_and_is_shared(&desk.store);
    let ask = || bits(&scores(&desk.store, 0, 1, &query, 0.5));
    let wanted = ask();
    thread::scope(|scope| {
        let readers: Vec<_> = (0..4).map(|_| scope.spawn(ask)).collect();
        for reader in readers {
            assert_eq!(reader.join().expect("it ends"), wanted);
        }
    });
}

#[test]
fn store_is_filled_in_one_thread_and_cut_in_another() {
    let shape = shape(Format::Int8);
    let empty = Store::open(shape).expect("a shape inside the limits");
    let mut store = empty.clone();
    let row = vec![1.0; row_size(shape)];
    let filled = thread::spawn(move || {
        store.append(1, &row, &row).expect("room for it");
        store
    });
    let mut store = filled.join().expect("it ends");
    assert_ne!(store, empty);
    store.truncate_to(1, 0).expect("a layer");
    assert_eq!(store, empty);
}
