//! A drafting desk: a document, what was withdrawn from it, and the store that follows both.
use super::row_size;
use dice::Dice;
use karonjeenu::{Shape, Store};
use std::slice;

/// What a token puts into one layer.
#[derive(Clone)]
pub struct Row {
    pub keys: Vec<f32>,
    pub values: Vec<f32>,
}

/// What a token puts into each layer.
pub type Token = Vec<Row>;

/// A token of random numbers, plain or wild as they are drawn.
pub fn token(dice: &mut Dice, shape: Shape, draw: fn(&mut Dice, usize) -> Vec<f32>) -> Token {
    let row = |_| Row {
        keys: draw(dice, row_size(shape)),
        values: draw(dice, row_size(shape)),
    };
    (0..shape.layers).map(row).collect()
}

/// Appends to each layer its rows of all tokens, in one call.
fn append(store: &mut Store, tokens: &[Token]) {
    for layer in 0..store.shape().layers {
        let rows = || tokens.iter().map(|token| &token[layer]);
        let keys: Vec<f32> = rows().flat_map(|row| row.keys.clone()).collect();
        let values: Vec<f32> = rows().flat_map(|row| row.values.clone()).collect();
        store.append(layer, &keys, &values).expect("room for it");
    }
}

fn advance(store: &mut Store, count: usize) {
    let count = u32::try_from(count).expect("few tokens");
    store.advance_seq_len(count).expect("few tokens");
}

pub struct Desk {
    pub store: Store,
    pub text: Vec<Token>,
    pub withdrawn: Vec<Token>,
}

impl Desk {
    pub fn open(shape: Shape) -> Desk {
        Desk {
            store: Store::open(shape).expect("a shape inside the limits"),
            text: Vec::new(),
            withdrawn: Vec::new(),
        }
    }

    /// Types a token; what was withdrawn before can no longer come back.
    pub fn put(&mut self, token: Token) {
        append(&mut self.store, slice::from_ref(&token));
        advance(&mut self.store, 1);
        self.text.push(token);
        self.withdrawn.clear();
    }

    /// Cuts every layer back to the first `kept` tokens.
    pub fn undo(&mut self, kept: usize) {
        for layer in 0..self.store.shape().layers {
            self.store.truncate_to(layer, kept).expect("a layer");
        }
        let mut cut = self.text.split_off(kept);
        cut.append(&mut self.withdrawn);
        self.withdrawn = cut;
    }

    /// Appends the first `count` withdrawn tokens again.
    pub fn redo(&mut self, count: usize) {
        let again: Vec<Token> = self.withdrawn.drain(..count).collect();
        append(&mut self.store, &again);
        advance(&mut self.store, count);
        self.text.extend(again);
    }

    /// A newly opened store with the document's rows, and with `seq_len` as it is here, since a cut leaves that alone.
    pub fn fresh(&self) -> Store {
        let mut fresh = Store::open(self.store.shape()).expect("the same shape");
        append(&mut fresh, &self.text);
        let seq_len = self.store.seq_len();
        fresh.advance_seq_len(seq_len).expect("from 0");
        fresh
    }
}
