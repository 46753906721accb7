//! The rows that survive the accepted calls of a sequence.
use crate::calls::Call;
use crate::record::Shape;
use crate::replies::Place;

/// The surviving rows of one layer, each side as an append takes it.
#[derive(Clone, Debug, Default, PartialEq)]
pub struct Rows {
    pub keys: Vec<u32>,
    pub values: Vec<u32>,
}

/// The surviving rows of every layer.
pub struct Survivors {
    head_size: usize,
    position: usize,
    layers: Vec<Rows>,
}

impl Survivors {
    /// Those of a store that was just opened: none.
    pub fn new(shape: &Shape) -> Survivors {
        Survivors {
            head_size: shape.head_size as usize,
            position: shape.position_numbers() as usize,
            layers: vec![Rows::default(); shape.layers as usize],
        }
    }

    /// Takes in a call that was accepted; a layer that the store does not have keeps nothing.
    pub fn accept(&mut self, call: &Call) {
        match call {
            Call::Append {
                layer,
                keys,
                values,
            } => {
                if let Some(rows) = self.layers.get_mut(*layer as usize) {
                    rows.keys.extend(keys);
                    rows.values.extend(values);
                }
            }
            Call::Truncate { layer, to } => {
                let kept = (*to as usize).saturating_mul(self.position);
                if let Some(rows) = self.layers.get_mut(*layer as usize) {
                    rows.keys.truncate(kept);
                    rows.values.truncate(kept);
                }
            }
            _ => {}
        }
    }

    /// The rows of a layer that is there.
    pub fn of_layer(&self, layer: u32) -> &Rows {
        &self.layers[layer as usize]
    }

    /// Whether no layer has more than so many numbers a side.
    pub fn fit(&self, most: usize) -> bool {
        self.layers.iter().all(|rows| rows.keys.len() <= most)
    }

    /// The numbers of one row as they were appended, where it survives.
    pub fn row(&self, place: Place) -> Option<&[u32]> {
        let rows = self.layers.get(place.layer as usize)?;
        let side = [&rows.keys, &rows.values][place.side as usize];
        let [head, position] = [place.head, place.position].map(|x| x as usize);
        let start = position * self.position + head * self.head_size;
        side.get(start..start + self.head_size)
    }
}

#[cfg(test)]
mod tests {
    use super::*;
    use crate::record::F32;

    /// Survivors of two layers of two heads of one number.
    fn survivors() -> Survivors {
        Survivors::new(&Shape {
            format: F32,
            layers: 2,
            heads: 2,
            head_size: 1,
            capacity: 4,
        })
    }

    fn append(layer: u32, keys: &[u32], values: &[u32]) -> Call {
        Call::Append {
            layer,
            keys: keys.to_vec(),
            values: values.to_vec(),
        }
    }

    fn truncate(layer: u32, to: u32) -> Call {
        Call::Truncate { layer, to }
    }

    fn rows(keys: &[u32], values: &[u32]) -> Rows {
        Rows {
            keys: keys.to_vec(),
            values: values.to_vec(),
        }
    }

    /// What survives some accepted calls, layer by layer.
    fn surviving(calls: &[Call]) -> [Rows; 2] {
        let mut survivors = survivors();
        for call in calls {
            survivors.accept(call);
        }
        [0, 1].map(|layer| survivors.of_layer(layer).clone())
    }

    #[test]
    fn an_append_adds_its_rows_at_the_end_of_its_layer() {
        let calls = [
            append(1, &[1, 2, 3, 4], &[5, 6, 7, 8]),
            append(1, &[], &[]),
            append(1, &[9, 10], &[11, 12]),
        ];
        let whole = rows(&[1, 2, 3, 4, 9, 10], &[5, 6, 7, 8, 11, 12]);
        assert_eq!(surviving(&calls), [rows(&[], &[]), whole]);
    }

    #[test]
    fn a_truncation_keeps_the_first_positions_of_its_layer() {
        let fill = [
            append(0, &[1, 2, 3, 4], &[5, 6, 7, 8]),
            append(1, &[1, 2], &[3, 4]),
        ];
        let whole = rows(&[1, 2, 3, 4], &[5, 6, 7, 8]);
        for (to, kept) in [
            (0, rows(&[], &[])),
            (1, rows(&[1, 2], &[5, 6])),
            (2, whole.clone()),
            (3, whole.clone()),
            (u32::MAX, whole.clone()),
        ] {
            let calls = [&fill[..], &[truncate(0, to)]].concat();
            assert_eq!(surviving(&calls), [kept, rows(&[1, 2], &[3, 4])]);
        }
    }

    #[test]
    fn rows_appended_after_a_truncation_stand_in_the_removed_places() {
        let calls = [
            append(0, &[1, 2, 3, 4], &[5, 6, 7, 8]),
            truncate(0, 1),
            append(0, &[9, 10, 11, 12], &[13, 14, 15, 16]),
            truncate(0, 2),
        ];
        let kept = rows(&[1, 2, 9, 10], &[5, 6, 13, 14]);
        assert_eq!(surviving(&calls), [kept, rows(&[], &[])]);
    }

    #[test]
    fn other_calls_and_other_layers_leave_the_survivors() {
        let calls = [
            append(0, &[1, 2], &[3, 4]),
            append(2, &[5, 6], &[7, 8]),
            truncate(2, 0),
            Call::Advance { count: 1 },
            Call::MemoryBytes,
        ];
        assert_eq!(surviving(&calls), [rows(&[1, 2], &[3, 4]), rows(&[], &[])]);
    }

    #[test]
    fn a_row_is_found_by_its_place_while_it_survives() {
        let mut survivors = survivors();
        survivors.accept(&append(0, &[1, 2, 3, 4], &[5, 6, 7, 8]));
        let row = |survivors: &Survivors, side, head, position| {
            let place = Place {
                layer: 0,
                side,
                head,
                position,
            };
            survivors.row(place).map(|row| row.to_vec())
        };
        assert_eq!(row(&survivors, 0, 1, 0), Some(vec![2]));
        assert_eq!(row(&survivors, 0, 0, 1), Some(vec![3]));
        assert_eq!(row(&survivors, 1, 1, 1), Some(vec![8]));
        survivors.accept(&truncate(0, 1));
        assert_eq!(row(&survivors, 1, 1, 1), None);
    }
}
