//! Random files of either form, whole and damaged.

use crate::encode::{self, Field};
use crate::generate::files::{turn_join, wrong_values};
use crate::generate::queries::Extent;
use crate::generate::rows;
use crate::query::Query;
use crate::random::Random;
use crate::stated::{Form, Stated};

/// A random file of the form: whole, or damaged once or twice.
pub fn file(random: &mut Random, extent: &Extent, form: Form) -> Vec<u8> {
    let stated = rows::stated(random, extent, form);
    let damages = random.pick(&[0, 0, 0, 1, 1, 2]);
    damaged(random, &stated, damages)
}

/// The query's file with so many random damages.
pub fn damaged(random: &mut Random, stated: &Stated, damages: usize) -> Vec<u8> {
    let query = &stated.query;
    let (mut file, fields) = encode::encode_with_fields(stated);
    // A cut or an insertion moves the fields, so those damages come last.
    for damage in 1..=damages {
        match random.below(10) {
            0 | 1 if !query.joins().is_empty() => damage_join(random, &mut file, query),
            7.. if damage == damages => damage_bytes(random, &mut file),
            _ => {
                let field = random.pick(&fields);
                damage_field(random, &mut file, field);
            }
        }
    }
    file
}

fn damage_field(random: &mut Random, file: &mut [u8], field: Field) {
    let value = match random.below(4) {
        0 => random.number(),
        1 => field.read(file) + 1,
        _ => {
            let wrong = wrong_values(file, &field);
            if wrong.is_empty() {
                0
            } else {
                random.pick(&wrong)
            }
        }
    };
    field.write(file, value);
}

/// A join with other ends, both of them relations of the query.
fn damage_join(random: &mut Random, file: &mut [u8], query: &Query) {
    let n = query.relations.len();
    let (join, first) = (random.below(n - 1), random.below(n));
    let second = if random.percent(30) { first } else { random.below(n) };
    turn_join(file, query, join, first, second);
}

fn damage_bytes(random: &mut Random, file: &mut Vec<u8>) {
    let place = random.below(file.len());
    match random.below(6) {
        0 => file.truncate(place),
        1 => file[place] ^= 1 << random.below(8),
        2 => file.insert(place, random.number() as u8),
        3 => {
            file.remove(place);
        }
        4 => {
            let more = random.between(1, 20);
            file.extend((0..more).map(|_| random.number() as u8));
        }
        _ => {
            for byte in file[place..].iter_mut() {
                *byte = random.number() as u8;
            }
        }
    }
}
