//! The classification: its refusals in order, its answer, and what it writes into the two buffers.

use crate::classification::taxonomy::{names, Order, Table, TABLE_BYTES};
use crate::comparison::{atoms, write_set, Set, Types, MOST_ATOMS, WRITTEN};
use crate::vocabulary::records::{records, Record};
use crate::vocabulary::{check_vocabulary, refuse_if, Refusal};

/// An answer that is no refusal.
#[derive(Clone, Debug, PartialEq, Eq)]
pub struct Classified {
    /// The survivors.
    pub survivors: Set,
    /// How many rounds removed something.
    pub rounds: usize,
    /// The table of nearest broader names.
    pub table: Table,
}

/// Classifies the names of a vocabulary, and writes the survivors into the first buffer, the table into the second.
pub fn classify(vocabulary: &[u8], survivors: &mut [u8], taxonomy: &mut [u8]) -> Result<Classified, Refusal> {
    check_vocabulary(vocabulary)?;
    let records = records(vocabulary);
    let k = atoms(&records).len();
    refuse_if(k > MOST_ATOMS, 11, k)?;
    let lent = survivors.first_chunk_mut::<WRITTEN>();
    let written = lent.ok_or(Refusal { number: 12, place: 0 })?;
    let lent = taxonomy.first_chunk_mut::<TABLE_BYTES>();
    let table = lent.ok_or(Refusal { number: 26, place: 0 })?;
    let classified = answer(records);
    write_set(&classified.survivors, written);
    *table = classified.table;
    Ok(classified)
}

/// The answer for the records of an accepted vocabulary.
fn answer(records: Vec<Record>) -> Classified {
    let types = Types::of(records);
    let (survivors, rounds) = types.survivors();
    let order = Order::at(&types, &names(&types.records), &survivors);
    Classified {
        survivors,
        rounds,
        table: order.table(),
    }
}
