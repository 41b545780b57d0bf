//! The script check: its refusals in table order, and its answer.

use crate::script::columns::Matrix;
use crate::script::form::check_length;
use crate::script::records::{self, Script, QUERY_A, QUERY_B};
use crate::script::rules::{Paper, Rules};
use crate::vocabulary::{self, check_vocabulary, Refusal};

/// The script check: the number of steps, or the first refusal.
pub fn check_script(vocabulary: &[u8], script: &[u8]) -> Result<usize, Refusal> {
    check_by(&Paper, vocabulary, script)
}

/// The script check by other rules.
pub fn check_by<R: Rules + ?Sized>(rules: &R, vocabulary: &[u8], script: &[u8]) -> Result<usize, Refusal> {
    check_vocabulary(vocabulary)?;
    check_length(script)?;
    let vocabulary = vocabulary::records::records(vocabulary);
    let records = records::decode(script);
    let header = records::at(&records, 0);
    let script = Script {
        matrix: Matrix {
            statements: rules.statements(&vocabulary),
            records: vocabulary,
            query: [header[QUERY_A], header[QUERY_B]],
        },
        records,
    };
    rules.form(&script)?;
    rules.run(&script)
}
