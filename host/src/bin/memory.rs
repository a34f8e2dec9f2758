// Some thousand damaged blobs and tables through the archive, each in memory of exactly its size: for a run under valgrind, which then sees any byte
// read or written outside of what is lent, and any that is read before it was set.

use host::ffi;
use host::gen::{damage_blob, damage_table, grammar_made, Rng};

const SEED: u64 = 335;
const CASES: usize = 20_000;

fn main() {
    let mut rng = Rng::new(SEED);
    let mut codes = [0u32; 16];
    for _ in 0..CASES {
        let mut case = grammar_made(&mut rng, 15);
        if rng.below(2) == 0 {
            damage_blob(&mut rng, &mut case.blob);
        }
        let blob = case.blob.clone().into_boxed_slice();
        let (judged, place) = ffi::judge(case.kind, case.counts, &blob);
        let records = if judged == 0 {
            place as usize
        } else {
            rng.below(8)
        };
        let lent = 6 * records.saturating_sub(rng.below(4)) + rng.below(6);
        let mut table = vec![0; lent].into_boxed_slice();
        let (read, nodes) = ffi::read(case.kind, case.counts, &blob, &mut table);
        codes[read as usize] += 1;
        if read != 0 {
            continue;
        }
        let mut table = table[..6 * nodes as usize].to_vec();
        if rng.below(2) == 0 {
            damage_table(&mut rng, &mut table);
        }
        let mut out = vec![0; blob.len().saturating_sub(rng.below(3))].into_boxed_slice();
        let (written, _) = ffi::write(case.kind, case.counts, &table.into_boxed_slice(), &mut out);
        codes[written as usize] += 1;
    }
    println!("memory: {CASES} blobs, answers 0 to 15 this often: {codes:?}");
}
