// Every real blob of kinds 0 to 4 of the sample is accepted, and comes back from its table.

use host::reference::{read, write};
use host::sample;

#[test]
fn real_blobs_are_accepted() {
    let Some(lines) = sample::load() else {
        println!("no sample file: nothing tested");
        return;
    };
    let mut table = vec![0; 1024 * 6];
    let mut out = vec![0; 4096];
    let mut real = 0;
    for line in &lines {
        let case = &line.case;
        if line.module >= 8000 || case.kind > 4 {
            continue;
        }
        let (code, place) = read(case.kind, case.counts, &case.blob, &mut table);
        assert_eq!(code, 0, "{code} at {place}: {case:02X?}");
        let records = &table[..place as usize * 6];
        let (code, length) = write(case.kind, case.counts, records, &mut out);
        assert_eq!(code, 0, "{case:02X?}");
        assert_eq!(out[..length as usize], case.blob[..]);
        real += 1;
    }
    assert!(real > 700, "only {real} real blobs in the sample");
}
