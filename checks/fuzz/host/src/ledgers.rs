//! A ledger of any bytes: it is refused and left as it is, or the bill is the one without it.

use std::fs;
use std::path::PathBuf;

use crate::Harness;
use crate::house::House;
use crate::output::Status;

const HOLDINGS: &[u8] = b"tenant,key,film\n1,0123456789ABCDEF,b.usm\n2,FEDCBA9876543210,c.usm\n3,FF23456789ABCDEF,b.usm\n4,,a.usm\n5,1,a.usm\n6,1,b.usm\n";

/// Writes a ledger of this house where FUZZ_SEEDS says: what fuzzing begins with.
fn write_seed(ledger: &PathBuf) {
    if let Some(folder) = std::env::var_os("FUZZ_SEEDS") {
        fs::copy(ledger, PathBuf::from(folder).join("ledger")).expect("a seed");
    }
}

fn fuzz(house: &House, ledger: &PathBuf, right: &[u8], input: &[u8]) {
    fs::write(ledger, input).expect("a ledger in memory");
    let (status, printed) = house.bill(HOLDINGS, Some(ledger));
    if status == Status::Failed {
        assert!(printed.is_empty(), "a bill beside an error");
        assert_eq!(fs::read(ledger).expect("the ledger"), input, "a ledger that is refused was changed");
    } else {
        assert_eq!(printed, right, "another bill with the ledger");
    }
    for more in ["-journal", "-wal", "-shm"] {
        let mut path = ledger.clone().into_os_string();
        path.push(more);
        let _ = fs::remove_file(path);
    }
}

pub fn harness() -> Harness {
    let house = House::new("ledgers");
    let (status, right) = house.bill(HOLDINGS, None);
    assert!(status == Status::Success, "the house has no bill");
    let ledger = house.folder.join("ledger");
    let (status, printed) = house.bill(HOLDINGS, Some(&ledger));
    assert!(status == Status::Success && printed == right, "the first ledger");
    write_seed(&ledger);
    Box::new(move |input| fuzz(&house, &ledger, &right, input))
}
