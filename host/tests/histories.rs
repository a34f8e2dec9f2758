// The model over long made histories, against a second account that knows the rows' names without reading blobs.

use host::gen::{put_number, Rng};
use host::sheet::{Asked, Model, BAD, CLEAN, EMPTY, LEANS, LOOP};

/// What was filed last in a row: nothing, a bad blob, or one that names these rows.
#[derive(Clone)]
enum Filed {
    Nothing,
    Bad,
    Names(Vec<usize>),
}

impl Filed {
    fn blob(&self) -> Vec<u8> {
        let Filed::Names(names) = self else {
            return vec![0x08, 0x08];
        };
        let mut blob = Vec::new();
        for (turn, &name) in names.iter().enumerate() {
            blob.push(0x1F + turn as u8 % 2);
            put_number(&mut blob, name as u32 * 4 + 6);
        }
        blob.push(0x08);
        blob
    }
}

/// The second account: what was filed, what reaches what by it, and the marks.
struct Account {
    rows: Vec<Filed>,
    reach: Vec<Vec<bool>>,
    marks: Vec<u32>,
}

fn closure(rows: &[Filed]) -> Vec<Vec<bool>> {
    let size = rows.len();
    let mut reach = vec![vec![false; size]; size];
    for (from, filed) in rows.iter().enumerate() {
        if let Filed::Names(names) = filed {
            names.iter().for_each(|&to| reach[from][to] = true);
        }
    }
    for middle in 0..size {
        let onward = reach[middle].clone();
        for reached in reach.iter_mut().filter(|reached| reached[middle]) {
            for (to, &further) in reached.iter_mut().zip(&onward) {
                *to |= further;
            }
        }
    }
    reach
}

impl Account {
    fn new(rows: Vec<Filed>) -> Account {
        Account {
            reach: closure(&rows),
            marks: vec![0; rows.len()],
            rows,
        }
    }

    fn standing(&self, row: usize) -> u32 {
        let shaky =
            |other: usize| !matches!(self.rows[other], Filed::Names(_)) || self.reach[other][other];
        let reached = &self.reach[row];
        match self.rows[row] {
            Filed::Nothing => EMPTY,
            Filed::Bad => BAD,
            _ if reached[row] => LOOP,
            _ if (0..self.rows.len()).any(|other| reached[other] && shaky(other)) => LEANS,
            _ => CLEAN,
        }
    }

    fn asked(&self, row: usize) -> Asked {
        let standing = self.standing(row);
        let (finding, place) = if standing == BAD { (9, 1) } else { (0, 0) };
        Asked {
            code: 0,
            standing,
            finding,
            place,
            mark: self.marks[row],
        }
    }

    fn asked_all(&self) -> Vec<Asked> {
        (0..self.rows.len()).map(|row| self.asked(row)).collect()
    }

    fn acknowledge(&mut self, row: usize) -> u32 {
        match self.standing(row) {
            EMPTY | CLEAN => 17,
            _ if self.marks[row] == 1 => 18,
            _ => {
                self.marks[row] = 1;
                0
            }
        }
    }

    fn file(&mut self, row: usize, filed: Filed) {
        for (other, mark) in self.marks.iter_mut().enumerate() {
            if other == row || self.reach[other][row] {
                *mark = 0;
            }
        }
        self.rows[row] = filed;
        self.reach = closure(&self.rows);
    }
}

fn any_names(rng: &mut Rng, size: usize, most: usize) -> Filed {
    let names = (0..rng.below(most + 1)).map(|_| rng.below(size));
    Filed::Names(names.collect())
}

/// A bad blob in one of six filings.
fn any_filing(rng: &mut Rng, size: usize, most: usize) -> Filed {
    match rng.below(6) {
        0 => Filed::Bad,
        _ => any_names(rng, size, most),
    }
}

#[test]
fn histories() {
    let mut rng = Rng::new(3);
    let mut seen = [0; 5];
    for _ in 0..300 {
        let size = 1 + rng.below(7);
        let (mut model, code) = Model::open(0, 0, size as u32, size * 16);
        assert_eq!(code, 0);
        let mut account = Account::new(vec![Filed::Nothing; size]);
        for _ in 0..60 {
            let row = rng.below(size);
            let number = row as u32 + 1;
            if rng.below(2) == 0 {
                assert_eq!(model.acknowledge(number), account.acknowledge(row));
            } else {
                let filed = any_filing(&mut rng, size, 2);
                assert_eq!(model.file(number, &filed.blob()), 0);
                account.file(row, filed);
            }
            assert_eq!(model.acknowledge(0), 16);
            assert_eq!(model.file(size as u32 + 1, &[0x08]), 16);
            let expected = account.asked_all();
            assert_eq!(model.ask_all(), expected);
            for (number, &expected) in (1..).zip(&expected) {
                seen[expected.standing as usize] += 1;
                assert_eq!(model.ask(number), expected);
            }
        }
    }
    assert!(seen.iter().all(|&times| times > 100), "{seen:?}");
}

/// What a large register begins with: a few rows empty, a few bad. Of the others each names the next row, and a few one before; or, where
/// `most` is not 0, each names up to so many at random.
fn beginning(rng: &mut Rng, size: usize, most: usize) -> Vec<Filed> {
    (0..size)
        .map(|row| match rng.below(200) {
            0 => Filed::Nothing,
            1 => Filed::Bad,
            _ if most > 0 => any_names(rng, size, most),
            2 => Filed::Names(vec![rng.below(row + 1)]),
            _ => Filed::Names((row + 1..size).take(1).collect()),
        })
        .collect()
}

/// Acknowledgements and refilings in turn; gives how many marks the refilings took.
fn large_history(rng: &mut Rng, mut model: Model, mut account: Account) -> usize {
    let size = account.rows.len();
    let mut taken = 0;
    for _ in 0..16 {
        for _ in 0..size / 8 {
            let row = rng.below(size);
            let number = row as u32 + 1;
            assert_eq!(model.acknowledge(number), account.acknowledge(row));
            assert_eq!(model.ask(number), account.asked(row));
        }
        let row = rng.below(size);
        let filed = match (rng.below(2), &account.rows[row]) {
            (0, Filed::Names(names)) => Filed::Names(names.clone()),
            _ => any_filing(rng, size, 4),
        };
        let marked = account.marks.iter().sum::<u32>();
        assert_eq!(model.file(row as u32 + 1, &filed.blob()), 0);
        account.file(row, filed);
        taken += (marked - account.marks.iter().sum::<u32>()) as usize;
        assert_eq!(model.ask_all(), account.asked_all());
    }
    taken
}

#[test]
fn large_histories() {
    let mut rng = Rng::new(8);
    let mut seen = [0; 5];
    let mut taken = 0;
    for size in [65, 128, 511, 512] {
        for most in [0, 0, 1, 4] {
            let (mut model, code) = Model::open(0, 0, size as u32, size * 16);
            assert_eq!(code, 0);
            let account = Account::new(beginning(&mut rng, size, most));
            for (number, filed) in (1..).zip(&account.rows) {
                if !matches!(filed, Filed::Nothing) {
                    assert_eq!(model.file(number, &filed.blob()), 0);
                }
            }
            let asked = model.ask_all();
            assert_eq!(asked, account.asked_all());
            for row in asked {
                seen[row.standing as usize] += 1;
            }
            taken += large_history(&mut rng, model, account);
        }
    }
    assert!(seen.iter().all(|&times| times > 10), "{seen:?}");
    assert!(taken > 1000, "only {taken} marks were taken by filings");
}
