//! Steps 1 and 2: unpaired, passed over, names, R1 and R2.

use super::wrong::Wrong;
use super::{Fate, Fates, Reader, give};
use crate::model::{Family, Record};

fn has(record: &Record, flag: u16) -> bool {
    record.flags & flag != 0
}

impl Reader {
    /// The entered records, R1's side and R2's side, each in the order of the names.
    pub(super) fn pairs(&self, family: &Family, fates: &mut Fates) -> [Vec<usize>; 2] {
        for (record, fields) in family.records.iter().enumerate() {
            if let Some(fate) = self.first_step(fields) {
                give(fates, record, fate);
            }
        }
        let remaining: Vec<usize> =
            (0..family.records.len()).filter(|&record| fates[record].is_none()).collect();
        let mut sides = [Vec::new(), Vec::new()];
        for name in self.names(family, &remaining) {
            let with_name = remaining.iter().copied();
            let with_name: Vec<usize> =
                with_name.filter(|&record| family.records[record].name == name).collect();
            match self.pair(family, &with_name) {
                Some([r1, r2]) => {
                    sides[0].push(r1);
                    sides[1].push(r2);
                    with_name[2..].iter().for_each(|&r| give(fates, r, Fate::Reason(2)));
                }
                None => with_name.iter().for_each(|&r| give(fates, r, Fate::Reason(2))),
            }
        }
        if self.misreads(Wrong::SidesByRecord) {
            sides.iter_mut().for_each(|side| side.sort_unstable());
        }
        sides
    }

    fn first_step(&self, record: &Record) -> Option<Fate> {
        let beside = if self.misreads(Wrong::SupplementaryStays) { 256 } else { 256 + 2048 };
        if self.misreads(Wrong::UnpairedSecondary) && has(record, beside) {
            return Some(Fate::PassedOver);
        }
        match (has(record, 1), has(record, beside)) {
            (false, _) => Some(Fate::Reason(1)),
            (true, true) => Some(Fate::PassedOver),
            (true, false) => None,
        }
    }

    fn names(&self, family: &Family, remaining: &[usize]) -> Vec<u32> {
        let all: Vec<usize> = (0..family.records.len()).collect();
        let looked = if self.misreads(Wrong::NamesAmongAll) { &all } else { remaining };
        let mut names: Vec<u32> = Vec::new();
        for &record in looked {
            let name = family.records[record].name;
            if !names.contains(&name) {
                names.push(name);
            }
        }
        names
    }

    fn pair(&self, family: &Family, with_name: &[usize]) -> Option<[usize; 2]> {
        let [earlier, later] = match with_name {
            [earlier, later] => [*earlier, *later],
            [earlier, later, _] if self.misreads(Wrong::ThirdRecordLeft) => [*earlier, *later],
            _ => return None,
        };
        let earlier_is_r1 = match self.misreads(Wrong::LaterFirstFlag) {
            true => !has(&family.records[later], 64),
            false => has(&family.records[earlier], 64),
        };
        let [r1, r2] = if earlier_is_r1 { [earlier, later] } else { [later, earlier] };
        let judged = match self.0 {
            Some(Wrong::LaterVerdict) => later,
            Some(Wrong::R1Verdict) => r1,
            _ => earlier,
        };
        family.records[judged].verdict.then_some([r1, r2])
    }
}
