//! The plan of programs: how a dump goes into the flash, as docs/FLASH.md tells the driver to write it. Whatever is counted, timed or
//! shown of programs is from here.
//!
//! Every page of the image is programmed once, and what makes it an image goes last ([`Commit`]). A dump begins on a page of its own.

use clap::ValueEnum;

use super::units::{Time, PICOS_A_SECOND};

/// What is programmed last: until it stands in the flash, a restore refuses the image.
#[derive(Clone, Copy, Debug, Default, PartialEq, Eq, ValueEnum)]
pub enum Commit {
    /// The header's first 8 bytes (mark, K, version, D), left erased until then, in a program of their own
    #[default]
    Mark,
    /// The page that holds the mark, whole: for parts that detect or exclude a torn page
    Page,
    /// A unit of the driver's own behind the image: for program units above 8 bytes
    Seal,
}

/// The bytes of a seal, where no program unit is told.
pub const SEAL: u64 = 16;

impl Commit {
    /// Programs beside those of the image's pages.
    fn programs(self) -> u64 {
        match self {
            Commit::Mark | Commit::Seal => 1,
            Commit::Page => 0,
        }
    }
}

/// What a data sheet says of the part.
#[derive(Clone, Copy, Debug, PartialEq, Eq)]
pub enum Flash {
    /// Bytes of a page, the time that a program of one takes, and how many programs of a dump may have to be repeated.
    Pages { size: u64, time: Time, repeats: u64 },
    /// Bytes a second.
    Rate(u64),
}

/// How one dump is written.
#[derive(Clone, Copy, Debug, PartialEq, Eq)]
pub struct Plan {
    pub flash: Flash,
    pub commit: Commit,
    /// The time of the commit's own program; left out, that of a page, and none where there are no pages.
    pub commit_time: Option<Time>,
    /// The bytes of a program unit, which a seal takes.
    pub unit: u64,
    /// Erasing the area of a dump after the supply fell; none where it was erased ahead.
    pub erase: Time,
}

/// The programs of one dump, those that are repeated not among them.
#[derive(Clone, Copy, Debug, PartialEq, Eq)]
pub struct Programs {
    pub pages: u64,
    pub commit: u64,
}

impl Programs {
    pub fn all(self) -> u64 {
        self.pages + self.commit
    }
}

/// One dump, written: its programs, where there are pages, and how long it takes.
#[derive(Clone, Copy, Debug, PartialEq, Eq)]
pub struct Written {
    pub programs: Option<Programs>,
    pub time: Time,
}

impl Plan {
    pub fn write(&self, bytes: u64) -> Written {
        let (programs, image) = match self.flash {
            Flash::Pages { size, time, .. } => {
                let programs = Programs { pages: bytes.div_ceil(size), commit: self.commit.programs() };
                (Some(programs), time * programs.pages)
            }
            Flash::Rate(rate) => {
                let (bytes, rate) = (u128::from(bytes), u128::from(rate));
                (None, Time((bytes * PICOS_A_SECOND).div_ceil(rate)))
            }
        };
        Written { programs, time: image + self.beside() }
    }

    /// The most bytes of an image that can be written in a time.
    pub fn most(&self, time: Time) -> u64 {
        let left = time.less(self.beside());
        let bytes = match self.flash {
            Flash::Pages { size, time: page, .. } => left.0 / page.0 * u128::from(size),
            Flash::Rate(rate) => left.0 * u128::from(rate) / PICOS_A_SECOND,
        };
        u64::try_from(bytes).unwrap_or(u64::MAX)
    }

    /// The pages that an area has to have, and that are erased ahead: the image's, and the seal's where it does not fit behind the image.
    pub fn area(&self, bytes: u64) -> Option<u64> {
        match (self.flash, self.commit) {
            (Flash::Pages { size, .. }, Commit::Seal) => {
                Some((bytes.next_multiple_of(self.unit) + self.unit).div_ceil(size))
            }
            (Flash::Pages { size, .. }, _) => Some(bytes.div_ceil(size)),
            (Flash::Rate(_), _) => None,
        }
    }

    /// What a dump takes beside the image's own pages or bytes: erasing, programs that are repeated, the commit.
    pub fn beside(&self) -> Time {
        self.erase + self.repeating() + self.committing()
    }

    pub fn committing(&self) -> Time {
        match (self.commit, self.flash) {
            (Commit::Page, _) => Time(0),
            (_, Flash::Pages { time, .. }) => self.commit_time.unwrap_or(time),
            (_, Flash::Rate(_)) => self.commit_time.unwrap_or_default(),
        }
    }

    pub fn repeating(&self) -> Time {
        match self.flash {
            Flash::Pages { time, repeats, .. } => time * repeats,
            Flash::Rate(_) => Time(0),
        }
    }
}

#[cfg(test)]
mod tests {
    use super::*;

    const MS: u128 = 1_000_000_000;

    fn pages(size: u64, time: Time, commit: Commit) -> Plan {
        Plan { flash: Flash::Pages { size, time, repeats: 0 }, commit, commit_time: None, unit: SEAL, erase: Time(0) }
    }

    /// README's client: 4,648 bytes in pages of 256.
    #[test]
    fn the_commit_is_a_program_of_its_own() {
        let counted = |commit| pages(256, Time(1), commit).write(4648).programs.unwrap().all();
        assert_eq!([Commit::Mark, Commit::Page, Commit::Seal].map(counted), [20, 19, 20]);
    }

    /// A seal of 16 bytes fits behind 4,648 bytes in 19 pages of 256; behind 4,864 it takes a page of its own.
    #[test]
    fn a_seal_takes_a_page_where_it_does_not_fit() {
        let area = |commit, bytes| pages(256, Time(1), commit).area(bytes);
        assert_eq!((area(Commit::Seal, 4648), area(Commit::Seal, 4864)), (Some(19), Some(20)));
        assert_eq!((area(Commit::Seal, 4848), area(Commit::Seal, 4856)), (Some(19), Some(20)));
        assert_eq!(area(Commit::Mark, 4864), Some(19));
    }

    #[test]
    fn a_page_is_written_whole() {
        let plan = pages(256, Time(2 * MS), Commit::Mark);
        assert_eq!(plan.write(256).time, Time(4 * MS));
        assert_eq!(plan.write(257).time, Time(6 * MS));
        assert_eq!([1, 3, 4, 7].map(|ms| plan.most(Time(ms * MS))), [0, 0, 256, 512]);
    }

    /// 3 pages of 2 ms, one of them twice, a commit of 0.5 ms, 10 ms to erase.
    #[test]
    fn what_is_beside_the_pages() {
        let flash = Flash::Pages { size: 256, time: Time(2 * MS), repeats: 1 };
        let plan =
            Plan { flash, commit_time: Some(Time(MS / 2)), erase: Time(10 * MS), ..pages(256, Time(1), Commit::Mark) };
        assert_eq!(plan.write(600).time, Time(18 * MS + MS / 2));
        assert_eq!((plan.most(Time(18 * MS)), plan.most(Time(18 * MS + MS / 2))), (512, 768));
        let whole = Plan { commit: Commit::Page, ..plan };
        assert_eq!(whole.write(600).time, Time(18 * MS));
    }

    #[test]
    fn what_fits_is_the_most_that_fits() {
        let rate =
            |rate, commit_time| Plan { flash: Flash::Rate(rate), commit_time, ..pages(1, Time(1), Commit::Mark) };
        let plans = [
            pages(100, Time(7), Commit::Mark),
            pages(100, Time(7), Commit::Page),
            rate(3_000_000_000, None),
            rate(7, Some(Time(5))),
        ];
        for plan in plans {
            for time in [0, 1, 6, 7, 8, 700, 12_345].map(Time) {
                let most = plan.most(time);
                assert!(most == 0 || plan.write(most).time <= time);
                assert!(plan.write(most + 1).time > time);
            }
        }
    }
}
