//! Tables lent as any words: well-formed ones are worked on, all others are refused and stay as they are.

use crate::kept;
use pasumorip::log::HEAD_BYTES;
use pasumorip::record::RECORD_BYTES;
use pasumorip::{Account, Code, Rooms, Tables};

fn run(tables: &mut Tables) -> String {
    let log = kept::read(&kept::folder().join("lent/calls.log"));
    let records = log[HEAD_BYTES..].chunks_exact(RECORD_BYTES);
    let answers: String = records
        .enumerate()
        .map(|(index, record)| format!("{} {}", index + 1, kept::printed(&tables.apply_record(record))))
        .collect();
    format!("POL 1\n{answers}end {} 0\n", (log.len() - HEAD_BYTES) / RECORD_BYTES)
}

#[test]
fn lent_tables_give_the_kept_answers() {
    let folder = kept::folder().join("lent");
    let (mut good, mut bad) = (0, 0);
    for lent in kept::files(&folder, "lent") {
        let mut tables = kept::tables(&lent);
        let before = tables.clone();
        let answers = run(&mut tables);
        if lent.file_name().is_some_and(|name| name.to_string_lossy().starts_with("good-")) {
            good += 1;
            assert_eq!(answers, kept::text(&lent.with_extension("out")), "{}", lent.display());
            assert_eq!(tables, kept::tables(&lent.with_extension("tables")), "{}", lent.display());
            assert!(tables.books().is_ok());
        } else {
            bad += 1;
            assert_eq!(answers, kept::text(&folder.join("bad.out")), "{}", lent.display());
            assert_eq!(tables, before, "{}", lent.display());
            assert_eq!(tables.books(), Err(Code::BadTables), "{}", lent.display());
        }
    }
    assert!(good > 0 && bad > 0);
}

#[test]
fn rooms_and_admin_are_judged() {
    let fresh = |stakes, offers, admin| Tables::fresh(Rooms { stakes, offers }, Account(admin)).err();
    assert_eq!(fresh(1, 1, 1), None);
    assert_eq!(fresh(1024, 512, u64::MAX), None);
    assert_eq!(fresh(1024, 512, 0), Some(Code::Malformed));
    for (stakes, offers) in [(0, 1), (1, 0), (1025, 1), (1, 513), (usize::MAX, 1), (1, usize::MAX)] {
        assert_eq!(fresh(stakes, offers, 1), Some(Code::BadTables), "{stakes} {offers}");
    }
}

#[test]
fn words_go_in_and_out_as_they_are() {
    let odd = (vec![1, 2, 3], vec![u64::MAX], vec![]);
    let tables = Tables::from_words(odd.0.clone(), odd.1.clone(), odd.2.clone());
    assert_eq!(tables.into_words(), odd);
}
