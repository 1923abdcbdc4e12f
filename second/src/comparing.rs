//! One comparison of two tables: it is done in the library and by this program's own rules, and held to the stored
//! routes of both.

use crate::calls::{Comparison, Lending};
use crate::differences::{answer_differences, Side};
use crate::library::{Beside, Library, MARGIN};
use crate::pair::{compare_lent, same, with_margins, Difference, Pair};
use crate::told::{dotted, Answer};

/// How many bytes a difference takes in the list.
pub const BYTES: usize = 16;

/// A prefix at which two tables differ, as the list tells it: length, prefix, and the marks of the two.
pub type Words = [u32; 4];

/// What a comparison is answered, and the list that it leaves.
pub struct Compared {
    pub answer: u64,
    pub list: Vec<u8>,
}

impl Compared {
    pub fn refusal(&self) -> u64 {
        self.answer >> 48
    }

    /// How many differences the list has.
    pub fn count(&self) -> usize {
        (self.answer & 0xffff_ffff_ffff) as usize
    }

    /// The differences in the list.
    pub fn differences(&self) -> Vec<Words> {
        differences(&self.list, self.count())
    }
}

/// So many differences of a list, or as many as it has room for.
fn differences(list: &[u8], count: usize) -> Vec<Words> {
    let word = |bytes: &[u8]| u32::from_le_bytes([bytes[0], bytes[1], bytes[2], bytes[3]]);
    let words = |bytes: &[u8]| [0, 4, 8, 12].map(|at| word(&bytes[at..]));
    list.chunks_exact(BYTES).take(count).map(words).collect()
}

/// A difference in words.
pub fn told(words: &Words) -> String {
    let [length, prefix, first, second] = words;
    format!("{}/{length} with the marks {first} and {second}", dotted(*prefix))
}

/// Compares two tables in both, and compares the answers, the lists and all memory. The settings and what is lent may
/// be wrong.
pub fn compare(
    library: &mut Library,
    pairs: [&Pair; 2],
    comparison: &Comparison,
) -> Result<Compared, Difference> {
    let Comparison { party, first, second, offset, .. } = comparison;
    let mut list = with_margins(&comparison.list);
    let lent = MARGIN..MARGIN + comparison.list.len();
    library.beside(Beside::Differences, *offset, list.len()).copy_from_slice(&list);
    let sizes = [(Beside::Sizes, first), (Beside::SecondSizes, second)]
        .map(|(which, table)| (which, table.offsets.sizes, with_margins(table.t.d.values())));
    for (which, offset, values) in &sizes {
        library.beside(*which, *offset, values.len()).copy_from_slice(values);
    }
    let answer = library.call(first.area, first.offsets, &first.t, first.lent, comparison)?;
    let [one, two] = [side(pairs[0], first), side(pairs[1], second)];
    let ours = answer_differences(one, two, *party, &mut list[lent.clone()], pairs[0].slip);
    same("answer", Answer::to(comparison, answer), Answer::to(comparison, ours))?;
    let theirs = library.beside(Beside::Differences, *offset, list.len()).to_vec();
    let compared = Compared { answer, list: theirs[lent.clone()].to_vec() };
    let own = differences(&list[lent], compared.count());
    same_differences("own", &compared.differences(), &own)?;
    compare_lent("byte of the list", &theirs, &list)?;
    for (which, offset, values) in &sizes {
        compare_lent("value of D", library.beside(*which, *offset, values.len()), values)?;
    }
    for pair in pairs {
        pair.compare_memory(library)?;
    }
    Ok(compared)
}

/// A table as this program's own rules are lent it.
fn side<'a>(pair: &'a Pair, table: &'a Lending) -> Side<'a> {
    let Lending { t, lent, .. } = table;
    Side { t, counters: &pair.counters[MARGIN..], slots: &pair.slots[MARGIN..], lent: *lent }
}

/// Holds the differences that the library lists to somebody else's, one by one.
pub fn same_differences(whose: &str, theirs: &[Words], others: &[Words]) -> Result<(), Difference> {
    for at in 0..theirs.len().max(others.len()) {
        let [listed, other] = [theirs, others].map(|all| all.get(at).map_or("none".to_string(), told));
        if listed != other {
            let number = at + 1;
            return Err(Difference(format!("difference {number}: library {listed}, {whose} {other}")));
        }
    }
    Ok(())
}

/// Holds a comparison of two tables with right settings and sizes to the stored routes of both, where they are known.
pub fn held_to_routes(
    pairs: [&Pair; 2],
    comparison: &Comparison,
    compared: &Compared,
) -> Result<(), Difference> {
    let [Some(first), Some(second)] = pairs.map(|pair| pair.routes.as_ref()) else {
        return Ok(());
    };
    let listed = first.differences(second, comparison.party);
    if compared.refusal() == 18 {
        let short = comparison.list.len() < BYTES * listed.len();
        return same("whether the list is too short for the stored routes", true, short);
    }
    same("count, held to the stored routes", compared.count(), listed.len())?;
    same_differences("the stored routes", &compared.differences(), &listed)
}
