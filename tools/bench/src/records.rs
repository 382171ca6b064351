//! The library's records from the words of a job, and back.

use khsaemudol::Refusal;

/// The records at the front of a job, as many as its count says; the job carries at most so many, and the others are empty.
pub fn given<R, const N: usize>(words: &[i32], carried: usize) -> Vec<R>
where
    R: TryFrom<[i32; N], Error = Refusal> + Clone + Default,
{
    let count = words[1] as usize;
    let record = |words: &[i32]| {
        let words: [i32; N] = words.try_into().expect("a chunk is a record");
        R::try_from(words).expect("a job's words are those of their fields")
    };
    let carried = words[2..].chunks_exact(N).take(count.min(carried));
    let mut records: Vec<R> = carried.map(record).collect();
    records.resize(count, R::default());
    records
}

/// The words of records, behind their count.
pub fn words<R: Copy + Into<[i32; N]>, const N: usize>(count: usize, records: &[R]) -> Vec<i32> {
    let mut words = vec![count as i32];
    words.extend(records.iter().flat_map(|record| (*record).into()));
    words
}
